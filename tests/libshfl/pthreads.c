/* pthread mutexes and locks for readers and writers as POSIX and glibc word them: run with libc's own, and, unchanged, under libshfl_preload.so
 * (pthreads preloaded), where besides each lock must be the one that it should be. */
#define _GNU_SOURCE
#include <errno.h>
#include <pthread.h>
#include <signal.h>
#include <stdbool.h>
#include <stdint.h>
#include <stdio.h>
#include <stdlib.h>
#include <string.h>
#include <sys/wait.h>
#include <time.h>
#include <unistd.h>
#include "answers.h"

static bool preloaded;

/* Under the preload the library has its number in a word that libc leaves zero, and libc's own word stays so. */
static bool is_ours(pthread_mutex_t *m) {
    uint32_t number;
    memcpy(&number, &m->__data.__list, sizeof number);
    return !preloaded || (number != 0 && m->__data.__lock == 0);
}

#define CALL(name, call, type) static void *name(void *at) { type *it = at; return (void *)(intptr_t)(call); }
CALL(other_lock, pthread_mutex_lock(it), pthread_mutex_t)
CALL(other_try, pthread_mutex_trylock(it), pthread_mutex_t)
CALL(other_unlock, pthread_mutex_unlock(it), pthread_mutex_t)
CALL(other_destroy, pthread_mutex_destroy(it), pthread_mutex_t)
CALL(other_rdtry, pthread_rwlock_tryrdlock(it), pthread_rwlock_t)
CALL(other_wrtry, pthread_rwlock_trywrlock(it), pthread_rwlock_t)
CALL(other_rdtry_unlock, pthread_rwlock_tryrdlock(it) || pthread_rwlock_unlock(it), pthread_rwlock_t)

static void *other_timed(void *at) {
    struct timespec over = {1, 0}, before = {-1, 0}, bad = {0, 1000000000}, soon = in_ms(CLOCK_REALTIME, 30);
    double begin = now(CLOCK_MONOTONIC);
    IS(pthread_mutex_timedlock(at, &soon), ETIMEDOUT);
    IS(now(CLOCK_MONOTONIC) - begin >= 0.029, 1);
    soon = in_ms(CLOCK_REALTIME, 30);
    IS(pthread_mutex_clocklock(at, CLOCK_REALTIME, &soon), ETIMEDOUT);
    begin = now(CLOCK_MONOTONIC);
    soon = in_ms(CLOCK_MONOTONIC, 30);
    IS(pthread_mutex_clocklock(at, CLOCK_MONOTONIC, &soon), ETIMEDOUT);
    IS(now(CLOCK_MONOTONIC) - begin >= 0.029, 1);
    IS(pthread_mutex_timedlock(at, &over), ETIMEDOUT);
    IS(pthread_mutex_timedlock(at, &before), ETIMEDOUT);
    IS(pthread_mutex_timedlock(at, &bad), EINVAL);
    return (void *)(intptr_t)pthread_mutex_clocklock(at, CLOCK_PROCESS_CPUTIME_ID, &soon);
}

/* What every private mutex answers, and a thread that doesn't have it. */
static void common(pthread_mutex_t *m) {
    struct timespec over = {1, 0};
    IS(pthread_mutex_lock(m), 0);
    IS(is_ours(m), 1);
    IS(beside(other_try, m), EBUSY);
    IS(beside(other_destroy, m), EBUSY);
    IS(beside(other_timed, m), EINVAL);
    IS(pthread_mutex_unlock(m), 0);
    IS(pthread_mutex_trylock(m), 0);
    IS(pthread_mutex_unlock(m), 0);
    IS(pthread_mutex_timedlock(m, &over), 0); /* at once, whatever the deadline */
    IS(pthread_mutex_unlock(m), 0);
    IS(pthread_mutex_clocklock(m, CLOCK_MONOTONIC, &over), 0);
    IS(pthread_mutex_unlock(m), 0);
}

/* A thread that takes it again waits for good. */
static void waits_for_itself(pthread_mutex_t *m) {
    int status;
    pid_t child = fork();
    if (child == 0) {
        pthread_mutex_lock(m);
        pthread_mutex_lock(m);
        _exit(1);
    }
    usleep(100000);
    IS(waitpid(child, &status, WNOHANG), 0);
    kill(child, SIGKILL);
    IS(waitpid(child, &status, 0) == child, 1);
}

static void normal(pthread_mutex_t *m) {
    struct timespec soon = in_ms(CLOCK_REALTIME, 30);
    common(m);
    IS(pthread_mutex_lock(m), 0);
    IS(pthread_mutex_trylock(m), EBUSY);
    IS(pthread_mutex_timedlock(m, &soon), ETIMEDOUT);
    soon = in_ms(CLOCK_MONOTONIC, 30);
    IS(pthread_mutex_clocklock(m, CLOCK_MONOTONIC, &soon), ETIMEDOUT);
    IS(pthread_mutex_unlock(m), 0);
    waits_for_itself(m);
    IS(pthread_mutex_destroy(m), 0);
}

static void recursive(pthread_mutex_t *m) {
    struct timespec soon = in_ms(CLOCK_REALTIME, 1000);
    common(m);
    IS(pthread_mutex_unlock(m), EPERM);
    IS(pthread_mutex_lock(m), 0);
    IS(pthread_mutex_lock(m), 0);
    IS(pthread_mutex_trylock(m), 0);
    IS(pthread_mutex_timedlock(m, &soon), 0);
    for (int k = 0; k < 3; k++) {
        IS(beside(other_unlock, m), EPERM);
        IS(pthread_mutex_unlock(m), 0);
        IS(beside(other_try, m), EBUSY);
    }
    IS(pthread_mutex_unlock(m), 0);
    IS(pthread_mutex_unlock(m), EPERM);
    IS(pthread_mutex_destroy(m), 0);
}

static void errorcheck(pthread_mutex_t *m) {
    struct timespec soon = in_ms(CLOCK_REALTIME, 1000);
    common(m);
    IS(pthread_mutex_unlock(m), EPERM);
    IS(pthread_mutex_lock(m), 0);
    IS(pthread_mutex_lock(m), EDEADLK);
    IS(pthread_mutex_trylock(m), EBUSY);
    IS(pthread_mutex_timedlock(m, &soon), EDEADLK);
    IS(beside(other_unlock, m), EPERM);
    IS(pthread_mutex_unlock(m), 0);
    IS(pthread_mutex_unlock(m), EPERM);
    IS(pthread_mutex_destroy(m), 0);
    IS(pthread_mutex_lock(m), EINVAL);
}

static void of_type(pthread_mutex_t *m, int type) {
    pthread_mutexattr_t attr;
    IS(pthread_mutexattr_init(&attr), 0);
    IS(pthread_mutexattr_settype(&attr, type), 0);
    memset(m, 0xff, sizeof *m);
    IS(pthread_mutex_init(m, &attr), 0);
}

static void mutexes(void) {
    static pthread_mutex_t zero = PTHREAD_MUTEX_INITIALIZER, adaptive = PTHREAD_ADAPTIVE_MUTEX_INITIALIZER_NP, unused, m;
    static pthread_mutex_t again = PTHREAD_RECURSIVE_MUTEX_INITIALIZER_NP, checked = PTHREAD_ERRORCHECK_MUTEX_INITIALIZER_NP;
    normal(&zero);
    normal(&adaptive);
    recursive(&again);
    errorcheck(&checked);
    of_type(&m, PTHREAD_MUTEX_NORMAL), normal(&m);
    of_type(&m, PTHREAD_MUTEX_ADAPTIVE_NP), normal(&m);
    of_type(&m, PTHREAD_MUTEX_RECURSIVE), recursive(&m);
    of_type(&m, PTHREAD_MUTEX_ERRORCHECK), errorcheck(&m);
    IS(pthread_mutex_destroy(&unused), 0);
    IS(pthread_mutex_init(&m, NULL), 0);
    IS(pthread_mutex_lock(&m), 0);
    IS(pthread_mutex_destroy(&m), EBUSY);
    IS(pthread_mutex_unlock(&m), 0);
    IS(pthread_mutex_destroy(&m), 0);
}

static void *other_readers(void *at) {
    struct timespec bad = {0, -1}, soon = in_ms(CLOCK_REALTIME, 20);
    IS(pthread_rwlock_timedrdlock(at, &soon), ETIMEDOUT);
    IS(pthread_rwlock_timedwrlock(at, &soon), ETIMEDOUT);
    soon = in_ms(CLOCK_MONOTONIC, 20);
    IS(pthread_rwlock_clockrdlock(at, CLOCK_MONOTONIC, &soon), ETIMEDOUT);
    soon = in_ms(CLOCK_REALTIME, 20);
    IS(pthread_rwlock_clockwrlock(at, CLOCK_REALTIME, &soon), ETIMEDOUT);
    IS(pthread_rwlock_timedrdlock(at, &bad), EINVAL);
    return (void *)(intptr_t)pthread_rwlock_clockwrlock(at, CLOCK_PROCESS_CPUTIME_ID, &soon);
}

static void rwlock(pthread_rwlock_t *l) {
    IS(pthread_rwlock_rdlock(l), 0);
    IS(pthread_rwlock_rdlock(l), 0); /* again */
    IS(pthread_rwlock_tryrdlock(l), 0);
    IS(pthread_rwlock_trywrlock(l), EBUSY);
    IS(beside(other_rdtry_unlock, l), 0);
    IS(beside(other_wrtry, l), EBUSY);
    for (int k = 0; k < 3; k++) IS(pthread_rwlock_unlock(l), 0);
    IS(pthread_rwlock_wrlock(l), 0);
    IS(pthread_rwlock_rdlock(l), EDEADLK);
    IS(pthread_rwlock_wrlock(l), EDEADLK);
    IS(beside(other_rdtry, l), EBUSY);
    IS(beside(other_wrtry, l), EBUSY);
    IS(beside(other_readers, l), EINVAL);
    IS(pthread_rwlock_unlock(l), 0);
    struct timespec over = {1, 0};
    IS(pthread_rwlock_timedwrlock(l, &over), 0);
    IS(pthread_rwlock_unlock(l), 0);
    IS(pthread_rwlock_clockrdlock(l, CLOCK_MONOTONIC, &over), 0);
    IS(pthread_rwlock_unlock(l), 0);
    IS(pthread_rwlock_destroy(l), 0);
}

static void rwlocks(void) {
    static pthread_rwlock_t zero = PTHREAD_RWLOCK_INITIALIZER, writers = PTHREAD_RWLOCK_WRITER_NONRECURSIVE_INITIALIZER_NP, l;
    pthread_rwlockattr_t attr;
    rwlock(&zero);
    (void)writers;
    memset(&l, 0xff, sizeof l);
    IS(pthread_rwlock_init(&l, NULL), 0);
    rwlock(&l);
    IS(pthread_rwlockattr_init(&attr), 0);
    IS(pthread_rwlockattr_setpshared(&attr, PTHREAD_PROCESS_SHARED), 0);
    IS(pthread_rwlock_init(&l, &attr), 0);
    rwlock(&l);
    IS(pthread_rwlock_wrlock(&writers), 0);
    IS(beside(other_wrtry, &writers), EBUSY);
    IS(pthread_rwlock_unlock(&writers), 0);
}

/* The child of a fork may use locks that were free, and has those that its thread had. */
static void forks(void) {
    static pthread_mutex_t was_free, was_held, again = PTHREAD_RECURSIVE_MUTEX_INITIALIZER_NP;
    int status;
    IS(pthread_mutex_lock(&was_held), 0);
    IS(pthread_mutex_lock(&was_free), 0);
    IS(pthread_mutex_unlock(&was_free), 0);
    pid_t child = fork();
    if (child == 0) {
        IS(pthread_mutex_lock(&was_free), 0);
        IS(beside(other_try, &was_held), EBUSY);
        IS(pthread_mutex_unlock(&was_free), 0);
        IS(pthread_mutex_unlock(&was_held), 0);
        IS(beside(other_lock, &was_held), 0);
        IS(pthread_mutex_lock(&again), 0);
        _exit(pthread_mutex_trylock(&was_held) != EBUSY);
    }
    IS(waitpid(child, &status, 0) == child && status == 0, 1);
    IS(pthread_mutex_unlock(&was_held), 0);
}

int main(int count, char **words) {
    preloaded = count > 1 && strcmp(words[1], "preloaded") == 0;
    alarm(280);
    mutexes();
    rwlocks();
    forks();
    puts("mutexes, locks for readers and writers, and forks are as POSIX words them");
    return 0;
}
