/* What the preload library leaves to libc: mutexes and condition variables that processes share, robust mutexes, and those that inherit priorities. Run with
 * libc's own, and, unchanged, under libshfl_preload.so (libcs preloaded), where besides each must be libc's. */
#define _GNU_SOURCE
#include <errno.h>
#include <pthread.h>
#include <stdbool.h>
#include <stdint.h>
#include <sys/mman.h>
#include <sys/wait.h>
#include <unistd.h>
#include "answers.h"

static bool preloaded;

/* The library has its number in a word that libc leaves zero, and libc's own word stays so. */
static bool is_libcs(pthread_mutex_t *m) {
    uint32_t number;
    memcpy(&number, &m->__data.__list, sizeof number);
    return !preloaded || number == 0 || m->__data.__lock != 0;
}

static void *other_try(void *m) { return (void *)(intptr_t)pthread_mutex_trylock(m); }

/* In memory that processes share: a robust mutex and a condition variable. */
struct shared { pthread_mutex_t mutex; pthread_cond_t cond; int turn; };

static struct shared *share(void) {
    struct shared *all = mmap(NULL, sizeof *all, PROT_READ | PROT_WRITE, MAP_SHARED | MAP_ANONYMOUS, -1, 0);
    pthread_mutexattr_t attr;
    pthread_condattr_t condattr;
    IS(pthread_mutexattr_init(&attr), 0);
    IS(pthread_mutexattr_setpshared(&attr, PTHREAD_PROCESS_SHARED), 0);
    IS(pthread_mutexattr_setrobust(&attr, PTHREAD_MUTEX_ROBUST), 0);
    IS(pthread_mutex_init(&all->mutex, &attr), 0);
    IS(pthread_condattr_init(&condattr), 0);
    IS(pthread_condattr_setpshared(&condattr, PTHREAD_PROCESS_SHARED), 0);
    IS(pthread_cond_init(&all->cond, &condattr), 0);
    return all;
}

static void processes(void) {
    struct shared *all = share();
    struct timespec soon = in_ms(CLOCK_REALTIME, 30);
    int status;
    pid_t child = fork();
    if (child == 0) {
        IS(pthread_mutex_lock(&all->mutex), 0);
        all->turn = 1;
        IS(pthread_cond_signal(&all->cond), 0);
        while (all->turn == 1) IS(pthread_cond_wait(&all->cond, &all->mutex), 0);
        _exit(0); /* it has the mutex */
    }
    IS(pthread_mutex_lock(&all->mutex), 0);
    IS(is_libcs(&all->mutex), 1);
    while (all->turn == 0) IS(pthread_cond_wait(&all->cond, &all->mutex), 0);
    all->turn = 2;
    IS(pthread_cond_broadcast(&all->cond), 0);
    IS(pthread_mutex_unlock(&all->mutex), 0);
    IS(waitpid(child, &status, 0) == child && status == 0, 1);
    IS(pthread_mutex_lock(&all->mutex), EOWNERDEAD);
    IS(pthread_mutex_consistent(&all->mutex), 0);
    IS(pthread_cond_timedwait(&all->cond, &all->mutex, &soon), ETIMEDOUT);
    IS(pthread_mutex_unlock(&all->mutex), 0);
    IS(pthread_cond_destroy(&all->cond), 0);
    IS(pthread_mutex_destroy(&all->mutex), 0);
}

/* A mutex that inherits priorities, under a condition variable that isn't shared. */
static void inheriting(void) {
    static pthread_cond_t cond = PTHREAD_COND_INITIALIZER;
    pthread_mutexattr_t attr;
    pthread_mutex_t m;
    struct timespec soon = in_ms(CLOCK_REALTIME, 30);
    IS(pthread_mutexattr_init(&attr), 0);
    IS(pthread_mutexattr_setprotocol(&attr, PTHREAD_PRIO_INHERIT), 0);
    IS(pthread_mutex_init(&m, &attr), 0);
    IS(pthread_mutex_lock(&m), 0);
    IS(is_libcs(&m), 1);
    IS(beside(other_try, &m), EBUSY);
    IS(pthread_cond_timedwait(&cond, &m, &soon), ETIMEDOUT);
    IS(beside(other_try, &m), EBUSY);
    IS(pthread_mutex_unlock(&m), 0);
    IS(pthread_mutex_destroy(&m), 0);
}

int main(int count, char **words) {
    preloaded = count > 1 && strcmp(words[1], "preloaded") == 0;
    alarm(280);
    processes();
    inheriting();
    puts("what processes share, and what is robust or inherits priorities, is as POSIX words it");
    return 0;
}
