/* The errors of pthread's calls, form by form: run with libc's own locks, and, unchanged, under libshfl_preload.so (errors preloaded), where besides
 * what glibc leaves undefined has an answer. What kinds of mutexes there are, and what they do, is pthreads.c's. */
#define _GNU_SOURCE
#include <errno.h>
#include <pthread.h>
#include <stdbool.h>
#include <stdint.h>
#include <unistd.h>
#include "answers.h"

static bool preloaded;
static const struct timespec over = {1, 0}, before = {-1, 0}, bad = {0, 1000000000}, worse = {0, -1};

static void *other_turn(void *m) { return (void *)(intptr_t)(pthread_mutex_trylock(m) || pthread_mutex_unlock(m)); }
static void *other_try(void *m) { return (void *)(intptr_t)pthread_mutex_trylock(m); }
static void *other_unlock(void *m) { return (void *)(intptr_t)pthread_mutex_unlock(m); }
static void *other_write(void *l) { return (void *)(intptr_t)pthread_rwlock_trywrlock(l); }
static void *other_give(void *l) { return (void *)(intptr_t)pthread_rwlock_unlock(l); }

/* Another thread has the mutex. */
static void *other_deadlines(void *m) {
    struct timespec soon = in_ms(CLOCK_MONOTONIC, 20);
    IS(pthread_mutex_trylock(m), EBUSY);
    IS(pthread_mutex_clocklock(m, CLOCK_MONOTONIC, &soon), ETIMEDOUT);
    IS(pthread_mutex_clocklock(m, CLOCK_MONOTONIC, &over), ETIMEDOUT);
    IS(pthread_mutex_clocklock(m, CLOCK_REALTIME, &before), ETIMEDOUT);
    IS(pthread_mutex_clocklock(m, CLOCK_MONOTONIC, &bad), EINVAL);
    IS(pthread_mutex_clocklock(m, CLOCK_REALTIME, &worse), EINVAL);
    IS(pthread_mutex_timedlock(m, &worse), EINVAL);
    IS(pthread_mutex_clocklock(m, CLOCK_THREAD_CPUTIME_ID, &soon), EINVAL);
    return NULL;
}

static void of_type(pthread_mutex_t *m, int type) {
    pthread_mutexattr_t attr;
    IS(pthread_mutexattr_init(&attr), 0);
    IS(pthread_mutexattr_settype(&attr, type), 0);
    IS(pthread_mutex_init(m, &attr), 0);
    IS(pthread_mutexattr_destroy(&attr), 0);
}

/* A destroyed mutex is of no kind. */
static void destroyed(pthread_mutex_t *m) {
    IS(pthread_mutex_destroy(m), 0);
    IS(pthread_mutex_lock(m), EINVAL);
    IS(pthread_mutex_trylock(m), EINVAL);
    IS(pthread_mutex_timedlock(m, &over), EINVAL);
    IS(pthread_mutex_clocklock(m, CLOCK_MONOTONIC, &over), EINVAL);
    IS(pthread_mutex_unlock(m), EINVAL);
}

static void errorcheck(void) {
    pthread_mutex_t m;
    of_type(&m, PTHREAD_MUTEX_ERRORCHECK);
    IS(pthread_mutex_unlock(&m), EPERM);
    IS(pthread_mutex_clocklock(&m, CLOCK_THREAD_CPUTIME_ID, &over), EINVAL);
    IS(pthread_mutex_clocklock(&m, CLOCK_MONOTONIC, &over), 0);
    IS(beside(other_deadlines, &m), 0);
    IS(pthread_mutex_clocklock(&m, CLOCK_MONOTONIC, &over), EDEADLK);
    IS(pthread_mutex_clocklock(&m, CLOCK_REALTIME, &over), EDEADLK);
    IS(pthread_mutex_timedlock(&m, &over), EDEADLK);
    IS(beside(other_unlock, &m), EPERM);
    IS(pthread_mutex_destroy(&m), EBUSY);
    IS(pthread_mutex_unlock(&m), 0);
    destroyed(&m);
}

/* One that was taken as often as can be counted isn't taken once more, and is as it was. */
static void recursive(void) {
    pthread_mutex_t m;
    of_type(&m, PTHREAD_MUTEX_RECURSIVE);
    IS(pthread_mutex_clocklock(&m, CLOCK_MONOTONIC, &over), 0);
    IS(pthread_mutex_clocklock(&m, CLOCK_REALTIME, &over), 0);
    IS(pthread_mutex_clocklock(&m, CLOCK_THREAD_CPUTIME_ID, &over), EINVAL);
    IS(pthread_mutex_unlock(&m), 0);
    unsigned once = m.__data.__count;
    m.__data.__count = UINT32_MAX;
    IS(pthread_mutex_lock(&m), EAGAIN);
    IS(pthread_mutex_trylock(&m), EAGAIN);
    IS(pthread_mutex_timedlock(&m, &over), EAGAIN);
    IS(pthread_mutex_clocklock(&m, CLOCK_MONOTONIC, &over), EAGAIN);
    m.__data.__count = once;
    IS(beside(other_deadlines, &m), 0);
    IS(beside(other_unlock, &m), EPERM);
    IS(pthread_mutex_destroy(&m), EBUSY);
    IS(pthread_mutex_unlock(&m), 0);
    IS(pthread_mutex_unlock(&m), EPERM);
    IS(beside(other_turn, &m), 0);
}

static void normal(void) {
    pthread_mutex_t m;
    of_type(&m, PTHREAD_MUTEX_NORMAL);
    IS(pthread_mutex_lock(&m), 0);
    IS(beside(other_deadlines, &m), 0);
    IS(pthread_mutex_clocklock(&m, CLOCK_MONOTONIC, &over), ETIMEDOUT);
    IS(pthread_mutex_clocklock(&m, CLOCK_REALTIME, &before), ETIMEDOUT);
    IS(pthread_mutex_timedlock(&m, &over), ETIMEDOUT);
    if (preloaded) IS(beside(other_unlock, &m), EPERM);
    IS(pthread_mutex_unlock(&m), 0);
    if (preloaded) IS(pthread_mutex_unlock(&m), EPERM);
    destroyed(&m);
}

/* Each timed form, where this call can't be served: what it answers for a deadline that is over. */
static void timed_forms(pthread_rwlock_t *l, bool reads, int wanted) {
    struct timespec real = in_ms(CLOCK_REALTIME, 20), steady = in_ms(CLOCK_MONOTONIC, 20);
    int (*timed)(pthread_rwlock_t *, const struct timespec *) = reads ? pthread_rwlock_timedrdlock : pthread_rwlock_timedwrlock;
    int (*by)(pthread_rwlock_t *, clockid_t, const struct timespec *) = reads ? pthread_rwlock_clockrdlock : pthread_rwlock_clockwrlock;
    IS(timed(l, &real), wanted);
    IS(timed(l, &over), wanted);
    IS(timed(l, &before), wanted);
    IS(by(l, CLOCK_MONOTONIC, &steady), wanted);
    IS(by(l, CLOCK_REALTIME, &over), wanted);
    IS(by(l, CLOCK_MONOTONIC, &before), wanted);
    IS(by(l, CLOCK_THREAD_CPUTIME_ID, &steady), EINVAL);
    if (wanted != ETIMEDOUT) return;
    IS(timed(l, &bad), EINVAL);
    IS(timed(l, &worse), EINVAL);
    IS(by(l, CLOCK_MONOTONIC, &bad), EINVAL);
    IS(by(l, CLOCK_REALTIME, &worse), EINVAL);
}

static void *other_as_both(void *l) {
    timed_forms(l, true, ETIMEDOUT);
    timed_forms(l, false, ETIMEDOUT);
    IS(pthread_rwlock_tryrdlock(l), EBUSY);
    IS(pthread_rwlock_trywrlock(l), EBUSY);
    if (preloaded) IS(pthread_rwlock_unlock(l), EPERM);
    return NULL;
}

static void *other_as_writer(void *l) {
    timed_forms(l, false, ETIMEDOUT);
    IS(pthread_rwlock_trywrlock(l), EBUSY);
    IS(pthread_rwlock_timedrdlock(l, &over), 0);
    IS(pthread_rwlock_unlock(l), 0);
    return NULL;
}

static void *other_waits(void *l) {
    IS(pthread_rwlock_wrlock(l), 0);
    IS(pthread_rwlock_unlock(l), 0);
    return NULL;
}

/* A reader takes the lock again while a writer waits, so that neither waits for the other. */
static void reads_again(pthread_rwlock_t *l) {
    pthread_t writer;
    IS(pthread_rwlock_rdlock(l), 0);
    IS(pthread_create(&writer, NULL, other_waits, l), 0);
    for (int k = 0; k < 20; k++) {
        usleep(1000);
        IS(pthread_rwlock_rdlock(l), 0);
        IS(pthread_rwlock_timedrdlock(l, &over), 0);
        IS(pthread_rwlock_tryrdlock(l), 0);
        for (int times = 0; times < 3; times++) IS(pthread_rwlock_unlock(l), 0);
    }
    IS(pthread_rwlock_unlock(l), 0);
    IS(pthread_join(writer, NULL), 0);
}

static void rwlocks(void) {
    static pthread_rwlock_t l = PTHREAD_RWLOCK_INITIALIZER;
    IS(pthread_rwlock_wrlock(&l), 0);
    timed_forms(&l, true, EDEADLK);
    timed_forms(&l, false, EDEADLK);
    IS(pthread_rwlock_tryrdlock(&l), EBUSY);
    IS(pthread_rwlock_trywrlock(&l), EBUSY);
    IS(beside(other_as_both, &l), 0);
    if (preloaded) IS(pthread_rwlock_destroy(&l), EBUSY);
    IS(pthread_rwlock_unlock(&l), 0);
    if (preloaded) IS(pthread_rwlock_unlock(&l), EPERM);
    IS(pthread_rwlock_clockrdlock(&l, CLOCK_REALTIME, &over), 0);
    if (preloaded) timed_forms(&l, false, EDEADLK);
    if (preloaded) IS(pthread_rwlock_wrlock(&l), EDEADLK);
    if (preloaded) IS(beside(other_give, &l), EPERM);
    IS(beside(other_as_writer, &l), 0);
    if (preloaded) IS(pthread_rwlock_destroy(&l), EBUSY);
    IS(pthread_rwlock_unlock(&l), 0);
    IS(pthread_rwlock_clockwrlock(&l, CLOCK_MONOTONIC, &over), 0);
    IS(beside(other_write, &l), EBUSY);
    IS(pthread_rwlock_unlock(&l), 0);
    reads_again(&l);
    IS(pthread_rwlock_destroy(&l), 0);
}

static pthread_mutex_t checked = PTHREAD_ERRORCHECK_MUTEX_INITIALIZER_NP;
static pthread_cond_t cond = PTHREAD_COND_INITIALIZER;

/* Whoever doesn't have the mutex, whether or not another thread has it. */
static void *not_with_it(void *none) {
    struct timespec soon = in_ms(CLOCK_MONOTONIC, 20);
    IS(pthread_cond_wait(&cond, &checked), EPERM);
    IS(pthread_cond_timedwait(&cond, &checked, &over), EPERM);
    IS(pthread_cond_clockwait(&cond, &checked, CLOCK_MONOTONIC, &soon), EPERM);
    return none;
}

/* The mutex is one that the thread has once. */
static void waits_with(pthread_mutex_t *m) {
    struct timespec real = in_ms(CLOCK_REALTIME, 20), steady = in_ms(CLOCK_MONOTONIC, 20);
    IS(pthread_cond_timedwait(&cond, m, &real), ETIMEDOUT);
    IS(pthread_cond_timedwait(&cond, m, &before), ETIMEDOUT);
    IS(pthread_cond_clockwait(&cond, m, CLOCK_MONOTONIC, &steady), ETIMEDOUT);
    IS(pthread_cond_clockwait(&cond, m, CLOCK_REALTIME, &over), ETIMEDOUT);
    IS(pthread_cond_clockwait(&cond, m, CLOCK_MONOTONIC, &before), ETIMEDOUT);
    IS(pthread_cond_timedwait(&cond, m, &worse), EINVAL);
    IS(pthread_cond_clockwait(&cond, m, CLOCK_MONOTONIC, &bad), EINVAL);
    IS(pthread_cond_clockwait(&cond, m, CLOCK_THREAD_CPUTIME_ID, &steady), EINVAL);
    IS(beside(other_try, m), EBUSY);
    IS(pthread_mutex_unlock(m), 0);
}

static void conditions(void) {
    static pthread_mutex_t again = PTHREAD_RECURSIVE_MUTEX_INITIALIZER_NP, plain = PTHREAD_MUTEX_INITIALIZER;
    not_with_it(NULL);
    IS(pthread_mutex_lock(&checked), 0);
    IS(beside(not_with_it, NULL), 0);
    waits_with(&checked);
    IS(pthread_mutex_lock(&again), 0);
    waits_with(&again);
    IS(pthread_mutex_unlock(&again), EPERM);
    IS(pthread_mutex_lock(&plain), 0);
    waits_with(&plain);
    IS(pthread_cond_destroy(&cond), 0);
}

static pthread_mutex_t gate = PTHREAD_MUTEX_INITIALIZER, again = PTHREAD_RECURSIVE_MUTEX_INITIALIZER_NP;
static pthread_rwlock_t shared = PTHREAD_RWLOCK_INITIALIZER;
static bool came, came_through;

/* One that is to be cancelled, from its beginning on, waits for locks, and goes on each time. */
static void *is_cancelled_later(void *at) {
    struct timespec soon = in_ms(CLOCK_REALTIME, 20);
    IS(pthread_cancel(pthread_self()), 0);
    __atomic_store_n(&came, true, __ATOMIC_SEQ_CST);
    IS(pthread_mutex_lock(&gate), 0);
    IS(pthread_mutex_timedlock(&again, &soon), ETIMEDOUT);
    IS(pthread_mutex_lock(&again), 0);
    IS(pthread_rwlock_rdlock(&shared) || pthread_rwlock_unlock(&shared) || pthread_rwlock_wrlock(&shared) || pthread_rwlock_unlock(&shared), 0);
    IS(pthread_mutex_unlock(&again) || pthread_mutex_unlock(&gate), 0);
    came_through = true;
    pthread_testcancel();
    return at;
}

/* No lock is a point of cancellation. */
static void cancellation(void) {
    pthread_t thread;
    void *told;
    IS(pthread_mutex_lock(&gate) || pthread_mutex_lock(&again) || pthread_rwlock_wrlock(&shared), 0);
    IS(pthread_create(&thread, NULL, is_cancelled_later, NULL), 0);
    while (!__atomic_load_n(&came, __ATOMIC_SEQ_CST)) usleep(1000);
    usleep(50000);
    IS(pthread_mutex_unlock(&gate), 0);
    usleep(50000);
    IS(pthread_mutex_unlock(&again), 0);
    usleep(50000);
    IS(pthread_rwlock_unlock(&shared), 0);
    IS(pthread_join(thread, &told), 0);
    IS(told == PTHREAD_CANCELED && came_through, 1);
    IS(pthread_mutex_destroy(&gate) || pthread_mutex_destroy(&again) || pthread_rwlock_destroy(&shared), 0);
}

int main(int count, char **words) {
    preloaded = count > 1 && strcmp(words[1], "preloaded") == 0;
    alarm(280);
    errorcheck();
    recursive();
    normal();
    rwlocks();
    conditions();
    cancellation();
    puts("each form's errors are as POSIX words them");
    return 0;
}
