/* What the end of a thread or of a condition variable, and cancellation mean to the library's locks: lives, with SHFL_THREADS=3. */
#include <errno.h>
#include <libshfl.h>
#include <pthread.h>
#include <stdbool.h>
#include <stdint.h>
#include <unistd.h>
#include "answers.h"

static shfl_mutex_t m, other;
static shfl_rwlock_t l;
static shfl_cond_t c;
static int reached = -1, told_to; /* how far a waiter is, and how far it may go */
static bool came_through;

static int result_of(void *(*run)(void *), void *with) {
    pthread_t thread;
    void *told;
    IS(pthread_create(&thread, NULL, run, with), 0);
    IS(pthread_join(thread, &told), 0);
    return told == PTHREAD_CANCELED ? -1 : (int)(intptr_t)told;
}

/* Waits for a mutex, for a lock as a reader and on a condition variable: in a frame of its own, since those that a cancellation leaves stay poisoned for gcc's checks. */
static __attribute__((noinline)) void waits_for_all(void) {
    struct timespec soon = in_ms(CLOCK_MONOTONIC, 20), late = in_ms(CLOCK_REALTIME, 60000);
    IS(shfl_mutex_lock(&m), 0);
    IS(shfl_rwlock_rdlock(&l), 0);
    IS(shfl_rwlock_unlock(&l), 0);
    IS(shfl_mutex_timedlock(&other, &soon), ETIMEDOUT);
    for (reached = 0; told_to == 0;) IS(shfl_cond_wait(&c, &m), 0);
    for (reached = 1; told_to == 1;) IS(shfl_cond_clockwait(&c, &m, CLOCK_REALTIME, &late), 0);
    IS(shfl_mutex_unlock(&m), 0);
}

/* One that is to be cancelled, from its beginning on, goes on each time. */
static void *is_cancelled_later(void *at) {
    IS(pthread_cancel(pthread_self()), 0);
    waits_for_all();
    came_through = true;
    pthread_testcancel();
    return at;
}

/* Until somebody has found the lock taken. */
static void until_contended(const void *lock) {
    struct shfl_stat it = {0};
    for (; it.contended == 0; usleep(1000)) IS(shfl_stat(lock, &it), 0);
}

/* Who waits on the condition variable goes on, once it is so far. */
static void lets_go_on(int from) {
    for (bool there = false; !there; usleep(1000)) {
        IS(shfl_mutex_lock(&m), 0);
        there = reached == from;
        if (there) told_to = from + 1;
        if (there) IS(shfl_cond_signal(&c), 0);
        IS(shfl_mutex_unlock(&m), 0);
    }
}

static void cancellation(void) {
    pthread_t thread;
    void *told;
    IS(shfl_mutex_lock(&m) || shfl_mutex_lock(&other) || shfl_rwlock_wrlock(&l), 0);
    IS(pthread_create(&thread, NULL, is_cancelled_later, NULL), 0);
    until_contended(&m);
    IS(shfl_mutex_unlock(&m), 0);
    until_contended(&l);
    IS(shfl_rwlock_unlock(&l), 0);
    for (int k = 0; k < 2; k++) lets_go_on(k);
    IS(shfl_mutex_unlock(&other), 0);
    IS(pthread_join(thread, &told), 0);
    IS(told == PTHREAD_CANCELED && came_through, 1);
    IS(shfl_mutex_destroy(&m) || shfl_mutex_destroy(&other) || shfl_rwlock_destroy(&l) || shfl_cond_destroy(&c), 0);
}

static pthread_key_t earlier, later, always;

/* As a thread ends it uses locks, before its seat goes back and after that. */
static void uses_locks(void *at) {
    IS(shfl_mutex_lock(&m) || shfl_rwlock_rdlock(&l) || shfl_rwlock_unlock(&l) || shfl_mutex_unlock(&m), 0);
    ++*(int *)at;
}

static void *ends(void *at) {
    IS(pthread_setspecific(earlier, at) || pthread_setspecific(later, at), 0);
    return (void *)(intptr_t)shfl_thread_attr(1, 2, 3);
}

/* It is set anew each time: so it is the last one that libc calls. */
static void uses_locks_always(void *at) {
    struct timespec over = {1, 0};
    uses_locks(at);
    IS(shfl_mutex_lock(&m), 0);
    IS(shfl_cond_timedwait(&c, &m, &over), ETIMEDOUT);
    IS(shfl_mutex_unlock(&m), 0);
    IS(pthread_setspecific(always, at), 0);
}

static void *ends_last(void *at) {
    IS(pthread_setspecific(always, at), 0);
    return (void *)(intptr_t)(shfl_mutex_lock(&m) || shfl_mutex_unlock(&m));
}

static void gives_back(void *lock) { IS(shfl_mutex_unlock(lock), 0); }

static void *ends_with(void *lock) {
    static pthread_key_t key;
    IS(pthread_key_create(&key, gives_back), 0);
    IS(pthread_setspecific(key, lock), 0);
    return (void *)(intptr_t)shfl_mutex_lock(lock);
}

/* There are seats for three threads, and each that ends gives its own back, whatever its destructors do. */
static void ends_of_threads(void) {
    int count = 0;
    IS(pthread_key_create(&later, uses_locks), 0);
    for (int k = 0; k < 50; k++) IS(result_of(ends, &count), 0);
    IS(count, 100);
    IS(result_of(ends_with, &other), 0);
    IS(shfl_mutex_trylock(&other) || shfl_mutex_unlock(&other), 0);
    for (int k = 0; k < 50; k++) IS(result_of(ends, &count), 0);
    IS(pthread_key_create(&always, uses_locks_always), 0);
    for (int k = 0; k < 50; k++) IS(result_of(ends_last, &count), 0);
}

static int waiting;
static bool may_go;

static void *awaits(void *cond) {
    IS(shfl_mutex_lock(&m), 0);
    waiting++;
    while (!may_go) IS(shfl_cond_wait(cond, &m), 0);
    waiting--;
    IS(shfl_mutex_unlock(&m), 0);
    return NULL;
}

/* With the mutex, once both wait. */
static void until_both_wait(void) {
    for (bool there = false; !there; usleep(1000)) {
        IS(shfl_mutex_lock(&m), 0);
        there = waiting == 2;
        if (!there) IS(shfl_mutex_unlock(&m), 0);
    }
}

/* A condition variable is destroyed, and its memory given away, as soon as all who wait were woken, by one call or two; not sooner. */
static void ends_of_conditions(void) {
    for (int r = 0; r < 20; r++) {
        pthread_t threads[2];
        shfl_cond_t *cond = malloc(sizeof *cond);
        IS(shfl_cond_init(cond), 0);
        for (int k = 0; k < 2; k++) IS(pthread_create(&threads[k], NULL, awaits, cond), 0);
        until_both_wait();
        may_go = true;
        if (r % 2) IS(shfl_cond_signal(cond), 0);
        if (r % 2) IS(shfl_cond_destroy(cond), EBUSY);
        IS(r % 2 ? shfl_cond_signal(cond) : shfl_cond_broadcast(cond), 0);
        IS(shfl_cond_destroy(cond), 0);
        memset(cond, 0xff, sizeof *cond);
        free(cond);
        IS(shfl_mutex_unlock(&m), 0);
        for (int k = 0; k < 2; k++) IS(pthread_join(threads[k], NULL), 0);
        may_go = false;
    }
}

int main(void) {
    alarm(280);
    IS(pthread_key_create(&earlier, uses_locks), 0);
    cancellation();
    ends_of_threads();
    ends_of_conditions();
    puts("threads end and are cancelled as they may");
    return 0;
}
