/* Each function of libshfl.h and each error that it answers, as POSIX words them for its own. */
#include <errno.h>
#include <libshfl.h>
#include <pthread.h>
#include <stdio.h>
#include <stdlib.h>
#include <string.h>
#include <unistd.h>
#include "answers.h"

#define CALL(name, call, type) static void *name(void *at) { type *it = at; return (void *)(intptr_t)(call); }
CALL(other_try, shfl_mutex_trylock(it), shfl_mutex_t)
CALL(other_unlock, shfl_mutex_unlock(it), shfl_mutex_t)
CALL(other_destroy, shfl_mutex_destroy(it), shfl_mutex_t)
CALL(other_rdtry, shfl_rwlock_tryrdlock(it), shfl_rwlock_t)
CALL(other_wrtry, shfl_rwlock_trywrlock(it), shfl_rwlock_t)
CALL(other_rdtry_unlock, shfl_rwlock_tryrdlock(it) || shfl_rwlock_unlock(it), shfl_rwlock_t)

static void *other_timed(void *at) {
    struct timespec soon = in_ms(CLOCK_MONOTONIC, 30);
    return (void *)(intptr_t)shfl_mutex_timedlock(at, &soon);
}

static void *other_clock(void *at) {
    struct timespec soon = in_ms(CLOCK_REALTIME, 30), over = {1, 0}, before = {-1, 0}, bad = {0, 1000000000};
    IS(shfl_mutex_clocklock(at, CLOCK_REALTIME, &soon), ETIMEDOUT);
    IS(shfl_mutex_timedlock(at, &over), ETIMEDOUT);
    IS(shfl_mutex_timedlock(at, &before), ETIMEDOUT);
    IS(shfl_mutex_timedlock(at, &bad), EINVAL);
    IS(shfl_mutex_timedlock(at, NULL), EINVAL);
    IS(shfl_mutex_clocklock(at, CLOCK_REALTIME, NULL), EINVAL);
    IS(shfl_mutex_clocklock(at, CLOCK_REALTIME, &bad), EINVAL);
    return (void *)(intptr_t)shfl_mutex_clocklock(at, CLOCK_PROCESS_CPUTIME_ID, &soon);
}

static void mutexes(void) {
    static shfl_mutex_t m, other;
    static const shfl_mutex_t zero = SHFL_MUTEX_INIT;
    IS((int)sizeof m <= 16, 1);
    IS(shfl_mutex_destroy(&m), 0);
    IS(shfl_mutex_init(&m, SHFL_CLASSES), EINVAL);
    IS(shfl_mutex_init(&m, 0), 0);
    IS(shfl_mutex_init(&m, SHFL_CLASSES - 1), 0);
    IS(shfl_mutex_unlock(&m), EPERM);
    IS(shfl_mutex_lock(&m), 0);
    IS(shfl_mutex_lock(&m), EDEADLK);
    IS(shfl_mutex_trylock(&m), EBUSY);
    IS(shfl_mutex_trylock(&other), 0);
    IS(beside(other_try, &m), EBUSY);
    IS(beside(other_unlock, &m), EPERM);
    IS(beside(other_destroy, &m), EBUSY);
    IS(shfl_mutex_destroy(&m), EBUSY);
    IS(beside(other_timed, &m), ETIMEDOUT);
    IS(beside(other_clock, &m), EINVAL);
    IS(shfl_mutex_unlock(&m), 0);
    IS(shfl_mutex_unlock(&m), EPERM);
    IS(shfl_mutex_unlock(&other), 0);
    struct timespec over = {1, 0};
    IS(shfl_mutex_timedlock(&m, &over), 0); /* at once, whatever the deadline */
    IS(shfl_mutex_timedlock(&m, &over), EDEADLK);
    IS(shfl_mutex_clocklock(&m, CLOCK_REALTIME, &over), EDEADLK);
    IS(shfl_mutex_unlock(&m), 0);
    IS(shfl_mutex_clocklock(&m, CLOCK_REALTIME, &over), 0);
    IS(shfl_mutex_unlock(&m), 0);
    IS(shfl_mutex_destroy(&m), 0);
    IS(memcmp(&m, &zero, sizeof m), 0);
    IS(shfl_mutex_lock(&m), 0);
    IS(shfl_mutex_unlock(&m), 0);
    m.number = 1u << 25; /* bytes that were never a lock */
    IS(shfl_mutex_lock(&m), EINVAL);
    IS(shfl_mutex_trylock(&m), EINVAL);
    IS(shfl_mutex_timedlock(&m, &over), EINVAL);
    IS(shfl_mutex_unlock(&m), EPERM);
    IS(shfl_mutex_destroy(&m), EINVAL);
}

static void *other_readers(void *at) {
    struct timespec soon = in_ms(CLOCK_MONOTONIC, 30), later = in_ms(CLOCK_REALTIME, 30), over = {1, 0}, bad = {0, -1};
    IS(shfl_rwlock_timedrdlock(at, &over), ETIMEDOUT);
    IS(shfl_rwlock_timedwrlock(at, &over), ETIMEDOUT);
    IS(shfl_rwlock_timedrdlock(at, NULL), EINVAL);
    IS(shfl_rwlock_timedwrlock(at, &bad), EINVAL);
    IS(shfl_rwlock_clockrdlock(at, CLOCK_MONOTONIC, &bad), EINVAL);
    IS(shfl_rwlock_clockwrlock(at, CLOCK_PROCESS_CPUTIME_ID, &later), EINVAL);
    IS(shfl_rwlock_timedrdlock(at, &soon), ETIMEDOUT);
    IS(shfl_rwlock_clockrdlock(at, CLOCK_REALTIME, &later), ETIMEDOUT);
    IS(shfl_rwlock_timedwrlock(at, &soon), ETIMEDOUT);
    return (void *)(intptr_t)shfl_rwlock_clockwrlock(at, CLOCK_REALTIME, &later);
}

static void rwlocks(void) {
    static shfl_rwlock_t l;
    IS(shfl_rwlock_init(&l, 64), EINVAL);
    IS(shfl_rwlock_init(&l, 3), 0);
    IS(shfl_rwlock_unlock(&l), EPERM);
    IS(shfl_rwlock_rdlock(&l), 0);
    IS(shfl_rwlock_rdlock(&l), 0); /* again */
    IS(shfl_rwlock_tryrdlock(&l), 0);
    struct timespec over = {1, 0};
    IS(shfl_rwlock_timedrdlock(&l, &over), 0);
    IS(shfl_rwlock_unlock(&l), 0);
    IS(shfl_rwlock_wrlock(&l), EDEADLK);
    IS(shfl_rwlock_timedwrlock(&l, &over), EDEADLK);
    IS(shfl_rwlock_clockwrlock(&l, CLOCK_REALTIME, &over), EDEADLK);
    IS(shfl_rwlock_trywrlock(&l), EBUSY);
    IS(beside(other_rdtry_unlock, &l), 0);
    IS(beside(other_wrtry, &l), EBUSY);
    IS(shfl_rwlock_unlock(&l), 0);
    IS(shfl_rwlock_unlock(&l), 0);
    IS(shfl_rwlock_destroy(&l), EBUSY);
    IS(beside(other_wrtry, &l), EBUSY);
    IS(shfl_rwlock_unlock(&l), 0);
    IS(shfl_rwlock_unlock(&l), EPERM);
    IS(shfl_rwlock_wrlock(&l), 0);
    IS(shfl_rwlock_rdlock(&l), EDEADLK);
    IS(shfl_rwlock_wrlock(&l), EDEADLK);
    IS(shfl_rwlock_timedrdlock(&l, &over), EDEADLK);
    IS(shfl_rwlock_clockrdlock(&l, CLOCK_REALTIME, &over), EDEADLK);
    IS(shfl_rwlock_timedwrlock(&l, &over), EDEADLK);
    IS(shfl_rwlock_tryrdlock(&l), EBUSY);
    IS(shfl_rwlock_trywrlock(&l), EBUSY);
    IS(beside(other_rdtry, &l), EBUSY);
    IS(beside(other_readers, &l), ETIMEDOUT);
    IS(shfl_rwlock_unlock(&l), 0);
    IS(shfl_rwlock_destroy(&l), 0);
}

static void *other_writes(void *at) {
    IS(shfl_rwlock_wrlock(at), 0);
    IS(shfl_rwlock_unlock(at), 0);
    return NULL;
}

/* While a writer queues a new reader is refused, and one that has the lock takes it again. */
static void queued_writer(void) {
    static shfl_rwlock_t l;
    static const uint8_t no[16] = {0xb7, 0, 0, 0, 0, 0, 0, 0, 0x95};
    pthread_t writer;
    IS(shfl_class_policy(7, 1, no, 16, NULL, 0, NULL), 0);
    IS(shfl_rwlock_init(&l, 7), 0);
    IS(shfl_rwlock_rdlock(&l), 0);
    IS(pthread_create(&writer, NULL, other_writes, &l), 0);
    while (beside(other_rdtry_unlock, &l) == 0) usleep(1000);
    IS(beside(other_rdtry, &l), EBUSY);
    IS(shfl_rwlock_rdlock(&l), 0);
    IS(shfl_rwlock_tryrdlock(&l), 0);
    for (int k = 0; k < 3; k++) IS(shfl_rwlock_unlock(&l), 0);
    IS(pthread_join(writer, NULL), 0);
    IS(shfl_rwlock_destroy(&l), 0);
    IS(shfl_class_detach(7), 0);
}

static shfl_mutex_t gate;
static shfl_cond_t told;
static int turn;

static void *waits_for_turn(void *at) {
    int wanted = (int)(intptr_t)at;
    IS(shfl_mutex_lock(&gate), 0);
    while (turn != wanted) IS(shfl_cond_wait(&told, &gate), 0);
    turn++;
    IS(shfl_cond_broadcast(&told), 0);
    IS(shfl_mutex_unlock(&gate), 0);
    return NULL;
}

static void conditions(void) {
    pthread_t threads[8];
    struct timespec soon = in_ms(CLOCK_MONOTONIC, 30), later = in_ms(CLOCK_REALTIME, 30), bad = {0, -1};
    IS(shfl_cond_init(&told), 0);
    IS(shfl_cond_wait(&told, &gate), EPERM);
    IS(shfl_cond_timedwait(&told, &gate, &soon), EPERM);
    IS(shfl_cond_clockwait(&told, &gate, CLOCK_REALTIME, &later), EPERM);
    IS(shfl_mutex_lock(&gate), 0);
    IS(shfl_cond_timedwait(&told, &gate, &soon), ETIMEDOUT);
    IS(shfl_mutex_trylock(&gate), EBUSY); /* it has the mutex again */
    IS(shfl_cond_clockwait(&told, &gate, CLOCK_REALTIME, &later), ETIMEDOUT);
    IS(shfl_cond_timedwait(&told, &gate, &bad), EINVAL);
    IS(shfl_cond_timedwait(&told, &gate, NULL), EINVAL);
    IS(shfl_cond_clockwait(&told, &gate, CLOCK_REALTIME, NULL), EINVAL);
    IS(shfl_cond_clockwait(&told, &gate, CLOCK_THREAD_CPUTIME_ID, &soon), EINVAL);
    IS(shfl_cond_signal(&told), 0);
    IS(shfl_cond_broadcast(&told), 0);
    for (int k = 0; k < 8; k++) IS(pthread_create(&threads[k], NULL, waits_for_turn, (void *)(intptr_t)(8 - k)), 0);
    while (told.waiting < 8) {
        IS(shfl_mutex_unlock(&gate), 0);
        usleep(1000);
        IS(shfl_mutex_lock(&gate), 0);
    }
    IS(shfl_cond_destroy(&told), EBUSY);
    turn = 1;
    IS(shfl_cond_broadcast(&told), 0);
    IS(shfl_mutex_unlock(&gate), 0);
    for (int k = 0; k < 8; k++) IS(pthread_join(threads[k], NULL), 0);
    IS(turn, 9);
    IS(shfl_cond_destroy(&told), 0);
}

static void *waits_once(void *at) {
    int *got = at;
    IS(shfl_mutex_lock(&gate), 0);
    while (turn == 0) IS(shfl_cond_wait(&told, &gate), 0);
    turn--;
    ++*got;
    IS(shfl_mutex_unlock(&gate), 0);
    return NULL;
}

/* A signal wakes one. */
static void signals(void) {
    pthread_t threads[4];
    int got = 0;
    turn = 0;
    for (int k = 0; k < 4; k++) IS(pthread_create(&threads[k], NULL, waits_once, &got), 0);
    for (int k = 0; k < 4; k++) {
        IS(shfl_mutex_lock(&gate), 0);
        turn++;
        IS(shfl_cond_signal(&told), 0);
        IS(shfl_mutex_unlock(&gate), 0);
    }
    for (int k = 0; k < 4; k++) IS(pthread_join(threads[k], NULL), 0);
    IS(got, 4);
}

static void *own_attributes(void *at) {
    (void)at;
    return (void *)(intptr_t)shfl_thread_attr(1, 2, 3);
}

static void classes(void) {
    struct shfl_fault fault;
    const uint8_t odd[9] = {0}, yes[16] = {0xb7, 0, 0, 0, 1, 0, 0, 0, 0x95};
    IS(shfl_class_policy(64, 1, NULL, 0, NULL, 0, NULL), EINVAL);
    IS(shfl_class_policy(1, 0, NULL, 0, NULL, 0, NULL), EINVAL);
    IS(shfl_class_policy(1, 3, NULL, 0, NULL, 0, NULL), EINVAL);
    IS(shfl_class_policy(1, 1, NULL, 8, NULL, 0, NULL), EINVAL);
    IS(shfl_class_policy(1, 1, odd, 9, NULL, 0, &fault), EINVAL);
    IS(fault.fault, 2);
    IS(fault.hook, 0);
    IS(shfl_class_policy(1, 1, yes, 16, odd, 9, &fault), EINVAL);
    IS(fault.hook, 1);
    IS(shfl_class_policy(1, 1, yes, 16, yes, 16, &fault), 0);
    IS(fault.fault, 0);
    IS(shfl_class_detach(64), EINVAL);
    IS(shfl_class_detach(1), 0);
    IS(beside(own_attributes, NULL), 0);
}

int main(void) {
    mutexes();
    rwlocks();
    queued_writer();
    conditions();
    signals();
    classes();
    puts("each call, and each error, is as documented");
    return 0;
}
