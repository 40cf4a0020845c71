/* pthread condition variables, cancellation, and forks of a process whose other threads contend: with libc's own locks, and, unchanged, under
 * libshfl_preload.so (conditions ROUNDS preloaded). */
#define _GNU_SOURCE
#include <errno.h>
#include <pthread.h>
#include <stdbool.h>
#include <stdint.h>
#include <stdio.h>
#include <stdlib.h>
#include <string.h>
#include <sys/wait.h>
#include <time.h>
#include <unistd.h>
#include "answers.h"

static int rounds;
static pthread_mutex_t gate = PTHREAD_MUTEX_INITIALIZER;
static pthread_cond_t filled = PTHREAD_COND_INITIALIZER, emptied;
static long queue, consumed, waiting, woken;
static pthread_t took; /* the one that used up the last of what was woken */

/* A wait whose deadline passes takes as long as it should, by the clock that it should, and has the mutex again. */
static void times_out(pthread_cond_t *c, pthread_mutex_t *m, int clock) {
    struct timespec soon = in_ms(clock, 30);
    double begin = now(CLOCK_MONOTONIC);
    int told;
    do told = pthread_cond_timedwait(c, m, &soon); while (told == 0);
    IS(told, ETIMEDOUT);
    IS(now(CLOCK_MONOTONIC) - begin >= 0.029 && now(CLOCK_MONOTONIC) - begin < 5, 1);
    IS(pthread_mutex_trylock(m), EBUSY);
}

static void deadlines(void) {
    static pthread_mutex_t m = PTHREAD_ERRORCHECK_MUTEX_INITIALIZER_NP;
    static pthread_cond_t real = PTHREAD_COND_INITIALIZER;
    pthread_condattr_t attr;
    pthread_cond_t steady;
    struct timespec bad = {0, 1000000000}, over = {1, 0}, soon = in_ms(CLOCK_MONOTONIC, 30);
    memset(&steady, 0xff, sizeof steady);
    IS(pthread_condattr_init(&attr), 0);
    IS(pthread_condattr_setclock(&attr, CLOCK_MONOTONIC), 0);
    IS(pthread_cond_init(&steady, &attr), 0);
    IS(pthread_cond_wait(&real, &m), EPERM);
    IS(pthread_mutex_lock(&m), 0);
    times_out(&real, &m, CLOCK_REALTIME);
    times_out(&steady, &m, CLOCK_MONOTONIC);
    IS(pthread_cond_timedwait(&steady, &m, &over), ETIMEDOUT);
    IS(pthread_cond_timedwait(&real, &m, &bad), EINVAL);
    IS(pthread_cond_clockwait(&real, &m, CLOCK_PROCESS_CPUTIME_ID, &over), EINVAL);
    IS(pthread_cond_clockwait(&real, &m, CLOCK_MONOTONIC, &soon), ETIMEDOUT);
    soon = in_ms(CLOCK_REALTIME, 30);
    IS(pthread_cond_clockwait(&steady, &m, CLOCK_REALTIME, &soon), ETIMEDOUT);
    IS(pthread_cond_signal(&real), 0);
    IS(pthread_cond_broadcast(&steady), 0);
    IS(pthread_mutex_unlock(&m), 0);
    IS(pthread_cond_destroy(&steady), 0);
}

static void *produce(void *at) {
    for (int r = 0; r < rounds; r++) {
        IS(pthread_mutex_lock(&gate), 0);
        while (queue == 4) IS(pthread_cond_wait(&emptied, &gate), 0);
        queue++;
        IS(pthread_cond_signal(&filled), 0);
        IS(pthread_mutex_unlock(&gate), 0);
    }
    return at;
}

static void *consume(void *at) {
    for (int r = 0; r < rounds; r++) {
        IS(pthread_mutex_lock(&gate), 0);
        while (queue == 0) {
            struct timespec soon = in_ms(CLOCK_REALTIME, 5000);
            int told = r % 3 ? pthread_cond_wait(&filled, &gate) : pthread_cond_clockwait(&filled, &gate, CLOCK_REALTIME, &soon);
            if (told != ETIMEDOUT) IS(told, 0);
        }
        queue--;
        consumed++;
        if (r % 2) IS(pthread_cond_broadcast(&emptied), 0);
        else IS(pthread_cond_signal(&emptied), 0);
        IS(pthread_mutex_unlock(&gate), 0);
    }
    return at;
}

static void hand_over(void) {
    pthread_t threads[8];
    for (int k = 0; k < 8; k++) IS(pthread_create(&threads[k], NULL, k % 2 ? consume : produce, NULL), 0);
    for (int k = 0; k < 8; k++) IS(pthread_join(threads[k], NULL), 0);
    IS(consumed == 4L * rounds && queue == 0, 1);
}

/* A handler of a cancelled thread has the mutex, which it gives back. */
static void gives_back(void *at) {
    bool *handled = at;
    *handled = true;
    waiting--;
    IS(pthread_mutex_trylock(&gate), EBUSY);
    IS(pthread_mutex_unlock(&gate), 0);
}

static void *waits(void *at) {
    struct timespec late = in_ms(CLOCK_REALTIME, 60000);
    bool handled = false;
    IS(pthread_mutex_lock(&gate), 0);
    waiting++;
    pthread_cleanup_push(gives_back, &handled);
    while (woken == 0) IS(at ? pthread_cond_timedwait(&filled, &gate, &late) : pthread_cond_wait(&filled, &gate), 0);
    woken--;
    took = pthread_self();
    pthread_cleanup_pop(0);
    waiting--;
    IS(pthread_mutex_unlock(&gate), 0);
    return NULL;
}

static void until_waiting(long wanted) {
    for (bool there = false; !there;) {
        IS(pthread_mutex_lock(&gate), 0);
        there = waiting == wanted;
        IS(pthread_mutex_unlock(&gate), 0);
        usleep(1000);
    }
}

static int result_of(pthread_t thread) {
    void *told;
    IS(pthread_join(thread, &told), 0);
    return told == PTHREAD_CANCELED;
}

static void *waits_cancelled(void *at) {
    IS(pthread_cancel(pthread_self()), 0);
    return waits(at);
}

static void *waits_uncancelled(void *at) {
    IS(pthread_setcancelstate(PTHREAD_CANCEL_DISABLE, NULL), 0);
    return waits(at);
}

static void *(*const ways[])(void *) = {waits, waits_cancelled, waits_uncancelled};

static void cancellations(void) {
    for (intptr_t k = 0; k < 6; k++) {
        pthread_t thread;
        IS(pthread_create(&thread, NULL, ways[k / 2], (void *)(k % 2)), 0);
        if (k / 2 != 1) until_waiting(1);
        usleep(2000);
        if (k / 2 != 1) IS(pthread_cancel(thread), 0);
        if (k / 2 == 2) {
            IS(pthread_mutex_lock(&gate), 0);
            woken = 1;
            IS(pthread_cond_signal(&filled), 0);
            IS(pthread_mutex_unlock(&gate), 0);
        }
        IS(result_of(thread), k / 2 != 2);
        until_waiting(0);
    }
}

/* Of two that wait one is signalled, and one is cancelled at the same time: the signal isn't lost. Whether the first one was woken it says itself:
 * glibc may call a thread cancelled whose function has returned, where pthread_cancel came as it left its wait. */
static void cancelled_with_signal(void) {
    for (int r = 0; r < 10; r++) {
        pthread_t first, second;
        IS(pthread_create(&first, NULL, waits, NULL), 0);
        until_waiting(1);
        IS(pthread_create(&second, NULL, waits, NULL), 0);
        until_waiting(2);
        IS(pthread_mutex_lock(&gate), 0);
        woken = 1;
        took = pthread_self();
        IS(pthread_mutex_unlock(&gate), 0);
        if (r % 2) IS(pthread_cancel(first), 0);
        IS(pthread_cond_signal(&filled), 0);
        if (r % 2 == 0) IS(pthread_cancel(first), 0);
        IS(pthread_join(first, NULL), 0);
        IS(pthread_mutex_lock(&gate), 0);
        bool first_took = pthread_equal(took, first);
        if (first_took) woken = 1;
        IS(pthread_mutex_unlock(&gate), 0);
        if (first_took) IS(pthread_cond_signal(&filled), 0);
        IS(result_of(second), 0);
        IS(woken == 0 && waiting == 0, 1);
    }
}

/* A condition variable that is destroyed, and its memory given away, as soon as its waiters were woken. */
static void *waits_on_heap(void *at) {
    pthread_cond_t *cond = at;
    IS(pthread_mutex_lock(&gate), 0);
    waiting++;
    while (woken == 0) IS(pthread_cond_wait(cond, &gate), 0);
    waiting--;
    IS(pthread_mutex_unlock(&gate), 0);
    return NULL;
}

static void destroyed_at_once(void) {
    for (int r = 0; r < 5; r++) {
        pthread_t threads[4];
        pthread_cond_t *cond = malloc(sizeof *cond);
        IS(pthread_cond_init(cond, NULL), 0);
        for (int k = 0; k < 4; k++) IS(pthread_create(&threads[k], NULL, waits_on_heap, cond), 0);
        until_waiting(4);
        IS(pthread_mutex_lock(&gate), 0);
        woken = 1;
        IS(pthread_cond_broadcast(cond), 0);
        IS(pthread_cond_destroy(cond), 0);
        memset(cond, 0xff, sizeof *cond);
        free(cond);
        IS(pthread_mutex_unlock(&gate), 0);
        for (int k = 0; k < 4; k++) IS(pthread_join(threads[k], NULL), 0);
        woken = 0;
    }
}

static pthread_mutex_t hot = PTHREAD_MUTEX_INITIALIZER;
static pthread_rwlock_t read_mostly = PTHREAD_RWLOCK_INITIALIZER;
static long holds, pair[2];
static bool ended, preloaded;

static void *contend(void *at) {
    for (int r = 0; !__atomic_load_n(&ended, __ATOMIC_RELAXED); r++) {
        IS(pthread_mutex_lock(&hot), 0);
        holds++;
        IS(pthread_mutex_unlock(&hot), 0);
        IS(r % 8 ? pthread_rwlock_rdlock(&read_mostly) : pthread_rwlock_wrlock(&read_mostly), 0);
        if (r % 8 == 0) pair[0]++, pair[1]++;
        IS(pair[0] == pair[1], 1);
        IS(pthread_rwlock_unlock(&read_mostly), 0);
    }
    return at;
}

/* Where readers waited at the fork, libc's own lock for readers and writers waits in the child for them: it is tried under the preload alone. */
static void take_both(void) {
    IS(pthread_mutex_lock(&hot), 0);
    if (preloaded) IS(pthread_rwlock_wrlock(&read_mostly), 0);
}

static void give_both(void) {
    if (preloaded) IS(pthread_rwlock_unlock(&read_mostly), 0);
    IS(pthread_mutex_unlock(&hot), 0);
}

static void *take_and_give(void *at) {
    for (int r = 0; r < 50; r++) take_both(), holds++, give_both();
    return at;
}

/* Handlers of the fork hold the locks that the other threads contend for, and the child uses them. */
static void forks(void) {
    pthread_t threads[4];
    IS(pthread_atfork(take_both, give_both, give_both), 0);
    for (int k = 0; k < 4; k++) IS(pthread_create(&threads[k], NULL, contend, NULL), 0);
    for (int r = 0; r < 10; r++) {
        int status;
        pid_t child = fork();
        if (child == 0) {
            long before = holds;
            pthread_t two[2];
            alarm(100);
            for (int k = 0; k < 2; k++) IS(pthread_create(&two[k], NULL, take_and_give, NULL), 0);
            for (int k = 0; k < 2; k++) IS(pthread_join(two[k], NULL), 0);
            _exit(holds != before + 100);
        }
        IS(waitpid(child, &status, 0) == child && status == 0, 1);
    }
    __atomic_store_n(&ended, true, __ATOMIC_RELAXED);
    for (int k = 0; k < 4; k++) IS(pthread_join(threads[k], NULL), 0);
}

/* As many wait as the library can count: one more wakes without a signal. */
static void too_many(void) {
    static pthread_cond_t c = PTHREAD_COND_INITIALIZER;
    uint32_t *waits_there = (uint32_t *)(void *)&c + 1;
    *waits_there = 65535;
    IS(pthread_mutex_lock(&gate) || pthread_cond_wait(&c, &gate) || pthread_mutex_unlock(&gate) || *waits_there != 65535, 0);
    *waits_there = 0;
}

int main(int count, char **words) {
    rounds = count > 1 ? atoi(words[1]) : 1000;
    preloaded = count > 2 && strcmp(words[2], "preloaded") == 0;
    alarm(280);
    deadlines();
    hand_over();
    cancellations();
    cancelled_with_signal();
    destroyed_at_once();
    if (preloaded) too_many();
    forks();
    puts("condition variables, cancellation and forks are as POSIX words them");
    return 0;
}
