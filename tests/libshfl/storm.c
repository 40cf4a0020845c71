/* Exact counts under many threads: storm THREADS ROUNDS [MOST_SECONDS]. Mutexes of three classes, readers and writers, timed calls,
 * condition variables; threads come and go. */
#include <errno.h>
#include <libshfl.h>
#include <pthread.h>
#include <stdio.h>
#include <stdlib.h>
#include <unistd.h>

#define LOCKS 4
static shfl_mutex_t mutexes[LOCKS];
static shfl_rwlock_t shared;
static long counts[LOCKS], pair[2], timed_out;
static int threads, rounds;

static shfl_mutex_t gate;
static shfl_cond_t filled, emptied;
static long queue, produced, consumed;

static void must(int told, const char *what) {
    if (told == 0) return;
    fprintf(stderr, "storm: %s answers %d\n", what, told);
    abort();
}

static void hold(int k) {
    for (volatile int spin = 0; spin < k % 64; spin++) {
    }
}

static void timed(shfl_mutex_t *mutex, long *count) {
    struct timespec soon;
    clock_gettime(CLOCK_MONOTONIC, &soon);
    soon.tv_nsec += 200000;
    if (soon.tv_nsec >= 1000000000) soon.tv_sec++, soon.tv_nsec -= 1000000000;
    int told = shfl_mutex_timedlock(mutex, &soon);
    if (told == ETIMEDOUT) {
        __atomic_fetch_add(&timed_out, 1, __ATOMIC_RELAXED);
        must(shfl_mutex_lock(mutex), "lock");
    } else {
        must(told, "timedlock");
    }
    ++*count;
    must(shfl_mutex_unlock(mutex), "unlock");
}

static void *take(void *at) {
    long k = (long)at;
    must(shfl_thread_attr((uint16_t)(k % 3), 0, 0), "attr");
    for (int r = 0; r < rounds; r++) {
        int which = (int)((k + r) % LOCKS);
        if (r % 16 == 7) {
            timed(&mutexes[which], &counts[which]);
        } else {
            if (r % 5 || shfl_mutex_trylock(&mutexes[which])) must(shfl_mutex_lock(&mutexes[which]), "lock");
            counts[which]++;
            hold(r);
            must(shfl_mutex_unlock(&mutexes[which]), "unlock");
        }
        if (r % 8 == 0) {
            must(shfl_rwlock_wrlock(&shared), "wrlock");
            pair[0]++;
            hold(r);
            pair[1]++;
        } else {
            must(shfl_rwlock_rdlock(&shared), "rdlock");
            if (pair[0] != pair[1]) abort();
        }
        must(shfl_rwlock_unlock(&shared), "rwunlock");
    }
    return NULL;
}

static void *produce(void *at) {
    (void)at;
    for (int r = 0; r < rounds; r++) {
        must(shfl_mutex_lock(&gate), "lock");
        while (queue == 4) must(shfl_cond_wait(&emptied, &gate), "wait");
        queue++;
        produced++;
        must(shfl_cond_signal(&filled), "signal");
        must(shfl_mutex_unlock(&gate), "unlock");
    }
    return NULL;
}

static void *consume(void *at) {
    (void)at;
    for (int r = 0; r < rounds; r++) {
        must(shfl_mutex_lock(&gate), "lock");
        while (queue == 0) must(shfl_cond_wait(&filled, &gate), "wait");
        queue--;
        consumed++;
        must(shfl_cond_signal(&emptied), "signal");
        must(shfl_mutex_unlock(&gate), "unlock");
    }
    return NULL;
}

/* A policy that groups all and skips nothing, replaced while threads wait. */
static void *replace(void *at) {
    const uint8_t yes[16] = {0xb7, 0, 0, 0, 1, 0, 0, 0, 0x95}, no[16] = {0xb7, 0, 0, 0, 0, 0, 0, 0, 0x95};
    (void)at;
    for (int r = 0; r < 50; r++) {
        must(shfl_class_policy(1, 1, r % 2 ? yes : no, 16, no, 16, NULL), "policy");
        usleep(500);
        if (r % 10 == 9) must(shfl_class_detach(1), "detach");
    }
    return NULL;
}

static void run(void *(*first)(void *), void *(*second)(void *)) {
    pthread_t *all = calloc((size_t)threads + 1, sizeof *all);
    for (long k = 0; k < threads; k++) must(pthread_create(&all[k], NULL, k % 2 ? second : first, (void *)k), "create");
    must(pthread_create(&all[threads], NULL, replace, NULL), "create");
    for (int k = 0; k <= threads; k++) must(pthread_join(all[k], NULL), "join");
    free(all);
}

/* Nobody uses them any more, so each is free, and ends. */
static void end_all(void) {
    struct timespec over = {1, 0};
    must(shfl_rwlock_tryrdlock(&shared) || shfl_rwlock_unlock(&shared) || shfl_rwlock_destroy(&shared), "the end of a lock for readers and writers");
    for (int k = 0; k < LOCKS; k++) must(shfl_mutex_trylock(&mutexes[k]) || shfl_mutex_unlock(&mutexes[k]) || shfl_mutex_destroy(&mutexes[k]), "the end of a mutex");
    must(shfl_mutex_timedlock(&gate, &over) || shfl_mutex_unlock(&gate) || shfl_mutex_destroy(&gate), "the end of the gate");
    must(shfl_cond_destroy(&filled) || shfl_cond_destroy(&emptied), "the end of a condition variable");
}

int main(int count, char **words) {
    threads = count > 1 ? atoi(words[1]) : 16;
    rounds = count > 2 ? atoi(words[2]) : 5000;
    alarm(count > 3 ? (unsigned)atoi(words[3]) : 60);
    for (unsigned k = 0; k < LOCKS; k++) must(shfl_mutex_init(&mutexes[k], k % 3), "init");
    must(shfl_rwlock_init(&shared, 1), "init");
    run(take, take);
    run(produce, consume);
    end_all();
    long sum = 0;
    for (int k = 0; k < LOCKS; k++) sum += counts[k];
    long wanted = (long)threads * rounds, half = (long)(threads / 2) * rounds;
    printf("%d threads: %ld of %ld holds, %ld of %ld writes, %ld of %ld handed over, %ld calls timed out\n", threads, sum, wanted, pair[1],
           (long)threads * ((rounds + 7) / 8), consumed, half, timed_out);
    return sum != wanted || pair[1] != (long)threads * ((rounds + 7) / 8) || consumed != half || produced != half || queue != 0;
}
