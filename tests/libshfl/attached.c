/* A class gets a policy while threads sleep outside its lock's queue: they queue then, though nobody who queues leaves the lock to them. */
#include <libshfl.h>
#include <stdbool.h>
#include <unistd.h>
#include "answers.h"

#define CLASS 5
#define THREADS 4
#define HOLD 0.0002

static shfl_mutex_t lock;
static bool may_end;
static double last[THREADS], attached_at;
static long since[THREADS];

static void *takes(void *at) {
    long k = (long)(intptr_t)at;
    while (!__atomic_load_n(&may_end, __ATOMIC_SEQ_CST)) {
        IS(shfl_mutex_lock(&lock), 0);
        last[k] = now(CLOCK_MONOTONIC);
        if (attached_at > 0 && last[k] > attached_at + 0.5) since[k]++;
        for (double until = last[k] + HOLD; now(CLOCK_MONOTONIC) < until;) {}
        IS(shfl_mutex_unlock(&lock), 0);
    }
    return NULL;
}

int main(void) {
    static const uint8_t no[16] = {0xb7, 0, 0, 0, 0, 0, 0, 0, 0x95};
    pthread_t threads[THREADS];
    alarm(100);
    IS(shfl_mutex_init(&lock, CLASS), 0);
    for (long k = 0; k < THREADS; k++) IS(pthread_create(&threads[k], NULL, takes, (void *)(intptr_t)k), 0);
    usleep(300000);
    IS(shfl_class_policy(CLASS, SHFL_PROFILE_BASE, no, sizeof no, no, sizeof no, NULL), 0);
    IS(shfl_mutex_lock(&lock), 0);
    attached_at = now(CLOCK_MONOTONIC);
    IS(shfl_mutex_unlock(&lock), 0);
    sleep(2);
    __atomic_store_n(&may_end, true, __ATOMIC_SEQ_CST);
    for (int k = 0; k < THREADS; k++) IS(pthread_join(threads[k], NULL), 0);
    for (int k = 0; k < THREADS; k++) IS(since[k] > 0, 1);
    puts("who slept when a policy came queues then");
    return 0;
}
