/* The lock of include/shfl.h beside pthread's mutex, in one run: alone, four threads with holds of one microsecond, and the memory of
 * a lock of 64 passes. Each figure is the median of its repeats, and beside it the worst. */
#define _GNU_SOURCE
#include "shfl.h"
#include <limits.h>
#include <malloc.h>
#include <pthread.h>
#include <stdio.h>
#include <stdlib.h>
#include <time.h>
#include "timing.h"

enum { PAIRS = 20000, REPEATS = 300, THREADS = 4, RUNS = 9 };

static const char *const forms[] = {"spin", "rw", "park", "rw park"};
static struct shfl_pass passes[64];
static pthread_mutex_t mutex = PTHREAD_MUTEX_INITIALIZER;
static volatile long counter;

/* Nanoseconds a pair of calls, of each repeat. */
#define EACH_OF(times, lock, unlock)                                                                                                       \
    for (int r = 0; r < REPEATS; r++) {                                                                                                    \
        double before = seconds();                                                                                                         \
        for (int k = 0; k < PAIRS; k++) {                                                                                                  \
            lock;                                                                                                                          \
            counter++;                                                                                                                     \
            unlock;                                                                                                                        \
        }                                                                                                                                  \
        times[r] = (seconds() - before) * 1e9 / PAIRS;                                                                                     \
    }                                                                                                                                      \
    qsort(times, REPEATS, sizeof times[0], by_size);

/* In a process that never had a second thread glibc's mutex uses no atomic operation. */
static void alone(const char *process) {
    static const uint64_t attr;
    static double ours[REPEATS], theirs[REPEATS];
    for (uint8_t form = SHFL_SPIN; form <= SHFL_RW_PARK; form++) {
        if (!shfl_open(&attr, 1, form, 1024, passes, 1)) exit(2);
        EACH_OF(ours, shfl_lock(passes), shfl_unlock(passes))
        EACH_OF(theirs, pthread_mutex_lock(&mutex), pthread_mutex_unlock(&mutex))
        shfl_close(passes);
        printf("alone, %s, %-8s %6.1f ns, worst %6.1f; mutex %6.1f, worst %6.1f; %.2f times\n", process, forms[form], ours[REPEATS / 2],
               ours[REPEATS - 1], theirs[REPEATS / 2], theirs[REPEATS - 1], ours[REPEATS / 2] / theirs[REPEATS / 2]);
    }
}

static _Atomic int going;
static long spins_a_microsecond;

static void hold(void) {
    for (long k = 0; k < spins_a_microsecond; k++) __asm__ volatile("");
}

static void calibrate(void) {
    double best = 1e9;
    spins_a_microsecond = 1000000;
    for (int r = 0; r < 20; r++) {
        double before = seconds();
        hold();
        double took = seconds() - before;
        if (took < best) best = took;
    }
    spins_a_microsecond = (long)(1000000 * 1e-6 / best);
}

struct worker { int kind; unsigned me; long done; };

static void *work(void *arg) {
    struct worker *own = arg;
    while (!going) sched_yield();
    while (going == 1) {
        switch (own->kind) {
        case 0: shfl_lock(&passes[own->me]); break;
        case 1: shfl_lock_yielding(&passes[own->me]); break;
        default: pthread_mutex_lock(&mutex);
        }
        hold();
        counter++;
        if (own->kind < 2) shfl_unlock(&passes[own->me]);
        else pthread_mutex_unlock(&mutex);
        own->done++;
    }
    return NULL;
}

/* Locks a second, with the least and the most of one thread. */
static double crowd(int kind, long *least, long *most) {
    pthread_t threads[THREADS];
    struct worker workers[THREADS];
    counter = 0;
    going = 0;
    for (unsigned k = 0; k < THREADS; k++) {
        workers[k] = (struct worker){kind, k, 0};
        if (pthread_create(&threads[k], NULL, work, &workers[k])) exit(2);
    }
    double before = seconds();
    going = 1;
    nanosleep(&(struct timespec){0, 300000000}, NULL);
    going = 2;
    for (unsigned k = 0; k < THREADS; k++) pthread_join(threads[k], NULL);
    double took = seconds() - before;
    long all = 0;
    *least = *most = workers[0].done;
    for (unsigned k = 0; k < THREADS; k++) {
        all += workers[k].done;
        if (workers[k].done < *least) *least = workers[k].done;
        if (workers[k].done > *most) *most = workers[k].done;
    }
    if (all != counter) exit(1);
    return (double)all / took;
}

static void crowds(void) {
    static const uint64_t attrs[THREADS];
    static const char *const kinds[] = {"sleeping", "yielding", "mutex"};
    calibrate();
    for (uint8_t form = SHFL_SPIN; form <= SHFL_RW_PARK; form++) {
        for (int kind = 0; kind < 3; kind++) {
            double rates[RUNS];
            long least = LONG_MAX, most = 0;
            if (!shfl_open(attrs, THREADS, form, 1024, passes, THREADS)) exit(2);
            for (int r = 0; r < RUNS; r++) {
                long low, high;
                rates[r] = crowd(kind, &low, &high);
                if (low < least) least = low;
                if (high > most) most = high;
            }
            for (int k = 0; k < THREADS; k++) shfl_close(&passes[k]);
            qsort(rates, RUNS, sizeof rates[0], by_size);
            printf("four threads, holds of 1 us, %-8s %-8s %9.0f locks a second, worst %9.0f, of a thread %ld to %ld\n", forms[form],
                   kinds[kind], rates[RUNS / 2], rates[0], least, most);
        }
    }
}

static void open_and_close(void) {
    static const uint64_t attrs[64];
    if (!shfl_open(attrs, 64, SHFL_SPIN, 1024, passes, 64)) exit(2);
    for (int k = 0; k < 64; k++) shfl_close(&passes[k]);
}

/* With what the allocator takes for itself: 8 bytes a block, and its rounding. c.sh turns its caches off, whose blocks it counts as used. */
static void memory(void) {
    static const uint64_t attrs[64];
    open_and_close();
    size_t before = mallinfo2().uordblks;
    if (!shfl_open(attrs, 64, SHFL_SPIN, 1024, passes, 64)) exit(2);
    size_t opened = mallinfo2().uordblks;
    for (int k = 0; k < 64; k++) shfl_close(&passes[k]);
    size_t closed = mallinfo2().uordblks;
    printf("a lock of 64 passes: %zu bytes\n", opened - before);
    for (int k = 0; k < 1000; k++) open_and_close();
    printf("left after a thousand more: %zd bytes\n", (ssize_t)(mallinfo2().uordblks - closed));
}

static void *nothing(void *arg) { return arg; }

int main(void) {
    pthread_t second;
    setvbuf(stdout, NULL, _IONBF, 0);
    memory();
    alone("one thread so far");
    if (pthread_create(&second, NULL, nothing, NULL)) return 2;
    pthread_join(second, NULL);
    alone("a second thread was there");
    crowds();
    return 0;
}
