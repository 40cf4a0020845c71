/* What the programs share whose threads take a lock again and again: waits.c, handover.c and effect.c. */
#ifndef THREADS_H
#define THREADS_H
#define _GNU_SOURCE
#include "shfl.h"
#include <pthread.h>
#include <stdatomic.h>
#include <stdio.h>
#include <stdlib.h>
#include <string.h>

enum { LINE = 128, MOST_THREADS = 256 };

static inline void nap(uint64_t ns) {
    struct timespec t = {(time_t)(ns / 1000000000), (long)(ns % 1000000000)};
    nanosleep(&t, NULL);
}

static inline void busy(uint64_t ns) {
    if (ns == 0) return;
    for (uint64_t until = shfl_clock() + ns; shfl_clock() < until;) shfl_hint();
}
/* With WAITS_PINNED, a list of processors as 0,2, the thread keeps to one of these, which take turns by the threads' numbers. */
static inline void keep_to_one(unsigned me) {
    const char *list = getenv("WAITS_PINNED");
    unsigned long on[64];
    unsigned count = 0;
    for (char *at; list && *list && count < 64; list = *at == ',' ? at + 1 : at) {
        on[count++] = strtoul(list, &at, 10);
        if (at == list) exit(2);
    }
    if (count == 0) return;
    cpu_set_t one;
    CPU_ZERO(&one);
    CPU_SET(on[me % count], &one);
    if (pthread_setaffinity_np(pthread_self(), sizeof one, &one)) exit(2);
}
#endif
