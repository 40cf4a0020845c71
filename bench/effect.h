/* Waits of a class of threads, as effect.c tells them: their number, their sum and the longest exactly, and how many there were of each
 * length, a sixteenth of a power of two wide. */
#ifndef EFFECT_H
#define EFFECT_H
#include "threads.h"

enum { PARTS = 16, LENGTHS = 64 * PARTS };

struct waits {
    uint64_t count, sum, longest;
    uint32_t of_length[LENGTHS];
};

/* Below 16 each length has its own; from there on a power of two has sixteen. */
static inline unsigned length_of(uint64_t ns) {
    if (ns < PARTS) return (unsigned)ns;
    unsigned power = 63 - (unsigned)__builtin_clzll(ns);
    return (power - 3) * PARTS + (unsigned)(ns >> (power - 4)) % PARTS;
}

static inline uint64_t nanoseconds_of(unsigned length) {
    if (length < PARTS) return length;
    return (uint64_t)(PARTS + length % PARTS) << (length / PARTS - 1);
}

static inline void count_wait(struct waits *waits, uint64_t ns) {
    waits->count++;
    waits->sum += ns;
    if (ns > waits->longest) waits->longest = ns;
    waits->of_length[length_of(ns)]++;
}

static inline void add_waits(struct waits *all, const struct waits *some) {
    all->count += some->count;
    all->sum += some->sum;
    if (some->longest > all->longest) all->longest = some->longest;
    for (unsigned k = 0; k < LENGTHS; k++) all->of_length[k] += some->of_length[k];
}

/* The wait at 99 of a hundred, rounded down by a sixteenth at most. */
static inline uint64_t late_wait(const struct waits *waits) {
    uint64_t passed = 0;
    for (unsigned k = 0; k < LENGTHS; k++) {
        passed += waits->of_length[k];
        if (passed * 100 >= waits->count * 99) return nanoseconds_of(k);
    }
    return waits->longest;
}

/* Mean, wait at 99 of a hundred and longest, in microseconds. */
static inline void print_waits(const struct waits *waits) {
    double mean = waits->count ? (double)waits->sum / (double)waits->count : 0;
    printf(" %.2f %.2f %.2f", mean * 1e-3, (double)late_wait(waits) * 1e-3, (double)waits->longest * 1e-3);
}
#endif
