/* How a thread sleeps on a word, wakes others, reads the clock and pauses. Nothing of it is proved. */
#ifndef SHFL_FUTEX_H
#define SHFL_FUTEX_H
#include <errno.h>
#include <limits.h>
#include <linux/futex.h>
#include <stdbool.h>
#include <stdint.h>
#include <sys/syscall.h>
#include <time.h>
#include <unistd.h>

static inline uint32_t shfl_load(uint32_t *word) { return __atomic_load_n(word, __ATOMIC_SEQ_CST); }
static inline void shfl_store(uint32_t *word, uint32_t value) { __atomic_store_n(word, value, __ATOMIC_SEQ_CST); }

/* Nanoseconds of a clock. */
static inline uint64_t shfl_clock_of(clockid_t clock) {
    struct timespec t;
    clock_gettime(clock, &t);
    return (uint64_t)t.tv_sec * 1000000000u + (uint64_t)t.tv_nsec;
}

/* A deadline in nanoseconds: 0 where it was before the clock began, and the last that can be told where it is behind that. */
static inline uint64_t shfl_time_of(const struct timespec *deadline) {
    if (deadline->tv_sec < 0) return 0;
    bool fits = (uint64_t)deadline->tv_sec < UINT64_MAX / 1000000000u;
    return fits ? (uint64_t)deadline->tv_sec * 1000000000u + (uint64_t)deadline->tv_nsec : UINT64_MAX;
}

static inline uint64_t shfl_clock(void) { return shfl_clock_of(CLOCK_MONOTONIC); }

static inline void shfl_hints(uint32_t count) {
    for (; count > 0; count--) {
#if defined(__x86_64__) || defined(__i386__)
        __builtin_ia32_pause();
#elif defined(__aarch64__)
        __asm__ volatile("yield");
#endif
    }
}

/* errno stays as it was, since a program doesn't expect that of a lock. */
static inline long shfl_futex_as(uint32_t *word, int call, uint32_t value, struct timespec *time, uint32_t kinds) {
    int before = errno;
    long told = syscall(SYS_futex, word, call | FUTEX_PRIVATE_FLAG, value, time, NULL, kinds);
    errno = before;
    return told;
}

static inline long shfl_futex(uint32_t *word, int call, uint32_t value, struct timespec *most) { return shfl_futex_as(word, call, value, most, 0); }

/* Sleeps while the word has this value, for at most so many nanoseconds. True: it was woken. Whoever sleeps looks again, whatever it
 * is told. */
static inline bool shfl_sleep(uint32_t *word, uint32_t value, uint64_t most) {
    struct timespec t = {(time_t)(most / 1000000000u), (long)(most % 1000000000u)};
    return shfl_futex(word, FUTEX_WAIT, value, &t) == 0;
}

/* The same as one of a kind, a bit of its own. */
static inline bool shfl_sleep_as(uint32_t *word, uint32_t value, uint64_t most, uint32_t kind) {
    uint64_t until = shfl_clock() + most;
    struct timespec t = {(time_t)(until / 1000000000u), (long)(until % 1000000000u)};
    return shfl_futex_as(word, FUTEX_WAIT_BITSET, value, &t, kind) == 0;
}

/* Wakes the one that has slept longest; of those of these kinds. True: there was one. */
static inline bool shfl_wake_one(uint32_t *word) { return shfl_futex(word, FUTEX_WAKE, 1, NULL) == 1; }
static inline bool shfl_wake_one_of(uint32_t *word, uint32_t kinds) { return shfl_futex_as(word, FUTEX_WAKE_BITSET, 1, NULL, kinds) == 1; }
static inline void shfl_wake_all(uint32_t *word) { shfl_futex(word, FUTEX_WAKE, INT_MAX, NULL); }

/* Wakes who announced at this word that it sleeps. It looks before it writes, so that a word where nobody sleeps stays in the caches of
 * all. */
static inline void shfl_ring(uint32_t *asleep) {
    if (shfl_load(asleep) && __atomic_exchange_n(asleep, 0, __ATOMIC_SEQ_CST)) shfl_wake_one(asleep);
}
#endif
