/* How a thread sleeps on a word, wakes another, reads the clock and pauses. Where there is no futex it gives its processor away
 * instead of sleeping, and looks again. Included by shfl.h. */
#ifndef SHFL_FUTEX_H
#define SHFL_FUTEX_H
#include <errno.h>
#include <sched.h>
#include <stdbool.h>
#include <stdint.h>
#include <time.h>

/* -std=c11 and its like hide the call of the system; one of -std=gnu.. and C++ have it. */
#if defined(__linux__) && (!defined(__STRICT_ANSI__) || defined(_DEFAULT_SOURCE) || defined(_GNU_SOURCE))
#include <linux/futex.h>
#include <sys/syscall.h>
#include <unistd.h>
#define SHFL_HAS_FUTEX 1
#else
#define SHFL_HAS_FUTEX 0
#endif

#ifdef __cplusplus
extern "C" {
#endif

static inline uint32_t shfl_load(uint32_t *word) { return __atomic_load_n(word, __ATOMIC_SEQ_CST); }
static inline void shfl_store(uint32_t *word, uint32_t value) { __atomic_store_n(word, value, __ATOMIC_SEQ_CST); }

/* Nanoseconds of a clock that no one sets. */
static inline uint64_t shfl_clock(void) {
    struct timespec t;
#ifdef CLOCK_MONOTONIC
    clock_gettime(CLOCK_MONOTONIC, &t);
#else
    timespec_get(&t, TIME_UTC);
#endif
    return (uint64_t)t.tv_sec * 1000000000u + (uint64_t)t.tv_nsec;
}

static inline void shfl_hint(void) {
#if defined(__x86_64__) || defined(__i386__)
    __builtin_ia32_pause();
#elif defined(__aarch64__)
    __asm__ volatile("yield");
#endif
}

static inline void shfl_hints(uint32_t count) {
    for (; count > 0; count--) shfl_hint();
}

#if SHFL_HAS_FUTEX
/* errno stays as it was, since a program doesn't expect that of a lock. */
static inline long shfl_futex(uint32_t *word, int call, uint32_t value, struct timespec *most) {
    int before = errno;
    long told = syscall(SYS_futex, word, call, value, most, NULL, 0);
    errno = before;
    return told;
}
#endif

/* Sleeps while the word has this value, for at most so many nanoseconds. True: it was woken. False: the word had another value, the
 * time was over, or a signal came. Whoever sleeps looks again, whatever it is told. */
static inline bool shfl_futex_wait(uint32_t *word, uint32_t value, uint64_t most) {
#if SHFL_HAS_FUTEX
    struct timespec t;
    t.tv_sec = (time_t)(most / 1000000000u);
    t.tv_nsec = (long)(most % 1000000000u);
    return shfl_futex(word, FUTEX_WAIT_PRIVATE, value, &t) == 0;
#else
    (void)most;
    if (shfl_load(word) == value) sched_yield();
    return false;
#endif
}

/* Wakes the one that has slept longest. True: there was one. */
static inline bool shfl_futex_wake(uint32_t *word) {
#if SHFL_HAS_FUTEX
    return shfl_futex(word, FUTEX_WAKE_PRIVATE, 1, NULL) == 1;
#else
    (void)word;
    return false;
#endif
}

#ifdef __cplusplus
}
#endif
#endif
