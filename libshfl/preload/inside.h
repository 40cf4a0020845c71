/* What the files of the preload library share. A pthread object's bytes are used in two ways: libc's, where it is robust, shared by
 * processes or protects from priority inversion, and wherever its number here says so; else the library's, in words that libc leaves
 * zero there. Either for as long as it lives: a lock goes over from none. Not proved is which it is. */
#ifndef SHFL_PRELOAD_INSIDE_H
#define SHFL_PRELOAD_INSIDE_H
#include <pthread.h>
#include "../locking.h"

#if !defined(__linux__) || !defined(__GLIBC__) || __SIZEOF_POINTER__ != 8
#error "the preload library knows the objects of glibc on machines of 64 bits alone"
#endif

/* The number of a lock that went to libc at its first use: the arena was full, or couldn't be opened, or was being opened. */
#define SHFL_LIBC UINT32_MAX

/* libc's own calls. */
struct shfl_libc {
    int (*mutex_lock)(pthread_mutex_t *);
    int (*mutex_trylock)(pthread_mutex_t *);
    int (*mutex_timedlock)(pthread_mutex_t *, const struct timespec *);
    int (*mutex_clocklock)(pthread_mutex_t *, clockid_t, const struct timespec *);
    int (*mutex_unlock)(pthread_mutex_t *);
    int (*mutex_destroy)(pthread_mutex_t *);
    int (*rwlock_rdlock)(pthread_rwlock_t *);
    int (*rwlock_wrlock)(pthread_rwlock_t *);
    int (*rwlock_tryrdlock)(pthread_rwlock_t *);
    int (*rwlock_trywrlock)(pthread_rwlock_t *);
    int (*rwlock_timedrdlock)(pthread_rwlock_t *, const struct timespec *);
    int (*rwlock_timedwrlock)(pthread_rwlock_t *, const struct timespec *);
    int (*rwlock_clockrdlock)(pthread_rwlock_t *, clockid_t, const struct timespec *);
    int (*rwlock_clockwrlock)(pthread_rwlock_t *, clockid_t, const struct timespec *);
    int (*rwlock_unlock)(pthread_rwlock_t *);
    int (*rwlock_destroy)(pthread_rwlock_t *);
    int (*cond_wait)(pthread_cond_t *, pthread_mutex_t *);
    int (*cond_timedwait)(pthread_cond_t *, pthread_mutex_t *, const struct timespec *);
    int (*cond_clockwait)(pthread_cond_t *, pthread_mutex_t *, clockid_t, const struct timespec *);
    int (*cond_signal)(pthread_cond_t *);
    int (*cond_broadcast)(pthread_cond_t *);
    int (*cond_destroy)(pthread_cond_t *);
};

const struct shfl_libc *shfl_libc(void);

/* numbers.c: a lock's first use, and a thread's; what isn't answered to a program. */
bool shfl_adopt(uint32_t *word);
int shfl_take_at_last(uint32_t *word, bool shared, int error, const void *caller);
int shfl_take_until_at_last(uint32_t *word, bool shared, clockid_t clock, const struct timespec *deadline, const void *caller);

/* Whether the lock with this number word has a number of the library's, and this thread a seat. */
SHFL_IN_LINE bool shfl_has_number(uint32_t *word) { return __atomic_load_n(word, __ATOMIC_ACQUIRE) - 1 < SHFL_LIBC - 1 && shfl_me != NULL; }

/* Whether the lock with this number word is the library's. Then it has a number, and this thread a seat. */
static inline bool shfl_is_ours(uint32_t *word) {
    if (SHFL_LIKELY(shfl_has_number(word))) return true;
    return __atomic_load_n(word, __ATOMIC_ACQUIRE) != SHFL_LIBC && shfl_adopt(word);
}

static inline bool shfl_is_time(const struct timespec *t) { return t && t->tv_nsec >= 0 && t->tv_nsec <= 999999999; }
static inline bool shfl_is_clock(clockid_t clock) { return clock == CLOCK_MONOTONIC || clock == CLOCK_REALTIME; }

/* The name under which glibc's own libraries called it; gcc wants to hear that it is the same in all else. */
#if __has_attribute(copy)
#define COPIED(name) , copy(name)
#else
#define COPIED(name)
#endif
#define ALSO(name) extern __typeof__(name) __##name __attribute__((alias(#name) COPIED(name)))

/* mutex.c, for cond.c: whether a mutex is libc's, which libc's condition variables can wait with; and how who waited has it again. */
bool shfl_is_libcs_mutex(pthread_mutex_t *m);
int shfl_lock_again(pthread_mutex_t *m, const void *caller);
#endif
