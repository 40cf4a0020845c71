/* Locks for readers and writers. Proved of the library's is that a writer has the lock alone; which are libc's stands here. The number is in a
 * word that glibc leaves unused. The kinds by which glibc prefers readers or writers are one here: while somebody queues, a reader who doesn't
 * have the lock yet waits. */
#include "inside.h"

static uint32_t *word_of(pthread_rwlock_t *l) { return &l->__data.__pad3; }
static inline bool is_ours(pthread_rwlock_t *l) { return SHFL_LIKELY(l->__data.__shared == 0) && shfl_is_ours(word_of(l)); }

static inline int take(pthread_rwlock_t *l, bool shared, const void *caller) {
    int error = shfl_take(word_of(l), shared);
    return SHFL_LIKELY(!error) ? 0 : shfl_take_at_last(word_of(l), shared, error, caller);
}

static int try(pthread_rwlock_t *l, bool shared) {
    int error = shfl_try(word_of(l), shared);
    return error == ENOMEM ? EBUSY : error;
}

int pthread_rwlock_rdlock(pthread_rwlock_t *l) { return is_ours(l) ? take(l, true, __builtin_return_address(0)) : shfl_libc()->rwlock_rdlock(l); }
int pthread_rwlock_wrlock(pthread_rwlock_t *l) { return is_ours(l) ? take(l, false, __builtin_return_address(0)) : shfl_libc()->rwlock_wrlock(l); }
int pthread_rwlock_tryrdlock(pthread_rwlock_t *l) { return is_ours(l) ? try(l, true) : shfl_libc()->rwlock_tryrdlock(l); }
int pthread_rwlock_trywrlock(pthread_rwlock_t *l) { return is_ours(l) ? try(l, false) : shfl_libc()->rwlock_trywrlock(l); }

int pthread_rwlock_clockrdlock(pthread_rwlock_t *l, clockid_t clock, const struct timespec *deadline) {
    if (!is_ours(l)) return shfl_libc()->rwlock_clockrdlock(l, clock, deadline);
    return shfl_take_until_at_last(word_of(l), true, clock, deadline, __builtin_return_address(0));
}

int pthread_rwlock_clockwrlock(pthread_rwlock_t *l, clockid_t clock, const struct timespec *deadline) {
    if (!is_ours(l)) return shfl_libc()->rwlock_clockwrlock(l, clock, deadline);
    return shfl_take_until_at_last(word_of(l), false, clock, deadline, __builtin_return_address(0));
}

int pthread_rwlock_timedrdlock(pthread_rwlock_t *l, const struct timespec *deadline) {
    if (!is_ours(l)) return shfl_libc()->rwlock_timedrdlock(l, deadline);
    return shfl_take_until_at_last(word_of(l), true, CLOCK_REALTIME, deadline, __builtin_return_address(0));
}

int pthread_rwlock_timedwrlock(pthread_rwlock_t *l, const struct timespec *deadline) {
    if (!is_ours(l)) return shfl_libc()->rwlock_timedwrlock(l, deadline);
    return shfl_take_until_at_last(word_of(l), false, CLOCK_REALTIME, deadline, __builtin_return_address(0));
}

int pthread_rwlock_unlock(pthread_rwlock_t *l) {
    bool libcs = l->__data.__shared != 0 || __atomic_load_n(word_of(l), __ATOMIC_ACQUIRE) == SHFL_LIBC;
    return SHFL_LIKELY(!libcs) ? shfl_give_back(word_of(l)) : shfl_libc()->rwlock_unlock(l);
}

int pthread_rwlock_destroy(pthread_rwlock_t *l) {
    if (l->__data.__shared != 0) return shfl_libc()->rwlock_destroy(l);
    if (__atomic_load_n(word_of(l), __ATOMIC_ACQUIRE) == 0) return 0;
    return is_ours(l) ? shfl_end(word_of(l)) : shfl_libc()->rwlock_destroy(l);
}

/* The names under which glibc's own libraries called them. */
ALSO(pthread_rwlock_rdlock);
ALSO(pthread_rwlock_wrlock);
ALSO(pthread_rwlock_tryrdlock);
ALSO(pthread_rwlock_trywrlock);
ALSO(pthread_rwlock_unlock);
ALSO(pthread_rwlock_destroy);
