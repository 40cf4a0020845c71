/* Condition variables, over a futex, for mutexes of either kind. Nothing of them is proved. They are the library's own (../cond.c), but that a thread
 * may be cancelled while it sleeps, and needs no seat. The library's words stand where glibc counts what it has served; the clock, and whether
 * processes share it, stand where glibc has them. */
#include "../conds.h"
#include "inside.h"

#define PROCESS_SHARED 1u
#define MONOTONIC 2u
#define NAP_NS 1000000

_Static_assert(offsetof(shfl_cond_t, words) <= sizeof(((pthread_cond_t *)0)->__data.__wseq), "the library's two words stand where glibc counts what it has served");

static shfl_cond_t *words_of(pthread_cond_t *c) { return (shfl_cond_t *)&c->__data; }
static bool is_shared(pthread_cond_t *c) { return c->__data.__wrefs & PROCESS_SHARED; }
static clockid_t clock_of(pthread_cond_t *c) { return c->__data.__wrefs & MONOTONIC ? CLOCK_MONOTONIC : CLOCK_REALTIME; }

struct sleeper { shfl_cond_t *cond; pthread_mutex_t *mutex; uint32_t seen; bool woken; };

/* A thread that is cancelled has its mutex again before its handlers run. It may have used up a signal, or another's wakeup, which it passes on: a waiter
 * too many may wake, never one too few. */
static void cancelled(void *at) {
    struct sleeper *sleeper = at;
    shfl_pass_on(sleeper->cond, sleeper->seen);
    shfl_signal(sleeper->cond, false);
    shfl_ends_to_wait(sleeper->cond, false);
    pthread_mutex_lock(sleeper->mutex);
}

/* Sleeps until a signal, or the deadline. */
static int sleep_until(struct sleeper *sleeper, clockid_t clock, const struct timespec *deadline) {
    int flags = FUTEX_WAIT_BITSET | FUTEX_PRIVATE_FLAG | (clock == CLOCK_REALTIME ? FUTEX_CLOCK_REALTIME : 0);
    int before = errno, told = 0;
    uint32_t *signals = &sleeper->cond->signals, seen = sleeper->seen;
    if (deadline && deadline->tv_sec < 0) return ETIMEDOUT;
    while (shfl_load(signals) == seen && told == 0 && !sleeper->woken) {
        sleeper->woken = syscall(SYS_futex, signals, flags, seen, deadline, NULL, FUTEX_BITSET_MATCH_ANY) == 0;
        if (!sleeper->woken && errno == ETIMEDOUT) told = ETIMEDOUT;
    }
    errno = before;
    return told;
}

/* Meanwhile a cancellation takes effect at once, and nowhere else: nothing is held, and no memory is taken. */
static int sleep_cancellably(struct sleeper *sleeper, clockid_t clock, const struct timespec *deadline) {
    int before, told;
    pthread_cleanup_push(cancelled, sleeper);
    pthread_setcanceltype(PTHREAD_CANCEL_ASYNCHRONOUS, &before);
    told = sleep_until(sleeper, clock, deadline);
    pthread_setcanceltype(before, NULL);
    pthread_cleanup_pop(0);
    if (sleeper->woken) shfl_pass_on(sleeper->cond, sleeper->seen);
    return told;
}

/* As many wait as can be counted, by mutexes of libc's: it wakes without a signal, or at its deadline. */
static int nap(clockid_t clock, const struct timespec *deadline) {
    static uint32_t never;
    shfl_sleep(&never, 0, NAP_NS);
    return deadline && shfl_clock_of(clock) >= shfl_time_of(deadline) ? ETIMEDOUT : 0;
}

static int wait_on(pthread_cond_t *c, pthread_mutex_t *m, clockid_t clock, const struct timespec *deadline, const void *caller) {
    shfl_cond_t *cond = words_of(c);
    struct sleeper sleeper = {cond, m, shfl_load(&cond->signals), false};
    bool counts = shfl_comes_to_wait(cond);
    int error = pthread_mutex_unlock(m), told = error;
    if (!error) told = counts ? sleep_cancellably(&sleeper, clock, deadline) : nap(clock, deadline);
    if (counts) shfl_ends_to_wait(cond, told == 0 && shfl_load(&cond->signals) != sleeper.seen);
    if (error) return error;
    error = shfl_lock_again(m, caller);
    return error ? error : told;
}

/* One that processes share is libc's, and can't wait with a mutex that isn't. */
static bool cannot_wait(pthread_mutex_t *m) { return !shfl_is_libcs_mutex(m); }

int pthread_cond_wait(pthread_cond_t *c, pthread_mutex_t *m) {
    if (is_shared(c)) return cannot_wait(m) ? EINVAL : shfl_libc()->cond_wait(c, m);
    return wait_on(c, m, CLOCK_MONOTONIC, NULL, __builtin_return_address(0));
}

int pthread_cond_timedwait(pthread_cond_t *c, pthread_mutex_t *m, const struct timespec *deadline) {
    if (!shfl_is_time(deadline)) return EINVAL;
    if (is_shared(c)) return cannot_wait(m) ? EINVAL : shfl_libc()->cond_timedwait(c, m, deadline);
    return wait_on(c, m, clock_of(c), deadline, __builtin_return_address(0));
}

int pthread_cond_clockwait(pthread_cond_t *c, pthread_mutex_t *m, clockid_t clock, const struct timespec *deadline) {
    if (!shfl_is_time(deadline) || !shfl_is_clock(clock)) return EINVAL;
    if (is_shared(c)) return cannot_wait(m) ? EINVAL : shfl_libc()->cond_clockwait(c, m, clock, deadline);
    return wait_on(c, m, clock, deadline, __builtin_return_address(0));
}

int pthread_cond_signal(pthread_cond_t *c) {
    if (is_shared(c)) return shfl_libc()->cond_signal(c);
    shfl_signal(words_of(c), false);
    return 0;
}

int pthread_cond_broadcast(pthread_cond_t *c) {
    if (is_shared(c)) return shfl_libc()->cond_broadcast(c);
    shfl_signal(words_of(c), true);
    return 0;
}

/* Waits, as libc does, until those that were woken have left. */
int pthread_cond_destroy(pthread_cond_t *c) {
    static uint32_t never;
    if (is_shared(c)) return shfl_libc()->cond_destroy(c);
    while (shfl_load(&words_of(c)->waiting) > 0) shfl_sleep(&never, 0, 50000);
    return 0;
}
