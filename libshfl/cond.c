/* Condition variables, over a futex. Nothing of them is proved but that a waiter has the mutex when its call returns.
 *
 * A waiter reads the count of signals while it has the mutex, and sleeps only where the count is still the same; a signal after that read
 * changes it. So none is lost, unless 2^32 signals come between the read and the sleep. Where one comes while a signal is given, the system may wake it in place of the
 * one that was waiting, if its priority is higher; then it wakes all.
 *
 * Of the word `waiting` the low half counts who waits, and the high half who of them was woken and is about to leave: fewer than 65,536, since each has a
 * seat. Whoever destroys the condition variable waits for these, as POSIX allows a program to destroy one as soon as nobody sleeps there. The preload library
 * counts by the same functions, in a condition variable of glibc's. */
#include "conds.h"
#include "process.h"

#define WOKEN 0x10000u

_Static_assert(SHFL_MOST_THREADS < WOKEN - 1, "as many as have seats can wait");

static bool change(shfl_cond_t *cond, uint32_t *before, uint32_t waiting, uint32_t woken) {
    uint32_t after = woken * WOKEN + waiting;
    return __atomic_compare_exchange_n(&cond->waiting, before, after, false, __ATOMIC_SEQ_CST, __ATOMIC_SEQ_CST);
}

bool shfl_comes_to_wait(shfl_cond_t *cond) {
    uint32_t both = shfl_load(&cond->waiting);
    do {
        if (both % WOKEN == WOKEN - 1) return false;
    } while (!change(cond, &both, both % WOKEN + 1, both / WOKEN));
    return true;
}

void shfl_ends_to_wait(shfl_cond_t *cond, bool was_woken) {
    uint32_t both = shfl_load(&cond->waiting), waiting, woken;
    do {
        waiting = both % WOKEN - 1;
        woken = both / WOKEN;
        if (woken > 0 && (was_woken || woken > waiting)) woken--;
    } while (!change(cond, &both, waiting, woken));
}

/* Counts one more as woken, or all, before they are. False: nobody waits. */
static bool is_to_wake(shfl_cond_t *cond, bool all) {
    uint32_t both = shfl_load(&cond->waiting), waiting, woken;
    do {
        waiting = both % WOKEN;
        woken = both / WOKEN;
        if (waiting == 0) return false;
        if (woken < waiting) woken = all ? waiting : woken + 1;
    } while (!change(cond, &both, waiting, woken));
    __atomic_fetch_add(&cond->signals, 1, __ATOMIC_SEQ_CST);
    return true;
}

int shfl_cond_init(shfl_cond_t *cond) {
    if (!cond) return EINVAL;
    cond->signals = cond->waiting = 0;
    return 0;
}

void shfl_signal(shfl_cond_t *cond, bool all) {
    if (!is_to_wake(cond, all)) return;
    if (all) shfl_wake_all(&cond->signals);
    else shfl_wake_one(&cond->signals);
}

void shfl_pass_on(shfl_cond_t *cond, uint32_t seen) {
    if (shfl_load(&cond->signals) == seen && shfl_load(&cond->waiting) / WOKEN > 0) shfl_signal(cond, true);
}

/* Sleeps until a signal or the deadline. */
static int sleep_on(shfl_cond_t *cond, uint32_t seen, clockid_t clock, const struct timespec *deadline) {
    uint32_t *signals = &cond->signals;
    if (!deadline) {
        if (shfl_futex(signals, FUTEX_WAIT, seen, NULL) == 0) shfl_pass_on(cond, seen);
        return 0;
    }
    uint64_t at = shfl_time_of(deadline);
    while (shfl_load(signals) == seen) {
        uint64_t now = shfl_clock_of(clock);
        if (now >= at) return ETIMEDOUT;
        /* a clock that somebody sets is looked at again */
        uint64_t most = at - now;
        if (clock == CLOCK_REALTIME && most > 1000000000u) most = 1000000000u;
        if (!shfl_sleep(signals, seen, most)) continue;
        shfl_pass_on(cond, seen);
        break;
    }
    return 0;
}

/* A thread that ends has its seat no longer than its locks; here it keeps it, so that it can have the mutex again. */
static bool keeps_seat(void) {
    struct shfl_thread *me = shfl_me;
    if (!me || !(shfl_load(&me->unusual) & SHFL_IS_ENDING)) return false;
    __atomic_fetch_and(&me->unusual, ~(uint32_t)SHFL_IS_ENDING, __ATOMIC_SEQ_CST);
    return true;
}

/* It returns with the mutex, though there may be no memory to queue for it now. */
static int lock_again(shfl_mutex_t *mutex) {
    static uint32_t never;
    int error;
    while ((error = shfl_mutex_lock(mutex)) == ENOMEM) shfl_sleep(&never, 0, 1000000);
    return error;
}

static int wait_on(shfl_cond_t *cond, shfl_mutex_t *mutex, clockid_t clock, const struct timespec *deadline) {
    bool ends = keeps_seat();
    uint32_t seen = shfl_load(&cond->signals);
    shfl_comes_to_wait(cond); /* there is room: who waits has the mutex, and so a seat, and whoever hasn't is refused below */
    int error = shfl_mutex_unlock(mutex);
    bool rested = !error && shfl_fork_rests(0);
    int told = error ? error : sleep_on(cond, seen, clock, deadline);
    if (rested) shfl_fork_goes_on();
    shfl_ends_to_wait(cond, told == 0 && shfl_load(&cond->signals) != seen);
    if (!error) error = lock_again(mutex);
    if (ends) __atomic_fetch_or(&shfl_me->unusual, SHFL_IS_ENDING, __ATOMIC_SEQ_CST);
    return error ? error : told;
}

int shfl_cond_wait(shfl_cond_t *cond, shfl_mutex_t *mutex) { return cond && mutex ? wait_on(cond, mutex, CLOCK_MONOTONIC, NULL) : EINVAL; }

int shfl_cond_clockwait(shfl_cond_t *cond, shfl_mutex_t *mutex, clockid_t clock, const struct timespec *deadline) {
    if (!cond || !mutex || !deadline || deadline->tv_nsec < 0 || deadline->tv_nsec > 999999999) return EINVAL;
    if (clock != CLOCK_MONOTONIC && clock != CLOCK_REALTIME) return EINVAL;
    return wait_on(cond, mutex, clock, deadline);
}

int shfl_cond_timedwait(shfl_cond_t *cond, shfl_mutex_t *mutex, const struct timespec *deadline) {
    return shfl_cond_clockwait(cond, mutex, CLOCK_MONOTONIC, deadline);
}

int shfl_cond_signal(shfl_cond_t *cond) {
    if (!cond) return EINVAL;
    shfl_signal(cond, false);
    return 0;
}

int shfl_cond_broadcast(shfl_cond_t *cond) {
    if (!cond) return EINVAL;
    shfl_signal(cond, true);
    return 0;
}

int shfl_cond_destroy(shfl_cond_t *cond) {
    static uint32_t never;
    if (!cond) return EINVAL;
    for (uint32_t both; (both = shfl_load(&cond->waiting)) != 0; shfl_sleep(&never, 0, 50000))
        if (both % WOKEN > both / WOKEN) return shfl_refuse(EBUSY, cond, "a condition variable is destroyed that somebody waits on");
    return 0;
}
