/* Waiting without the queue. While nobody queues, whoever comes takes the lock where it finds it free, so that brief holds go from
 * running thread to running thread; the queue's order would wait for each sleeper in turn. A thread tries for a while, and then
 * sleeps outside; who frees the lock wakes the one that has slept longest where nobody else waits awake. Included by shfl_locking.h.
 *
 * It is fair by two bounds. After SHFL_PASSED holds that passed those outside, but no sooner than SHFL_PASSED_NS after the last time,
 * the one that has slept longest is woken to queue, and from then on nobody steals; who woke it steps aside, and sleeps outside before
 * it waits again. And who is woken otherwise, and finds that it was passed four times as often as threads wait, and that nobody
 * queues, queues too. So the queue is short, and those in it are awake: no hold waits for a sleeper.
 */
#ifndef SHFL_TRYING_H
#define SHFL_TRYING_H
#include "shfl_parking.h"

#ifdef __cplusplus
extern "C" {
#endif

/* For how long a thread tries before it sleeps, a little more than it takes to wake one; and for how long again when it was woken, since
 * it may have taken the holder's processor. */
#ifndef SHFL_TRYING_NS
#define SHFL_TRYING_NS 20000
#endif
#ifndef SHFL_TRYING_AGAIN_NS
#define SHFL_TRYING_AGAIN_NS 4000
#endif
/* How many attempts a thread makes at most before it queues. */
#ifndef SHFL_TRIES
#define SHFL_TRIES 1000
#endif
/* The two numbers of the first bound. */
#ifndef SHFL_PASSED
#define SHFL_PASSED 2
#endif
#ifndef SHFL_PASSED_NS
#define SHFL_PASSED_NS 50000
#endif
/* The most that SHFL_PASSED_NS grows to where a sleeper takes long to come. */
#ifndef SHFL_PASSED_MOST_NS
#define SHFL_PASSED_MOST_NS 100000
#endif
/* Who was woken, and has not come after this long, has no processor. */
#ifndef SHFL_WAKING_NS
#define SHFL_WAKING_NS 200000
#endif
/* A sleeper looks again after this long where nobody wakes it, so that one whose waker stepped by hand is late and not lost. */
#ifndef SHFL_ASLEEP_NS
#define SHFL_ASLEEP_NS 100000000
#endif

/* How a pass steps aside: it doesn't try for a while where the lock isn't free, or sleeps even where it is. */
enum shfl_aside { SHFL_ASIDE = 1, SHFL_ASIDE_AT_ONCE };

/* A thread that takes the lock and didn't get it at once. */
struct shfl_waiter {
    struct shfl_pass *pass;
    uint32_t tries; /* that are left */
    uint32_t holds; /* as the parking counted them when it came */
    bool shared;
    bool inside; /* it counts there */
};

static inline void shfl_go_inside(struct shfl_waiter *waiter) {
    if (!waiter->inside) __atomic_fetch_add(&waiter->pass->parking->inside, 1, __ATOMIC_SEQ_CST);
    waiter->inside = true;
}

static inline void shfl_leave_inside(struct shfl_waiter *waiter) {
    if (waiter->inside) __atomic_fetch_sub(&waiter->pass->parking->inside, 1, __ATOMIC_SEQ_CST);
    waiter->inside = false;
}

static inline bool shfl_try(struct shfl_waiter *waiter) {
    if (waiter->tries > 0) waiter->tries--;
    return waiter->shared ? shfl_attempt_shared(waiter->pass) : shfl_attempt(waiter->pass);
}

/* Tries with pauses that grow, so that many who try leave the lock word to who holds. */
static inline bool shfl_spin_trying(struct shfl_waiter *waiter, uint64_t most) {
    uint64_t until = shfl_clock() + most;
    uint32_t hints = 20;
    do {
        shfl_hints(hints);
        if (hints < 160) hints *= 2;
        if (shfl_try(waiter)) return true;
    } while (waiter->tries > 0 && shfl_clock() < until);
    return false;
}

/* Wakes the one that has slept longest outside. It counts as inside from now on: until it runs nobody wakes another in its place. */
static inline bool shfl_wake_outside(struct shfl_parking *parking) {
    __atomic_store_n(&parking->woken_at, shfl_clock(), __ATOMIC_RELAXED);
    __atomic_fetch_add(&parking->inside, 1, __ATOMIC_SEQ_CST);
    __atomic_fetch_add(&parking->wakeups, 1, __ATOMIC_SEQ_CST);
    if (shfl_futex_wake(&parking->wakeups)) return true;
    __atomic_fetch_sub(&parking->inside, 1, __ATOMIC_SEQ_CST);
    return false;
}

/* Whom the holder that leaves is to wake outside. */
enum shfl_wakes { SHFL_WAKES_NOBODY, SHFL_WAKES_ONE, SHFL_WAKES_TO_QUEUE };

/* Counts a hold that passed those outside. Holders that share the lock may count two holds as one. Where somebody waits awake no other
 * is woken, unless the last one was so long ago that it has no processor. */
static inline enum shfl_wakes shfl_wakes_outside(struct shfl_parking *parking) {
    uint32_t holds = __atomic_load_n(&parking->holds, __ATOMIC_RELAXED) + 1;
    __atomic_store_n(&parking->holds, holds, __ATOMIC_RELAXED);
    bool alone = shfl_load(&parking->inside) == 0;
    if (holds % SHFL_PASSED != 0) return alone ? SHFL_WAKES_ONE : SHFL_WAKES_NOBODY;
    uint64_t now = shfl_clock();
    bool due = now - __atomic_load_n(&parking->promoted_at, __ATOMIC_RELAXED) >= shfl_load(&parking->apart);
    if (due) {
        __atomic_store_n(&parking->promoted_at, now, __ATOMIC_RELAXED);
        return SHFL_WAKES_TO_QUEUE;
    }
    uint64_t since = now - __atomic_load_n(&parking->woken_at, __ATOMIC_RELAXED);
    return alone || since >= SHFL_WAKING_NS ? SHFL_WAKES_ONE : SHFL_WAKES_NOBODY;
}

/* Whom this thread wakes doesn't get its processor: the scheduler lets a thread of a real-time policy run until it sleeps. */
static inline bool shfl_runs_on(void) {
    int policy = sched_getscheduler(0);
    return policy == SCHED_FIFO || policy == SCHED_RR;
}

/* Whether this thread is the one that is to queue. The next one is then woken after eight times what it took this one to come, so
 * that on a busy machine the lock is not left to sleepers that have no processor. */
static inline bool shfl_is_promoted(struct shfl_parking *parking) {
    if (shfl_load(&parking->promoted) == 0 || __atomic_exchange_n(&parking->promoted, 0, __ATOMIC_SEQ_CST) == 0) return false;
    const uint64_t least = SHFL_PASSED_NS, most = SHFL_PASSED_MOST_NS;
    uint64_t apart = 8 * (shfl_clock() - __atomic_load_n(&parking->promoted_at, __ATOMIC_RELAXED));
    if (apart > most) apart = most;
    if (apart < least || shfl_runs_on()) apart = least;
    shfl_store(&parking->apart, (uint32_t)apart);
    return true;
}

/* After a release, where somebody sleeps outside. */
__attribute__((noinline, unused)) static void shfl_after_passing(struct shfl_pass *pass) {
    struct shfl_parking *parking = pass->parking;
    enum shfl_wakes wakes = shfl_wakes_outside(parking);
    if (wakes == SHFL_WAKES_NOBODY) return;
    if (wakes == SHFL_WAKES_TO_QUEUE) shfl_store(&parking->promoted, 1);
    bool woke = shfl_wake_outside(parking);
    if (woke && wakes == SHFL_WAKES_TO_QUEUE) pass->aside = shfl_runs_on() ? SHFL_ASIDE_AT_ONCE : SHFL_ASIDE;
}

/* Sleeps outside. True: it holds the lock instead. Who has announced itself tries once more, since the release that it waits for may
 * have come before. Who steps aside at once does so only where nobody is inside: whoever is has yet to release, and will wake it. */
static inline bool shfl_sleep_outside(struct shfl_waiter *waiter, uint8_t aside) {
    struct shfl_parking *parking = waiter->pass->parking;
    __atomic_fetch_add(&parking->outside, 1, __ATOMIC_SEQ_CST);
    uint32_t seen = shfl_load(&parking->wakeups);
    shfl_leave_inside(waiter);
    bool sleeps = aside == SHFL_ASIDE_AT_ONCE && shfl_load(&parking->inside) > 0;
    bool won = !sleeps && shfl_try(waiter);
    if (!won) {
        /* the count of a reader that tried may be what the queue's head found in its way */
        if (waiter->shared) shfl_ring(&parking->head_asleep);
        waiter->inside = shfl_futex_wait(&parking->wakeups, seen, SHFL_ASLEEP_NS);
    }
    __atomic_fetch_sub(&parking->outside, 1, __ATOMIC_SEQ_CST);
    return won;
}

/* Whether it has been passed so often that it queues. It doesn't where another does: the queue would hand the lock on to a sleeper. */
static inline bool shfl_is_passed(struct shfl_waiter *waiter) {
    struct shfl_parking *parking = waiter->pass->parking;
    uint32_t waiting = shfl_load(&parking->outside) + shfl_load(&parking->inside);
    bool passed = waiting > 0 && shfl_load(&parking->holds) - waiter->holds >= 4 * waiting;
    return passed && shfl_load(&parking->queued) == 0;
}

/* True: it holds the lock. False: it is to queue. */
static inline bool shfl_wait_outside(struct shfl_waiter *waiter) {
    struct shfl_parking *parking = waiter->pass->parking;
    uint8_t aside = waiter->pass->aside;
    waiter->pass->aside = 0;
    if (shfl_load(&parking->outside) > 0) shfl_go_inside(waiter);
    for (uint64_t most = SHFL_TRYING_NS; waiter->tries > 0; most = SHFL_TRYING_AGAIN_NS) {
        if (!aside && shfl_spin_trying(waiter, most)) return true;
        if (shfl_is_passed(waiter)) return false;
        if (shfl_sleep_outside(waiter, aside)) return true;
        aside = 0;
        bool promoted = shfl_is_promoted(parking);
        if (shfl_try(waiter)) return true;
        shfl_go_inside(waiter);
        if (promoted) return false;
    }
    return false;
}

#ifdef __cplusplus
}
#endif
#endif
