/* Taking the lock and giving it back. Included by shfl.h. */
#ifndef SHFL_LOCKING_H
#define SHFL_LOCKING_H
#include "shfl_queueing.h"

#ifdef __cplusplus
extern "C" {
#endif

static inline struct shfl_waiter shfl_waiter_of(struct shfl_pass *pass, bool shared) {
    struct shfl_waiter waiter;
    waiter.pass = pass;
    waiter.tries = pass->tries ? pass->tries : SHFL_TRIES;
    waiter.holds = shfl_load(&pass->parking->holds);
    waiter.shared = shared;
    waiter.inside = false;
    return waiter;
}

/* The waiter holds the lock. A reader wakes the next one outside, which may be a reader too. */
static inline void shfl_got(struct shfl_waiter *waiter) {
    struct shfl_parking *parking = waiter->pass->parking;
    shfl_leave_inside(waiter);
    if (waiter->shared && shfl_load(&parking->outside) > 0 && shfl_load(&parking->inside) == 0) shfl_wake_outside(parking);
}

/* Out of line, so that what is in line where nobody waits stays short. */
__attribute__((noinline, unused)) static void shfl_lock_waiting(struct shfl_pass *pass, bool shared) {
    struct shfl_waiter waiter = shfl_waiter_of(pass, shared);
    if (pass->queues || !shfl_wait_outside(&waiter)) shfl_wait_in_queue(&waiter, false);
    shfl_got(&waiter);
}

/* Whether the first attempt may come before anything else. */
static inline bool shfl_may_steal(struct shfl_pass *pass) { return !pass->queues && pass->aside != SHFL_ASIDE_AT_ONCE; }

/* Takes the lock as a writer, asleep after a while. The pass is idle. */
static inline void shfl_lock_sleeping(struct shfl_pass *pass) {
    if (!shfl_may_steal(pass) || !shfl_attempt(pass)) shfl_lock_waiting(pass, false);
}

/* The same as a reader; the form is SHFL_RW or SHFL_RW_PARK. */
static inline void shfl_rdlock_sleeping(struct shfl_pass *pass) {
    if (!shfl_may_steal(pass) || !shfl_attempt_shared(pass)) shfl_lock_waiting(pass, true);
}

/* Takes the lock at once, or not at all. */
static inline bool shfl_trylock(struct shfl_pass *pass) { return shfl_attempt(pass); }

/* The same as a reader; the form is SHFL_RW or SHFL_RW_PARK. Its count may be what the queue's head found in its way. */
static inline bool shfl_tryrdlock(struct shfl_pass *pass) {
    bool won = shfl_attempt_shared(pass);
    if (!won) shfl_ring(&pass->parking->head_asleep);
    return won;
}

/* Steps until the pass holds the lock and owes no step, asleep after a while. The pass has acquired. */
static inline void shfl_drive(struct shfl_pass *pass) { shfl_drive_by(pass, false); }

/* Gives the lock back, and wakes who comes next where that one sleeps. The pass holds it and owes no step. */
static inline void shfl_unlock(struct shfl_pass *pass) {
    struct shfl_parking *parking = pass->parking;
    if (shfl_leave(pass)) {
        while (shfl_step(pass, false)) shfl_hint();
    }
    if (pass->successor) shfl_make_late(pass);
    if (shfl_load(&parking->head_asleep)) shfl_ring(&parking->head_asleep);
    else if (shfl_load(&parking->outside)) shfl_after_passing(pass);
    if (pass->successor) shfl_wake_behind_successor(pass);
}

#ifdef __cplusplus
}
#endif
#endif
