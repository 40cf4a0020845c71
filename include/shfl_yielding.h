/* Waiting without sleep: for threads that may not sleep, or that have a processor each. A thread that waits gives its processor away
 * between its looks. Beside other work that is a slow and unfair lock: each look waits for the scheduler's turn. Its unlock is
 * shfl_unlock, and both kinds of waiting may serve one lock. Included by shfl.h. */
#ifndef SHFL_YIELDING_H
#define SHFL_YIELDING_H
#include "shfl_locking.h"

#ifdef __cplusplus
extern "C" {
#endif

/* How often such a thread tries before it queues, with pauses that grow, and then giving its processor away. */
#ifndef SHFL_PAUSES
#define SHFL_PAUSES 10
#endif
#ifndef SHFL_YIELDS
#define SHFL_YIELDS 40
#endif

static inline void shfl_back_off(unsigned tried) {
    const unsigned pauses = SHFL_PAUSES;
    if (tried >= pauses) sched_yield();
    else shfl_hints(20u << (tried < 3 ? tried : 3));
}

static inline void shfl_lock_yielding_by(struct shfl_pass *pass, bool shared) {
    struct shfl_waiter waiter = shfl_waiter_of(pass, shared);
    for (unsigned tried = 0; !pass->queues && tried != SHFL_PAUSES + SHFL_YIELDS; tried++) {
        if (shfl_try(&waiter)) return;
        shfl_back_off(tried);
    }
    shfl_wait_in_queue(&waiter, true);
    shfl_got(&waiter);
}

/* Takes the lock as a writer. The pass is idle. */
static inline void shfl_lock_yielding(struct shfl_pass *pass) { shfl_lock_yielding_by(pass, false); }

/* The same as a reader; the form is SHFL_RW or SHFL_RW_PARK. */
static inline void shfl_rdlock_yielding(struct shfl_pass *pass) { shfl_lock_yielding_by(pass, true); }

/* Takes the lock as a writer: asleep after a while, or yielding where SHFL_YIELDING is defined before the header is included. */
static inline void shfl_lock(struct shfl_pass *pass) {
#ifdef SHFL_YIELDING
    shfl_lock_yielding(pass);
#else
    shfl_lock_sleeping(pass);
#endif
}

/* The same as a reader; the form is SHFL_RW or SHFL_RW_PARK. */
static inline void shfl_rdlock(struct shfl_pass *pass) {
#ifdef SHFL_YIELDING
    shfl_rdlock_yielding(pass);
#else
    shfl_rdlock_sleeping(pass);
#endif
}

#ifdef __cplusplus
}
#endif
#endif
