/* Waiting in the queue: steps until the pass holds the lock. A loop pauses only where a step looked in vain, and so never between
 * having the lock word and entering the section, but where one that joins has yet to write its place. It looks again for a bounded
 * time, and then sleeps. Included by shfl_locking.h.
 */
#ifndef SHFL_QUEUEING_H
#define SHFL_QUEUEING_H
#include "shfl_ahead.h"
#include "shfl_trying.h"

#ifdef __cplusplus
extern "C" {
#endif

/* For how long a thread looks for its turn before it sleeps; for how long where more than SHFL_NEAR wait: its turn is far, and the
 * processor is better left to others; and for how long again when it was woken: another may have been woken to the same processor. */
#ifndef SHFL_LOOKING_NS
#define SHFL_LOOKING_NS 20000
#endif
#ifndef SHFL_LOOKING_FAR_NS
#define SHFL_LOOKING_FAR_NS 2000
#endif
#ifndef SHFL_LOOKING_AGAIN_NS
#define SHFL_LOOKING_AGAIN_NS 5000
#endif
#ifndef SHFL_NEAR
#define SHFL_NEAR 3
#endif
/* The first nap of a queue's head, and of a shuffler that moved nobody; each further one is twice as long, up to 128 times. */
#ifndef SHFL_NAP_NS
#define SHFL_NAP_NS 100000
#endif

/* So many rounds in a row that moved nobody a shuffler makes awake, where turns are fast. */
#ifndef SHFL_ROUNDS
#define SHFL_ROUNDS 32
#endif

/* What a thread knows of its looks in vain. */
struct shfl_looks {
    uint32_t *asleep; /* where it sleeps, if it does: null before the first */
    uint64_t until; /* it stays awake until then; 0 afterwards */
    uint32_t rounds; /* in a row that moved nobody */
    uint32_t naps;
    bool yields; /* it never sleeps, and gives its processor away instead */
};

/* Where a pass that looked in vain sleeps: at its own place while it waits for its turn, and else at the head's. */
static inline uint32_t *shfl_sleeps_at(struct shfl_pass *pass, bool for_turn) {
    return for_turn ? &shfl_place_of(pass->parking, pass->me)->asleep : &pass->parking->head_asleep;
}

/* True where it stays awake for now, having paused. After a round that moved nobody the pause grows, though little where turns are fast. */
static inline bool shfl_stays_awake(struct shfl_looks *looks, bool alone, bool fast) {
    uint32_t most = fast ? 2 : 8;
    if (looks->until == 0) return false;
    shfl_hints(alone ? 16u << (looks->rounds < most ? looks->rounds : most) : 2);
    if (shfl_clock() < looks->until) return true;
    looks->until = 0;
    return false;
}

/* Gives the processor away, after a round that moved nobody the more often, the more of them there were. */
static inline void shfl_give_away(struct shfl_looks *looks, bool alone) {
    for (uint32_t k = alone ? 1u << (looks->rounds < 6 ? looks->rounds : 6) : 1; k > 0; k--) sched_yield();
}

/* Sleeps where it has announced that before its last look, and announces it where it hasn't: a waker that comes after the look then
 * finds the announcement. Only who can't be told of all that it waits for naps: the head of what stands beside the lock's words, and a
 * shuffler of who comes. Whoever was woken stays awake for a while: it was grouped, and its turn is near. */
static inline void shfl_sleep_or_announce(struct shfl_looks *looks, bool naps) {
    if (shfl_load(looks->asleep) == 0) {
        shfl_store(looks->asleep, 1);
        return;
    }
    uint64_t most = naps ? (uint64_t)SHFL_NAP_NS << (looks->naps < 7 ? looks->naps : 7) : SHFL_ASLEEP_NS;
    if (naps) looks->naps++;
    shfl_futex_wait(looks->asleep, 1, most);
    if (shfl_load(looks->asleep) == 0) looks->until = shfl_clock() + SHFL_LOOKING_AGAIN_NS;
}

/* A pause after a step that looked in vain, or ended a round that moved nobody and led to a look for the own turn. */
static inline void shfl_pause_looking(struct shfl_pass *pass, struct shfl_looks *looks, bool for_turn, bool alone) {
    uint32_t *asleep = shfl_sleeps_at(pass, for_turn);
    if (looks->asleep != asleep) {
        bool far = for_turn && shfl_load(&pass->parking->inside) > SHFL_NEAR;
        looks->asleep = asleep;
        looks->until = shfl_clock() + (far ? SHFL_LOOKING_FAR_NS : SHFL_LOOKING_NS);
        looks->naps = 0;
    }
    bool fast = alone && ++looks->rounds < SHFL_ROUNDS && shfl_turns_are_fast(pass->parking);
    if (fast) looks->until = shfl_clock() + SHFL_LOOKING_NS;
    if (shfl_stays_awake(looks, alone, fast)) return;
    if (looks->yields) shfl_give_away(looks, alone);
    else shfl_sleep_or_announce(looks, alone || !for_turn);
}

/* The pass went on. As the head it takes its announcement back before it makes the next one the head, which announces itself there. */
static inline void shfl_went_on(struct shfl_pass *pass, struct shfl_looks *looks) {
    if (looks->asleep != &pass->parking->head_asleep) return;
    if (!looks->yields) shfl_store(looks->asleep, 0);
    looks->asleep = NULL;
}

/* Whom the last steps may wake. */
struct shfl_calls { struct shfl_watch last; bool grouped; struct shfl_batch batch; };

/* Wakes whom this step made ready, and the first one that a round grouped, whose turn is the next one. In the parking forms the step
 * behind it sets the sleeper's own wakeup word, so it is woken after that one too. Where the one that was made ready still slept although
 * turns are fast, the one behind it is woken too, since the head comes too late to do so. */
static inline void shfl_call(struct shfl_pass *pass, struct shfl_calls *calls, struct shfl_watch watch) {
    struct shfl_parking *parking = pass->parking;
    if (calls->last.kind >= SHFL_WATCH_GROUPED) shfl_ring(&shfl_place_of(parking, calls->last.whom)->asleep);
    bool calls_it = watch.kind == SHFL_WATCH_READY || (watch.kind == SHFL_WATCH_GROUPED && !calls->grouped);
    bool slept = calls_it && shfl_ring(&shfl_place_of(parking, watch.whom)->asleep);
    if (watch.kind == SHFL_WATCH_READY) {
        bool fast = shfl_turns_are_fast(parking);
        if (slept && fast) shfl_wake_ahead(parking, watch.whom, 1);
        pass->successor = watch.whom + 1;
        pass->ahead = fast ? SHFL_AHEAD : 0;
        pass->shuffler = calls->grouped ? calls->batch.last + 1 : 0;
    }
    calls->last = watch;
    if (!calls_it) calls->last.kind = SHFL_WATCH_NOBODY;
    if (watch.kind == SHFL_WATCH_GROUPED) {
        if (!calls->grouped) calls->batch.last = calls->batch.at = pass->me;
        shfl_move_behind(parking, &calls->batch, watch.whom);
        calls->grouped = true;
    }
    if (watch.kind == SHFL_WATCH_OWN_TURN) {
        if (calls->grouped) shfl_ring(&shfl_place_of(parking, calls->batch.last)->asleep);
        calls->grouped = false;
    }
}

/* The answer to what the next step asks: that of the policy. A round that would move nobody is skipped: that of a pass without a policy,
 * and that of a head that is late, which would end at its first question. After a look in vain the next step is that look again, and
 * asks nothing. */
static inline bool shfl_choice(struct shfl_pass *pass, bool looked) {
    if (looked) return false;
    uint8_t asks = shfl_ask(pass).kind;
    if (asks == SHFL_ASK_SKIP && (!pass->attached || shfl_is_late(pass))) return true;
    return pass->attached && asks != SHFL_ASK_NOTHING && shfl_answer(pass);
}

/* Steps until the pass holds the lock and owes no step, answering by the attached policy. The pass has acquired. */
static inline void shfl_drive_by(struct shfl_pass *pass, bool yields) {
    struct shfl_looks looks = {NULL, 0, 0, 0, yields};
    struct shfl_calls calls = {{0, 0}, false, {0, 0}};
    struct shfl_watch watch = shfl_watch(pass);
    for (bool looked = false;;) {
        uint8_t outcome = shfl_advance(pass, shfl_choice(pass, looked));
        looked = outcome == SHFL_IN_VAIN || outcome == SHFL_IN_VAIN_OPEN;
        if (looked) {
            if (outcome == SHFL_IN_VAIN_OPEN) shfl_disable_stealing(pass);
            shfl_pause_looking(pass, &looks, watch.kind == SHFL_WATCH_OWN_TURN, false);
            continue;
        }
        if (outcome == SHFL_WENT_ON) shfl_went_on(pass, &looks);
        if (watch.kind == SHFL_WATCH_GROUPED) looks.rounds = 0;
        shfl_call(pass, &calls, watch);
        if (outcome == SHFL_RESTS) break;
        watch = shfl_watch(pass);
        /* the head goes on from its round to the lock word */
        if (outcome == SHFL_GROUPED_NOBODY && watch.kind == SHFL_WATCH_OWN_TURN) shfl_pause_looking(pass, &looks, true, true);
    }
    uint32_t *own = shfl_sleeps_at(pass, true);
    if (!yields && shfl_load(own)) shfl_store(own, 0);
}

/* Queues, and steps until the pass holds the lock. */
static inline void shfl_queue(struct shfl_pass *pass, bool shared, bool yields) {
    if (!shared) {
        if (shfl_enter(pass)) return;
    } else {
        shfl_acquire_shared(pass);
        /* The count of a reader goes up, and down again where that was in vain: the queue's head may have looked meanwhile. */
        if (shfl_step(pass, false) && shfl_step(pass, false)) shfl_ring(&pass->parking->head_asleep);
    }
    shfl_drive_by(pass, yields);
}

static inline void shfl_wait_in_queue(struct shfl_waiter *waiter, bool yields) {
    uint32_t *queued = &waiter->pass->parking->queued;
    shfl_go_inside(waiter);
    __atomic_fetch_add(queued, 1, __ATOMIC_SEQ_CST);
    shfl_stand_behind(waiter->pass);
    shfl_queue(waiter->pass, waiter->shared, yields);
    shfl_count_turn(waiter->pass->parking);
    __atomic_fetch_sub(queued, 1, __ATOMIC_SEQ_CST);
}

#ifdef __cplusplus
}
#endif
#endif
