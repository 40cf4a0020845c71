/* Waking ahead of the turn. A sleeper takes some microseconds to come, so where holds are shorter than that a pass that is woken when it
 * becomes the queue's head is late. Where turns follow so fast, whoever has freed the lock therefore wakes those that stand behind the
 * next one, when nobody waits for it any more.
 *
 * C can't see the queue, so each place has a hint: who stands behind it. Whoever queues writes it, and a shuffler mends it where it moves
 * a waiter. A hint that is wrong wakes somebody early, or leaves one to the wakeup at its turn. Included by shfl_queueing.h. */
#ifndef SHFL_AHEAD_H
#define SHFL_AHEAD_H
#include "shfl_parking.h"

#ifdef __cplusplus
extern "C" {
#endif

/* How many are kept awake behind the next one, and at most how long apart two turns are where they are. */
#ifndef SHFL_AHEAD
#define SHFL_AHEAD 2
#endif
#ifndef SHFL_AHEAD_NS
#define SHFL_AHEAD_NS 15000
#endif

static inline uint32_t *shfl_behind(struct shfl_parking *parking, uint32_t whom) { return &shfl_place_of(parking, whom)->behind; }

/* The pass is about to queue. */
static inline void shfl_stand_behind(struct shfl_pass *pass) {
    struct shfl_parking *parking = pass->parking;
    uint32_t own = pass->me + 1;
    shfl_store(shfl_behind(parking, pass->me), 0);
    shfl_store(&shfl_place_of(parking, pass->me)->late, 0);
    uint32_t before = __atomic_exchange_n(&parking->joined, own, __ATOMIC_SEQ_CST);
    if (before != 0 && before != own) shfl_store(shfl_behind(parking, before - 1), own);
}

/* The pass has the lock by the queue: how long after the one before. The clock goes round after four seconds, which does no harm. */
static inline void shfl_count_turn(struct shfl_parking *parking) {
    uint32_t now = (uint32_t)shfl_clock();
    shfl_store(&parking->turn_apart, now - shfl_load(&parking->turn_at));
    shfl_store(&parking->turn_at, now);
}

static inline bool shfl_turns_are_fast(struct shfl_parking *parking) { return shfl_load(&parking->turn_apart) < SHFL_AHEAD_NS; }

/* Wakes the next so many behind this one. */
static inline void shfl_wake_ahead(struct shfl_parking *parking, uint32_t whom, uint32_t count) {
    for (; count > 0; count--) {
        uint32_t behind = shfl_load(shfl_behind(parking, whom));
        if (behind == 0) return;
        whom = behind - 1;
        shfl_ring(&shfl_place_of(parking, whom)->asleep);
    }
}

/* After a release: the lock waits for the successor, which is late if it comes to its round only now. */
static inline void shfl_make_late(struct shfl_pass *pass) { shfl_store(&shfl_place_of(pass->parking, pass->successor - 1)->late, 1); }

static inline bool shfl_is_late(struct shfl_pass *pass) { return shfl_load(&shfl_place_of(pass->parking, pass->me)->late) != 0; }

/* After that: those behind the successor are next. */
__attribute__((noinline, unused)) static void shfl_wake_behind_successor(struct shfl_pass *pass) {
    uint32_t whom = pass->successor - 1, count = pass->ahead;
    pass->successor = pass->ahead = 0;
    if (pass->shuffler) shfl_ring(&shfl_place_of(pass->parking, pass->shuffler - 1)->asleep);
    pass->shuffler = 0;
    shfl_wake_ahead(pass->parking, whom, count);
}

/* What a round has grouped so far: the batch's last, and the one that the walk stands at. */
struct shfl_batch { uint32_t last, at; };

/* The waiter is moved up behind the batch's last. The walk goes on from where it stood, so that a round goes over the hints once. */
static inline void shfl_move_behind(struct shfl_parking *parking, struct shfl_batch *batch, uint32_t whom) {
    uint32_t before = batch->at, last = batch->last;
    for (uint32_t left = shfl_load(&parking->queued); left > 0; left--) {
        uint32_t behind = shfl_load(shfl_behind(parking, before));
        if (behind == 0) break;
        if (behind == whom + 1) {
            if (before == last) {
                batch->at = whom;
            } else {
                shfl_store(shfl_behind(parking, before), shfl_load(shfl_behind(parking, whom)));
                shfl_store(shfl_behind(parking, whom), shfl_load(shfl_behind(parking, last)));
                shfl_store(shfl_behind(parking, last), whom + 1);
                batch->at = before;
            }
            break;
        }
        before = behind - 1;
    }
    batch->last = whom;
}

#ifdef __cplusplus
}
#endif
#endif
