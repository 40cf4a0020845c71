/* Whom a thread wakes that gives a lock back: the queue's head, or one that sleeps outside the queue. Not proved is that it wakes the right one, or
 * anybody; who holds the lock isn't decided here. */
#include "inside.h"

/* One is woken to queue after so many holds that passed it, and so many nanoseconds. */
#define PASSED 2
#define PASSED_NS 50000
/* Who was woken, and has not come after this long, has no processor. */
#define WAKING_NS 200000

/* It counts as inside from now on: until it runs nobody wakes another in its place. */
static bool wake_one(struct shfl_parking *parking, uint32_t kinds) {
    __atomic_store_n(&shfl_total_of(parking)->woken_at, shfl_clock(), __ATOMIC_RELAXED);
    __atomic_fetch_add(&parking->inside, 1, __ATOMIC_SEQ_CST);
    __atomic_fetch_add(&parking->wakeups, 1, __ATOMIC_SEQ_CST);
    if (shfl_wake_one_of(&parking->wakeups, kinds)) return true;
    __atomic_fetch_sub(&parking->inside, 1, __ATOMIC_SEQ_CST);
    return false;
}

/* Wakes the one that has slept longest outside. Where nobody slept yet, another holder that left meanwhile may have found the count of the one that wasn't woken, and woken
 * nobody; so who has announced itself by now is woken, or looks again. */
bool shfl_wake_outside(struct shfl_parking *parking) {
    uint32_t any = SHFL_WRITER | SHFL_READER;
    return wake_one(parking, any) || (shfl_load(&parking->outside) > 0 && shfl_load(&parking->inside) == 0 && wake_one(parking, any));
}

/* Where nobody queues: else a reader that comes from outside waits behind. Threads that are awake outside the queue aren't asked about: they
 * neither keep a reader out nor wake one. */
bool shfl_wake_reader(struct shfl_parking *parking) {
    return shfl_load(&shfl_total_of(parking)->readers) > 0 && shfl_load(&parking->queued) == 0 && wake_one(parking, SHFL_READER);
}

enum wakes { WAKES_NOBODY, WAKES_ONE, WAKES_TO_QUEUE };

/* Whom a holder that leaves is to wake outside. Where somebody waits awake no other is woken, unless the last one was so long ago that it
 * has no processor. Holders that share the lock may count two holds as one. */
static enum wakes whom_to_wake(struct shfl_parking *parking) {
    uint32_t holds = __atomic_load_n(&parking->holds, __ATOMIC_RELAXED) + 1;
    __atomic_store_n(&parking->holds, holds, __ATOMIC_RELAXED);
    bool alone = shfl_load(&parking->inside) == 0;
    if (holds % PASSED != 0) return alone ? WAKES_ONE : WAKES_NOBODY;
    uint64_t now = shfl_clock();
    if (now - __atomic_load_n(&shfl_total_of(parking)->promoted_at, __ATOMIC_RELAXED) >= PASSED_NS) {
        __atomic_store_n(&shfl_total_of(parking)->promoted_at, now, __ATOMIC_RELAXED);
        return WAKES_TO_QUEUE;
    }
    uint64_t since = now - __atomic_load_n(&shfl_total_of(parking)->woken_at, __ATOMIC_RELAXED);
    return alone || since >= WAKING_NS ? WAKES_ONE : WAKES_NOBODY;
}

/* Who woke one that is to queue lets it go first: it doesn't try once where the lock isn't free. */
static void after_passing(struct shfl_thread *me, struct shfl_parking *parking) {
    enum wakes wakes = whom_to_wake(parking);
    if (wakes == WAKES_NOBODY) return;
    if (wakes == WAKES_TO_QUEUE) shfl_store(&parking->promoted, 1);
    bool woke = shfl_wake_outside(parking);
    if (woke && wakes == WAKES_TO_QUEUE) me->aside = 1;
}

void shfl_wake_next(struct shfl_thread *me, struct shfl_parking *parking) {
    if (shfl_load(&parking->head_asleep)) shfl_ring(&parking->head_asleep);
    else if (shfl_load(&parking->outside)) after_passing(me, parking);
}
