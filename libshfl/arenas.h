/* The arenas of the process. The first one opens with it; where no number is left for a lock, one more does, of as many locks, and the numbers go on
 * there. In each arena a thread has the seat of its own number. A call first tries the first arena's, which refuses the lock of another one as a lock
 * that isn't there, and only then comes here: so locks of the first arena pay nothing for the others. Proved is what a seat does in its arena; which
 * arena it is isn't. */
#ifndef SHFL_ARENAS_H
#define SHFL_ARENAS_H
#include "inside.h"

/* A thread's seat in a lock's arena, and the lock's number there. */
struct shfl_place { struct shfl_seat *seat; uint32_t lock; };

/* Of a number that no lock has, the first arena's seat, which refuses it. */
static inline struct shfl_place shfl_place_of(struct shfl_thread *me, uint32_t lock) {
    uint32_t locks = shfl_process.arena_locks, arena = lock / locks;
    if (arena == 0 || arena >= shfl_load(&shfl_process.arena_count)) return (struct shfl_place){&me->seat, lock};
    return (struct shfl_place){&shfl_process.desks[arena][me->number].seat, lock % locks};
}

static inline uint8_t shfl_attempt(struct shfl_thread *me, uint32_t lock, bool shared) {
    struct shfl_place at = shfl_place_of(me, lock);
    return shfl_seat_attempt(at.seat, at.lock, shared);
}

static inline uint8_t shfl_release(struct shfl_thread *me, uint32_t lock) {
    struct shfl_place at = shfl_place_of(me, lock);
    return shfl_seat_release(at.seat, at.lock);
}

/* How this thread holds the lock: 0 not at all, 1 as a writer, 2 as a reader. */
static inline uint8_t shfl_hold(struct shfl_thread *me, uint32_t lock) {
    struct shfl_place at = shfl_place_of(me, lock);
    return shfl_seat_hold(at.seat, at.lock);
}

#ifndef SHFL_HEAP_H
static inline void shfl_find_register(void) {}
#endif

/* Opens one more arena, unless there are other locks than so many by now. EAGAIN: there are as many arenas as may be; ENOMEM. */
int shfl_grow(uint32_t had);
#endif
