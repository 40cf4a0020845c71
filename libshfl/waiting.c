/* Waiting. Nothing here decides who holds a lock: each attempt and step is the proved library's, and a loop that waits badly, or wakes
 * nobody, loses time and order, never exclusion. That sleepers are woken and loops end is this file's, and tested.
 *
 * A thread that finds a lock taken tries for a while, and then sleeps outside the queue; who gives the lock back wakes the one that has
 * slept longest, where nobody else waits awake. After some holds that passed those outside, one is woken to queue, and from then on nobody
 * steals. A thread of a class with a policy queues at once. In the queue it looks for its turn for a while, and then sleeps, until the
 * step that makes it the head, or a round that groups it, wakes it; the head sleeps until the lock is given back.
 *
 * A wakeup is lost only where two things fail: each sleeper announces itself before its last look, each waker looks for that after its
 * step; and a sleeper looks by itself after a tenth of a second.
 */
#include <sched.h>
#include "arenas.h"

/* For how long a thread tries before it sleeps, and again when it was woken; after how many attempts it queues at the latest. */
#define TRYING_NS 5000
#define TRYING_AGAIN_NS 4000
#define TRIES 1000
#define ASLEEP_NS 100000000
/* For how long a thread looks for its turn before it sleeps, and where more than so many wait; the first nap of a head or a shuffler. */
#define LOOKING_NS 20000
#define LOOKING_FAR_NS 2000
#define NEAR 3
#define NAP_NS 100000

/* A thread that takes a lock and didn't get it at once. */
struct waiter {
    struct shfl_thread *me;
    struct shfl_parking *parking;
    struct shfl_class *its;
    struct shfl_place at; /* in the lock's arena */
    uint32_t lock;
    uint32_t tries; /* that are left */
    uint32_t holds; /* as the parking counted them when it came */
    bool shared;
    bool inside; /* it counts there */
};

static struct waiter waiter_of(struct shfl_thread *me, uint32_t lock, bool shared, struct shfl_class *its) {
    struct shfl_parking *parking = shfl_parking_of(lock);
    return (struct waiter){me, parking, its, shfl_place_of(me, lock), lock, TRIES, shfl_load(&parking->holds), shared, false};
}

static void go_inside(struct waiter *waiter) {
    if (!waiter->inside) __atomic_fetch_add(&waiter->parking->inside, 1, __ATOMIC_SEQ_CST);
    waiter->inside = true;
}

static void leave_inside(struct waiter *waiter) {
    if (waiter->inside) __atomic_fetch_sub(&waiter->parking->inside, 1, __ATOMIC_SEQ_CST);
    waiter->inside = false;
}

static bool try_once(struct waiter *waiter) {
    if (waiter->tries > 0) waiter->tries--;
    return shfl_seat_attempt(waiter->at.seat, waiter->at.lock, waiter->shared) == SHFL_DONE;
}

/* Tries with pauses that grow, so that many who try leave the lock word to who holds. */
static bool spin_trying(struct waiter *waiter, uint64_t most) {
    uint64_t until = shfl_clock() + most;
    uint32_t hints = 20;
    do {
        shfl_hints(hints);
        if (hints < 640) hints *= 2;
        if (try_once(waiter)) return true;
    } while (waiter->tries > 0 && shfl_clock() < until);
    return false;
}

/* Whether this thread is the one that is to queue. */
static bool is_promoted(struct shfl_parking *parking) {
    return shfl_load(&parking->promoted) && __atomic_exchange_n(&parking->promoted, 0, __ATOMIC_SEQ_CST);
}

/* Sleeps outside. True: it holds the lock instead. Who has announced itself tries once more, since the release that it waits for may
 * have come before; and what a reader's attempt counted may be what the queue's head found in its way. A writer that was awake may have been woken in a reader's place, or have kept others from
 * being woken, and others may read by now: so where nobody else is awake it wakes a reader, which shares with them and wakes the next one. So does each that looked by itself, or came while others
 * slept; where a writer has the lock that is in vain. */
static bool sleep_outside(struct waiter *waiter, uint64_t most) {
    struct shfl_parking *parking = waiter->parking;
    bool passes_on = waiter->inside && !waiter->shared;
    uint32_t *readers = &shfl_total_of(parking)->readers;
    __atomic_fetch_add(&parking->outside, 1, __ATOMIC_SEQ_CST);
    if (waiter->shared) __atomic_fetch_add(readers, 1, __ATOMIC_SEQ_CST);
    uint32_t seen = shfl_load(&parking->wakeups);
    leave_inside(waiter);
    bool won = try_once(waiter);
    if (!won && passes_on && shfl_load(&parking->inside) == 0 && shfl_wake_reader(parking)) {
        seen = shfl_load(&parking->wakeups); /* which that has changed */
        won = try_once(waiter);
    }
    if (!won) {
        if (waiter->shared) shfl_ring(&parking->head_asleep);
        shfl_not_taken(waiter->me); /* meanwhile its seat is at rest */
        waiter->inside = shfl_sleep_as(&parking->wakeups, seen, most, waiter->shared ? SHFL_READER : SHFL_WRITER);
        shfl_taking(waiter->me);
    }
    if (waiter->shared) __atomic_fetch_sub(readers, 1, __ATOMIC_SEQ_CST);
    __atomic_fetch_sub(&parking->outside, 1, __ATOMIC_SEQ_CST);
    return won;
}

/* Whether it was passed so often that it queues. It doesn't where another does: the queue would hand the lock on to a sleeper. */
static bool is_passed(struct waiter *waiter) {
    struct shfl_parking *parking = waiter->parking;
    uint32_t waiting = shfl_load(&parking->outside) + shfl_load(&parking->inside);
    bool passed = waiting > 0 && shfl_load(&parking->holds) - waiter->holds >= 4 * waiting;
    return passed && shfl_load(&parking->queued) == 0;
}

/* Whether the lock's class has got a policy meanwhile: then all queue, and nobody comes past them. */
static bool is_to_queue(struct shfl_parking *parking) { return shfl_load(&shfl_class_at(shfl_load(&parking->class_of))->attached); }

/* True: it holds the lock. False: it is to queue. */
static bool wait_outside(struct waiter *waiter) {
    struct shfl_parking *parking = waiter->parking;
    bool aside = waiter->me->aside;
    waiter->me->aside = 0;
    if (shfl_load(&parking->outside) > 0) go_inside(waiter);
    for (uint64_t most = TRYING_NS; waiter->tries > 0; most = TRYING_AGAIN_NS) {
        if (!aside && spin_trying(waiter, most)) return true;
        if (is_passed(waiter) || is_to_queue(parking)) return false;
        if (sleep_outside(waiter, ASLEEP_NS)) return true;
        aside = false;
        bool promoted = is_promoted(parking);
        if (try_once(waiter)) return true;
        go_inside(waiter);
        if (promoted) return false;
    }
    return false;
}

/* What a thread in the queue knows of its looks in vain. */
struct looks {
    uint32_t *asleep; /* where it sleeps, if it does; null before the first */
    uint64_t until; /* it stays awake until then; 0 afterwards */
    uint32_t rounds; /* that moved nobody */
    uint32_t naps;
    bool once_more; /* before it sleeps */
};

/* True where it stays awake for now, having paused; after a round that moved nobody for longer each time. */
static bool stays_awake(struct looks *looks, bool alone) {
    if (looks->until == 0) return false;
    shfl_hints(alone ? 16u << (looks->rounds < 8 ? looks->rounds : 8) : 2);
    if (shfl_clock() < looks->until) return true;
    looks->until = 0;
    return false;
}

/* Sleeps where it announced that before its last look, and announces it where it hasn't. Where waiters park, a look that finds the wakeup
 * word set is told as one in vain is, so one more is made. Only who can't be told of all that it waits for
 * naps: the head of what stands beside the lock's words, and a shuffler of who comes. */
static void sleep_or_announce(struct looks *looks, bool naps) {
    if (shfl_load(looks->asleep) == 0) {
        shfl_store(looks->asleep, 1);
        looks->once_more = shfl_process.form == SHFL_RW_PARK;
        return;
    }
    if (looks->once_more) {
        looks->once_more = false;
        return;
    }
    uint64_t most = naps ? (uint64_t)NAP_NS << (looks->naps < 7 ? looks->naps : 7) : ASLEEP_NS;
    if (naps) looks->naps++;
    shfl_sleep(looks->asleep, 1, most);
    if (shfl_load(looks->asleep) == 0) looks->until = shfl_clock() + LOOKING_NS;
}

/* A pause after a step that looks again, or after a round that moved nobody and led to a look for the own turn. The head disables
 * stealing, which somebody that left behind it may have enabled again, before it looks on and before it sleeps. */
static void pause_looking(struct waiter *waiter, struct looks *looks, bool for_turn, bool alone) {
    uint32_t *asleep = for_turn ? &waiter->me->asleep : &waiter->parking->head_asleep;
    bool first = looks->asleep != asleep;
    if (first) {
        bool far = for_turn && shfl_load(&waiter->parking->inside) > NEAR;
        looks->asleep = asleep;
        looks->until = shfl_clock() + (far ? LOOKING_FAR_NS : LOOKING_NS);
        looks->naps = 0;
    }
    if (alone) looks->rounds++;
    bool awake = stays_awake(looks, alone);
    if (!for_turn && (first || !awake)) shfl_seat_disable_stealing(waiter->at.seat, waiter->at.lock);
    if (!awake) sleep_or_announce(looks, alone || !for_turn);
}

/* It went on. As the head it takes its announcement back before it makes the next one the head, which announces itself there. */
static void went_on(struct waiter *waiter, struct looks *looks) {
    if (looks->asleep != &waiter->parking->head_asleep) return;
    shfl_store(looks->asleep, 0);
    looks->asleep = NULL;
}

/* Whether the round grouped somebody, and whom the last step called, plus one. */
struct calls { bool grouped; uint32_t again; };

/* Wakes whom this step made ready, and the first one that a round grouped, whose turn is the next one. Where waiters park, one that had parked
 * goes on by its wakeup word, which the step behind this one sets: so it is woken then, too. */
static void call(const struct shfl_watch *watch, struct calls *calls) {
    if (calls->again) shfl_ring(&shfl_process.threads[calls->again - 1].asleep);
    calls->again = 0;
    if (watch->kind == SHFL_WATCH_READY || (watch->kind == SHFL_WATCH_GROUPED && !calls->grouped)) {
        shfl_ring(&shfl_process.threads[watch->whom].asleep);
        if (shfl_process.form == SHFL_RW_PARK) calls->again = watch->whom + 1;
    }
    if (watch->kind == SHFL_WATCH_GROUPED) calls->grouped = true;
    if (watch->kind == SHFL_WATCH_OWN_TURN) calls->grouped = false;
}

/* Steps until the seat holds the lock and has no step to make. It has begun to take it. */
static void drive(struct waiter *waiter) {
    struct shfl_seat *seat = waiter->at.seat;
    struct looks looks = {NULL, 0, 0, 0, false};
    struct calls calls = {false, 0};
    struct shfl_watch watch = shfl_seat_watch(seat);
    for (;;) {
        bool asks = waiter->me->in_round || shfl_load(&waiter->its->attached);
        bool choice = asks && shfl_answer(waiter->me, seat, waiter->lock, waiter->its);
        uint8_t came = shfl_seat_step(seat, choice);
        if (came == SHFL_RESTS) break;
        if (came == SHFL_LOOKS_AGAIN) {
            pause_looking(waiter, &looks, watch.kind == SHFL_WATCH_OWN_TURN, false);
            continue;
        }
        if (came == SHFL_ENDED_ROUND) __atomic_store_n(&waiter->me->in_round, 0, __ATOMIC_RELEASE);
        bool alone = came == SHFL_ENDED_ROUND && !calls.grouped;
        if (!alone) went_on(waiter, &looks);
        call(&watch, &calls);
        watch = shfl_seat_watch(seat);
        /* the head goes on from its round to the lock word */
        if (alone && watch.kind == SHFL_WATCH_OWN_TURN) pause_looking(waiter, &looks, true, true);
    }
    __atomic_store_n(&waiter->me->in_round, 0, __ATOMIC_RELEASE);
    if (shfl_load(&waiter->me->asleep)) shfl_store(&waiter->me->asleep, 0);
}

/* In an arena behind the first one its seat may not have heard yet of the thread's attributes. */
static int wait_in_queue(struct waiter *waiter) {
    struct shfl_parking *parking = waiter->parking;
    struct shfl_seat *seat = waiter->at.seat;
    if (seat != &waiter->me->seat) shfl_seat_set_attr(seat, waiter->me->attr);
    go_inside(waiter);
    shfl_more(&shfl_counts_of(waiter->me, waiter->lock)->queued, 1);
    shfl_happens(waiter->me, waiter->lock, SHFL_QUEUES);
    __atomic_fetch_add(&parking->queued, 1, __ATOMIC_SEQ_CST);
    uint8_t answer = shfl_seat_acquire(seat, waiter->at.lock, waiter->shared);
    if (answer == SHFL_DONE) {
        /* the count of a reader goes up, and down again where that was in vain: the queue's head may have looked meanwhile */
        if (waiter->shared && shfl_seat_step(seat, false) && shfl_seat_step(seat, false)) shfl_ring(&parking->head_asleep);
        drive(waiter);
    }
    __atomic_fetch_sub(&parking->queued, 1, __ATOMIC_SEQ_CST);
    return answer == SHFL_DONE ? 0 : ENOMEM;
}

/* The waiter holds the lock, or gives up. A reader that has it, while nobody queues, wakes the next reader outside, though writers have slept there for longer;
 * where none sleeps the next one, since a holder that left meanwhile may have taken the count of one that wasn't woken for one that is awake; and so does who was
 * woken in vain, in its place. */
static void leave(struct waiter *waiter, bool in_vain) {
    struct shfl_parking *parking = waiter->parking;
    bool woken = waiter->inside;
    leave_inside(waiter);
    if (waiter->shared && !in_vain && shfl_wake_reader(parking)) return;
    bool passes_on = waiter->shared || (in_vain && woken);
    if (passes_on && shfl_load(&parking->outside) > 0 && shfl_load(&parking->inside) == 0) shfl_wake_outside(parking);
}

SHFL_COLD int shfl_wait(struct shfl_thread *me, uint32_t lock, bool shared) {
    struct shfl_class *its = shfl_class_at(shfl_load(&shfl_parking_of(lock)->class_of));
    struct waiter waiter = waiter_of(me, lock, shared, its);
    int error = 0;
    if (shfl_load(&its->attached) || !wait_outside(&waiter)) error = wait_in_queue(&waiter);
    leave(&waiter, error != 0);
    return error;
}

SHFL_COLD int shfl_wait_until(struct shfl_thread *me, uint32_t lock, bool shared, clockid_t clock, const struct timespec *deadline) {
    struct waiter waiter = waiter_of(me, lock, shared, shfl_class_at(0));
    uint64_t at = shfl_time_of(deadline);
    for (;;) {
        waiter.tries = TRIES;
        uint64_t now = shfl_clock_of(clock);
        bool over = now >= at;
        bool won = over ? try_once(&waiter) : spin_trying(&waiter, at - now < TRYING_NS ? at - now : TRYING_NS);
        if (!won && !over) {
            now = shfl_clock_of(clock);
            uint64_t left = at > now ? at - now : 0;
            won = sleep_outside(&waiter, left < ASLEEP_NS ? left : ASLEEP_NS);
        }
        if (won || over) {
            leave(&waiter, !won);
            return won ? 0 : ETIMEDOUT;
        }
    }
}
