/* Forks, and the guards of C's own lists, which a thread that forks has. What the child has of the locks stands here, and isn't proved: of what was proved of a seat nothing is
 * lost by it, since the child's one thread goes on with its own. */
#include <pthread.h>
#include "arenas.h"
#include "locking.h"
#include "process.h"
#include "races.h"

static uint32_t hears; /* 1 once the handlers are registered */

/* This thread forks and has every guard: another handler of the fork may use locks too. */
static __thread bool forks __attribute__((tls_model("initial-exec")));
static uint32_t forking; /* how many threads do, or are about to */
static pid_t forked; /* the process that does */

static shfl_guard turn; /* of those that fork, also while one rests */
static __thread bool has_turn __attribute__((tls_model("initial-exec")));
static uint32_t rests_for; /* the lock for which the one rests whose turn it is, plus one, or 0 */

static bool guard_at_once(shfl_guard *guard) {
    uint32_t none = 0;
    if (forks) shfl_child_hears();
    return forks || __atomic_compare_exchange_n(guard, &none, 1, false, __ATOMIC_SEQ_CST, __ATOMIC_SEQ_CST);
}

void shfl_guard_lock(shfl_guard *guard) {
    if (guard_at_once(guard)) return;
    while (__atomic_exchange_n(guard, 2, __ATOMIC_SEQ_CST) != 0) shfl_futex(guard, FUTEX_WAIT, 2, NULL);
}

/* False: a thread forks. A handler of its fork may wait for this one to end. */
bool shfl_guard_lock_unless_forking(shfl_guard *guard) {
    if (guard_at_once(guard)) return true;
    while (__atomic_exchange_n(guard, 2, __ATOMIC_SEQ_CST) != 0) {
        if (shfl_load(&forking) > 0) return false;
        shfl_sleep(guard, 2, 1000000);
    }
    return true;
}

void shfl_guard_unlock(shfl_guard *guard) {
    if (!forks && __atomic_exchange_n(guard, 0, __ATOMIC_SEQ_CST) == 2) shfl_wake_one(guard);
}

/* What it gives back as it forks it looks at twice. */
void shfl_seated_in_fork(struct shfl_thread *me) {
    if (forks) __atomic_fetch_or(&me->unusual, SHFL_IS_FORKING, __ATOMIC_SEQ_CST);
}

/* While one rests in a handler another one that forks would have the guards, and its handler wait for what this one's has; so it waits here. But one that has the lock for which this one rests goes
 * before, since this one can't. */
static void take_turn(void) {
    while (!has_turn && __atomic_exchange_n(&turn, 2, __ATOMIC_SEQ_CST) != 0) {
        uint32_t number = shfl_load(&rests_for);
        if (number != 0 && shfl_me && shfl_hold(shfl_me, number - 1) != 0) return;
        shfl_sleep(&turn, 2, 1000000);
    }
    has_turn = true;
}

static void give_turn(void) {
    if (has_turn) shfl_guard_unlock(&turn);
    has_turn = false;
}

static void take_guards(void) {
    __atomic_fetch_add(&forking, 1, __ATOMIC_SEQ_CST);
    shfl_guard_lock(&shfl_process.is_loading);
    shfl_guard_lock(&shfl_lists);
    for (int k = 0; k < SHFL_CLASSES; k++) shfl_guard_lock(&shfl_process.classes[k].guard);
    for (uint32_t k = 0; k < SHFL_COUNTED; k++) shfl_guard_lock(&shfl_process.moving[k]);
    shfl_guard_lock(&shfl_process.ending);
    shfl_heap_stop();
    shfl_control_stop();
    forked = getpid();
    forks = true;
    if (shfl_me) shfl_seated_in_fork(shfl_me);
}

static void before_fork(void) {
    take_turn();
    take_guards();
}

static void give_guards(void) {
    forks = false;
    if (shfl_me) __atomic_fetch_and(&shfl_me->unusual, ~(uint32_t)SHFL_IS_FORKING, __ATOMIC_SEQ_CST);
    shfl_control_go_on();
    shfl_heap_go_on();
    shfl_guard_unlock(&shfl_process.ending);
    for (uint32_t k = SHFL_COUNTED; k-- > 0;) shfl_guard_unlock(&shfl_process.moving[k]);
    for (int k = SHFL_CLASSES; k-- > 0;) shfl_guard_unlock(&shfl_process.classes[k].guard);
    shfl_guard_unlock(&shfl_lists);
    shfl_guard_unlock(&shfl_process.is_loading);
    __atomic_fetch_sub(&forking, 1, __ATOMIC_SEQ_CST);
}

static void after_fork(void) {
    give_guards();
    give_turn();
}

/* Handlers that the program registered before the library was opened run while this thread has every guard. One that waits for a lock of another thread's, which may need a guard, lets go of
 * them meanwhile. It stays the one that forks. */
bool shfl_fork_rests(uint32_t number) {
    if (forks) shfl_child_hears();
    if (!forks) return false;
    if (has_turn) shfl_store(&rests_for, number);
    give_guards();
    return true;
}

void shfl_fork_goes_on(void) {
    if (has_turn) shfl_store(&rests_for, 0);
    take_guards();
}

/* Who tries again and again until the lock is free would keep its holder from a guard, so others have the guards for as long as a thread takes to wake and come to one. */
SHFL_COLD void shfl_fork_pauses(uint32_t number) {
    static uint32_t never;
    if (!shfl_fork_rests(number)) return;
    shfl_sleep(&never, 0, 100000);
    shfl_fork_goes_on();
}

static shfl_guard opening;

bool shfl_begin_opening(void) {
    bool rested = shfl_fork_rests(0);
    shfl_guard_lock(&opening);
    return rested;
}

void shfl_end_opening(bool rested) {
    shfl_guard_unlock(&opening);
    if (rested) shfl_fork_goes_on();
}

/* What this thread has it has by another number from now on, or it stays stale. All of it is noted first, so that none that is given here is given up for another. */
static void renumber_all(struct shfl_thread *me, uint32_t given) {
    for (uint32_t k = 0; k < given; k++)
        if (shfl_hold(me, shfl_number_at(k)) != 0) shfl_process.totals[shfl_number_at(k)].stale = 1;
    for (uint32_t k = 0; k < given; k++) {
        uint32_t lock = shfl_number_at(k);
        if (shfl_process.totals[lock].stale && shfl_hold(me, lock) != 0 && !shfl_renumber(me, lock)) me->unusual |= SHFL_IS_STALE;
    }
}

/* Nobody else has a seat in the child. One that was at rest goes to a new thread; in the others a call stands in its midst, or a lock's words name them, so these stay. Each is looked
 * at once more when it is needed. */
static void free_seats_of_others(struct shfl_thread *me) {
    for (uint32_t k = 0; k < shfl_process.threads_seen; k++) {
        struct shfl_thread *thread = &shfl_process.threads[k];
        if (thread == me) continue;
        thread->in_round = 0;
        if (thread->tid != 0 && thread->holding == 0) shfl_lose_seat(thread);
        thread->tid = 0;
    }
}

/* Whoever takes a lock counts it before, and whoever gives one back behind that: so a seat that counts none rests and has none. That is looked at all the same, since the counts aren't proved. */
bool shfl_rests(struct shfl_thread *thread) {
    if (!shfl_seat_set_attr(&thread->seat, thread->attr)) return false;
    for (uint32_t k = 0; k < shfl_fresh_locks; k++)
        if (shfl_hold(thread, shfl_number_at(k)) != 0) return false;
    return true;
}

/* In the child of a fork only the thread that called it goes on. The guards are free there; who held a lock, holds it for good; who
 * waited, or was in the midst of an attempt, stands so in the lock's words for good. So where this thread has a lock it has it by another number
 * from now on; or else the number isn't used again when it is given back. Where nobody waited nothing is written, so that the child has the page in
 * common with its parent still. */
static void in_child(void) {
    struct shfl_thread *me = shfl_me;
    int cancels;
    forked = getpid();
    shfl_store(&opening, 0); /* what was opened just then is lost; a lock that gets another number may open anew */
    pthread_setcancelstate(PTHREAD_CANCEL_DISABLE, &cancels);
    uint32_t given = shfl_seated > (me != NULL) ? shfl_fresh_locks : 0; /* where others had seats */
    for (uint32_t k = 0; k < given; k++) {
        uint32_t lock = shfl_number_at(k);
        struct shfl_parking *parking = shfl_parking_of(lock);
        if (parking->sleepers | parking->inside | parking->queued | parking->promoted)
            parking->sleepers = parking->inside = parking->queued = parking->promoted = shfl_process.totals[lock].readers = 0;
    }
    if (me && me->holding > 0) renumber_all(me, given);
    shfl_free_left_seats(); /* before it is counted anew how many have seats */
    free_seats_of_others(me);
    if (me) me->tid = (uint32_t)syscall(SYS_gettid);
    shfl_seated = me != NULL;
    shfl_owner = getpid();
    shfl_store(&forking, 1);
    shfl_store(&rests_for, 0);
    if (!has_turn) shfl_store(&turn, 0);
    after_fork();
    shfl_control_forked();
    pthread_setcancelstate(cancels, NULL);
}

/* In the child handlers of such a program come before the library's, so it is the first call there that could miss it which does what is to be done.
 * It knows the child by its number, which is its parent's where either is the first one of a namespace of processes: there it learns it from the library's handler alone. */
void shfl_child_hears(void) {
    if (forks && forked != getpid()) in_child();
}

static void at_child(void) {
    if (forks) in_child();
}

int shfl_hear_of_forks(void) {
    shfl_races_own(&opening, sizeof opening);
    shfl_races_own(&forking, sizeof forking);
    shfl_races_own(&turn, sizeof turn);
    shfl_races_own(&rests_for, sizeof rests_for);
    if (shfl_load(&hears) || __atomic_exchange_n(&hears, 1, __ATOMIC_SEQ_CST)) return 0;
    int error = pthread_atfork(before_fork, after_fork, at_child);
    if (error) shfl_store(&hears, 0);
    return error;
}
