/* What mutexes and locks for readers and writers have in common: the errors, the locks that a thread took again, the counts. Proved is that
 * a seat takes no lock that it holds, gives none back that it doesn't, and that a writer holds alone (crates/shfl_seats). Not proved is what stands
 * here: how often a reader took its lock, which error is answered, and that a number names one lock. */
#include <fcntl.h>
#include <stdlib.h>
#include "arenas.h"
#include "locking.h"
#include "process.h"
#include "races.h"
#include "waits.h"

/* A place for one more lock that this thread takes again. */
static struct shfl_again *room_for_again(struct shfl_thread *me) {
    if (me->again_count == me->again_room) {
        uint32_t room = me->again_room ? 2 * me->again_room : 8;
        struct shfl_again *again = realloc(me->again, room * sizeof *again);
        if (!again) return NULL;
        me->again = again;
        me->again_room = room;
    }
    return &me->again[me->again_count++];
}

/* A reader takes its lock again: that is counted here, and the seat holds it once. */
static int take_again(struct shfl_thread *me, uint32_t lock) {
    for (uint32_t k = 0; k < me->again_count; k++) {
        if (me->again[k].lock != lock) continue;
        if (me->again[k].times == UINT32_MAX) return EAGAIN;
        me->again[k].times++;
        return 0;
    }
    struct shfl_again *place = room_for_again(me);
    if (!place) return ENOMEM;
    *place = (struct shfl_again){lock, 1};
    __atomic_fetch_or(&me->unusual, SHFL_HAS_AGAIN, __ATOMIC_SEQ_CST);
    return 0;
}

static bool give_again(struct shfl_thread *me, uint32_t lock) {
    for (uint32_t k = 0; k < me->again_count; k++) {
        if (me->again[k].lock != lock) continue;
        if (--me->again[k].times == 0) me->again[k] = me->again[--me->again_count];
        if (me->again_count == 0) __atomic_fetch_and(&me->unusual, ~(uint32_t)SHFL_HAS_AGAIN, __ATOMIC_SEQ_CST);
        return true;
    }
    return false;
}

/* What an attempt that neither won nor lost is answered. */
static SHFL_COLD int other_answer(struct shfl_thread *me, uint32_t *word, uint32_t lock, bool shared, uint8_t answer, int held) {
    if (answer == SHFL_HELD && shared && shfl_hold(me, lock) == 2) return take_again(me, lock);
    if (answer == SHFL_HELD) return held == EBUSY ? held : shfl_refuse(held, word, "a thread takes a lock that it has");
    return answer == SHFL_NO_MEMORY ? ENOMEM : EINVAL;
}

void shfl_wake_next_behind(struct shfl_thread *me, struct shfl_parking *behind) { shfl_wake_next(me, behind - 1); }

void shfl_count_taken_anew(struct shfl_thread *me, struct shfl_parking *behind, bool shared) {
    struct shfl_parking *parking = behind - 1;
    uint32_t lock = (uint32_t)(parking - shfl_process.parkings);
    shfl_more(shared ? &shfl_counts_of(me, lock)->taken : &parking->taken, 1);
    if (!shared) shfl_count_hand_over(parking, shfl_mark_of(me));
    shfl_happens(me, lock, shared ? SHFL_TAKES_SHARED : SHFL_TAKES_ALONE);
}

/* The thread doesn't get the lock that it was about to take. */
static int had_not(struct shfl_thread *me, int error) {
    shfl_not_taken(me);
    return error;
}

/* The thread has the lock. */
static int had(struct shfl_thread *me, const uint32_t *word, bool shared) {
    shfl_count_taken(me, word, shared);
    shfl_took(me, word);
    return 0;
}

SHFL_COLD int shfl_take_first(uint32_t *word, bool shared) {
    int error = 0;
    uint32_t lock;
    struct shfl_thread *me = shfl_self(&error);
    if (!me) return error;
    error = shfl_number(word, shfl_class_behind(word), &lock);
    return error ? error : shfl_take(word, shared);
}

/* An attempt in the first arena was answered so, which knows no lock of another one; and none is known before its first use. */
int shfl_take_after(uint32_t *word, bool shared, uint8_t answer, const void *caller) {
    struct shfl_thread *me = shfl_me;
    uint32_t lock = __atomic_load_n(word, __ATOMIC_ACQUIRE) - 1;
    if (answer == SHFL_BAD) {
        int error = shfl_number(word, shfl_class_behind(word), &lock);
        if (error) return had_not(me, error);
        answer = shfl_attempt(me, lock, shared);
    }
    if (answer == SHFL_DONE) return had(me, word, shared);
    if (answer != SHFL_BUSY) return had_not(me, other_answer(me, word, lock, shared, answer, EDEADLK));
    if (shared) shfl_ring(&shfl_parking_of(lock)->head_asleep);
    if (!caller) return had_not(me, EBUSY);
    uint64_t since = shfl_clock();
    shfl_count_contended(me, lock);
    shfl_begins_to_wait(me, lock, shared, caller);
    bool rested = shfl_fork_rests(lock + 1);
    int error = shfl_wait(me, lock, shared);
    if (rested) shfl_fork_goes_on();
    shfl_count_waited(me, lock, since);
    return error ? had_not(me, error) : had(me, word, shared);
}

/* A reader that tries in vain is counted for a moment. Who wanted to write may have found that, and sleep now beside a free lock; so where somebody sleeps it tries again. */
static uint8_t try_as(struct shfl_thread *me, uint32_t lock, bool shared) {
    uint8_t answer = shfl_attempt(me, lock, shared);
    if (answer != SHFL_BUSY || !shared) return answer;
    struct shfl_parking *parking = shfl_parking_of(lock);
    return shfl_load(&parking->outside) > 0 && shfl_load(&parking->inside) == 0 ? shfl_attempt(me, lock, true) : answer;
}

int shfl_try(uint32_t *word, bool shared) {
    int error = 0;
    uint32_t lock;
    struct shfl_thread *me = shfl_self(&error);
    if (!me) return error;
    error = shfl_number(word, shfl_class_behind(word), &lock);
    if (error) return error;
    shfl_taking(me);
    uint8_t answer = try_as(me, lock, shared);
    if (answer == SHFL_DONE) return had(me, word, shared);
    shfl_not_taken(me);
    if (answer != SHFL_BUSY) return other_answer(me, word, lock, shared, answer, EBUSY);
    shfl_count_contended(me, lock);
    if (shared) shfl_ring(&shfl_parking_of(lock)->head_asleep);
    shfl_fork_pauses(lock + 1);
    return EBUSY;
}

/* The thread found the lock taken. */
static int wait_until(struct shfl_thread *me, uint32_t lock, bool shared, clockid_t clock, const struct timespec *deadline) {
    if (shared) shfl_ring(&shfl_parking_of(lock)->head_asleep);
    if (!deadline || deadline->tv_nsec < 0 || deadline->tv_nsec > 999999999) return EINVAL;
    if (clock != CLOCK_MONOTONIC && clock != CLOCK_REALTIME) return EINVAL;
    uint64_t since = shfl_clock();
    shfl_count_contended(me, lock);
    shfl_begins_to_wait(me, lock, shared, SHFL_CALLER(me));
    bool rested = shfl_fork_rests(lock + 1);
    int error = shfl_wait_until(me, lock, shared, clock, deadline);
    if (rested) shfl_fork_goes_on();
    shfl_count_waited(me, lock, since);
    if (error) shfl_happens(me, lock, SHFL_GIVES_UP);
    return error;
}

int shfl_take_until(uint32_t *word, bool shared, clockid_t clock, const struct timespec *deadline) {
    int error = 0;
    uint32_t lock;
    struct shfl_thread *me = shfl_self(&error);
    if (!me) return error;
    error = shfl_number(word, shfl_class_behind(word), &lock);
    if (error) return error;
    shfl_taking(me);
    uint8_t answer = shfl_attempt(me, lock, shared);
    if (answer == SHFL_BUSY) error = wait_until(me, lock, shared, clock, deadline);
    else if (answer != SHFL_DONE) return had_not(me, other_answer(me, word, lock, shared, answer, EDEADLK));
    return error ? had_not(me, error) : had(me, word, shared);
}

/* Whether the lock with this number is where it was. The system looks, since the program may have given the memory away. */
static bool is_there(uint32_t *word, uint32_t number) {
    int before = errno;
    bool has = word && syscall(SYS_futex, word, FUTEX_CMP_REQUEUE | FUTEX_PRIVATE_FLAG, 0, NULL, word, number) == 0;
    errno = before;
    return has;
}

/* What the system says of the process's mappings, byte by byte. */
struct mappings { int file; size_t at, has; char text[1024]; };

static int next_byte(struct mappings *it) {
    if (it->at == it->has) {
        ssize_t came = read(it->file, it->text, sizeof it->text);
        it->at = 0;
        it->has = came > 0 ? (size_t)came : 0;
        if (it->has == 0) return -1;
    }
    return (unsigned char)it->text[it->at++];
}

static uintptr_t next_number(struct mappings *it) {
    uintptr_t number = 0;
    for (int c; (c = next_byte(it)) > ' ' && c != '-';) number = number * 16 + (uintptr_t)(c <= '9' ? c - '0' : c - 'a' + 10);
    return number;
}

/* A line is `FROM-TO rwxp ..`; the fourth letter is p where nobody else sees what is written there. */
static bool is_private(struct mappings *it, uintptr_t at) {
    for (int c = 0; c >= 0;) {
        uintptr_t from = next_number(it), to = next_number(it);
        for (int k = 0; k < 4; k++) c = next_byte(it);
        if (from <= at && at < to) return c == 'p';
        while (c >= 0 && c != '\n') c = next_byte(it);
    }
    return false;
}

/* Whether this process alone sees what is written there; a lock that only its parent uses may lie in memory that they share. */
static bool is_own(const void *at) {
    int before = errno;
    struct mappings it = {open("/proc/self/maps", O_RDONLY | O_CLOEXEC), 0, 0, {0}};
    bool done = it.file >= 0 && is_private(&it, (uintptr_t)at);
    if (it.file >= 0) close(it.file);
    errno = before;
    return done;
}

/* In the child of a fork this thread has a lock in whose words others may stand that aren't there. It has it by another number from now on, before any
 * new thread comes to it. False: that can't be, and all is as it was. */
bool shfl_renumber(struct shfl_thread *me, uint32_t lock) {
    uint32_t *word = (uint32_t *)(uintptr_t)shfl_process.totals[lock].address, number = 0, fresh;
    if (!is_there(word, lock + 1) || !is_own(word) || shfl_give_number(&number, shfl_load(&shfl_parking_of(lock)->class_of), &fresh)) return false;
    if (shfl_attempt(me, fresh, shfl_hold(me, lock) == 2) != SHFL_DONE) {
        shfl_take_number_back(fresh);
        return false;
    }
    for (uint32_t k = 0; k < me->again_count; k++)
        if (me->again[k].lock == lock) me->again[k].lock = fresh;
    shfl_release(me, lock);
    shfl_leave_number(lock);
    __atomic_store_n(&shfl_process.totals[fresh].address, word, __ATOMIC_SEQ_CST);
    __atomic_store_n(word, number, __ATOMIC_SEQ_CST);
    return true;
}

/* Where that couldn't be, the lock is given back so: the seat keeps its number, and the lock's next use gives it another. Of a read lock others may read by the number
 * meanwhile, so it stays. */
static SHFL_COLD bool leave_number(struct shfl_thread *me, uint32_t *word, uint32_t lock) {
    if (!shfl_process.totals[lock].stale || shfl_hold(me, lock) == 0) return false;
    if (shfl_hold(me, lock) == 2) return shfl_process.totals[lock].stale = 0, false;
    shfl_given(me, word);
    shfl_leave_number(lock);
    __atomic_store_n(word, 0, __ATOMIC_SEQ_CST);
    return true;
}

SHFL_COLD int shfl_refuse_to_give(const uint32_t *word) { return shfl_refuse(EPERM, word, "a thread gives a lock back that it doesn't have"); }

static int give_back_in_place(struct shfl_thread *me, uint32_t *word, uint32_t lock) {
    if (shfl_release(me, lock) != SHFL_DONE) return shfl_refuse_to_give(word);
    shfl_given(me, word);
    shfl_wake_next(me, shfl_parking_of(lock));
    return 0;
}

/* The thread has the lock that it was about to give back. The first arena knows no lock of another one. */
int shfl_not_given_back(struct shfl_thread *me) {
    uint32_t *word = me->giving;
    uint32_t number = __atomic_load_n(word, __ATOMIC_ACQUIRE);
    return number > shfl_process.arena_locks ? give_back_in_place(me, word, number - 1) : shfl_refuse_to_give(word);
}

static int give_back_looking(struct shfl_thread *me, uint32_t *word, uint32_t lock) {
    if (give_again(me, lock)) return 0;
    if ((shfl_load(&me->unusual) & SHFL_IS_STALE) && lock < shfl_load(&shfl_process.lock_count) && leave_number(me, word, lock)) return 0;
    shfl_happens(me, lock, SHFL_FREES);
    return give_back_in_place(me, word, lock);
}

static void leave_seat_at_end(struct shfl_thread *me) {
    if (me->holding == 0 && (shfl_load(&me->unusual) & SHFL_IS_ENDING)) shfl_leave_seat(me);
}

/* A lock that was taken again, or one that is stale or recorded; or another one of a thread that has such a lock, or that ends or forks, or while one is recorded. */
int shfl_give_back_other(struct shfl_thread *me, uint32_t *word, uint32_t number) {
    if (shfl_load(&me->unusual) & SHFL_IS_FORKING) {
        shfl_child_hears();
        number = __atomic_load_n(word, __ATOMIC_ACQUIRE);
    }
    int error = give_back_looking(me, word, number - 1);
    leave_seat_at_end(me);
    return error;
}

/* Gives the lock's number back, where nobody has the lock. */
int shfl_end(uint32_t *word) {
    if (__atomic_load_n(word, __ATOMIC_ACQUIRE) == 0) return 0;
    int error = shfl_try(word, false);
    if (error == EBUSY) return shfl_refuse(EBUSY, word, "a lock is destroyed that somebody has");
    if (error) return error;
    uint32_t number = __atomic_exchange_n(word, 0, __ATOMIC_SEQ_CST);
    shfl_release(shfl_me, number - 1);
    shfl_given(shfl_me, word);
    shfl_races_ended(word);
    shfl_take_number_back(number - 1);
    leave_seat_at_end(shfl_me);
    return 0;
}
