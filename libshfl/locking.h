/* Taking a lock that is free, and giving it back where nobody waits: in line, since that is what most calls do. All else is locking.c's.
 * Proved is what the seat's two calls do; that each is asked for the word's own lock, the counts, and whom a release wakes, stand here. */
#ifndef SHFL_LOCKING_H
#define SHFL_LOCKING_H
#include "inside.h"
#pragma GCC visibility push(hidden)

/* `shfl_me` by a name of its own, for who asks again behind a call: so the compiler finds the place anew, and saves no register for it before. */
extern __thread struct shfl_thread *shfl_me_again __attribute__((tls_model("initial-exec")));

/* Taking and giving back where this thread has no seat yet, or the lock no number; where an attempt has found what it answers; where a lock was taken again. */
int shfl_take_first(uint32_t *word, bool shared);
int shfl_take_after(uint32_t *word, bool shared, uint8_t answer, const void *caller);
int shfl_give_back_other(struct shfl_thread *me, uint32_t *word, uint32_t number);
int shfl_not_given_back(struct shfl_thread *me);
int shfl_refuse_to_give(const uint32_t *word);
void shfl_count_taken_anew(struct shfl_thread *me, struct shfl_parking *behind, bool shared);
void shfl_wake_next_behind(struct shfl_thread *me, struct shfl_parking *behind);
bool shfl_renumber(struct shfl_thread *me, uint32_t lock);
void shfl_leave_seat(struct shfl_thread *me); /* process.c: of a thread that ends, with its last lock */

int shfl_try(uint32_t *word, bool shared);
int shfl_take_until(uint32_t *word, bool shared, clockid_t clock, const struct timespec *deadline);
int shfl_end(uint32_t *word);

/* Where this thread looks for its counts of a lock; read once, since another one may change it meanwhile (record.c). */
SHFL_IN_LINE struct shfl_counted *shfl_known_at(struct shfl_thread *me, uint32_t lock) {
    struct shfl_counted *at = &me->known[shfl_counted_at(lock)];
    __asm__("" : "+r"(at));
    return at;
}

/* Behind the parking of the lock of this number, which isn't 0: so the number isn't made smaller first. */
SHFL_IN_LINE struct shfl_parking *shfl_behind_parking(uint32_t number) {
    struct shfl_parking *behind = &shfl_process.parkings[number];
    __asm__("" : "+r"(behind));
    return behind;
}

/* A program that knows pthread alone reads no counts, and where no control socket is asked for nobody else does: there takings aren't counted, since where
 * threads take a lock in turn that moves one line more between them. */
#ifdef SHFL_HEAP_H
#define SHFL_UNHEARD (shfl_process.unheard != 0)
#else
#define SHFL_UNHEARD false
#endif

/* Who has the lock alone counts at the lock, and in line if it was the last one, too, and none is recorded; a reader in its own table. */
SHFL_IN_LINE void shfl_count_taken(struct shfl_thread *me, const uint32_t *word, bool shared) {
    if (SHFL_UNHEARD) return;
    uint32_t number = __atomic_load_n(word, __ATOMIC_RELAXED);
    struct shfl_parking *behind = shfl_behind_parking(number);
    struct shfl_counted *at = shared ? shfl_known_at(me, number - 1) : NULL;
    bool counts = shared ? at->tag == shfl_tag(number - 1)
                         : shfl_is_same(&behind[-1].last, __atomic_load_n(&me->mark, __ATOMIC_RELAXED));
    if (SHFL_LIKELY(counts)) shfl_more(shared ? &at->counts.taken : &behind[-1].taken, 1);
    else shfl_count_taken_anew(me, behind, shared);
}

/* Where the word has no number yet, the seat is asked for a lock that isn't there, and refuses it. What is known before the attempt is read again behind it: a register that
 * keeps it would have to be saved and restored, and each instruction between the operations of two locks is waited for. So the lock counts among the thread's before the attempt:
 * behind its operation that count would have to be written before the next one begins. */
SHFL_IN_LINE int shfl_take(uint32_t *word, bool shared) {
    struct shfl_thread *me = shfl_me;
    if (!SHFL_LIKELY(me != NULL)) return shfl_take_first(word, shared);
    shfl_taking(me);
    uint8_t answer = shfl_seat_attempt(&me->seat, __atomic_load_n(word, __ATOMIC_ACQUIRE) - 1, shared);
    if (!SHFL_LIKELY(answer == SHFL_DONE)) return shfl_take_after(word, shared, answer, SHFL_CALLER(shfl_me_again));
    me = shfl_me_again;
    shfl_took(me, word);
    shfl_count_taken(me, word, shared);
    return 0;
}

/* After the release the lock's own memory isn't touched: whoever takes the lock next may free it. */
SHFL_IN_LINE int shfl_give_back(uint32_t *word) {
    struct shfl_thread *me = shfl_me;
    uint32_t number = __atomic_load_n(word, __ATOMIC_ACQUIRE);
    if (!SHFL_LIKELY(me != NULL)) return shfl_refuse_to_give(word);
    if (!SHFL_LIKELY(shfl_is_zero(&me->unusual))) return shfl_give_back_other(me, word, number);
    me->giving = word;
    if (!SHFL_LIKELY(shfl_seat_release(&me->seat, number - 1) == SHFL_DONE)) return shfl_not_given_back(shfl_me_again);
    me = shfl_me_again;
    shfl_given(me, me->giving);
    struct shfl_parking *behind = shfl_behind_parking(number);
    if (!SHFL_LIKELY(shfl_both_are_zero(&behind[-1].sleepers))) shfl_wake_next_behind(me, behind);
    return 0;
}
#pragma GCC visibility pop
#endif
