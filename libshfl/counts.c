/* What threads count at locks. How often a lock was taken alone, and handed over so, stands at the lock, on the line that whoever has it writes
 * anyway. For the rest each thread has a small table of its own, by the lock's number; where two locks meet in a place, what stands there is
 * added to the first one's totals. So a thread has 24 KB and a lock 120 bytes (and what waits.c has), however long they count, and the sum of
 * what stands at a lock, of its totals and of its entries in all tables is exact. Nothing of this is proved, and who holds a lock doesn't depend on it. */
#include <string.h>
#include "waits.h"

static uint64_t read_of(const uint64_t *count) { return __atomic_load_n(count, __ATOMIC_RELAXED); }

/* Where nothing was counted nothing is written, which another thread may do. */
static void add_one(uint64_t *to, const uint64_t *from) {
    uint64_t more = read_of(from);
    if (more > 0) shfl_more(to, more);
}

/* Adds what was counted, of which another thread may be writing. */
static void add(struct shfl_stat *to, const struct shfl_stat *from) {
    add_one(&to->taken, &from->taken);
    add_one(&to->contended, &from->contended);
    add_one(&to->queued, &from->queued);
    add_one(&to->waited_ns, &from->waited_ns);
    if (read_of(&from->longest_ns) > read_of(&to->longest_ns)) __atomic_store_n(&to->longest_ns, read_of(&from->longest_ns), __ATOMIC_RELAXED);
    add_one(&to->within, &from->within);
    add_one(&to->across, &from->across);
    add_one(&to->questions, &from->questions);
    add_one(&to->yes, &from->yes);
    add_one(&to->skipped, &from->skipped);
}

/* What stands at the lock itself. */
static void add_at_lock(struct shfl_stat *to, const struct shfl_parking *parking) {
    add_one(&to->taken, &parking->taken);
    add_one(&to->within, &parking->within);
    add_one(&to->across, &parking->across);
}

static void clear(struct shfl_stat *counts) {
    uint64_t *at = (uint64_t *)counts;
    for (size_t k = 0; k < sizeof *counts / sizeof *at; k++) __atomic_store_n(&at[k], 0, __ATOMIC_RELAXED);
}

static shfl_guard *moving_of(uint32_t lock) { return &shfl_process.moving[shfl_counted_at(lock)]; }

/* What locks had that aren't any more: of a thread's table, or all that stands in the totals. */
static void add_ended(uint64_t class_of, const struct shfl_stat *counts, const struct shfl_counted *at, uint32_t lock) {
    struct shfl_waits *waits = &shfl_process.ended_waits[class_of % SHFL_CLASSES];
    shfl_guard_lock(&shfl_process.ending);
    add(&shfl_process.ended[class_of % SHFL_CLASSES], counts);
    if (at) shfl_waits_of(waits, at);
    else shfl_waits_add(waits, &shfl_process.lock_waits[lock]);
    shfl_guard_unlock(&shfl_process.ending);
}

/* Between a beginning and an end, both of which change the count of moves, nobody else moves counts of this lock, and readers look again. */
static void begin_move(uint32_t lock) {
    shfl_guard_lock(moving_of(lock));
    __atomic_fetch_add(&shfl_process.totals[lock].moves, 1, __ATOMIC_SEQ_CST);
    __atomic_thread_fence(__ATOMIC_RELEASE);
}

static void end_move(uint32_t lock) {
    __atomic_fetch_add(&shfl_process.totals[lock].moves, 1, __ATOMIC_SEQ_CST);
    shfl_guard_unlock(moving_of(lock));
}

static void give_over(struct shfl_counted *at) {
    uint32_t lock = (uint32_t)at->tag - 1;
    begin_move(lock);
    if (shfl_tag(lock) == at->tag) {
        add(&shfl_process.totals[lock].counts, &at->counts);
        shfl_waits_of(&shfl_process.lock_waits[lock], at);
    } else {
        add_ended(at->class_of, &at->counts, at, lock);
    }
    __atomic_store_n(&at->tag, 0, __ATOMIC_SEQ_CST);
    end_move(lock);
}

SHFL_COLD struct shfl_stat *shfl_count_anew(struct shfl_counted *at, uint32_t lock, uint64_t tag) {
    if (at->tag) give_over(at);
    shfl_waits_clear(at);
    clear(&at->counts);
    __atomic_store_n(&at->class_of, shfl_load(&shfl_parking_of(lock)->class_of), __ATOMIC_RELAXED);
    __atomic_store_n(&at->tag, tag, __ATOMIC_SEQ_CST);
    return &at->counts;
}

/* The thread with this mark holds the lock alone. Who comes again after itself hands nothing over, whatever its socket is now. */
SHFL_COLD void shfl_count_hand_over(struct shfl_parking *parking, uint32_t mark) {
    uint32_t last = __atomic_load_n(&parking->last, __ATOMIC_RELAXED);
    if (last != mark) __atomic_store_n(&parking->last, mark, __ATOMIC_RELAXED);
    uint32_t other = last ^ mark;
    if (last == 0 || other < SHFL_MARK_SOCKETS) return;
    shfl_more(other % SHFL_MARK_SOCKETS == 0 ? &parking->within : &parking->across, 1);
}

SHFL_COLD void shfl_count_waited(struct shfl_thread *me, uint32_t lock, uint64_t since) {
    struct shfl_stat *counts = shfl_counts_of(me, lock);
    uint64_t waited = shfl_clock() - since;
    shfl_more(&counts->waited_ns, waited);
    if (waited > counts->longest_ns) __atomic_store_n(&counts->longest_ns, waited, __ATOMIC_RELAXED);
    shfl_waits_count(&me->counts[shfl_counted_at(lock)], waited);
}

/* The lock isn't any more: what is counted at its number from now on is another one's. */
void shfl_count_end(uint32_t lock) {
    struct shfl_parking *parking = shfl_parking_of(lock);
    struct shfl_total *total = &shfl_process.totals[lock];
    begin_move(lock);
    add_at_lock(&total->counts, parking);
    __atomic_store_n(&parking->taken, 0, __ATOMIC_RELAXED);
    __atomic_store_n(&parking->within, 0, __ATOMIC_RELAXED);
    __atomic_store_n(&parking->across, 0, __ATOMIC_RELAXED);
    add_ended(shfl_load(&parking->class_of), &total->counts, NULL, lock);
    clear(&total->counts);
    shfl_waits_end(lock);
    shfl_store(&parking->generation, parking->generation + 1);
    __atomic_store_n(&parking->last, 0, __ATOMIC_RELAXED);
    end_move(lock);
}

/* Where threads give over to the lock again and again, the last sum is taken though it may have missed one of them. Waits are read before the
 * counts, so there are never more of them than calls that found the lock taken. */
void shfl_sum_lock(uint32_t lock, struct shfl_stat *out, struct shfl_waits *waits) {
    struct shfl_total *total = &shfl_process.totals[lock];
    for (int tries = 0; tries < 64; tries++) {
        uint32_t before = shfl_load(&total->moves);
        uint64_t tag = shfl_tag(lock);
        memset(out, 0, sizeof *out);
        memset(waits, 0, sizeof *waits);
        shfl_waits_add(waits, &shfl_process.lock_waits[lock]);
        add(out, &total->counts);
        add_at_lock(out, shfl_parking_of(lock));
        for (uint32_t k = 0; k < shfl_load(&shfl_process.threads_seen); k++) {
            struct shfl_counted *at = &shfl_process.threads[k].counts[shfl_counted_at(lock)];
            if (__atomic_load_n(&at->tag, __ATOMIC_SEQ_CST) != tag) continue;
            shfl_waits_of(waits, at);
            add(out, &at->counts);
        }
        __atomic_thread_fence(__ATOMIC_ACQUIRE);
        if (before % 2 == 0 && shfl_load(&total->moves) == before) return;
    }
}

/* The class of the lock that a thread counted here. */
static uint64_t class_counted(struct shfl_counted *at, uint64_t tag) {
    uint32_t lock = (uint32_t)tag - 1;
    return shfl_tag(lock) == tag ? shfl_load(&shfl_parking_of(lock)->class_of) : __atomic_load_n(&at->class_of, __ATOMIC_RELAXED);
}

void shfl_sum_class(uint32_t class_of, struct shfl_class_stat *out, struct shfl_waits *waits) {
    struct shfl_process *all = &shfl_process;
    add(&out->counts, &all->ended[class_of]);
    shfl_waits_add(waits, &all->ended_waits[class_of]);
    for (uint32_t k = 0, given = shfl_numbers_given(); k < given; k++) {
        struct shfl_total *total = &all->totals[shfl_number_at(k)];
        if (!__atomic_load_n(&total->address, __ATOMIC_SEQ_CST)) continue;
        struct shfl_parking *parking = shfl_parking_of(shfl_number_at(k));
        if (shfl_load(&parking->class_of) != class_of) continue;
        add_at_lock(&out->counts, parking);
        shfl_waits_add(waits, &all->lock_waits[shfl_number_at(k)]);
        add(&out->counts, &total->counts);
        out->locks++;
    }
    for (uint32_t k = 0; k < shfl_load(&all->threads_seen); k++)
        for (uint32_t place = 0; place < SHFL_COUNTED; place++) {
            struct shfl_counted *at = &all->threads[k].counts[place];
            uint64_t tag = __atomic_load_n(&at->tag, __ATOMIC_SEQ_CST);
            if (!tag || class_counted(at, tag) != class_of) continue;
            shfl_waits_of(waits, at);
            add(&out->counts, &at->counts);
        }
}

int shfl_stat(const void *lock, struct shfl_stat *out) {
    if (!lock || !out) return EINVAL;
    uint32_t number = __atomic_load_n((const uint32_t *)lock, __ATOMIC_ACQUIRE);
    struct shfl_waits waits;
    memset(out, 0, sizeof *out);
    if (number == 0) return 0;
    if (!shfl_process.totals || number > shfl_load(&shfl_process.lock_count)) return EINVAL;
    shfl_sum_lock(number - 1, out, &waits);
    return 0;
}
