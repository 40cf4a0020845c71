/* The numbers of locks: which lock has which. Proved is what a seat does at a number; that no two locks in use have one, is this file's. */
#include "arenas.h"
#include "process.h"

uint32_t shfl_fresh_locks, shfl_free_locks;

/* What is counted at the number from now on is another lock's. In the child of a fork a number may never be used again. */
static void leave_number(uint32_t lock, bool comes_back) {
    shfl_count_end(lock);
    shfl_guard_lock(&shfl_lists);
    __atomic_store_n(&shfl_process.totals[lock].address, NULL, __ATOMIC_SEQ_CST);
    shfl_record_end(lock);
    if (comes_back) {
        shfl_process.totals[lock].next_free = shfl_free_locks;
        shfl_free_locks = lock + 1;
    }
    shfl_guard_unlock(&shfl_lists);
}

void shfl_leave_number(uint32_t lock) { leave_number(lock, false); }
void shfl_take_number_back(uint32_t lock) { leave_number(lock, true); }

/* The k-th number that is given. Four locks stand on one cache line, so neighbours in time stand on lines of their own. */
uint32_t shfl_number_at(uint32_t k) {
    uint32_t locks = shfl_process.arena_locks, quarter = locks / 4, within = k % locks;
    return within < 4 * quarter ? k - within + within % quarter * 4 + within / quarter : k;
}

/* False: none is free of as many as `had` says. */
static bool take_number_of(uint32_t *lock, uint32_t *had) {
    bool is_done = true;
    shfl_guard_lock(&shfl_lists);
    *had = shfl_process.lock_count;
    if (shfl_free_locks > 0) {
        *lock = shfl_free_locks - 1;
        shfl_free_locks = shfl_process.totals[*lock].next_free;
    } else if (shfl_fresh_locks < *had) {
        *lock = shfl_number_at(shfl_fresh_locks++);
    } else {
        is_done = false;
    }
    shfl_guard_unlock(&shfl_lists);
    return is_done;
}

static int take_number(uint32_t *lock) {
    int error = 0;
    for (uint32_t had; !error && !take_number_of(lock, &had);) error = shfl_grow(had);
    return error;
}

uint32_t shfl_numbers_given(void) {
    shfl_guard_lock(&shfl_lists);
    uint32_t given = shfl_fresh_locks;
    shfl_guard_unlock(&shfl_lists);
    return given;
}

/* Puts the lock at this address, if it has this number still, into a class. Those that wait for it already stay as they are. */
int shfl_put_into(uint32_t lock, const void *address, uint32_t class_of) {
    if (class_of >= SHFL_CLASSES || !address || lock >= shfl_load(&shfl_process.lock_count)) return EINVAL;
    shfl_guard_lock(&shfl_lists);
    bool there = shfl_process.totals[lock].address == address;
    if (there) shfl_store(&shfl_parking_of(lock)->class_of, class_of);
    shfl_guard_unlock(&shfl_lists);
    return there ? 0 : ENOENT;
}

/* Of several threads that use a lock first, one gives it its number. */
SHFL_COLD int shfl_give_number(uint32_t *word, uint32_t class_of, uint32_t *lock) {
    int error = shfl_open_process();
    if (error) return error;
    error = take_number(lock);
    if (error) return error;
    shfl_store(&shfl_parking_of(*lock)->class_of, class_of % SHFL_CLASSES);
    __atomic_store_n(&shfl_process.totals[*lock].address, word, __ATOMIC_SEQ_CST);
    uint32_t none = 0;
    if (!__atomic_compare_exchange_n(word, &none, *lock + 1, false, __ATOMIC_SEQ_CST, __ATOMIC_SEQ_CST)) {
        shfl_take_number_back(*lock);
        *lock = none - 1;
    }
    return 0;
}
