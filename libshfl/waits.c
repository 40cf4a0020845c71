/* How long calls waited at a lock, by powers of two, and who waited for it first. Only who has waited comes here: each thread writes at a
 * place of its own, beside its counts (counts.c), and what it gives over is added to the lock's. The memory is mapped and never written
 * where nobody waits. Nothing of this is proved, and who holds a lock doesn't depend on it. */
#include "waits.h"

/* The waits that belong to what a thread counted. */
static struct shfl_waits *waits_at(const struct shfl_counted *at) { return &shfl_process.waits[at - shfl_process.counts]; }

static bool has_waited(const struct shfl_counted *at) { return __atomic_load_n(&at->counts.contended, __ATOMIC_RELAXED) > 0; }

void shfl_waits_add(struct shfl_waits *to, const struct shfl_waits *from) {
    for (int k = 0; k < SHFL_WAITS; k++) {
        uint64_t more = __atomic_load_n(&from->of[k], __ATOMIC_RELAXED);
        if (more > 0) shfl_more(&to->of[k], more);
    }
}

void shfl_waits_of(struct shfl_waits *to, const struct shfl_counted *at) {
    if (has_waited(at)) shfl_waits_add(to, waits_at(at));
}

/* Before the counts beside them are cleared. */
void shfl_waits_clear(const struct shfl_counted *at) {
    if (!has_waited(at)) return;
    for (int k = 0; k < SHFL_WAITS; k++) __atomic_store_n(&waits_at(at)->of[k], 0, __ATOMIC_RELAXED);
}

/* The place of a wait: less than 2^(10 + k) nanoseconds, or the last. */
static int place_of(uint64_t waited) {
    int bits = waited < 1024 ? 0 : 54 - __builtin_clzll(waited);
    return bits < SHFL_WAITS ? bits : SHFL_WAITS - 1;
}

void shfl_waits_count(const struct shfl_counted *at, uint64_t waited) { shfl_more(&waits_at(at)->of[place_of(waited)], 1); }

SHFL_COLD void shfl_begins_to_wait(struct shfl_thread *me, uint32_t lock, bool shared, const void *caller) {
    const void *none = NULL, **at = &shfl_process.lock_waits[lock].caller;
    if (!__atomic_load_n(at, __ATOMIC_RELAXED)) __atomic_compare_exchange_n(at, &none, caller, false, __ATOMIC_SEQ_CST, __ATOMIC_SEQ_CST);
    shfl_happens(me, lock, shared ? SHFL_WAITS_SHARED : SHFL_WAITS_ALONE);
}

const void *shfl_caller_at(uint32_t lock) { return __atomic_load_n(&shfl_process.lock_waits[lock].caller, __ATOMIC_SEQ_CST); }

/* The lock isn't any more. What nobody has written stays so. */
void shfl_waits_end(uint32_t lock) {
    struct shfl_waits *at = &shfl_process.lock_waits[lock];
    if (!at->caller) return;
    for (int k = 0; k < SHFL_WAITS; k++) __atomic_store_n(&at->of[k], 0, __ATOMIC_RELAXED);
    __atomic_store_n(&at->caller, NULL, __ATOMIC_SEQ_CST);
}
