/* A record of one lock: a ring of what happened, in which the lock's threads write and the control socket's thread reads. Nobody waits: who
 * comes to a place where another one is still writing drops its event, and a reader that is too slow misses some; both are counted. What a
 * holder does is written while it holds, so the order of holders is the ring's.
 *
 * Nobody asks whether a lock is recorded where a lock is free: for a record three words of each thread are changed, two of which it looks at anyway, and
 * lead it here. The words are all changed before the record begins, and back after its end.
 *
 * The ring is mapped by the first record. Its memory goes back to the system at the end of each, and the addresses stay, so a thread that
 * is late writes into nothing else; its event has the old record's number and isn't read.
 *
 * Nothing of this is proved, and who holds a lock doesn't depend on it. */
#include <string.h>
#include <sys/mman.h>
#include "arenas.h"
#include "races.h"
#include "record.h"

#define EVENTS 65536u
#define LEASE_NS 2000000000u

/* The state is 2k + 1 while the k-th event is written here, and 2k + 2 afterwards. */
struct event {
    uint64_t state, at, about;
    uint32_t record, mark, tid, event;
};

static struct event *ring;
static uint64_t next; /* how many events were begun, in all records */
static uint64_t recording; /* the record's number, and in the low half the lock's plus one; 0 where nobody is to write */
static uint64_t since, until; /* by the clock: written before `recording` is */
static uint32_t last_id, open_id; /* the record that may be read, or 0 */
static uint64_t first, leased; /* its first event; until when its reader has to ask */
static struct shfl_counted none[SHFL_COUNTED]; /* counts of no lock, which nobody writes */

/* The child of a fork finds each thread so, or none, since nobody forks meanwhile. */
static void watch_all(uint32_t id) {
    shfl_control_stop();
    open_id = id;
    for (uint32_t k = 0; k < shfl_process.thread_count; k++) {
        struct shfl_thread *thread = &shfl_process.threads[k];
        if (id) __atomic_fetch_or(&thread->unusual, SHFL_IS_WATCHED, __ATOMIC_SEQ_CST);
        else __atomic_fetch_and(&thread->unusual, ~(uint32_t)SHFL_IS_WATCHED, __ATOMIC_SEQ_CST);
        if (id) __atomic_fetch_or(&thread->mark, SHFL_MARK_WATCHED, __ATOMIC_SEQ_CST);
        else __atomic_fetch_and(&thread->mark, ~(uint32_t)SHFL_MARK_WATCHED, __ATOMIC_SEQ_CST);
        __atomic_store_n(&thread->known, id ? none : thread->counts, __ATOMIC_SEQ_CST);
    }
    shfl_control_go_on();
}

/* Takes the k-th place, unless somebody writes there or has written later. */
static bool begin_at(struct event *at, uint64_t k) {
    uint64_t before = __atomic_load_n(&at->state, __ATOMIC_RELAXED);
    if (before % 2 || before > 2 * k) return false;
    return __atomic_compare_exchange_n(&at->state, &before, 2 * k + 1, false, __ATOMIC_ACQ_REL, __ATOMIC_RELAXED);
}

static void write_at(struct event *at, uint64_t k, const struct event *it) {
    __atomic_store_n(&at->at, it->at, __ATOMIC_RELAXED);
    __atomic_store_n(&at->about, it->about, __ATOMIC_RELAXED);
    __atomic_store_n(&at->record, it->record, __ATOMIC_RELAXED);
    __atomic_store_n(&at->mark, it->mark, __ATOMIC_RELAXED);
    __atomic_store_n(&at->tid, it->tid, __ATOMIC_RELAXED);
    __atomic_store_n(&at->event, it->event, __ATOMIC_RELAXED);
    __atomic_store_n(&at->state, 2 * k + 2, __ATOMIC_RELEASE);
}

/* A thread that gives back what it doesn't have is refused afterwards, and not recorded. */
SHFL_COLD void shfl_record(struct shfl_thread *me, uint32_t lock, enum shfl_event event, uint64_t about) {
    uint64_t now = __atomic_load_n(&recording, __ATOMIC_SEQ_CST);
    if ((uint32_t)now != lock + 1 || (event == SHFL_FREES && shfl_hold(me, lock) == 0)) return;
    uint64_t clock = shfl_clock();
    if (clock > __atomic_load_n(&until, __ATOMIC_RELAXED)) return;
    struct event it = {0, clock, about, (uint32_t)(now >> 32), shfl_mark_of(me), me->tid, event};
    uint64_t k = __atomic_fetch_add(&next, 1, __ATOMIC_SEQ_CST);
    struct event *at = &ring[k % EVENTS];
    if (begin_at(at, k)) write_at(at, k, &it);
}

/* What a thread says whose lock isn't any more; who reads is still there. */
SHFL_COLD void shfl_record_end(uint32_t lock) {
    uint64_t now = __atomic_load_n(&recording, __ATOMIC_SEQ_CST);
    if ((uint32_t)now == lock + 1) __atomic_compare_exchange_n(&recording, &now, 0, false, __ATOMIC_SEQ_CST, __ATOMIC_SEQ_CST);
}

static void drop(void) {
    __atomic_store_n(&recording, 0, __ATOMIC_SEQ_CST);
    watch_all(0);
    if (ring) madvise(ring, EVENTS * sizeof *ring, MADV_DONTNEED);
}

static bool has_ring(void) {
    if (ring) return true;
    void *at = mmap(NULL, EVENTS * sizeof *ring, PROT_READ | PROT_WRITE, MAP_PRIVATE | MAP_ANONYMOUS | MAP_NORESERVE, -1, 0);
    if (at == MAP_FAILED) return false;
    shfl_races_own(at, EVENTS * sizeof *ring);
    shfl_races_own(&ring, sizeof ring);
    shfl_races_own(&next, sizeof next);
    shfl_races_own(&recording, sizeof recording);
    shfl_races_own(&until, sizeof until);
    ring = at;
    return true;
}

int shfl_record_begin(uint32_t lock, const void *address, uint64_t milliseconds, uint32_t *id) {
    if (lock >= shfl_load(&shfl_process.lock_count) || !address || milliseconds == 0 || milliseconds > SHFL_RECORD_MOST_MS) return EINVAL;
    if (open_id) return EBUSY;
    if (__atomic_load_n(&shfl_process.totals[lock].address, __ATOMIC_SEQ_CST) != address) return ENOENT;
    if (!has_ring()) return ENOMEM;
    *id = ++last_id ? last_id : ++last_id;
    watch_all(*id);
    first = __atomic_load_n(&next, __ATOMIC_SEQ_CST);
    since = shfl_clock();
    leased = since + LEASE_NS;
    __atomic_store_n(&until, since + milliseconds * 1000000u, __ATOMIC_SEQ_CST);
    __atomic_store_n(&recording, (uint64_t)open_id << 32 | (lock + 1), __ATOMIC_SEQ_CST);
    /* the lock may have gone meanwhile, before its end could see the record */
    if (__atomic_load_n(&shfl_process.totals[lock].address, __ATOMIC_SEQ_CST) != address) __atomic_store_n(&recording, 0, __ATOMIC_SEQ_CST);
    return 0;
}

int shfl_record_renew(uint32_t id) {
    if (id == 0 || id != open_id) return ENOENT;
    leased = shfl_clock() + LEASE_NS;
    return 0;
}

bool shfl_record_is_over(void) {
    return __atomic_load_n(&recording, __ATOMIC_SEQ_CST) == 0 || shfl_clock() > __atomic_load_n(&until, __ATOMIC_RELAXED);
}

/* True: the k-th event is there. False: not yet, or no longer. */
static bool read_at(const struct event *at, uint64_t k, struct event *out) {
    if (__atomic_load_n(&at->state, __ATOMIC_ACQUIRE) != 2 * k + 2) return false;
    out->at = __atomic_load_n(&at->at, __ATOMIC_RELAXED);
    out->about = __atomic_load_n(&at->about, __ATOMIC_RELAXED);
    out->record = __atomic_load_n(&at->record, __ATOMIC_RELAXED);
    out->mark = __atomic_load_n(&at->mark, __ATOMIC_RELAXED);
    out->tid = __atomic_load_n(&at->tid, __ATOMIC_RELAXED);
    out->event = __atomic_load_n(&at->event, __ATOMIC_RELAXED);
    __atomic_thread_fence(__ATOMIC_ACQUIRE);
    return __atomic_load_n(&at->state, __ATOMIC_RELAXED) == 2 * k + 2;
}

/* Reads on, from the middle of the ring where it was too slow: so there is a long piece without gaps next. An event that isn't there is
 * waited for until the record is over or half of the ring stands behind it. */
bool shfl_record_next(struct shfl_reader *reader, struct shfl_happened *out) {
    bool over = shfl_record_is_over();
    uint64_t end = __atomic_load_n(&next, __ATOMIC_SEQ_CST);
    struct event it;
    if (reader->next < first) reader->next = first;
    if (reader->next < end && end - reader->next > EVENTS) {
        reader->lost += end - EVENTS / 2 - reader->next;
        reader->next = end - EVENTS / 2;
    }
    for (; reader->next < end; reader->next++) {
        bool there = read_at(&ring[reader->next % EVENTS], reader->next, &it);
        if (there && it.record == open_id) break;
        if (!there && !over && end - reader->next < EVENTS / 2) return false;
        reader->lost += !there;
    }
    if (reader->next >= end) return false;
    reader->next++;
    *out = (struct shfl_happened){it.at - since, it.about, (it.mark >> SHFL_MARK_NUMBER) - 1, it.tid, it.mark % SHFL_MARK_SOCKETS, (uint8_t)it.event};
    return true;
}

int shfl_record_forget(uint32_t id) {
    if (id == 0 || id != open_id) return ENOENT;
    drop();
    return 0;
}

int shfl_record_left(uint64_t now) {
    if (!open_id) return -1;
    if (now >= leased) {
        drop();
        return -1;
    }
    return (int)((leased - now) / 1000000) + 1;
}

/* The child of a fork has no reader. */
void shfl_record_forked(void) {
    if (open_id) drop();
}
