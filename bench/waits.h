/* The locks that threads wait at in waits.c and handover.c: ours in its four forms, and the peers, each on cache lines of its own. */
#ifndef WAITS_H
#define WAITS_H
#include "threads.h"
#include <string.h>
#include <sys/resource.h>

enum lock_kind { SPIN, RW, PARK, RW_PARK, MUTEX, MCS, RWLOCK, WORD, KINDS };
static const char *const kind_names[KINDS] = {"spin", "rw", "park", "rwpark", "mutex", "mcs", "rwlock", "word"};

static enum lock_kind kind;
static struct shfl_pass passes[MOST_THREADS];
static _Alignas(LINE) pthread_mutex_t mutex = PTHREAD_MUTEX_INITIALIZER;
static _Alignas(LINE) pthread_rwlock_t rwlock = PTHREAD_RWLOCK_INITIALIZER;

/* An MCS lock whose waiters give their processors away after a few looks. */
struct mcs_node { _Atomic(struct mcs_node *) next; atomic_int waits; char apart[LINE - 12]; };
static _Alignas(LINE) _Atomic(struct mcs_node *) mcs_last;
static _Alignas(LINE) struct mcs_node mcs_nodes[MOST_THREADS];

static void mcs_look(unsigned looks) {
    if (looks < 60) shfl_hint();
    else sched_yield();
}

static void mcs_lock(struct mcs_node *own) {
    atomic_store(&own->next, NULL);
    atomic_store(&own->waits, 1);
    struct mcs_node *before = atomic_exchange(&mcs_last, own);
    if (!before) return;
    atomic_store(&before->next, own);
    for (unsigned looks = 0; atomic_load(&own->waits); looks++) mcs_look(looks);
}

static void mcs_unlock(struct mcs_node *own) {
    struct mcs_node *next = atomic_load(&own->next), *last = own;
    if (!next && atomic_compare_exchange_strong(&mcs_last, &last, NULL)) return;
    for (unsigned looks = 0; !(next = atomic_load(&own->next)); looks++) mcs_look(looks);
    atomic_store(&next->waits, 0);
}

/* A word behind that queue, written by hand, as far as a lock of our kind has to be two: who is first in the queue takes the word, and makes the one behind the first. */
static _Alignas(LINE) atomic_int word_taken;

static void word_lock(struct mcs_node *own) {
    mcs_lock(own);
    for (unsigned looks = 0; atomic_load(&word_taken) || atomic_exchange(&word_taken, 1); looks++) mcs_look(looks);
    mcs_unlock(own);
}

static void take(unsigned me, bool reads) {
    switch (kind) {
    case MUTEX: pthread_mutex_lock(&mutex); break;
    case MCS: mcs_lock(&mcs_nodes[me]); break;
    case WORD: word_lock(&mcs_nodes[me]); break;
    case RWLOCK:
        if (reads) pthread_rwlock_rdlock(&rwlock);
        else pthread_rwlock_wrlock(&rwlock);
        break;
    default:
        if (reads) shfl_rdlock(&passes[me]);
        else shfl_lock(&passes[me]);
    }
}

static void give(unsigned me) {
    switch (kind) {
    case MUTEX: pthread_mutex_unlock(&mutex); break;
    case MCS: mcs_unlock(&mcs_nodes[me]); break;
    case WORD: atomic_store(&word_taken, 0); break;
    case RWLOCK: pthread_rwlock_unlock(&rwlock); break;
    default: shfl_unlock(&passes[me]);
    }
}

static bool is_ours(void) { return kind <= RW_PARK; }
static inline bool has_readers(void) { return kind == RW || kind == RW_PARK || kind == RWLOCK; }

/* A policy that groups those of one socket, and one that groups nobody. */
static const uint8_t by_socket[] = {0x61, 0x12, 0, 0, 0, 0, 0, 0, 0x61, 0x11, 4, 0, 0, 0, 0, 0, 0xb7, 0, 0, 0, 1, 0, 0, 0,
                                    0x1d, 0x21, 1, 0, 0, 0, 0, 0, 0xb7, 0, 0, 0, 0, 0, 0, 0, 0x95, 0, 0, 0, 0, 0, 0, 0};
static const uint8_t never[] = {0xb7, 0, 0, 0, 0, 0, 0, 0, 0x95, 0, 0, 0, 0, 0, 0, 0};

static inline void attach_one(unsigned me, const char *policy) {
    bool socket = strcmp(policy, "socket") == 0;
    size_t length = socket ? sizeof by_socket : sizeof never;
    if (shfl_attach(&passes[me], 1, socket ? by_socket : never, length, never, 0).fault != 0) exit(2);
}

static void attach_all(const char *policy, int count) {
    if (strcmp(policy, "socket") != 0 && strcmp(policy, "never") != 0) return;
    for (int k = 0; k < count; k++) attach_one((unsigned)k, policy);
}

/* Two sockets, thread by thread. When to queue is policy, queue or try. */
static void open_lock(const char *name, int count, const char *policy, const char *when) {
    for (kind = SPIN; kind < KINDS && strcmp(kind_names[kind], name) != 0; kind++) {}
    if (kind == KINDS || count < 1 || count > MOST_THREADS) exit(2);
    if (!is_ours()) return;
    uint64_t attrs[MOST_THREADS];
    for (int k = 0; k < count; k++) attrs[k] = shfl_attr((uint16_t)(k % 2), 0, 0, 0);
    if (!shfl_open(attrs, (size_t)count, (uint8_t)kind, 1024, passes, (size_t)count)) exit(2);
    attach_all(policy, count);
    enum shfl_when how = strcmp(when, "queue") == 0 ? SHFL_QUEUE : strcmp(when, "try") == 0 ? SHFL_TRY : SHFL_BY_POLICY;
    for (int k = 0; k < count; k++) shfl_queue_when(&passes[k], how, 0);
}

static void close_lock(int count) {
    for (int k = 0; is_ours() && k < count; k++) shfl_close(&passes[k]);
}

/* Seconds of processor time of this thread. */
static double processor_time(void) {
    struct rusage r;
    getrusage(RUSAGE_THREAD, &r);
    return (double)(r.ru_utime.tv_sec + r.ru_stime.tv_sec) + (double)(r.ru_utime.tv_usec + r.ru_stime.tv_usec) * 1e-6;
}
#endif
