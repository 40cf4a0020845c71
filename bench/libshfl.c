/* libshfl's locks beside pthread's, in one process. Words:
 *   free                                the best and the median of 300 short runs of a lock and unlock with nobody else there, in nanoseconds, each
 *                                       lock in turn; the process has another thread, which sleeps
 *   pairs LOCK COUNT                    so many of them, for who counts instructions
 *   crowd LOCK THREADS HOLD THINK MS    threads that take one lock again and again: holds a second, Jain's index of the threads' holds, the longest
 *                                       wait in milliseconds, and the processors used. HOLD and THINK are nanoseconds, by turns of a loop that is
 *                                       timed first
 *   cond LOCK PAIRS MS                  so many producers and as many consumers of a queue of 16 places, over the lock and two condition variables: items a
 *                                       second, and the processors used. LOCK is shfl or mutex
 *   has LOCK                            status 0 where it was built in
 * LOCK is shfl, shfl-read, mutex or rwlock-read, and for `crowd` also mcs, an MCS lock (Concurrency Kit, Debian's libck-dev), or shared-read, C++'s std::shared_mutex (with HAS_SHARED_MUTEX
 * and bench/shared_mutex.cpp). Status 1: two were in the section that may not be, or an item was lost. */
#define _GNU_SOURCE
#include <libshfl.h>
#include <pthread.h>
#include <stdbool.h>
#include <stdio.h>
#include <stdlib.h>
#include <string.h>
#include <sys/resource.h>
#include "timing.h"
#if __has_include(<ck_spinlock.h>)
#include <ck_spinlock.h>
#define HAS_MCS 1
#else
#define HAS_MCS 0
#endif
#ifndef HAS_SHARED_MUTEX
#define HAS_SHARED_MUTEX 0
#endif

enum { LINE = 128, MOST_THREADS = 256, RUNS = 300, ROUNDS = 10000 };
static _Alignas(LINE) shfl_mutex_t ours;
static _Alignas(LINE) shfl_rwlock_t ours_shared;
static _Alignas(LINE) pthread_mutex_t mutex = PTHREAD_MUTEX_INITIALIZER;
static _Alignas(LINE) pthread_rwlock_t rwlock = PTHREAD_RWLOCK_INITIALIZER;

/* the last two in `crowd` alone */
enum kind { SHFL, SHFL_READ, MUTEX, RWLOCK_READ, USUAL, MCS = USUAL, SHARED_READ, KINDS };
static const char *const names[KINDS] = {"shfl", "shfl-read", "mutex", "rwlock-read", "mcs", "shared-read"};
static const bool is_built_in[KINDS] = {true, true, true, true, HAS_MCS, HAS_SHARED_MUTEX};

#if HAS_MCS
static _Alignas(LINE) ck_spinlock_mcs_t mcs = CK_SPINLOCK_MCS_INITIALIZER;
static __thread _Alignas(LINE) struct ck_spinlock_mcs mcs_node;
#endif
#if HAS_SHARED_MUTEX
void shared_mutex_take(void);
void shared_mutex_give(void);
#endif

static void take_other(enum kind kind) {
    (void)kind;
#if HAS_MCS
    if (kind == MCS) ck_spinlock_mcs_lock(&mcs, &mcs_node);
#endif
#if HAS_SHARED_MUTEX
    if (kind == SHARED_READ) shared_mutex_take();
#endif
}

static void give_other(enum kind kind) {
    (void)kind;
#if HAS_MCS
    if (kind == MCS) ck_spinlock_mcs_unlock(&mcs, &mcs_node);
#endif
#if HAS_SHARED_MUTEX
    if (kind == SHARED_READ) shared_mutex_give();
#endif
}

static uint64_t now(void) {
    struct timespec t;
    clock_gettime(CLOCK_MONOTONIC, &t);
    return (uint64_t)t.tv_sec * 1000000000 + (uint64_t)t.tv_nsec;
}

static inline void take(enum kind kind) {
    if (kind == SHFL) shfl_mutex_lock(&ours);
    else if (kind == SHFL_READ) shfl_rwlock_rdlock(&ours_shared);
    else if (kind == MUTEX) pthread_mutex_lock(&mutex);
    else if (kind == RWLOCK_READ) pthread_rwlock_rdlock(&rwlock);
    else take_other(kind);
}

static inline void give(enum kind kind) {
    if (kind == SHFL) shfl_mutex_unlock(&ours);
    else if (kind == SHFL_READ) shfl_rwlock_unlock(&ours_shared);
    else if (kind == MUTEX) pthread_mutex_unlock(&mutex);
    else if (kind == RWLOCK_READ) pthread_rwlock_unlock(&rwlock);
    else give_other(kind);
}

static inline void turns(uint64_t count) {
    for (; count > 0; count--) __asm__ volatile("");
}

static double per_pair(enum kind kind) {
    uint64_t began = now();
    for (int k = 0; k < ROUNDS; k++) take(kind), give(kind);
    return (double)(now() - began) / ROUNDS;
}

static void *sleeps(void *until) {
    pthread_mutex_lock(until);
    pthread_mutex_unlock(until);
    return NULL;
}

/* Runs while another thread sleeps. */
static int beside_a_sleeper(void (*run)(uint64_t), uint64_t count) {
    static pthread_mutex_t until = PTHREAD_MUTEX_INITIALIZER;
    pthread_t other;
    pthread_mutex_lock(&until);
    if (pthread_create(&other, NULL, sleeps, &until)) return 2;
    run(count);
    pthread_mutex_unlock(&until);
    pthread_join(other, NULL);
    return 0;
}

static enum kind crowded;
static double took[USUAL][RUNS];

/* (a loop of each, so that little is counted besides) */
static void pairs(uint64_t count) {
    for (; crowded == SHFL && count > 0; count--) take(SHFL), give(SHFL);
    for (; crowded == SHFL_READ && count > 0; count--) take(SHFL_READ), give(SHFL_READ);
    for (; crowded == MUTEX && count > 0; count--) take(MUTEX), give(MUTEX);
    for (; crowded == RWLOCK_READ && count > 0; count--) take(RWLOCK_READ), give(RWLOCK_READ);
}

static void time_runs(uint64_t count) {
    for (uint64_t run = 0; run < count; run++)
        for (enum kind kind = 0; kind < USUAL; kind++) took[kind][run] = per_pair(kind);
}

static int alone(void) {
    if (beside_a_sleeper(time_runs, RUNS)) return 2;
    for (enum kind kind = 0; kind < USUAL; kind++) {
        qsort(took[kind], RUNS, sizeof took[kind][0], by_size);
        printf("%s %.1f %.1f\n", names[kind], took[kind][0], took[kind][RUNS / 2]);
    }
    return 0;
}

struct worker { pthread_t thread; uint64_t holds, longest; double processor; char apart[LINE]; };
static struct worker workers[MOST_THREADS];
static uint64_t hold, think;
static _Alignas(LINE) int going;
static _Alignas(LINE) volatile uint64_t begun, ended;
static bool torn;

static double processor_of_thread(void) {
    struct rusage used;
    getrusage(RUSAGE_THREAD, &used);
    return (double)(used.ru_utime.tv_sec + used.ru_stime.tv_sec) + (double)(used.ru_utime.tv_usec + used.ru_stime.tv_usec) * 1e-6;
}

static void *work(void *at) {
    struct worker *own = at;
    while (__atomic_load_n(&going, __ATOMIC_ACQUIRE) == 0) {}
    while (__atomic_load_n(&going, __ATOMIC_RELAXED) == 1) {
        uint64_t came = now();
        take(crowded);
        uint64_t waited = now() - came, seen = begun;
        if (seen != ended) torn = true;
        bool writes = crowded == SHFL || crowded == MUTEX || crowded == MCS;
        begun = seen + writes;
        turns(hold);
        if (begun != seen + writes) torn = true;
        ended = seen + writes;
        give(crowded);
        own->holds++;
        if (waited > own->longest) own->longest = waited;
        turns(think);
    }
    own->processor = processor_of_thread();
    return NULL;
}

/* How many turns take so long. */
static uint64_t turns_in(uint64_t ns) {
    double best = 1e9;
    for (int run = 0; run < 50; run++) {
        uint64_t began = now();
        turns(20000);
        double took = (double)(now() - began) / 20000;
        if (took < best) best = took;
    }
    return (uint64_t)((double)ns / best);
}

static int crowd(int count, uint64_t ms) {
    double all = 0, squares = 0, processor = 0;
    uint64_t longest = 0;
    take(crowded); /* what a process's first lock costs isn't timed */
    give(crowded);
    for (int k = 0; k < count; k++)
        if (pthread_create(&workers[k].thread, NULL, work, &workers[k])) return 2;
    uint64_t began = now();
    __atomic_store_n(&going, 1, __ATOMIC_RELEASE);
    nanosleep(&(struct timespec){(time_t)(ms / 1000), (long)(ms % 1000 * 1000000)}, NULL);
    __atomic_store_n(&going, 2, __ATOMIC_RELEASE);
    double took = (double)(now() - began) * 1e-9;
    for (int k = 0; k < count; k++) {
        pthread_join(workers[k].thread, NULL);
        double holds = (double)workers[k].holds;
        all += holds, squares += holds * holds, processor += workers[k].processor;
        if (workers[k].longest > longest) longest = workers[k].longest;
    }
    printf("%.0f %.3f %.3f %.2f\n", all / took, squares > 0 ? all * all / (count * squares) : 0, (double)longest * 1e-6, processor / took);
    return torn;
}

enum { PLACES = 16 };
static _Alignas(LINE) shfl_cond_t our_conds[2];
static _Alignas(LINE) pthread_cond_t conds[2] = {PTHREAD_COND_INITIALIZER, PTHREAD_COND_INITIALIZER};
static _Alignas(LINE) int queued;

static void await(int which) {
    if (crowded == SHFL) shfl_cond_wait(&our_conds[which], &ours);
    else pthread_cond_wait(&conds[which], &mutex);
}

static void call(int which, bool all) {
    if (crowded == SHFL) all ? shfl_cond_broadcast(&our_conds[which]) : shfl_cond_signal(&our_conds[which]);
    else all ? pthread_cond_broadcast(&conds[which]) : pthread_cond_signal(&conds[which]);
}

/* Producers (0) wait for places, consumers (1) for items. */
static void hand_over(struct worker *own, int which) {
    bool goes_on = true;
    while (__atomic_load_n(&going, __ATOMIC_ACQUIRE) == 0) {}
    while (goes_on) {
        take(crowded);
        while (queued == (which ? 0 : PLACES) && __atomic_load_n(&going, __ATOMIC_RELAXED) == 1) await(which);
        goes_on = __atomic_load_n(&going, __ATOMIC_RELAXED) == 1;
        if (goes_on) queued += which ? -1 : 1, own->holds++, call(!which, false);
        give(crowded);
    }
    own->processor = processor_of_thread();
}

static void *produces(void *at) { return hand_over(at, 0), NULL; }
static void *consumes(void *at) { return hand_over(at, 1), NULL; }

static int cond(int pairs_of, uint64_t ms) {
    uint64_t handed[2] = {0, 0};
    double processor = 0;
    for (int k = 0; k < 2 * pairs_of; k++)
        if (pthread_create(&workers[k].thread, NULL, k % 2 ? consumes : produces, &workers[k])) return 2;
    uint64_t began = now();
    __atomic_store_n(&going, 1, __ATOMIC_RELEASE);
    nanosleep(&(struct timespec){(time_t)(ms / 1000), (long)(ms % 1000 * 1000000)}, NULL);
    take(crowded);
    __atomic_store_n(&going, 2, __ATOMIC_RELEASE);
    double took = (double)(now() - began) * 1e-9;
    call(0, true), call(1, true);
    give(crowded);
    for (int k = 0; k < 2 * pairs_of; k++) {
        pthread_join(workers[k].thread, NULL);
        handed[k % 2] += workers[k].holds;
        processor += workers[k].processor;
    }
    printf("%.0f %.2f\n", (double)handed[1] / took, processor / took);
    return handed[0] != handed[1] + (uint64_t)queued;
}

static enum kind kind_of(const char *name) {
    enum kind kind = 0;
    while (kind < KINDS && strcmp(names[kind], name) != 0) kind++;
    return kind;
}

int main(int n, char **word) {
    if (n == 5 && strcmp(word[1], "cond") == 0) {
        int pairs_of = atoi(word[3]);
        crowded = kind_of(word[2]);
        if ((crowded != SHFL && crowded != MUTEX) || pairs_of < 1 || pairs_of > MOST_THREADS / 2) return 2;
        return cond(pairs_of, strtoull(word[4], NULL, 10));
    }
    if (n == 2 && strcmp(word[1], "free") == 0) return alone();
    if (n == 3 && strcmp(word[1], "has") == 0) return kind_of(word[2]) == KINDS || !is_built_in[kind_of(word[2])];
    bool counts = n == 4 && strcmp(word[1], "pairs") == 0;
    if (!counts && (n != 7 || strcmp(word[1], "crowd") != 0)) return 2;
    crowded = kind_of(word[2]);
    if (crowded == KINDS || !is_built_in[crowded]) return 2;
    if (counts) return beside_a_sleeper(pairs, strtoull(word[3], NULL, 10));
    int count = atoi(word[3]);
    if (count < 1 || count > MOST_THREADS) return 2;
    hold = turns_in(strtoull(word[4], NULL, 10));
    think = turns_in(strtoull(word[5], NULL, 10));
    return crowd(count, strtoull(word[6], NULL, 10));
}
