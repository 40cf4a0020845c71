/* LD_PRELOAD: the normal pthread mutexes of an unmodified program wait in the lock's queue, a pass a thread and 64 a lock. A
 * demonstration, not a product: the real mutex is taken inside, so that condition variables and trylock go on working. Recursive,
 * error-checking and robust mutexes go to the real one alone, and so does a 65th thread. */
#define _GNU_SOURCE
#include "shfl.h"
#include <dlfcn.h>
#include <pthread.h>
#include <stdatomic.h>
#include <stdio.h>
#include <stdlib.h>

enum { SEATS = 64, ENTRIES = 1 << 14, PROBES = 64, NOT_YET = -1, NO_SEAT = -2, NOBODY = -1 };

/* A mutex and its lock. The holder is the seat of the thread that has both, and is read and written under the mutex alone. */
struct entry {
    _Atomic(pthread_mutex_t *) mutex;
    struct shfl_pass *_Atomic passes;
    int holder;
};

static struct entry table[ENTRIES];
static _Atomic uint64_t taken_seats;
static _Atomic long queued, plain, locks;
static __thread int seat = NOT_YET;
static pthread_key_t at_exit;
static int (*real_lock)(pthread_mutex_t *);
static int (*real_unlock)(pthread_mutex_t *);
static int (*real_wait)(pthread_cond_t *, pthread_mutex_t *);
static int (*real_timedwait)(pthread_cond_t *, pthread_mutex_t *, const struct timespec *);
static bool ready;

static void give_seat_back(void *seat_plus_one) {
    atomic_fetch_and(&taken_seats, ~(1ull << ((long)seat_plus_one - 1)));
    seat = NO_SEAT;
}

__attribute__((constructor)) static void start(void) {
    real_lock = (int (*)(pthread_mutex_t *))dlsym(RTLD_NEXT, "pthread_mutex_lock");
    real_unlock = (int (*)(pthread_mutex_t *))dlsym(RTLD_NEXT, "pthread_mutex_unlock");
    real_wait = (int (*)(pthread_cond_t *, pthread_mutex_t *))dlvsym(RTLD_NEXT, "pthread_cond_wait", "GLIBC_2.3.2");
    real_timedwait = (int (*)(pthread_cond_t *, pthread_mutex_t *, const struct timespec *))dlvsym(RTLD_NEXT, "pthread_cond_timedwait", "GLIBC_2.3.2");
    pthread_key_create(&at_exit, give_seat_back);
    ready = true;
}

__attribute__((destructor)) static void end(void) {
    if (getenv("SHFL_TOLD")) fprintf(stderr, "shim: %ld locks queued on %ld mutexes, %ld plain\n", queued, locks, plain);
}

static int own_seat(void) {
    if (seat != NOT_YET) return seat;
    uint64_t taken = atomic_load(&taken_seats);
    for (;;) {
        if (taken == ~0ull) return seat = NO_SEAT;
        int free_one = __builtin_ctzll(~taken);
        if (atomic_compare_exchange_weak(&taken_seats, &taken, taken | 1ull << free_one)) {
            seat = free_one;
            pthread_setspecific(at_exit, (void *)(long)(free_one + 1));
            return seat;
        }
    }
}

static struct shfl_pass *opened(void) {
    static const uint64_t attrs[SEATS];
    struct shfl_pass *passes = calloc(SEATS, sizeof *passes);
    if (!passes || !shfl_open(attrs, SEATS, SHFL_SPIN, 1024, passes, SEATS)) abort();
    return passes;
}

/* The entry of a mutex, which is made where it isn't there; NULL where there is none, or no room for one. */
static struct entry *entry_of(pthread_mutex_t *mutex, bool make) {
    unsigned at = (unsigned)(((uintptr_t)mutex >> 3) * 2654435761u) % ENTRIES;
    for (int probe = 0; probe < PROBES; probe++, at = (at + 1) % ENTRIES) {
        struct entry *entry = &table[at];
        pthread_mutex_t *there = atomic_load(&entry->mutex);
        if (!there && !make) return NULL;
        if (!there && atomic_compare_exchange_strong(&entry->mutex, &there, mutex)) {
            entry->holder = NOBODY;
            atomic_store(&entry->passes, opened());
            atomic_fetch_add(&locks, 1);
            return entry;
        }
        if (there == mutex) {
            while (!atomic_load(&entry->passes)) sched_yield();
            return entry;
        }
    }
    return NULL;
}

static bool is_normal(pthread_mutex_t *mutex) { return (mutex->__data.__kind & 127) == PTHREAD_MUTEX_TIMED_NP; }

/* Takes the lock of a mutex. NULL where the thread goes to the mutex alone. */
static struct entry *enter(pthread_mutex_t *mutex) {
    if (!ready || !is_normal(mutex)) return NULL;
    int me = own_seat();
    struct entry *entry = me < 0 ? NULL : entry_of(mutex, true);
    if (entry) shfl_lock(&entry->passes[me]);
    return entry;
}

/* Takes both. */
static int take(pthread_mutex_t *mutex) {
    struct entry *entry = enter(mutex);
    int status = real_lock(mutex);
    if (entry) entry->holder = seat;
    atomic_fetch_add_explicit(entry ? &queued : &plain, 1, memory_order_relaxed);
    return status;
}

/* The lock that this thread has beside the mutex, which it has; it is its holder no longer. */
static struct entry *held_beside(pthread_mutex_t *mutex) {
    if (!ready || !is_normal(mutex) || seat < 0) return NULL;
    struct entry *entry = entry_of(mutex, false);
    if (!entry || entry->holder != seat) return NULL;
    entry->holder = NOBODY;
    return entry;
}

static void leave(struct entry *entry) { shfl_unlock(&entry->passes[seat]); }

int pthread_mutex_lock(pthread_mutex_t *mutex) {
    if (!real_lock) real_lock = (int (*)(pthread_mutex_t *))dlsym(RTLD_NEXT, "pthread_mutex_lock");
    return take(mutex);
}

int pthread_mutex_unlock(pthread_mutex_t *mutex) {
    if (!real_unlock) real_unlock = (int (*)(pthread_mutex_t *))dlsym(RTLD_NEXT, "pthread_mutex_unlock");
    struct entry *entry = held_beside(mutex);
    int status = real_unlock(mutex);
    if (entry) leave(entry);
    return status;
}

/* After a wait the thread has the mutex: it gives that back, and takes both. */
static void take_again(pthread_mutex_t *mutex) {
    real_unlock(mutex);
    take(mutex);
}

int pthread_cond_wait(pthread_cond_t *condition, pthread_mutex_t *mutex) {
    struct entry *entry = held_beside(mutex);
    if (entry) leave(entry);
    int status = real_wait(condition, mutex);
    if (entry) take_again(mutex);
    return status;
}

int pthread_cond_timedwait(pthread_cond_t *condition, pthread_mutex_t *mutex, const struct timespec *until) {
    struct entry *entry = held_beside(mutex);
    if (entry) leave(entry);
    int status = real_timedwait(condition, mutex, until);
    if (entry) take_again(mutex);
    return status;
}
