/* The peers that the lock is measured beside: pthread_mutex_t, pthread_rwlock_t and an MCS lock (Concurrency Kit, Debian's
 * libck-dev), each on a line of its own. Words:
 *   peers free                          nanoseconds of a round trip with nobody else there
 *   peers LOCK THREADS WORK MILLIS      gains a second by so many threads; WORK is the number of multiplications in a hold, and as
 *                                       many stand between two holds; LOCK is mutex, mcs, rwlock (readers alone) or directory
 *                                       (readers alone, who each time look a name of 1,000 up in one sorted table)
 *   peers LOCK THREADS WORK gains N     nanoseconds a gain, of N gains by so many threads together: twenty rounds, a line for each, with
 *                                       its threads' start and end
 *   peers has-mcs                       status 0 where the MCS lock was built in
 * Build: cc -O2 -pthread -o peers peers.c */
#define _GNU_SOURCE
#include <pthread.h>
#include <stdatomic.h>
#include <stdint.h>
#include <stdio.h>
#include <stdlib.h>
#include <string.h>
#include <time.h>
#include <unistd.h>
#if __has_include(<ck_spinlock.h>)
#include <ck_spinlock.h>
#define HAS_MCS 1
#else
#define HAS_MCS 0
#endif

#define LINE 128

static _Alignas(LINE) struct { pthread_mutex_t lock; } mutex = { PTHREAD_MUTEX_INITIALIZER };
static _Alignas(LINE) struct { pthread_rwlock_t lock; } rwlock = { PTHREAD_RWLOCK_INITIALIZER };
#if HAS_MCS
static _Alignas(LINE) ck_spinlock_mcs_t mcs = CK_SPINLOCK_MCS_INITIALIZER;
#endif
static _Alignas(LINE) uint64_t counter;
static _Alignas(LINE) atomic_int stop;
static uint64_t multiplications;
static uint64_t enough = UINT64_MAX; /* gains of a thread */
static char which;

static double now(void) {
    struct timespec t;
    clock_gettime(CLOCK_MONOTONIC, &t);
    return (double)t.tv_sec * 1e9 + (double)t.tv_nsec;
}

/* so many dependent multiplications, as in the other programs; without the shift a compiler may join several into one */
static uint64_t work(uint64_t x) {
    for (uint64_t i = 0; i < multiplications; i++) {
        x = x * 6364136223846793005u;
        x ^= x >> 29;
    }
    return x;
}

#define NAMES 1000
static struct { uint32_t name, number; } rows[NAMES];

/* the number of a name, by binary search */
static uint32_t look_up(uint32_t name) {
    size_t low = 0, high = NAMES;
    while (low < high) {
        size_t middle = low + (high - low) / 2;
        if (rows[middle].name < name) low = middle + 1;
        else high = middle;
    }
    return low < NAMES && rows[low].name == name ? rows[low].number : 0;
}

struct thread { uint64_t gains, left; char pad[2 * LINE]; };

static void *run(void *at) {
    struct thread *me = at;
    uint64_t x = 1, gains = 0;
    uint32_t draw = (uint32_t)(uintptr_t)at;
#if HAS_MCS
    _Alignas(LINE) struct ck_spinlock_mcs node;
#endif
    while (gains < enough && !atomic_load_explicit(&stop, memory_order_relaxed)) {
        switch (which) {
        case 'u':
            pthread_mutex_lock(&mutex.lock);
            counter++;
            x = work(x);
            pthread_mutex_unlock(&mutex.lock);
            break;
#if HAS_MCS
        case 'c':
            ck_spinlock_mcs_lock(&mcs, &node);
            counter++;
            x = work(x);
            ck_spinlock_mcs_unlock(&mcs, &node);
            break;
#endif
        case 'd':
            draw = draw * 1664525u + 1013904223u;
            pthread_rwlock_rdlock(&rwlock.lock);
            x += look_up(draw / 65536 % NAMES);
            pthread_rwlock_unlock(&rwlock.lock);
            break;
        default:
            pthread_rwlock_rdlock(&rwlock.lock);
            x = work(x);
            pthread_rwlock_unlock(&rwlock.lock);
        }
        gains++;
        x = work(x);
    }
    me->gains = gains;
    me->left = x;
    return 0;
}

static void contended(int threads, int millis) {
    struct thread all[64];
    pthread_t ids[64];
    double start = now();
    for (int i = 0; i < threads; i++) pthread_create(&ids[i], 0, run, &all[i]);
    struct timespec t = { millis / 1000, (millis % 1000) * 1000000L };
    nanosleep(&t, 0);
    atomic_store(&stop, 1);
    uint64_t sum = 0;
    for (int i = 0; i < threads; i++) { pthread_join(ids[i], 0); sum += all[i].gains; }
    printf("%.0f gains a second\n", (double)sum * 1e9 / (now() - start));
}

static void counted(int threads, uint64_t gains) {
    struct thread all[64];
    pthread_t ids[64];
    enough = gains / (uint64_t)threads;
    for (int round = 0; round < 20; round++) {
        double start = now();
        for (int i = 0; i < threads; i++) pthread_create(&ids[i], 0, run, &all[i]);
        for (int i = 0; i < threads; i++) pthread_join(ids[i], 0);
        printf("%.1f ns a gain\n", (now() - start) / (double)gains);
    }
}

/* the best of several rounds */
#define BEST(what, body) do { \
    double best = 1e18; \
    for (int r = 0; r < 20; r++) { \
        double a = now(); \
        for (int i = 0; i < 1000000; i++) { body; } \
        double b = (now() - a) / 1000000; \
        if (b < best) best = b; \
    } \
    printf("%s %.1f ns\n", what, best); \
} while (0)

static void *rest(void *at) {
    pause();
    return at;
}

/* The C library spares a mutex its atomic operations while the process has one thread: so the mutex is timed in such a process, and
 * then, as all that follows, beside a thread that sleeps. */
static void alone(void) {
    BEST("one thread, pthread_mutex_t lock and unlock", pthread_mutex_lock(&mutex.lock); pthread_mutex_unlock(&mutex.lock));
    BEST("one thread, pthread_mutex_t trylock and unlock", if (!pthread_mutex_trylock(&mutex.lock)) pthread_mutex_unlock(&mutex.lock));
    pthread_t other;
    pthread_create(&other, 0, rest, 0);
    BEST("pthread_mutex_t lock and unlock", pthread_mutex_lock(&mutex.lock); pthread_mutex_unlock(&mutex.lock));
    BEST("pthread_mutex_t trylock and unlock", if (!pthread_mutex_trylock(&mutex.lock)) pthread_mutex_unlock(&mutex.lock));
    BEST("pthread_mutex_t trylock, add, unlock", if (!pthread_mutex_trylock(&mutex.lock)) { counter++; pthread_mutex_unlock(&mutex.lock); });
    BEST("pthread_mutex_t lock, add, unlock", pthread_mutex_lock(&mutex.lock); counter++; pthread_mutex_unlock(&mutex.lock));
#if HAS_MCS
    struct ck_spinlock_mcs node;
    BEST("mcs lock and unlock", ck_spinlock_mcs_lock(&mcs, &node); ck_spinlock_mcs_unlock(&mcs, &node));
#endif
    multiplications = 100;
    uint64_t x = 1;
    BEST("100 multiplications", x = work(x));
    if (x == 7) puts("");
}

int main(int n, char **w) {
    if (n == 2 && !strcmp(w[1], "free")) { alone(); return 0; }
    if (n == 2 && !strcmp(w[1], "has-mcs")) return !HAS_MCS;
    int counts = n == 6 && !strcmp(w[4], "gains");
    if ((n != 5 && !counts) || (!HAS_MCS && !strcmp(w[1], "mcs"))) return 2;
    which = !strcmp(w[1], "mutex") ? 'u' : !strcmp(w[1], "mcs") ? 'c' : !strcmp(w[1], "directory") ? 'd' : 'r';
    for (uint32_t i = 0; i < NAMES; i++) { rows[i].name = i; rows[i].number = i + 1; }
    multiplications = strtoull(w[3], 0, 10);
    if (counts) counted(atoi(w[2]), strtoull(w[5], 0, 10));
    else contended(atoi(w[2]), atoi(w[4]));
    return 0;
}
