/* Whoever waits sleeps, in each way to wait: while four threads wait for four tenths of a second the process uses less than a tenth of that of a processor. */
#include <libshfl.h>
#include <pthread.h>
#include <stdbool.h>
#include <sys/resource.h>
#include <unistd.h>
#include "answers.h"

#define THREADS 4
#define CLASS 5
static shfl_mutex_t m, ordered, gate;
static shfl_rwlock_t written, read_too;
static shfl_cond_t c;
static bool is_told;

#define WAY(name, take, give) static void *name(void *none) { IS(take, 0); IS(give, 0); return none; }
WAY(locks, shfl_mutex_lock(&m), shfl_mutex_unlock(&m))
WAY(queues, shfl_mutex_lock(&ordered), shfl_mutex_unlock(&ordered))
WAY(reads, shfl_rwlock_rdlock(&written), shfl_rwlock_unlock(&written))
WAY(writes, shfl_rwlock_wrlock(&read_too), shfl_rwlock_unlock(&read_too))

static void *locks_in_time(void *none) {
    struct timespec late = in_ms(CLOCK_MONOTONIC, 60000);
    IS(shfl_mutex_timedlock(&m, &late), 0);
    IS(shfl_mutex_unlock(&m), 0);
    return none;
}

static void *reads_in_time(void *none) {
    struct timespec late = in_ms(CLOCK_REALTIME, 60000);
    IS(shfl_rwlock_clockrdlock(&written, CLOCK_REALTIME, &late), 0);
    IS(shfl_rwlock_unlock(&written), 0);
    return none;
}

static void *awaits(void *timed) {
    struct timespec late = in_ms(CLOCK_MONOTONIC, 60000);
    IS(shfl_mutex_lock(&gate), 0);
    while (!is_told) IS(timed ? shfl_cond_timedwait(&c, &gate, &late) : shfl_cond_wait(&c, &gate), 0);
    IS(shfl_mutex_unlock(&gate), 0);
    return NULL;
}

struct way { const char *name; void *(*run)(void *); const void *lock; void *with; };
static const struct way ways[] = {
    {"locks", locks, &m, NULL}, {"queues under a policy", queues, &ordered, NULL}, {"reads", reads, &written, NULL}, {"writes", writes, &read_too, NULL},
    {"locks with a deadline", locks_in_time, &m, NULL}, {"reads with a deadline", reads_in_time, &written, NULL},
    {"awaits", awaits, NULL, NULL}, {"awaits with a deadline", awaits, NULL, &c},
};

static double processor(void) {
    struct rusage used;
    IS(getrusage(RUSAGE_SELF, &used), 0);
    return (double)(used.ru_utime.tv_sec + used.ru_stime.tv_sec) + (double)(used.ru_utime.tv_usec + used.ru_stime.tv_usec) / 1e6;
}

/* How many wait, or have waited, in this way. */
static uint64_t waiting(const struct way *way) {
    struct shfl_stat it;
    if (!way->lock) return __atomic_load_n(&c.waiting, __ATOMIC_SEQ_CST);
    IS(shfl_stat(way->lock, &it), 0);
    return it.contended;
}

static void give_all(void) {
    IS(shfl_mutex_unlock(&m) || shfl_mutex_unlock(&ordered) || shfl_rwlock_unlock(&written) || shfl_rwlock_unlock(&read_too), 0);
    IS(shfl_mutex_lock(&gate), 0);
    is_told = true;
    IS(shfl_cond_broadcast(&c), 0);
    IS(shfl_mutex_unlock(&gate), 0);
}

static double sleeps(const struct way *way) {
    pthread_t threads[THREADS];
    uint64_t before = waiting(way);
    is_told = false;
    IS(shfl_mutex_lock(&m) || shfl_mutex_lock(&ordered) || shfl_rwlock_wrlock(&written) || shfl_rwlock_rdlock(&read_too), 0);
    for (int k = 0; k < THREADS; k++) IS(pthread_create(&threads[k], NULL, way->run, way->with), 0);
    while (waiting(way) < before + THREADS) usleep(1000);
    usleep(100000);
    double used = processor();
    usleep(400000);
    used = processor() - used;
    give_all();
    for (int k = 0; k < THREADS; k++) IS(pthread_join(threads[k], NULL), 0);
    return used;
}

int main(void) {
    static const uint8_t no[16] = {0xb7, 0, 0, 0, 0, 0, 0, 0, 0x95};
    double most = 0;
    alarm(280);
    IS(shfl_mutex_init(&ordered, CLASS) || shfl_class_policy(CLASS, SHFL_PROFILE_BASE, no, sizeof no, no, sizeof no, NULL), 0);
    for (size_t k = 0; k < sizeof ways / sizeof *ways; k++) {
        double used = sleeps(&ways[k]);
        if (used >= 0.04) fprintf(stderr, "%s: %.3f s of a processor: ", ways[k].name, used);
        IS(used < 0.04, 1);
        if (used > most) most = used;
    }
    printf("whoever waits sleeps: in four tenths of a second four threads use at most %.1f ms of a processor\n", most * 1e3);
    return 0;
}
