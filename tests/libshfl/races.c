/* Programs for those who look for races: `races none` has none, in mutexes, locks for readers and writers, condition variables, tries and deadlines, counts
 * that are read and policies that are replaced meanwhile;
 * `races mutex`, `races reader` and `races handover` have one each, whatever the threads' times. */
#include <errno.h>
#include <libshfl.h>
#include <pthread.h>
#include <stdio.h>
#include <stdlib.h>
#include <string.h>

#define THREADS 4
#define ROUNDS 50
static shfl_mutex_t mutex, others[THREADS];
static shfl_rwlock_t shared;
static shfl_cond_t filled;
static long counts[4], apart[THREADS], *message;
static int racy;

static void must(int told, int wanted) {
    if (told != wanted) abort();
}

static void timed(shfl_mutex_t *m) {
    struct timespec over = {1, 0};
    int told = shfl_mutex_timedlock(m, &over);
    if (told == ETIMEDOUT) told = shfl_mutex_lock(m);
    must(told, 0);
}

static void *takes(void *at) {
    long me = (long)at;
    for (int r = 0; r < ROUNDS; r++) {
        if (r % 4 == 0) timed(&mutex);
        else if (r % 4 == 1 || shfl_mutex_trylock(&mutex)) must(shfl_mutex_lock(&mutex), 0);
        counts[0]++;
        must(shfl_mutex_unlock(&mutex), 0);
        if (r % 8 == 0) {
            must(shfl_rwlock_wrlock(&shared), 0);
            counts[1]++;
        } else {
            must(shfl_rwlock_rdlock(&shared), 0);
            must(shfl_rwlock_rdlock(&shared), 0);
            apart[me] += counts[1];
            must(shfl_rwlock_unlock(&shared), 0);
        }
        must(shfl_rwlock_unlock(&shared), 0);
        must(shfl_mutex_lock(&others[me]), 0);
        must(shfl_mutex_unlock(&others[me]), 0);
    }
    return NULL;
}

/* Meanwhile reads counts, and gives the locks' class policies. */
static void *asks(void *none) {
    static const uint8_t yes[16] = {0xb7, 0, 0, 0, 1, 0, 0, 0, 0x95};
    struct shfl_stat it;
    struct shfl_class_stat of;
    for (int r = 0; r < ROUNDS; r++) {
        must(shfl_class_policy(0, SHFL_PROFILE_BASE, yes, sizeof yes, NULL, 0, NULL), 0);
        must(shfl_stat(&mutex, &it) || shfl_stat(&shared, &it) || shfl_class_stat(0, &of), 0);
        must(of.attached == 1 && of.version > 0, 1);
    }
    return none;
}

/* A block of memory that one thread fills and another frees. */
static void *gives(void *none) {
    long *block = malloc(sizeof *block);
    *block = 17;
    must(shfl_mutex_lock(&mutex), 0);
    message = block;
    must(shfl_cond_signal(&filled), 0);
    must(shfl_mutex_unlock(&mutex), 0);
    must(shfl_cond_broadcast(&filled), 0); /* as well without the mutex */
    return none;
}

static void *gets(void *none) {
    must(shfl_mutex_lock(&mutex), 0);
    while (!message) must(shfl_cond_wait(&filled, &mutex), 0);
    long *block = message;
    must(shfl_mutex_unlock(&mutex), 0);
    must(*block == 17, 1);
    free(block);
    return none;
}

/* Each has a mutex, but another one. */
static void *takes_own(void *at) {
    shfl_mutex_t *own = &others[(long)at];
    must(shfl_mutex_lock(own), 0);
    racy++;
    must(shfl_mutex_unlock(own), 0);
    return NULL;
}

/* Each writes as a reader. */
static void *writes_as_reader(void *none) {
    must(shfl_rwlock_rdlock(&shared), 0);
    racy++;
    must(shfl_rwlock_unlock(&shared), 0);
    return none;
}

/* What it gives over it goes on to write. */
static void *gives_and_writes(void *none) {
    must(shfl_mutex_lock(&mutex), 0);
    racy = 1;
    must(shfl_mutex_unlock(&mutex), 0);
    racy = 2;
    return none;
}

static void run(void *(*first)(void *), void *(*second)(void *), long count) {
    pthread_t threads[THREADS];
    for (long k = 0; k < count; k++) must(pthread_create(&threads[k], NULL, k % 2 ? second : first, (void *)k), 0);
    for (long k = 0; k < count; k++) must(pthread_join(threads[k], NULL), 0);
}

int main(int count, char **words) {
    const char *what = count > 1 ? words[1] : "";
    if (strcmp(what, "mutex") == 0) return run(takes_own, takes_own, 2), 0;
    if (strcmp(what, "reader") == 0) return run(writes_as_reader, writes_as_reader, 2), 0;
    if (strcmp(what, "handover") == 0) return run(gives_and_writes, takes_own, 2), 0;
    if (strcmp(what, "none") != 0) return 2;
    run(takes, takes, THREADS);
    run(takes, asks, THREADS);
    run(gives, gets, 2);
    must(counts[0] == 3 * THREADS * ROUNDS / 2 && counts[1] == 3 * THREADS * ((ROUNDS + 7) / 8) / 2, 1);
    must(shfl_mutex_destroy(&mutex), 0);
    must(shfl_rwlock_destroy(&shared) || shfl_cond_destroy(&filled), 0);
    puts("no race");
    return 0;
}
