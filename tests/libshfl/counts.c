/* What shfl_stat and shfl_class_stat tell: exact counts of a few calls, and of many threads at more locks than a thread counts at a time. */
#include <errno.h>
#include <libshfl.h>
#include <pthread.h>
#include <stdio.h>
#include <stdlib.h>
#include <string.h>
#include <unistd.h>

#define IS(call, wanted) is(#call, __LINE__, (uint64_t)(call), (uint64_t)(wanted))
static void is(const char *call, int line, uint64_t told, uint64_t wanted) {
    if (told == wanted) return;
    fprintf(stderr, "counts.c, line %d: %s is %llu, not %llu\n", line, call, (unsigned long long)told, (unsigned long long)wanted);
    exit(1);
}

static struct shfl_stat of(const void *lock) {
    struct shfl_stat out;
    IS(shfl_stat(lock, &out), 0);
    return out;
}

static struct shfl_class_stat of_class(unsigned class_of) {
    struct shfl_class_stat out;
    IS(shfl_class_stat(class_of, &out), 0);
    return out;
}

static void beside(void *(*run)(void *), void *with) {
    pthread_t thread;
    IS(pthread_create(&thread, NULL, run, with), 0);
    IS(pthread_join(thread, NULL), 0);
}

static void *takes(void *at) {
    IS(shfl_mutex_lock(at), 0);
    IS(shfl_mutex_unlock(at), 0);
    return NULL;
}

static void *tries(void *at) {
    struct timespec before = {1, 0};
    IS(shfl_mutex_trylock(at), EBUSY);
    IS(shfl_mutex_timedlock(at, &before), ETIMEDOUT);
    return NULL;
}

static void few(void) {
    static shfl_mutex_t m;
    static shfl_rwlock_t l;
    struct shfl_stat out;
    IS(shfl_stat(NULL, &out), EINVAL);
    IS(shfl_stat(&m, NULL), EINVAL);
    IS(shfl_class_stat(64, NULL), EINVAL);
    IS(of(&m).taken, 0);
    for (int k = 0; k < 5; k++) takes(&m);
    IS(of(&m).taken, 5);
    IS(of(&m).contended + of(&m).queued + of(&m).waited_ns + of(&m).within + of(&m).across, 0);
    IS(shfl_mutex_lock(&m), 0);
    beside(tries, &m);
    IS(shfl_mutex_lock(&m), EDEADLK);
    IS(shfl_mutex_unlock(&m), 0);
    IS(of(&m).taken, 6);
    IS(of(&m).contended, 2);
    beside(takes, &m); /* another thread, and this one again */
    takes(&m);
    IS(of(&m).within + of(&m).across, 2);
    IS(shfl_rwlock_rdlock(&l) || shfl_rwlock_rdlock(&l) || shfl_rwlock_unlock(&l) || shfl_rwlock_unlock(&l), 0);
    IS(of(&l).taken, 1);
    IS(of_class(0).counts.taken, 9);
    IS(of_class(0).locks, 2);
    IS(shfl_mutex_destroy(&m), 0);
    IS(of_class(0).counts.taken, 10); /* to destroy it is to take it */
    IS(of_class(0).locks, 1);
    takes(&m);
    IS(of(&m).taken, 1);
}

/* One thread after another has the same seat. */
static void in_one_seat(void) {
    static shfl_mutex_t m;
    for (int k = 0; k < 70; k++) beside(takes, &m);
    IS(of(&m).taken, 70);
    IS(of(&m).within + of(&m).across, 69);
    IS(shfl_mutex_destroy(&m), 0);
}

static void *holds(void *at) {
    IS(shfl_mutex_lock(at), 0);
    while (of(at).contended == 0) usleep(100);
    usleep(10000);
    IS(shfl_mutex_unlock(at), 0);
    return NULL;
}

/* One waits for some 10 ms, in the queue where the class has a policy. */
static void waits(void) {
    static shfl_mutex_t m;
    pthread_t thread;
    static const uint8_t no[16] = {0xb7, 0, 0, 0, 0, 0, 0, 0, 0x95};
    IS(shfl_mutex_init(&m, 9), 0);
    IS(of_class(9).version, 0);
    IS(shfl_class_policy(9, 1, no, 16, NULL, 0, NULL), 0);
    IS(of_class(9).version, 1);
    IS(of_class(9).attached, 1);
    pthread_create(&thread, NULL, holds, &m);
    while (of(&m).taken == 0) usleep(100);
    takes(&m);
    pthread_join(thread, NULL);
    struct shfl_stat counts = of(&m);
    IS(counts.taken, 2);
    IS(counts.contended, 1);
    IS(counts.queued, 1);
    IS(counts.waited_ns >= 5000000 && counts.waited_ns == counts.longest_ns, 1);
    IS(memcmp(&counts, &(struct shfl_class_stat){.counts = of_class(9).counts}, sizeof counts), 0);
    IS(shfl_class_detach(9), 0);
    IS(of_class(9).version, 2);
    IS(of_class(9).attached, 0);
    IS(of_class(9).drained, 1);
}

#define LOCKS 300
#define THREADS 8
static shfl_mutex_t many[LOCKS];
static int rounds;

static void *goes_round(void *at) {
    unsigned place = (unsigned)(uintptr_t)at;
    for (int r = 0; r < rounds; r++)
        for (int k = 0; k < LOCKS; k++) {
            shfl_mutex_t *lock = &many[(place + (unsigned)k * 7) % LOCKS];
            IS(shfl_mutex_lock(lock), 0);
            IS(shfl_mutex_unlock(lock), 0);
            if (k % 50 == 0 && of(lock).taken < (uint64_t)r) IS(of(lock).taken, r);
        }
    return NULL;
}

static void more_locks_than_places(void) {
    pthread_t threads[THREADS];
    uint64_t all = 0, class_before = of_class(3).counts.taken;
    for (int k = 0; k < LOCKS; k++) IS(shfl_mutex_init(&many[k], 3), 0);
    for (intptr_t k = 0; k < THREADS; k++) IS(pthread_create(&threads[k], NULL, goes_round, (void *)(k * 31)), 0);
    for (int k = 0; k < THREADS; k++) pthread_join(threads[k], NULL);
    for (int k = 0; k < LOCKS; k++) {
        IS(of(&many[k]).taken, THREADS * rounds);
        all += of(&many[k]).taken;
    }
    IS(of_class(3).counts.taken - class_before, all);
    IS(of_class(3).locks, LOCKS);
    for (int k = 0; k < LOCKS; k++) IS(shfl_mutex_destroy(&many[k]), 0);
    IS(of_class(3).counts.taken - class_before, all + LOCKS);
    IS(of_class(3).locks, 0);
}

int main(int count, char **words) {
    rounds = count > 1 ? atoi(words[1]) : 20;
    few();
    in_one_seat();
    waits();
    more_locks_than_places();
    puts("counts are exact");
    return 0;
}
