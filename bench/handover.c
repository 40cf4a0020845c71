/* How long it takes from one holder to the next, and what sleeping costs. Words:
 *   handover LOCK WAITERS HOLD_US ROUNDS [POLICY]
 *                                              one thread holds, the others queue or sleep, and then each takes the lock once. It
 *                                              prints the median, the 99th of 100 and the longest time from just before an unlock to
 *                                              the next return from lock, in microseconds
 *   handover LOCK THREADS asleep MILLISECONDS POLICY
 *                                              holds of 100 ms asleep; it prints the processor time of all threads, in milliseconds
 * LOCK is as in waits.c, and ours queues at once; WAITS_PINNED: threads.h. */
#include "waits.h"
#include "timing.h"

enum { MOST = 200000 };
static double lasted[MOST];
static long count_lasted;
static uint64_t unlocked;
static int waiters, rounds;
static pthread_barrier_t barrier;
static atomic_int going;
static double processor[MOST_THREADS];

static void *wait_each_round(void *arg) {
    unsigned me = (unsigned)(uintptr_t)arg;
    keep_to_one(me);
    for (int r = 0; r < rounds; r++) {
        pthread_barrier_wait(&barrier);
        take(me, false);
        if (count_lasted < MOST) lasted[count_lasted++] = (double)(shfl_clock() - unlocked) * 1e-3;
        unlocked = shfl_clock();
        give(me);
        pthread_barrier_wait(&barrier);
    }
    return NULL;
}

static void hand_over(uint64_t hold) {
    pthread_t threads[MOST_THREADS];
    keep_to_one(0);
    pthread_barrier_init(&barrier, NULL, (unsigned)waiters + 1);
    for (int k = 1; k <= waiters; k++) {
        if (pthread_create(&threads[k], NULL, wait_each_round, (void *)(uintptr_t)k)) exit(2);
    }
    for (int r = 0; r < rounds; r++) {
        take(0, false);
        pthread_barrier_wait(&barrier);
        /* a nap is longer than it says, and who waits for a brief hold is to spin */
        if (hold < 50) busy(hold * 1000);
        else nap(hold * 1000);
        unlocked = shfl_clock();
        give(0);
        pthread_barrier_wait(&barrier);
    }
    for (int k = 1; k <= waiters; k++) pthread_join(threads[k], NULL);
    qsort(lasted, (size_t)count_lasted, sizeof *lasted, by_size);
    printf("%.2f %.2f %.2f\n", lasted[count_lasted / 2], lasted[count_lasted * 99 / 100], lasted[count_lasted - 1]);
}

static void *hold_asleep(void *arg) {
    unsigned me = (unsigned)(uintptr_t)arg;
    double before = processor_time();
    while (atomic_load(&going) == 1) {
        take(me, false);
        if (atomic_load(&going) == 1) nap(100000000);
        give(me);
    }
    processor[me] = processor_time() - before;
    return NULL;
}

static void sleep_through(int count, uint64_t ms) {
    pthread_t threads[MOST_THREADS];
    double all = 0;
    atomic_store(&going, 1);
    for (int k = 0; k < count; k++) {
        if (pthread_create(&threads[k], NULL, hold_asleep, (void *)(uintptr_t)k)) exit(2);
    }
    nap(ms * 1000000);
    atomic_store(&going, 2);
    for (int k = 0; k < count; k++) pthread_join(threads[k], NULL);
    for (int k = 0; k < count; k++) all += processor[k];
    printf("%.2f\n", all * 1e3);
}

int main(int n, char **word) {
    if (n == 6 && strcmp(word[3], "asleep") == 0) {
        int count = atoi(word[2]);
        open_lock(word[1], count, word[5], "queue");
        sleep_through(count, strtoull(word[4], NULL, 10));
        close_lock(count);
        return 0;
    }
    if (n != 5 && n != 6) return 2;
    waiters = atoi(word[2]);
    rounds = atoi(word[4]);
    open_lock(word[1], waiters + 1, n == 6 ? word[5] : "none", "queue");
    hand_over(strtoull(word[3], NULL, 10));
    close_lock(waiters + 1);
    return 0;
}
