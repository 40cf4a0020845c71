/* Threads that take a lock again and again, for a while. Words:
 *   waits LOCK THREADS HOLD_NS THINK_NS READS_PERCENT MILLISECONDS [POLICY WHEN]
 * LOCK is spin, rw, park or rwpark, or of the peers mutex, mcs or rwlock; POLICY none, never or socket, WHEN policy, queue or try. It
 * prints holds a second, Jain's index of the threads' holds, the longest wait in milliseconds, how many of 1,000 holds of a writer came
 * after one of another socket, and the processors used. WAITS_PINNED: threads.h. Status 1: two were in the section that may not be. */
#include "waits.h"

struct worker {
    pthread_t thread;
    uint64_t holds, writes, longest, draw;
    unsigned me;
    double processor;
    char apart[LINE];
};

static struct worker workers[MOST_THREADS];
static uint64_t hold, think;
static unsigned reads_percent;
static _Alignas(LINE) atomic_int going;
/* Written under the lock alone. The second count follows the first at the end of a section. */
static _Alignas(LINE) volatile uint64_t begun;
static volatile uint64_t ended, changes;
static volatile unsigned last_socket;
static atomic_long torn;

static void section(struct worker *own, bool reads) {
    uint64_t seen = begun;
    if (seen != ended) torn++;
    if (!reads) begun = seen + 1;
    busy(hold);
    if (begun != seen + !reads) torn++;
    if (reads) return;
    if (last_socket != own->me % 2) {
        changes++;
        last_socket = own->me % 2;
    }
    own->writes++;
    ended = seen + 1;
}

static void *work(void *arg) {
    struct worker *own = arg;
    keep_to_one(own->me);
    while (atomic_load(&going) == 0) sched_yield();
    while (atomic_load_explicit(&going, memory_order_relaxed) == 1) {
        own->draw = own->draw * 6364136223846793005u + 1442695040888963407u;
        bool reads = has_readers() && (own->draw >> 33) % 100 < reads_percent;
        uint64_t came = shfl_clock();
        take(own->me, reads);
        uint64_t waited = shfl_clock() - came;
        if (waited > own->longest) own->longest = waited;
        section(own, reads);
        give(own->me);
        own->holds++;
        busy(think);
    }
    own->processor = processor_time();
    return NULL;
}

static void report(int count, double took) {
    double all = 0, squares = 0, processor = 0;
    uint64_t longest = 0, writes = 0;
    for (int k = 0; k < count; k++) {
        double holds = (double)workers[k].holds;
        all += holds;
        squares += holds * holds;
        writes += workers[k].writes;
        processor += workers[k].processor;
        if (workers[k].longest > longest) longest = workers[k].longest;
    }
    printf("%.0f %.4f %.3f %.0f %.2f\n", all / took, squares > 0 ? all * all / (count * squares) : 0, (double)longest * 1e-6,
           writes ? 1000.0 * (double)changes / (double)writes : 0, processor / took);
    if (begun != writes || ended != writes) torn++;
}

int main(int n, char **word) {
    if (n != 7 && n != 9) return 2;
    int count = atoi(word[2]);
    hold = strtoull(word[3], NULL, 10);
    think = strtoull(word[4], NULL, 10);
    reads_percent = (unsigned)atoi(word[5]);
    open_lock(word[1], count, n == 9 ? word[7] : "none", n == 9 ? word[8] : "policy");
    for (int k = 0; k < count; k++) {
        workers[k].me = (unsigned)k;
        workers[k].draw = (uint64_t)k * 977 + 1;
        if (pthread_create(&workers[k].thread, NULL, work, &workers[k])) return 2;
    }
    uint64_t began = shfl_clock();
    atomic_store(&going, 1);
    nap(strtoull(word[6], NULL, 10) * 1000000);
    atomic_store(&going, 2);
    double took = (double)(shfl_clock() - began) * 1e-9;
    for (int k = 0; k < count; k++) pthread_join(workers[k].thread, NULL);
    report(count, took);
    close_lock(count);
    return torn != 0;
}
