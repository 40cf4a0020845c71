/* Holds of 0 at a lock for readers and writers, ours (include/shfl.h) beside pthread's in both of its kinds, in turn: million holds a second, and the longest
 * wait of a writer. Words: how many threads, and how many of 100 holds read. Each figure is the median of nine runs, and beside it the worst. */
#define _GNU_SOURCE
#include "shfl.h"
#include <pthread.h>
#include <stdio.h>
#include <stdlib.h>
#include <time.h>
#include "timing.h"

enum { MOST = 64, RUNS = 9, HOLDS = 60000, KINDS = 3 };

static const char *const names[] = {"ours", "rwlock", "rwlock that prefers writers"};
static struct shfl_pass passes[MOST];
static pthread_rwlock_t usual = PTHREAD_RWLOCK_INITIALIZER, writers_first = PTHREAD_RWLOCK_WRITER_NONRECURSIVE_INITIALIZER_NP;
static double waited[MOST];
static int kind, threads, reads_percent;
static _Atomic int going;

static void take(struct shfl_pass *pass, bool reads) {
    pthread_rwlock_t *theirs = kind == 1 ? &usual : &writers_first;
    if (kind == 0 && reads) shfl_rdlock(pass);
    else if (kind == 0) shfl_lock(pass);
    else if (reads) pthread_rwlock_rdlock(theirs);
    else pthread_rwlock_wrlock(theirs);
}

static void give_back(struct shfl_pass *pass) {
    if (kind == 0) shfl_unlock(pass);
    else pthread_rwlock_unlock(kind == 1 ? &usual : &writers_first);
}

static void *work(void *number) {
    size_t me = (size_t)number;
    uint64_t draw = me + 1;
    double longest = 0;
    while (!going) {}
    for (int k = 0; k < HOLDS; k++) {
        draw = draw * 6364136223846793005u + 1442695040888963407u;
        bool reads = (int)((draw >> 33) % 100) < reads_percent;
        double begun = reads ? 0 : seconds();
        take(&passes[me], reads);
        if (!reads && seconds() - begun > longest) longest = seconds() - begun;
        give_back(&passes[me]);
    }
    waited[me] = longest;
    return NULL;
}

/* Million holds a second of one run, and the longest wait of a writer in milliseconds. */
static double run(double *longest) {
    pthread_t all[MOST];
    going = 0;
    for (size_t k = 0; k < (size_t)threads; k++)
        if (pthread_create(&all[k], NULL, work, (void *)k)) exit(2);
    double begun = seconds();
    going = 1;
    for (int k = 0; k < threads; k++) pthread_join(all[k], NULL);
    double took = seconds() - begun;
    *longest = 0;
    for (int k = 0; k < threads; k++)
        if (waited[k] * 1e3 > *longest) *longest = waited[k] * 1e3;
    return threads * (double)HOLDS / took / 1e6;
}

int main(int count, char **words) {
    static const uint64_t attrs[MOST];
    static double rates[KINDS][RUNS], waits[KINDS][RUNS];
    threads = count == 3 ? atoi(words[1]) : 0;
    reads_percent = count == 3 ? atoi(words[2]) : 0;
    if (threads < 1 || threads > MOST || !shfl_open(attrs, (uint32_t)threads, SHFL_RW, 1024, passes, (uint32_t)threads)) return 2;
    for (int r = 0; r < RUNS; r++)
        for (kind = 0; kind < KINDS; kind++) rates[kind][r] = run(&waits[kind][r]);
    for (int k = 0; k < KINDS; k++) {
        qsort(rates[k], RUNS, sizeof rates[k][0], by_size);
        qsort(waits[k], RUNS, sizeof waits[k][0], by_size);
        printf("%d threads, %d of 100 reading, %-27s %6.2f million holds a second, worst %6.2f; a writer waits %5.1f ms at most, worst %5.1f\n", threads,
               reads_percent, names[k], rates[k][RUNS / 2], rates[k][0], waits[k][RUNS / 2], waits[k][RUNS - 1]);
    }
    return 0;
}
