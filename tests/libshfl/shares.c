/* A reader that sleeps shares soon with others that read, and not when it looks by itself: it is woken by a reader that takes the lock, though a writer has slept there for longer, or is
 * awake just then; and by a writer that is woken, and finds that somebody reads. */
#define _GNU_SOURCE
#include <errno.h>
#include <libshfl.h>
#include <pthread.h>
#include <stdbool.h>
static void behind_a_sleep(void);
#define BEHIND_A_SLEEP behind_a_sleep
#include "system.h"
#include "answers.h"

#define ROUNDS 8
static shfl_rwlock_t locks[3 * ROUNDS], *l = locks;
static pid_t tids[3];
static bool all_read, stays_awake; /* who writes, when it is woken, until all read */
static double read_at[3];
static __thread bool writes_here;

static void at_the_system(uint32_t *word, bool sleeps) { (void)word, (void)sleeps; }

static void behind_a_sleep(void) {
    int before = errno;
    while (writes_here && stays_awake && !__atomic_load_n(&all_read, __ATOMIC_SEQ_CST)) usleep(200);
    errno = before;
}

static void comes(int which) { __atomic_store_n(&tids[which], (pid_t)syscall(SYS_gettid), __ATOMIC_SEQ_CST); }

/* The last one of those that come. */
static void *reads_too(void *at) {
    int which = (int)(intptr_t)at;
    comes(which);
    IS(shfl_rwlock_rdlock(l), 0);
    read_at[which] = now(CLOCK_MONOTONIC);
    if (which == 2) __atomic_store_n(&all_read, true, __ATOMIC_SEQ_CST);
    while (!__atomic_load_n(&all_read, __ATOMIC_SEQ_CST)) usleep(200);
    IS(shfl_rwlock_unlock(l), 0);
    return NULL;
}

static void *writes(void *at) {
    comes((int)(intptr_t)at);
    writes_here = true;
    IS(shfl_rwlock_wrlock(l) || shfl_rwlock_unlock(l), 0);
    return NULL;
}

/* Until it was seen asleep a few times, one after another. */
static void until_asleep(int which) {
    for (int times = 0; times < 4; usleep(100)) {
        pid_t tid = __atomic_load_n(&tids[which], __ATOMIC_SEQ_CST);
        times = tid && is_asleep(tid) ? times + 1 : 0;
    }
}

/* While main writes they come to sleep, the last one so many microseconds later, since nobody sleeps longer than a tenth of a second. Unless the first one of them reads main does so, and at
 * once. How long after another one the last one reads. */
static double one_round(void *(*const run[3])(void *), unsigned late, int other) {
    pthread_t threads[3];
    bool main_reads = run[0] != reads_too;
    all_read = false;
    memset(tids, 0, sizeof tids);
    IS(shfl_rwlock_wrlock(l), 0);
    for (intptr_t k = run[0] ? 0 : 1; k < 3; k++) {
        if (k == 2) usleep(late);
        IS(pthread_create(&threads[k], NULL, run[k], (void *)k), 0);
        until_asleep((int)k);
    }
    IS(shfl_rwlock_unlock(l) || (main_reads && shfl_rwlock_rdlock(l)), 0);
    if (main_reads) read_at[0] = now(CLOCK_MONOTONIC);
    while (!__atomic_load_n(&all_read, __ATOMIC_SEQ_CST)) usleep(200);
    if (main_reads) IS(shfl_rwlock_unlock(l), 0);
    for (int k = run[0] ? 0 : 1; k < 3; k++) IS(pthread_join(threads[k], NULL), 0);
    l++;
    return read_at[2] - read_at[other];
}

static void is_soon(const char *what, void *(*const run[3])(void *), unsigned late, int other) {
    double least = 1;
    for (int k = 0; k < ROUNDS; k++) {
        double waited = one_round(run, late, other);
        if (waited < least) least = waited;
    }
    if (least >= 0.03) fprintf(stderr, "%s: it slept for %.3f s: ", what, least);
    IS(least < 0.03, 1);
}

int main(void) {
    alarm(100);
    is_soon("a writer has slept for longer", (void *(*const[])(void *)){reads_too, writes, reads_too}, 0, 0);
    is_soon("a writer was woken", (void *(*const[])(void *)){NULL, writes, reads_too}, 0, 0);
    stays_awake = true;
    is_soon("a writer is awake", (void *(*const[])(void *)){writes, reads_too, reads_too}, 50000, 1);
    puts("a reader shares soon, whether a writer sleeps or is awake");
    return 0;
}
