/* One that gives a mutex back counts a sleeper as awake before it wakes it. Where that one was awake already, and takes the mutex and gives it back meanwhile, it finds this
 * count, and wakes nobody; but another one may be about to sleep by then. It must not sleep for long. The library's calls of the system come through this file, so each
 * thread stands still where it has to. */
#define _GNU_SOURCE
#include <libshfl.h>
#include <pthread.h>
#include "answers.h"
#include "system.h"

enum role { NONE, GIVES, TAKES, SLEEPS };
static __thread enum role role;
enum told { GIVER_WAKES, TAKER_WAITS, TAKER_HAS, TAKER_GAVE, SLEEPER_WAITS, GIVER_GAVE, ALL_TOLD };
static bool told[ALL_TOLD];
static shfl_mutex_t locks[5], *m = locks;
static double had_it;

static void tell(enum told what) { __atomic_store_n(&told[what], true, __ATOMIC_SEQ_CST); }

static void until(enum told what) {
    while (!__atomic_load_n(&told[what], __ATOMIC_SEQ_CST)) usleep(200);
}

/* Each thread stands still once, where it sleeps or wakes. */
static void at_the_system(uint32_t *word, bool sleeps) {
    enum role mine = role;
    (void)word;
    if (mine == NONE || sleeps == (mine == GIVES)) return;
    role = NONE;
    if (mine == GIVES) tell(GIVER_WAKES), until(SLEEPER_WAITS), until(TAKER_GAVE);
    if (mine == TAKES) tell(TAKER_WAITS), until(GIVER_WAKES);
    if (mine == SLEEPS) tell(SLEEPER_WAITS), until(GIVER_GAVE);
}

static void *passes(void *none) {
    IS(shfl_mutex_lock(m) || shfl_mutex_unlock(m), 0);
    return none;
}

static void *takes(void *none) {
    role = TAKES;
    IS(shfl_mutex_lock(m), 0);
    tell(TAKER_HAS);
    until(SLEEPER_WAITS);
    IS(shfl_mutex_unlock(m), 0);
    tell(TAKER_GAVE);
    return none;
}

static void *sleeps(void *none) {
    until(TAKER_HAS);
    role = SLEEPS;
    IS(shfl_mutex_lock(m), 0);
    had_it = now(CLOCK_MONOTONIC);
    IS(shfl_mutex_unlock(m), 0);
    return none;
}

/* The first hold that passes a sleeper, so that the one of a round is the second: after each second one somebody is woken to queue, whoever is awake. */
static void one_before(void) {
    pthread_t thread;
    struct shfl_stat it = {0};
    IS(shfl_mutex_lock(m) || pthread_create(&thread, NULL, passes, NULL), 0);
    for (; it.contended == 0; usleep(1000)) IS(shfl_stat(m, &it), 0);
    usleep(20000);
    IS(shfl_mutex_unlock(m) || pthread_join(thread, NULL), 0);
}

/* How long the last one waits, though nobody has the mutex. */
static double one_round(void) {
    pthread_t taker, sleeper;
    memset(told, 0, sizeof told);
    one_before();
    IS(shfl_mutex_lock(m), 0);
    IS(pthread_create(&taker, NULL, takes, NULL) || pthread_create(&sleeper, NULL, sleeps, NULL), 0);
    until(TAKER_WAITS);
    role = GIVES;
    IS(shfl_mutex_unlock(m), 0);
    double gave = now(CLOCK_MONOTONIC);
    tell(GIVER_GAVE);
    IS(pthread_join(taker, NULL) || pthread_join(sleeper, NULL), 0);
    return had_it - gave;
}

int main(void) {
    double least = 1;
    alarm(100);
    for (; m < locks + 5; m++) {
        double waited = one_round();
        if (waited < least) least = waited;
    }
    if (least >= 0.05) fprintf(stderr, "it slept for %.3f s: ", least);
    IS(least < 0.05, 1);
    puts("nobody sleeps for long beside a free mutex");
    return 0;
}
