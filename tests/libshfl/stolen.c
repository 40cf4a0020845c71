/* A signal that is given while another thread begins to wait isn't lost to the one that was waiting, though the system wakes that other one for it, whose priority is higher: with the library's
 * calls, or with pthread's (PTHREAD), for the preload library. The library's calls of the system come through this file: so the one that signals stands still between its two steps. */
#define _GNU_SOURCE
#include <errno.h>
#include <pthread.h>
#include <sched.h>
#include "answers.h"
#include "system.h"

#ifdef PTHREAD
static pthread_mutex_t m = PTHREAD_MUTEX_INITIALIZER;
static pthread_cond_t c = PTHREAD_COND_INITIALIZER;
#define CALL(of, ...) pthread_##of(__VA_ARGS__)
#define TIMED(...) pthread_cond_clockwait(&c, &m, CLOCK_MONOTONIC, __VA_ARGS__)
#else
#include <libshfl.h>
static shfl_mutex_t m;
static shfl_cond_t c;
#define CALL(of, ...) shfl_##of(__VA_ARGS__)
#define TIMED(...) shfl_cond_timedwait(&c, &m, __VA_ARGS__)
#endif
static uint32_t *signals_of(void) { return (uint32_t *)(void *)&c; } /* and behind it stands how many wait */
static bool is_over, is_back;
static int asleep; /* how many wait on the condition variable, or are about to */
static __thread bool stands_still; /* before it wakes somebody there */

static void at_the_system(uint32_t *word, bool sleeps) {
    if (word != signals_of()) return;
    if (sleeps) __atomic_fetch_add(&asleep, 1, __ATOMIC_SEQ_CST);
    if (sleeps || !stands_still) return;
    while (__atomic_load_n(&asleep, __ATOMIC_SEQ_CST) < 2) usleep(1000);
    usleep(20000);
}

static void *waits(void *timed) {
    struct timespec late = in_ms(CLOCK_MONOTONIC, 60000);
    IS(CALL(mutex_lock, &m), 0);
    IS(timed ? TIMED(&late) : CALL(cond_wait, &c, &m), 0);
    __atomic_store_n(&is_back, true, __ATOMIC_SEQ_CST);
    IS(CALL(mutex_unlock, &m), 0);
    return NULL;
}

static void *waits_first(void *timed) {
    struct sched_param first = {.sched_priority = 1};
    struct timespec late = in_ms(CLOCK_MONOTONIC, 60000);
    if (pthread_setschedparam(pthread_self(), SCHED_FIFO, &first)) return (void *)1;
    while (__atomic_load_n(signals_of(), __ATOMIC_SEQ_CST) == 0) usleep(1000); /* until the signal is counted */
    IS(CALL(mutex_lock, &m), 0);
    while (!is_over) IS(timed ? TIMED(&late) : CALL(cond_wait, &c, &m), 0);
    IS(CALL(mutex_unlock, &m), 0);
    return NULL;
}

static void *signals(void *none) {
    stands_still = true;
    IS(CALL(cond_signal, &c), 0);
    return none;
}

/* False: no thread may have another priority. */
static bool one_signal(void *timed) {
    pthread_t threads[3];
    void *told;
    is_over = is_back = false;
    asleep = 0;
    memset(&c, 0, sizeof c); /* as both initialisers have it */
    IS(pthread_create(&threads[0], NULL, waits, timed), 0);
    while (__atomic_load_n(&asleep, __ATOMIC_SEQ_CST) == 0) usleep(1000);
    IS(pthread_create(&threads[1], NULL, waits_first, timed) || pthread_create(&threads[2], NULL, signals, NULL), 0);
    for (int k = 0; k < 3000 && !__atomic_load_n(&is_back, __ATOMIC_SEQ_CST) && __atomic_load_n(signals_of() + 1, __ATOMIC_SEQ_CST); k++) usleep(1000);
    bool was_back = __atomic_load_n(&is_back, __ATOMIC_SEQ_CST);
    IS(CALL(mutex_lock, &m), 0);
    is_over = true;
    asleep = 2;
    IS(CALL(cond_broadcast, &c), 0);
    IS(CALL(mutex_unlock, &m), 0);
    IS(pthread_join(threads[1], &told), 0);
    if (!told) IS(was_back, 1);
    IS(pthread_join(threads[0], NULL) || pthread_join(threads[2], NULL) || CALL(cond_destroy, &c), 0);
    return !told;
}

int main(void) {
    alarm(100);
    puts(one_signal(NULL) && one_signal(&c) ? "a signal isn't lost to one with a higher priority" : "no thread may have a higher priority here");
    return 0;
}
