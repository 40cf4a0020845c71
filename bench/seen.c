/* What a lock that threads wait at may do badly, apart from storms. Words:
 *   seen starve LOCK MILLISECONDS    two readers that overlap and two writers, holds of 20 us: writes a second, a writer's longest wait in ms
 *   seen replaced LOCK MILLISECONDS  eight threads, holds of 1 us, and each takes another policy every millisecond: holds a second, the longest wait in ms
 *   seen realtime LOCK               one processor, whose normal thread holds and whose real-time thread wants: seconds that it waits
 *   seen work LOCK THREADS HOLDS     so many threads that make so many holds of 1 us each, 1 us apart: seconds from start to end
 * LOCK is as in waits.c, by default opened as there. Status 3: no right to be a real-time thread. */
#include "waits.h"

enum { HOLD = 20000, BRIEF = 1000 };
static atomic_int going;
static atomic_uint version;
static uint64_t longest[MOST_THREADS], holds[MOST_THREADS * LINE];
static unsigned readers;
static uint64_t each;

static void *read_on(void *arg) {
    unsigned me = (unsigned)(uintptr_t)arg;
    while (atomic_load(&going)) {
        take(me, true);
        busy(HOLD);
        give(me);
    }
    return NULL;
}

static void hold_once(unsigned me, uint64_t hold) {
    uint64_t came = shfl_clock();
    take(me, false);
    uint64_t waited = shfl_clock() - came;
    if (waited > longest[me]) longest[me] = waited;
    busy(hold);
    give(me);
    holds[me * LINE]++;
}

static void *write_on(void *arg) {
    unsigned me = (unsigned)(uintptr_t)arg;
    while (atomic_load(&going)) hold_once(me, HOLD);
    return NULL;
}

static void *take_others_policies(void *arg) {
    unsigned me = (unsigned)(uintptr_t)arg, seen = 0, now;
    while (atomic_load(&going)) {
        now = atomic_load_explicit(&version, memory_order_relaxed);
        if (now != seen && is_ours()) attach_one(me, now % 2 ? "socket" : "never");
        seen = now;
        hold_once(me, BRIEF);
    }
    return NULL;
}

static void *make_holds(void *arg) {
    unsigned me = (unsigned)(uintptr_t)arg;
    while (holds[me * LINE] < each) {
        hold_once(me, BRIEF);
        busy(BRIEF);
    }
    return NULL;
}

static void start(pthread_t *threads, unsigned from, unsigned to, void *(*what)(void *)) {
    for (unsigned k = from; k < to; k++) {
        if (pthread_create(&threads[k], NULL, what, (void *)(uintptr_t)k)) exit(2);
    }
}

static void join(const pthread_t *threads, unsigned count) {
    for (unsigned k = 0; k < count; k++) pthread_join(threads[k], NULL);
}

static void tell(unsigned from, unsigned to, double took) {
    uint64_t all = 0, most = 0;
    for (unsigned k = from; k < to; k++) {
        all += holds[k * LINE];
        if (longest[k] > most) most = longest[k];
    }
    printf("%.1f %.3f\n", (double)all / took, (double)most * 1e-6);
}

static void storm(unsigned count, uint64_t ms, void *(*what)(void *)) {
    pthread_t threads[MOST_THREADS];
    uint64_t began = shfl_clock();
    atomic_store(&going, 1);
    start(threads, 0, readers, read_on);
    start(threads, readers, count, what);
    for (uint64_t until = began + ms * 1000000; shfl_clock() < until; atomic_fetch_add(&version, 1)) nap(1000000);
    atomic_store(&going, 0);
    double took = (double)(shfl_clock() - began) * 1e-9;
    join(threads, count);
    tell(readers, count, took);
}

static atomic_int held;
static double waited_for;

static void *hold_long(void *arg) {
    take(0, false);
    atomic_store(&held, 1);
    for (double until = processor_time() + 0.04; processor_time() < until;) {}
    give(0);
    return arg;
}

static void *want_at_once(void *arg) {
    uint64_t came = shfl_clock();
    take(1, false);
    waited_for = (double)(shfl_clock() - came) * 1e-9;
    give(1);
    return arg;
}

static int meet_a_real_time_thread(void) {
    pthread_t low, high;
    pthread_attr_t attr;
    struct sched_param first = {.sched_priority = 10};
    cpu_set_t one;
    CPU_ZERO(&one);
    CPU_SET(0, &one);
    sched_setaffinity(0, sizeof one, &one);
    if (pthread_create(&low, NULL, hold_long, NULL)) return 2;
    while (!atomic_load(&held)) nap(1000000);
    pthread_attr_init(&attr);
    pthread_attr_setinheritsched(&attr, PTHREAD_EXPLICIT_SCHED);
    pthread_attr_setschedpolicy(&attr, SCHED_FIFO);
    pthread_attr_setschedparam(&attr, &first);
    if (pthread_create(&high, &attr, want_at_once, NULL)) return 3;
    pthread_join(high, NULL);
    pthread_join(low, NULL);
    printf("%.3f\n", waited_for);
    return 0;
}

static void make_all(unsigned count) {
    pthread_t threads[MOST_THREADS];
    uint64_t began = shfl_clock();
    start(threads, 0, count, make_holds);
    join(threads, count);
    printf("%.3f\n", (double)(shfl_clock() - began) * 1e-9);
}

int main(int n, char **word) {
    if (n < 3) return 2;
    unsigned count = strcmp(word[1], "starve") == 0 ? 4 : strcmp(word[1], "work") == 0 && n == 5 ? (unsigned)atoi(word[3]) : 8;
    int status = 0;
    open_lock(word[2], (int)count, "none", "policy");
    if (strcmp(word[1], "starve") == 0 && n == 4) {
        readers = 2;
        storm(count, strtoull(word[3], NULL, 10), write_on);
    } else if (strcmp(word[1], "replaced") == 0 && n == 4) {
        storm(count, strtoull(word[3], NULL, 10), take_others_policies);
    } else if (strcmp(word[1], "work") == 0 && n == 5) {
        each = strtoull(word[4], NULL, 10);
        make_all(count);
    } else {
        status = strcmp(word[1], "realtime") == 0 ? meet_a_real_time_thread() : 2;
    }
    close_lock((int)count);
    return status;
}
