/* In the child of a fork the seats of the parent's other threads serve new threads, but for those of threads that had a lock or were about to take one: with the library's calls, or
 * with pthread's (PTHREAD), for the preload library. With the library's, one that goes back while another thread forks serves the next thread at once: seats, with SHFL_THREADS=8. */
#include <errno.h>
#include <pthread.h>
#include <stdbool.h>
#include <sys/mman.h>
#include <sys/wait.h>
#include <unistd.h>
#include "answers.h"

#ifdef PTHREAD
typedef pthread_mutex_t mutex;
typedef pthread_cond_t cond;
#define CALL(of, ...) pthread_##of(__VA_ARGS__)
#else
#include <libshfl.h>
typedef shfl_mutex_t mutex;
typedef shfl_cond_t cond;
#define CALL(of, ...) shfl_##of(__VA_ARGS__)
#endif
#define SEATS 8
#define GENERATIONS 8
static pthread_barrier_t all_sit, may_end;

static int use(mutex *m) {
    int error = CALL(mutex_lock, m);
    return error ? error : CALL(mutex_unlock, m);
}

/* Zero is what both initialisers have. */
static void *sits(void *none) {
    mutex its;
    memset(&its, 0, sizeof its);
    IS(use(&its), 0);
    pthread_barrier_wait(&all_sit);
    pthread_barrier_wait(&may_end);
    return none;
}

#ifndef PTHREAD
static void *finds_none(void *none) {
    mutex its;
    memset(&its, 0, sizeof its);
    IS(use(&its), EAGAIN);
    return none;
}
#endif

static void is_well(pid_t child) {
    int status;
    IS(waitpid(child, &status, 0) == child && status == 0, 1);
}

/* So many threads have seats at once, and each generation's child finds them again. */
static void sit_together(int count, int generations) {
    pthread_t threads[SEATS];
    IS(pthread_barrier_init(&all_sit, NULL, (unsigned)count + 1) || pthread_barrier_init(&may_end, NULL, (unsigned)count + 1), 0);
    for (int k = 0; k < count; k++) IS(pthread_create(&threads[k], NULL, sits, NULL), 0);
    pthread_barrier_wait(&all_sit);
#ifndef PTHREAD
    pthread_t one_more;
    IS(pthread_create(&one_more, NULL, finds_none, NULL) || pthread_join(one_more, NULL), 0);
#endif
    pid_t child = generations > 0 ? fork() : -1;
    if (child == 0) {
        alarm(60);
        sit_together(count, generations - 1);
        _exit(0);
    }
    if (child > 0) is_well(child);
    pthread_barrier_wait(&may_end);
    for (int k = 0; k < count; k++) IS(pthread_join(threads[k], NULL), 0);
}

static mutex held, waited_for, of_cond;
static cond never;
static bool is_over;
static int come; /* how many have said so */

static void *has_a_lock(void *none) {
    IS(CALL(mutex_lock, &held), 0);
    pthread_barrier_wait(&all_sit);
    pthread_barrier_wait(&may_end);
    IS(CALL(mutex_unlock, &held), 0);
    return none;
}

static void *waits_for_a_lock(void *none) {
    __atomic_fetch_add(&come, 1, __ATOMIC_SEQ_CST);
    IS(use(&waited_for), 0);
    return none;
}

static void *waits_for_a_signal(void *none) {
    IS(CALL(mutex_lock, &of_cond), 0);
    __atomic_fetch_add(&come, 1, __ATOMIC_SEQ_CST);
    while (!is_over) IS(CALL(cond_wait, &never, &of_cond), 0);
    IS(CALL(mutex_unlock, &of_cond), 0);
    return none;
}

/* One that has a lock keeps its seat in the child; three that are at rest, of which one sleeps until the lock is free, don't. */
static void at_rest_and_not(void) {
    void *(*runs[])(void *) = {has_a_lock, sits, waits_for_a_lock, waits_for_a_signal};
    pthread_t threads[4];
    IS(CALL(mutex_lock, &waited_for), 0);
    IS(pthread_barrier_init(&all_sit, NULL, 3) || pthread_barrier_init(&may_end, NULL, 3), 0);
    for (int k = 0; k < 4; k++) IS(pthread_create(&threads[k], NULL, runs[k], NULL), 0);
    pthread_barrier_wait(&all_sit);
    while (__atomic_load_n(&come, __ATOMIC_SEQ_CST) < 2) usleep(1000);
    usleep(100000); /* now they sleep */
    for (int times = 0; times < 3; times++) {
        pid_t child = fork();
        if (child == 0) {
            alarm(60);
            sit_together(SEATS - 2, GENERATIONS);
            _exit(0);
        }
        is_well(child);
    }
    pthread_barrier_wait(&may_end);
    IS(CALL(mutex_lock, &of_cond), 0);
    is_over = true;
    IS(CALL(cond_signal, &never) || CALL(mutex_unlock, &of_cond) || CALL(mutex_unlock, &waited_for), 0);
    for (int k = 0; k < 4; k++) IS(pthread_join(threads[k], NULL), 0);
}

static mutex stormed[2];

static void *storms(void *none) {
    while (!__atomic_load_n(&is_over, __ATOMIC_RELAXED))
        for (int k = 0; k < 2; k++) IS(use(&stormed[k]), 0);
    return none;
}

static mutex counted;
static int count;

/* Where there is no seat it is told, and counts nothing; the seats that there are keep each other out. */
static void *counts(void *none) {
    for (int k = 0; k < 2000; k++) {
        int error = CALL(mutex_lock, &counted);
        if (error == EAGAIN && k == 0) return none;
        IS(error, 0);
        count++;
        IS(CALL(mutex_unlock, &counted), 0);
    }
    return &count;
}

/* The others are in the midst of their calls. */
static void amid_calls(void) {
    pthread_t threads[4], in_child[4];
    is_over = false;
    for (int k = 0; k < 4; k++) IS(pthread_create(&threads[k], NULL, storms, NULL), 0);
    for (int times = 0; times < 100; times++) {
        pid_t child = fork();
        if (child == 0) {
            int done = 0;
            void *told;
            alarm(60);
            for (int k = 0; k < 3; k++) IS(pthread_create(&in_child[k], NULL, counts, NULL), 0);
            for (int k = 0; k < 3; k++) {
                IS(pthread_join(in_child[k], &told), 0);
                done += told != NULL;
            }
            IS(count, 2000 * done);
            IS(done, 3); /* besides main and these four, three have seats in any case */
            _exit(0);
        }
        is_well(child);
    }
    __atomic_store_n(&is_over, true, __ATOMIC_RELAXED);
    for (int k = 0; k < 4; k++) IS(pthread_join(threads[k], NULL), 0);
}

#ifndef PTHREAD
static pthread_key_t later;
static bool has_left;

static void *forks_on(void *none) {
    while (!__atomic_load_n(&is_over, __ATOMIC_RELAXED)) {
        pid_t child = fork();
        if (child == 0) _exit(0);
        is_well(child);
    }
    return none;
}

/* Its key is younger than the library's, so the seat has gone back; the thread itself is there yet. */
static void stays_on(void *none) {
    (void)none;
    __atomic_store_n(&has_left, true, __ATOMIC_SEQ_CST);
    usleep(10000);
}

static void *takes_and_ends(void *number) {
    mutex its = SHFL_MUTEX_INIT;
    IS(use(&its) || pthread_setspecific(later, number), 0);
    usleep((unsigned)(*(int *)number * 137 % 3000));
    return number;
}

static void *comes_next(void *none) {
    mutex its = SHFL_MUTEX_INIT;
    while (!__atomic_load_n(&has_left, __ATOMIC_SEQ_CST)) usleep(50);
    IS(use(&its), 0);
    return none;
}

/* All seats but one are taken. A fork copies so much that threads end meanwhile. */
static void ends_while_another_forks(void) {
    size_t size = 64 << 20;
    char *copied = mmap(NULL, size, PROT_READ | PROT_WRITE, MAP_PRIVATE | MAP_ANONYMOUS, -1, 0);
    pthread_t others[SEATS - 2], forker, two[2];
    IS(copied == MAP_FAILED, 0);
    madvise(copied, size, MADV_NOHUGEPAGE);
    memset(copied, 1, size);
    is_over = false;
    IS(pthread_key_create(&later, stays_on) || pthread_barrier_init(&all_sit, NULL, SEATS - 1) || pthread_barrier_init(&may_end, NULL, SEATS - 1), 0);
    for (int k = 0; k < SEATS - 2; k++) IS(pthread_create(&others[k], NULL, sits, NULL), 0);
    pthread_barrier_wait(&all_sit);
    IS(pthread_create(&forker, NULL, forks_on, NULL), 0);
    for (int k = 0; k < 50; k++) {
        __atomic_store_n(&has_left, false, __ATOMIC_SEQ_CST);
        IS(pthread_create(&two[0], NULL, takes_and_ends, &k) || pthread_create(&two[1], NULL, comes_next, NULL), 0);
        for (int j = 0; j < 2; j++) IS(pthread_join(two[j], NULL), 0);
    }
    __atomic_store_n(&is_over, true, __ATOMIC_RELAXED);
    pthread_barrier_wait(&may_end);
    for (int k = 0; k < SEATS - 2; k++) IS(pthread_join(others[k], NULL), 0);
    IS(pthread_join(forker, NULL) || munmap(copied, size), 0);
}
#endif

int main(void) {
    alarm(200);
    IS(use(&counted), 0);
#ifndef PTHREAD
    ends_while_another_forks();
#endif
    at_rest_and_not();
    amid_calls();
    puts("in the child of a fork the seats that were at rest serve new threads");
    return 0;
}
