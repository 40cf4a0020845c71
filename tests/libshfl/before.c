/* Handlers of forks that a program registers before it opens the library by dlopen: they take a lock of another thread's, which goes on meanwhile, also by tries, wait for a thread to end, and give the
 * lock back in the child, where others queued for it; and threads fork at once, which take another mutex there, too, or of which one has what the handlers read: before LIBRARY, with SHFL_THREADS=8. */
#define _GNU_SOURCE
#include <dlfcn.h>
#include <errno.h>
#include <libshfl.h>
#include <stdbool.h>
#include <sys/wait.h>
#include <unistd.h>
#include "answers.h"

#define CLASS 5
static int (*lock)(shfl_mutex_t *), (*unlock)(shfl_mutex_t *), (*try)(shfl_mutex_t *), (*timed)(shfl_mutex_t *, const struct timespec *), (*init)(shfl_mutex_t *, unsigned);
static int (*read_lock)(shfl_rwlock_t *), (*write_lock)(shfl_rwlock_t *), (*read_unlock)(shfl_rwlock_t *), (*init_rw)(shfl_rwlock_t *, unsigned);
static int (*policy)(unsigned, unsigned, const uint8_t *, size_t, const uint8_t *, size_t, struct shfl_fault *);
static shfl_mutex_t both[2], *handled = both, of_helper;
static bool others_queue, is_over, is_to_end, has_seat;
static void (*takes_before)(void), (*gives_after)(void);
static pthread_t helper;

static void before(void) {
    if (takes_before) takes_before();
}

static void after(void) {
    if (gives_after) gives_after();
}

static void joins_and_takes(void) {
    __atomic_store_n(&is_to_end, true, __ATOMIC_SEQ_CST);
    IS(pthread_join(helper, NULL), 0);
    IS(lock(handled), 0);
    if (others_queue) usleep(20000);
}

static void gives(void) { IS(unlock(handled), 0); }

static void tries_until(void) {
    while (try(handled)) usleep(100);
}

/* It has a seat as it ends. */
static void *helps(void *none) {
    IS(lock(&of_helper) || unlock(&of_helper), 0);
    __atomic_store_n(&has_seat, true, __ATOMIC_SEQ_CST);
    while (!__atomic_load_n(&is_to_end, __ATOMIC_SEQ_CST)) usleep(1000);
    return none;
}

/* A lock's first use, and reads by more locks than a thread counts at a time, while it has what the handler waits for. */
static void *has_it(void *none) {
    static shfl_rwlock_t many[600];
    while (!__atomic_load_n(&is_over, __ATOMIC_SEQ_CST)) {
        shfl_mutex_t fresh = SHFL_MUTEX_INIT;
        IS(lock(handled), 0);
        usleep(3000);
        IS(lock(&fresh) || unlock(&fresh), 0);
        for (int k = 0; k < 600; k++) IS(read_lock(&many[k]) || read_unlock(&many[k]), 0);
        IS(unlock(handled), 0);
    }
    return none;
}

static void *queues(void *none) {
    while (!__atomic_load_n(&is_over, __ATOMIC_SEQ_CST)) IS(lock(handled) || unlock(handled), 0);
    return none;
}

static void *takes(void *none) {
    struct timespec late = in_ms(CLOCK_MONOTONIC, 5000);
    IS(timed(handled, &late) || unlock(handled), 0);
    return none;
}

static void forks(int times) {
    for (int k = 0; k < times; k++) {
        int status;
        is_to_end = has_seat = false;
        IS(pthread_create(&helper, NULL, helps, NULL), 0);
        while (!__atomic_load_n(&has_seat, __ATOMIC_SEQ_CST)) usleep(100);
        pid_t child = fork();
        if (child == 0) {
            alarm(20);
            takes(NULL);
            _exit(beside(takes, NULL));
        }
        IS(waitpid(child, &status, 0) == child && status == 0, 1);
    }
}

static void while_two(void *(*run)(void *), int times) {
    pthread_t threads[2];
    is_over = false;
    for (int k = 0; k < 2; k++) IS(pthread_create(&threads[k], NULL, run, NULL), 0);
    forks(times);
    __atomic_store_n(&is_over, true, __ATOMIC_SEQ_CST);
    for (int k = 0; k < 2; k++) IS(pthread_join(threads[k], NULL), 0);
}

static pthread_mutex_t plain = PTHREAD_MUTEX_INITIALIZER;
static shfl_rwlock_t read_by_all;
static bool forker_reads;

static void takes_two(void) { IS(pthread_mutex_lock(&plain) || lock(handled), 0); }
static void gives_two(void) { IS(unlock(handled) || pthread_mutex_unlock(&plain), 0); }
static void reads(void) { IS(read_lock(&read_by_all), 0); }
static void ends_to_read(void) { IS(read_unlock(&read_by_all), 0); }

/* Between two holds who tries comes to it, too. */
static void *has_it_at_times(void *none) {
    while (!__atomic_load_n(&is_over, __ATOMIC_SEQ_CST)) {
        shfl_mutex_t fresh = SHFL_MUTEX_INIT;
        IS(lock(handled), 0);
        usleep(300);
        IS(lock(&fresh) || unlock(&fresh) || unlock(handled), 0);
        usleep(300);
    }
    return none;
}

/* It queues, and a reader that doesn't read yet waits behind it. */
static void *writes(void *none) {
    while (!__atomic_load_n(&is_over, __ATOMIC_SEQ_CST)) IS(write_lock(&read_by_all) || read_unlock(&read_by_all) || usleep(100), 0);
    return none;
}

static void *forks_on(void *has) {
    for (int k = 0; k < 40; k++) {
        int status;
        if (has) IS(read_lock(&read_by_all), 0);
        pid_t child = fork();
        if (child == 0) _exit(0);
        if (has) IS(read_unlock(&read_by_all), 0);
        IS(waitpid(child, &status, 0) == child && status == 0, 1);
    }
    return NULL;
}

/* They fork at once, beside a thread that has at times what the handlers take. */
static void several_fork(void *(*run)(void *)) {
    pthread_t threads[4];
    is_over = false;
    IS(pthread_create(&threads[3], NULL, run, NULL), 0);
    for (int k = 0; k < 3; k++) IS(pthread_create(&threads[k], NULL, forks_on, forker_reads && k == 2 ? &read_by_all : NULL), 0);
    for (int k = 0; k < 3; k++) IS(pthread_join(threads[k], NULL), 0);
    __atomic_store_n(&is_over, true, __ATOMIC_SEQ_CST);
    IS(pthread_join(threads[3], NULL), 0);
}

#define FIND(name, as) IS((*(void **)&as = dlsym(library, "shfl_" name)) != NULL, 1)
int main(int words, char **word) {
    static const uint8_t no[] = {0xb7, 0, 0, 0, 0, 0, 0, 0, 0x95, 0, 0, 0, 0, 0, 0, 0}; /* r0 = 0; exit */
    alarm(200);
    IS(pthread_atfork(before, after, after), 0);
    void *library = dlopen(words > 1 ? word[1] : "libshfl.so.1", RTLD_NOW);
    IS(library != NULL, 1);
    FIND("mutex_lock", lock), FIND("mutex_unlock", unlock), FIND("mutex_timedlock", timed), FIND("mutex_init", init), FIND("class_policy", policy);
    FIND("mutex_trylock", try), FIND("rwlock_wrlock", write_lock), FIND("rwlock_init", init_rw);
    FIND("rwlock_rdlock", read_lock), FIND("rwlock_unlock", read_unlock);
    IS(init(handled, CLASS) || policy(CLASS, SHFL_PROFILE_BASE, no, sizeof no, NULL, 0, NULL), 0); /* who waits queues at once */
    takes_before = joins_and_takes, gives_after = gives, others_queue = true;
    while_two(queues, 20); /* the first handler that takes a lock has no seat before */
    others_queue = false;
    handled++; /* of a class without one */
    while_two(has_it, 40);
    takes_before = tries_until;
    several_fork(has_it_at_times);
    takes_before = takes_two, gives_after = gives_two;
    several_fork(has_it_at_times);
    IS(init_rw(&read_by_all, CLASS), 0);
    takes_before = reads, gives_after = ends_to_read, forker_reads = true;
    several_fork(writes);
    puts("handlers of forks may take locks, wait for threads and run in several at once, though they were registered before the library was opened");
    return 0;
}
