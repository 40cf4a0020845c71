/* Policies of a class: one copy for all threads; those that wait go over to a new one, which nobody knew when the process began; where there is one, who finds
 * a lock taken queues at once. The policies answer no to all, and yes to all. */
#include <errno.h>
#include <libshfl.h>
#include <malloc.h>
#include <pthread.h>
#include <signal.h>
#include <stdbool.h>
#include <sys/resource.h>
#include <unistd.h>
#include "answers.h"

#define CLASS 5
#define THREADS 64
#define SLOTS 512
static shfl_mutex_t m;
static pthread_barrier_t all;
static long count;

/* As many slots as a program may have: r0 = answer, again and again, and the exit. */
static int attach(uint8_t answer) {
    static uint8_t program[8 * SLOTS];
    for (int k = 0; k < SLOTS - 1; k++) memcpy(&program[8 * k], (uint8_t[8]){0xb7, 0, 0, 0, answer}, 8);
    memcpy(&program[8 * (SLOTS - 1)], (uint8_t[8]){0x95}, 8);
    return shfl_class_policy(CLASS, SHFL_PROFILE_BASE, program, sizeof program, program, sizeof program, NULL);
}

static struct shfl_class_stat of_class(void) {
    struct shfl_class_stat it;
    IS(shfl_class_stat(CLASS, &it), 0);
    return it;
}

static struct shfl_stat of_lock(void) {
    struct shfl_stat it;
    IS(shfl_stat(&m, &it), 0);
    return it;
}

static void *takes(void *none) {
    IS(shfl_mutex_lock(&m), 0);
    count++;
    IS(shfl_mutex_unlock(&m), 0);
    return none;
}

/* Without a policy one that finds the lock taken, and is the only one, doesn't queue, however long it waits. */
static void doesnt_queue(void) {
    pthread_t thread;
    IS(shfl_mutex_lock(&m), 0);
    IS(pthread_create(&thread, NULL, takes, NULL), 0);
    while (of_lock().contended == 0) usleep(1000);
    usleep(20000);
    IS(shfl_mutex_unlock(&m), 0);
    IS(pthread_join(thread, NULL), 0);
    IS((int)of_lock().contended, 1);
    IS((int)of_lock().queued, 0);
}

/* Long enough for who waits to make a round. */
static void *takes_for_long(void *none) {
    IS(shfl_mutex_lock(&m), 0);
    count++;
    usleep(20000);
    IS(shfl_mutex_unlock(&m), 0);
    return none;
}

/* This thread has the mutex, and four wait for it in the queue, which a policy that answers no has begun to be asked about. */
static void four_wait(pthread_t *threads) {
    uint64_t asked = of_class().counts.questions, queued = of_lock().queued;
    IS(attach(0), 0);
    IS(shfl_mutex_lock(&m), 0);
    for (int k = 0; k < 4; k++) IS(pthread_create(&threads[k], NULL, takes_for_long, NULL), 0);
    while (of_lock().queued < queued + 4 || of_class().counts.questions == asked) usleep(1000);
}

static void four_go_on(pthread_t *threads) {
    while (!of_class().drained) usleep(1000);
    IS(shfl_mutex_unlock(&m), 0);
    for (int k = 0; k < 4; k++) IS(pthread_join(threads[k], NULL), 0);
}

/* They go by the version that the class has at their next round, or by none. */
static void go_over(void) {
    pthread_t threads[4];
    four_wait(threads);
    IS((int)of_class().counts.yes, 0);
    IS(attach(1), 0);
    IS((int)of_class().version, 2);
    four_go_on(threads);
    IS(of_class().counts.yes > 0, 1);
    four_wait(threads);
    IS(shfl_class_detach(CLASS), 0);
    uint64_t asked = of_class().counts.questions;
    four_go_on(threads);
    IS(of_class().counts.questions == asked, 1);
    IS((int)of_class().version, 4);
    IS(of_lock().queued == of_lock().contended - 1, 1);
}

/* The threads are there, and each has queued, for which its seat takes memory once, before memory is counted. */
static void *takes_often(void *none) {
    takes(none);
    pthread_barrier_wait(&all);
    pthread_barrier_wait(&all);
    for (int k = 0; k < 30; k++) takes(none);
    pthread_barrier_wait(&all);
    pthread_barrier_wait(&all);
    return none;
}

static void one_copy(void) {
    pthread_t threads[THREADS];
    IS(pthread_barrier_init(&all, NULL, THREADS + 1), 0);
    IS(attach(0) || shfl_mutex_lock(&m), 0);
    uint64_t had = of_lock().queued;
    for (int k = 0; k < THREADS; k++) IS(pthread_create(&threads[k], NULL, takes_often, NULL), 0);
    while (of_lock().queued < had + THREADS) usleep(1000);
    IS(shfl_mutex_unlock(&m), 0);
    pthread_barrier_wait(&all);
    size_t without = mallinfo2().uordblks;
    IS(attach(1), 0);
    size_t with_one = mallinfo2().uordblks;
    pthread_barrier_wait(&all);
    pthread_barrier_wait(&all);
    size_t with_all = mallinfo2().uordblks, size = with_one - without;
    if (with_all + size / 2 < with_one) with_all += size; /* nobody goes by the one before any more */
    size_t more = with_all > with_one ? with_all - with_one : 0;
    printf("a policy of two programs of %d slots takes %zu bytes, and %d threads that go by it %zu more\n", SLOTS, size, THREADS, more);
    IS(more <= 4096, 1);
    pthread_barrier_wait(&all);
    for (int k = 0; k < THREADS; k++) IS(pthread_join(threads[k], NULL), 0);
    IS(shfl_class_detach(CLASS), 0);
}

static volatile sig_atomic_t told = -1;
static void changes(int signal) { (void)signal, told = shfl_thread_attr(9, 9, 9); }

/* A thread that queues, and sleeps there, can't be given other attributes: no program may ask for that, as it may call nothing from a handler. */
static void is_busy(void) {
    pthread_t thread;
    struct sigaction action = {.sa_handler = changes};
    IS(sigaction(SIGUSR1, &action, NULL), 0);
    IS(attach(0), 0);
    IS(shfl_mutex_lock(&m), 0);
    uint64_t had = of_lock().queued;
    IS(pthread_create(&thread, NULL, takes, NULL), 0);
    while (of_lock().queued == had) usleep(1000);
    usleep(50000);
    IS(pthread_kill(thread, SIGUSR1), 0);
    while (told == -1) usleep(1000);
    IS(told, EBUSY);
    IS(shfl_mutex_unlock(&m), 0);
    IS(pthread_join(thread, NULL), 0);
    IS(shfl_class_detach(CLASS), 0);
}

/* A class gets rid of its policy where there is no memory, for a new one neither. */
static void without_memory(void) {
    struct rlimit most, none = {1 << 20, 1 << 20};
    struct shfl_class_stat it;
    void **blocks = NULL;
    IS(attach(0) || getrlimit(RLIMIT_AS, &most), 0);
    none.rlim_max = most.rlim_max;
    IS(setrlimit(RLIMIT_AS, &none), 0);
    for (size_t size = 1 << 16; size >= 16; size -= 16)
        for (void **block; (block = malloc(size)); blocks = block) *block = blocks;
    int attached = attach(0), detached = shfl_class_detach(CLASS);
    IS(setrlimit(RLIMIT_AS, &most), 0);
    while (blocks) {
        void **block = blocks;
        blocks = *block;
        free(block);
    }
    IS(attached, ENOMEM);
    IS(detached, 0);
    IS(shfl_class_stat(CLASS, &it) || it.attached, 0);
}

int main(int words, char **word) {
    alarm(280);
    mallopt(M_ARENA_MAX, 1);
    if (words > 1 && strcmp(word[1], "memory") == 0) {
        without_memory();
        puts("a class needs no memory to have no policy");
        return 0;
    }
    IS(shfl_mutex_init(&m, CLASS), 0);
    doesnt_queue();
    go_over();
    one_copy();
    is_busy();
    IS((int)count, 1 + 8 + 31 * THREADS + 1);
    IS(shfl_mutex_trylock(&m) || shfl_mutex_unlock(&m) || shfl_mutex_destroy(&m), 0);
    puts("a class has one policy, and who waits goes by it");
    return 0;
}
