/* A program that knows who held its lock in which order, for tests/tool/words.py: order THREADS FILE. The threads hold the lock for some
 * microseconds, a pointer to which lies on the heap, and write down who they are while they do; beside it each takes the lock `steady` once
 * a millisecond by the clock, however late it is. When a line comes on standard input the order goes to the file, and the program ends at
 * the next line. */
#define _GNU_SOURCE
#include <libshfl.h>
#include <pthread.h>
#include <stdio.h>
#include <stdlib.h>
#include <sys/syscall.h>
#include <unistd.h>

#define MOST (1u << 24)

shfl_mutex_t steady;
static shfl_mutex_t *hot;
static int *order;
static unsigned long taken;
static int over;

static void must(int told) {
    if (told) fprintf(stderr, "order: a call answers %d\n", told), exit(1);
}

/* While the lock is held. */
static void hold(int who, int loops) {
    if (taken < MOST) order[taken++] = who;
    for (volatile int k = 0; k < loops; k++) {
    }
}

__attribute__((noinline)) static void worker(int who) {
    must(shfl_mutex_lock(hot));
    hold(who, 4000);
    must(shfl_mutex_unlock(hot));
    for (volatile int k = 0; k < 4000; k++) {
    }
}

static void *work(void *none) {
    int who = (int)syscall(SYS_gettid);
    while (!__atomic_load_n(&over, __ATOMIC_RELAXED)) worker(who);
    return none;
}

static void *keeps_time(void *late) {
    struct timespec at;
    clock_gettime(CLOCK_MONOTONIC, &at);
    at.tv_nsec += (intptr_t)late;
    while (!__atomic_load_n(&over, __ATOMIC_RELAXED)) {
        at.tv_nsec += 1000000;
        if (at.tv_nsec >= 1000000000) at.tv_nsec -= 1000000000, at.tv_sec++;
        clock_nanosleep(CLOCK_MONOTONIC, TIMER_ABSTIME, &at, NULL);
        must(shfl_mutex_lock(&steady));
        must(shfl_mutex_unlock(&steady));
    }
    return NULL;
}

int main(int count, char **words) {
    pthread_t threads[66];
    int many = count > 2 ? atoi(words[1]) : 4;
    char line[16];
    if (count < 3 || many < 1 || many > 64) return 2;
    hot = aligned_alloc(64, 64);
    order = malloc(MOST * sizeof *order);
    if (!hot || !order) return 1;
    must(shfl_mutex_init(hot, 3) || shfl_mutex_init(&steady, 9));
    for (int k = 0; k < many; k++) must(pthread_create(&threads[k], NULL, work, NULL));
    for (intptr_t k = 0; k < 2; k++) must(pthread_create(&threads[many + k], NULL, keeps_time, (void *)(k * 500000)));
    printf("ready\n");
    fflush(stdout);
    char *came = fgets(line, sizeof line, stdin);
    over = 1;
    for (int k = 0; k < many + 2; k++) pthread_join(threads[k], NULL);
    FILE *file = fopen(words[2], "wb");
    if (!file || fwrite(order, sizeof *order, taken, file) != taken || fclose(file)) return 1;
    printf("written\n");
    fflush(stdout);
    if (came) came = fgets(line, sizeof line, stdin);
    return 0;
}
