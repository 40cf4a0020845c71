/* What the tests share: a call's answer, in another thread too, whether a thread sleeps, and times. */
#ifndef ANSWERS_H
#define ANSWERS_H
#include <pthread.h>
#include <stdbool.h>
#include <stdint.h>
#include <stdio.h>
#include <stdlib.h>
#include <string.h>
#include <sys/types.h>
#include <time.h>

#define IS(call, wanted) is(#call, __FILE__, __LINE__, (call), (wanted))
static inline void is(const char *call, const char *file, int line, int told, int wanted) {
    if (told == wanted) return;
    fprintf(stderr, "%s, line %d: %s is %d (%s), not %d\n", file, line, call, told, strerror(told), wanted);
    exit(1);
}

/* Runs a function in another thread, and answers what it returns. */
static inline int beside(void *(*run)(void *), void *with) {
    pthread_t thread;
    void *told;
    IS(pthread_create(&thread, NULL, run, with), 0);
    IS(pthread_join(thread, &told), 0);
    return (int)(intptr_t)told;
}

static inline bool is_asleep(pid_t tid) {
    char name[64], text[128] = "";
    snprintf(name, sizeof name, "/proc/self/task/%d/stat", (int)tid);
    FILE *file = fopen(name, "r");
    bool told = file && fgets(text, sizeof text, file);
    if (file) fclose(file);
    char *end = told ? strrchr(text, ')') : NULL;
    return end && end[2] == 'S';
}

static inline double now(clockid_t clock) {
    struct timespec t;
    clock_gettime(clock, &t);
    return (double)t.tv_sec + (double)t.tv_nsec / 1e9;
}

static inline struct timespec in_ms(clockid_t clock, long ms) {
    struct timespec t;
    clock_gettime(clock, &t);
    t.tv_nsec += ms * 1000000;
    t.tv_sec += t.tv_nsec / 1000000000;
    t.tv_nsec %= 1000000000;
    return t;
}
#endif
