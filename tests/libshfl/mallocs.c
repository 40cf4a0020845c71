/* Forks in a program whose malloc takes a pthread mutex, and has handlers of forks for it, as threads take memory, use locks first and end: under libshfl_preload.so, with tests/libshfl/heap.c, which
 * registers its handlers before the preloaded library begins, with the first block, or late. */
#include <pthread.h>
#include <stdbool.h>
#include <stdlib.h>
#include <sys/wait.h>
#include <unistd.h>
#include "answers.h"

static bool is_over;

static void *brief(void *none) {
    free(malloc(100));
    return none;
}

static void works(void) {
    static pthread_rwlock_t many[300];
    pthread_mutex_t *fresh = calloc(1, sizeof *fresh);
    IS(fresh != NULL, 1);
    IS(pthread_mutex_lock(fresh) || pthread_mutex_unlock(fresh) || pthread_mutex_destroy(fresh), 0);
    free(fresh);
    for (int k = 0; k < 300; k++) IS(pthread_rwlock_rdlock(&many[k]) || pthread_rwlock_unlock(&many[k]), 0);
    IS(beside(brief, NULL), 0);
}

static void *works_on(void *none) {
    while (!__atomic_load_n(&is_over, __ATOMIC_RELAXED)) works();
    return none;
}

int main(void) {
    pthread_t threads[4];
    alarm(100);
    for (int k = 0; k < 4; k++) IS(pthread_create(&threads[k], NULL, works_on, NULL), 0);
    for (int times = 0; times < 200; times++) {
        int status;
        pid_t child = fork();
        if (child == 0) {
            alarm(20);
            free(malloc(1000));
            IS(beside(brief, NULL), 0);
            _exit(0);
        }
        IS(waitpid(child, &status, 0) == child && status == 0, 1);
    }
    __atomic_store_n(&is_over, true, __ATOMIC_RELAXED);
    for (int k = 0; k < 4; k++) IS(pthread_join(threads[k], NULL), 0);
    puts("a malloc with handlers of forks finds its mutex free");
    return 0;
}
