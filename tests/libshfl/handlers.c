/* Handlers of forks that a library registers as it begins, which is before a preloaded one does: a helper thread ends before each fork and begins anew behind
 * it, and a mutex is held meanwhile that all want. Compiled with HELPER it is that library, else the program that needs it. Run with libc's own locks, and,
 * unchanged, under libshfl_preload.so. */
#include <errno.h>
#include <pthread.h>
#include <stdbool.h>
#include <sys/wait.h>
#include <unistd.h>
#include "answers.h"

extern pthread_mutex_t wanted;
void begin_helper(void);

#ifdef HELPER
pthread_mutex_t wanted = PTHREAD_MUTEX_INITIALIZER;
static pthread_mutex_t mutex = PTHREAD_MUTEX_INITIALIZER;
static pthread_cond_t changed = PTHREAD_COND_INITIALIZER;
static pthread_t helper;
static bool helps, is_to_end;

static void *help(void *none) {
    IS(pthread_mutex_lock(&mutex), 0);
    while (!is_to_end) IS(pthread_cond_wait(&changed, &mutex), 0);
    IS(pthread_mutex_unlock(&mutex), 0);
    return none;
}

void begin_helper(void) {
    is_to_end = false;
    IS(pthread_create(&helper, NULL, help, NULL), 0);
    helps = true;
}

static void before_fork(void) {
    if (!helps) return;
    IS(pthread_mutex_lock(&wanted), 0);
    IS(pthread_mutex_lock(&mutex), 0);
    is_to_end = true;
    IS(pthread_cond_signal(&changed) || pthread_mutex_unlock(&mutex), 0);
    IS(pthread_join(helper, NULL), 0);
}

static void after_fork(void) {
    if (!helps) return;
    IS(pthread_mutex_unlock(&wanted), 0);
    begin_helper();
}

__attribute__((constructor)) static void begin(void) { IS(pthread_atfork(before_fork, after_fork, after_fork), 0); }
#else
static bool ended;

static void *wants(void *none) {
    while (!__atomic_load_n(&ended, __ATOMIC_RELAXED)) IS(pthread_mutex_lock(&wanted) || pthread_mutex_unlock(&wanted), 0);
    return none;
}

static void *wants_now(void *none) {
    for (int r = 0; r < 20; r++) IS(pthread_mutex_lock(&wanted) || pthread_mutex_unlock(&wanted), 0);
    return none;
}

static int in_child(void) {
    pthread_t two[2];
    alarm(60);
    for (int k = 0; k < 2; k++) IS(pthread_create(&two[k], NULL, wants_now, NULL), 0);
    for (int k = 0; k < 2; k++) IS(pthread_join(two[k], NULL), 0);
    return 0;
}

int main(void) {
    pthread_t threads[3];
    alarm(120);
    begin_helper();
    for (int k = 0; k < 3; k++) IS(pthread_create(&threads[k], NULL, wants, NULL), 0);
    for (int r = 0; r < 20; r++) {
        int status;
        pid_t child = fork();
        if (child == 0) _exit(in_child());
        IS(waitpid(child, &status, 0) == child && status == 0, 1);
    }
    __atomic_store_n(&ended, true, __ATOMIC_RELAXED);
    for (int k = 0; k < 3; k++) IS(pthread_join(threads[k], NULL), 0);
    puts("handlers of forks that a library has registered find all threads at work");
    return 0;
}
#endif
