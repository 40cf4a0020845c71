/* A thread whose first lock comes behind its last destructor, where libc frees what it has of its own: what the library notes for it then stays with its stack, and
 * the next thread there has nothing to do with it. Run with three seats. */
#define _GNU_SOURCE
#include <dlfcn.h>
#include <errno.h>
#include <libshfl.h>
#include <unistd.h>
#include "answers.h"

extern void __libc_free(void *block);

static shfl_mutex_t used, first, second, third;
static pthread_barrier_t has_third, may_take, has_used, is_over;
static __thread bool is_late;
static bool was_late;

void free(void *block) {
    __libc_free(block);
    if (!is_late) return;
    is_late = false;
    was_late = true;
    IS(shfl_mutex_lock(&used) || shfl_mutex_unlock(&used), 0);
}

/* What libc has noted of a library that isn't there it frees when the thread's destructors are over. */
static void *ends_late(void *at) {
    IS(dlopen("none/libnone.so", RTLD_NOW) == NULL, 1);
    is_late = true;
    return at;
}

static void *ends_at_once(void *at) { return at; }
static void *tries(void *lock) { return (void *)(intptr_t)shfl_mutex_trylock(lock); }

static void *holds_third(void *at) {
    IS(shfl_mutex_lock(&third), 0);
    pthread_barrier_wait(&has_third);
    pthread_barrier_wait(&is_over);
    IS(shfl_mutex_unlock(&third), 0);
    return at;
}

/* No seat is left but that of the thread which is gone. The system may not have noticed yet that it is, and who looked in vain looks again a tenth of a second later. The
 * seat stays this thread's, also while it holds nothing. */
static void *uses_first(void *at) {
    int told = EAGAIN;
    pthread_barrier_wait(&may_take);
    for (int k = 0; k < 50 && told == EAGAIN; k++) {
        told = shfl_mutex_lock(&first);
        if (told == EAGAIN) usleep(110000);
    }
    IS(told || shfl_mutex_unlock(&first), 0);
    pthread_barrier_wait(&has_used);
    pthread_barrier_wait(&is_over);
    return at;
}

int main(void) {
    pthread_barrier_t *barriers[] = {&has_third, &may_take, &has_used, &is_over};
    pthread_t threads[2];
    alarm(60);
    for (int k = 0; k < 4; k++) IS(pthread_barrier_init(barriers[k], NULL, k == 3 ? 3 : 2), 0);
    IS(shfl_mutex_lock(&used) || shfl_mutex_unlock(&used), 0);
    /* these have stacks of their own before the other one has */
    IS(pthread_create(&threads[0], NULL, holds_third, NULL) || pthread_create(&threads[1], NULL, uses_first, NULL), 0);
    pthread_barrier_wait(&has_third);
    IS(beside(ends_late, NULL), 0);
    IS(was_late, 1);
    pthread_barrier_wait(&may_take);
    pthread_barrier_wait(&has_used);
    /* on the late one's stack */
    IS(beside(ends_at_once, NULL), 0);
    /* all three seats are taken */
    IS(beside(tries, &second), EAGAIN);
    pthread_barrier_wait(&is_over);
    for (int k = 0; k < 2; k++) IS(pthread_join(threads[k], NULL), 0);
    IS(beside(tries, &second), 0);
    puts("a lock behind the destructors");
    return 0;
}
