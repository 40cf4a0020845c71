/* Forks while another thread opens one arena after the other, in a program whose malloc has handlers of forks that come before the library's (tests/libshfl/heap.c): opens, with SHFL_LOCKS=1 and
 * SHFL_ARENAS=256. In the child new locks have arenas, too. */
#include <libshfl.h>
#include <pthread.h>
#include <stdbool.h>
#include <stdlib.h>
#include <sys/wait.h>
#include <unistd.h>
#include "answers.h"

#define MANY 250
static shfl_mutex_t many[MANY], of_child[4];
static bool is_done;

static void use(shfl_mutex_t *m) { IS(shfl_mutex_lock(m) || shfl_mutex_unlock(m), 0); }

static void *opens(void *none) {
    for (int k = 0; k < MANY; k++) use(&many[k]);
    __atomic_store_n(&is_done, true, __ATOMIC_SEQ_CST);
    return none;
}

/* Those that were given here first are others by their numbers. */
static int in_child(void) {
    alarm(20);
    for (int k = 0; k < 4; k++) use(&of_child[k]);
    for (int k = 0; k < 4; k++)
        for (int j = 0; j < MANY; j++) IS(of_child[k].number != many[j].number && (j >= k || of_child[j].number != of_child[k].number), 1);
    return 0;
}

int main(void) {
    pthread_t thread;
    int forks = 0, status;
    alarm(100);
    for (int k = 0; k < 1000; k++) free(malloc(10)); /* by now malloc has its handlers */
    IS(pthread_create(&thread, NULL, opens, NULL), 0);
    for (; !__atomic_load_n(&is_done, __ATOMIC_SEQ_CST); forks++) {
        pid_t child = fork();
        if (child == 0) _exit(in_child());
        IS(waitpid(child, &status, 0) == child && status == 0, 1);
    }
    IS(pthread_join(thread, NULL), 0);
    IS(forks > 0, 1);
    puts("forks find malloc's mutex free while arenas open");
    return 0;
}
