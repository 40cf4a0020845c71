/* The first lock of a process is no point of cancellation, whatever comes of the control socket: with the library's mutex, or with pthread's (PTHREAD). Where
 * the threads are as many as may be another one waits for its place, and isn't cancelled there either: first, or first waits. */
#include <errno.h>
#include <pthread.h>
#include <stdbool.h>
#include <stdint.h>
#include <unistd.h>
#include "answers.h"

#ifdef PTHREAD
static pthread_mutex_t m = PTHREAD_MUTEX_INITIALIZER;
#define LOCK(m) pthread_mutex_lock(m)
#define UNLOCK(m) pthread_mutex_unlock(m)
#else
#include <libshfl.h>
static shfl_mutex_t m;
#define LOCK(m) shfl_mutex_lock(m)
#define UNLOCK(m) shfl_mutex_unlock(m)
#endif

static bool came_through;

static void *is_cancelled(void *at) {
    IS(pthread_cancel(pthread_self()), 0);
    IS(LOCK(&m) || UNLOCK(&m), 0);
    came_through = true;
    pthread_testcancel();
    return at;
}

static void *has_place(void *both) {
    IS(LOCK(&m) || UNLOCK(&m), 0);
    pthread_barrier_wait(both);
    usleep(100000);
    return NULL;
}

int main(int count, char **words) {
    pthread_barrier_t both;
    pthread_t thread, other;
    void *told;
    (void)words;
    alarm(100);
    IS(pthread_barrier_init(&both, NULL, 2), 0);
    if (count > 1) IS(pthread_create(&other, NULL, has_place, &both), 0);
    if (count > 1) pthread_barrier_wait(&both);
    IS(pthread_create(&thread, NULL, is_cancelled, NULL), 0);
    IS(pthread_join(thread, &told), 0);
    IS(told == PTHREAD_CANCELED && came_through, 1);
    if (count > 1) IS(pthread_join(other, NULL), 0);
    puts("the first lock is no point of cancellation");
    return 0;
}
