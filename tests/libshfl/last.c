/* A program whose main thread ends before another one: it ends with that one, also where the library has a thread of its own that serves a control socket. */
#include <libshfl.h>
#include <pthread.h>
#include <unistd.h>

static shfl_mutex_t lock;

static void *ends_later(void *none) {
    if (shfl_mutex_lock(&lock) || shfl_mutex_unlock(&lock)) _exit(1);
    usleep(300000);
    return none;
}

int main(void) {
    pthread_t thread;
    if (shfl_mutex_lock(&lock) || shfl_mutex_unlock(&lock) || pthread_create(&thread, NULL, ends_later, NULL)) return 1;
    pthread_exit(NULL);
}
