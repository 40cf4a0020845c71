/* A program that opens the library with dlopen may close it while a thread that has used a lock is there still, and fork afterwards: opened, by the library's name, or opened LIBRARY. */
#include <dlfcn.h>
#include <libshfl.h>
#include <pthread.h>
#include <stddef.h>
#include <sys/wait.h>
#include <unistd.h>
#include "answers.h"

static int (*lock)(shfl_mutex_t *), (*unlock)(shfl_mutex_t *);
static shfl_mutex_t m;

static void *uses_it(void *both) {
    IS(lock(&m) || unlock(&m), 0);
    pthread_barrier_wait(both);
    pthread_barrier_wait(both);
    return NULL;
}

int main(int count, char **words) {
    pthread_barrier_t both;
    pthread_t thread;
    int status;
    void *library = dlopen(count > 1 ? words[1] : "libshfl.so.1", RTLD_NOW);
    IS(library != NULL, 1);
    *(void **)&lock = dlsym(library, "shfl_mutex_lock");
    *(void **)&unlock = dlsym(library, "shfl_mutex_unlock");
    IS(lock && unlock, 1);
    IS(pthread_barrier_init(&both, NULL, 2) || pthread_create(&thread, NULL, uses_it, &both), 0);
    pthread_barrier_wait(&both);
    IS(dlclose(library), 0);
    pthread_barrier_wait(&both);
    IS(pthread_join(thread, NULL), 0);
    pid_t child = fork();
    if (child == 0) _exit(0);
    IS(waitpid(child, &status, 0) == child && status == 0, 1);
    puts("the library may be opened and closed");
    return 0;
}
