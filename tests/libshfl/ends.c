/* What the end of a thread means to pthread's locks: run with libc's own, and, unchanged, under libshfl_preload.so, where with four seats each thread that ends
 * has to give its own back. */
#define _GNU_SOURCE
#include <dirent.h>
#include <errno.h>
#include <pthread.h>
#include <stdint.h>
#include <unistd.h>
#include "answers.h"

static void *other_lock(void *m) { return (void *)(intptr_t)pthread_mutex_lock(m); }
static void *other_try(void *m) { return (void *)(intptr_t)pthread_mutex_trylock(m); }
static void *other_free(void *m) { return (void *)(intptr_t)(pthread_mutex_lock(m) || pthread_mutex_unlock(m)); }

static pthread_key_t key;
static void unlocks(void *m) { IS(pthread_mutex_unlock(m), 0); }

static void *ends_with(void *m) {
    IS(pthread_mutex_lock(m), 0);
    IS(pthread_setspecific(key, m), 0);
    return NULL;
}

static pthread_mutex_t used;
static pthread_key_t always;

/* It is set anew each time: so it is the last one that libc calls. */
static void uses_lock_always(void *at) {
    IS(pthread_mutex_lock(&used) || pthread_mutex_unlock(&used), 0);
    IS(pthread_setspecific(always, at), 0);
}

static void *ends_last(void *at) { return (void *)(intptr_t)pthread_setspecific(always, at); }

static long count_of_threads(void) {
    DIR *threads = opendir("/proc/self/task");
    long count = 0;
    for (struct dirent *it; threads && (it = readdir(threads));) count += it->d_name[0] != '.';
    IS(threads && closedir(threads) == 0, 1);
    return count;
}

static void *ends_later(void *at) {
    IS(pthread_mutex_lock(at) || pthread_mutex_unlock(at), 0);
    while (count_of_threads() > 2) usleep(1000);
    return NULL;
}

/* However a thread ends, another one has its place; the later one of two with large stacks frees what was the other's, when its destructors are over. */
static void ends_after_destructors(void) {
    pthread_attr_t attr;
    IS(pthread_key_create(&always, uses_lock_always), 0);
    for (int k = 0; k < 20; k++) IS(beside(ends_last, &used), 0);
    IS(pthread_attr_init(&attr) || pthread_attr_setstacksize(&attr, 64u << 20) || pthread_attr_setdetachstate(&attr, PTHREAD_CREATE_DETACHED), 0);
    for (int k = 0; k < 20; k++) {
        pthread_t thread;
        IS(pthread_create(&thread, &attr, ends_later, &used) || pthread_create(&thread, &attr, other_free, &used), 0);
        while (count_of_threads() > 1) usleep(1000);
    }
    IS(pthread_attr_destroy(&attr), 0);
}

/* What a thread has at its end stays taken, unless a destructor of its own gives it back. */
static void ends(void) {
    static pthread_mutex_t stays, goes;
    IS(pthread_key_create(&key, unlocks), 0);
    IS(beside(other_lock, &stays), 0);
    IS(pthread_mutex_trylock(&stays), EBUSY);
    IS(beside(ends_with, &goes), 0);
    IS(pthread_mutex_trylock(&goes), 0);
    for (int k = 0; k < 20; k++) IS(beside(other_try, &goes), EBUSY);
}

int main(void) {
    alarm(280);
    ends_after_destructors();
    ends();
    puts("threads end as POSIX words it");
    return 0;
}
