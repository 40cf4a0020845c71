/* What a process is answered whose arena has three locks and two seats (full), or can't be opened as the environment asks for (refused); which isn't asked where the
 * program has another user's rights (secure). */
#include <errno.h>
#include <libshfl.h>
#include <pthread.h>
#include <stdbool.h>
#include <stdio.h>
#include <string.h>
#include <sys/auxv.h>

static shfl_mutex_t locks[4];
static pthread_barrier_t both;

/* Each call that would give a lock its number. */
static bool all_answer(int wanted) {
    static shfl_rwlock_t shared;
    struct timespec over = {1, 0};
    return shfl_mutex_trylock(&locks[3]) == wanted && shfl_mutex_timedlock(&locks[3], &over) == wanted &&
           shfl_mutex_clocklock(&locks[3], CLOCK_REALTIME, &over) == wanted && shfl_rwlock_rdlock(&shared) == wanted &&
           shfl_rwlock_wrlock(&shared) == wanted && shfl_rwlock_tryrdlock(&shared) == wanted && shfl_rwlock_trywrlock(&shared) == wanted &&
           shfl_rwlock_timedrdlock(&shared, &over) == wanted && shfl_rwlock_clockrdlock(&shared, CLOCK_REALTIME, &over) == wanted &&
           shfl_rwlock_timedwrlock(&shared, &over) == wanted && shfl_rwlock_clockwrlock(&shared, CLOCK_REALTIME, &over) == wanted;
}

static void *takes(void *told) {
    *(int *)told = shfl_mutex_lock(&locks[3]);
    if (*(int *)told == 0) shfl_mutex_unlock(&locks[3]);
    return NULL;
}

/* A thread without a seat, at a lock that has its number. */
static void *without_seat(void *told) {
    takes(told);
    if (*(int *)told == EAGAIN && (!all_answer(EAGAIN) || shfl_thread_attr(1, 2, 3) != EAGAIN)) *(int *)told = 1;
    return NULL;
}

static void *stays(void *told) {
    takes(told);
    pthread_barrier_wait(&both);
    pthread_barrier_wait(&both);
    return NULL;
}

static int beside(void *(*run)(void *)) {
    pthread_t thread;
    int told = -1;
    pthread_create(&thread, NULL, run, &told);
    pthread_join(thread, NULL);
    return told;
}

static int full(void) {
    int told = -1;
    pthread_t thread;
    for (int k = 0; k < 3; k++)
        if (shfl_mutex_lock(&locks[k]) || shfl_mutex_unlock(&locks[k])) return 2;
    if (shfl_mutex_lock(&locks[3]) != EAGAIN || !all_answer(EAGAIN)) return 3;
    if (shfl_mutex_destroy(&locks[0]) || shfl_mutex_lock(&locks[3]) || shfl_mutex_unlock(&locks[3])) return 4;
    if (shfl_mutex_lock(&locks[0]) != EAGAIN) return 5;
    for (int k = 0; k < 100; k++)
        if (beside(takes)) return 6; /* each gives its seat back */
    pthread_barrier_init(&both, NULL, 2);
    pthread_create(&thread, NULL, stays, &told);
    pthread_barrier_wait(&both);
    int third = beside(without_seat);
    pthread_barrier_wait(&both);
    pthread_join(thread, NULL);
    if (told != 0 || third != EAGAIN) return 7;
    return beside(takes) ? 8 : 0;
}

int main(int count, char **words) {
    int told;
    if (count > 1 && strcmp(words[1], "full") == 0) {
        told = full();
    } else if (count > 1 && strcmp(words[1], "secure") == 0) {
        if (!getauxval(AT_SECURE)) puts("no program has another user's rights here: ");
        told = getauxval(AT_SECURE) && all_answer(EINVAL);
    } else {
        told = shfl_mutex_lock(&locks[0]) != EINVAL || shfl_class_policy(0, 1, NULL, 0, NULL, 0, NULL) != EINVAL || shfl_thread_attr(0, 0, 0) != EINVAL ||
               !all_answer(EINVAL);
    }
    puts(told ? "another answer" : "what has no room is refused");
    return told;
}
