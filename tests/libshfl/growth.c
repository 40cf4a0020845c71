/* More locks than the first arena has. growth many: 200,000 mutexes that live at once, a mutex of each arena held at once, waiting and policies in
 * them, and all numbers come back. growth bounded, with SHFL_LOCKS=3 and SHFL_ARENAS=2: the seventh lock is answered EAGAIN by each call. growth
 * memory: where there is none for another arena the answer is ENOMEM, and nothing is left of it. */
#include <errno.h>
#include <libshfl.h>
#include <malloc.h>
#include <pthread.h>
#include <stdbool.h>
#include <stdint.h>
#include <sys/resource.h>
#include <sys/wait.h>
#include <unistd.h>
#include "answers.h"

#define MANY 200000
#define ARENA 65536
#define THREADS 4
static shfl_mutex_t many[MANY];
static uint8_t has_number[4 * ARENA + 1], counted[MANY];

static void *other_try(void *m) { return (void *)(intptr_t)shfl_mutex_trylock(m); }
static void *other_unlock(void *m) { return (void *)(intptr_t)shfl_mutex_unlock(m); }
static void *other_destroy(void *m) { return (void *)(intptr_t)shfl_mutex_destroy(m); }

static void *takes_all(void *at) {
    for (size_t k = 0, place = (size_t)(uintptr_t)at; k < MANY; k++) {
        size_t which = (place + k) % MANY;
        IS(shfl_mutex_lock(&many[which]), 0);
        counted[which]++;
        IS(shfl_mutex_unlock(&many[which]), 0);
    }
    return NULL;
}

/* No two have the same number, and there are no more numbers than four arenas have. */
static void numbers_differ(void) {
    memset(has_number, 0, sizeof has_number);
    for (size_t k = 0; k < MANY; k++) {
        IS(many[k].number >= 1 && many[k].number <= 4 * ARENA, 1);
        IS(has_number[many[k].number]++, 0);
    }
}

static void all_at_once(void) {
    pthread_t threads[THREADS];
    struct shfl_stat it;
    for (uintptr_t k = 0; k < THREADS; k++) IS(pthread_create(&threads[k], NULL, takes_all, (void *)(k * 50)), 0);
    for (int k = 0; k < THREADS; k++) IS(pthread_join(threads[k], NULL), 0);
    numbers_differ();
    for (size_t k = 0; k < MANY; k++) {
        IS(counted[k], THREADS);
        IS(shfl_stat(&many[k], &it), 0);
        IS((int)it.taken, THREADS);
    }
}

/* One mutex of each arena is held, by one thread, and is what it should be to all. */
static void of_each_arena(void) {
    shfl_mutex_t *of[4] = {NULL, NULL, NULL, NULL};
    struct timespec over = {1, 0};
    for (size_t k = 0; k < MANY; k++) of[(many[k].number - 1) / ARENA] = &many[k];
    for (int k = 0; k < 4; k++) IS(shfl_mutex_lock(of[k]), 0);
    for (int k = 0; k < 4; k++) {
        IS(shfl_mutex_lock(of[k]), EDEADLK);
        IS(shfl_mutex_trylock(of[k]), EBUSY);
        IS(beside(other_try, of[k]), EBUSY);
        IS(beside(other_unlock, of[k]), EPERM);
        IS(beside(other_destroy, of[k]), EBUSY);
        IS(shfl_mutex_unlock(of[k]), 0);
        IS(shfl_mutex_unlock(of[k]), EPERM);
        IS(shfl_mutex_timedlock(of[k], &over), 0);
    }
    pid_t child = fork();
    if (child == 0) {
        for (int k = 0; k < 4; k++) IS(shfl_mutex_unlock(of[k]) || shfl_mutex_lock(of[k]), 0);
        _exit(0);
    }
    int status;
    IS(waitpid(child, &status, 0) == child && status == 0, 1);
    for (int k = 0; k < 4; k++) IS(shfl_mutex_unlock(of[k]), 0);
}

/* Destroyed ones are zero, and their numbers serve others. */
static void come_back(void) {
    static const shfl_mutex_t zero;
    for (size_t k = 0; k < MANY; k++) {
        IS(shfl_mutex_destroy(&many[k]), 0);
        IS(memcmp(&many[k], &zero, sizeof zero), 0);
    }
    for (size_t k = 0; k < MANY; k++) IS(shfl_mutex_lock(&many[k]) || shfl_mutex_unlock(&many[k]), 0);
    numbers_differ();
}

static shfl_rwlock_t shared;
static shfl_cond_t told;
static int turn;

static void *reads(void *l) {
    IS(shfl_rwlock_rdlock(l) || shfl_rwlock_rdlock(l), 0);
    IS(shfl_rwlock_unlock(l) || shfl_rwlock_unlock(l), 0);
    IS(shfl_rwlock_unlock(l), EPERM);
    return NULL;
}

static void *signals(void *m) {
    IS(shfl_mutex_lock(m), 0);
    turn = 1;
    IS(shfl_cond_signal(&told), 0);
    IS(shfl_mutex_unlock(m), 0);
    return NULL;
}

static void *pairs(void *m) {
    for (int k = 0; k < 2000; k++) {
        IS(shfl_mutex_lock(m), 0);
        turn++;
        IS(shfl_mutex_unlock(m), 0);
    }
    return NULL;
}

/* Locks of a further arena: readers, a condition variable, and waiting in the queue under a policy. */
static void in_a_further_arena(void) {
    static shfl_mutex_t m;
    static const uint8_t yes[16] = {0xb7, 0, 0, 0, 1, 0, 0, 0, 0x95};
    pthread_t threads[8];
    struct shfl_class_stat of;
    IS(shfl_mutex_init(&m, 3) || shfl_mutex_lock(&m), 0);
    IS(m.number > 1, 1);
    IS(shfl_rwlock_wrlock(&shared) || shfl_rwlock_unlock(&shared) || shfl_rwlock_rdlock(&shared), 0);
    IS(beside(reads, &shared), 0);
    IS(shfl_rwlock_unlock(&shared), 0);
    IS(pthread_create(&threads[0], NULL, signals, &m), 0);
    while (turn == 0) IS(shfl_cond_wait(&told, &m), 0);
    IS(shfl_mutex_unlock(&m), 0);
    IS(pthread_join(threads[0], NULL), 0);
    IS(shfl_class_policy(3, 1, yes, 16, NULL, 0, NULL), 0);
    IS(shfl_mutex_lock(&m), 0);
    for (int k = 0; k < 8; k++) IS(pthread_create(&threads[k], NULL, pairs, &m), 0);
    usleep(20000);
    IS(shfl_mutex_unlock(&m), 0);
    for (int k = 0; k < 8; k++) IS(pthread_join(threads[k], NULL), 0);
    IS(turn, 16001);
    IS(shfl_class_stat(3, &of), 0);
    IS((int)of.counts.queued >= 8 && of.locks == 1 && of.drained, 1);
    printf("%d questions in a further arena\n", (int)of.counts.questions);
}

static int ask(int k, const struct timespec *over, shfl_mutex_t *m, shfl_rwlock_t *l) {
    switch (k) {
    case 0: return shfl_mutex_lock(m);
    case 1: return shfl_mutex_trylock(m);
    case 2: return shfl_mutex_timedlock(m, over);
    case 3: return shfl_mutex_clocklock(m, CLOCK_REALTIME, over);
    case 4: return shfl_rwlock_rdlock(l);
    case 5: return shfl_rwlock_wrlock(l);
    case 6: return shfl_rwlock_tryrdlock(l);
    case 7: return shfl_rwlock_trywrlock(l);
    case 8: return shfl_rwlock_timedrdlock(l, over);
    case 9: return shfl_rwlock_timedwrlock(l, over);
    case 10: return shfl_rwlock_clockrdlock(l, CLOCK_REALTIME, over);
    default: return shfl_rwlock_clockwrlock(l, CLOCK_REALTIME, over);
    }
}

/* Each call that would give a lock a number. */
static void all_answer(int wanted) {
    static shfl_mutex_t m;
    static shfl_rwlock_t l;
    struct timespec over = {1, 0};
    for (int k = 0; k < 12; k++) IS(ask(k, &over, &m, &l), wanted);
    IS(m.number == 0 && l.number == 0, 1);
}

static void bounded(void) {
    for (int k = 0; k < 6; k++) IS(shfl_mutex_lock(&many[k]) || shfl_mutex_unlock(&many[k]), 0);
    for (int rounds = 0; rounds < 3; rounds++) {
        all_answer(EAGAIN);
        IS(shfl_mutex_destroy(&many[5 - rounds]), 0);
        IS(shfl_mutex_lock(&many[6 + rounds]) || shfl_mutex_unlock(&many[6 + rounds]), 0);
    }
    all_answer(EAGAIN);
    for (int k = 0; k < 3; k++) IS(shfl_mutex_trylock(&many[k]) || shfl_mutex_unlock(&many[k]), 0);
}

/* As long as this process may have no more addresses. */
static void memory(void) {
    struct rlimit most, none = {1 << 20, 1 << 20};
    IS(shfl_mutex_lock(&many[0]) || shfl_mutex_unlock(&many[0]), 0);
    IS(getrlimit(RLIMIT_AS, &most), 0);
    none.rlim_max = most.rlim_max;
    int k = 1;
    while (many[k - 1].number != 0 && k < MANY && many[k - 1].number % 1024 != 0) IS(shfl_mutex_lock(&many[k]) || shfl_mutex_unlock(&many[k]), 0), k++;
    IS(k, 1024);
    IS(setrlimit(RLIMIT_AS, &none), 0);
    all_answer(ENOMEM);
    size_t used = mallinfo2().uordblks;
    for (int rounds = 0; rounds < 20; rounds++) all_answer(ENOMEM);
    IS(mallinfo2().uordblks == used, 1);
    for (int j = 0; j < k; j++) IS(shfl_mutex_trylock(&many[j]) || shfl_mutex_unlock(&many[j]), 0);
    IS(setrlimit(RLIMIT_AS, &most), 0);
    for (int j = 0; j < 3000; j++) IS(shfl_mutex_lock(&many[k + j]) || shfl_mutex_unlock(&many[k + j]), 0);
}

int main(int count, char **words) {
    const char *what = count > 1 ? words[1] : "many";
    alarm(280);
    if (strcmp(what, "many") == 0) {
        all_at_once();
        of_each_arena();
        come_back();
        for (size_t k = 0; k < MANY; k++) IS(shfl_mutex_destroy(&many[k]), 0);
    } else if (strcmp(what, "bounded") == 0) {
        bounded();
    } else if (strcmp(what, "memory") == 0) {
        memory();
    } else {
        IS(shfl_mutex_lock(&many[0]) || shfl_mutex_unlock(&many[0]), 0); /* with SHFL_LOCKS=1 the first arena is full */
        in_a_further_arena();
    }
    printf("%s: locks are where they should be\n", what);
    return 0;
}
