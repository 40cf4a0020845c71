/* Forks while other threads use locks, and handlers of the program's too, which it had before the library had its own; and what a fork means to the library's
 * locks: forks, with SHFL_THREADS=4. */
#include <errno.h>
#include <libshfl.h>
#include <pthread.h>
#include <stdbool.h>
#include <sys/mman.h>
#include <sys/prctl.h>
#include <sys/resource.h>
#include <sys/wait.h>
#include <unistd.h>
#include "answers.h"

#define CLASS 5
static shfl_mutex_t handled, others[2];
static bool handlers_take, others_queue, is_taken;

/* Until somebody sleeps at the lock, or queues there. */
static void until_waited_for(shfl_mutex_t *lock, bool queues) {
    struct shfl_stat it = {0};
    for (; (queues ? it.queued : it.contended) == 0; usleep(1000)) IS(shfl_stat(lock, &it), 0);
    usleep(20000);
}

static void before(void) {
    if (!handlers_take) return;
    IS(shfl_mutex_lock(&handled), 0);
    __atomic_store_n(&is_taken, true, __ATOMIC_SEQ_CST);
    if (others_queue) until_waited_for(&handled, true);
}

static void after(void) {
    if (handlers_take) IS(shfl_mutex_unlock(&handled), 0);
}

static void *takes(void *lock) { return (void *)(intptr_t)(shfl_mutex_lock(lock) || shfl_mutex_unlock(lock)); }

static void is_well(pid_t child) {
    int status;
    IS(waitpid(child, &status, 0) == child && status == 0, 1);
}

/* In the child the lock is there for all. */
static void forks(void) {
    pid_t child = fork();
    if (child == 0) {
        struct timespec late = in_ms(CLOCK_MONOTONIC, 5000);
        alarm(20);
        IS(shfl_mutex_timedlock(&handled, &late) || shfl_mutex_unlock(&handled), 0);
        _exit((int)(intptr_t)takes(&handled) || beside(takes, &handled) || (int)(intptr_t)takes(&others[0]));
    }
    is_well(child);
}

/* Has what the handler waits for, and uses a lock first, then takes another one as a reader, before it gives it back. */
static void *has_it(void *both) {
    static shfl_rwlock_t many[600];
    IS(shfl_mutex_lock(&handled), 0);
    pthread_barrier_wait(both);
    until_waited_for(&handled, false);
    IS(shfl_mutex_lock(&others[1]) || shfl_mutex_unlock(&others[1]), 0);
    for (int k = 0; k < 600; k++) IS(shfl_rwlock_rdlock(&many[k]) || shfl_rwlock_unlock(&many[k]), 0);
    IS(shfl_mutex_unlock(&handled), 0);
    return NULL;
}

static void handlers_wait_for_others(void) {
    pthread_barrier_t both;
    pthread_t thread;
    IS(pthread_barrier_init(&both, NULL, 2) || pthread_create(&thread, NULL, has_it, &both), 0);
    pthread_barrier_wait(&both);
    forks();
    IS(pthread_join(thread, NULL), 0);
}

static void *queues(void *none) {
    IS(shfl_mutex_lock(&others[0]) || shfl_mutex_unlock(&others[0]), 0);
    while (!__atomic_load_n(&is_taken, __ATOMIC_SEQ_CST)) usleep(1000);
    while (__atomic_load_n(&others_queue, __ATOMIC_SEQ_CST)) IS(shfl_mutex_lock(&handled) || shfl_mutex_unlock(&handled), 0);
    return none;
}

/* Two other threads stand in the queue, and aren't there in the child; they contend on while their process forks again. */
static void handlers_are_waited_for(void) {
    static const uint8_t no[] = {0xb7, 0, 0, 0, 0, 0, 0, 0, 0x95, 0, 0, 0, 0, 0, 0, 0}; /* r0 = 0; exit */
    pthread_t threads[2];
    IS(shfl_class_policy(CLASS, SHFL_PROFILE_BASE, no, sizeof no, NULL, 0, NULL), 0);
    is_taken = false;
    others_queue = true;
    IS(shfl_mutex_destroy(&handled) || shfl_mutex_init(&handled, CLASS), 0);
    for (int k = 0; k < 2; k++) IS(pthread_create(&threads[k], NULL, queues, NULL), 0);
    for (int r = 0; r < 10; r++) forks();
    __atomic_store_n(&others_queue, false, __ATOMIC_SEQ_CST);
    for (int k = 0; k < 2; k++) IS(pthread_join(threads[k], NULL), 0);
}

static shfl_mutex_t its, handed, was_free;
static shfl_rwlock_t it_reads, read_on;

/* Another thread, with locks of its own. */
static void *has_locks(void *both) {
    IS(shfl_mutex_lock(&its) || shfl_rwlock_rdlock(&it_reads), 0);
    pthread_barrier_wait(both);
    pthread_barrier_wait(both);
    IS(shfl_mutex_unlock(&its) || shfl_rwlock_unlock(&it_reads), 0);
    return NULL;
}

static pthread_t begin_beside(pthread_barrier_t *both, void *(*run)(void *)) {
    pthread_t thread;
    IS(pthread_barrier_init(both, NULL, 2) || pthread_create(&thread, NULL, run, both), 0);
    pthread_barrier_wait(both);
    return thread;
}

/* What the thread answers, which ends now. */
static int end_beside(pthread_barrier_t *both, pthread_t thread) {
    void *told;
    pthread_barrier_wait(both);
    IS(pthread_join(thread, &told), 0);
    return (int)(intptr_t)told;
}

/* A lock of the thread that forked goes on to another, which waits for it. */
static void hands_on(void) {
    pthread_t thread;
    void *told;
    IS(pthread_create(&thread, NULL, takes, &handed), 0);
    until_waited_for(&handed, false);
    IS(shfl_mutex_unlock(&handed), 0);
    IS(pthread_join(thread, &told), 0);
    IS(told || takes(&handed), 0);
}

static void *reads_on(void *both) {
    IS(shfl_rwlock_rdlock(&read_on), 0);
    pthread_barrier_wait(both);
    pthread_barrier_wait(both);
    return (void *)(intptr_t)(shfl_rwlock_unlock(&read_on) || shfl_rwlock_wrlock(&read_on) || shfl_rwlock_unlock(&read_on));
}

/* One that reads as the thread that forked does keeps writers out, and gives back what it has; and that thread has it twice. */
static void reads_with_another(void) {
    pthread_barrier_t both;
    pthread_t thread = begin_beside(&both, reads_on);
    for (int times = 0; times < 2; times++) IS(shfl_rwlock_trywrlock(&read_on) == 0 || shfl_rwlock_unlock(&read_on), 0);
    IS(shfl_rwlock_unlock(&read_on), EPERM);
    IS(shfl_rwlock_trywrlock(&read_on), EBUSY);
    IS(end_beside(&both, thread), 0);
    IS(shfl_rwlock_trywrlock(&read_on) || shfl_rwlock_unlock(&read_on), 0);
}

static void *uses(void *at) { return (void *)(intptr_t)(shfl_mutex_lock(at) || shfl_mutex_unlock(at) || shfl_rwlock_rdlock(&it_reads) || shfl_rwlock_unlock(&it_reads)); }

/* In the child what another thread had stays held; what the forking thread had is its own; and new threads come. */
static int in_child(void) {
    struct timespec soon = in_ms(CLOCK_MONOTONIC, 20);
    shfl_mutex_t fresh = SHFL_MUTEX_INIT;
    alarm(100);
    IS(shfl_mutex_trylock(&its), EBUSY);
    IS(shfl_mutex_timedlock(&its, &soon), ETIMEDOUT);
    IS(shfl_mutex_unlock(&its), EPERM);
    IS(shfl_mutex_destroy(&its), EBUSY);
    IS(shfl_rwlock_trywrlock(&it_reads), EBUSY);
    IS(shfl_rwlock_rdlock(&it_reads) || shfl_rwlock_unlock(&it_reads) || shfl_mutex_lock(&was_free) || shfl_mutex_unlock(&was_free), 0);
    IS(shfl_mutex_lock(&handed), EDEADLK);
    reads_with_another();
    hands_on();
    for (int k = 0; k < 10; k++) IS(beside(uses, &handed) || beside(uses, &fresh), 0);
    return shfl_mutex_lock(&handed) || shfl_mutex_unlock(&handed) || shfl_mutex_destroy(&fresh);
}

#define MANY 65000
static shfl_mutex_t many[MANY];

/* How many pages are copied for a child as it begins, in sixteens. */
static int copied(void) {
    struct rusage used;
    int status;
    pid_t child = fork();
    if (child == 0) _exit(getrusage(RUSAGE_SELF, &used) || used.ru_minflt / 16 > 255 ? 255 : (int)(used.ru_minflt / 16));
    IS(waitpid(child, &status, 0) == child && WIFEXITED(status), 1);
    return WEXITSTATUS(status);
}

static void all_have_locks(void) {
    pthread_barrier_t both;
    for (int k = 0; k < MANY; k++) IS((int)(intptr_t)takes(&many[k]), 0);
    int alone = copied();
    pthread_t thread = begin_beside(&both, has_locks);
    IS(copied() - alone < 25, 1); /* none for the locks, at which nobody waits */
    IS(shfl_mutex_lock(&was_free) || shfl_mutex_unlock(&was_free), 0);
    IS(shfl_mutex_lock(&handed) || shfl_rwlock_rdlock(&read_on) || shfl_rwlock_rdlock(&read_on), 0);
    for (int k = 0; k < 2; k++) {
        pid_t child = fork();
        if (child == 0) _exit(in_child());
        is_well(child);
    }
    IS(shfl_mutex_unlock(&handed) || shfl_rwlock_unlock(&read_on) || shfl_rwlock_unlock(&read_on), 0);
    IS(end_beside(&both, thread), 0);
    IS(shfl_mutex_trylock(&its) || shfl_mutex_unlock(&its) || shfl_rwlock_trywrlock(&it_reads) || shfl_rwlock_unlock(&it_reads), 0);
}

/* A lock that the parent uses alone, in memory that it shares with its child, is the parent's still. */
static void shared_memory(void) {
    shfl_mutex_t *shared = mmap(NULL, 4096, PROT_READ | PROT_WRITE, MAP_SHARED | MAP_ANONYMOUS, -1, 0);
    pthread_barrier_t both;
    IS(shared == MAP_FAILED, 0);
    pthread_t thread = begin_beside(&both, has_locks);
    IS(shfl_mutex_lock(shared), 0);
    uint32_t number = shared->number;
    pid_t child = fork();
    if (child == 0) _exit(0);
    is_well(child);
    IS(shared->number == number, 1);
    IS(shfl_mutex_unlock(shared), 0);
    IS(end_beside(&both, thread), 0);
    IS(shfl_mutex_destroy(shared), 0);
}

int main(int count, char **words) {
    alarm(280);
    /* as where it has changed its user: some of what the system knows of it isn't told */
    if (count > 1 && strcmp(words[1], "changed") == 0) IS((getuid() == 0 && setuid(65534)) || prctl(PR_SET_DUMPABLE, 0), 0);
    IS(pthread_atfork(before, after, after), 0); /* before the library is used */
    IS(shfl_mutex_lock(&others[0]) || shfl_mutex_unlock(&others[0]), 0);
    handlers_take = true;
    handlers_wait_for_others();
    handlers_are_waited_for();
    handlers_take = false;
    shared_memory();
    all_have_locks();
    puts("forks: handlers take locks meanwhile, what the thread has is its own in the child, and what another has stays held");
    return 0;
}
