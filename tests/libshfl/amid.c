/* A fork comes at the K-th instruction of a call of another thread that takes a free lock, or reads where main writes, for each K: in the child that thread's seat serves a new one, which takes
 * locks as any does, or it serves nobody: amid, with SHFL_THREADS=3. On x86-64 alone; nobody else may look at the program's steps. */
#define _GNU_SOURCE
#include <errno.h>
#include <libshfl.h>
#include <pthread.h>
#include <signal.h>
#include <stdbool.h>
#include <sys/wait.h>
#include <ucontext.h>
#include <unistd.h>
#include "answers.h"

#ifdef __x86_64__
#define TRAP 0x100
#define MOST 250
enum { WRITES, READS, READS_IN_VAIN, HOWS };
static shfl_rwlock_t l;
static pthread_barrier_t both, seated;
static int left, how;
static bool stands, goes_on, is_over;

static void steps(int signal, siginfo_t *info, void *at) {
    (void)signal, (void)info;
    int before = errno;
    if (--left == 0) {
        __atomic_store_n(&stands, true, __ATOMIC_SEQ_CST);
        while (!__atomic_load_n(&goes_on, __ATOMIC_SEQ_CST)) usleep(20);
    }
    if (left <= 0) ((ucontext_t *)at)->uc_mcontext.gregs[REG_EFL] &= ~TRAP;
    errno = before;
}

static __attribute__((noinline)) int takes_in_steps(void) {
    __asm__ volatile("pushfq; orq %0, (%%rsp); popfq" : : "i"(TRAP) : "memory", "cc");
    int told = how == WRITES ? shfl_rwlock_wrlock(&l) : shfl_rwlock_rdlock(&l);
    __asm__ volatile("pushfq; andq %0, (%%rsp); popfq" : : "i"(~TRAP) : "memory", "cc");
    return told;
}

static void *takes(void *none) {
    IS(shfl_rwlock_wrlock(&l) || shfl_rwlock_unlock(&l), 0);
    for (;;) {
        pthread_barrier_wait(&both);
        if (is_over) return none;
        IS(takes_in_steps(), 0);
        __atomic_store_n(&stands, true, __ATOMIC_SEQ_CST); /* the call was shorter */
        IS(shfl_rwlock_unlock(&l), 0);
        pthread_barrier_wait(&both);
    }
}

/* Whether this thread found a seat. Then its calls are answered as any thread's. */
static void *sits(void *none) {
    shfl_mutex_t fresh = SHFL_MUTEX_INIT;
    int error = shfl_mutex_lock(&fresh);
    pthread_barrier_wait(&seated);
    if (error == EAGAIN) return none;
    IS(error || shfl_mutex_unlock(&fresh) || shfl_mutex_destroy(&fresh), 0);
    int told = shfl_rwlock_tryrdlock(&l);
    IS(told == 0 ? shfl_rwlock_unlock(&l) : told == EBUSY ? 0 : told, 0);
    IS(shfl_rwlock_unlock(&l), EPERM);
    return &l;
}

/* 0: both sit; 10: the one that finds none is the second. */
static int in_child(void) {
    pthread_t two[2];
    void *told[2];
    alarm(20);
    IS(pthread_barrier_init(&seated, NULL, 2), 0);
    for (int k = 0; k < 2; k++) IS(pthread_create(&two[k], NULL, sits, NULL), 0);
    for (int k = 0; k < 2; k++) IS(pthread_join(two[k], &told[k]), 0);
    IS(told[0] || told[1], 1);
    return told[0] && told[1] ? 0 : 10;
}

/* How many of the children had a seat more. */
static int at_step(int step) {
    int status;
    left = step;
    stands = goes_on = false;
    if (how == READS_IN_VAIN) IS(shfl_rwlock_wrlock(&l), 0);
    pthread_barrier_wait(&both);
    while (!__atomic_load_n(&stands, __ATOMIC_SEQ_CST)) usleep(20);
    pid_t child = fork();
    if (child == 0) _exit(in_child());
    IS(waitpid(child, &status, 0) == child && WIFEXITED(status) && WEXITSTATUS(status) % 10 == 0, 1);
    __atomic_store_n(&goes_on, true, __ATOMIC_SEQ_CST);
    if (how == READS_IN_VAIN) IS(shfl_rwlock_unlock(&l), 0);
    pthread_barrier_wait(&both);
    return WEXITSTATUS(status) == 0;
}

int main(void) {
    struct sigaction trap = {.sa_sigaction = steps, .sa_flags = SA_SIGINFO};
    pthread_t thread;
    int more = 0;
    alarm(250);
    IS(sigaction(SIGTRAP, &trap, NULL) || pthread_barrier_init(&both, NULL, 2) || pthread_create(&thread, NULL, takes, NULL), 0);
    for (how = 0; how < HOWS; how++)
        for (int step = 1; step < MOST; step++) more += at_step(step);
    is_over = true;
    pthread_barrier_wait(&both);
    IS(pthread_join(thread, NULL), 0);
    IS(more > MOST / 4 && more < HOWS * (MOST - 1), 1);
    puts("forks at each instruction of a call leave a seat that works, or none");
    return 0;
}
#else
int main(void) { puts("steps are made on x86-64 alone"); }
#endif
