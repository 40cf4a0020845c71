/* A reader that tries in vain leaves nobody asleep beside a free lock. A thread makes its try step by step, while main writes: at the K-th instruction, for each K, it stands still,
 * main gives the lock back, and another thread comes that writes. That one has the lock soon after the first one went on. On x86-64 alone; nobody else may look at the
 * program's steps. */
#define _GNU_SOURCE
#include <errno.h>
#include <libshfl.h>
#include <pthread.h>
#include <signal.h>
#include <stdbool.h>
#include <sys/syscall.h>
#include <ucontext.h>
#include <unistd.h>
#include "answers.h"

#ifdef __x86_64__
#define TRAP 0x100
static shfl_rwlock_t l;
static __thread volatile int left; /* steps until this thread stands still */
static bool stands, goes_on, has_tried, has_written;
static pid_t writer_tid;
static double wrote;

static bool is_so(bool *what) { return __atomic_load_n(what, __ATOMIC_SEQ_CST); }
static void tell(bool *what) { __atomic_store_n(what, true, __ATOMIC_SEQ_CST); }

static void steps(int signal, siginfo_t *info, void *at) {
    (void)signal, (void)info;
    int before = errno;
    if (--left == 0) tell(&stands);
    while (left == 0 && !is_so(&goes_on)) usleep(20);
    if (left <= 0) ((ucontext_t *)at)->uc_mcontext.gregs[REG_EFL] &= ~TRAP;
    errno = before;
}

static __attribute__((noinline)) int tries_in_steps(void) {
    __asm__ volatile("pushfq; orq %0, (%%rsp); popfq" : : "i"(TRAP) : "memory", "cc");
    int told = shfl_rwlock_tryrdlock(&l);
    __asm__ volatile("pushfq; andq %0, (%%rsp); popfq" : : "i"(~TRAP) : "memory", "cc");
    return told;
}

static void *tries(void *step) {
    IS(shfl_thread_attr(0, 0, 0), 0); /* it has a seat from now on */
    left = *(int *)step;
    if (tries_in_steps() == 0) IS(shfl_rwlock_unlock(&l), 0);
    tell(&has_tried);
    return NULL;
}

static void *writes(void *none) {
    __atomic_store_n(&writer_tid, (pid_t)syscall(SYS_gettid), __ATOMIC_SEQ_CST);
    IS(shfl_rwlock_wrlock(&l), 0);
    wrote = now(CLOCK_MONOTONIC);
    tell(&has_written);
    IS(shfl_rwlock_unlock(&l), 0);
    return none;
}

/* Until the writer sleeps, or has had the lock. */
static void until_it_is_so_far(void) {
    for (int times = 0; times < 4 && !is_so(&has_written); usleep(100)) {
        pid_t tid = __atomic_load_n(&writer_tid, __ATOMIC_SEQ_CST);
        times = tid && is_asleep(tid) ? times + 1 : 0;
    }
}

/* How long the writer waits once nobody has the lock. */
static double waits_at(int step, bool *is_reached) {
    pthread_t trier, writer;
    stands = goes_on = has_tried = has_written = false;
    writer_tid = 0;
    IS(shfl_rwlock_wrlock(&l) || pthread_create(&trier, NULL, tries, &step), 0);
    while (!is_so(&stands) && !is_so(&has_tried)) usleep(20);
    *is_reached = is_so(&stands);
    IS(shfl_rwlock_unlock(&l) || pthread_create(&writer, NULL, writes, NULL), 0);
    until_it_is_so_far();
    double went_on = now(CLOCK_MONOTONIC);
    tell(&goes_on);
    IS(pthread_join(trier, NULL) || pthread_join(writer, NULL), 0);
    return wrote - went_on;
}

int main(void) {
    struct sigaction trap = {.sa_sigaction = steps, .sa_flags = SA_SIGINFO};
    bool is_reached = true;
    int step = 0;
    alarm(280);
    IS(sigaction(SIGTRAP, &trap, NULL) || shfl_rwlock_tryrdlock(&l) || shfl_rwlock_unlock(&l), 0);
    while (is_reached) {
        double least = waits_at(++step, &is_reached);
        for (int k = 0; k < 4 && least >= 0.05; k++) {
            double again = waits_at(step, &is_reached);
            if (again < least) least = again;
        }
        if (least >= 0.05) fprintf(stderr, "at step %d it slept for %.3f s: ", step, least);
        IS(least < 0.05, 1);
    }
    IS(step > 20, 1);
    printf("a reader may try in vain, and stand still at each of %d instructions\n", step - 1);
    return 0;
}
#else
int main(void) { puts("steps are made on x86-64 alone"); }
#endif
