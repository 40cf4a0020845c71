/* A mutex may be destroyed by its next holder, and its number serve another lock, while the holder before is still within its unlock. So main makes its unlock step by step: at
 * the K-th instruction, for each K, it stands still until a thread that slept at the mutex has taken it, given it back and destroyed it. No instruction after that
 * touches the mutex's memory, and each number that came back serves one lock. On x86-64 alone; nobody else may look at the program's steps. */
#define _GNU_SOURCE
#include <errno.h>
#include <libshfl.h>
#include <pthread.h>
#include <signal.h>
#include <stdbool.h>
#include <sys/mman.h>
#include <sys/syscall.h>
#include <ucontext.h>
#include <unistd.h>
#include "answers.h"

#ifdef __x86_64__
#define POOL 8
#define TRAP 0x100
static shfl_mutex_t *m, live[64], fresh[POOL]; /* the first one has a page for itself */
static uint32_t pool[POOL]; /* the numbers that come back */
static pthread_barrier_t both;
static bool is_done, is_over;
static int left; /* steps until main stands still */
static pid_t next_tid;

static void stands_still(void) {
    for (int k = 0; k < 40 && !__atomic_load_n(&is_done, __ATOMIC_SEQ_CST); k++) {
        syscall(SYS_tgkill, getpid(), next_tid, SIGUSR1); /* it looks at once */
        usleep(50);
    }
}

static void steps(int signal, siginfo_t *info, void *at) {
    (void)signal, (void)info;
    int before = errno;
    if (--left == 0) stands_still();
    if (left <= 0) ((ucontext_t *)at)->uc_mcontext.gregs[REG_EFL] &= ~TRAP;
    errno = before;
}

static void looks_up(int signal) { (void)signal; }

/* The next holder, once a round. */
static void *next(void *none) {
    next_tid = (pid_t)syscall(SYS_gettid);
    for (;;) {
        pthread_barrier_wait(&both);
        if (is_over) return none;
        IS(shfl_mutex_lock(m) || shfl_mutex_unlock(m) || shfl_mutex_destroy(m) || mprotect(m, sizeof *m, PROT_NONE), 0);
        __atomic_store_n(&is_done, true, __ATOMIC_SEQ_CST);
        pthread_barrier_wait(&both);
    }
}

static char state_of(pid_t tid) {
    char name[64], text[128] = "";
    snprintf(name, sizeof name, "/proc/self/task/%d/stat", (int)tid);
    FILE *file = fopen(name, "r");
    if (!file || !fgets(text, sizeof text, file)) return 0;
    fclose(file);
    char *end = strrchr(text, ')');
    return end ? end[2] : 0;
}

static void until_it_sleeps(void) {
    struct shfl_stat it = {0};
    for (; it.contended == 0; usleep(20)) IS(shfl_stat(m, &it), 0);
    while (state_of(next_tid) != 'S') usleep(20);
}

static __attribute__((noinline)) int unlocks_in_steps(void) {
    __asm__ volatile("pushfq; orq %0, (%%rsp); popfq" : : "i"(TRAP) : "memory", "cc");
    int told = shfl_mutex_unlock(m);
    __asm__ volatile("pushfq; andq %0, (%%rsp); popfq" : : "i"(~TRAP) : "memory", "cc");
    return told;
}

static bool is_of_pool(uint32_t number) {
    for (int k = 0; k < POOL; k++)
        if (pool[k] == number) return true;
    return false;
}

/* As many locks as numbers came back have these, each another one. */
static void numbers_serve_again(int step) {
    for (int k = 0; k < POOL; k++) {
        bool is_good = shfl_mutex_lock(&fresh[k]) == 0 && shfl_mutex_unlock(&fresh[k]) == 0 && is_of_pool(fresh[k].number);
        for (int j = 0; j < k; j++) is_good = is_good && fresh[j].number != fresh[k].number;
        if (!is_good) fprintf(stderr, "after step %d a lock has the number %d: ", step, (int)fresh[k].number);
        IS(is_good, 1);
    }
    for (int k = 0; k < POOL; k++) IS(shfl_mutex_destroy(&fresh[k]), 0);
}

static void make_pool(void) {
    for (int k = 0; k < 64; k++) IS(shfl_mutex_lock(&live[k]) || shfl_mutex_unlock(&live[k]), 0);
    for (int k = 0; k < POOL; k++) {
        IS(shfl_mutex_lock(&fresh[k]) || shfl_mutex_unlock(&fresh[k]), 0);
        pool[k] = fresh[k].number;
    }
    for (int k = 0; k < POOL; k++) IS(shfl_mutex_destroy(&fresh[k]), 0);
}

/* False: the unlock had ended before. */
static bool round_of(int step) {
    is_done = false;
    left = step;
    IS(mprotect(m, sizeof *m, PROT_READ | PROT_WRITE) || shfl_mutex_lock(m), 0);
    pthread_barrier_wait(&both);
    until_it_sleeps();
    IS(unlocks_in_steps(), 0);
    bool reached = left <= 0;
    left = 1 << 30;
    pthread_barrier_wait(&both);
    numbers_serve_again(step);
    return reached;
}

int main(void) {
    struct sigaction trap = {.sa_sigaction = steps, .sa_flags = SA_SIGINFO}, user = {.sa_handler = looks_up};
    pthread_t thread;
    int step = 1;
    alarm(280);
    IS(sigaction(SIGTRAP, &trap, NULL) || sigaction(SIGUSR1, &user, NULL) || pthread_barrier_init(&both, NULL, 2), 0);
    m = mmap(NULL, 4096, PROT_READ | PROT_WRITE, MAP_PRIVATE | MAP_ANONYMOUS, -1, 0);
    IS(m != MAP_FAILED, 1);
    make_pool();
    IS(pthread_create(&thread, NULL, next, NULL), 0);
    while (round_of(step) || round_of(step) || round_of(step)) step++; /* it may be shorter where the other thread has just looked */
    is_over = true;
    pthread_barrier_wait(&both);
    IS(pthread_join(thread, NULL), 0);
    IS(step > 20, 1);
    printf("a mutex may end at each of %d instructions of an unlock\n", step - 1);
    return 0;
}
#else
int main(void) { puts("steps are made on x86-64 alone"); }
#endif
