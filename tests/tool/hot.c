/* A program with a hot lock, for tests/tool.sh: hot THREADS [FILE]. The threads take it, and another one each 16 times; how often they took the
 * hot one stands in FILE's first eight bytes. Lines on standard input say what it does besides: `brief N`, N children one after another, each
 * of which ends at once; `child`, one whose own thread writes and reads under a lock in turns until it is killed; `exec`, one that becomes another program after
 * that. Each is answered with the child's process, or 0. At any other line the threads end, and it tells how often they took the locks and
 * what the library counted; at the next one it ends. */
#define _GNU_SOURCE
#include <fcntl.h>
#include <libshfl.h>
#include <pthread.h>
#include <stdio.h>
#include <stdlib.h>
#include <string.h>
#include <sys/mman.h>
#include <sys/wait.h>
#include <unistd.h>

shfl_mutex_t hot, other;
shfl_rwlock_t childs;
static uint64_t here, others;
static uint64_t *hots = &here;
static int over;

static void must(int told) {
    if (told) fprintf(stderr, "hot: a call answers %d\n", told), exit(1);
}

static void *take(void *at) {
    must(shfl_thread_attr((uint16_t)(uintptr_t)at, 0, 0));
    for (long r = 0; !__atomic_load_n(&over, __ATOMIC_RELAXED); r++) {
        must(shfl_mutex_lock(&hot));
        __atomic_store_n(hots, *hots + 1, __ATOMIC_RELAXED);
        for (volatile int k = 0; k < 200; k++) {
        }
        must(shfl_mutex_unlock(&hot));
        if (r % 16) continue;
        must(shfl_mutex_lock(&other));
        others++;
        must(shfl_mutex_unlock(&other));
    }
    return NULL;
}

static void *take_childs(void *times) {
    for (intptr_t k = 0; !times || k < (intptr_t)times; k++) {
        must(k % 2 ? shfl_rwlock_rdlock(&childs) : shfl_rwlock_wrlock(&childs));
        must(shfl_rwlock_unlock(&childs));
        if (!times) usleep(1000);
    }
    return NULL;
}

/* What a child does whose parent has threads: the lock is its own, and so is the thread that takes it. */
static void live_as_child(int becomes_another) {
    pthread_t thread;
    must(pthread_create(&thread, NULL, take_childs, becomes_another ? (void *)100 : NULL));
    pthread_join(thread, NULL);
    execlp("sleep", "sleep", "600", NULL);
    _exit(9);
}

static int fork_one(const char *line) {
    pid_t child = fork();
    must(child < 0);
    if (child > 0) return child;
    if (strncmp(line, "brief", 5) == 0) _exit(shfl_rwlock_trywrlock(&childs));
    live_as_child(strncmp(line, "exec", 4) == 0);
    return 0;
}

/* Whether the line asks for children. */
static int makes_children(const char *line) {
    int status, child = 0;
    if (strncmp(line, "brief ", 6) == 0) {
        for (int k = atoi(line + 6); k > 0; k--) must(waitpid(fork_one(line), &status, 0) < 0 || status != 0);
    } else if (strcmp(line, "child\n") == 0 || strcmp(line, "exec\n") == 0) {
        child = fork_one(line);
    } else {
        return 0;
    }
    printf("%d\n", child);
    fflush(stdout);
    return 1;
}

static void show_in(const char *file) {
    int at = open(file, O_RDWR | O_CREAT, 0600);
    must(at < 0 || ftruncate(at, sizeof *hots));
    hots = mmap(NULL, sizeof *hots, PROT_READ | PROT_WRITE, MAP_SHARED, at, 0);
    must(hots == MAP_FAILED);
    close(at);
}

int main(int count, char **words) {
    pthread_t threads[64];
    int many = count > 1 ? atoi(words[1]) : 4;
    char line[32];
    struct shfl_stat counts[2];
    if (count > 2) show_in(words[2]);
    for (intptr_t k = 0; k < many && k < 64; k++) must(pthread_create(&threads[k], NULL, take, (void *)k));
    printf("ready\n");
    fflush(stdout);
    while (fgets(line, sizeof line, stdin) && makes_children(line)) {
    }
    __atomic_store_n(&over, 1, __ATOMIC_RELAXED);
    for (int k = 0; k < many && k < 64; k++) pthread_join(threads[k], NULL);
    must(shfl_stat(&hot, &counts[0]) || shfl_stat(&other, &counts[1]));
    printf("hot %llu %llu other %llu %llu\n", (unsigned long long)*hots, (unsigned long long)counts[0].taken, (unsigned long long)others,
           (unsigned long long)counts[1].taken);
    fflush(stdout);
    return fgets(line, sizeof line, stdin) == NULL && ferror(stdin);
}
