/* Many locks in one process: threads that lock and unlock one drawn at random, and each time add one to the number behind it.
 * Words: many LOCK LOCKS THREADS MS, where LOCK is shfl, arena (the proved part of it alone, an attempt and a release by the thread's seat) or mutex. It
 * prints the pairs of a lock and an unlock a second, and the bytes that a lock takes: by how much the process's resident memory grew, divided by
 * the locks, when each had been locked once. The numbers behind the locks are four bytes each, and not counted there. Status 1: they don't add up. */
#define _GNU_SOURCE
#include <libshfl.h>
#include <pthread.h>
#include <sched.h>
#include <stdbool.h>
#include <stdio.h>
#include <stdlib.h>
#include <string.h>
#include <unistd.h>
#include "../libshfl/seats.h"

enum { LINE = 128, MOST_THREADS = 64 };
static enum { SHFL, ARENA, MUTEX } kind;
static uint32_t locks;
static shfl_mutex_t *shfl;
static pthread_mutex_t *mutexes;
static uint32_t *behind;
static _Alignas(LINE) int going;

static uint64_t now(void) {
    struct timespec t;
    clock_gettime(CLOCK_MONOTONIC, &t);
    return (uint64_t)t.tv_sec * 1000000000 + (uint64_t)t.tv_nsec;
}

struct worker { pthread_t thread; uint64_t drawn, pairs; struct shfl_seat seat; char apart[LINE]; };

static inline void add_at(struct worker *own, uint32_t k) {
    if (kind == SHFL) shfl_mutex_lock(&shfl[k]);
    else if (kind == MUTEX) pthread_mutex_lock(&mutexes[k]);
    else while (shfl_seat_attempt(&own->seat, k, false) != SHFL_DONE) sched_yield();
    behind[k]++;
    if (kind == SHFL) shfl_mutex_unlock(&shfl[k]);
    else if (kind == MUTEX) pthread_mutex_unlock(&mutexes[k]);
    else shfl_seat_release(&own->seat, k);
}

static struct worker workers[MOST_THREADS];

/* One arena of all locks, with a seat for each thread. */
static bool open_arena(int count) {
    struct shfl_seat seats[MOST_THREADS];
    if (shfl_seats_open(locks, false, SHFL_SPIN, 1024, seats, (size_t)count) != SHFL_DONE) return false;
    for (int k = 0; k < count; k++) workers[k].seat = seats[k];
    return true;
}

static void *work(void *at) {
    struct worker *own = at;
    uint64_t x = own->drawn, pairs = 0;
    while (__atomic_load_n(&going, __ATOMIC_ACQUIRE) == 0) {}
    for (; __atomic_load_n(&going, __ATOMIC_RELAXED) == 1; pairs++) {
        x ^= x << 13, x ^= x >> 7, x ^= x << 17;
        add_at(own, (uint32_t)((x >> 32) * locks >> 32));
    }
    own->pairs = pairs;
    return NULL;
}

static long resident(void) {
    long all = 0, pages = 0;
    FILE *told = fopen("/proc/self/statm", "r");
    if (told == NULL) return 0;
    if (fscanf(told, "%ld %ld", &all, &pages) != 2) pages = 0;
    fclose(told);
    return pages * sysconf(_SC_PAGESIZE);
}

int main(int n, char **word) {
    if (n != 5) return 2;
    if (strcmp(word[1], "shfl") != 0 && strcmp(word[1], "arena") != 0 && strcmp(word[1], "mutex") != 0) return 2;
    kind = word[1][0] == 's' ? SHFL : word[1][0] == 'a' ? ARENA : MUTEX;
    locks = (uint32_t)strtoul(word[2], NULL, 10);
    int count = atoi(word[3]);
    uint64_t ms = strtoull(word[4], NULL, 10);
    if (locks < 1 || locks > 16000000 || count < 1 || count > MOST_THREADS) return 2;
    char room[16];
    snprintf(room, sizeof room, "%u", locks + 64);
    setenv("SHFL_LOCKS", room, 1);
    shfl = calloc(kind == SHFL ? locks : 1, sizeof *shfl), mutexes = calloc(kind == MUTEX ? locks : 1, sizeof *mutexes);
    behind = malloc(locks * sizeof *behind);
    if (shfl == NULL || mutexes == NULL || behind == NULL) return 2;
    memset(behind, 0, locks * sizeof *behind);

    long before = resident();
    if (kind == ARENA && !open_arena(count)) return 2;
    for (uint32_t k = 0; k < locks; k++) add_at(workers, k);
    double bytes = (double)(resident() - before) / locks;

    for (int k = 0; k < count; k++) {
        workers[k].drawn = 0x9e3779b97f4a7c15u * (uint64_t)(k + 1);
        if (pthread_create(&workers[k].thread, NULL, work, &workers[k])) return 2;
    }
    uint64_t began = now(), pairs = 0, added = 0;
    __atomic_store_n(&going, 1, __ATOMIC_RELEASE);
    nanosleep(&(struct timespec){(time_t)(ms / 1000), (long)(ms % 1000 * 1000000)}, NULL);
    __atomic_store_n(&going, 2, __ATOMIC_RELEASE);
    double took = (double)(now() - began) * 1e-9;
    for (int k = 0; k < count; k++) {
        pthread_join(workers[k].thread, NULL);
        pairs += workers[k].pairs;
    }
    for (uint32_t k = 0; k < locks; k++) added += behind[k];
    printf("%.0f %.1f\n", (double)pairs / took, bytes);
    return added != pairs + locks;
}
