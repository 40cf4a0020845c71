/* The peer of `syncord bulk` over C: a thread for each worker over tsearch behind a pthread_mutex_t, and the same summary.
   Words: SEED WORKERS CALLS. Counts and names behind a name go over the whole tree, so those two calls alone are made over a count
   and a sorted table beside it. Build: cc -O2 -pthread -o workers_c workers.c */
#include <pthread.h>
#include <search.h>
#include <stdint.h>
#include <stdio.h>
#include <stdlib.h>
#include <string.h>

struct call { uint8_t kind, dir, name, to, new; };
struct row { uint8_t dir, name; uint64_t ino; };

static void *tree;
static uint64_t next_ino = 1, counts[7], left;
static uint8_t there[64][64];
static uint32_t named[64];
static uint8_t rank_of[64], at_rank[64];
static pthread_mutex_t lock = PTHREAD_MUTEX_INITIALIZER;
static struct call *shares[16];
static uint64_t lengths[16];
static struct { uint8_t worker; struct call call; uint8_t said; } *history;
static uint64_t made;

static int order(const void *a, const void *b) {
    const struct row *x = a, *y = b;
    if (x->dir != y->dir) return x->dir < y->dir ? -1 : 1;
    return rank_of[x->name] < rank_of[y->name] ? -1 : rank_of[x->name] > rank_of[y->name];
}

static struct row *find(uint8_t dir, uint8_t name) {
    struct row key = { dir, name, 0 };
    void *node = tfind(&key, &tree, order);
    return node ? *(struct row **)node : NULL;
}

static void put(uint8_t dir, uint8_t name, uint64_t ino) {
    struct row *old = find(dir, name);
    if (old) { old->ino = ino; return; }
    struct row *row = malloc(sizeof *row);
    *row = (struct row){ dir, name, ino };
    tsearch(row, &tree, order);
    there[dir][rank_of[name]] = 1;
    named[dir]++;
    left++;
}

static void take(struct row *row) {
    tdelete(row, &tree, order);
    there[row->dir][rank_of[row->name]] = 0;
    named[row->dir]--;
    left--;
    free(row);
}

static int reply(struct call c) {
    struct row *row = find(c.dir, c.name);
    switch (c.kind) {
    case 0: case 1: case 2:
        if (row) return 2;
        put(c.dir, c.name, next_ino++);
        return 0;
    case 3:
        if (!row) return 3;
        take(row);
        return 1;
    case 4: {
        if (!row) return 3;
        if (c.dir == c.to && c.name == c.new) return 1;
        uint64_t ino = row->ino;
        take(row);
        put(c.to, c.new, ino);
        return 1;
    }
    case 5: return row ? 0 : 3;
    case 6: return 4;
    default:
        for (int r = rank_of[c.name] + 1; r < 64; r++) if (there[c.dir][r]) return 5;
        return 6;
    }
}

static void *work(void *given) {
    uint64_t worker = (uintptr_t)given;
    for (uint64_t k = 0; k < lengths[worker]; k++) {
        pthread_mutex_lock(&lock);
        int said = reply(shares[worker][k]);
        history[made].worker = worker;
        history[made].call = shares[worker][k];
        history[made++].said = said;
        pthread_mutex_unlock(&lock);
    }
    return NULL;
}

static uint64_t state;
static uint64_t draw(void) {
    state = (state * 1103515245 + 12345) % 2147483648u;
    return state / 65536;
}

static int by_text(const void *a, const void *b) {
    char x[8], y[8];
    snprintf(x, 8, "n%d", *(const uint8_t *)a);
    snprintf(y, 8, "n%d", *(const uint8_t *)b);
    return strcmp(x, y);
}

int main(int argc, char **argv) {
    if (argc != 4) return 2;
    uint64_t seed = strtoull(argv[1], NULL, 10), workers = strtoull(argv[2], NULL, 10), calls = strtoull(argv[3], NULL, 10), attaches = 0;
    for (int k = 0; k < 64; k++) at_rank[k] = k;
    qsort(at_rank, 64, 1, by_text);
    for (int k = 0; k < 64; k++) rank_of[at_rank[k]] = k;
    state = seed % 2147483648u;
    for (uint64_t w = 0; w < workers; w++) shares[w] = malloc((calls / workers + 1) * sizeof(struct call));
    history = malloc(calls * sizeof *history);
    for (uint64_t i = 0; i < calls; i++) {
        if (i % 1000 == 500) attaches++;
        uint64_t a = draw(), b = draw(), c = draw(), w = i % workers;
        shares[w][lengths[w]++] = (struct call){ a % 8, w + workers * (b % 4), b / 4 % 64, w + workers * (c % 4), c / 4 % 64 };
    }
    pthread_t threads[16];
    for (uintptr_t w = 0; w < workers; w++) pthread_create(&threads[w], NULL, work, (void *)w);
    for (uint64_t w = 0; w < workers; w++) pthread_join(threads[w], NULL);
    for (uint64_t k = 0; k < made; k++) counts[history[k].said]++;
    printf("bulk seed %lu workers %lu calls %lu attaches %lu\n", seed, workers, calls, attaches);
    printf("ino %lu done %lu exists %lu absent %lu number %lu name %lu end %lu\n", counts[0], counts[1], counts[2], counts[3], counts[4], counts[5], counts[6]);
    printf("left %lu\n", left);
    return 0;
}
