/* A hash map behind a readers-writer lock, which four threads fill and read, in both forms that have readers: map [KEYS]. */
#include "shfl.h"
#include <pthread.h>
#include <stdio.h>
#include <stdlib.h>

enum { THREADS = 4, SLOTS = 1 << 16, READS = 4 };

/* An entry is there where its key isn't 0. Its value is written after its key, and read with it. */
struct entry { uint64_t key, value; };

struct map {
    struct entry entries[SLOTS];
    uint64_t count;
};

static struct map map;
static struct shfl_pass passes[THREADS];
static uint64_t keys = 1000;

static struct entry *place(uint64_t key) {
    uint64_t slot = key * 0x9e3779b97f4a7c15u >> 48;
    while (map.entries[slot].key != 0 && map.entries[slot].key != key) slot = (slot + 1) % SLOTS;
    return &map.entries[slot];
}

static void put(struct shfl_pass *pass, uint64_t key, uint64_t value) {
    shfl_lock(pass);
    struct entry *entry = place(key);
    if (entry->key == 0) {
        entry->key = key;
        map.count++;
    }
    entry->value = value;
    shfl_unlock(pass);
}

static uint64_t get(struct shfl_pass *pass, uint64_t key) {
    shfl_rdlock(pass);
    struct entry *entry = place(key);
    uint64_t value = entry->key == key ? entry->value : 0;
    shfl_unlock(pass);
    return value;
}

/* Thread t puts the keys t + 1, t + 5 and so on, and reads those of others: each is absent, or has its value. */
static void *work(void *arg) {
    uint64_t me = (uint64_t)((struct shfl_pass *)arg - passes);
    uint64_t wrong = 0, seed = me + 1;
    for (uint64_t k = 0; k < keys; k++) {
        uint64_t key = me + 1 + k * THREADS;
        put(&passes[me], key, 3 * key);
        if (get(&passes[me], key) != 3 * key) wrong++;
        for (int r = 0; r < READS; r++) {
            seed = seed * 6364136223846793005u + 1442695040888963407u;
            uint64_t other = (seed >> 33) % (keys * THREADS) + 1;
            uint64_t value = get(&passes[me], other);
            if (value != 0 && value != 3 * other) wrong++;
        }
    }
    return (void *)wrong;
}

static bool run(uint8_t form, const char *name) {
    static const uint64_t attrs[THREADS];
    pthread_t threads[THREADS];
    uint64_t wrong = 0, sum = 0, all = keys * THREADS;
    map = (struct map){0};
    if (!shfl_open(attrs, THREADS, form, 1024, passes, THREADS)) exit(2);
    for (int k = 0; k < THREADS; k++) {
        if (pthread_create(&threads[k], NULL, work, &passes[k])) exit(2);
    }
    for (int k = 0; k < THREADS; k++) {
        void *seen;
        pthread_join(threads[k], &seen);
        wrong += (uint64_t)seen;
    }
    for (int k = 0; k < THREADS; k++) shfl_close(&passes[k]);
    for (int k = 0; k < SLOTS; k++) sum += map.entries[k].value;
    printf("%-7s keys %lu, sum %lu, wrong reads %lu\n", name, (unsigned long)map.count, (unsigned long)sum, (unsigned long)wrong);
    return map.count == all && sum == 3 * (all * (all + 1) / 2) && wrong == 0;
}

int main(int argc, char **argv) {
    if (argc > 1) keys = strtoull(argv[1], NULL, 10);
    if (keys == 0 || keys > 10000) return 2;
    bool spinning = run(SHFL_RW, "rw");
    bool parking = run(SHFL_RW_PARK, "rw park");
    return spinning && parking ? 0 : 1;
}
