/* Threads that write to one database of libleveldb and read from it: leveldb FOLDER THREADS ROUNDS. Each writes keys of its own, some of them again, deletes some, and
 * reads its own and others'. What the database has at the end is printed, and on the standard error how many calls there were a second. */
#include <leveldb/c.h>
#include <pthread.h>
#include <stdint.h>
#include <stdio.h>
#include <stdlib.h>
#include <string.h>
#include <time.h>

#define AGAIN 3
static leveldb_t *base;
static leveldb_writeoptions_t *writing;
static leveldb_readoptions_t *reading;
static int threads, rounds;

static void must(char *error, const char *what) {
    if (!error) return;
    fprintf(stderr, "%s: %s\n", what, error);
    exit(1);
}

static double now(void) {
    struct timespec at;
    clock_gettime(CLOCK_MONOTONIC, &at);
    return (double)at.tv_sec + (double)at.tv_nsec / 1e9;
}

static size_t key_of(char *room, int thread, int k) { return (size_t)sprintf(room, "key %03d %08d", thread, k); }
static size_t value_of(char *room, int thread, int k) { return (size_t)sprintf(room, "value %d of %d, %u, and what makes it longer", k, thread, (unsigned)k * 2654435761u); }

/* What another thread may be writing is there in whole or not at all. */
static void read_one(int thread, int k, int due) {
    char key[64], value[128], *error = NULL;
    size_t length = 0, wanted = value_of(value, thread, k);
    char *found = leveldb_get(base, reading, key, key_of(key, thread, k), &length, &error);
    must(error, "get");
    if ((due && !found) || (found && (length != wanted || memcmp(found, value, wanted) != 0))) must("another value", key);
    leveldb_free(found);
}

static void *use(void *at) {
    int me = (int)(intptr_t)at;
    char key[64], value[128], *error = NULL;
    unsigned seed = (unsigned)me;
    for (int k = 0; k < rounds; k++) {
        for (int again = 0; again < (k % 5 ? 1 : AGAIN); again++)
            leveldb_put(base, writing, key, key_of(key, me, k), value, value_of(value, me, k), &error);
        must(error, "put");
        read_one(me, k, 1);
        for (int more = 0; more < 6; more++) read_one(rand_r(&seed) % threads, rand_r(&seed) % rounds, 0);
        if (k % 7 == 0) leveldb_delete(base, writing, key, key_of(key, me, k), &error);
        must(error, "delete");
    }
    return NULL;
}

static void print_all(void) {
    uint64_t sum = 14695981039346656037u, count = 0;
    leveldb_iterator_t *at = leveldb_create_iterator(base, reading);
    for (leveldb_iter_seek_to_first(at); leveldb_iter_valid(at); leveldb_iter_next(at), count++) {
        size_t key_length, value_length;
        const char *key = leveldb_iter_key(at, &key_length), *value = leveldb_iter_value(at, &value_length);
        for (size_t k = 0; k < key_length; k++) sum = (sum ^ (uint8_t)key[k]) * 1099511628211u;
        for (size_t k = 0; k < value_length; k++) sum = (sum ^ (uint8_t)value[k]) * 1099511628211u;
    }
    leveldb_iter_destroy(at);
    printf("%llu keys, sum %016llx\n", (unsigned long long)count, (unsigned long long)sum);
}

int main(int count, char **words) {
    pthread_t all[64];
    char *error = NULL;
    if (count != 4 || (threads = atoi(words[2])) < 1 || threads > 64) return fprintf(stderr, "usage: leveldb FOLDER THREADS ROUNDS\n"), 2;
    rounds = atoi(words[3]);
    leveldb_options_t *options = leveldb_options_create();
    leveldb_options_set_create_if_missing(options, 1);
    leveldb_options_set_write_buffer_size(options, 1 << 20);
    base = leveldb_open(options, words[1], &error);
    must(error, "open");
    writing = leveldb_writeoptions_create();
    reading = leveldb_readoptions_create();
    double began = now();
    for (intptr_t k = 0; k < threads; k++) pthread_create(&all[k], NULL, use, (void *)k);
    for (int k = 0; k < threads; k++) pthread_join(all[k], NULL);
    fprintf(stderr, "%.0f\n", (double)threads * rounds * 8.5 / (now() - began));
    print_all();
    leveldb_close(base);
    return 0;
}
