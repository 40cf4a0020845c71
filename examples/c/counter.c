/* Four threads add to one counter behind a lock, in each form, asleep while they wait and yielding: counter [ROUNDS]. */
#include "shfl.h"
#include <pthread.h>
#include <stdio.h>
#include <stdlib.h>

enum { THREADS = 4 };
static const char *const forms[] = {"spin", "rw", "park", "rw park"};
static struct shfl_pass passes[THREADS];
static long rounds = 20000;
static long counter;

static void *work(void *arg) {
    struct shfl_pass *pass = arg;
    for (long k = 0; k < rounds; k++) {
        shfl_lock(pass);
        counter++;
        shfl_unlock(pass);
    }
    return NULL;
}

static void *work_yielding(void *arg) {
    struct shfl_pass *pass = arg;
    for (long k = 0; k < rounds; k++) {
        shfl_lock_yielding(pass);
        counter++;
        shfl_unlock(pass);
    }
    return NULL;
}

static void run(void *(*how)(void *)) {
    pthread_t threads[THREADS];
    counter = 0;
    for (int k = 0; k < THREADS; k++) {
        if (pthread_create(&threads[k], NULL, how, &passes[k])) exit(2);
    }
    for (int k = 0; k < THREADS; k++) pthread_join(threads[k], NULL);
}

static bool open_all(uint8_t form) {
    uint64_t attrs[THREADS];
    for (int k = 0; k < THREADS; k++) attrs[k] = shfl_attr((uint16_t)(k % 2), 0, 0, 0);
    return shfl_open(attrs, THREADS, form, 1024, passes, THREADS);
}

static bool told(const char *form, const char *how) {
    printf("%-7s %-8s counter %ld\n", form, how, counter);
    return counter == THREADS * rounds;
}

int main(int argc, char **argv) {
    if (argc > 1) rounds = atol(argv[1]);
    bool exact = true;
    for (uint8_t form = SHFL_SPIN; form <= SHFL_RW_PARK; form++) {
        if (!open_all(form)) return 2;
        run(work);
        exact &= told(forms[form], "sleeping");
        run(work_yielding);
        exact &= told(forms[form], "yielding");
        for (int k = 0; k < THREADS; k++) shfl_close(&passes[k]);
    }
    return exact ? 0 : 1;
}
