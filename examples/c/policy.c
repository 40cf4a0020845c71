/* Threads on two sockets wait by a policy that groups those of one socket. It is given as hexadecimal digits, and replaced while the
 * threads run by one that groups nobody, and then by the first again: policy [ROUNDS]. */
#include "shfl.h"
#include <pthread.h>
#include <stdatomic.h>
#include <stdio.h>
#include <stdlib.h>
#include <string.h>

enum { THREADS = 4, MOST = 4096 };

/* r2 = the asking pass's socket; r1 = the waiter's; yes where they are the same */
static const char by_socket[] = "6112000000000000 6111040000000000 b700000001000000 1d21010000000000 b700000000000000 9500000000000000";
static const char nobody[] = "b700000000000000 9500000000000000";
/* r0 is returned before it is written */
static const char refused[] = "9500000000000000";

static struct shfl_pass passes[THREADS];
static long rounds = 20000;
static long counter;

/* The program that is in use, and how often it was replaced. The lock of C guards the bytes, never the counter. */
static struct { pthread_mutex_t guard; uint8_t bytes[MOST]; size_t length; } current = {.guard = PTHREAD_MUTEX_INITIALIZER};
static _Atomic unsigned version;

static size_t from_digits(const char *digits, uint8_t *bytes) {
    size_t length = 0;
    for (; *digits; digits++) {
        if (*digits == ' ') continue;
        char two[3] = {digits[0], digits[1], 0};
        bytes[length++] = (uint8_t)strtoul(two, NULL, 16);
        digits++;
    }
    return length;
}

static void replace(const char *digits) {
    pthread_mutex_lock(&current.guard);
    current.length = from_digits(digits, current.bytes);
    atomic_fetch_add(&version, 1);
    pthread_mutex_unlock(&current.guard);
}

/* Attaches the program in use to a pass, and tells which version it is. What is refused leaves the one before attached. */
static struct shfl_verdict attach(struct shfl_pass *pass, unsigned *seen) {
    static const uint8_t no_program;
    pthread_mutex_lock(&current.guard);
    *seen = atomic_load(&version);
    struct shfl_verdict verdict = shfl_attach(pass, 1, current.bytes, current.length, &no_program, 0);
    pthread_mutex_unlock(&current.guard);
    return verdict;
}

struct worker { struct shfl_pass *pass; long replaced, refusals; };

static void *work(void *arg) {
    struct worker *own = arg;
    unsigned seen = 0;
    for (long k = 0; k < rounds; k++) {
        if (atomic_load(&version) != seen) {
            own->replaced++;
            if (attach(own->pass, &seen).fault != 0) own->refusals++;
        }
        shfl_lock(own->pass);
        counter++;
        shfl_unlock(own->pass);
    }
    return NULL;
}

static bool run(uint8_t form) {
    pthread_t threads[THREADS];
    struct worker workers[THREADS] = {0};
    uint64_t attrs[THREADS];
    long replaced = 0, refusals = 0;
    counter = 0;
    for (int k = 0; k < THREADS; k++) attrs[k] = shfl_attr((uint16_t)(k % 2), 0, 0, 0);
    if (!shfl_open(attrs, THREADS, form, 1024, passes, THREADS)) exit(2);
    for (int k = 0; k < THREADS; k++) {
        workers[k].pass = &passes[k];
        if (pthread_create(&threads[k], NULL, work, &workers[k])) exit(2);
    }
    replace(nobody);
    replace(refused);
    replace(by_socket);
    for (int k = 0; k < THREADS; k++) pthread_join(threads[k], NULL);
    for (int k = 0; k < THREADS; k++) {
        replaced += workers[k].replaced;
        refusals += workers[k].refusals;
        shfl_close(&passes[k]);
    }
    printf("form %u: counter %ld\n", form, counter);
    return counter == THREADS * rounds && replaced >= THREADS && refusals <= THREADS;
}

/* What a refused program is refused for. */
static bool told(void) {
    static const uint64_t attr;
    struct shfl_pass pass = {0};
    unsigned seen;
    if (!shfl_open(&attr, 1, SHFL_SPIN, 1024, &pass, 1)) exit(2);
    replace(refused);
    struct shfl_verdict verdict = attach(&pass, &seen);
    printf("refused: hook %u, fault %u, slot %u, register %u\n", verdict.hook, verdict.fault, verdict.slot, verdict.reg);
    shfl_close(&pass);
    return verdict.fault == 10 && verdict.hook == 0 && verdict.slot == 0 && verdict.reg == 0;
}

int main(int argc, char **argv) {
    if (argc > 1) rounds = atol(argv[1]);
    bool exact = told();
    replace(by_socket);
    for (uint8_t form = SHFL_SPIN; form <= SHFL_RW_PARK; form++) exact &= run(form);
    return exact ? 0 : 1;
}
