/* What a policy does to threads that wait. Words:
 *   effect SECTION THREADS SOCKETS LIMIT HOLD_NS FAR MILLISECONDS WHEN SHOULD
 * The threads are labelled as of so many sockets, in turn; the first quarter of them has priority 1 and the others 0; the first half is of
 * class 0, the other of class 1. Each takes the lock again and again, with nothing in between. SECTION says what a section costs besides
 * its hold: cost, FAR nanoseconds where the last holder was of another socket; or lines, writes to FAR cache lines, where the threads of
 * a socket keep to its share of the processors. WHEN is queue, or try for the lock as it is opened; SHOULD the digits of a program, or -.
 * It prints holds a second, how many of 1,000 followed one of another socket, Jain's index of the threads' holds, how many of
 * 1,000 were passed by one that came later, and by how many one was at most, and in microseconds the mean wait, that at 99 of a hundred and the longest: of all, of
 * the two priorities, the higher first, and of the two classes. A thread that was stopped on its way into the queue counts as passed. Counted
 * is from when each thread has held the lock once: until all have come, two that take it in turn change socket each time.
 * Status 1: two were in the section. */
#include "effect.h"
#include <sched.h>
#include <string.h>

enum { MOST_LINES = 64, MOST_DIGITS = 1024 };
enum part { ALL, HIGH, LOW, CLASS_0, CLASS_1, THE_PARTS };

struct worker {
    pthread_t thread;
    unsigned me, socket;
    bool high, second;
    uint64_t all, holds; /* of its life, and those that count */
    struct waits waits;
    char apart[LINE];
};

static struct shfl_pass passes[MOST_THREADS];
static struct worker workers[MOST_THREADS];
static unsigned count, sockets;
static uint64_t hold, far_cost;
static bool by_lines;
/* 0, and then 1 until each thread has held once, 2 while all counts, 3 at the end */
static _Alignas(LINE) atomic_int going;
static atomic_uint ready, came_once;
static _Alignas(LINE) _Atomic uint64_t came;
/* Written under the lock alone. The second count follows the first at the end of a section. */
static _Alignas(LINE) volatile uint64_t begun;
static volatile uint64_t ended, changes, passed, passed_most;
static volatile unsigned last_socket;
static struct { _Alignas(LINE) volatile uint64_t word; } lines[MOST_LINES];
static atomic_long torn;

static void section(const struct worker *own, uint64_t place, bool counts) {
    uint64_t seen = begun;
    if (seen != ended) torn++;
    begun = seen + 1;
    /* of those served before so many came later, at least */
    uint64_t later = counts && seen > place ? seen - place : 0;
    passed += later > 0;
    if (later > passed_most) passed_most = later;
    bool is_far = last_socket != own->socket;
    changes += counts && is_far;
    last_socket = own->socket;
    for (uint64_t k = 0; by_lines && k < far_cost; k++) lines[k].word++;
    busy(hold + (is_far && !by_lines ? far_cost : 0));
    if (begun != seen + 1) torn++;
    ended = seen + 1;
}

/* The processors of a socket are every so many'th one, or one where there are more sockets than processors. */
static void keep_to_socket(unsigned socket) {
    long there = sysconf(_SC_NPROCESSORS_ONLN);
    cpu_set_t set;
    CPU_ZERO(&set);
    for (long k = 0; k < there; k++) {
        if (k % sockets == socket % (there < sockets ? there : sockets)) CPU_SET(k, &set);
    }
    pthread_setaffinity_np(pthread_self(), sizeof set, &set);
}

static void *work(void *arg) {
    struct worker *own = arg;
    struct shfl_pass *pass = &passes[own->me];
    if (by_lines) keep_to_socket(own->socket);
    ready++;
    while (atomic_load(&going) == 0) sched_yield();
    for (int now; (now = atomic_load_explicit(&going, memory_order_relaxed)) < 3;) {
        uint64_t place = atomic_fetch_add(&came, 1);
        uint64_t since = shfl_clock();
        shfl_lock(pass);
        if (now == 2) count_wait(&own->waits, shfl_clock() - since);
        section(own, place, now == 2);
        shfl_unlock(pass);
        own->holds += now == 2;
        if (own->all++ == 0) came_once++;
    }
    return NULL;
}

static size_t bytes_of(const char *digits, uint8_t *bytes) {
    size_t length = 0;
    unsigned byte;
    if (strcmp(digits, "-") == 0) return 0;
    for (; length < MOST_DIGITS / 2 && sscanf(digits + 2 * length, "%2x", &byte) == 1; length++) bytes[length] = (uint8_t)byte;
    return length;
}

static void open_lock(uint16_t limit, const char *when, const char *digits) {
    uint64_t attrs[MOST_THREADS];
    uint8_t program[MOST_DIGITS / 2];
    size_t length = bytes_of(digits, program);
    for (unsigned k = 0; k < count; k++) {
        workers[k] = (struct worker){.me = k, .socket = k % sockets, .high = k < count / 4, .second = k >= count / 2};
        attrs[k] = shfl_attr((uint16_t)workers[k].socket, workers[k].high, workers[k].second, 0);
    }
    if (!shfl_open(attrs, count, SHFL_SPIN, limit, passes, count)) exit(2);
    for (unsigned k = 0; k < count; k++) {
        if (length > 0 && shfl_attach(&passes[k], 1, program, length, program, 0).fault != 0) exit(2);
        shfl_queue_when(&passes[k], strcmp(when, "queue") == 0 ? SHFL_QUEUE : SHFL_TRY, 0);
    }
}

static void report(double took) {
    static struct waits parts[THE_PARTS];
    double squares = 0;
    uint64_t all = 0, of_all = 0;
    for (unsigned k = 0; k < count; k++) {
        const struct worker *own = &workers[k];
        of_all += own->all;
        squares += (double)own->holds * (double)own->holds;
        all += own->holds;
        add_waits(&parts[ALL], &own->waits);
        add_waits(&parts[own->high ? HIGH : LOW], &own->waits);
        add_waits(&parts[own->second ? CLASS_1 : CLASS_0], &own->waits);
    }
    if (begun != of_all || ended != of_all) torn++;
    double each = all > 0 ? (double)all : 1;
    printf("%.0f %.1f %.4f %.1f %llu", (double)all / took, 1000 * (double)changes / each,
           squares > 0 ? (double)all * (double)all / (count * squares) : 0, 1000 * (double)passed / each, (unsigned long long)passed_most);
    for (int k = 0; k < THE_PARTS; k++) print_waits(&parts[k]);
    putchar('\n');
}

int main(int n, char **word) {
    if (n != 10) return 2;
    by_lines = strcmp(word[1], "lines") == 0;
    count = (unsigned)atoi(word[2]);
    sockets = (unsigned)atoi(word[3]);
    hold = strtoull(word[5], NULL, 10);
    far_cost = strtoull(word[6], NULL, 10);
    if (count < 4 || count > MOST_THREADS || sockets < 1 || (by_lines && far_cost > MOST_LINES)) return 2;
    open_lock((uint16_t)atoi(word[4]), word[8], word[9]);
    for (unsigned k = 0; k < count; k++) {
        if (pthread_create(&workers[k].thread, NULL, work, &workers[k])) return 2;
    }
    while (ready < count) nap(100000);
    atomic_store(&going, 1);
    while (came_once < count) nap(100000);
    uint64_t began = shfl_clock();
    atomic_store(&going, 2);
    nap(strtoull(word[7], NULL, 10) * 1000000);
    atomic_store(&going, 3);
    double took = (double)(shfl_clock() - began) * 1e-9;
    for (unsigned k = 0; k < count; k++) pthread_join(workers[k].thread, NULL);
    report(took);
    for (unsigned k = 0; k < count; k++) shfl_close(&passes[k]);
    return torn != 0;
}
