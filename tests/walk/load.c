/* Load for memcached, for tests/walk.sh: load PORT CONNECTIONS SECONDS. Each connection, in a thread, sends bunches of commands about 64 keys, one
 * that writes after each three that read, and waits for their answers. At the end it tells how many commands were answered in a second, and
 * in how many microseconds a bunch was, of a hundred ninety-nine. */
#include <arpa/inet.h>
#include <netinet/tcp.h>
#include <pthread.h>
#include <stdint.h>
#include <stdio.h>
#include <stdlib.h>
#include <string.h>
#include <sys/socket.h>
#include <time.h>
#include <unistd.h>

#define BUNCH 32
#define KEYS 64
#define SPANS 40

static int port, seconds;
static uint64_t answered, spans[SPANS]; /* the k-th counts the bunches of less than 2^(k/2) microseconds */

static void must(int fact, const char *what) {
    if (!fact) perror(what), exit(1);
}

static double now(void) {
    struct timespec at;
    clock_gettime(CLOCK_MONOTONIC, &at);
    return (double)at.tv_sec + (double)at.tv_nsec / 1e9;
}

static int connected(void) {
    struct sockaddr_in to = {.sin_family = AF_INET, .sin_port = htons((uint16_t)port), .sin_addr.s_addr = htonl(INADDR_LOOPBACK)};
    int at = socket(AF_INET, SOCK_STREAM, 0), one = 1;
    must(at >= 0 && connect(at, (struct sockaddr *)&to, sizeof to) == 0, "connect");
    setsockopt(at, IPPROTO_TCP, TCP_NODELAY, &one, sizeof one);
    return at;
}

/* A bunch of commands. */
static size_t bunch(char *room, size_t size, unsigned *seed) {
    size_t length = 0;
    for (int k = 0; k < BUNCH; k++) {
        int key = rand_r(seed) % KEYS;
        const char *form = k % 4 ? "get key%d\r\n" : "set key%d 0 0 20\r\n01234567890123456789\r\n";
        length += (size_t)snprintf(room + length, size - length, form, key);
    }
    return length;
}

/* How many commands these bytes answer: each answer's last line is one of two. */
static int answers(const char *text) {
    int count = 0;
    for (const char *at = text; (at = strstr(at, "\r\n")); at += 2) {
        count += at - text >= 3 && (memcmp(at - 3, "END", 3) == 0 || (at - text >= 6 && memcmp(at - 6, "STORED", 6) == 0));
    }
    return count;
}

static void note(double took) {
    int k = 0;
    for (double most = 1e-6; k < SPANS - 1 && took >= most; most *= 1.4142135623730951) k++;
    __atomic_fetch_add(&spans[k], 1, __ATOMIC_RELAXED);
    __atomic_fetch_add(&answered, BUNCH, __ATOMIC_RELAXED);
}

static void *ask(void *which) {
    char *sent = malloc(8192), *room = malloc(65536);
    unsigned seed = (unsigned)(uintptr_t)which;
    int at = connected();
    for (double began = now(), last = began; last - began < seconds;) {
        size_t length = bunch(sent, 8192, &seed), came = 0;
        must(write(at, sent, length) == (ssize_t)length, "write");
        do {
            ssize_t more = read(at, room + came, 65535 - came);
            must(more > 0, "read");
            came += (size_t)more;
            room[came] = 0;
        } while (answers(room) < BUNCH);
        double before = last;
        last = now();
        note(last - before);
    }
    close(at);
    free(sent);
    free(room);
    return NULL;
}

int main(int count, char **words) {
    pthread_t threads[256];
    int many = count == 4 ? atoi(words[2]) : 0, k = 0;
    if (many < 1 || many > 256) return fprintf(stderr, "usage: load PORT CONNECTIONS SECONDS\n"), 2;
    port = atoi(words[1]), seconds = atoi(words[3]);
    for (intptr_t it = 0; it < many; it++) must(pthread_create(&threads[it], NULL, ask, (void *)(it + 1)) == 0, "thread");
    for (int it = 0; it < many; it++) pthread_join(threads[it], NULL);
    double most = 0.7071067811865475;
    for (uint64_t left = answered / BUNCH / 100, all = answered / BUNCH; all > left && k < SPANS; k++) {
        all -= spans[k] < all ? spans[k] : all;
        most *= 1.4142135623730951;
    }
    printf("%llu commands a second; of a hundred bunches ninety-nine in %.0f us\n", (unsigned long long)(answered / (uint64_t)seconds), most);
    return 0;
}
