/* What a record at the control socket has of a lock, in the first arena and in further ones: records; and with SHFL_LOCKS=1, so that each lock after the
 * first has an arena of its own. The program asks itself. Its events are what its two threads did at that lock, in that order, and nothing of the
 * other locks'; and what is counted stays exact. */
#include <errno.h>
#include <libshfl.h>
#include <pthread.h>
#include <stdbool.h>
#include <stdint.h>
#include <sys/socket.h>
#include <sys/stat.h>
#include <sys/un.h>
#include <unistd.h>
#include "answers.h"

#define REPLY_MOST 65536
static char folder[] = "/tmp/shfl-records-XXXXXX";
static char reply[REPLY_MOST];
static shfl_mutex_t first, further, other;
static shfl_rwlock_t shared;

static void fail(const char *what) {
    fprintf(stderr, "records: %s: %s\n", what, reply);
    exit(1);
}

/* One request, and its whole answer, which is to be ok. */
static void ask(const char *request) {
    struct sockaddr_un at = {.sun_family = AF_UNIX};
    snprintf(at.sun_path, sizeof at.sun_path, "%s/shfl-%ld", folder, (long)getpid());
    int fd = socket(AF_UNIX, SOCK_STREAM, 0);
    if (fd < 0 || connect(fd, (struct sockaddr *)&at, sizeof at)) fail("connect");
    if (write(fd, request, strlen(request)) != (ssize_t)strlen(request)) fail("write");
    size_t length = 0;
    ssize_t got;
    while (length < REPLY_MOST - 1 && (got = read(fd, reply + length, REPLY_MOST - 1 - length)) > 0) length += (size_t)got;
    reply[length] = 0;
    close(fd);
    if (strncmp(reply, "ok\n", 3) != 0) fail(request);
}

/* The number of the lock at this address. */
static unsigned number_at(const void *address) {
    char wanted[64];
    ask("shfl 1 locks 0\n");
    snprintf(wanted, sizeof wanted, " at %llx class", (unsigned long long)(uintptr_t)address);
    for (char *line = strtok(reply, "\n"); line; line = strtok(NULL, "\n"))
        if (strstr(line, wanted)) return (unsigned)strtoul(line + strlen("lock "), NULL, 10);
    fail(wanted);
    return 0;
}

static unsigned begin(const void *address, unsigned number) {
    char request[128];
    snprintf(request, sizeof request, "shfl 1 record %u %llx 60000\n", number, (unsigned long long)(uintptr_t)address);
    ask(request);
    return (unsigned)strtoul(reply + strlen("ok\nrecord "), NULL, 10);
}

/* The events of the record are to be these; whether a waiter came to queue depends on time, and isn't looked at. An upper thread is one that
 * the test began. */
static void end(unsigned record, const char *wanted, const char *threads) {
    char request[64], events[64] = "", who[64] = "";
    unsigned long main_thread = 0, thread;
    size_t count = 0;
    char event;
    snprintf(request, sizeof request, "shfl 1 events %u 0\n", record);
    ask(request);
    if (strstr(reply, "lost 0 over") == NULL) fail("events were lost");
    for (char *line = strtok(reply, "\n"); line && count < sizeof events - 1; line = strtok(NULL, "\n")) {
        if (sscanf(line, "%*u %c %lu", &event, &thread) != 2 || event == 'q') continue;
        if (count == 0) main_thread = thread;
        who[count] = thread == main_thread ? 'm' : 'o';
        events[count++] = event;
    }
    if (strcmp(events, wanted) != 0 || strcmp(who, threads) != 0) {
        fprintf(stderr, "records: events %s of %s, not %s of %s\n", events, who, wanted, threads);
        exit(1);
    }
    snprintf(request, sizeof request, "shfl 1 forget %u\n", record);
    ask(request);
}

static void *take_and_give(void *m) {
    IS(shfl_mutex_lock(m), 0);
    IS(shfl_mutex_unlock(m), 0);
    return NULL;
}

static void wait_until_contended(shfl_mutex_t *m) {
    struct shfl_stat it = {0};
    for (int k = 0; k < 30000 && it.contended == 0; k++) {
        nanosleep(&(struct timespec){0, 1000000}, NULL);
        IS(shfl_stat(m, &it), 0);
    }
    IS(it.contended == 1, 1);
}

/* It is counted that the lock was found taken before it is recorded that somebody waits. */
static void wait_until_recorded(unsigned record, const char *event) {
    char request[64];
    bool there = false;
    snprintf(request, sizeof request, "shfl 1 events %u 0\n", record);
    for (int k = 0; k < 30000 && !there; k++) {
        ask(request);
        there = strstr(reply, event) != NULL;
        if (!there) nanosleep(&(struct timespec){0, 1000000}, NULL);
    }
    IS(there, 1);
}

static void use_mutex(shfl_mutex_t *m, unsigned least, unsigned most) {
    pthread_t thread;
    struct shfl_stat it;
    IS(shfl_mutex_lock(m), 0);
    IS(shfl_mutex_unlock(m), 0);
    unsigned number = number_at(m);
    IS(number >= least && number <= most, 1);
    unsigned record = begin(m, number);
    for (int k = 0; k < 2; k++) take_and_give(k ? m : &other), take_and_give(m);
    IS(shfl_mutex_unlock(m), EPERM);
    IS(shfl_mutex_trylock(m), 0);
    IS(shfl_mutex_lock(m), EDEADLK);
    IS(pthread_create(&thread, NULL, take_and_give, m), 0);
    wait_until_contended(m);
    wait_until_recorded(record, " w ");
    IS(shfl_mutex_unlock(m), 0);
    IS(pthread_join(thread, NULL), 0);
    end(record, "WfWfWfWwfWf", "mmmmmmmomoo");
    take_and_give(m);
    IS(shfl_stat(m, &it), 0);
    IS(it.taken == 7 && it.contended == 1, 1);
}

/* A reader that takes its lock again holds it once, and gives it back once. */
static void use_shared(void) {
    IS(shfl_rwlock_rdlock(&shared), 0);
    unsigned record = begin(&shared, number_at(&shared));
    IS(shfl_rwlock_rdlock(&shared), 0);
    IS(shfl_rwlock_unlock(&shared), 0);
    IS(shfl_rwlock_unlock(&shared), 0);
    for (int k = 0; k < 2; k++) IS(shfl_rwlock_rdlock(&shared), 0);
    take_and_give(&other);
    for (int k = 0; k < 2; k++) IS(shfl_rwlock_unlock(&shared), 0);
    IS(shfl_rwlock_unlock(&shared), EPERM);
    IS(shfl_rwlock_wrlock(&shared), 0);
    IS(shfl_rwlock_unlock(&shared), 0);
    end(record, "fRfWf", "mmmmm");
}

/* Where nothing is asked for there are as many locks and threads as the document says. */
static void usual_numbers(void) {
    if (getenv("SHFL_LOCKS") || getenv("SHFL_THREADS")) return;
    ask("shfl 1 hello\n");
    if (!strstr(reply, " of 65536\n") || !strstr(reply, " of 4096\n") || !strstr(reply, "\nlimit 1024\n")) fail("the usual numbers");
}

int main(void) {
    if (!mkdtemp(folder) || setenv("SHFL_CONTROL", folder, 1)) return 2;
    use_mutex(&first, 0, 0);
    use_mutex(&further, 1, UINT32_MAX);
    use_shared();
    usual_numbers();
    IS(shfl_mutex_destroy(&further), 0);
    char name[sizeof folder + 32];
    snprintf(name, sizeof name, "%s/shfl-%ld", folder, (long)getpid());
    unlink(name);
    if (rmdir(folder)) perror(folder);
    puts("a record has what happened at its lock");
    return 0;
}
