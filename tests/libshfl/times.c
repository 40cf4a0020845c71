/* Deadlines: each timed form waits as long as it is told, by the clock that it is told, though signals come meanwhile; and no longer than until it is served,
 * which a wait without a deadline is, too. */
#include <errno.h>
#include <libshfl.h>
#include <pthread.h>
#include <signal.h>
#include <stdbool.h>
#include <unistd.h>
#include "answers.h"

#define SOON_MS 40
static shfl_mutex_t m, gate;
static shfl_rwlock_t l;
static shfl_cond_t c;
static pthread_barrier_t both;
static bool is_signalled, ended;

/* Only a condition variable may answer 0 before it was signalled. */
static int until_signalled(int (*wait)(clockid_t, const struct timespec *), clockid_t clock, const struct timespec *at) {
    int told;
    do told = wait(clock, at); while (told == 0 && !is_signalled);
    return told;
}

static int waits(clockid_t clock, const struct timespec *at) { return clock == CLOCK_MONOTONIC && at ? shfl_cond_timedwait(&c, &gate, at) : shfl_cond_wait(&c, &gate); }
static int waits_by(clockid_t clock, const struct timespec *at) { return shfl_cond_clockwait(&c, &gate, clock, at); }

#define FORM(name, call) static int name(clockid_t clock, const struct timespec *at) { return (void)clock, (void)at, (call); }
FORM(locks, shfl_mutex_lock(&m))
FORM(reads, shfl_rwlock_rdlock(&l))
FORM(writes, shfl_rwlock_wrlock(&l))
FORM(awaits, until_signalled(waits, clock, NULL))
FORM(locks_timed, shfl_mutex_timedlock(&m, at))
FORM(reads_timed, shfl_rwlock_timedrdlock(&l, at))
FORM(writes_timed, shfl_rwlock_timedwrlock(&l, at))
FORM(awaits_timed, until_signalled(waits, clock, at))
FORM(locks_by, shfl_mutex_clocklock(&m, clock, at))
FORM(reads_by, shfl_rwlock_clockrdlock(&l, clock, at))
FORM(writes_by, shfl_rwlock_clockwrlock(&l, clock, at))
FORM(awaits_by, until_signalled(waits_by, clock, at))

enum what { MUTEX, SHARED, COND };
struct form { const char *name; int (*call)(clockid_t, const struct timespec *); clockid_t clock; enum what what; bool has_deadline; };
#define TIMED(call, what) {#call, call, CLOCK_MONOTONIC, what, true}
#define BY(call, what) {#call " of the steady clock", call, CLOCK_MONOTONIC, what, true}, {#call " of the real clock", call, CLOCK_REALTIME, what, true}
static const struct form forms[] = {
    {"locks", locks, CLOCK_MONOTONIC, MUTEX, false}, {"reads", reads, CLOCK_MONOTONIC, SHARED, false},
    {"writes", writes, CLOCK_MONOTONIC, SHARED, false}, {"awaits", awaits, CLOCK_MONOTONIC, COND, false},
    TIMED(locks_timed, MUTEX), TIMED(reads_timed, SHARED), TIMED(writes_timed, SHARED), TIMED(awaits_timed, COND),
    BY(locks_by, MUTEX), BY(reads_by, SHARED), BY(writes_by, SHARED), BY(awaits_by, COND),
};
enum { FORMS = sizeof forms / sizeof *forms };

/* One that 64 bits of nanoseconds can't tell: half a second more than 2^64 of them. */
static const struct timespec far = {18446744074, 209551616};

/* What is given back after the call; of a condition variable its mutex. */
static int give(enum what what) { return what == MUTEX ? shfl_mutex_unlock(&m) : what == SHARED ? shfl_rwlock_unlock(&l) : shfl_mutex_unlock(&gate); }

/* Has both locks; each time that somebody waits for it, gives them back after a while, and signals. */
static void *holds(void *none) {
    for (int k = 0; k < 2 * FORMS; k++) {
        IS(shfl_mutex_lock(&m) || shfl_rwlock_wrlock(&l), 0);
        pthread_barrier_wait(&both);
        pthread_barrier_wait(&both); /* its deadline has passed */
        usleep(SOON_MS * 1000);
        IS(shfl_mutex_lock(&gate), 0);
        is_signalled = true;
        IS(shfl_cond_signal(&c), 0);
        IS(shfl_mutex_unlock(&gate), 0);
        IS(shfl_mutex_unlock(&m) || shfl_rwlock_unlock(&l), 0);
        pthread_barrier_wait(&both);
    }
    return none;
}

static double took(const struct form *form, long ms, int wanted) {
    struct timespec at = ms > 0 ? in_ms(form->clock, ms) : ms < 0 ? far : (struct timespec){1, 0};
    double began = now(CLOCK_MONOTONIC);
    int told = form->call(form->clock, &at);
    if (told != wanted) fprintf(stderr, "%s, %ld ms: ", form->name, ms);
    IS(told, wanted);
    return now(CLOCK_MONOTONIC) - began;
}

static void must_be(const struct form *form, double took, double least, double most) {
    if (took < least || took >= most) fprintf(stderr, "%s took %.3f s: ", form->name, took);
    IS(took >= least && took < most, 1);
}

/* In vain, then long before its deadline; or before one that never comes. */
static void waits_as_told(const struct form *form, bool in_vain) {
    pthread_barrier_wait(&both);
    is_signalled = false;
    if (form->what == COND) IS(shfl_mutex_lock(&gate), 0);
    if (form->has_deadline && in_vain) {
        must_be(form, took(form, SOON_MS, ETIMEDOUT), SOON_MS * 0.00099, 8);
        must_be(form, took(form, 0, ETIMEDOUT), 0, 4);
    }
    pthread_barrier_wait(&both);
    must_be(form, took(form, in_vain ? 60000 : -1, 0), 0, 8);
    IS(give(form->what), 0);
    pthread_barrier_wait(&both);
}

static void ignores(int signal) { (void)signal; }

static void *disturbs(void *at) {
    while (!__atomic_load_n(&ended, __ATOMIC_RELAXED)) {
        IS(pthread_kill(*(pthread_t *)at, SIGUSR1), 0);
        usleep(3000);
    }
    return NULL;
}

int main(void) {
    pthread_t holder, disturber, self = pthread_self();
    struct sigaction action = {.sa_handler = ignores};
    alarm(280);
    IS(sigaction(SIGUSR1, &action, NULL), 0);
    IS(pthread_barrier_init(&both, NULL, 2), 0);
    IS(pthread_create(&holder, NULL, holds, NULL), 0);
    IS(pthread_create(&disturber, NULL, disturbs, &self), 0);
    for (int k = 0; k < 2 * FORMS; k++) waits_as_told(&forms[k % FORMS], k < FORMS);
    IS(pthread_join(holder, NULL), 0);
    __atomic_store_n(&ended, true, __ATOMIC_RELAXED);
    IS(pthread_join(disturber, NULL), 0);
    printf("%d forms wait as long as they are told\n", FORMS);
    return 0;
}
