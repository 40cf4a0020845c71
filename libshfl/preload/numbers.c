/* What an unmodified program can't be told: that there is no number for a lock, which then is libc's, or no seat for a thread, which then
 * waits for one; or that the environment asks for what can't be. Nothing of this is proved: a lock that went to libc is libc's alone. */
#include <stdio.h>
#include <string.h>
#include "inside.h"

#define NAP_NS 1000000

static void nap(void) {
    static uint32_t never;
    shfl_sleep(&never, 0, NAP_NS);
}

/* By a system call, since no lock is a point of cancellation. */
static SHFL_COLD void say_once(uint32_t *said, const char *words) {
    int before = errno;
    if (!__atomic_exchange_n(said, 1, __ATOMIC_SEQ_CST)) syscall(SYS_write, 2, words, strlen(words));
    errno = before;
}

static uint32_t said_what_cannot_be;

SHFL_COLD void shfl_out_of_range(const char *name, const char *text, uint32_t most) {
    char words[160];
    snprintf(words, sizeof words, "libshfl_preload: %s=%.60s is out of its range, 1 to %u; the program has libc's locks\n", name, text, most);
    say_once(&said_what_cannot_be, words);
}

SHFL_COLD void shfl_no_such_form(const char *text) {
    char words[160];
    snprintf(words, sizeof words, "libshfl_preload: SHFL_FORM=%.60s is neither rw nor rw-park; the program has libc's locks\n", text);
    say_once(&said_what_cannot_be, words);
}

/* Takes a seat for this thread, if it has to wait for one. */
static void sit(void) {
    static uint32_t said;
    int error = 0;
    while (!shfl_self(&error)) {
        say_once(&said, "libshfl_preload: more threads than SHFL_THREADS use locks; one waits until another has ended\n");
        nap();
    }
}

/* A lock whose number isn't there yet gets one, or goes to libc for as long as it lives. A lock that is used while this very thread opens
 * the arena goes there too. Answers whether it is the library's; then this thread has a seat. */
SHFL_COLD bool shfl_adopt(uint32_t *word) {
    static __thread bool opens __attribute__((tls_model("initial-exec")));
    uint32_t lock, none = 0;
    int error = EAGAIN;
    if (!opens) {
        opens = true;
        error = shfl_number(word, 0, &lock);
        opens = false;
    }
    if (error && __atomic_compare_exchange_n(word, &none, SHFL_LIBC, false, __ATOMIC_SEQ_CST, __ATOMIC_SEQ_CST)) return false;
    if (__atomic_load_n(word, __ATOMIC_ACQUIRE) == SHFL_LIBC) return false;
    sit();
    return true;
}

/* Goes on where a thread found the lock taken, and where one that has to queue found no memory. */
SHFL_COLD int shfl_take_at_last(uint32_t *word, bool shared, int error, const void *caller) {
    while (error == EBUSY || error == ENOMEM) {
        if (error == ENOMEM) nap();
        shfl_me->caller = caller;
        error = shfl_take(word, shared);
        shfl_me->caller = NULL;
    }
    return error;
}

static int take_until(uint32_t *word, bool shared, clockid_t clock, const struct timespec *deadline) {
    if (!shfl_is_clock(clock)) return EINVAL;
    int error = shfl_take_until(word, shared, clock, deadline);
    while (error == ENOMEM) {
        if (!shfl_is_time(deadline)) return EINVAL;
        struct timespec now;
        clock_gettime(clock, &now);
        if (now.tv_sec > deadline->tv_sec || (now.tv_sec == deadline->tv_sec && now.tv_nsec >= deadline->tv_nsec)) return ETIMEDOUT;
        nap();
        error = shfl_take_until(word, shared, clock, deadline);
    }
    return error;
}

int shfl_take_until_at_last(uint32_t *word, bool shared, clockid_t clock, const struct timespec *deadline, const void *caller) {
    shfl_me->caller = caller;
    int error = take_until(word, shared, clock, deadline);
    shfl_me->caller = NULL;
    return error;
}
