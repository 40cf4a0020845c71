/* What waits.c sees of the loops: the passes that it waits with, and the calls that the linker leads here. */
#ifndef WAITS_SPY_H
#define WAITS_SPY_H
#define _GNU_SOURCE
#include "shfl.h"
#include <errno.h>
#include <pthread.h>
#include <stdarg.h>
#include <stdatomic.h>

enum { PASSES = 7 };
static struct shfl_pass passes[PASSES];
static _Atomic int vain[PASSES], head_vain, alone, given_away_holding, slept_through;
/* How often a pass found stealing enabled at the queue's head; and the pass that stays before its next step, plus one, and whether it does. */
static _Atomic int found_open, stays, stayed;
/* When the thread by whose step a pass's turn came had called it as well. Until then it is NOT_YET with the time of that step, and NOT_YET
 * alone from when the pass begins to wait. */
#define NOT_YET (UINT64_C(1) << 63)
static _Atomic uint64_t called_at[PASSES];
static __thread uint32_t calls; /* the pass whose turn came by this thread's step, plus one */
static __thread uint64_t calling; /* what stands in called_at since then */
static __thread uint8_t last = SHFL_WENT_ON;
static __thread bool acquiring;
static __thread uint32_t *own_place; /* where the pass that this thread drives sleeps until its turn */
static __thread uint64_t overslept; /* when it would have ended to sleep there by itself, where nobody woke it before */

uint8_t __real_shfl_advance(struct shfl_pass *pass, bool choice);
uint8_t __wrap_shfl_advance(struct shfl_pass *pass, bool choice) {
    acquiring = true;
    while (stays == (int)pass->me + 1) {
        stayed = 1;
        usleep(100);
    }
    own_place = &shfl_place_of(pass->parking, pass->me)->asleep;
    struct shfl_watch next = shfl_watch(pass);
    if (next.kind == 3) {
        calls = next.whom + 1;
        called_at[next.whom] = calling = NOT_YET | shfl_clock();
    }
    last = __real_shfl_advance(pass, choice);
    if (last == SHFL_IN_VAIN || last == SHFL_IN_VAIN_OPEN) {
        vain[pass->me]++;
        if (shfl_watch(pass).kind != 1) head_vain++;
        if (last == SHFL_IN_VAIN_OPEN) found_open++;
    }
    if (last == SHFL_GROUPED_NOBODY) alone++;
    /* it was called, and slept on */
    if (overslept && last == SHFL_WENT_ON && called_at[pass->me] < overslept) slept_through++;
    overslept = 0;
    if (last == SHFL_RESTS) acquiring = false;
    return last;
}

/* Takes the lock. Whoever's turn came by a step of this thread has been called when the lock is taken. However late a thread runs on a busy
 * machine, one that was called before its sleep was to end is woken, or the wakeup was lost. */
static void take(struct shfl_pass *pass) {
    called_at[pass->me] = NOT_YET;
    calls = 0;
    shfl_lock(pass);
    if (calls) atomic_compare_exchange_strong(&called_at[calls - 1], &calling, shfl_clock());
}

/* Between a step that went on and the next one no loop gives the processor away: so not between having the lock word and entering. */
static void gives_away(void) {
    if (acquiring && last == SHFL_WENT_ON) given_away_holding++;
}

int __real_sched_yield(void);
int __wrap_sched_yield(void) {
    gives_away();
    return __real_sched_yield();
}

long __real_syscall(long number, ...);
long __wrap_syscall(long number, ...) {
    va_list words;
    va_start(words, number);
    uint32_t *word = va_arg(words, uint32_t *);
    int call = va_arg(words, int);
    uint32_t value = va_arg(words, uint32_t);
    struct timespec *most = va_arg(words, struct timespec *);
    va_end(words);
    if (call == FUTEX_WAIT_PRIVATE) gives_away();
    uint64_t until = call == FUTEX_WAIT_PRIVATE ? shfl_clock() + (uint64_t)most->tv_nsec : 0;
    long told = __real_syscall(number, word, call, value, most, NULL, 0);
    bool over = call == FUTEX_WAIT_PRIVATE && word == own_place && told != 0 && errno == ETIMEDOUT;
    overslept = over && most->tv_nsec >= 100000000 ? until : 0;
    return told;
}
#endif
