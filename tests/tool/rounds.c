/* Looks at what the steps of the proved library are told, for tests/tool.sh: linked with the library's own files and the linker's word
 * --wrap=shfl_seat_step, it stands between them. The policies that the test attaches answer each question of a kind alike, so a round whose
 * answers differ was answered by two versions. At the end it tells how many rounds there were, how many of them have two answers
 * or more, how many of those said yes, and how many have answers that differ; and how many threads' words a record has left changed. */
#include <pthread.h>
#include <stdio.h>
#include "../../libshfl/inside.h"

#define YES 1
#define NO 2

static uint64_t rounds, tell, said_yes, differ;
static __thread struct { uint32_t answers, seen; } now;

uint8_t __real_shfl_seat_step(struct shfl_seat *seat, bool choice);
uint8_t __wrap_shfl_seat_step(struct shfl_seat *seat, bool choice);

static void more(uint64_t *count) { __atomic_fetch_add(count, 1, __ATOMIC_RELAXED); }

/* The round of this thread is over. */
static void end_round(void) {
    if (now.answers > 0) more(&rounds);
    if (now.answers > 1) more(&tell);
    if (now.answers > 1 && now.seen == YES) more(&said_yes);
    if (now.seen == (YES | NO)) more(&differ);
    now.answers = now.seen = 0;
}

uint8_t __wrap_shfl_seat_step(struct shfl_seat *seat, bool choice) {
    struct shfl_ask ask = shfl_seat_ask(seat);
    if (ask.kind == SHFL_ASK_SHOULD) {
        now.answers++;
        now.seen |= choice ? YES : NO;
    }
    uint8_t came = __real_shfl_seat_step(seat, choice);
    if (came == SHFL_ENDED_ROUND || came == SHFL_RESTS || ask.kind == SHFL_ASK_SKIP) end_round();
    return came;
}

__attribute__((destructor)) static void say(void) {
    unsigned changed = 0;
    for (uint32_t k = 0; k < shfl_process.thread_count; k++)
        changed += shfl_process.threads[k].unusual != 0 || shfl_process.threads[k].known != shfl_process.threads[k].counts;
    printf("rounds %llu tell %llu yes %llu differ %llu changed %u\n", (unsigned long long)rounds, (unsigned long long)tell,
           (unsigned long long)said_yes, (unsigned long long)differ, changed);
}
