/* Where the threads of a lock sleep, and who wakes them. Nothing in here decides who holds the lock: a word of it that is wrong costs
 * time, never exclusion. Included by shfl.h.
 *
 * A thread sleeps in one of three places. Who queues and waits for its turn sleeps at the place of its pass, and is woken by whoever's
 * step makes it ready, or groups it. The queue's head sleeps at one place of the lock, and is woken by whoever frees the lock. Who
 * doesn't queue yet sleeps outside, in the order of coming (shfl_trying.h).
 */
#ifndef SHFL_PARKING_H
#define SHFL_PARKING_H
#include <errno.h>
#include <stdlib.h>
#include <string.h>
#include "shfl_futex.h"

#ifdef __cplusplus
extern "C" {
#endif

/* The memory of a parking is C's own, beside that of the library. */
#ifndef SHFL_ALLOCATE
#define SHFL_ALLOCATE(size) malloc(size)
#define SHFL_FREE(at) free(at)
#endif

/* 1 while the thread of a pass sleeps or is about to, else 0; and shfl_ahead.h. Each is on a cache line of its own. */
struct shfl_place { uint32_t asleep, behind, late, unused[13]; };

/* All of it is read and written atomically. What each unlock reads stands in the first 16 bytes. */
struct shfl_parking {
    uint32_t head_asleep; /* as in a place, of the queue's head */
    uint32_t outside; /* how many sleep outside */
    uint32_t inside; /* how many wait otherwise, while somebody sleeps outside; those who queue always count */
    uint32_t holds; /* how many there were while somebody slept outside */
    uint64_t woken_at; /* when one outside was last woken */
    uint64_t promoted_at; /* when one was woken to queue */
    uint32_t promoted; /* 1 from then until that one knows */
    uint32_t apart; /* the next one is, in nanoseconds */
    uint32_t wakeups; /* changes with each wakeup outside */
    uint32_t queued; /* how many queue */
    uint32_t open; /* how many passes are */
    uint32_t joined, turn_at, turn_apart; /* shfl_ahead.h */
};

static inline struct shfl_place *shfl_place_of(struct shfl_parking *parking, uint32_t whom) {
    return (struct shfl_place *)(parking + 1) + whom;
}

/* Whether what the library's proof takes for granted of an opening holds: the numbers are in their ranges, and no pass is open. */
static inline bool shfl_may_open(const uint64_t *attrs, size_t count, uint8_t form, uint16_t limit, const struct shfl_pass *passes,
                                 size_t same_count) {
    if (!attrs || !passes || count < 1 || count > 65535 || same_count != count || form > SHFL_RW_PARK || limit < 1 || limit > 1024) return false;
    for (size_t k = 0; k < count; k++)
        if (passes[k].at) return false;
    return true;
}

/* shfl_open with a parking for the lock. The library writes its handles side by side, and C has more in each pass, so they are moved
 * to their places from the last to the first. */
static inline bool shfl_open_parking(const uint64_t *attrs, size_t count, uint8_t form, uint16_t limit, struct shfl_pass *passes,
                                     size_t same_count) {
    if (!shfl_may_open(attrs, count, form, limit, passes, same_count)) {
        errno = EINVAL;
        return false;
    }
    size_t size = sizeof(struct shfl_parking) + count * sizeof(struct shfl_place);
    struct shfl_parking *parking = (struct shfl_parking *)SHFL_ALLOCATE(size);
    if (!parking || !shfl_open(attrs, count, form, limit, passes, same_count)) {
        if (parking) SHFL_FREE(parking);
        errno = ENOMEM;
        return false;
    }
    memset(parking, 0, size);
    parking->open = (uint32_t)count;
    for (size_t k = count; k-- > 0;) {
        struct shfl_pass pass;
        memset(&pass, 0, sizeof pass);
        memcpy(&pass.at, (char *)passes + k * sizeof pass.at, sizeof pass.at);
        pass.parking = parking;
        pass.me = (uint32_t)k;
        passes[k] = pass;
    }
    return true;
}

/* shfl_close, which frees the parking with the last pass of the lock. The pass is zero afterwards. */
static inline void shfl_close_parking(struct shfl_pass *pass) {
    struct shfl_parking *parking = pass->parking;
    shfl_close(pass);
    memset(pass, 0, sizeof *pass);
    if (__atomic_sub_fetch(&parking->open, 1, __ATOMIC_SEQ_CST) == 0) SHFL_FREE(parking);
}

/* When a pass queues: shfl_queue_when. */
enum shfl_when { SHFL_BY_POLICY, SHFL_QUEUE, SHFL_TRY };

/* Chooses whether a pass queues at once (SHFL_QUEUE: one attempt, then the queue), after at most so many attempts (SHFL_TRY), or at
 * once where a policy is attached, and else after at most so many attempts (SHFL_BY_POLICY, as it is when it is opened). No attempts
 * stand for SHFL_TRIES. The pass is idle. */
static inline void shfl_queue_when(struct shfl_pass *pass, enum shfl_when when, uint32_t tries) {
    pass->when = (uint8_t)when;
    pass->tries = tries;
    pass->queues = when == SHFL_QUEUE || (when == SHFL_BY_POLICY && pass->attached);
}

/* shfl_attach, which remembers whether there is a program. A profile that isn't there, and bytes that aren't, are SHFL_FAULT_ARGUMENT. */
static inline struct shfl_verdict shfl_attach_parking(struct shfl_pass *pass, uint8_t profile, const uint8_t *should,
                                                      size_t should_length, const uint8_t *skip, size_t skip_length) {
    static const uint8_t none = 0;
    struct shfl_verdict verdict = {0, SHFL_FAULT_ARGUMENT, 0, 0};
    if (profile < 1 || profile > 2 || (!should && should_length) || (!skip && skip_length)) return verdict;
    verdict = shfl_attach(pass, profile, should ? should : &none, should_length, skip ? skip : &none, skip_length);
    if (verdict.fault == 0) {
        pass->attached = should_length + skip_length > 0;
        shfl_queue_when(pass, (enum shfl_when)pass->when, pass->tries);
    }
    return verdict;
}

/* Wakes who sleeps at a place, or is about to: whether there was one. It looks before it writes, so that a place where nobody sleeps stays in the caches of all. */
static inline bool shfl_ring(uint32_t *asleep) {
    if (shfl_load(asleep) == 0 || __atomic_exchange_n(asleep, 0, __ATOMIC_SEQ_CST) == 0) return false;
    shfl_futex_wake(asleep);
    return true;
}

/* From here on C's calls of these names go through the parking. */
#define shfl_open shfl_open_parking
#define shfl_close shfl_close_parking
#define shfl_attach shfl_attach_parking

#ifdef __cplusplus
}
#endif
#endif
