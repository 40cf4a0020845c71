/* The lock on shared words, for programs in C. Build and link as docs/C.md says.
 *
 * Proved is what the functions of the library do: each step is one row of the lock's machine, one atomic operation on one word,
 * whoever makes it and whenever, so at most one writer holds the lock, and none beside readers. The inline functions of the headers
 * drive the steps, wait, sleep and wake. They are not proved, and mutual exclusion does not rest on them: it rests on C entering its
 * section only where shfl_held says yes and the pass owes no step, and on C calling with one pass in one call at a time.
 *
 * A pass may move to another thread over a lock, a thread's start or join, or a seq_cst atomic.
 */
#ifndef SHFL_H
#define SHFL_H
#include <sched.h>
#include <stdbool.h>
#include <stddef.h>
#include <stdint.h>

#ifdef __cplusplus
extern "C" {
#endif

#ifndef SHFL_VERSION
#define SHFL_VERSION 100 /* 1.0 */
#endif

struct shfl_parking;

/* A pass of a lock, or zero. C zeroes it before shfl_open, and reads and writes none of it; it may move an idle one, never copy it. */
struct shfl_pass {
    void *at; /* null, or what the library owns */
    struct shfl_parking *parking; /* where the threads of the lock sleep (shfl_parking.h) */
    uint32_t me; /* its number in the lock */
    uint32_t tries; /* see shfl_queue_when; 0 stands for SHFL_TRIES */
    uint8_t when, attached, queues, aside;
    uint32_t successor, shuffler, ahead; /* see shfl_ahead.h */
    uint32_t unused[14]; /* each call writes at: so no line of the caches has the passes of two threads, wherever an array of them lies */
};

enum shfl_form { SHFL_SPIN, SHFL_RW, SHFL_PARK, SHFL_RW_PARK };

enum shfl_asked { SHFL_ASK_NOTHING, SHFL_ASK_SKIP, SHFL_ASK_SHOULD };
enum shfl_watched { SHFL_WATCH_NOBODY, SHFL_WATCH_OWN_TURN, SHFL_WATCH_GROUPED, SHFL_WATCH_READY };

/* What the next step asks: nothing, whether to skip the round, or whether the waiter joins the batch. The waiter is told by its
 * attributes, as shfl_attr packs them. */
struct shfl_ask { uint64_t waiter; uint16_t batch; uint8_t kind; };

/* Whom the next step may wake: nobody; nobody, but this pass looks whether it is its turn; the pass whom, which is grouped, or whose turn it
 * is. */
struct shfl_watch { uint32_t whom; uint8_t kind; };

/* As libshfl.h has them, for programs that include both. */
#ifndef SHFL_HAS_FAULTS
#define SHFL_HAS_FAULTS
enum shfl_profile { SHFL_PROFILE_BASE = 1, SHFL_PROFILE_EXTENDED = 2 };
enum shfl_hook { SHFL_HOOK_SHOULD, SHFL_HOOK_SKIP };
enum shfl_fault_code {
    SHFL_FAULT_NONE,
    SHFL_FAULT_EMPTY,
    SHFL_FAULT_LENGTH, /* no multiple of 8 bytes */
    SHFL_FAULT_TOO_LONG, /* more than 4,096 bytes */
    SHFL_FAULT_OPCODE, /* the profile doesn't have it */
    SHFL_FAULT_REGISTER, /* above 9 */
    SHFL_FAULT_FIELD, /* one that must be 0 */
    SHFL_FAULT_HALF, /* of a wide load, at the end or as a jump's target */
    SHFL_FAULT_JUMP, /* it doesn't lead forward */
    SHFL_FAULT_LEAVES, /* a way leads out of the program */
    SHFL_FAULT_NO_VALUE, /* a register is read that has none on some way */
    SHFL_FAULT_POINTER, /* the context's is used as a number */
    SHFL_FAULT_LOAD, /* outside the context, not aligned, or from a number */
    SHFL_FAULT_NO_MEMORY = 255
};
#endif
enum { SHFL_FAULT_ARGUMENT = 254 }; /* no such profile, or bytes at null */

/* Why a policy isn't attached: the first fault of the first bad program, at a slot, and of the two about values of a register there. */
struct shfl_verdict { uint32_t slot; uint8_t fault, hook, reg; };

/* What came of a step. A loop may pause after the last three, and after no other. */
enum shfl_outcome {
    SHFL_RESTS, /* there was no step to make */
    SHFL_WENT_ON,
    SHFL_IN_VAIN, /* the pass stands as it stood, and looks at the same word again */
    SHFL_IN_VAIN_OPEN, /* the same at the queue's head, where stealing is enabled: shfl_disable_stealing, then a pause */
    SHFL_GROUPED_NOBODY /* a round ended that moved nobody */
};

/* count is 1 to 65535 and the same twice, form below 4, limit 1 to 1024, each handle zero. False: it isn't so (errno is EINVAL), or there is no memory
 * (ENOMEM), and each handle is as it was. These three are calls of the library that the headers stand before: shfl_parking.h. */
bool shfl_open(const uint64_t *attrs, size_t count, uint8_t form, uint16_t limit, struct shfl_pass *passes, size_t same_count);
void shfl_close(struct shfl_pass *pass); /* the last one of a lock frees it; one that isn't idle leaves the others waiting for good */
/* profile is one of the two; no bytes are no program, and then the pointer may be null. It takes memory. */
struct shfl_verdict shfl_attach(struct shfl_pass *pass, uint8_t profile, const uint8_t *should, size_t should_length,
                                const uint8_t *skip, size_t skip_length);

/* Every call below wants a pass that is open. */
bool shfl_enter(struct shfl_pass *pass); /* an idle pass; true: it holds the lock and owes no step */
bool shfl_leave(struct shfl_pass *pass); /* a pass that holds and owes no step; true: steps are left */
bool shfl_acquire(struct shfl_pass *pass); /* false: it isn't idle */
bool shfl_acquire_shared(struct shfl_pass *pass); /* SHFL_RW and SHFL_RW_PARK alone */
bool shfl_attempt(struct shfl_pass *pass); /* true: it holds the lock; false: it is as it was */
bool shfl_attempt_shared(struct shfl_pass *pass); /* the same as a reader; SHFL_RW and SHFL_RW_PARK alone */
bool shfl_release(struct shfl_pass *pass); /* false: it doesn't hold, or owes a step */
bool shfl_step(struct shfl_pass *pass, bool choice); /* false: it had no step to make */
uint8_t shfl_advance(struct shfl_pass *pass, bool choice); /* the same step, and an outcome */
bool shfl_disable_stealing(struct shfl_pass *pass); /* false, and nothing changes, where it doesn't wait at the queue's head */
bool shfl_held(struct shfl_pass *pass);
bool shfl_moving(struct shfl_pass *pass);
struct shfl_ask shfl_ask(struct shfl_pass *pass);
struct shfl_watch shfl_watch(struct shfl_pass *pass);
bool shfl_answer(struct shfl_pass *pass); /* of the attached policy to what the next step asks */

static inline uint64_t shfl_attr(uint16_t socket, uint16_t prio, uint16_t class_, uint16_t kind) {
    return socket | (uint64_t)prio << 16 | (uint64_t)class_ << 32 | (uint64_t)kind << 48;
}

#ifdef __cplusplus
}
#endif

#include "shfl_parking.h"
#include "shfl_locking.h"
#include "shfl_yielding.h"
#endif
