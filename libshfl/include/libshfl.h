/* The proved queue lock as C programs know locks: mutexes, locks for readers and writers, condition variables. docs/LIBSHFL.md tells
 * how to install and link it, what is proved, and what isn't.
 *
 * A lock is 16 bytes and free when they are zero. Nothing has to be opened: the first call of a process opens the arena of its locks, the
 * first call of a thread takes a seat there, which its end gives back. Every call answers as POSIX numbers errors, 0 for done, and
 * changes nothing where it answers an error, but for what is said.
 */
#ifndef LIBSHFL_H
#define LIBSHFL_H
#include <stddef.h>
#include <stdint.h>
#include <sys/types.h> /* clockid_t, under each standard */
#include <time.h>

struct timespec;

#ifdef __cplusplus
extern "C" {
#endif

#ifndef SHFL_VERSION
#define SHFL_VERSION 100 /* 1.0 */
#endif

/* The words are the library's. A lock isn't copied, and stays where it is while it is in use. */
typedef struct shfl_mutex { uint32_t number, class_of, words[2]; } shfl_mutex_t;
typedef struct shfl_rwlock { uint32_t number, class_of, words[2]; } shfl_rwlock_t;
typedef struct shfl_cond { uint32_t signals, waiting, words[2]; } shfl_cond_t;

#define SHFL_MUTEX_INIT {0, 0, {0, 0}}
#define SHFL_RWLOCK_INIT {0, 0, {0, 0}}
#define SHFL_COND_INIT {0, 0, {0, 0}}

/* Classes of locks, 0 to 63; zero bytes are of class 0. */
#define SHFL_CLASSES 64

/* Any call that takes a lock may answer EAGAIN: there are SHFL_ARENAS (16, or what the environment says) times SHFL_LOCKS (65,536) locks in
 * use, or SHFL_THREADS (4,096) threads; ENOMEM; or EINVAL: the environment asks for an arena that can't be. A null
 * pointer to a lock, condition variable, deadline or result is EINVAL too, but for the calls that only take a lock or give it back, which
 * don't look: such a call ends the process. */

int shfl_mutex_init(shfl_mutex_t *mutex, unsigned class_of); /* EINVAL: no such class */
int shfl_mutex_lock(shfl_mutex_t *mutex); /* EDEADLK: this thread has it */
int shfl_mutex_trylock(shfl_mutex_t *mutex); /* EBUSY: somebody has it, or waits for it */
/* Deadlines are by CLOCK_MONOTONIC. A timed call attempts until its deadline, and never queues: others may get ahead of it without
 * bound, and where threads queue without end it gets nothing. ETIMEDOUT; EINVAL: no time; EDEADLK. */
int shfl_mutex_timedlock(shfl_mutex_t *mutex, const struct timespec *deadline);
int shfl_mutex_clocklock(shfl_mutex_t *mutex, clockid_t clock, const struct timespec *deadline); /* CLOCK_MONOTONIC, CLOCK_REALTIME */
int shfl_mutex_unlock(shfl_mutex_t *mutex); /* EPERM: this thread doesn't have it */
int shfl_mutex_destroy(shfl_mutex_t *mutex); /* EBUSY: somebody has it. It is zero afterwards, and may be used again */

/* Several readers, or one writer. A reader may take the lock several times, and gives it back as often; a writer may not. */
int shfl_rwlock_init(shfl_rwlock_t *lock, unsigned class_of);
int shfl_rwlock_rdlock(shfl_rwlock_t *lock); /* EDEADLK: this thread has it as a writer */
int shfl_rwlock_wrlock(shfl_rwlock_t *lock); /* EDEADLK: this thread has it */
int shfl_rwlock_tryrdlock(shfl_rwlock_t *lock); /* EBUSY: a writer has it, or somebody queues */
int shfl_rwlock_trywrlock(shfl_rwlock_t *lock); /* EBUSY */
int shfl_rwlock_timedrdlock(shfl_rwlock_t *lock, const struct timespec *deadline);
int shfl_rwlock_timedwrlock(shfl_rwlock_t *lock, const struct timespec *deadline);
int shfl_rwlock_clockrdlock(shfl_rwlock_t *lock, clockid_t clock, const struct timespec *deadline);
int shfl_rwlock_clockwrlock(shfl_rwlock_t *lock, clockid_t clock, const struct timespec *deadline);
int shfl_rwlock_unlock(shfl_rwlock_t *lock); /* EPERM: this thread doesn't have it */
int shfl_rwlock_destroy(shfl_rwlock_t *lock); /* EBUSY */

/* A waiter may wake without a signal, so it waits in a loop. It gives the mutex back, and has it again when the call returns, whatever
 * the call answers but EPERM: this thread doesn't have the mutex. No call is a point of cancellation. */
int shfl_cond_init(shfl_cond_t *cond);
int shfl_cond_wait(shfl_cond_t *cond, shfl_mutex_t *mutex);
int shfl_cond_timedwait(shfl_cond_t *cond, shfl_mutex_t *mutex, const struct timespec *deadline); /* ETIMEDOUT, EINVAL */
int shfl_cond_clockwait(shfl_cond_t *cond, shfl_mutex_t *mutex, clockid_t clock, const struct timespec *deadline);
int shfl_cond_signal(shfl_cond_t *cond);
int shfl_cond_broadcast(shfl_cond_t *cond);
int shfl_cond_destroy(shfl_cond_t *cond); /* EBUSY: somebody waits who wasn't woken. Those who were may still be about to leave */

/* What policies see of this thread: three numbers of 16 bits, 0 at first. Its socket is the system's, as it stood at this call or at the
 * thread's first. EBUSY: it is called from within a call. */
int shfl_thread_attr(uint16_t prio, uint16_t class_of, uint16_t kind);

/* The profiles of programs, the two that a policy has, and what one may be refused for. */
#ifndef SHFL_HAS_FAULTS
#define SHFL_HAS_FAULTS
enum shfl_profile { SHFL_PROFILE_BASE = 1, SHFL_PROFILE_EXTENDED = 2 };
enum shfl_hook { SHFL_HOOK_SHOULD, SHFL_HOOK_SKIP };
enum shfl_fault_code {
    SHFL_FAULT_NONE,
    SHFL_FAULT_EMPTY,
    SHFL_FAULT_LENGTH, /* no multiple of 8 bytes */
    SHFL_FAULT_TOO_LONG, /* more than 4,096 bytes */
    SHFL_FAULT_OPCODE, /* the profile doesn't have it */
    SHFL_FAULT_REGISTER, /* above 9 */
    SHFL_FAULT_FIELD, /* one that must be 0 */
    SHFL_FAULT_HALF, /* of a wide load, at the end or as a jump's target */
    SHFL_FAULT_JUMP, /* it doesn't lead forward */
    SHFL_FAULT_LEAVES, /* a way leads out of the program */
    SHFL_FAULT_NO_VALUE, /* a register is read that has none on some way */
    SHFL_FAULT_POINTER, /* the context's is used as a number */
    SHFL_FAULT_LOAD, /* outside the context, not aligned, or from a number */
    SHFL_FAULT_NO_MEMORY = 255
};
#endif

/* Why a policy isn't attached: the first fault of the first bad program, at a slot, and of the two about values of a register there. */
struct shfl_fault { uint32_t slot; uint8_t fault, hook, reg; };

/* The policy of a class from now on, in place of the one before, also for threads that wait: the bytes of two programs of a profile,
 * of which either may be null and 0 bytes long, and then answers no. EINVAL: no such class or profile, or a program is refused, and
 * then `fault`, unless null, says for what; ENOMEM. Threads that take a lock of a class with a policy queue after one attempt. */
int shfl_class_policy(unsigned class_of, unsigned profile, const uint8_t *should, size_t should_length, const uint8_t *skip,
                      size_t skip_length, struct shfl_fault *fault);
int shfl_class_detach(unsigned class_of); /* the class has no policy from now on. EINVAL: no such class. It takes no memory */

/* What was counted at a lock since its first use. Each thread counts on cache lines of its own, and the reader adds up: while threads
 * use the lock each number is one that was right between the call's beginning and its end, but they may be of different moments. */
struct shfl_stat {
    uint64_t taken; /* how often a call came to hold it */
    uint64_t contended; /* how often a call found it taken, or others waiting; those that a deadline ended and tries in vain, too */
    uint64_t queued; /* how often a thread queued */
    uint64_t waited_ns, longest_ns; /* by calls that found it taken, but for tries: all together, and the longest */
    /* how often one thread took it alone after another one had: of the same socket, and of another. A thread counts as the one that had its seat 32 threads before */
    uint64_t within, across;
    uint64_t questions, yes; /* to the class's policy, and how many it answered with yes */
    uint64_t skipped; /* rounds that the policy skipped */
};

/* A class: the counts of its locks, those among them that were destroyed in it; how many locks it has; its policy. */
struct shfl_class_stat {
    struct shfl_stat counts;
    uint32_t locks;
    uint32_t version; /* one more with each policy that it was given or that was taken away */
    uint8_t attached; /* 1: it has a policy */
    uint8_t drained; /* 1: no thread is in a round that an older version answers */
};

int shfl_stat(const void *lock, struct shfl_stat *out); /* of a shfl_mutex_t or a shfl_rwlock_t. EINVAL: it is none */
int shfl_class_stat(unsigned class_of, struct shfl_class_stat *out); /* EINVAL: no such class */

#ifdef __cplusplus
}
#endif
#endif
