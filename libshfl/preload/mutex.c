/* Mutexes: glibc's kinds over the library's. What the library proves of a mutex holds of these: one thread has it. Not proved is what stands
 * here: which mutexes are libc's, how often a recursive one was taken, and what a kind answers.
 *
 * The kind stands where glibc has it, so its initialisers and pthread_mutex_init serve as they are. The number is in the links by which
 * glibc lists robust mutexes, which are libc's. Of a recursive mutex the owner is its thread's seat, by its number, which a fork keeps; a
 * thread that doesn't have the mutex may read anything there but itself. */
#include "inside.h"

#define ROBUST 16
#define INHERITS 32
#define PROTECTS 64
#define PROCESS_SHARED 128
#define TYPES 3

static uint32_t *word_of(pthread_mutex_t *m) { return (uint32_t *)&m->__data.__list; }
static int type_of(pthread_mutex_t *m) { return m->__data.__kind & TYPES; }
static bool is_recursive(pthread_mutex_t *m) { return type_of(m) == PTHREAD_MUTEX_RECURSIVE_NP; }
static bool is_other_kind(pthread_mutex_t *m) { return m->__data.__kind & (ROBUST | INHERITS | PROTECTS | PROCESS_SHARED); }

/* Neither of another kind, nor recursive, nor error-checking: of the types 0 and 3, normal and adaptive, 1 and 2 are these. */
static inline bool is_plain(pthread_mutex_t *m) {
    int kind = m->__data.__kind;
    return (((kind + 1) & 2) | (kind & (ROBUST | INHERITS | PROTECTS | PROCESS_SHARED))) == 0;
}

static inline bool is_ours(pthread_mutex_t *m) { return SHFL_LIKELY(!is_other_kind(m)) && shfl_is_ours(word_of(m)); }

bool shfl_is_libcs_mutex(pthread_mutex_t *m) { return !is_ours(m); }

static int owner_of(pthread_mutex_t *m) { return __atomic_load_n(&m->__data.__owner, __ATOMIC_RELAXED); }
static void set_owner(pthread_mutex_t *m, int owner) { __atomic_store_n(&m->__data.__owner, owner, __ATOMIC_RELAXED); }
static int self(void) { return (int)shfl_me->number + 1; }

/* What a call that took the mutex answers; then a recursive one knows its thread. */
static int taken(pthread_mutex_t *m, int error) {
    if (!error && is_recursive(m)) set_owner(m, self());
    return error;
}

/* Whether this thread has the recursive mutex already. Then it has it once more, unless that is too often. */
static bool takes_again(pthread_mutex_t *m, int *error) {
    if (!is_recursive(m) || owner_of(m) != self()) return false;
    *error = m->__data.__count == UINT32_MAX ? EAGAIN : 0;
    if (!*error) m->__data.__count++;
    return true;
}

/* A thread that takes a normal mutex that it has waits for good, as in libc; where it named a deadline, until then. */
static SHFL_COLD int wait_for_itself(clockid_t clock, const struct timespec *deadline) {
    static uint32_t never;
    int flags = FUTEX_WAIT_BITSET | FUTEX_PRIVATE_FLAG | (clock == CLOCK_REALTIME ? FUTEX_CLOCK_REALTIME : 0);
    int before = errno;
    for (;;) {
        bool over = deadline && deadline->tv_sec < 0;
        if (!over) over = syscall(SYS_futex, &never, flags, 0, deadline, NULL, FUTEX_BITSET_MATCH_ANY) != 0 && errno == ETIMEDOUT;
        if (!over) continue;
        errno = before;
        return ETIMEDOUT;
    }
}

static SHFL_COLD int not_at_once(pthread_mutex_t *m, int error, const void *caller) {
    if (error == EDEADLK && type_of(m) != PTHREAD_MUTEX_ERRORCHECK_NP) return wait_for_itself(CLOCK_MONOTONIC, NULL);
    return taken(m, shfl_take_at_last(word_of(m), false, error, caller));
}

/* One that isn't plain, and a plain one at its first use. */
static __attribute__((noinline)) int lock_other(pthread_mutex_t *m, const void *caller) {
    int error;
    if (!is_ours(m)) return shfl_libc()->mutex_lock(m);
    if (takes_again(m, &error)) return error;
    error = shfl_take(word_of(m), false);
    return SHFL_LIKELY(!error) ? taken(m, 0) : not_at_once(m, error, caller);
}

/* A plain one that is the library's is what most calls take. */
int pthread_mutex_lock(pthread_mutex_t *m) {
    if (!SHFL_LIKELY(is_plain(m) && shfl_has_number(word_of(m)))) return lock_other(m, __builtin_return_address(0));
    int error = shfl_take(word_of(m), false);
    return SHFL_LIKELY(!error) ? 0 : not_at_once(m, error, __builtin_return_address(0));
}

int shfl_lock_again(pthread_mutex_t *m, const void *caller) { return lock_other(m, caller); }

int pthread_mutex_trylock(pthread_mutex_t *m) {
    int error;
    if (!is_ours(m)) return shfl_libc()->mutex_trylock(m);
    if (takes_again(m, &error)) return error;
    error = shfl_try(word_of(m), false);
    return taken(m, error == ENOMEM ? EBUSY : error);
}

int pthread_mutex_clocklock(pthread_mutex_t *m, clockid_t clock, const struct timespec *deadline) {
    int error;
    if (!is_ours(m)) return shfl_libc()->mutex_clocklock(m, clock, deadline);
    if (!shfl_is_clock(clock)) return EINVAL;
    if (takes_again(m, &error)) return error;
    error = shfl_take_until_at_last(word_of(m), false, clock, deadline, __builtin_return_address(0));
    if (error == EDEADLK && type_of(m) != PTHREAD_MUTEX_ERRORCHECK_NP)
        return shfl_is_time(deadline) ? wait_for_itself(clock, deadline) : EINVAL;
    return taken(m, error);
}

int pthread_mutex_timedlock(pthread_mutex_t *m, const struct timespec *deadline) {
    if (!is_ours(m)) return shfl_libc()->mutex_timedlock(m, deadline);
    return pthread_mutex_clocklock(m, CLOCK_REALTIME, deadline);
}

/* Gives back what this thread took last. Only who has the mutex reads itself in its owner. */
static int give_back(pthread_mutex_t *m) {
    if (!is_recursive(m)) return shfl_give_back(word_of(m));
    if (!shfl_me || owner_of(m) != self()) return EPERM;
    if (m->__data.__count > 0) {
        m->__data.__count--;
        return 0;
    }
    set_owner(m, 0);
    return shfl_give_back(word_of(m));
}

static __attribute__((noinline)) int unlock_other(pthread_mutex_t *m) {
    bool libcs = is_other_kind(m) || __atomic_load_n(word_of(m), __ATOMIC_ACQUIRE) == SHFL_LIBC;
    return libcs ? shfl_libc()->mutex_unlock(m) : give_back(m);
}

/* One that is libc's is refused by the library, as any that this thread doesn't have. */
int pthread_mutex_unlock(pthread_mutex_t *m) {
    if (!SHFL_LIKELY(is_plain(m))) return unlock_other(m);
    int error = shfl_give_back(word_of(m));
    return SHFL_LIKELY(!error) ? 0 : unlock_other(m);
}

/* As with libc's, a destroyed mutex is of no kind, and then each call answers EINVAL. */
int pthread_mutex_destroy(pthread_mutex_t *m) {
    if (is_other_kind(m)) return shfl_libc()->mutex_destroy(m);
    if (__atomic_load_n(word_of(m), __ATOMIC_ACQUIRE) != 0) {
        if (!is_ours(m)) return shfl_libc()->mutex_destroy(m);
        int error = shfl_end(word_of(m));
        if (error) return error;
    }
    m->__data.__kind = -1;
    return 0;
}

/* The names under which glibc's own libraries called them, and some programs of their time still do. */
ALSO(pthread_mutex_lock);
ALSO(pthread_mutex_trylock);
ALSO(pthread_mutex_unlock);
ALSO(pthread_mutex_destroy);
