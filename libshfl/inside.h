/* What the files of the library share: the process's arenas, its threads, and where they sleep. Nothing of it is proved: what is, seats.h declares. */
#ifndef SHFL_INSIDE_H
#define SHFL_INSIDE_H
#include <errno.h>
#include "futex.h"
#include "include/libshfl.h"
#pragma GCC visibility push(hidden) /* found without a table of addresses */
#include "seats.h"

#define SHFL_LOCKS_USUAL 65536
#define SHFL_LOCKS_MOST (1u << 24) /* of all arenas */
#define SHFL_ARENAS_USUAL 16
#define SHFL_ARENAS_MOST 256
#define SHFL_THREADS_USUAL 4096
#define SHFL_LIMIT_USUAL 1024
#define SHFL_LIMIT_MOST 1024
#define SHFL_MOST_THREADS (65535 - SHFL_CLASSES - 1)

#define SHFL_COLD __attribute__((noinline, cold))
#define SHFL_LIKELY(x) __builtin_expect(!!(x), 1)
#define SHFL_IN_LINE static inline __attribute__((always_inline))

/* A heap of the library's own waits while the process forks; malloc does so by itself. What the environment can't ask for is an error of each call, which a program
 * that knows pthread alone isn't told: there it is said. */
#ifndef SHFL_HEAP_H
static inline void shfl_heap_stop(void) {}
static inline void shfl_heap_go_on(void) {}
static inline void shfl_out_of_range(const char *name, const char *text, uint32_t most) { (void)name, (void)text, (void)most; }
static inline void shfl_no_such_form(const char *text) { (void)text; }
#endif

/* A lock for C's own lists, over a futex: 0 free, 1 held, 2 held and somebody sleeps. */
typedef uint32_t shfl_guard;
void shfl_guard_lock(shfl_guard *guard);
void shfl_guard_unlock(shfl_guard *guard);

/* Where the threads of a lock sleep. It decides nothing about who holds the lock: a word of it that is wrong costs time. It is all
 * zero while nobody waits, but for what was counted. Who has given the lock back may write here still when the next holder has destroyed it,
 * and its number is free or another lock's. What each unlock reads stands first. */
struct shfl_parking {
    union { /* 1 while the queue's head sleeps or is about to; how many sleep outside the queue, or are about to; both */
        struct { uint32_t head_asleep, outside; };
        uint64_t sleepers;
    };
    uint32_t inside; /* how many wait otherwise, while somebody sleeps outside; those who queue always count */
    uint32_t queued; /* how many queue */
    uint32_t wakeups; /* changes with each wakeup outside */
    uint32_t promoted; /* 1 from the wakeup of one that is to queue until that one knows */
    uint32_t holds; /* that passed those outside */
    uint32_t last; /* the mark of the thread that took it last alone, or 0 */
    uint64_t taken, within, across; /* how often it was taken alone, and handed over so, by socket; who has it so writes these */
    uint32_t generation, class_of; /* which lock has the number: changes where it comes back; its class */
};

_Static_assert(sizeof(struct shfl_parking) == 64, "a cache line");

/* What a thread counted at a lock: written by the thread alone, read by all. */
struct shfl_counted {
    uint64_t tag; /* the lock's generation and its number plus one, or 0 */
    uint64_t class_of; /* as it was when the thread came to it */
    struct shfl_stat counts;
};

/* How many locks a thread counts at a time. Where it comes to another one in a place, it adds what stands there to the lock's own. */
enum { SHFL_COUNTED_BITS = 8, SHFL_COUNTED = 1 << SHFL_COUNTED_BITS };

/* How long calls waited, by powers of two: the k-th place has those of less than 2^(10 + k) nanoseconds, the last one all longer ones too.
 * Written by who has waited alone. */
#define SHFL_WAITS 31
struct shfl_waits {
    const void *caller; /* of a lock: where the call is that found it taken first */
    uint64_t of[SHFL_WAITS];
};

/* What threads have given over to a lock, and where that is; and what is seldom needed, apart from the line that each lock and unlock reads. */
struct shfl_total {
    struct shfl_stat counts;
    const void *address; /* null where the number is free */
    uint32_t moves; /* odd while a thread gives over */
    uint32_t stale; /* 1 where the thread that forked has it, in the child */
    uint32_t next_free; /* of a number that is free: the one that came back before it, plus one */
    uint32_t readers; /* of those that sleep outside */
    uint64_t woken_at, promoted_at; /* when one outside was last woken, and to queue */
};

/* A read lock that a thread took again. */
struct shfl_again { uint32_t lock, times; };

/* In the child of a fork, of the thread that forked and had locks; of all threads, while a lock is recorded; of one that took a lock again; that ends; that forks. */
enum { SHFL_IS_STALE = 1, SHFL_IS_WATCHED = 2, SHFL_HAS_AGAIN = 4, SHFL_IS_ENDING = 8, SHFL_IS_FORKING = 16 };

/* A thread's mark: its seat's number plus one, a bit while a lock is recorded, which no lock's last has, which of 32 threads in turn has that seat, and its socket. */
enum { SHFL_MARK_NUMBER = 16, SHFL_MARK_WATCHED = 0x8000, SHFL_MARK_TURN = 10, SHFL_MARK_TURNS = 32, SHFL_MARK_SOCKETS = 1 << SHFL_MARK_TURN };

/* A thread, or a place for one. What each lock and unlock reads stands first; the last line is written by those who wake it, too. */
struct shfl_thread {
    struct shfl_seat seat;
    struct shfl_counted *known; /* where it looks first when it took a lock as a reader: its counts, or none while a lock is recorded */
    uint32_t mark;
    uint32_t holding; /* how many locks it has, or is about to take */
    uint32_t unusual, number; /* bits: why it looks twice when it gives a lock back; its number */
    uint32_t *giving; /* the lock that it gives back */
    struct shfl_counted *counts;
    struct shfl_again *again;
    uint32_t again_room, again_count;
    uint32_t follows, version; /* the class whose policy a seat of it follows, plus one; and which version of it */
    struct shfl_seat *follower; /* that seat */
    uint32_t in_round; /* the class whose policy answers its round, plus one */
    uint32_t held_room;
    const void **held; /* where its locks are: in the checked build alone */
    struct shfl_thread *next_free;
    const void *caller; /* in the preload library: where the call comes from that waits, or null */
    uint64_t attr; /* its attributes, as its seat in the first arena has them */
    uint32_t tid; /* the system's number; 0: it has none, or isn't in this process */
    uint8_t aside; /* it lets others go first, once */
    uint8_t turn; /* changes with each thread that has the seat */
    uint32_t asleep __attribute__((aligned(128))); /* 1 while it sleeps in the queue, or is about to */
};

/* A thread's seat in an arena behind the first one, on a line of its own. */
struct shfl_desk { struct shfl_seat seat; } __attribute__((aligned(64)));

/* One instruction more than a program may have: that it is too long is said by the verifier. */
#define SHFL_PROGRAM_MOST 4104

/* The bytes of a policy, in one block: those of `should`, and behind them those of `skip`. */
struct shfl_programs {
    uint8_t *bytes;
    uint16_t should, skip;
    uint8_t profile;
};

/* A class of locks. Its seat takes no lock: it has the policy, which the threads' seats share. */
struct shfl_class {
    shfl_guard guard;
    uint32_t version; /* changes with each policy */
    uint32_t attached; /* whether there is one */
    struct shfl_seat seat;
    struct shfl_programs programs; /* what was attached */
} __attribute__((aligned(64)));

struct shfl_process {
    struct shfl_thread *threads;
    struct shfl_parking *parkings;
    struct shfl_counted *counts;
    struct shfl_total *totals;
    uint32_t unheard; /* 1 where nobody can read how often locks were taken: then that isn't counted */
    uint32_t threads_seen; /* no thread with this number or a higher one was ever there */
    struct shfl_class classes[SHFL_CLASSES];
    struct shfl_waits *waits, *lock_waits; /* beside counts, and beside totals */
    struct shfl_stat ended[SHFL_CLASSES]; /* what was counted of locks that aren't any more */
    struct shfl_waits ended_waits[SHFL_CLASSES];
    shfl_guard moving[SHFL_COUNTED]; /* of totals, by the lock's number */
    shfl_guard ending; /* of `ended`; taken after another */
    shfl_guard is_loading;
    struct shfl_seat loading; /* where a policy is judged before its class has it */
    struct shfl_desk *desks[SHFL_ARENAS_MOST]; /* of each arena but the first, by threads' numbers */
    uint32_t lock_count, thread_count; /* of locks as many as the arenas have that are open */
    uint32_t arena_locks, arena_count, arena_most; /* how many locks an arena has; how many are open, and may be */
    uint16_t limit; /* of a batch */
    uint8_t form;
};

extern struct shfl_process shfl_process;
extern __thread struct shfl_thread *shfl_me __attribute__((tls_model("initial-exec")));

/* What the process does where a thread ends, and where it forks; that, and its arena. */
int shfl_begin_process(void);
int shfl_open_process(void);
bool shfl_set_attr(struct shfl_thread *me, uint16_t prio, uint16_t class_of, uint16_t kind);

/* This thread with its seat. Null where it can't have one, and then `error` says why. */
struct shfl_thread *shfl_take_seat(int *error);
static inline struct shfl_thread *shfl_self(int *error) {
    struct shfl_thread *me = shfl_me;
    return SHFL_LIKELY(me != NULL) ? me : shfl_take_seat(error);
}

/* The lock's number in the arena. Its class is taken over at the first use. */
int shfl_give_number(uint32_t *word, uint32_t class_of, uint32_t *lock);
void shfl_take_number_back(uint32_t lock);
void shfl_leave_number(uint32_t lock);
static inline int shfl_number(uint32_t *word, uint32_t class_of, uint32_t *lock) {
    uint32_t number = __atomic_load_n(word, __ATOMIC_ACQUIRE);
    if (!SHFL_LIKELY(number != 0)) return shfl_give_number(word, class_of, lock);
    *lock = number - 1;
    return 0;
}

/* The class stands behind the number; in a pthread object what stands there is libc's, and the class is 0. */
static inline uint32_t shfl_class_behind(const uint32_t *word) {
#ifdef SHFL_HEAP_H
    (void)word;
    return 0;
#else
    return word[1];
#endif
}

static inline struct shfl_parking *shfl_parking_of(uint32_t lock) { return &shfl_process.parkings[lock]; }
static inline struct shfl_total *shfl_total_of(const struct shfl_parking *parking) { return &shfl_process.totals[parking - shfl_process.parkings]; }
static inline uint32_t shfl_mark_of(struct shfl_thread *me) { return __atomic_load_n(&me->mark, __ATOMIC_RELAXED) & ~(uint32_t)SHFL_MARK_WATCHED; }
static inline struct shfl_class *shfl_class_at(uint32_t class_of) { return &shfl_process.classes[class_of % SHFL_CLASSES]; }

/* The k-th number that was given, and how many were. */
uint32_t shfl_number_at(uint32_t k);
uint32_t shfl_numbers_given(void);
int shfl_put_into(uint32_t lock, const void *address, uint32_t class_of);

/* counts.c */
struct shfl_stat *shfl_count_anew(struct shfl_counted *at, uint32_t lock, uint64_t tag);
void shfl_count_hand_over(struct shfl_parking *parking, uint32_t mark);
void shfl_count_waited(struct shfl_thread *me, uint32_t lock, uint64_t since);
void shfl_count_end(uint32_t lock);
void shfl_sum_lock(uint32_t lock, struct shfl_stat *out, struct shfl_waits *waits);
void shfl_sum_class(uint32_t class_of, struct shfl_class_stat *out, struct shfl_waits *waits);

/* room.c: what the environment asks for, false where that can't be; the memory beside the arenas, and what so many arenas, and threads, have of it. */
bool shfl_asked_for(struct shfl_process *all);
bool shfl_make_room(struct shfl_process *all);
bool shfl_open_room(struct shfl_process *all, uint32_t arenas);
bool shfl_open_counts(struct shfl_process *all, uint32_t threads);
void shfl_free_room(struct shfl_process *all);

/* Where the program called from. In the preload library its own calls stand between: `shfl_take` answers EBUSY where it would have to wait
 * and doesn't know that, and is called again by who says so (preload/numbers.c). A lock that is free costs nothing for that. */
#ifdef SHFL_HEAP_H
#define SHFL_CALLER(me) ((me)->caller)
#else
#define SHFL_CALLER(me) __builtin_return_address(0)
#endif

/* record.c: what happens at the lock that is recorded, if one is. A call that finds a lock free asks nothing for that: while a lock is recorded no
 * thread finds its counts at once, and each looks twice, so all come to where they are asked. */
enum shfl_event { SHFL_WAITS_ALONE = 'w', SHFL_WAITS_SHARED = 'r', SHFL_GIVES_UP = 'u', SHFL_QUEUES = 'q', SHFL_TAKES_ALONE = 'W',
                  SHFL_TAKES_SHARED = 'R', SHFL_FREES = 'f', SHFL_ASKS_SKIP = 'k', SHFL_ASKS_SHOULD = 's', SHFL_YES_SKIP = 'K', SHFL_YES_SHOULD = 'S' };
void shfl_record(struct shfl_thread *me, uint32_t lock, enum shfl_event event, uint64_t about);
void shfl_record_end(uint32_t lock); /* it isn't any more */
static inline void shfl_happens(struct shfl_thread *me, uint32_t lock, enum shfl_event event) {
    if (__atomic_load_n(&me->unusual, __ATOMIC_RELAXED) & SHFL_IS_WATCHED) shfl_record(me, lock, event, 0);
}

/* A look at a word, and a count of a thread's own, in one instruction: of an atomic access the compiler makes two or three, and those of a free lock are waited for. */
#if defined(__x86_64__)
SHFL_IN_LINE bool shfl_is_zero(const uint32_t *word) {
    bool is;
    __asm__ volatile("cmpl $0, %1" : "=@cce"(is) : "m"(*word));
    return is;
}
SHFL_IN_LINE bool shfl_both_are_zero(const uint64_t *words) {
    bool are;
    __asm__ volatile("cmpq $0, %1" : "=@cce"(are) : "m"(*words) : "memory");
    return are;
}
SHFL_IN_LINE bool shfl_is_same(const uint32_t *word, uint32_t as) {
    bool is;
    __asm__ volatile("cmpl %2, %1" : "=@cce"(is) : "m"(*word), "r"(as));
    return is;
}
SHFL_IN_LINE void shfl_more(uint64_t *count, uint64_t more) { __asm__ volatile("addq %1, %0" : "+m"(*count) : "er"(more)); }
#else
SHFL_IN_LINE bool shfl_is_zero(const uint32_t *word) { return __atomic_load_n(word, __ATOMIC_RELAXED) == 0; }
SHFL_IN_LINE bool shfl_both_are_zero(const uint64_t *words) { return __atomic_load_n(words, __ATOMIC_SEQ_CST) == 0; }
SHFL_IN_LINE bool shfl_is_same(const uint32_t *word, uint32_t as) { return __atomic_load_n(word, __ATOMIC_RELAXED) == as; }
SHFL_IN_LINE void shfl_more(uint64_t *count, uint64_t more) {
    __atomic_store_n(count, __atomic_load_n(count, __ATOMIC_RELAXED) + more, __ATOMIC_RELAXED);
}
#endif

static inline uint64_t shfl_tag(uint32_t lock) {
    return (uint64_t)__atomic_load_n(&shfl_parking_of(lock)->generation, __ATOMIC_RELAXED) << 32 | (lock + 1);
}

static inline uint32_t shfl_counted_at(uint32_t lock) { return (lock + 1) * 2654435761u >> (32 - SHFL_COUNTED_BITS); }

/* Where this thread counts what it does at a lock. */
static inline struct shfl_stat *shfl_counts_of(struct shfl_thread *me, uint32_t lock) {
    struct shfl_counted *at = &me->counts[shfl_counted_at(lock)];
    uint64_t tag = shfl_tag(lock);
    return SHFL_LIKELY(at->tag == tag) ? &at->counts : shfl_count_anew(at, lock, tag);
}

static inline void shfl_count_contended(struct shfl_thread *me, uint32_t lock) { shfl_more(&shfl_counts_of(me, lock)->contended, 1); }

/* waiting.c: takes the lock, which an attempt found taken. */
int shfl_wait(struct shfl_thread *me, uint32_t lock, bool shared);
int shfl_wait_until(struct shfl_thread *me, uint32_t lock, bool shared, clockid_t clock, const struct timespec *deadline);

/* waking.c: what a thread does that gives a lock back; and the wakeup of one outside the queue, or of a reader there, false where nobody slept. */
enum shfl_sleeper { SHFL_WRITER = 1, SHFL_READER = 2 };
void shfl_wake_next(struct shfl_thread *me, struct shfl_parking *parking);
bool shfl_wake_outside(struct shfl_parking *parking);
bool shfl_wake_reader(struct shfl_parking *parking);

/* class.c: what the class's policy answers to what the next step asks. */
bool shfl_answer(struct shfl_thread *me, struct shfl_seat *seat, uint32_t lock, struct shfl_class *its);
int shfl_class_sum(unsigned class_of, struct shfl_class_stat *out, struct shfl_waits *waits);
size_t shfl_class_programs(unsigned class_of, struct shfl_programs *out, uint8_t *room, size_t size); /* how many bytes they have */

/* control.c: begins to listen where the environment asks for it, once a process; and in the child of a fork ends to. Between stop and go_on
 * no descriptor of it comes or goes. */
void shfl_control(void);
void shfl_control_forked(void);
void shfl_control_stop(void);
void shfl_control_go_on(void);

/* checked.c: in the checked build a call that no right program makes ends it, and a thread knows where the locks are that it has. */
int shfl_refuse(int error, const void *lock, const char *what);
void shfl_note_taken(struct shfl_thread *me, const void *lock);
void shfl_note_given(struct shfl_thread *me, const void *lock);
#ifdef SHFL_CHECKED
enum { SHFL_NOTES = 1 };
#else
enum { SHFL_NOTES = 0 };
#endif
/* A lock is about to be taken, isn't taken, or is; is given back. */
static inline void shfl_taking(struct shfl_thread *me) { me->holding++; }
static inline void shfl_not_taken(struct shfl_thread *me) { me->holding--; }
static inline void shfl_took(struct shfl_thread *me, const void *lock) { if (SHFL_NOTES) shfl_note_taken(me, lock); }
static inline void shfl_given(struct shfl_thread *me, const void *lock) { me->holding--; if (SHFL_NOTES) shfl_note_given(me, lock); }
#pragma GCC visibility pop
#endif
