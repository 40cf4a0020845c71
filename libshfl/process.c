/* The process's first arena: its opening, the seats of threads. Proved is what a seat does; that each thread has one of its own is this file's. */
#include <pthread.h>
#include <stdlib.h>
#include "arenas.h"
#include "locking.h"
#include "process.h"
#include "races.h"

struct shfl_process shfl_process;
__thread struct shfl_thread *shfl_me;
extern __thread struct shfl_thread *shfl_me_again __attribute__((alias("shfl_me")));

/* This thread has begun to end. It may use locks still, and libc may have called its last destructor, so its seat goes back with its last lock. */
static __thread bool ends __attribute__((tls_model("initial-exec")));

shfl_guard shfl_lists;
uint32_t shfl_seated;
pid_t shfl_owner;
static bool is_open;
static struct shfl_thread *free_threads, *lost_threads, *left_threads;
static pthread_key_t at_end;

/* Has the guard of the lists. */
static void free_seat(struct shfl_thread *thread) {
    thread->aside = 0;
    thread->tid = 0;
    thread->caller = NULL;
    __atomic_fetch_and(&thread->unusual, SHFL_IS_WATCHED, __ATOMIC_SEQ_CST); /* all else was its thread's */
    thread->next_free = free_threads;
    free_threads = thread;
    shfl_seated--;
}

/* It isn't looked for any more as that of a thread that is gone, nor as one that rests: it would be free twice. */
static void leave_behind(struct shfl_thread *me) {
    shfl_store(&me->tid, 0);
    me->next_free = __atomic_load_n(&left_threads, __ATOMIC_SEQ_CST);
    while (!__atomic_compare_exchange_n(&left_threads, &me->next_free, me, false, __ATOMIC_SEQ_CST, __ATOMIC_SEQ_CST)) {}
}

/* Has the guard of the lists. The whole list is taken at once, so nobody meets there who comes back to it. */
void shfl_free_left_seats(void) {
    struct shfl_thread *left = __atomic_exchange_n(&left_threads, NULL, __ATOMIC_SEQ_CST), *next;
    for (; left; left = next) {
        next = left->next_free;
        free_seat(left);
    }
}

/* Who ends while somebody forks doesn't wait, and leaves the seat to whom it will be given next, or to the child. */
static void give_seat_back(struct shfl_thread *me) {
    shfl_me = NULL;
    if (!shfl_guard_lock_unless_forking(&shfl_lists)) return leave_behind(me);
    free_seat(me);
    shfl_guard_unlock(&shfl_lists);
}

/* A thread that used a lock once more after its last destructors, as libc's own end of it may in a program's malloc, is gone with its seat. Where there is no other, those of
 * such threads are free, too; who looks in vain asks the system no more for a tenth of a second. Of a child that libc's handlers of forks didn't hear of nobody is gone. */
static void free_seats_of_gone(void) {
    static uint64_t looked_at;
    uint64_t now = shfl_clock();
    int before = errno;
    if (shfl_owner != getpid() || now - looked_at < 100000000) return;
    for (uint32_t k = 0; k < shfl_process.threads_seen; k++) {
        struct shfl_thread *thread = &shfl_process.threads[k];
        uint32_t tid = shfl_load(&thread->tid);
        bool is_gone = tid != 0 && syscall(SYS_tgkill, getpid(), tid, 0) != 0 && errno == ESRCH;
        if (!is_gone || __atomic_load_n(&thread->holding, __ATOMIC_RELAXED) > 0) continue;
        /* one that left its seat behind meanwhile has taken its number away */
        if (__atomic_compare_exchange_n(&thread->tid, &tid, 0, false, __ATOMIC_SEQ_CST, __ATOMIC_SEQ_CST)) free_seat(thread);
    }
    if (!free_threads) looked_at = now;
    errno = before;
}

void shfl_lose_seat(struct shfl_thread *thread) {
    thread->next_free = lost_threads;
    lost_threads = thread;
}

/* In the child of a fork, as they are needed, since it takes a look at each lock. */
static void free_lost_seat(void) {
    while (lost_threads && !free_threads) {
        struct shfl_thread *thread = lost_threads;
        lost_threads = thread->next_free;
        if (!shfl_rests(thread)) continue;
        shfl_seated++;
        free_seat(thread);
    }
}

void shfl_leave_seat(struct shfl_thread *me) {
    pthread_setspecific(at_end, NULL);
    give_seat_back(me);
}

/* Where a thread ends its seat goes to another, unless it holds a lock: that stays held, and the seat with it, until a later destructor of the
 * thread's gives the lock back. This one is called again as long as POSIX lets it. */
static void end_thread(void *at) {
    struct shfl_thread *me = at;
    ends = true;
    /* not this thread's: who had this stack before used a lock behind its last destructor, and what it noted then libc has kept */
    if (me != shfl_me) return;
    if (me->holding == 0) return give_seat_back(me);
    __atomic_fetch_or(&me->unusual, SHFL_IS_ENDING, __ATOMIC_SEQ_CST);
    shfl_refuse(0, me->held ? me->held[0] : NULL, "a thread ends that has a lock");
    pthread_setspecific(at_end, me);
}

/* Gives each thread and class the seat of its number, and keeps the last one for loading policies. */
static void deal(struct shfl_seat *seats) {
    struct shfl_process *all = &shfl_process;
    free_threads = NULL;
    for (uint32_t k = 0; k < all->thread_count; k++) {
        struct shfl_thread *thread = &all->threads[all->thread_count - 1 - k];
        thread->number = all->thread_count - 1 - k;
        thread->seat = seats[thread->number];
        thread->counts = thread->known = &all->counts[(size_t)thread->number * SHFL_COUNTED];
        thread->next_free = free_threads;
        free_threads = thread;
    }
    for (int k = 0; k < SHFL_CLASSES; k++) all->classes[k].seat = seats[all->thread_count + k];
    all->loading = seats[all->thread_count + SHFL_CLASSES];
}

#define OWN(it) shfl_races_own(&(it), sizeof(it))
static void own_statics(void) {
    OWN(shfl_process), OWN(shfl_lists), OWN(is_open), OWN(shfl_seated), OWN(shfl_owner), OWN(free_threads), OWN(lost_threads), OWN(left_threads), OWN(at_end);
    OWN(shfl_fresh_locks), OWN(shfl_free_locks);
}

/* The process's lists begin, at once for who forks. */
static void begin_with(struct shfl_seat *seats) {
    shfl_guard_lock(&shfl_lists);
    deal(seats);
    shfl_process.arena_count = 1;
    shfl_store(&shfl_process.lock_count, shfl_process.arena_locks);
    shfl_owner = getpid();
    __atomic_store_n(&is_open, true, __ATOMIC_RELEASE);
    shfl_guard_unlock(&shfl_lists);
}

/* Has the guard of openings. In the child of a fork that came meanwhile it is done again, from the beginning. */
static int open_arena(void) {
    struct shfl_process *all = &shfl_process;
    if (!shfl_asked_for(all)) return EINVAL;
    size_t count = (size_t)all->thread_count + SHFL_CLASSES + 1;
    struct shfl_seat *seats = calloc(count, sizeof *seats);
    if (!seats || !shfl_make_room(all)) {
        free(seats);
        return ENOMEM;
    }
    uint8_t answer = shfl_seats_open(all->arena_locks, false, all->form, all->limit, seats, count);
    if (answer == SHFL_DONE) begin_with(seats);
    else shfl_free_room(all);
    free(seats);
    return answer == SHFL_DONE ? 0 : answer == SHFL_BAD ? EINVAL : ENOMEM;
}

SHFL_COLD int shfl_begin_process(void) {
    static bool has_key;
    own_statics();
    OWN(has_key);
    shfl_find_register();
    int error = shfl_hear_of_forks();
    shfl_guard_lock(&shfl_lists);
    if (!error && !has_key) {
        error = pthread_key_create(&at_end, end_thread);
        has_key = !error;
    }
    shfl_guard_unlock(&shfl_lists);
    return error;
}

SHFL_COLD int shfl_open_process(void) {
    if (__atomic_load_n(&is_open, __ATOMIC_ACQUIRE)) return 0;
    int error = shfl_begin_process();
    bool rested = shfl_begin_opening();
    if (!error && !is_open) error = open_arena();
    shfl_end_opening(rested);
    return error;
}

/* The attributes that policies see, with the socket on which the thread runs now. False, and nothing changes, where the thread is taking a lock. */
bool shfl_set_attr(struct shfl_thread *me, uint16_t prio, uint16_t class_of, uint16_t kind) {
    unsigned cpu = 0, node = 0;
    if (syscall(SYS_getcpu, &cpu, &node, NULL)) node = 0;
    uint64_t attr = (uint16_t)node | (uint64_t)prio << 16 | (uint64_t)class_of << 32 | (uint64_t)kind << 48;
    shfl_taking(me);
    bool done = shfl_seat_set_attr(&me->seat, attr);
    shfl_not_taken(me);
    if (!done) return false;
    me->attr = attr;
    uint32_t before = __atomic_load_n(&me->mark, __ATOMIC_RELAXED);
    uint32_t mark = (me->number + 1) << SHFL_MARK_NUMBER | (uint32_t)me->turn << SHFL_MARK_TURN | node % SHFL_MARK_SOCKETS;
    while (!__atomic_compare_exchange_n(&me->mark, &before, mark | (before & SHFL_MARK_WATCHED), false, __ATOMIC_SEQ_CST, __ATOMIC_RELAXED)) {}
    return true;
}

static struct shfl_thread *take_free(int *error) {
    shfl_free_left_seats(); /* before one is taken that nobody had yet, and its memory */
    if (!free_threads) free_lost_seat();
    if (!free_threads) free_seats_of_gone();
    struct shfl_thread *me = free_threads;
    bool is_new = me && me->number >= shfl_process.threads_seen;
    *error = me ? 0 : EAGAIN;
    if (is_new && !shfl_open_counts(&shfl_process, me->number + 1)) *error = ENOMEM;
    if (*error) return NULL;
    free_threads = me->next_free;
    me->turn = (me->turn + 1) % SHFL_MARK_TURNS;
    me->tid = (uint32_t)syscall(SYS_gettid);
    shfl_seated++;
    if (is_new) shfl_store(&shfl_process.threads_seen, me->number + 1);
    return me;
}

SHFL_COLD struct shfl_thread *shfl_take_seat(int *error) {
    *error = shfl_open_process();
    if (*error) return NULL;
    shfl_guard_lock(&shfl_lists);
    struct shfl_thread *me = take_free(error);
    shfl_guard_unlock(&shfl_lists);
    if (!me) return NULL;
    *error = pthread_setspecific(at_end, me);
    if (*error) {
        give_seat_back(me);
        return NULL;
    }
    if (ends) __atomic_fetch_or(&me->unusual, SHFL_IS_ENDING, __ATOMIC_SEQ_CST);
    shfl_me = me;
    shfl_seated_in_fork(me);
    shfl_set_attr(me, 0, 0, 0);
    shfl_control();
    return me;
}
