/* Calls that no right program makes, one by the word that is given: answered, or in the checked build the end. First the line is printed that the checked
 * build ends with. Without a word all words are printed. */
#include <errno.h>
#include <libshfl.h>
#include <pthread.h>
#include <stdbool.h>
#include <stdio.h>
#include <string.h>
#include <unistd.h>

#define GIVES "a thread gives a lock back that it doesn't have"
#define TAKES "a thread takes a lock that it has"
#define DESTROYS "a lock is destroyed that somebody has"
#define ENDS "a thread ends that has a lock"
#define AWAITED "a condition variable is destroyed that somebody waits on"

static shfl_mutex_t lock;
static shfl_rwlock_t shared;
static shfl_cond_t cond;
static const struct timespec over = {1, 0};

static int (*asked)(void);
static void *other(void *told) {
    *(int *)told = asked();
    return NULL;
}

/* A call of another thread, which ends after it. */
static int beside(int (*call)(void)) {
    pthread_t thread;
    int told = -1;
    asked = call;
    return pthread_create(&thread, NULL, other, &told) || pthread_join(thread, NULL) ? -1 : told;
}

static int take(void) { return shfl_mutex_lock(&lock); }
static int give(void) { return shfl_mutex_unlock(&lock); }
static int end(void) { return shfl_mutex_destroy(&lock); }
static int take_both(void) { return take() || shfl_rwlock_wrlock(&shared); }
static int as_reader(void) { return shfl_rwlock_rdlock(&shared); }
static int as_writer(void) { return shfl_rwlock_wrlock(&shared); }
static int give_shared(void) { return shfl_rwlock_unlock(&shared); }
static int end_shared(void) { return shfl_rwlock_destroy(&shared); }

static bool unlocks(void) { return give() == EPERM; }
static bool unlocks_again(void) { return take() == 0 && give() == 0 && give() == EPERM; }
static bool unlocks_others(void) { return take() == 0 && beside(give) == EPERM; }
static bool twice(void) { return take() == 0 && take() == EDEADLK; }
static bool twice_timed(void) { return take() == 0 && shfl_mutex_timedlock(&lock, &over) == EDEADLK; }
static bool twice_by_a_clock(void) { return take() == 0 && shfl_mutex_clocklock(&lock, CLOCK_REALTIME, &over) == EDEADLK; }
static bool destroys(void) { return take() == 0 && end() == EBUSY; }
static bool destroys_others(void) { return take() == 0 && beside(end) == EBUSY; }
/* the seat isn't given to another thread, so the lock stays held */
static bool ends(void) { return beside(take) == 0 && shfl_mutex_trylock(&lock) == EBUSY; }
static bool ends_with_two(void) { return beside(take_both) == 0 && shfl_mutex_trylock(&lock) == EBUSY && shfl_rwlock_trywrlock(&shared) == EBUSY; }

static bool unlocks_shared(void) { return give_shared() == EPERM; }
static bool unlocks_readers(void) { return as_reader() == 0 && beside(give_shared) == EPERM; }
static bool reads_as_writer(void) { return as_writer() == 0 && as_reader() == EDEADLK; }
static bool writes_as_reader(void) { return as_reader() == 0 && as_writer() == EDEADLK; }
static bool writes_twice(void) { return as_writer() == 0 && shfl_rwlock_timedwrlock(&shared, &over) == EDEADLK; }
static bool destroys_read(void) { return as_reader() == 0 && end_shared() == EBUSY; }
static bool destroys_written(void) { return as_writer() == 0 && beside(end_shared) == EBUSY; }
static bool ends_as_reader(void) { return beside(as_reader) == 0 && shfl_rwlock_trywrlock(&shared) == EBUSY; }

static bool waits_without(void) { return shfl_cond_wait(&cond, &lock) == EPERM; }

static void *waits(void *none) {
    shfl_mutex_lock(&lock);
    while (cond.words[0] == 0) shfl_cond_wait(&cond, &lock);
    shfl_mutex_unlock(&lock);
    return none;
}

/* (a word of it that the library doesn't use says that the waiter may go) */
static bool destroys_awaited(void) {
    pthread_t thread;
    if (pthread_create(&thread, NULL, waits, NULL)) return false;
    while (__atomic_load_n(&cond.waiting, __ATOMIC_SEQ_CST) == 0) usleep(1000);
    bool refused = shfl_cond_destroy(&cond) == EBUSY;
    shfl_mutex_lock(&lock);
    cond.words[0] = 1;
    shfl_cond_broadcast(&cond);
    shfl_mutex_unlock(&lock);
    return pthread_join(thread, NULL) == 0 && refused && shfl_cond_destroy(&cond) == 0;
}

struct misuse { const char *word; bool (*is_answered)(void); void *at; const char *message; };
static const struct misuse all[] = {
    {"unlocks", unlocks, &lock, GIVES}, {"unlocks_again", unlocks_again, &lock, GIVES}, {"unlocks_others", unlocks_others, &lock, GIVES},
    {"twice", twice, &lock, TAKES}, {"twice_timed", twice_timed, &lock, TAKES}, {"twice_by_a_clock", twice_by_a_clock, &lock, TAKES},
    {"destroys", destroys, &lock, DESTROYS}, {"destroys_others", destroys_others, &lock, DESTROYS},
    {"ends", ends, &lock, ENDS}, {"ends_with_two", ends_with_two, &lock, ENDS},
    {"unlocks_shared", unlocks_shared, &shared, GIVES}, {"unlocks_readers", unlocks_readers, &shared, GIVES},
    {"reads_as_writer", reads_as_writer, &shared, TAKES}, {"writes_as_reader", writes_as_reader, &shared, TAKES},
    {"writes_twice", writes_twice, &shared, TAKES}, {"destroys_read", destroys_read, &shared, DESTROYS},
    {"destroys_written", destroys_written, &shared, DESTROYS}, {"ends_as_reader", ends_as_reader, &shared, ENDS},
    {"waits_without", waits_without, &lock, GIVES}, {"destroys_awaited", destroys_awaited, &cond, AWAITED},
};

int main(int count, char **words) {
    for (size_t k = 0; k < sizeof all / sizeof *all; k++) {
        if (count < 2) puts(all[k].word);
        if (count < 2 || strcmp(words[1], all[k].word) != 0) continue;
        printf("libshfl: %s: %p\n", all[k].message, all[k].at);
        fflush(stdout);
        return !all[k].is_answered();
    }
    return count < 2 ? 0 : 2;
}
