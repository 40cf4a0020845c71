/* What the environment asks of the process's arenas, and the memory of C beside them. Proved is that an arena opens for numbers in their range alone
 * (shfl_seats_open judges them again); that the memory beside it is large enough is this file's. */
#define _GNU_SOURCE
#include <stdlib.h>
#include <string.h>
#include <sys/mman.h>
#include "inside.h"
#include "races.h"

/* A number from the environment, 1 to the most; what isn't a number counts as not said, and so does all where the program runs with another user's rights. Ten digits are
 * more than any may have. */
static bool is_asked(const char *name, uint32_t usual, uint32_t most, uint32_t *number) {
    const char *text = secure_getenv(name);
    bool is_said = text && *text && strspn(text, "0123456789") == strlen(text);
    *number = !is_said ? usual : strlen(text) > 9 ? UINT32_MAX : (uint32_t)strtoul(text, NULL, 10);
    if (*number >= 1 && *number <= most) return true;
    shfl_out_of_range(name, text, most);
    return false;
}

/* The form of the locks: one that has readers, since any of them may be a lock for readers and writers. */
static bool is_form_asked(uint8_t *form) {
    const char *text = secure_getenv("SHFL_FORM");
    bool parks = text && strcmp(text, "rw-park") == 0;
    *form = parks ? SHFL_RW_PARK : SHFL_RW;
    if (parks || !text || !*text || strcmp(text, "rw") == 0) return true;
    shfl_no_such_form(text);
    return false;
}

/* As many arenas as have no more than so many locks together; at least one. */
bool shfl_asked_for(struct shfl_process *all) {
    uint32_t limit, most;
    bool all_are = is_asked("SHFL_LIMIT", SHFL_LIMIT_USUAL, SHFL_LIMIT_MOST, &limit) && is_asked("SHFL_THREADS", SHFL_THREADS_USUAL, SHFL_MOST_THREADS, &all->thread_count) &&
                   is_asked("SHFL_ARENAS", SHFL_ARENAS_USUAL, SHFL_ARENAS_MOST, &most) && is_asked("SHFL_LOCKS", SHFL_LOCKS_USUAL, SHFL_LOCKS_MOST, &all->arena_locks) &&
                   is_form_asked(&all->form);
    if (!all_are) return false;
    uint32_t fit = SHFL_LOCKS_MOST / all->arena_locks;
    all->arena_most = most < fit ? most : fit;
    all->limit = (uint16_t)limit;
    all->unheard = !secure_getenv("SHFL_CONTROL");
    return true;
}

/* Addresses, for what comes to be there (open_map). */
static void *name_map(size_t size) {
    void *at = mmap(NULL, size, PROT_NONE, MAP_PRIVATE | MAP_ANONYMOUS | MAP_NORESERVE, -1, 0);
    return at == MAP_FAILED ? NULL : at;
}

static void unmap(void *at, size_t size) {
    if (at) munmap(at, size);
}

static size_t places(const struct shfl_process *all) { return (size_t)all->thread_count * SHFL_COUNTED; }
static size_t locks_most(const struct shfl_process *all) { return (size_t)all->arena_most * all->arena_locks; }

static void free_lock_room(struct shfl_process *all) {
    unmap(all->parkings, locks_most(all) * sizeof *all->parkings);
    unmap(all->totals, locks_most(all) * sizeof *all->totals);
    unmap(all->lock_waits, locks_most(all) * sizeof *all->lock_waits);
    all->parkings = NULL;
    all->totals = NULL;
    all->lock_waits = NULL;
}

/* Addresses for the locks of all arenas that may be, one behind the other; memory comes with each arena. */
static bool name_lock_room(struct shfl_process *all) {
    all->parkings = name_map(locks_most(all) * sizeof *all->parkings);
    all->totals = name_map(locks_most(all) * sizeof *all->totals);
    all->lock_waits = name_map(locks_most(all) * sizeof *all->lock_waits);
    if (all->parkings && all->totals && all->lock_waits) return true;
    free_lock_room(all);
    return false;
}

/* Memory that is zero. Where threads meet here, those who look for races need not look. */
static bool open_map(void *at, size_t size) {
    size_t page = (size_t)sysconf(_SC_PAGESIZE);
    int before = errno;
    shfl_races_own(at, size);
    bool done = mprotect(at, (size + page - 1) / page * page, PROT_READ | PROT_WRITE) == 0;
    errno = before;
    return done;
}

bool shfl_open_room(struct shfl_process *all, uint32_t arenas) {
    size_t locks = (size_t)arenas * all->arena_locks;
    return open_map(all->parkings, locks * sizeof *all->parkings) && open_map(all->totals, locks * sizeof *all->totals) &&
           open_map(all->lock_waits, locks * sizeof *all->lock_waits);
}

/* What a thread counts comes with the first thread that has its number. */
bool shfl_open_counts(struct shfl_process *all, uint32_t threads) {
    size_t count = (size_t)threads * SHFL_COUNTED;
    return open_map(all->counts, count * sizeof *all->counts) && open_map(all->waits, count * sizeof *all->waits);
}

void shfl_free_room(struct shfl_process *all) {
    free(all->threads);
    all->threads = NULL;
    if (all->parkings) free_lock_room(all);
    unmap(all->counts, places(all) * sizeof *all->counts);
    unmap(all->waits, places(all) * sizeof *all->waits);
    all->counts = NULL;
    all->waits = NULL;
}

/* The memory of C, zero: a page of it is taken where it is first used. Where a process may not have so many addresses it has one arena. */
bool shfl_make_room(struct shfl_process *all) {
    size_t size = all->thread_count * sizeof(struct shfl_thread);
    if (posix_memalign((void **)&all->threads, 128, size)) all->threads = NULL;
    else memset(all->threads, 0, size);
    if (all->threads) shfl_races_own(all->threads, size);
    bool locks = name_lock_room(all);
    if (!locks) all->arena_most = 1;
    locks = (locks || name_lock_room(all)) && shfl_open_room(all, 1);
    all->counts = name_map(places(all) * sizeof *all->counts);
    all->waits = name_map(places(all) * sizeof *all->waits);
    if (all->threads && locks && all->counts && all->waits) return true;
    shfl_free_room(all);
    return false;
}
