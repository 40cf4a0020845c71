/* One arena more. What is proved of an arena is proved of each; that a lock's number names one place in one arena is this file's. */
#include <stdlib.h>
#include "arenas.h"
#include "process.h"
#include "races.h"

/* From malloc, so that who looks for leaks finds the seats by it. */
static struct shfl_desk *make_desks(size_t count) {
    void *desks;
    if (posix_memalign(&desks, sizeof(struct shfl_desk), count * sizeof(struct shfl_desk))) return NULL;
    shfl_races_own(desks, count * sizeof(struct shfl_desk));
    return desks;
}

static void seat_threads(struct shfl_desk *desks, const struct shfl_seat *seats) {
    for (uint32_t k = 0; k < shfl_process.thread_count; k++) desks[k].seat = seats[k];
}

/* Has the guard of openings, so the count of arenas stays as it is. */
static int open_one(struct shfl_process *all, struct shfl_seat *seats, struct shfl_desk *desks) {
    if (!shfl_open_room(all, all->arena_count + 1)) return ENOMEM;
    uint8_t answer = shfl_seats_open(all->arena_locks, false, all->form, all->limit, seats, all->thread_count);
    if (answer != SHFL_DONE) return ENOMEM;
    seat_threads(desks, seats);
    shfl_guard_lock(&shfl_lists);
    all->desks[all->arena_count] = desks;
    shfl_store(&all->arena_count, all->arena_count + 1);
    shfl_store(&all->lock_count, all->lock_count + all->arena_locks);
    shfl_guard_unlock(&shfl_lists);
    return 0;
}

static int open_another(struct shfl_process *all) {
    if (all->arena_count == all->arena_most) return EAGAIN;
    int before = errno;
    struct shfl_seat *seats = calloc(all->thread_count, sizeof *seats);
    struct shfl_desk *desks = make_desks(all->thread_count);
    int error = seats && desks ? open_one(all, seats, desks) : ENOMEM;
    if (error) free(desks);
    free(seats);
    errno = before;
    return error;
}

SHFL_COLD int shfl_grow(uint32_t had) {
    bool rested = shfl_begin_opening();
    int error = shfl_load(&shfl_process.lock_count) == had ? open_another(&shfl_process) : 0;
    shfl_end_opening(rested);
    return error;
}
