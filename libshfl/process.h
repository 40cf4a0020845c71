/* What process.c, numbering.c and forks.c share, and what a fork means to a call that takes a lock. */
#ifndef SHFL_PROCESS_H
#define SHFL_PROCESS_H
#include "inside.h"
#pragma GCC visibility push(hidden)

extern shfl_guard shfl_lists; /* of what is open, what is free, and how many threads have a seat */
void shfl_lose_seat(struct shfl_thread *thread); /* in the child of a fork, of a thread that isn't there and told of no call: it serves again where it rests */
bool shfl_rests(struct shfl_thread *thread);
void shfl_free_left_seats(void); /* of threads that ended while somebody forked; with the guard */
extern uint32_t shfl_seated, shfl_fresh_locks; /* how many do, and how many numbers were given for the first time */
extern uint32_t shfl_free_locks; /* the last number that came back, plus one */

extern pid_t shfl_owner; /* the process whose threads have the seats */

int shfl_hear_of_forks(void); /* once, whoever calls */
bool shfl_guard_lock_unless_forking(shfl_guard *guard);

/* Around the opening of an arena, of which there is one at a time. It takes memory, as `malloc` may have it for a fork already, so no guard of a fork's is had meanwhile. */
bool shfl_begin_opening(void);
void shfl_end_opening(bool rested);

/* For handlers of forks that the program registered before the library was opened: the child's thread learns that it is one, before a call that goes the longer way; and a thread that is about to
 * wait, for the lock of this number plus one, or for something else by 0, lets go of the guards that it has as it forks, if it does, and takes them again afterwards; one whose try was in vain does so for a moment. */
void shfl_child_hears(void);
void shfl_seated_in_fork(struct shfl_thread *me); /* it has its seat from now on */
bool shfl_fork_rests(uint32_t number);
void shfl_fork_goes_on(void);
void shfl_fork_pauses(uint32_t number);
#pragma GCC visibility pop
#endif
