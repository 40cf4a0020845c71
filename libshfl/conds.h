/* What cond.c and the preload library's condition variables share. */
#ifndef SHFL_CONDS_H
#define SHFL_CONDS_H
#include "inside.h"
#pragma GCC visibility push(hidden)

/* One more waits; false where 65,535 do. It waits no more, and after this the memory isn't touched. */
bool shfl_comes_to_wait(shfl_cond_t *cond);
void shfl_ends_to_wait(shfl_cond_t *cond, bool was_woken);

/* Wakes one, or all. And it was woken: where no signal has come since its look, while one that was woken before hasn't left, the wakeup may have been
 * that one's, and all are woken. */
void shfl_signal(shfl_cond_t *cond, bool all);
void shfl_pass_on(shfl_cond_t *cond, uint32_t seen);
#pragma GCC visibility pop
#endif
