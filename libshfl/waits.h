/* waits.c: how long threads waited, and from where the first one did. */
#ifndef SHFL_WAITS_H
#define SHFL_WAITS_H
#include "inside.h"
#pragma GCC visibility push(hidden)

void shfl_waits_add(struct shfl_waits *to, const struct shfl_waits *from);
void shfl_waits_of(struct shfl_waits *to, const struct shfl_counted *at);
void shfl_waits_clear(const struct shfl_counted *at);
void shfl_waits_count(const struct shfl_counted *at, uint64_t waited);
void shfl_waits_end(uint32_t lock);
const void *shfl_caller_at(uint32_t lock);

/* A thread found a lock taken, which it waits for now. The first one's call is noted. */
void shfl_begins_to_wait(struct shfl_thread *me, uint32_t lock, bool shared, const void *caller);
#pragma GCC visibility pop
#endif
