#include "context.h"

/* should_reorder: a waiter of at least the shuffler's priority joins the batch. */
unsigned long policy(const struct context *c)
{
    return c->waiter_prio >= c->anchor_prio;
}
