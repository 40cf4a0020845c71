#include "context.h"

/* should_reorder: a waiter of the shuffler's own socket joins the batch. */
unsigned long policy(const struct context *c)
{
    return c->waiter_socket == c->anchor_socket;
}
