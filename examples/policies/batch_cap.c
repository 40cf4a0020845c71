#include "context.h"

/* skip_reorder: no round begins once the batch has eight waiters. */
unsigned long policy(const struct context *c)
{
    return c->batch >= 8;
}
