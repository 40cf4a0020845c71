/* The library begins as the process does. Nothing of this is proved. */
#include <stdlib.h>
#include "inside.h"

/* Early, so that the threads' key is among those for which libc takes no memory, and handlers of forks that the program registers come before the
 * library's, which has every guard from then on, and in the child looks for what it finds held. Those of the program's malloc come behind, since the
 * library takes memory with a guard: they are registered with the first block. Who locks before this finds all as well. */
__attribute__((constructor(101))) static void begin(void) {
#ifndef SHFL_HEAP_H
    void *block = malloc(1);
    __asm__ volatile("" : "+r"(block));
    free(block);
#endif
    shfl_begin_process();
}
