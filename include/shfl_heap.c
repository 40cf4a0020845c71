/* The heap of the library, over that of the C library: what the kit's archive liblibc_c.a has besides more. */
#include <stdbool.h>
#include <stddef.h>
#include <stdlib.h>

/* a C++ compiler may be given this file too */
#ifdef __cplusplus
extern "C" {
#endif

/* libshfl's build for those who look for races says which memory is its own. */
#ifdef SHFL_ANNOTATE
#include "../libshfl/races.h"
#define SHFL_OWN(at, size) shfl_races_own(at, size)
#else
#define SHFL_OWN(at, size) ((void)(size))
#endif

struct shfl_tried { bool ok; void *at; };

static char nothing;

static struct shfl_tried tried(void *at, size_t size) {
    if (at != NULL) SHFL_OWN(at, size);
    struct shfl_tried told = {at != NULL, at != NULL ? at : &nothing};
    return told;
}

/* Each block has lines of the caches to itself: what two threads have in their passes is in two blocks, written at each step. No bytes
 * still have a place. */
struct shfl_tried rattle_alloc(size_t size, size_t align) {
    const size_t line = 64;
    (void)align;
    size = size ? (size + line - 1) / line * line : line;
    return tried(aligned_alloc(line, size), size);
}

struct shfl_tried rattle_realloc(void *at, size_t kept, size_t size, size_t align) {
    (void)kept;
    size = size ? size : align;
    return tried(realloc(at, size), size);
}

void rattle_dealloc(void *at) { free(at); }

#ifdef __cplusplus
}
#endif
