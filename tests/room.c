/* How many bytes a lock of 64 passes asks of the heap, in each form: fewer than 12 KiB, and none after the closing; and that what can't be opened or
 * attached is refused, and takes none. The heap is one of its own, which counts, in place of include/shfl_heap.c. */
#include "shfl.h"
#include <errno.h>
#include <stdio.h>
#include <stdlib.h>

enum { PASSES = 64, MOST = 12 * 1024, HEAD = 16 };

struct shfl_tried { bool ok; void *at; };

static size_t in_use, blocks;

/* Each block has its length before it. */
struct shfl_tried rattle_alloc(size_t size, size_t align) {
    size_t asked = size ? size : align;
    char *block = malloc(HEAD + asked);
    if (!block) abort();
    *(size_t *)block = asked;
    in_use += asked;
    blocks++;
    return (struct shfl_tried){true, block + HEAD};
}

void rattle_dealloc(void *at) {
    char *block = (char *)at - HEAD;
    in_use -= *(size_t *)block;
    blocks--;
    free(block);
}

struct shfl_tried rattle_realloc(void *at, size_t kept, size_t size, size_t align) {
    struct shfl_tried told = rattle_alloc(size, align);
    for (size_t k = 0; k < kept && k < size; k++) ((char *)told.at)[k] = ((char *)at)[k];
    rattle_dealloc(at);
    return told;
}

static bool is_refused(const uint64_t *attrs, size_t count, unsigned form, unsigned limit, struct shfl_pass *passes, size_t same_count) {
    errno = 0;
    return !shfl_open(attrs, count, (uint8_t)form, (uint16_t)limit, passes, same_count) && errno == EINVAL && blocks == 0;
}

/* Whether each opening that can't be is refused, takes no memory and leaves the passes; and a policy that isn't there. */
static bool refuses(const uint64_t *attrs, struct shfl_pass *passes) {
    bool well = is_refused(attrs, PASSES, 4, 1024, passes, PASSES) && is_refused(attrs, PASSES, 255, 1024, passes, PASSES) &&
                is_refused(attrs, PASSES, SHFL_RW, 0, passes, PASSES) && is_refused(attrs, PASSES, SHFL_RW, 1025, passes, PASSES) &&
                is_refused(attrs, PASSES, SHFL_RW, 65535, passes, PASSES) && is_refused(attrs, 0, SHFL_RW, 1024, passes, 0) &&
                is_refused(attrs, 65536, SHFL_RW, 1024, passes, 65536) && is_refused(attrs, 2, SHFL_RW, 1024, passes, 3) &&
                is_refused(NULL, 2, SHFL_RW, 1024, passes, 2) && is_refused(attrs, 2, SHFL_RW, 1024, NULL, 2);
    if (!well || !shfl_open(attrs, 1, SHFL_RW, 1, passes, 1) || shfl_open(attrs, 2, SHFL_RW, 1, passes, 2)) return false;
    static const uint8_t no[16] = {0xb7, 0, 0, 0, 0, 0, 0, 0, 0x95};
    well = shfl_attach(passes, 0, no, 16, NULL, 0).fault == SHFL_FAULT_ARGUMENT && shfl_attach(passes, 3, no, 16, NULL, 0).fault == SHFL_FAULT_ARGUMENT &&
           shfl_attach(passes, 1, NULL, 16, no, 16).fault == SHFL_FAULT_ARGUMENT && shfl_attach(passes, 1, no, 16, NULL, 16).fault == SHFL_FAULT_ARGUMENT &&
           shfl_attach(passes, 1, no, 8, NULL, 0).fault == SHFL_FAULT_LEAVES && shfl_attach(passes, 1, no, 16, no, 9).fault == SHFL_FAULT_LENGTH &&
           shfl_attach(passes, SHFL_PROFILE_BASE, no, 16, NULL, 0).fault == SHFL_FAULT_NONE &&
           shfl_attach(passes, SHFL_PROFILE_EXTENDED, NULL, 0, NULL, 0).fault == SHFL_FAULT_NONE;
    shfl_close(passes);
    return well && in_use == 0;
}

int main(void) {
    static const uint64_t attrs[PASSES];
    static struct shfl_pass passes[PASSES];
    static const char *const forms[] = {"spin", "rw", "park", "rw park"};
    int status = refuses(attrs, passes) ? 0 : 3;
    for (uint8_t form = SHFL_SPIN; form <= SHFL_RW_PARK; form++) {
        if (!shfl_open(attrs, PASSES, form, 1024, passes, PASSES)) return 2;
        printf("a lock of 64 passes, %s: %zu bytes in %zu blocks\n", forms[form], in_use, blocks);
        if (in_use >= MOST) status = 1;
        for (int k = 0; k < PASSES; k++) shfl_close(&passes[k]);
        if (in_use != 0 || blocks != 0) status = 1;
    }
    return status;
}
