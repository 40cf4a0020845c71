/* A heap over mmap: blocks whose sizes are powers of two, each behind a line of its own that says which; what comes back is kept for
 * the next block of its size. Blocks above a quarter of a megabyte are mapped alone. Nothing of it is proved. */
#include <string.h>
#include <sys/mman.h>
#include "../inside.h"

#define LINE 128 /* as struct shfl_thread wants it */
#define SMALLEST 7
#define LARGEST 18
#define CHUNK (1u << 20)

/* Stands before each block. Room is 0 for one that is mapped alone. */
struct block {
    struct block *next;
    size_t power, mapped;
} __attribute__((aligned(LINE)));

static shfl_guard guard;
static struct block *kept[LARGEST + 1];
static char *fresh;
static size_t fresh_left;

void shfl_heap_stop(void) { shfl_guard_lock(&guard); }
void shfl_heap_go_on(void) { shfl_guard_unlock(&guard); }

/* errno stays as it was, since a program doesn't expect that of a lock. */
static void *map(size_t size) {
    int before = errno;
    void *at = mmap(NULL, size, PROT_READ | PROT_WRITE, MAP_PRIVATE | MAP_ANONYMOUS | MAP_NORESERVE, -1, 0);
    errno = before;
    return at == MAP_FAILED ? NULL : at;
}

static struct block *mapped_alone(size_t size) {
    struct block *block = map(size);
    if (block) *block = (struct block){NULL, 0, size};
    return block;
}

/* A block of two to this power bytes and its line before them, from the chunk that is being used up. */
static struct block *carved(size_t power) {
    size_t size = ((size_t)1 << power) + LINE;
    if (fresh_left < size) {
        char *chunk = map(CHUNK);
        if (!chunk) return NULL;
        fresh = chunk;
        fresh_left = CHUNK;
    }
    struct block *block = (struct block *)fresh;
    fresh += size;
    fresh_left -= size;
    *block = (struct block){NULL, power, 0};
    return block;
}

void *shfl_heap_take(size_t size) {
    if (size > PTRDIFF_MAX - LINE) return NULL;
    if (size > (size_t)1 << LARGEST) {
        struct block *block = mapped_alone(size + LINE);
        return block ? block + 1 : NULL;
    }
    size_t power = SMALLEST;
    while ((size_t)1 << power < size) power++;
    shfl_guard_lock(&guard);
    struct block *block = kept[power];
    if (block) kept[power] = block->next;
    else block = carved(power);
    shfl_guard_unlock(&guard);
    return block ? block + 1 : NULL;
}

void shfl_heap_give(void *at) {
    if (!at) return;
    struct block *block = (struct block *)at - 1;
    if (block->mapped) {
        int before = errno;
        munmap(block, block->mapped);
        errno = before;
        return;
    }
    shfl_guard_lock(&guard);
    block->next = kept[block->power];
    kept[block->power] = block;
    shfl_guard_unlock(&guard);
}

void *shfl_heap_zero(size_t count, size_t size) {
    size_t whole;
    if (__builtin_mul_overflow(count, size, &whole)) return NULL;
    void *at = shfl_heap_take(whole);
    if (at && !((struct block *)at - 1)->mapped) memset(at, 0, whole);
    return at;
}

void *shfl_heap_resize(void *at, size_t size) {
    if (!at) return shfl_heap_take(size);
    struct block *block = (struct block *)at - 1;
    size_t has = block->mapped ? block->mapped - LINE : (size_t)1 << block->power;
    if (size <= has) return at;
    void *larger = shfl_heap_take(size);
    if (!larger) return NULL;
    memcpy(larger, at, has);
    shfl_heap_give(at);
    return larger;
}

int shfl_heap_aligned(void **at, size_t align, size_t size) {
    *at = align <= LINE ? shfl_heap_take(size) : NULL;
    return *at ? 0 : ENOMEM;
}

/* What the proved library takes its memory from, as include/shfl_heap.c has it over malloc. */
struct shfl_tried { bool ok; void *at; };

static char nothing;

static struct shfl_tried tried(void *at) { return (struct shfl_tried){at != NULL, at ? at : &nothing}; }

struct shfl_tried rattle_alloc(size_t size, size_t align) { return tried(align <= LINE ? shfl_heap_take(size) : NULL); }
struct shfl_tried rattle_realloc(void *at, size_t kept_bytes, size_t size, size_t align) {
    (void)kept_bytes;
    return tried(align <= LINE ? shfl_heap_resize(at, size) : NULL);
}

void rattle_dealloc(void *at) { shfl_heap_give(at); }
