/* A malloc that takes a pthread mutex for each block, as some do: put before libshfl_preload.so it shows that the library opens, and gives
 * locks and threads their numbers, without malloc. What is given back is lost. With AT_BLOCK it has handlers of forks, too, which it registers with its block of this number, or, where that is 0,
 * as it begins. */
#include <errno.h>
#include <pthread.h>
#include <stddef.h>
#include <stdint.h>
#include <string.h>
#include <sys/mman.h>

static pthread_mutex_t mutex = PTHREAD_MUTEX_INITIALIZER;
static char *fresh;
static size_t left;

#ifdef AT_BLOCK
static void before_fork(void) { pthread_mutex_lock(&mutex); }
static void after_fork(void) { pthread_mutex_unlock(&mutex); }
static void hears_of_forks(int block) {
    if (block == AT_BLOCK) pthread_atfork(before_fork, after_fork, after_fork);
}
#else
static void hears_of_forks(int block) { (void)block; }
#endif

void *malloc(size_t size) {
    size_t whole = (size + 31) / 16 * 16;
    static int blocks;
    if (size > (size_t)1 << 40) return NULL;
    hears_of_forks(__atomic_add_fetch(&blocks, 1, __ATOMIC_SEQ_CST));
    pthread_mutex_lock(&mutex);
    if (left < whole) {
        left = whole > (1u << 20) ? whole : 1u << 20;
        fresh = mmap(NULL, left, PROT_READ | PROT_WRITE, MAP_PRIVATE | MAP_ANONYMOUS, -1, 0);
    }
    char *at = fresh;
    fresh += whole;
    left -= whole;
    pthread_mutex_unlock(&mutex);
    memcpy(at, &size, sizeof size);
    return at + 16;
}

void free(void *at) {
    if (!at) return;
    pthread_mutex_lock(&mutex);
    pthread_mutex_unlock(&mutex);
}

void *calloc(size_t count, size_t size) { return malloc(count * size); } /* fresh memory is zero */

void *realloc(void *at, size_t size) {
    void *larger = malloc(size);
    size_t had;
    if (!at || !larger) return larger;
    memcpy(&had, (char *)at - 16, sizeof had);
    return memcpy(larger, at, had < size ? had : size);
}

void *aligned_alloc(size_t align, size_t size) {
    char *at = malloc(size + align + 16);
    if (!at) return NULL;
    char *found = (char *)(((uintptr_t)at + 16 + align - 1) / align * align);
    memcpy(found - 16, &size, sizeof size);
    return found;
}

void *memalign(size_t align, size_t size) { return aligned_alloc(align, size); }

int posix_memalign(void **at, size_t align, size_t size) {
    *at = aligned_alloc(align, size);
    return *at ? 0 : ENOMEM;
}

__attribute__((constructor)) static void before_main(void) {
    hears_of_forks(0);
    pthread_mutex_lock(&mutex);
    pthread_mutex_unlock(&mutex);
}
