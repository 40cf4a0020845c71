/* The memory of the preload library, which every file of it is compiled with (cc -include): never from malloc, since a program's malloc may
 * take a mutex, which would be the library's. */
#ifndef SHFL_HEAP_H
#define SHFL_HEAP_H
#define _GNU_SOURCE
#include <stdint.h>
#include <stdlib.h>

void *shfl_heap_take(size_t size);
void *shfl_heap_zero(size_t count, size_t size);
void *shfl_heap_resize(void *at, size_t size);
void shfl_heap_give(void *at);
int shfl_heap_aligned(void **at, size_t align, size_t size);

/* While a process forks. */
void shfl_heap_stop(void);
void shfl_heap_go_on(void);

/* What the environment asks for can't be: said once (numbers.c), and then the program's locks are libc's. */
void shfl_out_of_range(const char *name, const char *text, uint32_t most);
void shfl_no_such_form(const char *text);

/* Before the process has a guard: libc's call that registers handlers of forks is found (libc.c). */
void shfl_find_register(void);

#define calloc(count, size) shfl_heap_zero(count, size)
#define realloc(at, size) shfl_heap_resize(at, size)
#define free(at) shfl_heap_give(at)
#define posix_memalign(at, align, size) shfl_heap_aligned(at, align, size)
#endif
