/* In the checked build, where there is no memory to note which locks a thread has, it has them as before, and they are noted again where there is. */
#include <libshfl.h>
#include <stdbool.h>
#include "answers.h"

#define LOCKS 100
static shfl_mutex_t locks[LOCKS];
static bool is_full;
void *__libc_realloc(void *at, size_t size);

void *realloc(void *at, size_t size) { return is_full && !at ? NULL : __libc_realloc(at, size); }

int main(void) {
    is_full = true;
    for (int k = 0; k < LOCKS; k++) {
        is_full = k < 20;
        IS(shfl_mutex_lock(&locks[k]), 0);
    }
    for (int k = 0; k < LOCKS; k++) IS(shfl_mutex_unlock(&locks[k]), 0);
    puts("locks are had that aren't noted");
    return 0;
}
