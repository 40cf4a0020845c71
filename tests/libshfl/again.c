/* A reader takes its lock again as often as a number of 32 bits counts, and then no more. Built from the library's files, so that the test can begin
 * near the end of that: again. */
#include <errno.h>
#include <libshfl.h>
#include "../../libshfl/locking.h"
#include "answers.h"

static shfl_rwlock_t lock;

int main(void) {
    for (int k = 0; k < 2; k++) IS(shfl_rwlock_rdlock(&lock), 0);
    shfl_me->again[0].times = UINT32_MAX - 1;
    IS(shfl_rwlock_rdlock(&lock), 0);
    IS(shfl_rwlock_rdlock(&lock), EAGAIN);
    IS(shfl_rwlock_tryrdlock(&lock), EAGAIN);
    IS(shfl_me->again[0].times == UINT32_MAX, 1);
    IS(shfl_rwlock_unlock(&lock), 0);
    IS(shfl_rwlock_rdlock(&lock), 0);
    IS(shfl_rwlock_rdlock(&lock), EAGAIN);
    shfl_me->again[0].times = 1;
    for (int k = 0; k < 2; k++) IS(shfl_rwlock_trywrlock(&lock) == 0 || shfl_rwlock_unlock(&lock), 0);
    IS(shfl_rwlock_unlock(&lock), EPERM);
    IS(shfl_rwlock_trywrlock(&lock) || shfl_rwlock_unlock(&lock), 0);
    puts("a reader takes its lock again 2^32 times, and then no more");
    return 0;
}
