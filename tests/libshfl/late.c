/* Who gives a lock back looks whom to wake when it hasn't the lock any more: the next holder may have destroyed it by then. Built from the library's files, so
 * that this can be done here in that order, which threads do seldom: late. */
#include <libshfl.h>
#include "../../libshfl/locking.h"
#include "answers.h"

static shfl_mutex_t used, gone, fresh[2];

static void use(shfl_mutex_t *lock) { IS(shfl_mutex_lock(lock) || shfl_mutex_unlock(lock), 0); }

int main(void) {
    use(&used);
    use(&gone);
    struct shfl_parking *parking = shfl_parking_of(gone.number - 1);
    for (int r = 0; r < 10; r++) {
        parking->outside = 1; /* as it was when the one before looked */
        IS(shfl_mutex_destroy(&gone), 0);
        shfl_wake_next(shfl_me, parking);
        parking->outside = 0;
        use(&fresh[0]);
        use(&fresh[1]);
        IS(fresh[0].number != fresh[1].number && fresh[0].number != used.number && fresh[1].number != used.number, 1);
        IS(shfl_mutex_destroy(&fresh[1]) || shfl_mutex_destroy(&fresh[0]), 0);
        use(&gone);
        IS(shfl_parking_of(gone.number - 1) == parking, 1);
    }
    puts("who looks late whom to wake disturbs no other lock");
    return 0;
}
