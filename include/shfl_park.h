/* Passes in seats, by the names that a program may use which was written when only these slept. Each call is that of shfl.h with the
 * same meaning, and both may serve one lock. */
#ifndef SHFL_PARK_H
#define SHFL_PARK_H
#include "shfl.h"

#ifdef __cplusplus
extern "C" {
#endif

struct shfl_seat { struct shfl_pass pass; };

/* Puts the passes of a lock that was opened into seats. The passes are zero afterwards. */
static inline void shfl_seat_all(struct shfl_pass *passes, struct shfl_seat *seats, unsigned count) {
    for (unsigned k = 0; k < count; k++) {
        seats[k].pass = passes[k];
        memset(&passes[k], 0, sizeof passes[k]);
    }
}

static inline void shfl_lock_parked(struct shfl_seat *seats, unsigned me) { shfl_lock_sleeping(&seats[me].pass); }
static inline void shfl_rdlock_parked(struct shfl_seat *seats, unsigned me) { shfl_rdlock_sleeping(&seats[me].pass); }
static inline void shfl_drive_parked(struct shfl_seat *seats, unsigned me) { shfl_drive(&seats[me].pass); }
static inline void shfl_unlock_parked(struct shfl_seat *seats, unsigned me) { shfl_unlock(&seats[me].pass); }

#ifdef __cplusplus
}
#endif
#endif
