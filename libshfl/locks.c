/* Mutexes, and locks for readers and writers: the names of locking.c's calls. The calls that wait without a deadline, and those that give back,
 * don't look for null: that would cost each free lock. What is proved of them, and what isn't, locking.c says. */
#include "locking.h"
#include "races.h"

SHFL_IN_LINE int take(uint32_t *number, bool shared) {
    shfl_races_taking(number, shared, false);
    int error = shfl_take(number, shared);
    shfl_races_taken(number, shared, false, error);
    return error;
}

static inline int try(uint32_t *number, bool shared) {
    shfl_races_taking(number, shared, true);
    int error = shfl_try(number, shared);
    shfl_races_taken(number, shared, true, error);
    return error;
}

static inline int take_until(uint32_t *number, bool shared, clockid_t clock, const struct timespec *at) {
    shfl_races_taking(number, shared, true);
    int error = shfl_take_until(number, shared, clock, at);
    shfl_races_taken(number, shared, true, error);
    return error;
}

SHFL_IN_LINE int give_back(uint32_t *number) {
    int held = shfl_races_giving(number);
    int error = shfl_give_back(number);
    shfl_races_given(number, held);
    return error;
}

static int init(uint32_t *number, uint32_t *its, unsigned class_of) {
    if (class_of >= SHFL_CLASSES) return EINVAL;
    *number = 0;
    *its = class_of;
    return 0;
}

/* It is zero afterwards. */
static int end(uint32_t *number, uint32_t *its) {
    int error = shfl_end(number);
    if (!error) *its = 0;
    return error;
}

int shfl_mutex_init(shfl_mutex_t *m, unsigned class_of) { return m ? init(&m->number, &m->class_of, class_of) : EINVAL; }
int shfl_mutex_lock(shfl_mutex_t *m) { return take(&m->number, false); }
int shfl_mutex_trylock(shfl_mutex_t *m) { return m ? try(&m->number, false) : EINVAL; }
int shfl_mutex_timedlock(shfl_mutex_t *m, const struct timespec *at) { return m ? take_until(&m->number, false, CLOCK_MONOTONIC, at) : EINVAL; }
int shfl_mutex_clocklock(shfl_mutex_t *m, clockid_t clock, const struct timespec *at) { return m ? take_until(&m->number, false, clock, at) : EINVAL; }
int shfl_mutex_unlock(shfl_mutex_t *m) { return give_back(&m->number); }
int shfl_mutex_destroy(shfl_mutex_t *m) { return m ? end(&m->number, &m->class_of) : EINVAL; }

int shfl_rwlock_init(shfl_rwlock_t *l, unsigned class_of) { return l ? init(&l->number, &l->class_of, class_of) : EINVAL; }
int shfl_rwlock_rdlock(shfl_rwlock_t *l) { return take(&l->number, true); }
int shfl_rwlock_wrlock(shfl_rwlock_t *l) { return take(&l->number, false); }
int shfl_rwlock_tryrdlock(shfl_rwlock_t *l) { return l ? try(&l->number, true) : EINVAL; }
int shfl_rwlock_trywrlock(shfl_rwlock_t *l) { return l ? try(&l->number, false) : EINVAL; }
int shfl_rwlock_timedrdlock(shfl_rwlock_t *l, const struct timespec *at) { return l ? take_until(&l->number, true, CLOCK_MONOTONIC, at) : EINVAL; }
int shfl_rwlock_timedwrlock(shfl_rwlock_t *l, const struct timespec *at) { return l ? take_until(&l->number, false, CLOCK_MONOTONIC, at) : EINVAL; }
int shfl_rwlock_clockrdlock(shfl_rwlock_t *l, clockid_t clock, const struct timespec *at) { return l ? take_until(&l->number, true, clock, at) : EINVAL; }
int shfl_rwlock_clockwrlock(shfl_rwlock_t *l, clockid_t clock, const struct timespec *at) { return l ? take_until(&l->number, false, clock, at) : EINVAL; }
int shfl_rwlock_unlock(shfl_rwlock_t *l) { return give_back(&l->number); }
int shfl_rwlock_destroy(shfl_rwlock_t *l) { return l ? end(&l->number, &l->class_of) : EINVAL; }

int shfl_thread_attr(uint16_t prio, uint16_t class_of, uint16_t kind) {
    int error = 0;
    struct shfl_thread *me = shfl_self(&error);
    if (!me) return error;
    return shfl_set_attr(me, prio, class_of, kind) ? 0 : EBUSY;
}
