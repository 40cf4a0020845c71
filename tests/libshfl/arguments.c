/* What isn't there, or is out of its range, is answered EINVAL by each call that takes it, and changes nothing. */
#include <errno.h>
#include <libshfl.h>
#include <pthread.h>
#include "answers.h"

static shfl_mutex_t m;
static shfl_rwlock_t l;
static shfl_cond_t c;
static struct timespec over = {1, 0};
/* a call that is told no time looks at it only where it would have to wait */
static const struct timespec wrong[] = {{0, -1}, {0, 1000000000}};
static const clockid_t clocks[] = {CLOCK_PROCESS_CPUTIME_ID, CLOCK_THREAD_CPUTIME_ID, 77, -1};

static void nothing(void) {
    IS(shfl_mutex_init(NULL, 0), EINVAL);
    IS(shfl_mutex_trylock(NULL), EINVAL);
    IS(shfl_mutex_timedlock(NULL, &over), EINVAL);
    IS(shfl_mutex_clocklock(NULL, CLOCK_REALTIME, &over), EINVAL);
    IS(shfl_mutex_destroy(NULL), EINVAL);
    IS(shfl_rwlock_init(NULL, 0), EINVAL);
    IS(shfl_rwlock_tryrdlock(NULL), EINVAL);
    IS(shfl_rwlock_trywrlock(NULL), EINVAL);
    IS(shfl_rwlock_timedrdlock(NULL, &over), EINVAL);
    IS(shfl_rwlock_timedwrlock(NULL, &over), EINVAL);
    IS(shfl_rwlock_clockrdlock(NULL, CLOCK_MONOTONIC, &over), EINVAL);
    IS(shfl_rwlock_clockwrlock(NULL, CLOCK_MONOTONIC, &over), EINVAL);
    IS(shfl_rwlock_destroy(NULL), EINVAL);
    IS(shfl_cond_init(NULL), EINVAL);
    IS(shfl_cond_signal(NULL), EINVAL);
    IS(shfl_cond_broadcast(NULL), EINVAL);
    IS(shfl_cond_destroy(NULL), EINVAL);
    IS(shfl_stat(NULL, &(struct shfl_stat){0}), EINVAL);
    IS(shfl_stat(&m, NULL), EINVAL);
    IS(shfl_class_stat(0, NULL), EINVAL);
}

/* This thread has the mutex, and has it afterwards. */
static void conditions(void) {
    IS(shfl_cond_wait(NULL, &m), EINVAL);
    IS(shfl_cond_wait(&c, NULL), EINVAL);
    IS(shfl_cond_timedwait(NULL, &m, &over), EINVAL);
    IS(shfl_cond_timedwait(&c, NULL, &over), EINVAL);
    IS(shfl_cond_timedwait(&c, &m, NULL), EINVAL);
    IS(shfl_cond_clockwait(NULL, &m, CLOCK_MONOTONIC, &over), EINVAL);
    IS(shfl_cond_clockwait(&c, NULL, CLOCK_MONOTONIC, &over), EINVAL);
    IS(shfl_cond_clockwait(&c, &m, CLOCK_MONOTONIC, NULL), EINVAL);
    for (size_t k = 0; k < 2; k++) IS(shfl_cond_timedwait(&c, &m, &wrong[k]), EINVAL);
    for (size_t k = 0; k < 2; k++) IS(shfl_cond_clockwait(&c, &m, CLOCK_REALTIME, &wrong[k]), EINVAL);
    for (size_t k = 0; k < 4; k++) IS(shfl_cond_clockwait(&c, &m, clocks[k], &over), EINVAL);
    IS(shfl_mutex_trylock(&m), EBUSY);
    IS(shfl_cond_destroy(&c), 0);
}

/* Another thread has the mutex and the lock. */
static void *other(void *none) {
    IS(shfl_mutex_timedlock(&m, NULL), EINVAL);
    IS(shfl_mutex_clocklock(&m, CLOCK_MONOTONIC, NULL), EINVAL);
    IS(shfl_rwlock_timedrdlock(&l, NULL), EINVAL);
    IS(shfl_rwlock_timedwrlock(&l, NULL), EINVAL);
    IS(shfl_rwlock_clockrdlock(&l, CLOCK_MONOTONIC, NULL), EINVAL);
    IS(shfl_rwlock_clockwrlock(&l, CLOCK_MONOTONIC, NULL), EINVAL);
    for (size_t k = 0; k < 2; k++) {
        IS(shfl_mutex_timedlock(&m, &wrong[k]), EINVAL);
        IS(shfl_mutex_clocklock(&m, CLOCK_REALTIME, &wrong[k]), EINVAL);
        IS(shfl_rwlock_timedrdlock(&l, &wrong[k]), EINVAL);
        IS(shfl_rwlock_timedwrlock(&l, &wrong[k]), EINVAL);
        IS(shfl_rwlock_clockrdlock(&l, CLOCK_MONOTONIC, &wrong[k]), EINVAL);
        IS(shfl_rwlock_clockwrlock(&l, CLOCK_MONOTONIC, &wrong[k]), EINVAL);
    }
    for (size_t k = 0; k < 4; k++) {
        IS(shfl_mutex_clocklock(&m, clocks[k], &over), EINVAL);
        IS(shfl_rwlock_clockrdlock(&l, clocks[k], &over), EINVAL);
        IS(shfl_rwlock_clockwrlock(&l, clocks[k], &over), EINVAL);
    }
    return none;
}

static void classes(void) {
    static const unsigned bad[] = {64, 65, 1u << 31, (unsigned)-1}, profiles[] = {0, 3, 257, (unsigned)-1};
    static const uint8_t no[16] = {0xb7, 0, 0, 0, 0, 0, 0, 0, 0x95};
    struct shfl_class_stat it;
    for (size_t k = 0; k < 4; k++) {
        IS(shfl_mutex_init(&m, bad[k]), EINVAL);
        IS(shfl_rwlock_init(&l, bad[k]), EINVAL);
        IS(shfl_class_policy(bad[k], 1, no, 16, NULL, 0, NULL), EINVAL);
        IS(shfl_class_detach(bad[k]), EINVAL);
        IS(shfl_class_stat(bad[k], &it), EINVAL);
        IS(shfl_class_policy(1, profiles[k], no, 16, NULL, 0, NULL), EINVAL);
    }
    IS(shfl_class_policy(1, 1, NULL, 16, NULL, 0, NULL), EINVAL);
    IS(shfl_class_policy(1, 1, no, 16, NULL, 16, NULL), EINVAL);
    IS(shfl_class_policy(1, 1, no, 8, NULL, 0, NULL), EINVAL);
    IS(shfl_class_stat(1, &it), 0);
    IS((int)it.version == 0 && it.attached == 0, 1);
}

struct refused { uint8_t bytes[16], length, fault; };

/* A program of each fault, as either hook. The class has no policy afterwards. */
static void programs(void) {
    static const struct refused all[] = {
        {{0x95}, 1, SHFL_FAULT_LENGTH},
        {{0x85, 0, 0, 0, 1}, 8, SHFL_FAULT_OPCODE},
        {{0xb7, 0x0a, 0, 0, 0, 0, 0, 0, 0x95}, 16, SHFL_FAULT_REGISTER},
        {{0xb7, 0x10, 0, 0, 0, 0, 0, 0, 0x95}, 16, SHFL_FAULT_FIELD},
        {{0x18, 0, 0, 0, 5}, 8, SHFL_FAULT_HALF},
        {{0x05, 0, 0xff, 0xff, 0, 0, 0, 0, 0x95}, 16, SHFL_FAULT_JUMP},
        {{0xb7}, 8, SHFL_FAULT_LEAVES},
        {{0xbf, 0x20, 0, 0, 0, 0, 0, 0, 0x95}, 16, SHFL_FAULT_NO_VALUE},
        {{0xbf, 0x10, 0, 0, 0, 0, 0, 0, 0x95}, 16, SHFL_FAULT_POINTER},
        {{0x61, 0x10, 0x28, 0, 0, 0, 0, 0, 0x95}, 16, SHFL_FAULT_LOAD},
    };
    static uint8_t longer[1 << 20];
    struct shfl_fault why;
    struct shfl_class_stat it;
    for (size_t k = 0; k < sizeof all / sizeof *all; k++) {
        IS(shfl_class_policy(1, SHFL_PROFILE_BASE, all[k].bytes, all[k].length, NULL, 0, &why), EINVAL);
        IS(why.fault == all[k].fault && why.hook == SHFL_HOOK_SHOULD, 1);
        IS(shfl_class_policy(1, SHFL_PROFILE_EXTENDED, NULL, 0, all[k].bytes, all[k].length, &why), EINVAL);
        IS(why.fault == all[k].fault && why.hook == SHFL_HOOK_SKIP, 1);
    }
    IS(shfl_class_policy(1, SHFL_PROFILE_BASE, longer, sizeof longer, NULL, 0, &why), EINVAL);
    IS(why.fault, SHFL_FAULT_TOO_LONG);
    IS(shfl_class_stat(1, &it) || it.version || it.attached, 0);
}

/* Bytes that never were a lock. */
static void no_locks(void) {
    static const uint32_t numbers[] = {65537, 1u << 20, (1u << 24) + 1, 1u << 25, UINT32_MAX - 1, UINT32_MAX};
    for (size_t k = 0; k < sizeof numbers / sizeof *numbers; k++) {
        shfl_mutex_t bad = {numbers[k], 0, {0, 0}};
        shfl_rwlock_t worse = {numbers[k], 0, {0, 0}};
        struct shfl_stat it;
        IS(shfl_mutex_lock(&bad), EINVAL);
        IS(shfl_mutex_trylock(&bad), EINVAL);
        IS(shfl_mutex_timedlock(&bad, &over), EINVAL);
        IS(shfl_mutex_unlock(&bad), EPERM);
        IS(shfl_mutex_destroy(&bad), EINVAL);
        IS(shfl_rwlock_rdlock(&worse), EINVAL);
        IS(shfl_rwlock_wrlock(&worse), EINVAL);
        IS(shfl_rwlock_unlock(&worse), EPERM);
        IS(shfl_rwlock_destroy(&worse), EINVAL);
        IS(shfl_cond_wait(&c, &bad), EPERM);
        IS(shfl_stat(&bad, &it), EINVAL);
        IS(bad.number == numbers[k] && worse.number == numbers[k], 1);
    }
}

int main(void) {
    pthread_t thread;
    nothing();
    IS(shfl_mutex_lock(&m) || shfl_rwlock_wrlock(&l), 0);
    conditions();
    IS(pthread_create(&thread, NULL, other, NULL) || pthread_join(thread, NULL), 0);
    IS(shfl_mutex_unlock(&m) || shfl_rwlock_unlock(&l), 0);
    classes();
    programs();
    no_locks();
    IS(shfl_mutex_lock(&m) || shfl_mutex_unlock(&m) || shfl_rwlock_rdlock(&l) || shfl_rwlock_unlock(&l), 0);
    puts("what can't be is answered, and changes nothing");
    return 0;
}
