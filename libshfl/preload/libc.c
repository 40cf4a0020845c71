/* libc's own calls, which the library's stand before. Nothing of this is proved. */
#include <dlfcn.h>
#include "inside.h"

static struct shfl_libc calls;
static uint32_t are_found;

/* Several threads may do this at once, and write the same. Names that are there come first, since libc takes memory to say that one isn't, and the program's malloc may use a
 * lock of libc's. Then the condition variables that programs of today mean: glibc has some of an older shape too, under the same names. */
static SHFL_COLD void find(void) {
    void *at;
    int before = errno;
#define FIND(call) calls.call = (__typeof__(calls.call))dlsym(RTLD_NEXT, "pthread_" #call)
    FIND(mutex_lock), FIND(mutex_trylock), FIND(mutex_timedlock), FIND(mutex_clocklock), FIND(mutex_unlock), FIND(mutex_destroy);
    FIND(rwlock_rdlock), FIND(rwlock_wrlock), FIND(rwlock_tryrdlock), FIND(rwlock_trywrlock), FIND(rwlock_timedrdlock);
    FIND(rwlock_timedwrlock), FIND(rwlock_clockrdlock), FIND(rwlock_clockwrlock), FIND(rwlock_unlock), FIND(rwlock_destroy);
    FIND(cond_wait), FIND(cond_timedwait), FIND(cond_clockwait), FIND(cond_signal), FIND(cond_broadcast), FIND(cond_destroy);
#undef FIND
    __atomic_store_n(&are_found, 1, __ATOMIC_RELEASE);
#define FIND(call) if ((at = dlvsym(RTLD_NEXT, "pthread_" #call, "GLIBC_2.3.2"))) calls.call = (__typeof__(calls.call))at
    FIND(cond_wait);
    FIND(cond_timedwait);
    FIND(cond_signal);
    FIND(cond_broadcast);
    FIND(cond_destroy);
#undef FIND
    errno = before;
}

const struct shfl_libc *shfl_libc(void) {
    if (!__atomic_load_n(&are_found, __ATOMIC_ACQUIRE)) find();
    return &calls;
}

/* Early: who locks before this finds them as well. */
__attribute__((constructor)) static void begin(void) { shfl_libc(); }

static int (*registers)(void (*)(void), void (*)(void), void (*)(void), void *);

/* It is there, so this takes no memory, as `find` does: the program's malloc may use a lock. */
void shfl_find_register(void) {
    if (!__atomic_load_n(&registers, __ATOMIC_ACQUIRE)) __atomic_store_n(&registers, (__typeof__(registers))dlsym(RTLD_NEXT, "__register_atfork"), __ATOMIC_RELEASE);
}

/* What pthread_atfork calls, which each object has in itself. An object that the program needs begins before this library does; its handlers of forks come
 * before the library's all the same: they may wait for a thread, which needs a guard at its end. */
int __register_atfork(void (*prepare)(void), void (*parent)(void), void (*child)(void), void *object) {
    extern void *__dso_handle __attribute__((visibility("hidden")));
    if (object != __dso_handle) shfl_begin_process();
    return registers(prepare, parent, child, object);
}
