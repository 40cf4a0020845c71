/* races.h in the build for those who look for races. ThreadSanitizer's calls are weak, so the library serves programs without it too; helgrind's and
 * drd's requests are some instructions that do nothing outside valgrind, and are left out where its headers aren't there. Nothing of this is proved. */
#ifdef SHFL_ANNOTATE
#include "arenas.h"
#include "races.h"

/* as <sanitizer/tsan_interface.h>, which not every compiler has */
#define READS (1u << 3)
#define TRIES (1u << 4)
#define FAILED (1u << 5)
#define WEAK __attribute__((weak))
WEAK void __tsan_mutex_pre_lock(void *lock, unsigned flags);
WEAK void __tsan_mutex_post_lock(void *lock, unsigned flags, int recursion);
WEAK int __tsan_mutex_pre_unlock(void *lock, unsigned flags);
WEAK void __tsan_mutex_post_unlock(void *lock, unsigned flags);
WEAK void __tsan_mutex_destroy(void *lock, unsigned flags);
WEAK void AnnotateIgnoreReadsBegin(const char *file, int line);
WEAK void AnnotateIgnoreReadsEnd(const char *file, int line);
WEAK void AnnotateIgnoreWritesBegin(const char *file, int line);
WEAK void AnnotateIgnoreWritesEnd(const char *file, int line);

/* drd understands helgrind's requests about locks. */
#if __has_include(<valgrind/drd.h>) && __has_include(<valgrind/helgrind.h>)
#include <valgrind/drd.h>
#include <valgrind/helgrind.h>
static void tell_taken(void *lock, bool shared) { ANNOTATE_RWLOCK_ACQUIRED(lock, !shared); }
static void tell_giving(void *lock) { ANNOTATE_RWLOCK_RELEASED(lock, 1); }
static void tell_ended(void *lock) { ANNOTATE_RWLOCK_DESTROY(lock); }

void shfl_races_own(void *at, size_t size) {
    VALGRIND_DO_CLIENT_REQUEST_STMT(VG_USERREQ__DRD_START_SUPPRESSION, at, size, 0, 0, 0);
    VALGRIND_HG_DISABLE_CHECKING(at, size);
}
#else
static void tell_taken(void *lock, bool shared) { (void)lock, (void)shared; }
static void tell_giving(void *lock) { (void)lock; }
static void tell_ended(void *lock) { (void)lock; }
void shfl_races_own(void *at, size_t size) { (void)at, (void)size; }
#endif

static unsigned flags_of(bool shared, bool tries) { return (shared ? READS : 0) | (tries ? TRIES : 0); }

/* Until the call is over ThreadSanitizer looks at nothing that this thread does. */
void shfl_races_taking(uint32_t *word, bool shared, bool tries) {
    if (__tsan_mutex_pre_lock) __tsan_mutex_pre_lock(word, flags_of(shared, tries));
}

/* Where a call that doesn't only try is answered an error, ThreadSanitizer knows no word for it but that of one that tried. */
void shfl_races_taken(uint32_t *word, bool shared, bool tries, int error) {
    unsigned flags = flags_of(shared, tries || error) | (error ? FAILED : 0);
    if (__tsan_mutex_post_lock) __tsan_mutex_post_lock(word, flags, 1);
    if (!error) tell_taken(word, shared);
}

/* How this thread holds the lock, which is 0 where the call will be refused, and then nobody is told. */
int shfl_races_giving(uint32_t *word) {
    struct shfl_thread *me = shfl_me;
    uint32_t number = __atomic_load_n(word, __ATOMIC_ACQUIRE);
    int held = me && number != 0 ? shfl_hold(me, number - 1) : 0;
    if (held == 0) return 0;
    tell_giving(word);
    if (__tsan_mutex_pre_unlock) __tsan_mutex_pre_unlock(word, flags_of(held == 2, false));
    return held;
}

void shfl_races_given(uint32_t *word, int held) {
    if (held != 0 && __tsan_mutex_post_unlock) __tsan_mutex_post_unlock(word, flags_of(held == 2, false));
}

/* ThreadSanitizer sees the library's calls of the heap, and not how its threads come to meet there. */
void shfl_races_look_away(void) {
    if (AnnotateIgnoreReadsBegin) AnnotateIgnoreReadsBegin(__FILE__, __LINE__);
    if (AnnotateIgnoreWritesBegin) AnnotateIgnoreWritesBegin(__FILE__, __LINE__);
}

void shfl_races_look_again(void) {
    if (AnnotateIgnoreWritesEnd) AnnotateIgnoreWritesEnd(__FILE__, __LINE__);
    if (AnnotateIgnoreReadsEnd) AnnotateIgnoreReadsEnd(__FILE__, __LINE__);
}

void shfl_races_ended(uint32_t *word) {
    tell_ended(word);
    if (__tsan_mutex_destroy) __tsan_mutex_destroy(word, 0);
}
#else
/* a file of its own has something in it */
typedef int shfl_no_races;
#endif
