/* C++'s std::shared_mutex as a reader takes it, for bench/libshfl.c. A program in C++ has one call less. */
#include <shared_mutex>

alignas(128) static std::shared_mutex mutex;

extern "C" void shared_mutex_take(void) { mutex.lock_shared(); }
extern "C" void shared_mutex_give(void) { mutex.unlock_shared(); }
