// The locks of libshfl.h as C++ knows locks: std::lock_guard, unique_lock, shared_lock and scoped_lock work with them, and
// condition_variable waits with a unique_lock. An error is a std::system_error.
#ifndef LIBSHFL_HPP
#define LIBSHFL_HPP
#include <chrono>
#include <condition_variable>
#include <mutex>
#include <shared_mutex>
#include <system_error>
#include "libshfl.h"

namespace shfl {

namespace detail {
inline void done(int error) {
    if (error) throw std::system_error(error, std::generic_category());
}

// What EBUSY or ETIMEDOUT says is an answer.
inline bool got(int error) {
    if (error == EBUSY || error == ETIMEDOUT) return false;
    done(error);
    return true;
}

inline timespec spec_of(std::chrono::nanoseconds since) {
    auto whole = std::chrono::floor<std::chrono::seconds>(since);
    return {static_cast<time_t>(whole.count()), static_cast<long>((since - whole).count())};
}

// A deadline that no clock reaches stands for one that is too late to be told.
template <class Duration> timespec after(Duration wait) {
    auto now = std::chrono::steady_clock::now().time_since_epoch();
    auto most = std::chrono::nanoseconds::max() - std::chrono::duration_cast<std::chrono::nanoseconds>(now);
    if (std::chrono::duration<double>(wait) >= std::chrono::duration<double>(most)) return spec_of(std::chrono::nanoseconds::max());
    if (wait <= Duration::zero()) return spec_of(now);
    return spec_of(now + std::chrono::ceil<std::chrono::nanoseconds>(wait));
}

// How long it is until then: no time where that has passed, since the earliest times lie further back than can be told.
template <class Clock, class Duration> auto left_until(const std::chrono::time_point<Clock, Duration> &deadline) {
    auto now = Clock::now();
    using Left = decltype(deadline - now);
    using Real = std::chrono::duration<double>;
    // (in coarse units it may lie further ahead than the difference can be told)
    if (Real(deadline.time_since_epoch()) - Real(now.time_since_epoch()) >= Real(Left::max())) return Left::max();
    return deadline > now ? deadline - now : Left::zero();
}

// Tries until a clock of any kind says so.
template <class Clock, class Duration, class Try> bool until(const std::chrono::time_point<Clock, Duration> &deadline, Try once) {
    for (;;) {
        if (once(after(left_until(deadline)))) return true;
        if (Clock::now() >= deadline) return false;
    }
}
} // namespace detail

class mutex {
  public:
    constexpr mutex() noexcept = default;
    explicit mutex(unsigned class_of) { detail::done(shfl_mutex_init(&lock_, class_of)); }
    ~mutex() { shfl_mutex_destroy(&lock_); }
    mutex(const mutex &) = delete;
    mutex &operator=(const mutex &) = delete;
    void lock() { detail::done(shfl_mutex_lock(&lock_)); }
    bool try_lock() { return detail::got(shfl_mutex_trylock(&lock_)); }
    void unlock() { shfl_mutex_unlock(&lock_); }
    using native_handle_type = shfl_mutex_t *;
    native_handle_type native_handle() { return &lock_; }

  protected:
    shfl_mutex_t lock_ = SHFL_MUTEX_INIT;
};

// A timed call never queues (libshfl.h).
class timed_mutex : public mutex {
  public:
    using mutex::mutex;
    template <class Rep, class Period> bool try_lock_for(const std::chrono::duration<Rep, Period> &wait) { return try_at(detail::after(wait)); }
    template <class Clock, class Duration> bool try_lock_until(const std::chrono::time_point<Clock, Duration> &deadline) {
        return detail::until(deadline, [this](timespec at) { return try_at(at); });
    }

  private:
    bool try_at(timespec at) { return detail::got(shfl_mutex_timedlock(&lock_, &at)); }
};

class shared_mutex {
  public:
    constexpr shared_mutex() noexcept = default;
    explicit shared_mutex(unsigned class_of) { detail::done(shfl_rwlock_init(&lock_, class_of)); }
    ~shared_mutex() { shfl_rwlock_destroy(&lock_); }
    shared_mutex(const shared_mutex &) = delete;
    shared_mutex &operator=(const shared_mutex &) = delete;
    void lock() { detail::done(shfl_rwlock_wrlock(&lock_)); }
    bool try_lock() { return detail::got(shfl_rwlock_trywrlock(&lock_)); }
    void unlock() { shfl_rwlock_unlock(&lock_); }
    void lock_shared() { detail::done(shfl_rwlock_rdlock(&lock_)); }
    bool try_lock_shared() { return detail::got(shfl_rwlock_tryrdlock(&lock_)); }
    void unlock_shared() { shfl_rwlock_unlock(&lock_); }
    using native_handle_type = shfl_rwlock_t *;
    native_handle_type native_handle() { return &lock_; }

  private:
    shfl_rwlock_t lock_ = SHFL_RWLOCK_INIT;
};

// It waits with std::unique_lock<shfl::mutex>, or of a timed_mutex.
class condition_variable {
  public:
    constexpr condition_variable() noexcept = default;
    ~condition_variable() { shfl_cond_destroy(&cond_); }
    condition_variable(const condition_variable &) = delete;
    condition_variable &operator=(const condition_variable &) = delete;
    void notify_one() noexcept { shfl_cond_signal(&cond_); }
    void notify_all() noexcept { shfl_cond_broadcast(&cond_); }
    template <class Mutex> void wait(std::unique_lock<Mutex> &held) { detail::done(shfl_cond_wait(&cond_, held.mutex()->native_handle())); }
    template <class Mutex, class Predicate> void wait(std::unique_lock<Mutex> &held, Predicate ready) {
        while (!ready()) wait(held);
    }
    template <class Mutex, class Clock, class Duration>
    std::cv_status wait_until(std::unique_lock<Mutex> &held, const std::chrono::time_point<Clock, Duration> &deadline) {
        timespec at = detail::after(detail::left_until(deadline));
        if (detail::got(shfl_cond_timedwait(&cond_, held.mutex()->native_handle(), &at))) return std::cv_status::no_timeout;
        return Clock::now() < deadline ? std::cv_status::no_timeout : std::cv_status::timeout;
    }
    template <class Mutex, class Clock, class Duration, class Predicate>
    bool wait_until(std::unique_lock<Mutex> &held, const std::chrono::time_point<Clock, Duration> &deadline, Predicate ready) {
        while (!ready())
            if (wait_until(held, deadline) == std::cv_status::timeout) return ready();
        return true;
    }
    template <class Mutex, class Rep, class Period>
    std::cv_status wait_for(std::unique_lock<Mutex> &held, const std::chrono::duration<Rep, Period> &wait) {
        timespec at = detail::after(wait);
        return detail::got(shfl_cond_timedwait(&cond_, held.mutex()->native_handle(), &at)) ? std::cv_status::no_timeout : std::cv_status::timeout;
    }
    template <class Mutex, class Rep, class Period, class Predicate>
    bool wait_for(std::unique_lock<Mutex> &held, const std::chrono::duration<Rep, Period> &wait, Predicate ready) {
        timespec at = detail::after(wait);
        while (!ready())
            if (!detail::got(shfl_cond_timedwait(&cond_, held.mutex()->native_handle(), &at))) return ready();
        return true;
    }

  private:
    shfl_cond_t cond_ = SHFL_COND_INIT;
};

} // namespace shfl
#endif
