// The classes of libshfl.hpp with the standard's guards.
#include <cstdio>
#include <cstdlib>
#include <libshfl.hpp>
#include <thread>
#include <type_traits>
#include <vector>

#define MUST(fact)                                                                    \
    do {                                                                              \
        if (!(fact)) std::fprintf(stderr, "locks.cpp, line %d: %s\n", __LINE__, #fact), std::exit(1); \
    } while (0)

using namespace std::chrono_literals;

static void counts() {
    static shfl::mutex one, two(1);
    static shfl::shared_mutex shared;
    long count = 0, pair[2] = {0, 0};
    std::vector<std::thread> threads;
    for (int k = 0; k < 8; k++)
        threads.emplace_back([&] {
            for (int r = 0; r < 2000; r++) {
                std::scoped_lock both(one, two);
                count++;
                if (r % 8) {
                    std::shared_lock reads(shared);
                    MUST(pair[0] == pair[1]);
                } else {
                    std::unique_lock writes(shared);
                    pair[0]++, pair[1]++;
                }
            }
        });
    for (auto &thread : threads) thread.join();
    MUST(count == 16000 && pair[0] == 2000);
}

static void times() {
    shfl::timed_mutex m;
    m.lock();
    std::thread([&] {
        auto begun = std::chrono::steady_clock::now();
        MUST(!m.try_lock());
        MUST(!m.try_lock_for(20ms));
        MUST(!m.try_lock_until(std::chrono::system_clock::now() + 20ms));
        auto took = std::chrono::steady_clock::now() - begun;
        MUST(took >= 40ms);
    }).join();
    m.unlock();
    MUST(m.try_lock_for(0s));
    m.unlock();
    MUST(m.try_lock_for(std::chrono::hours(24 * 365 * 1000)));
    m.unlock();
}

static void conditions() {
    shfl::mutex m;
    shfl::condition_variable changed;
    bool ready = false;
    std::unique_lock held(m);
    auto begun = std::chrono::steady_clock::now();
    MUST(changed.wait_for(held, 30ms) == std::cv_status::timeout);
    MUST(!changed.wait_for(held, 30ms, [&] { return ready; }));
    MUST(changed.wait_until(held, std::chrono::system_clock::now() + 30ms) == std::cv_status::timeout);
    auto took = std::chrono::steady_clock::now() - begun;
    MUST(took >= 90ms && took < 20s);
    std::thread other([&] {
        std::lock_guard guard(m);
        ready = true;
        changed.notify_all();
    });
    changed.wait(held, [&] { return ready; });
    held.unlock();
    other.join();
}

// Deadlines that no clock reaches, and those that each clock has passed.
static void far_deadlines() {
    shfl::timed_mutex m;
    shfl::condition_variable changed;
    bool ready = false;
    std::unique_lock held(m);
    MUST(changed.wait_until(held, std::chrono::steady_clock::time_point::min()) == std::cv_status::timeout);
    MUST(!changed.wait_until(held, std::chrono::system_clock::time_point::min(), [] { return false; }));
    std::thread([&] { MUST(!m.try_lock_until(std::chrono::steady_clock::time_point::min())); }).join();
    std::thread other([&] {
        std::unique_lock its(m);
        MUST(changed.wait_for(its, std::chrono::hours::max(), [&] { return ready; }));
        MUST(changed.wait_until(its, std::chrono::steady_clock::time_point::max(), [&] { return ready; }));
    });
    held.unlock();
    std::this_thread::sleep_for(30ms);
    held.lock();
    ready = true;
    changed.notify_all();
    held.unlock();
    other.join();
}

template <class Lock> constexpr bool is_a_lock = sizeof(Lock) == 16 && !std::is_copy_constructible_v<Lock> && !std::is_copy_assignable_v<Lock>;
static_assert(is_a_lock<shfl::mutex> && is_a_lock<shfl::timed_mutex> && is_a_lock<shfl::shared_mutex> && is_a_lock<shfl::condition_variable>);

// What another thread is answered.
template <class Call> static bool beside(Call call) {
    bool told = false;
    std::thread([&] { told = call(); }).join();
    return told;
}

static void tries() {
    shfl::shared_mutex lock(3);
    std::shared_lock reads(lock, std::try_to_lock);
    MUST(reads.owns_lock() && beside([&] { return !lock.try_lock(); }));
    MUST(beside([&] { return lock.try_lock_shared() && (lock.unlock_shared(), true); }));
    reads.unlock();
    std::unique_lock writes(lock, std::try_to_lock);
    MUST(writes.owns_lock() && beside([&] { return !lock.try_lock_shared() && !lock.try_lock(); }));
    struct shfl_stat it;
    MUST(shfl_stat(lock.native_handle(), &it) == 0 && it.taken == 3 && it.contended == 3);
}

// One waits with each kind of condition variable, until one is notified.
template <class Condition> static void is_notified() {
    shfl::timed_mutex m;
    Condition changed;
    int turn = 0;
    std::thread other([&] {
        std::unique_lock held(m);
        MUST(changed.wait_for(held, 60s, [&] { return turn == 1; }));
        turn = 2;
        changed.notify_one();
    });
    std::unique_lock held(m);
    turn = 1;
    changed.notify_one();
    MUST(changed.wait_until(held, std::chrono::system_clock::now() + 60s, [&] { return turn == 2; }));
    held.unlock();
    other.join();
}

// Ends with its memory as soon as who waits was notified, and has yet to leave.
static void ends_at_once() {
    for (int r = 0; r < 50; r++) {
        shfl::mutex m;
        bool waits = false, may_go = false;
        auto *changed = new shfl::condition_variable;
        std::thread other([&] {
            std::unique_lock held(m);
            waits = true;
            changed->wait(held, [&] { return may_go; });
        });
        while (!may_go) {
            std::lock_guard held(m);
            if (!waits) continue;
            may_go = true;
            changed->notify_all();
            delete changed;
        }
        other.join();
    }
}

static void errors() {
    shfl::mutex m;
    m.lock();
    try {
        m.lock();
        MUST(false);
    } catch (const std::system_error &error) {
        MUST(error.code() == std::errc::resource_deadlock_would_occur);
    }
    m.unlock();
    try {
        shfl::mutex none(64);
        MUST(false);
    } catch (const std::system_error &error) {
        MUST(error.code() == std::errc::invalid_argument);
    }
}

int main() {
    counts();
    times();
    conditions();
    far_deadlines();
    tries();
    is_notified<shfl::condition_variable>();
    is_notified<std::condition_variable_any>();
    ends_at_once();
    errors();
    std::puts("the classes work with the standard's guards");
}
