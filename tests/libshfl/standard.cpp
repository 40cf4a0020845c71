// The standard library's mutexes and condition variables, which are pthread's: run with libc's own, and, unchanged, under the preload library.
#include <atomic>
#include <chrono>
#include <condition_variable>
#include <cstdio>
#include <cstdlib>
#include <future>
#include <mutex>
#include <shared_mutex>
#include <thread>
#include <vector>

using namespace std::chrono_literals;
using steady = std::chrono::steady_clock;

static void must(bool held, const char *what) {
    if (held) return;
    std::fprintf(stderr, "standard.cpp: %s\n", what);
    std::exit(1);
}

static void counts() {
    std::mutex mutex;
    std::recursive_mutex again;
    std::shared_mutex shared;
    long count = 0, other = 0;
    std::vector<std::thread> threads;
    for (int k = 0; k < 4; k++)
        threads.emplace_back([&] {
            for (int r = 0; r < 500; r++) {
                std::scoped_lock both(mutex, again);
                std::lock_guard once_more(again);
                count++;
                if (r % 8) {
                    std::shared_lock reads(shared);
                    must(other >= 0, "a reader");
                } else {
                    std::unique_lock writes(shared);
                    other++;
                }
            }
        });
    for (auto &thread : threads) thread.join();
    must(count == 2000 && other == 4 * 63, "a count is lost");
}

static void deadlines() {
    std::timed_mutex mutex;
    std::shared_timed_mutex shared;
    std::mutex gate;
    std::condition_variable told;
    std::lock_guard held(mutex);
    std::lock_guard writes(shared);
    auto begin = steady::now();
    std::thread([&] {
        must(!mutex.try_lock_for(20ms), "try_lock_for");
        must(!mutex.try_lock_until(std::chrono::system_clock::now() + 20ms), "try_lock_until");
        must(!shared.try_lock_shared_for(20ms), "try_lock_shared_for");
        must(!shared.try_lock_until(std::chrono::system_clock::now() + 20ms), "try_lock_until of a shared one");
    }).join();
    std::unique_lock lock(gate);
    must(!told.wait_for(lock, 20ms, [] { return false; }), "wait_for");
    must(!told.wait_until(lock, std::chrono::system_clock::now() + 20ms, [] { return false; }), "wait_until");
    auto took = steady::now() - begin;
    must(took >= 119ms && took < 4s, "the deadlines");
}

int main() {
    counts();
    deadlines();
    must(std::async(std::launch::async, [] { return 7; }).get() == 7, "a future");
    std::puts("the standard library's locks count and time as they should");
}
