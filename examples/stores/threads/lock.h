// The lock of a book, and the wait for its log.
#ifndef LOCK_H
#define LOCK_H

#include "files.h"

#include <atomic>
#include <condition_variable>
#include <cstdint>
#include <mutex>
#include <thread>

// A lock that callers get before those who look. A std::mutex is not fair: threads that look again and again keep it from a
// caller for ever so long.
class Lock {
  public:
    // For a call.
    void lock() {
        callers++;
        held.lock();
        std::lock_guard hold(gate);
        if (--callers == 0) quiet.notify_one();
    }
    // For a look, which waits while anybody wants to call. Of those who look one tries, and the others wait for their turn.
    void lock_to_look() {
        std::lock_guard turn(looker);
        for (;;) {
            std::unique_lock hold(gate);
            quiet.wait(hold, [this] { return callers == 0; });
            hold.unlock();
            held.lock();
            if (callers == 0) return;
            held.unlock();
        }
    }
    void unlock() { held.unlock(); }

  private:
    std::mutex held, looker, gate;
    std::condition_variable quiet;
    std::atomic<int> callers{0}; // that wait
};

// How many entries are durable. Who waits for that does not hold the book.
class Durable {
  public:
    std::uint64_t count() const { return entries; }
    // After a failure the book is ahead of its log: nothing may be called or told any more.
    void expect() const {
        if (failed) throw LogFailed("the log has failed");
    }
    bool has_failed() const { return failed; }

    void reach(std::uint64_t number) {
        std::lock_guard hold(lock);
        entries = number;
        reached.notify_all();
    }
    void fail() {
        std::lock_guard hold(lock);
        failed = true;
        reached.notify_all();
    }
    // Returns once so many are durable.
    void wait_for(std::uint64_t number) {
        if (entries >= number) return;
        std::unique_lock hold(lock);
        reached.wait(hold, [&] { return entries >= number || failed; });
        if (entries < number) expect();
    }

  private:
    std::mutex lock;
    std::condition_variable reached;
    std::atomic<std::uint64_t> entries{0};
    std::atomic<bool> failed{false};
};

#endif
