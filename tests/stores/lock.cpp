// Threads that look again and again, and one that calls now and then: how many looks a caller waits for.
//
// Usage: lock LOOKERS CALLS
//
// Prints for how many calls more than three looks were made, from just before it asked for the lock until it had it, and the median
// number of looks between two calls. (A caller that stops between the count and the lock waits for as many as come meanwhile.)
#include "lock.h"

#include <algorithm>
#include <chrono>
#include <cstdio>
#include <cstdlib>
#include <vector>

int main(int, char **words) {
    Lock lock;
    std::atomic<bool> is_over{false};
    std::atomic<long> looks{0};
    std::vector<std::thread> threads;
    for (int i = 0; i < std::atoi(words[1]); i++)
        threads.emplace_back([&] {
            while (!is_over) {
                lock.lock_to_look();
                looks++;
                lock.unlock();
            }
        });
    int waited = 0;
    long before = 0;
    std::vector<long> between;
    for (int call = 0; call < std::atoi(words[2]); call++) {
        // On a busy machine it may take long until somebody looks again.
        do std::this_thread::sleep_for(std::chrono::microseconds(200));
        while (looks == before);
        auto asked = looks.load();
        lock.lock();
        auto now = looks.load();
        lock.unlock();
        waited += now > asked + 3;
        between.push_back(now - before);
        before = now;
    }
    is_over = true;
    for (auto &thread : threads) thread.join();
    std::sort(between.begin(), between.end());
    std::printf("%d %ld\n", waited, between[between.size() / 2]);
}
