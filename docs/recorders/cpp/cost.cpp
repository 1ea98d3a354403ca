// ./cost calls|locks THREADS STEPS: how many microseconds each call of a counter takes, or each taking and giving back of a mutex: the
// time of the run by the number of steps of all threads. Without a recorder the counter is a number under a mutex of its own.
#include "rdrecord.hpp"

#ifdef BY_HAND
using Threads = std::vector<rd::Thread>;
using Mutex = rd::Mutex;
#else
using Threads = std::vector<std::thread>;
using Mutex = std::mutex;
#endif

struct Plain {
    std::mutex whole;
    long long total = 0;
    void add(long long amount) {
        std::lock_guard held(whole);
        total += amount;
    }
};

int main(int, char** words) {
    bool calls = std::string(words[1]) == "calls", recorded = rd::own::library();
    int threads = std::atoi(words[2]), steps = std::atoi(words[3]) / threads;
#ifdef BY_HAND
    rd::Recorder recorder(std::getenv("RDRECORD"));
    recorded = true;
#endif
    rd::Counter counter(0, "counter");
    Plain plain;
    Mutex mutex;
    auto begun = std::chrono::steady_clock::now();
    Threads all;
    for (int n = 0; n < threads; n++)
        all.emplace_back([&] {
            for (int step = 0; step < steps; step++) {
                if (!calls) std::lock_guard held(mutex);
                else if (recorded) counter.add(1);
                else plain.add(1);
            }
        });
    for (auto& each : all) each.join();
    std::chrono::duration<double, std::micro> time = std::chrono::steady_clock::now() - begun;
    std::printf("%.2f ", time.count() / (steps * threads));
}
