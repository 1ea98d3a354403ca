// ./stress joined|futures TASKS: tasks of a pool count words under a lock, and write a result each.
//   joined   the results are read when the pool is gone, whose workers are joined
//   futures  each is read when its future is ready
#include "rdrecord.hpp"
#include <cstdlib>
#include <iostream>
#include <thread_pool/thread_pool.hpp>

int main(int, char** words) {
    std::string mode = words[1];
    int tasks = std::atoi(words[2]), sum = 0;
    rd::Dictionary<int, int> counts({}, "counts"), results({}, "results");
    std::mutex guard;
    {
        thread_pool::ThreadPool pool(4);
        std::vector<std::future<int>> futures;
        for (int n = 0; n < tasks; n++)
            futures.push_back(pool.Submit([&, n] {
                {
                    std::lock_guard held(guard);
                    counts.put(n % 7, counts.get(n % 7).value_or(0) + 1);
                }
                results.put(n, n * n);
                return n;
            }));
        if (mode == "futures")
            for (auto& each : futures) sum += results.get(each.get()).value();
    }
    if (mode == "joined")
        for (int n = 0; n < tasks; n++) sum += results.get(n).value();
    std::cout << sum << ' ' << counts.size() << '\n';
    return counts.size() != std::min(tasks, 7);
}
