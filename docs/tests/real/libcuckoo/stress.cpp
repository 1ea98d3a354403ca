// ./stress own|locked|counted|shared THREADS CALLS: threads use one map of libcuckoo at a time.
//   own      each has keys of its own
//   locked   all have the same keys, under a mutex of the program
//   counted  all add to the same keys by upsert, which is one step
//   shared   all have the same keys, without a mutex
#include "rdrecord.hpp"
#include <libcuckoo/cuckoohash_map.hh>
#include <cstdlib>
#include <iostream>

using Map = libcuckoo::cuckoohash_map<int, int>;
using Place = rd::Place;

// The map as a dictionary.
struct Dictionary : rd::Object {
    Map map;
    Dictionary() : Object("dictionary", "map") {}
    std::optional<int> find(int key, Place at = Place::current()) {
        return call(at, "get", [&] { return now(key); }, key);
    }
    void insert_or_assign(int key, int value, Place at = Place::current()) {
        call(at, "put", [&] {
            auto old = now(key);
            map.insert_or_assign(key, value);
            return old;
        }, key, value);
    }
    void erase(int key, Place at = Place::current()) {
        call(at, "put", [&] {
            auto old = now(key);
            map.erase(key);
            return old;
        }, key, std::nullopt);
    }
    long size(Place at = Place::current()) { return call(at, "size", [&] { return static_cast<long>(map.size()); }); }
private:
    std::optional<int> now(int key) const {
        int value;
        return map.find(key, value) ? std::optional<int>(value) : std::nullopt;
    }
};

// The map as how often each key was met.
struct Tally : rd::Object {
    Map map;
    Tally() : Object("tally", "counts") {}
    void hit(int key, Place at = Place::current()) {
        call(at, "hit", [&] { map.upsert(key, [](int& count) { count++; }, 1); }, key);
    }
    int count(int key, Place at = Place::current()) {
        return call(at, "count", [&] {
            int value;
            return map.find(key, value) ? value : 0;
        }, key);
    }
};

int main(int, char** words) {
    std::string mode = words[1];
    int threads = std::atoi(words[2]), calls = std::atoi(words[3]), sum = 0;
    Dictionary map;
    Tally counts;
    std::mutex guard;
    auto work = [&](int number) {
        for (int n = 0; n < calls; n++) {
            int key = mode == "own" ? number + threads * (n % 50) : n % 50;
            if (mode == "counted") {
                counts.hit(key);
                continue;
            }
            std::unique_lock held(guard, std::defer_lock);
            if (mode == "locked") held.lock();
            int old = map.find(key).value_or(0);
            if (n % 7) map.insert_or_assign(key, old + 1);
            else map.erase(key);
        }
    };
    std::vector<std::thread> all;
    for (int n = 0; n < threads; n++) all.emplace_back(work, n);
    for (auto& each : all) each.join();
    for (int key = 0; mode == "counted" && key < 50; key++) sum += counts.count(key);
    std::cout << map.size() << ' ' << sum << '\n';
    return mode == "counted" && sum != threads * calls;
}
