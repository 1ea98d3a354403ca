// ./unchanged clean|race: threads and locks of the C and C++ libraries, as a program has them that knows of no recorder, and recorded
// objects that they order; in a race one call has no order. It is run with librdpreload.so, or compiled for rdmemory.c.
#include "rdrecord.hpp"
#include "rdcalls.h"
#include <array>
#include <csignal>
#include <future>
#include <pthread.h>
#include <semaphore.h>
#include <sys/wait.h>
#include <threads.h>
#include <unistd.h>

#if defined(__SANITIZE_THREAD__)
constexpr bool compiled = true;                              // then atomic variables are recorded too
#else
constexpr bool compiled = false;
#endif

static void want(bool is) {
    if (!is) throw std::logic_error("it isn't so");
}
static void add(rd::Register<int>& to, int amount) { to.write(to.read() + amount); }

static void mutexes(bool race) {
    rd::Register<int> sum(0, "sum"), setting(1, "setting"), first(0, "first");
    std::mutex guard;
    std::recursive_mutex again;
    std::shared_mutex shared;
    std::once_flag once;
    pthread_spinlock_t spin;
    pthread_spin_init(&spin, 0);
    std::vector<std::thread> threads;
    for (int n = 0; n < 3; n++)
        threads.emplace_back([&, n] {
            std::call_once(once, [&] { first.write(1); });
            want(first.read() == 1);
            for (int k = 0; k < 3; k++) {
                std::lock_guard held(guard);
                add(sum, 1);
            }
            {
                std::scoped_lock outer(again, guard);
                std::lock_guard inner(again);
                add(sum, 1);
            }
            if (n) {
                std::shared_lock held(shared);
                setting.read();
            } else {
                std::unique_lock held(shared);
                setting.write(2);
            }
            pthread_spin_lock(&spin);
            { std::lock_guard held(guard); add(sum, 1); }
            pthread_spin_unlock(&spin);
        });
    if (race) setting.write(3);
    for (auto& each : threads) each.join();
    want(sum.read() == 15);
    pthread_spin_destroy(&spin);
}

// A mutex that one thread takes and another gives back, twice over: also when the taker has ended and was joined.
static void handed_on() {
    rd::Register<int> box(0, "box");
    pthread_mutex_t mutex = PTHREAD_MUTEX_INITIALIZER;
    sem_t told;
    sem_init(&told, 0, 0);
    for (int n = 0; n < 2; n++) {
        std::thread taker([&] {
            pthread_mutex_lock(&mutex);
            add(box, 1);
            sem_post(&told);
        });
        std::thread other([&] {
            pthread_mutex_lock(&mutex);
            add(box, 1);
            pthread_mutex_unlock(&mutex);
        });
        sem_wait(&told);
        if (n) {
            pthread_mutex_unlock(&mutex);                    // box was changed by the taker or by the other and the taker
            taker.join();
        } else {
            pthread_mutex_unlock(&mutex);
            taker.join();
        }
        other.join();
    }
    pthread_mutex_t late = PTHREAD_MUTEX_INITIALIZER;
    std::thread([&] { pthread_mutex_lock(&late); add(box, 1); }).join();
    std::thread waits([&] { pthread_mutex_lock(&late); add(box, 1); pthread_mutex_unlock(&late); });
    add(box, 1);
    pthread_mutex_unlock(&late);
    waits.join();
    want(box.read() == 7);
    sem_destroy(&told);
}

// A pool: its tasks come through a queue of its own, and their ends by a condition.
static void pool() {
    rd::Register<int> work(0, "work");
    std::mutex guard;
    std::condition_variable some, ended;
    std::deque<std::function<void()>> tasks;
    bool stop = false;
    int left = 6;
    std::vector<std::thread> workers;
    for (int n = 0; n < 2; n++)
        workers.emplace_back([&] {
            for (;;) {
                std::unique_lock held(guard);
                some.wait(held, [&] { return stop || !tasks.empty(); });
                if (tasks.empty()) return;
                auto task = std::move(tasks.front());
                tasks.pop_front();
                held.unlock();
                task();
                held.lock();
                if (--left == 0) ended.notify_all();
            }
        });
    std::vector<std::unique_ptr<rd::Register<int>>> results;
    for (int n = 0; n < 6; n++) results.push_back(std::make_unique<rd::Register<int>>(0));
    for (int n = 0; n < 6; n++) {
        std::lock_guard held(guard);
        tasks.push_back([&, n] { results[n]->write(n); });
        some.notify_one();
    }
    {
        std::unique_lock held(guard);
        ended.wait_for(held, std::chrono::seconds(60), [&] { return left == 0; });
        stop = true;
    }
    some.notify_all();
    for (auto& each : results) add(work, each->read());
    for (auto& each : workers) each.join();
    want(work.read() == 15);
    auto answer = std::async(std::launch::async, [&] { work.write(1); return 2; });
    want(answer.get() == 2 && work.read() == 1);
}

static void rounds() {
    rd::Register<int> left(0, "left"), right(0, "right");
    pthread_barrier_t both;
    pthread_barrier_init(&both, nullptr, 2);
    auto turn = [&](rd::Register<int>& own, rd::Register<int>& others) {
        for (int n = 0; n < 4; n++) {
            own.write(n);
            pthread_barrier_wait(&both);
            want(others.read() == n);
            pthread_barrier_wait(&both);
        }
    };
    std::thread one([&] { turn(left, right); }), two([&] { turn(right, left); });
    one.join();
    two.join();
    pthread_barrier_destroy(&both);
}

static mtx_t plain;
static rd::Register<int>* counted;
static int counts(void*) {
    mtx_lock(&plain);
    add(*counted, 1);
    mtx_unlock(&plain);
    return 4;
}
static pthread_mutex_t never = PTHREAD_MUTEX_INITIALIZER;
static pthread_cond_t nobody = PTHREAD_COND_INITIALIZER;
static void* waits_for_ever(void*) {
    pthread_mutex_lock(&never);
    pthread_cleanup_push([](void*) { add(*counted, 1); pthread_mutex_unlock(&never); }, nullptr);
    for (;;) pthread_cond_wait(&nobody, &never);
    pthread_cleanup_pop(0);
}

// Threads of the C library, one that is cancelled as it waits, one that nobody joins, and a child process.
static void others() {
    rd::Register<int> seen(0, "seen");
    counted = &seen;
    mtx_init(&plain, mtx_plain);
    std::array<thrd_t, 2> threads;
    for (auto& each : threads) thrd_create(&each, counts, nullptr);
    int result = 0;
    for (auto& each : threads) want(thrd_join(each, &result) == thrd_success && result == 4);
    pthread_t waiter;
    pthread_create(&waiter, nullptr, waits_for_ever, nullptr);
    pthread_cancel(waiter);
    pthread_join(waiter, nullptr);
    sem_t end;
    sem_init(&end, 0, 0);
    std::thread([&] { add(seen, 1); sem_post(&end); }).detach();
    sem_wait(&end);
    want(seen.read() >= 3);
    if (pid_t child = fork()) {
        int status = 1;
        want(waitpid(child, &status, 0) == child && status == 0);
    } else {
        std::thread([&] { seen.write(9); }).join();
        _exit(seen.read() == 9 ? 0 : 1);
    }
}

// Values that change, that are long, and that have their own equality.
static void values() {
    struct Point { int x, y; bool operator==(const Point&) const = default; };
    rd::Register<std::vector<int>> list(std::vector<int>{1}, "list");
    auto more = list.read();
    more.push_back(2);
    list.write(more);
    want(list.read().size() == 2);
    rd::Dictionary<std::string, Point> points({}, "points");
    std::string name(400, 'n');
    points.put(name + "a", {1, 2});
    points.put(name + "b", {1, 3});
    want(points.get(name + "a")->y == 2 && points.size() == 2);
    rd::Register<std::shared_ptr<int>> shared(std::make_shared<int>(1), "shared");
    shared.write(std::make_shared<int>(1));
    want(*shared.read() == 1);
    rd::Register<double> number(0.5, "number");
    number.write(-0.0);
    want(number.read() == 0);
    rd_object held = rd_new("dictionary", "held");
    rd_begin();
    RD_CALL(held, "put", rd_nil(), rd_text(name.c_str()), rd_truth(1));
    rd_end();
    rd_begin();
    RD_CALL(held, "get", rd_truth(1), rd_text(name.c_str()));
    rd_end();
}

// A static variable of a function is made by the first who comes.
struct Settings { rd::Register<int> size{3, "size"}; };
static Settings& settings() {
    static Settings made;
    return made;
}
static void statics() {
    std::vector<std::thread> threads;
    for (int n = 0; n < 3; n++) threads.emplace_back([] { want(settings().size.read() == 3); });
    for (auto& each : threads) each.join();
}

// What only a compiled program tells: atomic variables, and a promise.
static void atomics() {
    rd::Register<int> news(0, "news"), kept(0, "kept");
    std::atomic<bool> ready{false};
    std::promise<int> promise;
    std::thread teller([&] {
        news.write(1);
        ready = true;
        kept.write(2);
        promise.set_value(5);
    });
    while (!ready) std::this_thread::yield();
    want(news.read() == 1 && promise.get_future().get() == 5 && kept.read() == 2);
    teller.join();
}

int main(int, char** words) {
    values();
    mutexes(std::string(words[1]) == "race");
    handed_on();
    pool();
    rounds();
    statics();
    if (compiled) atomics();
    others();
}
