// ./constructs clean|race OUT: what the recorder has, used once each; in a race one call has no order.
#include "rdrecord.hpp"

static void want(bool is) {
    if (!is) throw std::logic_error("it isn't so");
}

static void objects() {
    rd::Register<int> x(0, "x");
    rd::Register<std::string> text;
    rd::Counter count(5, "count");
    rd::Set<std::string> items({"i", "j"}, "items");
    rd::Dictionary<std::string, int> shelf({{"a", 1}}, "shelf");
    text.write("a b\"\\\x01");
    want(text.read().size() == 6 && count.get() == 5);
    want(x.compare_and_set(0, 1) && !x.compare_and_set(0, 2) && x.swap(3) == 1);
    want(items.erase("i") && !items.insert("j") && items.contains("j") && items.size() == 1);
    want(!shelf.put_if_absent("a", 2) && shelf.put_if_absent("b", 3) && shelf.erase("a") == 1 && !shelf.get("a"));
    want(shelf.put("b", 4) == 3 && shelf.size() == 1);
}

static void more() {
    rd::Bag<std::string> parts({"nut", "nut"}, "parts");
    rd::Peak high(3, "high"), none;
    rd::ItemQueue<std::string> jobs({"a", "b"}, "jobs");
    rd::Tally<std::string> words("words");
    rd::Mutex guard("guard");
    std::set<std::string> got;
    auto work = [&] {
        {
            std::lock_guard held(guard);
            got.insert(jobs.dequeue().value());
        }
        parts.insert("bolt");
        words.hit("x");
        high.raise(2);
    };
    rd::Thread first(work), second(work);
    first.join();
    second.join();
    want(got.size() == 2 && !jobs.dequeue() && jobs.size() == 0);
    want(parts.erase("nut") && parts.erase("nut") && !parts.erase("nut") && parts.count("bolt") == 2);
    want(high.raise(7) == 3 && high.get() == 7 && !none.get());
    want(words.count("x") == 2 && words.count("y") == 0 && words.total() == 2);
}

static void threads(bool race) {
    rd::Register<bool> box(false, "box");
    rd::Register<int> news(0, "news");
    rd::RecursiveMutex mutex("mutex");
    rd::Atomic<int> flag(0, "flag");
    rd::Queue<std::string> messages("messages");
    std::condition_variable_any full;
    bool is = false;
    rd::Thread waiter([&] {
        std::unique_lock held(mutex);
        full.wait(held, [&] { return is; });
        want(box.read());
    });
    rd::Thread teller([&] {
        news.write(9);
        flag.store(1);
        news.read();
        messages.put("read");
    });
    {
        std::scoped_lock held(mutex);
        box.write(true);
        is = true;
    }
    full.notify_all();
    if (race) box.read(), box.write(true);
    while (flag.load() == 0) {}
    want(news.read() == 9 && messages.get() == "read");
    news.write(0);
    waiter.join();
    teller.join();
}

// Readers who share a lock, a lock that another thread gives back, and a thread that isn't the recorder's.
static void locks(bool race) {
    rd::Register<int> setting(1, "setting"), box(0, "box");
    rd::SharedMutex shared("shared");
    rd::Mutex handed("handed"), late("late");
    rd::Queue<int> told("told");
    std::vector<rd::Thread> threads;
    for (int n = 0; n < 2; n++)
        threads.emplace_back([&] {
            std::shared_lock held(shared);
            setting.read();
        });
    threads.emplace_back([&] {
        std::lock_guard held(shared);
        setting.write(2);
    });
    if (race) {
        std::shared_lock held(shared);                       // a reader's, for a write
        setting.write(3);
    }
    for (auto& each : threads) each.join();
    auto add = [&](int amount) { box.write(box.read() + amount); };
    rd::Thread taker([&] {
        handed.lock();
        add(1);
        told.put(1);
    });
    told.get();
    add(1);
    handed.unlock();
    rd::Thread other([&] {
        std::lock_guard held(handed);
        add(1);
    });
    other.join();
    taker.join();
    rd::Thread ended([&] { late.lock(); add(1); });
    ended.join();
    late.unlock();
    std::thread unknown([&] {
        std::lock_guard held(late);
        add(1);
        told.put(2);
    });
    want(told.get() == 2 && box.read() == 5);
    unknown.join();
}

// Values that change, that are long, and that have their own equality.
static void values() {
    struct Point {
        int x, y;
        bool operator==(const Point&) const = default;
    };
    rd::Register<std::vector<int>> list(std::vector<int>{1}, "list");
    auto more = list.read();
    more.push_back(2);
    list.write(more);
    want(list.read().size() == 2);
    rd::Dictionary<std::string, Point> points({}, "points");
    std::string name(400, 'n');
    points.put(name + "a", {1, 2});
    points.put(name + "b", {1, 3});
    want(points.get(name + "a")->y == 2 && points.size() == 2);
    rd::Register<std::shared_ptr<int>> shared(std::make_shared<int>(1), "shared.value");
    shared.write(std::make_shared<int>(1));
    want(*shared.read() == 1);
    rd::Register<double> number(0.5, "number");
    number.write(-0.0);
    want(number.read() == 0);
    rd::Register<unsigned long> large(~0ul, "large");
    want(large.read() == ~0ul);
}

int main(int, char** words) {
    rd::Recorder recorder(words[2], "The constructs of the recorder.");
    objects();
    more();
    values();
    locks(std::string(words[1]) == "race");
    threads(std::string(words[1]) == "race");
}
