// The objects of rdrecord.hpp, which includes this file.
#pragma once

namespace rd {

// The base of recorded objects, of your own kinds too: each method hands what it does to `call`.
class Object {
    std::string name;
    std::recursive_mutex whole;                              // where no lock of the recorder makes a call one step
    static std::string file(const Place& at) {
        static const std::string here = [] {
            std::error_code none;
            return std::filesystem::current_path(none).string() + "/";
        }();
        std::string_view path = at.file_name();
        if (path.starts_with(here)) path.remove_prefix(here.size());
        return std::string(path) + ":" + std::to_string(at.line());
    }
    void write(const Place& at, const std::string& what) {
        if (own::library()) {
            rd_call_line(file(at).c_str(), what.c_str());
        } else if (const auto& is = who()) {
            line("# ", file(at));
            line("call ", is->name, " ", what);
        }
    }
public:
    // Writes the object's line. What it holds at first is then written as calls.
    Object(const char* kind, const std::string& given) {
        Step step;
        if (own::library()) {
            char made[64];
            rd_fresh(made, kind, given.c_str());
            rd_object_line(made, kind);
            name = made;
        } else {
            name = fresh(kind, given);
            count("objects", 65536);
            line("object ", name, " ", kind);
        }
    }
    Object(const Object&) = delete;
    // While it lives the calls on this object of the thread are one step.
    class Whole {
        Step step;
        std::unique_lock<std::recursive_mutex> held;
    public:
        explicit Whole(Object& object) {
            if (own::library()) held = std::unique_lock(object.whole);
        }
    };
    // Runs `run` and writes its call, of this method with these arguments, in one step; answers its result.
    template <class Run, class... Args>
    auto call(const Place& at, const char* method, Run run, const Args&... args) {
        std::string text = name + " " + method;
        (((text += " ") += spell(args)), ...);
        Whole whole(*this);
        if constexpr (std::is_void_v<decltype(run())>) {
            run();
            write(at, text + " -> nil");
        } else {
            auto result = run();
            write(at, text + " -> " + spell(result));
            return result;
        }
    }
};

// A variable. Where it begins with a value its first line is a write; reading one that has none throws.
template <class T> class Register : Object {
    std::optional<T> value;
public:
    Register(std::optional<T> first = {}, const std::string& given = "", Place at = Place::current())
        : Object("register", given) {
        if (first) write(*first, at);
    }
    // Its value.
    T read(Place at = Place::current()) { return call(at, "read", [&] { return value; }).value(); }
    // Gives it a value.
    void write(T next, Place at = Place::current()) { call(at, "write", [&] { value = next; }, next); }
    // Gives it a value, and answers the old one.
    std::optional<T> swap(T next, Place at = Place::current()) {
        return call(at, "swap", [&] { return std::exchange(value, next); }, next);
    }
    // Gives it a value where it has the expected one, and says whether it did.
    bool compare_and_set(const T& expected, T next, Place at = Place::current()) {
        Whole whole(*this);
        bool has = value == expected;
        if (has) swap(std::move(next), at);
        else call(at, "read", [&] { return value; });
        return has;
    }
};

// A number that is added to. Where it begins with another one than 0 its first line adds that.
class Counter : Object {
    long long total = 0;
public:
    explicit Counter(long long first = 0, const std::string& given = "", Place at = Place::current())
        : Object("counter", given) {
        if (first != 0) add(first, at);
    }
    // Adds.
    void add(long long amount, Place at = Place::current()) { call(at, "add", [&] { total += amount; }, amount); }
    // The number.
    long long get(Place at = Place::current()) { return call(at, "get", [&] { return total; }); }
};

// A set. Where it begins with items its first lines add them.
template <class K> class Set : Object {
    std::set<K> held;
public:
    explicit Set(const std::set<K>& first = {}, const std::string& given = "", Place at = Place::current())
        : Object("set", given) {
        for (const auto& item : first) insert(item, at);
    }
    // Adds an item, and says whether it was new.
    bool insert(const K& item, Place at = Place::current()) {
        return call(at, "add", [&] { return held.insert(item).second; }, item);
    }
    // Takes an item out, and says whether it was in.
    bool erase(const K& item, Place at = Place::current()) {
        return call(at, "remove", [&] { return held.erase(item) == 1; }, item);
    }
    // Whether an item is in.
    bool contains(const K& item, Place at = Place::current()) {
        return call(at, "contains", [&] { return held.count(item) == 1; }, item);
    }
    // How many items are in.
    long long size(Place at = Place::current()) {
        return call(at, "size", [&] { return static_cast<long long>(held.size()); });
    }
};

// A map. Where it begins with keys its first lines put them.
template <class K, class V> class Dictionary : Object {
    std::map<K, V> held;
    std::optional<V> of(const K& key) const {
        auto found = held.find(key);
        return found == held.end() ? std::nullopt : std::optional<V>(found->second);
    }
public:
    explicit Dictionary(const std::map<K, V>& first = {}, const std::string& given = "", Place at = Place::current())
        : Object("dictionary", given) {
        for (const auto& [key, value] : first) put(key, value, at);
    }
    // Gives a key a value, and answers its old one.
    std::optional<V> put(const K& key, const V& value, Place at = Place::current()) {
        return call(at, "put", [&] {
            auto old = of(key);
            held.insert_or_assign(key, value);
            return old;
        }, key, value);
    }
    // Takes a key out, and answers its value.
    std::optional<V> erase(const K& key, Place at = Place::current()) {
        return call(at, "put", [&] {
            auto old = of(key);
            held.erase(key);
            return old;
        }, key, std::nullopt);
    }
    // A key's value.
    std::optional<V> get(const K& key, Place at = Place::current()) {
        return call(at, "get", [&] { return of(key); }, key);
    }
    // Gives a key a value where it has none, and says whether it did.
    bool put_if_absent(const K& key, const V& value, Place at = Place::current()) {
        Whole whole(*this);
        bool absent = !held.contains(key);
        if (absent) put(key, value, at);
        else get(key, at);
        return absent;
    }
    // How many keys have a value.
    long long size(Place at = Place::current()) {
        return call(at, "size", [&] { return static_cast<long long>(held.size()); });
    }
};

// Items that may be in more than once. Where it begins with some its first lines add them.
template <class T> class Bag : Object {
    std::multiset<T> held;
public:
    explicit Bag(const std::multiset<T>& first = {}, const std::string& given = "", Place at = Place::current())
        : Object("bag", given) {
        for (const auto& item : first) insert(item, at);
    }
    // Adds an item once more.
    void insert(const T& item, Place at = Place::current()) { call(at, "add", [&] { held.insert(item); }, item); }
    // Takes an item out once, and says whether it was in.
    bool erase(const T& item, Place at = Place::current()) {
        return call(at, "remove", [&] {
            auto found = held.find(item);
            if (found == held.end()) return false;
            held.erase(found);
            return true;
        }, item);
    }
    // How often an item is in.
    long long count(const T& item, Place at = Place::current()) {
        return call(at, "count", [&] { return static_cast<long long>(held.count(item)); }, item);
    }
};

// The greatest number so far. Where it begins with one its first line raises it to that.
class Peak : Object {
    std::optional<long long> peak;
public:
    explicit Peak(std::optional<long long> first = {}, const std::string& given = "", Place at = Place::current())
        : Object("peak", given) {
        if (first) raise(*first, at);
    }
    // Keeps the greater of the peak and the number, and answers what the peak was; nothing the first time.
    std::optional<long long> raise(long long number, Place at = Place::current()) {
        return call(at, "raise", [&] { return std::exchange(peak, peak ? std::max(*peak, number) : number); }, number);
    }
    // The peak, if there is one.
    std::optional<long long> get(Place at = Place::current()) { return call(at, "get", [&] { return peak; }); }
};

// Items in a row, for which nobody waits: an object, which orders no threads. Where it begins with items its first lines put them.
template <class T> class ItemQueue : Object {
    std::deque<T> held;
public:
    explicit ItemQueue(const std::deque<T>& first = {}, const std::string& given = "", Place at = Place::current())
        : Object("queue", given) {
        for (const auto& item : first) enqueue(item, at);
    }
    // Puts an item last.
    void enqueue(const T& item, Place at = Place::current()) { call(at, "enqueue", [&] { held.push_back(item); }, item); }
    // Takes the first item, if there is one.
    std::optional<T> dequeue(Place at = Place::current()) {
        return call(at, "dequeue", [&] {
            if (held.empty()) return std::optional<T>();
            std::optional<T> first(std::move(held.front()));
            held.pop_front();
            return first;
        });
    }
    // How many items are in.
    long long size(Place at = Place::current()) {
        return call(at, "size", [&] { return static_cast<long long>(held.size()); });
    }
};

// How often each item was hit. It is empty at first.
template <class T> class Tally : Object {
    std::map<T, long long> held;
    long long hits = 0;
public:
    explicit Tally(const std::string& given = "") : Object("tally", given) {}
    // Counts an item once more.
    void hit(const T& item, Place at = Place::current()) { call(at, "hit", [&] { ++held[item]; ++hits; }, item); }
    // How often an item was hit.
    long long count(const T& item, Place at = Place::current()) {
        return call(at, "count", [&] {
            auto found = held.find(item);
            return found == held.end() ? 0LL : found->second;
        }, item);
    }
    // How often any was.
    long long total(Place at = Place::current()) { return call(at, "total", [&] { return hits; }); }
};
}  // namespace rd
