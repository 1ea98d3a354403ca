// What atomic variables order. Part of rdmemory.c: the compiler calls a function here in place of each atomic operation.

/* A store that releases has a lock of its own, and what acquires by seeing it writes a pair of that: so the order is from a store to
   the loads that see it, and to what read-modify-write steps made of it. Relaxed ones order nothing. The operation and its lines are
   one step. A store by the thread whose lock nobody else has met keeps the lock; so does each one when names run short. */
enum { FEW_NAMES = 40000 };
static int fenced;                                   // with fences relaxed operations may order too: they are taken to, from then on

static int acquires(int order) { return fenced || order == __ATOMIC_CONSUME || order == __ATOMIC_ACQUIRE || order >= __ATOMIC_ACQ_REL; }
static int releases(int order) { return fenced || order == __ATOMIC_RELEASE || order >= __ATOMIC_ACQ_REL; }

// The variable at an address. Of very many some have one lock in common, which orders more.
static struct lock *variable_at(const volatile void *at, int make) {
    static int variables;
    static char common[1024];
    struct lock *found = lock_at((const void *)at, 'v', 0);
    if (found || (variables < 50000 && !make)) return found;
    if (variables < 50000) variables++;
    else at = &common[(uintptr_t)at / 4 % sizeof common];
    return lock_at((const void *)at, 'v', make);
}
// The lock of the latest store that released, in the first part; its holder is who alone has met it.
static struct lock *store_of(struct lock *variable) { return variable->parts ? variable->parts[0] : NULL; }
static void new_store(struct thread *t, struct lock *variable) {
    struct lock *is = store_of(variable);
    if (!variable->parts) variable->parts = room(sizeof *variable->parts);
    if (!is || (is->holder != t && locks < FEW_NAMES)) is = variable->parts[0] = new_lock('a', NULL);
    is->holder = t;
    pair(t, is);
}
static void was_loaded(struct thread *t, const volatile void *at, int order) {
    if (!acquires(order)) return;
    struct lock *variable = variable_at(at, 0), *is = variable ? store_of(variable) : NULL;
    if (!is || is->holder == t) return;
    reading_pair(t, is);
    is->holder = NULL;
}
static void is_stored(struct thread *t, const volatile void *at, int order) {
    struct lock *variable = variable_at(at, 0), *is = variable ? store_of(variable) : NULL;
    if (releases(order)) new_store(t, variable_at(at, 1));
    else if (is && is->holder != t) variable->parts[0] = NULL;
}
static void is_changed(struct thread *t, const volatile void *at, int order) {
    if (!releases(order)) {
        was_loaded(t, at, order);
        return;
    }
    struct lock *variable = variable_at(at, 1), *is = store_of(variable);
    if (!is) {
        new_store(t, variable);
        return;
    }
    if (is->holder != t) is->holder = NULL;
    pair(t, is);
}
static void static_made(uint64_t *guard) {
    struct thread *t = step();
    if (!t) return;
    is_stored(t, guard, __ATOMIC_RELEASE);
    done(t);
}
static void static_found(uint64_t *guard) {
    struct thread *t = step();
    if (!t) return;
    was_loaded(t, guard, __ATOMIC_ACQUIRE);
    done(t);
}

// One step with its lines, and a way for others behind it.
#define STEP(type, does, tells)                                                                 \
    struct thread *t = step();                                                                  \
    type result = does;                                                                         \
    if (t) {                                                                                    \
        tells;                                                                                  \
        done(t);                                                                                \
        shake();                                                                                \
    }                                                                                           \
    return result;
#define CHANGES(bits, type, name, does)                                                         \
    type __tsan_atomic##bits##_##name(volatile type *at, type value, int order) {               \
        STEP(type, does(at, value, __ATOMIC_SEQ_CST), is_changed(t, at, order))                 \
    }
#define COMPARES(bits, type, name)                                                              \
    int __tsan_atomic##bits##_##name(volatile type *at, type *expected, type value, int order, int failed) { \
        STEP(int, __atomic_compare_exchange_n(at, expected, value, 0, __ATOMIC_SEQ_CST, __ATOMIC_SEQ_CST), \
             if (result) is_changed(t, at, order); else was_loaded(t, at, failed))              \
    }
#define ATOMICS(bits, type)                                                                     \
    type __tsan_atomic##bits##_load(const volatile type *at, int order) {                       \
        STEP(type, __atomic_load_n(at, __ATOMIC_SEQ_CST), was_loaded(t, at, order))             \
    }                                                                                           \
    void __tsan_atomic##bits##_store(volatile type *at, type value, int order) {                \
        struct thread *t = step();                                                              \
        if (t) is_stored(t, at, order);                                                         \
        __atomic_store_n(at, value, __ATOMIC_SEQ_CST);                                          \
        if (t) done(t), shake();                                                                \
    }                                                                                           \
    CHANGES(bits, type, exchange, __atomic_exchange_n)                                          \
    CHANGES(bits, type, fetch_add, __atomic_fetch_add)                                          \
    CHANGES(bits, type, fetch_sub, __atomic_fetch_sub)                                          \
    CHANGES(bits, type, fetch_and, __atomic_fetch_and)                                          \
    CHANGES(bits, type, fetch_or, __atomic_fetch_or)                                            \
    CHANGES(bits, type, fetch_xor, __atomic_fetch_xor)                                          \
    CHANGES(bits, type, fetch_nand, __atomic_fetch_nand)                                        \
    COMPARES(bits, type, compare_exchange_strong)                                               \
    COMPARES(bits, type, compare_exchange_weak)                                                 \
    type __tsan_atomic##bits##_compare_exchange_val(volatile type *at, type expected, type value, int order, int failed) { \
        __tsan_atomic##bits##_compare_exchange_strong(at, &expected, value, order, failed);     \
        return expected;                                                                        \
    }
ATOMICS(8, uint8_t)
ATOMICS(16, uint16_t)
ATOMICS(32, uint32_t)
ATOMICS(64, uint64_t)
// Those of 16 bytes take turns, as some processors have no such operations.
static int wide;
#define TURN(does) take(&wide); type result = *at; does; give(&wide); return result;
typedef unsigned __int128 type;
static type load_wide(const volatile type *at) { TURN((void)0) }
static type change_wide(volatile type *at, type value, char how) {
    TURN(*at = how == '=' ? value : how == '+' ? *at + value : how == '-' ? *at - value : how == '&' ? (*at & value)
             : how == '|' ? (*at | value) : how == '^' ? (*at ^ value) : ~(*at & value))
}
static int compare_wide(volatile type *at, type *expected, type value) {
    take(&wide);
    int same = *at == *expected;
    if (same) *at = value;
    else *expected = *at;
    give(&wide);
    return same;
}
#define CHANGES_WIDE(name, how)                                                                 \
    type __tsan_atomic128_##name(volatile type *at, type value, int order) {                    \
        STEP(type, change_wide(at, value, how), is_changed(t, at, order))                       \
    }
#define COMPARES_WIDE(name)                                                                     \
    int __tsan_atomic128_##name(volatile type *at, type *expected, type value, int order, int failed) { \
        STEP(int, compare_wide(at, expected, value), if (result) is_changed(t, at, order); else was_loaded(t, at, failed)) \
    }
type __tsan_atomic128_load(const volatile type *at, int order) {
    STEP(type, load_wide(at), was_loaded(t, at, order))
}
void __tsan_atomic128_store(volatile type *at, type value, int order) {
    struct thread *t = step();
    if (t) is_stored(t, at, order);
    change_wide(at, value, '=');
    if (t) done(t), shake();
}
CHANGES_WIDE(exchange, '=')
CHANGES_WIDE(fetch_add, '+')
CHANGES_WIDE(fetch_sub, '-')
CHANGES_WIDE(fetch_and, '&')
CHANGES_WIDE(fetch_or, '|')
CHANGES_WIDE(fetch_xor, '^')
CHANGES_WIDE(fetch_nand, '~')
COMPARES_WIDE(compare_exchange_strong)
COMPARES_WIDE(compare_exchange_weak)
type __tsan_atomic128_compare_exchange_val(volatile type *at, type expected, type value, int order, int failed) {
    __tsan_atomic128_compare_exchange_strong(at, &expected, value, order, failed);
    return expected;
}
void __tsan_atomic_thread_fence(int order) {
    if (order != __ATOMIC_RELAXED) __atomic_store_n(&fenced, 1, __ATOMIC_SEQ_CST);
    __atomic_thread_fence(__ATOMIC_SEQ_CST);
}
void __tsan_atomic_signal_fence(int order) { (void)order; }
