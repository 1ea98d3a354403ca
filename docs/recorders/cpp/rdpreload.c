/* Records the threads and locks of a program that is not changed, and the calls that rdcalls.h or rdrecord.hpp hand over:
       gcc -O2 -shared -fPIC rdpreload.c -o librdpreload.so -ldl
       LD_PRELOAD=./librdpreload.so RDRECORD=run.trace PROGRAM
   Each function here does what the C library's function of that name does, and writes the lines around it. */
#define _GNU_SOURCE
#include <dlfcn.h>
#include <semaphore.h>
#include <threads.h>
#include "rdtrace.h"

#define REAL(name) ((__typeof__(&name))real(&real_##name, #name, NULL))
#define REAL_OF(name, version) ((__typeof__(&name))real(&real_##name, #name, version))
#define KEPT(name) static void *real_##name;
static void *real(void **kept, const char *name, const char *version) {
    void *found = __atomic_load_n(kept, __ATOMIC_ACQUIRE);
    if (found) return found;
    if (version) found = dlvsym(RTLD_NEXT, name, version);
    if (!found) found = dlsym(RTLD_NEXT, name);
    if (!found) complain("the C library lacks", name), abort();
    __atomic_store_n(kept, found, __ATOMIC_RELEASE);
    return found;
}

__attribute__((constructor)) static void begin_early(void) { if (state == FRESH) start(); }
__attribute__((destructor)) static void end_late(void) { end(); }

// ---- Threads

static void register_thread(uint64_t id, struct thread *is) {
    if (is->registered) return;
    size_t slot = (id >> 4) * 0x9e3779b97f4a7c15u >> 51;
    while (known[slot].id && known[slot].id != id) slot = (slot + 1) % (2 * THREADS);
    known[slot].id = id;
    known[slot].is = is;
    is->registered = 1;
}
static struct thread *thread_of(pthread_t id) {
    struct thread *found = NULL;
    if (state != ON) return NULL;
    int entered = enter_gate();
    size_t slot = ((uint64_t)id >> 4) * 0x9e3779b97f4a7c15u >> 51;
    while (known[slot].id && known[slot].id != (uint64_t)id) slot = (slot + 1) % (2 * THREADS);
    if (known[slot].id) found = known[slot].is;
    leave_gate(entered);
    return found;
}
#ifdef RD_MEMORY
static void new_stack(void);
#endif
static void live(struct thread *is) {
    is->depth = is->gated = is->rests = 0;
    me = is;
    __atomic_store_n(&is->begun, 1, __ATOMIC_RELEASE);
    int entered = enter_gate();
    register_thread((uint64_t)pthread_self(), is);
    leave_gate(entered);
#ifdef RD_MEMORY
    new_stack();
#endif
}
static void *run_thread(void *as) {
    struct thread *is = as;
    live(is);
    return is->run(is->with);
}
static int run_thread_c11(void *as) {
    struct thread *is = as;
    live(is);
    return is->run_c11(is->with);
}
// The fork of a thread that is about to begin.
static struct thread *forked(void) {
    struct thread *t = step(), *made = NULL;
    if (!t) return NULL;
    if (logs) take(&gate);
    int gated = t->gated;
    t->gated = 1;
    made = new_thread("t", *next_name ? next_name : NULL, t);
    if (made) made->begun = 0;
    *next_name = 0;
    t->gated = gated;
    if (logs) give(&gate);
    done(t);
    return made;
}
static void began(struct thread *made, int failed, pthread_t id) {
    int entered = enter_gate();
    if (!failed) register_thread((uint64_t)id, made);
    else if (state == ON) comment_once(2, "a thread couldn't be started");
    leave_gate(entered);
    // On a busy machine it may begin late: mostly it is waited for a while, so that it and later ones run side by side.
    struct timespec time = {0, 100000};
    int kept = errno;
    for (int n = failed || !shaking || me->locks > 0 || me->draw % 8 == 0 ? 0 : 20; n && !__atomic_load_n(&made->begun, __ATOMIC_ACQUIRE); n--)
        syscall(SYS_clock_nanosleep, CLOCK_MONOTONIC, 0, &time, NULL);
    errno = kept;
    shake();
}
// The join of a thread that has ended.
static void joined(struct thread *ended) {
    struct thread *t = ended ? step() : NULL;
    if (!t) return;
    if (logs) take(&gate), t->gated = 1;
    if (threads >= REUSED_FROM && !ended->joined && ended != &all[0]) {
        if (!ended->lane) ended->lane = new_lock('n', NULL);
        pair(ended, ended->lane);
        pair(t, ended->lane);
        ended->joiner = t;
    } else {
        event(t, "join ", ended->name);
        ended->joined = 1;
    }
    done(t);
    shake();
}

KEPT(pthread_create)
int pthread_create(pthread_t *id, const pthread_attr_t *how, void *(*run)(void *), void *with) {
    struct thread *made = forked();
    if (!made) return REAL(pthread_create)(id, how, run, with);
    made->run = run;
    made->with = with;
    int failed = REAL(pthread_create)(id, how, run_thread, made);
    began(made, failed, *id);
    return failed;
}
KEPT(thrd_create)
int thrd_create(thrd_t *id, thrd_start_t run, void *with) {
    struct thread *made = forked();
    if (!made) return REAL(thrd_create)(id, run, with);
    made->run_c11 = run;
    made->with = with;
    int failed = REAL(thrd_create)(id, run_thread_c11, made);
    began(made, failed != thrd_success, *id);
    return failed;
}
#define JOINS(name, good, arguments, ...)                       \
    KEPT(name)                                                  \
    int name arguments {                                        \
        struct thread *which = thread_of(id);                   \
        int lent = lend(), failed = REAL(name)(__VA_ARGS__);    \
        take_back(lent);                                        \
        if (failed == good) joined(which);                      \
        return failed;                                          \
    }
JOINS(pthread_join, 0, (pthread_t id, void **result), id, result)
JOINS(pthread_tryjoin_np, 0, (pthread_t id, void **result), id, result)
JOINS(pthread_timedjoin_np, 0, (pthread_t id, void **result, const struct timespec *until), id, result, until)
JOINS(pthread_clockjoin_np, 0, (pthread_t id, void **result, clockid_t clock, const struct timespec *until), id, result, clock, until)
JOINS(thrd_join, thrd_success, (thrd_t id, int *result), id, result)

// ---- Locks that one thread has

// The holder's acquire is closed: another thread has given the lock back, or has it though no giving back was seen.
static void close_for(struct thread *t, struct lock *l) {
    struct thread *holder = l->holder;
    if (holder->joined) {
        event(t, "join ", holder->name);
        name_lock(l, NULL);
    } else {
        for (int n = 0; n < l->times; n++) event(holder, "release ", l->name);
    }
    __atomic_sub_fetch(&holder->locks, l->times, __ATOMIC_RELAXED);
    l->holder = NULL;
    l->times = 0;
}
static void taken(const void *at, char sort) {
    struct thread *t = step();
    if (!t) return;
    struct lock *l = lock_at(at, sort, 1);
    if (l->holder && l->holder != t) close_for(t, l);
    if (l->by_pairs) {
        pair(t, l);
    } else {
        acquire(t, l);
        l->holder = t;
        l->times++;
        __atomic_add_fetch(&t->locks, 1, __ATOMIC_RELAXED);
    }
    done(t);
}
// `strict`: a giving back by another thread fails, and does nothing.
static void giving(const void *at, char sort, int strict) {
    struct thread *t = step();
    if (!t) return;
    struct lock *l = lock_at(at, sort, 1);
    if (!l->by_pairs && l->holder != t && !strict) {
        comment_once(3, "a lock was given back by a thread that hasn't taken it: from here on it is written as pairs");
        if (l->holder) close_for(t, l);
        l->by_pairs = 1;
    }
    if (l->by_pairs) {
        pair(t, l);
    } else if (l->holder == t) {
        event(t, "release ", l->name);
        if (--l->times == 0) l->holder = NULL;
        __atomic_sub_fetch(&t->locks, 1, __ATOMIC_RELAXED);
    }
    done(t);
}
static void gone(const void *at, char sort) {
    if (state != ON || !lock_at(at, sort, 0)) return;
    struct thread *t = step();
    if (!t) return;
    forget(at, sort);
    done(t);
}
static int is_strict(const pthread_mutex_t *m) {
    int kind = m->__data.__kind;
    return (kind & 3) == PTHREAD_MUTEX_RECURSIVE_NP || (kind & 3) == PTHREAD_MUTEX_ERRORCHECK_NP || kind & 16;
}

#define TAKES(name, sort, at, arguments, ...)                   \
    KEPT(name)                                                  \
    int name arguments {                                        \
        int lent = lend(), failed = REAL(name)(__VA_ARGS__);    \
        take_back(lent);                                        \
        if (!failed || failed == EOWNERDEAD) taken(at, sort);   \
        return failed;                                          \
    }
#define GIVES(name, sort, type, strict)                         \
    KEPT(name)                                                  \
    int name(type *l) {                                         \
        giving((const void *)l, sort, strict);                  \
        int failed = REAL(name)(l);                             \
        shake();                                                \
        return failed;                                          \
    }
KEPT(pthread_mutex_lock)
KEPT(pthread_mutex_trylock)
int pthread_mutex_lock(pthread_mutex_t *m) {
    int failed;
    if (me && me->gated) {                           // within a step: without lending the gate where nobody has the lock
        failed = REAL(pthread_mutex_trylock)(m);
        if (failed != EBUSY) return failed;
    }
    int lent = lend();
    failed = REAL(pthread_mutex_lock)(m);
    take_back(lent);
    if (!failed || failed == EOWNERDEAD) taken(m, 'm');
    return failed;
}
int pthread_mutex_trylock(pthread_mutex_t *m) {
    int failed = REAL(pthread_mutex_trylock)(m);
    if (!failed || failed == EOWNERDEAD) taken(m, 'm');
    return failed;
}
TAKES(pthread_mutex_timedlock, 'm', m, (pthread_mutex_t *m, const struct timespec *until), m, until)
TAKES(pthread_mutex_clocklock, 'm', m, (pthread_mutex_t *m, clockid_t clock, const struct timespec *until), m, clock, until)
GIVES(pthread_mutex_unlock, 'm', pthread_mutex_t, is_strict(l))
KEPT(pthread_mutex_init)
int pthread_mutex_init(pthread_mutex_t *m, const pthread_mutexattr_t *how) {
    gone(m, 'm');
    return REAL(pthread_mutex_init)(m, how);
}
KEPT(pthread_mutex_destroy)
int pthread_mutex_destroy(pthread_mutex_t *m) {
    int failed = REAL(pthread_mutex_destroy)(m);
    if (!failed) gone(m, 'm');
    return failed;
}
TAKES(mtx_lock, 'm', m, (mtx_t *m), m)
TAKES(mtx_trylock, 'm', m, (mtx_t *m), m)
TAKES(mtx_timedlock, 'm', m, (mtx_t *m, const struct timespec *until), m, until)
GIVES(mtx_unlock, 'm', mtx_t, is_strict((const pthread_mutex_t *)l))
KEPT(mtx_init)
int mtx_init(mtx_t *m, int how) {
    gone(m, 'm');
    return REAL(mtx_init)(m, how);
}
KEPT(mtx_destroy)
void mtx_destroy(mtx_t *m) {
    gone(m, 'm');
    REAL(mtx_destroy)(m);
}
TAKES(pthread_spin_lock, 's', (const void *)l, (pthread_spinlock_t *l), l)
TAKES(pthread_spin_trylock, 's', (const void *)l, (pthread_spinlock_t *l), l)
GIVES(pthread_spin_unlock, 's', pthread_spinlock_t, 0)
KEPT(pthread_spin_destroy)
int pthread_spin_destroy(pthread_spinlock_t *l) {
    gone((const void *)l, 's');
    return REAL(pthread_spin_destroy)(l);
}

// ---- Conditions: waiting gives the mutex back and takes it again, also where the thread is cancelled

static void taken_again(void *m) { taken(m, 'm'); }
#define WAITS(name, version, arguments, ...)                    \
    KEPT(name)                                                  \
    int name arguments {                                        \
        int result, lent = lend();                              \
        giving(m, 'm', is_strict((const pthread_mutex_t *)m));  \
        pthread_cleanup_push(taken_again, m);                   \
        result = REAL_OF(name, version)(__VA_ARGS__);           \
        pthread_cleanup_pop(1);                                 \
        take_back(lent);                                        \
        return result;                                          \
    }
WAITS(pthread_cond_wait, "GLIBC_2.3.2", (pthread_cond_t *c, pthread_mutex_t *m), c, m)
WAITS(pthread_cond_timedwait, "GLIBC_2.3.2", (pthread_cond_t *c, pthread_mutex_t *m, const struct timespec *until), c, m, until)
WAITS(pthread_cond_clockwait, NULL, (pthread_cond_t *c, pthread_mutex_t *m, clockid_t clock, const struct timespec *until), c, m, clock, until)
WAITS(cnd_wait, NULL, (cnd_t *c, mtx_t *m), c, m)
WAITS(cnd_timedwait, NULL, (cnd_t *c, mtx_t *m, const struct timespec *until), c, m, until)

// ---- Locks for readers and writers

static void shared(const void *at) {
    struct thread *t = step();
    if (!t) return;
    struct lock *l = lock_at(at, 'r', 1);
    if (l->holder && l->holder != t) close_for(t, l);
    if (l->by_pairs || logs || memory) {
        pair(t, l);
    } else {
        struct share *own = l->shares;
        while (own && own->by != t && own->times) own = own->next;
        if (!own) {
            own = room(sizeof *own);
            own->next = l->shares;
            l->shares = own;
        }
        own->by = t;
        own->times++;
        event(t, "share ", l->name);
        __atomic_add_fetch(&t->locks, 1, __ATOMIC_RELAXED);
    }
    done(t);
}
// All shares are closed: one was given back by another thread, or the lock is a writer's though readers were seen to have it.
static void close_shares(struct thread *t, struct lock *l) {
    int renamed = 0;
    for (struct share *each = l->shares; each; each = each->next) {
        for (; each->times; each->times--) {
            if (each->by->joined) event(t, "join ", each->by->name), renamed = 1;
            else event(each->by, "unshare ", l->name);
            __atomic_sub_fetch(&each->by->locks, 1, __ATOMIC_RELAXED);
        }
    }
    if (renamed) name_lock(l, NULL);
}
static void giving_shared(const void *at) {
    struct thread *t = step();
    if (!t) return;
    struct lock *l = lock_at(at, 'r', 1);
    if (l->holder == t && !l->by_pairs) {
        event(t, "release ", l->name);
        l->holder = NULL;
        l->times = 0;
        __atomic_sub_fetch(&t->locks, 1, __ATOMIC_RELAXED);
    } else if (logs || memory) {
        pair(t, l);
    } else {
        struct share *own = l->shares;
        while (own && !(own->by == t && own->times)) own = own->next;
        if (own && !l->by_pairs) {
            own->times--;
            event(t, "unshare ", l->name);
            __atomic_sub_fetch(&t->locks, 1, __ATOMIC_RELAXED);
        } else {
            if (!l->by_pairs) comment_once(3, "a lock was given back by a thread that hasn't taken it: from here on it is written as pairs");
            if (l->holder) close_for(t, l);
            close_shares(t, l);
            l->by_pairs = 1;
            pair(t, l);
        }
    }
    done(t);
}
static void taken_to_write(const void *at) {
    struct thread *t = step();
    if (!t) return;
    struct lock *l = lock_at(at, 'r', 1);
    for (struct share *each = l->shares; each; each = each->next)
        if (each->times) {
            close_shares(t, l);
            break;
        }
    done(t);
    taken(at, 'r');
}
#define SHARES(name, how, arguments, ...)                       \
    KEPT(name)                                                  \
    int name arguments {                                        \
        int lent = lend(), failed = REAL(name)(__VA_ARGS__);    \
        take_back(lent);                                        \
        if (!failed) how(l);                                    \
        return failed;                                          \
    }
SHARES(pthread_rwlock_rdlock, shared, (pthread_rwlock_t *l), l)
SHARES(pthread_rwlock_tryrdlock, shared, (pthread_rwlock_t *l), l)
SHARES(pthread_rwlock_timedrdlock, shared, (pthread_rwlock_t *l, const struct timespec *until), l, until)
SHARES(pthread_rwlock_clockrdlock, shared, (pthread_rwlock_t *l, clockid_t clock, const struct timespec *until), l, clock, until)
SHARES(pthread_rwlock_wrlock, taken_to_write, (pthread_rwlock_t *l), l)
SHARES(pthread_rwlock_trywrlock, taken_to_write, (pthread_rwlock_t *l), l)
SHARES(pthread_rwlock_timedwrlock, taken_to_write, (pthread_rwlock_t *l, const struct timespec *until), l, until)
SHARES(pthread_rwlock_clockwrlock, taken_to_write, (pthread_rwlock_t *l, clockid_t clock, const struct timespec *until), l, clock, until)
KEPT(pthread_rwlock_unlock)
int pthread_rwlock_unlock(pthread_rwlock_t *l) {
    giving_shared(l);
    int failed = REAL(pthread_rwlock_unlock)(l);
    shake();
    return failed;
}
KEPT(pthread_rwlock_init)
int pthread_rwlock_init(pthread_rwlock_t *l, const pthread_rwlockattr_t *how) {
    gone(l, 'r');
    return REAL(pthread_rwlock_init)(l, how);
}
KEPT(pthread_rwlock_destroy)
int pthread_rwlock_destroy(pthread_rwlock_t *l) {
    gone(l, 'r');
    return REAL(pthread_rwlock_destroy)(l);
}

#include "rdorders.h"
