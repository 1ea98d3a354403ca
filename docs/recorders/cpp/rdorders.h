// The other synchronisations of the C library, each written by pairs of a lock; and what the headers for calls ask for. Part of rdpreload.c.

// ---- Barriers: a pair before the wait and one behind it. Two locks do: nobody is two rounds ahead of another.

KEPT(pthread_barrier_init)
int pthread_barrier_init(pthread_barrier_t *b, const pthread_barrierattr_t *how, unsigned count) {
    int failed = REAL(pthread_barrier_init)(b, how, count);
    gone(b, 'b');
    struct thread *t = failed ? NULL : step();
    if (!t) return failed;
    lock_at(b, 'b', 1)->wanted = count;
    done(t);
    return failed;
}
KEPT(pthread_barrier_wait)
int pthread_barrier_wait(pthread_barrier_t *b) {
    struct lock *round = NULL;
    struct thread *t = step();
    if (t) {
        struct lock *l = lock_at(b, 'b', 1);
        if (logs) take(&gate), t->gated = 1;
        if (l->wanted) round = part_of(l, l->arrived++ / l->wanted % 2, 2);
        if (logs) t->gated = 0, give(&gate);
        pair(t, round);
        done(t);
    }
    int lent = lend(), result = REAL(pthread_barrier_wait)(b);
    take_back(lent);
    t = round && (!result || result == PTHREAD_BARRIER_SERIAL_THREAD) ? step() : NULL;
    if (t) {
        pair(t, round);
        done(t);
    }
    shake();
    return result;
}
KEPT(pthread_barrier_destroy)
int pthread_barrier_destroy(pthread_barrier_t *b) {
    int failed = REAL(pthread_barrier_destroy)(b);
    gone(b, 'b');
    return failed;
}

// ---- Semaphores: what is given back is a message to who takes it, in turn. After so many of them the names come again, which orders more.

enum { PERMITS = 64 };
static void permit(sem_t *s, int posts) {
    struct thread *t = step();
    if (!t) return;
    struct lock *l = lock_at(s, 'p', 1);
    if (logs) take(&gate), t->gated = 1;
    struct lock *message = NULL;
    if (posts) message = part_of(l, l->arrived++ % PERMITS, PERMITS);
    else if (l->wanted) l->wanted--;                 // one that it had at first
    else if (l->left < l->arrived) message = part_of(l, l->left++ % PERMITS, PERMITS);
    pair(t, message);
    done(t);
}
KEPT(sem_init)
int sem_init(sem_t *s, int between, unsigned count) {
    int failed = REAL(sem_init)(s, between, count);
    gone(s, 'p');
    struct thread *t = failed ? NULL : step();
    if (!t) return failed;
    lock_at(s, 'p', 1)->wanted = count;
    done(t);
    return failed;
}
KEPT(sem_destroy)
int sem_destroy(sem_t *s) {
    gone(s, 'p');
    return REAL(sem_destroy)(s);
}
KEPT(sem_post)
int sem_post(sem_t *s) {
    permit(s, 1);
    int failed = REAL(sem_post)(s);
    shake();
    return failed;
}
#define TAKES_PERMIT(name, arguments, ...)                      \
    KEPT(name)                                                  \
    int name arguments {                                        \
        int lent = lend(), failed = REAL(name)(__VA_ARGS__);    \
        take_back(lent);                                        \
        if (!failed) permit(s, 0);                              \
        return failed;                                          \
    }
TAKES_PERMIT(sem_wait, (sem_t *s), s)
TAKES_PERMIT(sem_trywait, (sem_t *s), s)
TAKES_PERMIT(sem_timedwait, (sem_t *s, const struct timespec *until), s, until)
TAKES_PERMIT(sem_clockwait, (sem_t *s, clockid_t clock, const struct timespec *until), s, clock, until)

// ---- What is done once: its end comes before what follows each call that found it done

static int knows(const struct thread *t, const struct lock *l) {
    return !l->number || (l->number < 1024 && t->found[l->number / 64] >> l->number % 64 & 1);
}
static void learns(struct thread *t, const struct lock *l) {
    if (l->number < 1024) t->found[l->number / 64] |= 1ull << l->number % 64;
}
static void once_done(const void *at) {
    struct thread *t = step();
    if (!t) return;
    struct lock *l = lock_at(at, 'o', 1);
    if (!l->number) l->number = __atomic_add_fetch(&initialisations, 1, __ATOMIC_RELAXED);
    pair(t, l);
    learns(t, l);
    done(t);
}
static void once_found(const void *at) {
    struct lock *l = state == ON && me ? lock_at(at, 'o', 0) : NULL;
    if (!l || knows(me, l)) return;
    struct thread *t = step();
    if (!t) return;
    reading_pair(t, l);
    learns(t, l);
    done(t);
}
static __thread struct { void (*run)(void); const void *at; int *ran; } once __attribute__((tls_model("initial-exec")));
static void run_once(void) {
    const void *at = once.at;
    int *ran = once.ran;
    once.run();
    *ran = 1;
    once_done(at);
}
KEPT(pthread_once)
int pthread_once(pthread_once_t *at, void (*run)(void)) {
    int ran = 0, lent = lend();
    once.run = run, once.at = at, once.ran = &ran;
    int failed = REAL(pthread_once)(at, run_once);
    take_back(lent);
    if (!failed && !ran) once_found(at);
    return failed;
}
KEPT(call_once)
void call_once(once_flag *at, void (*run)(void)) {
    int ran = 0, lent = lend();
    once.run = run, once.at = at, once.ran = &ran;
    REAL(call_once)(at, run_once);
    take_back(lent);
    if (!ran) once_found(at);
}

// ---- Static variables of functions in C++. Compiled code asks for their guards only before they are made; so a recorded object that
// is made in one keeps its guard, and each other thread's first call on it comes behind the making.

int __cxa_guard_acquire(uint64_t *);
void __cxa_guard_release(uint64_t *);
void __cxa_guard_abort(uint64_t *);
KEPT(__cxa_guard_acquire)
int __cxa_guard_acquire(uint64_t *at) {
    int lent = lend(), makes = REAL(__cxa_guard_acquire)(at);
    take_back(lent);
#ifdef RD_MEMORY
    if (!makes) static_found(at);
#endif
    if (makes && me && me->makings++ < 8) {
        me->making[me->makings - 1] = at;
        me->with_objects &= ~(1 << me->makings);
    }
    return makes;
}
KEPT(__cxa_guard_release)
void __cxa_guard_release(uint64_t *at) {
#ifdef RD_MEMORY
    static_made(at);
#endif
    if (me && me->makings > 0 && me->with_objects >> me->makings-- & 1) once_done(at);
    REAL(__cxa_guard_release)(at);
}
KEPT(__cxa_guard_abort)
void __cxa_guard_abort(uint64_t *at) {
    if (me && me->makings > 0) me->makings--;
    REAL(__cxa_guard_abort)(at);
}

// Texts, each with a number of its own; the table grows, and no number is given again.
struct word { char *bytes; size_t length; unsigned long number; };
static struct word *word_of(const void *bytes, size_t length) {
    static struct word *words;
    static size_t size, used;
    if (used * 2 >= size) {
        size_t old = size;
        struct word *from = words;
        size = size ? size * 2 : 4096;
        words = mmap(NULL, size * sizeof *words, PROT_READ | PROT_WRITE, MAP_PRIVATE | MAP_ANONYMOUS, -1, 0);
        if (words == MAP_FAILED) abort();
        used = 0;
        for (size_t n = 0; n < old; n++)
            if (from[n].bytes) *word_of(from[n].bytes, from[n].length) = from[n];
        if (from) munmap(from, old * sizeof *from);
    }
    uint64_t hash = 14695981039346656037u;
    for (size_t n = 0; n < length; n++) hash = (hash ^ ((const unsigned char *)bytes)[n]) * 1099511628211u;
    size_t slot = hash % size;
    while (words[slot].bytes && !(words[slot].length == length && !memcmp(words[slot].bytes, bytes, length))) slot = (slot + 1) % size;
    if (!words[slot].bytes) {
        words[slot].bytes = memcpy(room(length + 1), bytes, length);
        words[slot].length = length;
        used++;
    }
    return &words[slot];
}
static int names_gate;

static struct word *guard_of(const char *object, size_t length) {
    char key[80];
    return word_of(key, snprintf(key, sizeof key, "guard of %.*s", (int)length, object));
}
static int guarded;                                  // whether any object is made so
static void made_behind_guard(struct thread *t, const char *object) {
    if (t->makings < 1 || t->makings > 8) return;
    take(&names_gate);
    guard_of(object, strlen(object))->number = (uintptr_t)t->making[t->makings - 1];
    give(&names_gate);
    t->with_objects |= 1 << t->makings;
    __atomic_store_n(&guarded, 1, __ATOMIC_RELEASE);
}
static void found_behind_guard(struct thread *t, const char *call) {
    if (!__atomic_load_n(&guarded, __ATOMIC_ACQUIRE)) return;
    take(&names_gate);
    const void *guard = (const void *)guard_of(call, strcspn(call, " "))->number;
    give(&names_gate);
    struct lock *l = guard ? lock_at(guard, 'o', 0) : NULL;
    if (!l || knows(t, l)) return;
    reading_pair(t, l);
    learns(t, l);
}

// ---- Ends of the process that run no destructors. (The C library's own function ends it.)

#define ENDS(name, type)                                        \
    KEPT(name)                                                  \
    void name(type status) {                                    \
        end();                                                  \
        REAL(name)(status);                                     \
        __builtin_unreachable();                                \
    }
ENDS(_exit, int)
ENDS(_Exit, int)
KEPT(abort)
void abort(void) {
    end();
    REAL(abort)();
    __builtin_unreachable();
}
#define BECOMES(name, arguments, ...)                           \
    KEPT(name)                                                  \
    int name arguments {                                        \
        int entered = enter_gate();                             \
        if (state == ON && getpid() == process) flush_all();    \
        leave_gate(entered);                                    \
        return REAL(name)(__VA_ARGS__);                         \
    }
BECOMES(execve, (const char *file, char *const words[], char *const variables[]), file, words, variables)
BECOMES(execv, (const char *file, char *const words[]), file, words)
BECOMES(execvp, (const char *file, char *const words[]), file, words)

// ---- What the headers for calls ask for. They call these where they are there, and do without them else.

// Whether calls can be written.
int rd_recording(void) {
    if (state == FRESH) start();
    return state == ON && !memory;
}
// Begins a step, and one within it: an operation on an object and its line.
void rd_enter(void) {
    if (me && me->depth) me->depth++;
    else step();
}
// Ends it; behind the outermost the recorder gives way.
void rd_leave(void) {
    if (!me || !me->depth || --me->depth) return;
    done(me);
    shake();
}
// Writes a line, within a step: the declaration of an object, or this thread's call, with its place in front.
void rd_object_line(const char *name, const char *kind) {
    struct thread *t = me;
    if (!t || !t->depth || state != ON || memory) return;
    struct text *to = logs ? log_of(t) : trace;
    if (logs) take(&to->gate);
    if (__atomic_add_fetch(&objects, 1, __ATOMIC_RELAXED) <= OBJECTS) put(to, "object ", name, " ", kind, NULL);
    if (logs) give(&to->gate);
    if (objects > OBJECTS) end_at_limit("objects", OBJECTS);
    else near_limit("objects", objects, OBJECTS);
    called = 1;
    made_behind_guard(t, name);
}
void rd_call_line(const char *place, const char *what) {
    struct thread *t = me;
    if (!t || !t->depth || state != ON || memory) return;
    found_behind_guard(t, what);
    struct text *to = logs ? log_of(t) : trace;
    if (logs) take(&to->gate);
    size_t length = strlen(folder);
    if (place && *place) put(to, "# ", length && !strncmp(place, folder, length) ? place + length : place, NULL);
    if (logs) put(to, "call ", what, NULL);
    else put(to, "call ", t->name, " ", what, NULL);
    if (logs) give(&to->gate);
    called = 1;
}
// A pair of the lock that stands for what is at an address.
void rd_pair(const void *at) {
    rd_enter();
    if (me && me->depth && state == ON) pair(me, lock_at(at, 'x', 1));
    rd_leave();
}
// What this thread does until the count is 0 again isn't recorded.
void rd_hide(int change) {
    if (state == FRESH) start();
    if (!me && state == ON) adopt();
    if (me) me->hidden += change;
}
// Names: of the next thread that this one starts, and of a lock of the program. Who gives them sees to it that they are new.
void rd_name_thread(const char *name) { snprintf(next_name, sizeof next_name, "%s", name); }
void rd_name_lock(const void *at, char sort, const char *name) {
    struct thread *t = step();
    if (!t) return;
    forget(at, sort);
    if (logs) take(&gate), t->gated = 1;
    snprintf(lock_at(at, sort, 1)->name, sizeof "" + 63, "%s", name);
    done(t);
}

// A number for these bytes: equal ones have the same. Once they are forgotten they have another.
unsigned long rd_number_of(const void *bytes, size_t length, int forget) {
    static unsigned long last;
    take(&names_gate);
    struct word *found = word_of(bytes, length);
    if (forget) found->number = 0;
    else if (!found->number) found->number = ++last;
    unsigned long number = found->number;
    give(&names_gate);
    return number;
}
static int is_new(const char *name) {
    char key[80];
    struct word *found = word_of(key, snprintf(key, sizeof key, "is %s", name));
    return !found->number++;
}
// A name of an object that no other has: the given one, or that of its sort, with a number where it is needed.
void rd_fresh(char *into, const char *sort, const char *given) {
    char base[51], key[80];
    int named = given && *given;
    snprintf(base, sizeof base, "%s", named ? given : sort);
    for (char *c = base; *c; c++) {
        int letter = ('A' <= *c && *c <= 'Z') || ('a' <= *c && *c <= 'z') || ('0' <= *c && *c <= '9');
        if (!letter && !strchr("_.:$#@-", *c)) *c = '_';
    }
    take(&names_gate);
    strcpy(into, base);
    size_t length = snprintf(key, sizeof key, "last %s", base);
    while (!named || !is_new(into)) {
        named = 1;
        snprintf(into, 64, "%s.%lu", base, ++word_of(key, length)->number);
    }
    give(&names_gate);
}
