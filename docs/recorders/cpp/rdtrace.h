// What the recorders for C and C++ have in common: the trace, its threads and its locks. rdpreload.c includes it, once.
#include <errno.h>
#include <fcntl.h>
#include <linux/futex.h>
#include <limits.h>
#include <pthread.h>
#include <sched.h>
#include <stdarg.h>
#include <stdint.h>
#include <stdio.h>
#include <stdlib.h>
#include <string.h>
#include <sys/mman.h>
#include <sys/stat.h>
#include <sys/syscall.h>
#include <time.h>
#include <unistd.h>

enum { THREADS = 4096, LOCKS = 65536, OBJECTS = 65536, SLOTS = 1 << 17, ROOM = 1 << 18, FULL = ROOM - (1 << 14), REUSED_FROM = 3000 };

struct lock;

struct thread {
    char name[64];
    int joined, registered, begun;
    int depth;                       // of steps within steps
    int gated;                       // whether it has the gate
    int hidden;                      // what it does isn't recorded
    int locks;                       // of the program, that it holds
    int kept;                        // the program's errno
    unsigned long age;               // how many events it has had
    unsigned draw, rests;            // for shaking
    uint64_t found[16];              // initialisations that it knows to be done, a bit each
    const void *making[8];           // guards of static variables that it makes, and which of these have recorded objects
    int makings, with_objects;
    void *(*run)(void *);
    int (*run_c11)(void *);
    void *with;
    struct thread *joiner;           // who has joined it, and may use its name again
    struct lock *lane;               // what orders its lives then
    struct text *log;
};

// Text on its way to a file.
struct text {
    int gate, file, broken;
    dev_t device;
    ino_t inode;
    size_t length;
    const char *path;
    char bytes[ROOM];
};

// A reader's hold of a lock.
struct share { struct thread *by; int times; struct share *next; };

struct lock {
    const void *at;
    char sort, name[64];
    int by_pairs;                    // another thread gave it back: it is written as pairs from then on
    struct thread *holder;
    int times;
    unsigned long taken;             // how often, for logs
    struct share *shares;
    unsigned number, wanted;         // of an initialisation; for how many a barrier waits
    unsigned long arrived, left;     // at a barrier; posts and waits of a semaphore
    struct lock **parts;             // rounds of a barrier, permits of a semaphore
};

static int gate;                                     // the recorder's own lock, no event
static enum { FRESH, ON, OFF } state;
static int logs, shaking = 1, memory;                // options
static pid_t process;
static char path[PATH_MAX], folder[PATH_MAX + 1];       // of the trace, and where the program began
static struct text *trace;
static struct thread all[THREADS];
static int threads, locks, objects, initialisations, told, called, opened;
static struct { uint64_t id; struct thread *is; } known[2 * THREADS];
static struct { const void *at; char sort; struct lock *is; } places[SLOTS];
static __thread struct thread *me __attribute__((tls_model("initial-exec")));
static __thread char next_name[64] __attribute__((tls_model("initial-exec")));

// A lock that isn't pthread's: nothing of the program waits in it, and no recorder sees it.
static void take(int *is) {
    int found = 0;
    if (__atomic_compare_exchange_n(is, &found, 1, 0, __ATOMIC_ACQUIRE, __ATOMIC_RELAXED)) return;
    while (__atomic_exchange_n(is, 2, __ATOMIC_ACQUIRE)) syscall(SYS_futex, is, FUTEX_WAIT_PRIVATE, 2, NULL, NULL, 0);
}
static void give(int *is) {
    if (__atomic_exchange_n(is, 0, __ATOMIC_RELEASE) == 2) syscall(SYS_futex, is, FUTEX_WAKE_PRIVATE, 1, NULL, NULL, 0);
}

// The gate, where there is no step. Within it this thread makes none, also where a signal comes.
static int enter_gate(void) {
    if (me && me->gated) return 0;
    if (me) me->depth++;
    take(&gate);
    if (me) me->gated = 1;
    return 1;
}
static void leave_gate(int entered) {
    if (!entered) return;
    if (me) me->gated = 0;
    give(&gate);
    if (me) me->depth--;
}

static void complain(const char *what, const char *of) {
    dprintf(2, "rdrecord: %s%s%s\n", what, *of ? " " : "", of);
}

// Memory that is never given back: the program's malloc may take locks that are recorded.
static void *room(size_t size) {
    static int making;
    static char *from, *to;
    size = (size + 15) & ~(size_t)15;
    take(&making);
    if (!from || (size_t)(to - from) < size) {
        size_t more = size > 1 << 20 ? size : 1 << 20;
        from = mmap(NULL, more, PROT_READ | PROT_WRITE, MAP_PRIVATE | MAP_ANONYMOUS, -1, 0);
        if (from == MAP_FAILED) abort();
        to = from + more;
    }
    char *made = from;
    from += size;
    give(&making);
    return made;
}

// Opens the file, with a number that programs don't use by themselves.
static int open_text(struct text *to, int how) {
    int low = open(to->path, O_WRONLY | O_CREAT | O_CLOEXEC | how, 0666);
    to->file = low < 0 ? -1 : fcntl(low, F_DUPFD_CLOEXEC, 400);
    if (low >= 0 && to->file < 0) to->file = low;
    else if (low >= 0) close(low);
    struct stat is;
    if (to->file < 0 || fstat(to->file, &is)) return 0;
    opened = 1;
    to->device = is.st_dev;
    to->inode = is.st_ino;
    return 1;
}
// Whole lines are written, so that a program that is killed leaves a trace that can be read.
static void flush(struct text *to) {
    struct stat is;
    if (to->broken || !to->length) return;
    int same = to->file >= 0 && !fstat(to->file, &is) && is.st_dev == to->device && is.st_ino == to->inode;
    if (!same && !open_text(to, to->file < 0 ? O_TRUNC : O_APPEND)) to->broken = 1;
    for (size_t done = 0; !to->broken && done < to->length;) {
        ssize_t step = write(to->file, to->bytes + done, to->length - done);
        if (step > 0) done += step;
        else if (errno != EINTR) to->broken = 1;
    }
    if (to->broken) complain("can't write", to->path);
    to->length = 0;
}
// Texts one after another, up to a null pointer, and a line feed.
static void put(struct text *to, ...) {
    va_list words;
    va_start(words, to);
    for (const char *word; (word = va_arg(words, const char *));) {
        size_t length = strlen(word);
        if (to->length + length + 1 > ROOM) continue;
        memcpy(to->bytes + to->length, word, length);
        to->length += length;
    }
    va_end(words);
    to->bytes[to->length++] = '\n';
    if (to->length > FULL) flush(to);
}
static struct text *text_at(const char *where) {
    struct text *made = room(sizeof *made);
    made->file = -1;
    made->path = strcpy(room(strlen(where) + 1), where);
    return made;
}
// The log of a thread: for run.trace it is run.T.log.
static struct text *log_of(struct thread *t) {
    if (!t->log) {
        char where[PATH_MAX + 80];
        size_t length = strlen(path);
        if (length > 6 && !strcmp(path + length - 6, ".trace")) length -= 6;
        snprintf(where, sizeof where, "%.*s.%s.log", (int)length, path, t->name);
        t->log = text_at(where);
        put(t->log, "rdlog 1 ", t->name, NULL);
    }
    return t->log;
}
// A process without threads and calls, as a shell, leaves no trace.
static void flush_all(void) {
    if (threads < 2 && !called && !opened) return;
    if (!logs) flush(trace);
    for (int n = 0; logs && n < threads; n++)
        if (all[n].log) {
            take(&all[n].log->gate);
            flush(all[n].log);
            give(&all[n].log->gate);
        }
}

static void comment(const char *what) {
    struct text *to = logs ? log_of(&all[0]) : trace;
    if (logs) take(&to->gate);
    put(to, "# ", what, NULL);
    if (logs) give(&to->gate);
}
static void comment_once(int sort, const char *what) {
    if (told & 1 << sort) return;
    told |= 1 << sort;
    comment(what);
}
static void near_limit(const char *what, int now, int most) {
    char text[80];
    if (now != most / 10 * 9) return;
    snprintf(text, sizeof text, "near the limit %s %d", what, most);
    comment(text);
    complain(text, "");
}
// The trace ends here: what stands in it is a run's beginning.
static void end_at_limit(const char *what, int most) {
    char text[80];
    snprintf(text, sizeof text, "the limit %s %d is reached: nothing more is recorded", what, most);
    comment(text);
    complain(text, "");
    flush_all();
    state = OFF;
}

// An event of a thread with a lock or another thread.
static void event(struct thread *t, const char *what, const char *with) {
    if (state == OFF) return;
    t->age++;
    if (!logs) {
        put(trace, what, t->name, " ", with, NULL);
        return;
    }
    struct text *to = log_of(t);
    take(&to->gate);
    put(to, what, with, NULL);
    give(&to->gate);
}
static void acquire(struct thread *t, struct lock *l) {
    char numbered[96];
    unsigned long number = __atomic_add_fetch(&l->taken, 1, __ATOMIC_RELAXED);
    if (logs) snprintf(numbered, sizeof numbered, "%s %lu", l->name, number);
    event(t, "acquire ", logs ? numbered : l->name);
}
static void pair(struct thread *t, struct lock *l) {
    if (!l) return;
    acquire(t, l);
    event(t, "release ", l->name);
}
// What was before pairs of the lock comes before this, and this before no reading pair.
static void reading_pair(struct thread *t, struct lock *l) {
    if (logs || memory) {
        pair(t, l);
    } else {
        event(t, "share ", l->name);
        event(t, "unshare ", l->name);
    }
}

static struct thread *new_thread(const char *sort, const char *given, struct thread *by) {
    if (threads >= REUSED_FROM && by)                // a name whose life this thread has waited for
        for (int n = 0; n < threads; n++)
            if (all[n].joiner == by) {
                all[n].joiner = NULL;
                all[n].registered = all[n].locks = 0;
                pair(by, all[n].lane);
                pair(&all[n], all[n].lane);
                return &all[n];
            }
    if (threads == THREADS) {
        end_at_limit("threads", THREADS);
        return NULL;
    }
    static int numbers;
    struct thread *made = &all[threads];
    if (given) snprintf(made->name, sizeof made->name, "%s", given);
    else snprintf(made->name, sizeof made->name, "%s%d", sort, ++numbers);
    made->draw = 2463534242u + 77777u * threads + (unsigned)time(NULL);
    __atomic_store_n(&threads, threads + 1, __ATOMIC_RELEASE);
    if (by) event(by, "fork ", made->name);
    near_limit("threads", threads, THREADS);
    return made;
}

static void name_lock(struct lock *l, const char *name) {
    if (locks == LOCKS) {
        end_at_limit("locks", LOCKS);
        return;
    }
    locks++;
    if (name) snprintf(l->name, sizeof l->name, "%s", name);
    else snprintf(l->name, sizeof l->name, "%c%d", l->sort, locks);
    l->taken = 0;
    near_limit("locks", locks, LOCKS);
}
static struct lock *new_lock(char sort, const char *name) {
    struct lock *made = room(sizeof *made);
    made->sort = sort;
    if (sort != 'v') name_lock(made, name);
    return made;
}
// The lock at an address. It is looked up without waiting; a place is given to one address for good.
static struct lock *lock_at(const void *at, char sort, int make) {
    size_t slot = ((uintptr_t)at >> 2) * 0x9e3779b97f4a7c15u >> 47;
    for (;; slot = (slot + 1) % SLOTS) {
        const void *there = __atomic_load_n(&places[slot].at, __ATOMIC_ACQUIRE);
        if (there == at && places[slot].sort == sort) break;
        if (!there) break;
    }
    struct lock *found = __atomic_load_n(&places[slot].is, __ATOMIC_ACQUIRE);
    if (found || !make) return found;
    if (!me->gated) {                                // logs: a place is made behind the gate all the same
        int entered = enter_gate();
        found = lock_at(at, sort, 1);
        leave_gate(entered);
        return found;
    }
    while (places[slot].at && (places[slot].at != at || places[slot].sort != sort)) slot = (slot + 1) % SLOTS;
    if (places[slot].is) return places[slot].is;
    found = new_lock(sort, NULL);
    found->at = at;
    places[slot].sort = sort;
    __atomic_store_n(&places[slot].is, found, __ATOMIC_RELEASE);
    __atomic_store_n(&places[slot].at, at, __ATOMIC_RELEASE);
    return found;
}
// The address is no lock any more: the next one there has a new name.
static void forget(const void *at, char sort) {
    size_t slot = ((uintptr_t)at >> 2) * 0x9e3779b97f4a7c15u >> 47;
    for (; places[slot].at; slot = (slot + 1) % SLOTS)
        if (places[slot].at == at && places[slot].sort == sort) __atomic_store_n(&places[slot].is, NULL, __ATOMIC_RELEASE);
}
static struct lock *part_of(struct lock *l, unsigned number, unsigned of) {
    if (!l->parts) l->parts = room(of * sizeof *l->parts);
    if (!l->parts[number]) {
        char name[80];
        snprintf(name, sizeof name, "%.48s.%u", l->name, number);
        l->parts[number] = new_lock(l->sort, name);
    }
    return l->parts[number];
}

static void start(void);

// A thread whose beginning wasn't seen: all that was recorded so far comes before it.
static void adopt(void) {
    static __thread int adopting;
    if (adopting) return;                            // a signal came in between
    adopting = 1;
    take(&gate);
    struct thread *made = state == ON ? new_thread("u", NULL, &all[0]) : NULL;
    if (made) {
        comment_once(0, "a thread whose start wasn't seen: it is ordered behind all that was before");
        struct lock *begun = new_lock('u', NULL);
        for (int n = 1; n < threads; n++)
            if (&all[n] != made && !all[n].joined && !all[n].joiner) {
                if (logs || memory) pair(&all[n], begun);
                else event(&all[n], "share ", begun->name), event(&all[n], "unshare ", begun->name);
            }
        pair(made, begun);
        me = made;
        me->depth = 1;
    }
    give(&gate);
    if (made) me->depth = 0;
    adopting = !made;
}

// Begins a step, whose lines stand one behind another; none where nothing is recorded. What a step does is no event.
static struct thread *step(void) {
    if (state == FRESH) start();
    if (state == OFF) return NULL;
    int kept = errno;
    if (!me) adopt();
    if (!me || me->depth || me->hidden) {
        errno = kept;
        return NULL;
    }
    me->depth = 1;
    me->kept = kept;
    if (!logs) {
        take(&gate);
        me->gated = 1;
    }
    return me;
}
static void done(struct thread *t) {
    int kept = t->kept;
    if (t->gated) {
        t->gated = 0;
        give(&gate);
    }
    t->depth = 0;
    errno = kept;
}
// Gives way behind a step, so that more orders are met, but never while the program holds a lock.
static void shake(void) {
    struct thread *t = me;
    if (!shaking || state != ON || !t || t->depth || t->hidden || t->locks > 0) return;
    int kept = errno;
    t->draw ^= t->draw << 13, t->draw ^= t->draw >> 17, t->draw ^= t->draw << 5;
    int begins = t->rests < 6 && ++t->rests;         // others may not have begun yet
    struct timespec time = {0, t->draw / 4 % (begins ? 300 : 100) * 1000};
    if (!begins && t->draw % 4) sched_yield();
    else syscall(SYS_clock_nanosleep, CLOCK_MONOTONIC, 0, &time, NULL);
    errno = kept;
}

// The gate is lent while a call within a step waits: who holds what it waits for may need the gate.
static int lend(void) {
    if (!me || !me->gated) return 0;
    me->gated = 0;
    give(&gate);
    return 1;
}
static void take_back(int lent) {
    if (!lent) return;
    take(&gate);
    me->gated = 1;
}

#ifdef RD_MEMORY
static void finish_memory(void);
#endif
static void end(void) {
    if (state != ON || getpid() != process) return;
    int entered = enter_gate();
    flush_all();
    state = OFF;
    leave_gate(entered);
#ifdef RD_MEMORY
    if (memory) finish_memory();
#endif
}
static void in_child(void) {
    state = OFF;
    gate = 0;
}
static void in_parent(void) {
    struct thread *t = step();
    if (!t) return;
    comment_once(1, "the process was forked: the child isn't recorded");
    done(t);
}
// Whether a variable of the environment is this word.
static int says(const char *variable, const char *word) {
    const char *value = getenv(variable);
    return value && !strcmp(value, word);
}
static void start(void) {
    static int begun;
    take(&begun);
    if (state == FRESH) {
        const char *given = getenv("RDRECORD"), *number;
        char here[PATH_MAX] = "";
        process = getpid();
#ifdef RD_MEMORY
        memory = !says("RDRECORD_MEMORY", "no");
#endif
        if (!given || !*given) given = memory ? "run.mem" : "run.trace";
        if (!getcwd(here, sizeof here)) *here = 0;
        snprintf(folder, sizeof folder, "%s/", here);
        if (*given == '/') *here = 0;
        number = strstr(given, "%p");                // then each process has a file of its own
        if (number)
            snprintf(path, sizeof path, "%.2000s%s%.*s%d%.1000s", here, *here ? "/" : "", (int)(number - given), given, process, number + 2);
        else snprintf(path, sizeof path, "%.2000s%s%.2000s", here, *here ? "/" : "", given);
        shaking = !says("RDRECORD_SHAKING", "no");
        logs = !memory && says("RDRECORD_LOGS", "yes");
        char parts[PATH_MAX + 8];
        snprintf(parts, sizeof parts, "%s%s", path, memory ? ".part" : "");
        trace = text_at(parts);
        if (!logs) put(trace, memory ? "rdmem 1" : "rdtrace 2", NULL), put(trace, "thread main", NULL);
        me = new_thread(NULL, "main", NULL);
        pthread_atfork(NULL, in_parent, in_child);
        state = ON;
    }
    give(&begun);
}
