/* Records the reads and writes of a C or C++ program for `rd2 epochs`, with its threads and locks. The program is compiled as for
   the compiler's own sanitizer, and linked with this file in place of it:
       cc -fsanitize=thread -g -c prog.c
       cc prog.o rdmemory.c -pthread -ldl -o prog
       RDRECORD=run.mem ./prog
   With RDRECORD_MEMORY=no it writes a trace of calls for `rd2 check`, with the orders of atomic variables, which only a
   compiled program tells. */
#define _GNU_SOURCE
#define RD_MEMORY 1
#include <stdint.h>
static void static_made(uint64_t *guard);
static void static_found(uint64_t *guard);
#include "rdpreload.c"
#include "rdvariables.h"

// ---- Accesses

static void write_access(struct thread *t, const struct granule *g, int writes, unsigned bytes, uintptr_t from) {
    char line[96];
    snprintf(line, sizeof line, "%s %x %x %lx ", writes ? "write" : "read", number_of_granule(g), bytes, (unsigned long)from);
    put(trace, line, t->name, NULL);
}
static void access_granule(struct thread *t, struct granule *g, int first, int count, int writes, uintptr_t from) {
    unsigned bytes = ((1u << count) - 1) << first & 0xff, who = t - all + 1;
    if (g->by == t && g->age == t->age) {
        // What this thread did there since its last event with others tells the same.
        if (!(bytes & ~(g->writes | (writes ? 0 : g->reads)))) return;
    } else {
        g->by = t;
        g->age = t->age;
        g->reads = g->writes = 0;
    }
    if (writes) g->writes |= bytes, g->written |= bytes;
    else g->reads |= bytes;
    g->begins |= 1u << first | (first + count < 8 ? 1u << (first + count) : 0);
    for (int n = first; n < first + count; n++) {
        if (!g->first[n]) g->first[n] = who;
        else if (g->first[n] != who) g->shared |= 1u << n;
    }
    write_access(t, g, writes, bytes, from);
}
static void access_memory(const void *at, size_t size, int writes, void *from) {
    struct thread *t = memory ? step() : NULL;
    if (!t) return;
    uintptr_t here = (uintptr_t)at, end_at = here + size;
    while (here < end_at) {
        int first = here % 8, count = end_at - here < (size_t)(8 - first) ? (int)(end_at - here) : 8 - first;
        struct granule *g = granule_at(here);
        if (g) access_granule(t, g, first, count, writes, (uintptr_t)from);
        here += count;
    }
    int rests = (t->draw = t->draw * 1664525 + 1013904223) >> 28 == 0;
    done(t);
    if (rests) shake();
}
#define FROM __builtin_return_address(0)
#define ACCESSES(n)                                                                             \
    void __tsan_read##n(void *at) { access_memory(at, n, 0, FROM); }                            \
    void __tsan_write##n(void *at) { access_memory(at, n, 1, FROM); }                           \
    void __tsan_unaligned_read##n(void *at) { access_memory(at, n, 0, FROM); }                  \
    void __tsan_unaligned_write##n(void *at) { access_memory(at, n, 1, FROM); }                 \
    void __tsan_volatile_read##n(void *at) { access_memory(at, n, 0, FROM); }                   \
    void __tsan_volatile_write##n(void *at) { access_memory(at, n, 1, FROM); }                  \
    void __tsan_unaligned_volatile_read##n(void *at) { access_memory(at, n, 0, FROM); }         \
    void __tsan_unaligned_volatile_write##n(void *at) { access_memory(at, n, 1, FROM); }        \
    void __tsan_read_write##n(void *at) { access_memory(at, n, 0, FROM), access_memory(at, n, 1, FROM); } \
    void __tsan_unaligned_read_write##n(void *at) { access_memory(at, n, 0, FROM), access_memory(at, n, 1, FROM); }
ACCESSES(1) ACCESSES(2) ACCESSES(4) ACCESSES(8) ACCESSES(16)
void __tsan_read_range(void *at, size_t size) { access_memory(at, size, 0, FROM); }
void __tsan_write_range(void *at, size_t size) { access_memory(at, size, 1, FROM); }
void __tsan_vptr_read(void **at) { access_memory(at, sizeof *at, 0, FROM); }
// A constructor or destructor that gives an object the table it has already writes nothing.
void __tsan_vptr_update(void **at, void *value) { if (*at != value) access_memory(at, sizeof *at, 1, FROM); }
void __tsan_func_entry(void *from) { (void)from; }
void __tsan_func_exit(void) {}
void __tsan_init(void) {}
void __tsan_ignore_thread_begin(void) {}
void __tsan_ignore_thread_end(void) {}

// The functions of the C library that compilers call for copies. Those of libraries aren't written: what orders them isn't seen.
extern const char __executable_start[], etext[];
#define COPIES(name, arguments, reads, ...)                                                     \
    KEPT(name)                                                                                  \
    void *name arguments {                                                                      \
        const char *caller = FROM;                                                              \
        if (state == ON && me && !me->depth && memory && __executable_start <= caller && caller < etext) { \
            reads;                                                                              \
            access_memory(to, size, 1, FROM);                                                   \
        }                                                                                       \
        return REAL(name)(__VA_ARGS__);                                                         \
    }
COPIES(memcpy, (void *restrict to, const void *restrict from, size_t size), access_memory(from, size, 0, FROM), to, from, size)
COPIES(memmove, (void *to, const void *from, size_t size), access_memory(from, size, 0, FROM), to, from, size)
COPIES(memset, (void *to, int value, size_t size), (void)0, to, value, size)
void *__tsan_memcpy(void *to, const void *from, size_t size) { return memcpy(to, from, size); }
void *__tsan_memmove(void *to, const void *from, size_t size) { return memmove(to, from, size); }
void *__tsan_memset(void *to, int value, size_t size) { return memset(to, value, size); }

// ---- Memory that comes and goes

void *__libc_malloc(size_t), *__libc_calloc(size_t, size_t), *__libc_realloc(void *, size_t), *__libc_memalign(size_t, size_t);
void __libc_free(void *);
static int hold(void) { return memory && state == ON && enter_gate(); }
static void *allotted(void *at, size_t size) {
    int kept = errno, held = hold();
    if (memory && state == ON) new_block(at, size);
    leave_gate(held);
    errno = kept;
    return at;
}
static void *released(void *at) {
    int kept = errno, held = at ? hold() : 0;
    if (at && memory && state == ON) old_block(at);
    leave_gate(held);
    errno = kept;
    return at;
}
void *malloc(size_t size) { return allotted(__libc_malloc(size), size); }
void *calloc(size_t count, size_t size) { return allotted(__libc_calloc(count, size), count * size); }
void free(void *at) { __libc_free(released(at)); }
void *realloc(void *at, size_t size) {
    // What can't be made larger stays, with new names: they are as good.
    void *made = __libc_realloc(released(at), size);
    return made || !size ? allotted(made, size) : made;
}
void *memalign(size_t to, size_t size) { return allotted(__libc_memalign(to, size), size); }
void *aligned_alloc(size_t to, size_t size) { return allotted(__libc_memalign(to, size), size); }
int posix_memalign(void **made, size_t to, size_t size) {
    void *at = allotted(__libc_memalign(to, size), size);
    if (at) *made = at;
    return at ? 0 : ENOMEM;
}
int munmap(void *at, size_t size) {
    int held = page_room ? hold() : 0;
    if (held) drop((uintptr_t)at, (uintptr_t)at + size), leave_gate(held);
    return syscall(SYS_munmap, at, size);
}
// A thread's stack, and its own variables, may stand where those of another were.
static void new_stack(void) {
    pthread_attr_t how;
    void *from;
    size_t size;
    if (!memory || pthread_getattr_np(pthread_self(), &how)) return;
    if (!pthread_attr_getstack(&how, &from, &size)) {
        int held = hold();
        if (held && me != &all[0]) drop((uintptr_t)from, (uintptr_t)from + size);
        stacks[me - all].from = (uintptr_t)from;
        stacks[me - all].to = (uintptr_t)from + size;
        leave_gate(held);
    }
    pthread_attr_destroy(&how);
}

__attribute__((constructor)) static void begin_memory(void) { if (state == ON && me == &all[0]) new_stack(); }

#include "rdatomics.h"

// ---- The end: variables are named, and those that can't race are left out

static uintptr_t number_at(const char **from) {
    char *to;
    uintptr_t found = strtoul(*from, &to, 16);
    *from = to + 1;
    return found;
}
static int variables;                                // that are named
static int can_race(const struct granule *g, unsigned bytes) { return (g->shared & g->written & bytes) != 0; }
// Cuts the bytes of a granule into variables, and calls back for each one.
static void finish_line(FILE *to, const char *line, const char *stop, int writing) {
    int writes = *line == 'w';
    const char *from = line + (writes ? 6 : 5);
    uintptr_t number = number_at(&from), bytes = number_at(&from), site = number_at(&from);
    const struct granule *g = &granules[number / MANY][number % MANY];
    if (!can_race(g, 0xff)) return;
    for (int n = 0, next; n < 8; n = next) {
        for (next = n + 1; next < 8 && !(g->begins >> next & 1);) next++;
        unsigned own = (1u << next) - (1u << n);
        if (!(own & bytes) || !can_race(g, own)) continue;
        if (!writing) {
            if (site_count == site_room) {
                struct site *more = fresh_memory((site_room + 1) * 2 * sizeof *more);
                if (sites) memcpy(more, sites, site_count * sizeof *more);
                sites = more, site_room = (site_room + 1) * 2;
            }
            sites[site_count++] = (struct site){site, NULL};
            return;
        }
        char name[65];
        if (!(g->named >> n & 1)) {
            if (variables++ >= OBJECTS) continue;
            granules[number / MANY][number % MANY].named |= 1u << n;
        }
        name_of(name, g, n);
        struct site *is = site_of(site);
        if (is && is->name) fprintf(to, "# %s\n", is->name);
        fprintf(to, "%s %.*s %s\n", writes ? "write" : "read", (int)(stop - from), from, name);
    }
}
static void finish_memory(void) {
    struct stat is;
    int opened = open(trace->path, O_RDONLY | O_CLOEXEC);
    const char *text = opened < 0 || fstat(opened, &is) || !is.st_size ? MAP_FAILED : mmap(NULL, is.st_size, PROT_READ, MAP_PRIVATE, opened, 0);
    FILE *to = text == MAP_FAILED ? NULL : fopen(path, "w");
    if (opened >= 0) close(opened);
    if (!to) return;
    dl_iterate_phdr(read_symbols, NULL);
    if (symbols) qsort(symbols, symbol_count, sizeof *symbols, by_place);
    for (int writing = 0; writing < 2; writing++) {
        for (const char *line = text, *stop; line < text + is.st_size; line = stop + 1) {
            stop = memchr(line, '\n', text + is.st_size - line);
            if (!strncmp(line, "read ", 5) || !strncmp(line, "write ", 6)) finish_line(to, line, stop, writing);
            else if (writing) fprintf(to, "%.*s\n", (int)(stop - line), line);
        }
        if (writing || !sites) continue;
        size_t distinct = 0;
        qsort(sites, site_count, sizeof *sites, by_address);
        for (size_t n = 0; n < site_count; n++)
            if (!distinct || sites[distinct - 1].at != sites[n].at) sites[distinct++] = sites[n];
        site_count = distinct;
        name_sites();
    }
    if (variables > OBJECTS) {
        fprintf(to, "# the limit objects %d is reached: further variables are left out\n", OBJECTS);
        complain("more variables than a trace may have: some are left out", "");
    }
    if (fclose(to)) complain("can't write", path);
    else unlink(trace->path);
}
