// What rdmemory.c knows of the memory of a program: which bytes are one variable, and what they are called. Included once, by it.
#include <elf.h>
#include <link.h>

/* Accesses are kept in granules of eight bytes. While the program runs a line says which bytes of a granule were accessed; when it
   ends each granule is cut into variables at all places where an access began or ended. So two fields of one word don't race, and
   an access to both is a line for each. A variable of one thread, or that is only read, can't race: it is left out. */
struct granule {
    uintptr_t at;
    unsigned block;                                  // of the heap, or 0
    uintptr_t offset;                                // in it
    short stack;                                     // whose stack it is on, from 1
    uint8_t begins, shared, written, named;          // by bytes: where an access begins, or one ends before it; ..
    uint16_t first[8];                               // who was the first, from 1
    struct thread *by;                               // the latest accesses, all by this thread since it last met others
    unsigned long age;
    uint8_t reads, writes;
};
struct page { uintptr_t number; struct granule **granules; unsigned *blocks, cover; };
struct block { uintptr_t from, to; };

enum { PAGE = 4096, BLOCK_SLOTS = PAGE / 16, MANY = 1 << 16, LARGE = 1 << 20 };
static struct granule *granules[MANY];               // so many at a time
static unsigned granule_count;
static struct block *blocks[MANY];
static unsigned block_count = 1;
static unsigned large[1024], large_count;
static struct page *pages;
static size_t page_room, page_count;
static struct { uintptr_t from, to; } stacks[THREADS];

static void *fresh_memory(size_t size) {
    void *made = mmap(NULL, size, PROT_READ | PROT_WRITE, MAP_PRIVATE | MAP_ANONYMOUS | MAP_NORESERVE, -1, 0);
    if (made == MAP_FAILED) abort();
    return made;
}
static struct page *page_at(uintptr_t number, int make) {
    if (!page_room && !make) return NULL;
    if (make && page_count * 2 >= page_room) {
        struct page *old = pages;
        size_t of = page_room;
        page_room = of ? of * 2 : 4096;
        pages = fresh_memory(page_room * sizeof *pages);
        page_count = 0;
        for (size_t n = 0; n < of; n++)
            if (old[n].number) *page_at(old[n].number, 1) = old[n];
        if (old) munmap(old, of * sizeof *old);
    }
    size_t slot = number * 0x9e3779b97f4a7c15u >> 20;
    for (slot %= page_room; pages[slot].number; slot = (slot + 1) % page_room)
        if (pages[slot].number == number) return &pages[slot];
    if (!make) return NULL;
    pages[slot].number = number;
    page_count++;
    return &pages[slot];
}
static struct block *block_of(unsigned number) { return &blocks[number / MANY][number % MANY]; }

// ---- The heap: each block has a number, and memory that is used again has another

static void new_block(void *at, size_t size) {
    uintptr_t from = (uintptr_t)at;
    if (!at || block_count / MANY == MANY) return;
    if (!blocks[block_count / MANY]) blocks[block_count / MANY] = fresh_memory(MANY * sizeof(struct block));
    unsigned number = block_count++;
    *block_of(number) = (struct block){from, from + size};
    if (size >= LARGE) {
        if (large_count < 1024) large[large_count++] = number;
        return;
    }
    struct page *page = page_at(from / PAGE, 1);
    if (!page->blocks) page->blocks = room(BLOCK_SLOTS * sizeof *page->blocks);
    page->blocks[from % PAGE / 16] = number;
    for (uintptr_t next = from / PAGE + 1; next * PAGE < from + size; next++) page_at(next, 1)->cover = number;
}
static unsigned block_at(uintptr_t at) {
    struct page *page = page_at(at / PAGE, 0);
    unsigned found = 0;
    for (int slot = at % PAGE / 16; page && page->blocks && !found && slot >= 0; slot--) found = page->blocks[slot];
    if (page && !found) found = page->cover;
    for (unsigned n = 0; !found && n < large_count; n++)
        if (block_of(large[n])->from <= at && at < block_of(large[n])->to) found = large[n];
    return found && block_of(found)->from <= at && at < block_of(found)->to ? found : 0;
}
// What stood here is gone.
static void drop(uintptr_t from, uintptr_t to) {
    for (uintptr_t number = from / PAGE; number * PAGE < to; number++) {
        struct page *page = page_at(number, 0);
        if (!page || !page->granules) continue;
        uintptr_t first = number * PAGE < from ? from % PAGE / 8 : 0;
        uintptr_t last = (number + 1) * PAGE > to ? (to - number * PAGE + 7) / 8 : PAGE / 8;
        for (uintptr_t n = first; n < last; n++) page->granules[n] = NULL;
    }
}
static void old_block(void *at) {
    unsigned number = at ? block_at((uintptr_t)at) : 0;
    if (!number) return;
    struct block *is = block_of(number);
    drop(is->from, is->to);
    for (unsigned n = 0; n < large_count; n++)
        if (large[n] == number) large[n] = large[--large_count];
    if (is->to - is->from < LARGE) {
        page_at(is->from / PAGE, 1)->blocks[is->from % PAGE / 16] = 0;
        for (uintptr_t next = is->from / PAGE + 1; next * PAGE < is->to; next++) page_at(next, 1)->cover = 0;
    }
    is->to = is->from;
}

static struct granule *granule_at(uintptr_t at) {
    struct page *page = page_at(at / PAGE, 1);
    if (!page->granules) page->granules = room(PAGE / 8 * sizeof *page->granules);
    struct granule **there = &page->granules[at % PAGE / 8];
    if (*there || granule_count / MANY == MANY) return *there;
    if (!granules[granule_count / MANY]) granules[granule_count / MANY] = fresh_memory(MANY * sizeof(struct granule));
    struct granule *made = *there = &granules[granule_count / MANY][granule_count % MANY];
    granule_count++;
    made->at = at & ~(uintptr_t)7;
    made->begins = 1;
    made->block = block_at(made->at);
    if (made->block) made->offset = made->at - block_of(made->block)->from;
    for (int n = 0; !made->block && n < threads; n++)
        if (stacks[n].from <= at && at < stacks[n].to) made->stack = n + 1, made->offset = stacks[n].to - made->at;
    return made;
}
static unsigned number_of_granule(const struct granule *is) {
    unsigned part = 0;
    while (!(granules[part] <= is && is < granules[part] + MANY)) part++;
    return part * MANY + (is - granules[part]);
}

// ---- Names: of static variables those of the symbol table

struct symbol { uintptr_t at, size; const char *name; };
static struct symbol *symbols;
static size_t symbol_count;
static int by_place(const void *a, const void *b) {
    const struct symbol *x = a, *y = b;
    return x->at < y->at ? -1 : x->at > y->at;
}
static int read_symbols(struct dl_phdr_info *object, size_t size, void *none) {
    (void)size, (void)none;
    const char *file = *object->dlpi_name ? object->dlpi_name : "/proc/self/exe";
    int opened = open(file, O_RDONLY | O_CLOEXEC);
    struct stat is;
    if (opened < 0) return 0;
    const char *image = fstat(opened, &is) ? MAP_FAILED : mmap(NULL, is.st_size, PROT_READ, MAP_PRIVATE, opened, 0);
    close(opened);
    const ElfW(Ehdr) *head = (const void *)image;
    if (image == MAP_FAILED || memcmp(image, ELFMAG, SELFMAG) || !head->e_shoff) return 0;
    const ElfW(Shdr) *sections = (const void *)(image + head->e_shoff);
    for (int n = 0; n < head->e_shnum; n++) {
        if (sections[n].sh_type != SHT_SYMTAB && sections[n].sh_type != SHT_DYNSYM) continue;
        const ElfW(Sym) *all_symbols = (const void *)(image + sections[n].sh_offset);
        const char *names = image + sections[sections[n].sh_link].sh_offset;
        size_t count = sections[n].sh_size / sizeof *all_symbols;
        struct symbol *more = fresh_memory((symbol_count + count + 1) * sizeof *more);
        if (symbols) memcpy(more, symbols, symbol_count * sizeof *more);
        symbols = more;
        for (size_t k = 0; k < count; k++)
            if ((all_symbols[k].st_info & 15) == STT_OBJECT && all_symbols[k].st_value && all_symbols[k].st_size)
                symbols[symbol_count++] = (struct symbol){object->dlpi_addr + all_symbols[k].st_value, all_symbols[k].st_size, names + all_symbols[k].st_name};
    }
    return 0;
}
static const struct symbol *symbol_at(uintptr_t at) {
    size_t from = 0, to = symbol_count;
    while (from < to) {
        size_t middle = (from + to) / 2;
        if (symbols[middle].at <= at) from = middle + 1;
        else to = middle;
    }
    for (size_t n = from; n-- > 0 && n + 4 > from;)
        if (at < symbols[n].at + symbols[n].size) return &symbols[n];
    return NULL;
}
// The name of a variable; two have never one.
static void name_of(char *to, const struct granule *g, int byte) {
    const struct symbol *is = g->block || g->stack ? NULL : symbol_at(g->at + byte);
    unsigned number = number_of_granule(g);
    if (g->block) {
        snprintf(to, 65, "heap.%u@%lu", g->block, (unsigned long)g->offset + byte);
    } else if (g->stack) {
        snprintf(to, 65, "stack.%.20s.%u@%d", all[g->stack - 1].name, number, byte);
    } else if (is) {
        char base[42], key[64];
        int length = snprintf(base, sizeof base, "%s", is->name);
        for (char *c = base; *c; c++)
            if (*c < '0' && *c != '.' && *c != '$') *c = '_';
        unsigned long *first = &word_of(key, snprintf(key, sizeof key, "static %s", base))->number;
        if (!*first) *first = is->at;
        if (*first != is->at) length = snprintf(base, sizeof base, "%.20s#%lx", is->name, (unsigned long)is->at);
        if (g->at + byte == is->at) snprintf(to, 65, "%s", base);
        else snprintf(to, 65, "%s@%lu", base, (unsigned long)(g->at + byte - is->at));
        (void)length;
    } else {
        snprintf(to, 65, "memory.%u@%d", number, byte);
    }
}

// ---- Places: what addr2line says, if it is there

struct site { uintptr_t at; char *name; };
static struct site *sites;
static size_t site_count, site_room;
static struct site *site_of(uintptr_t at) {
    size_t from = 0, to = site_count;
    while (from < to) {
        size_t middle = (from + to) / 2;
        if (sites[middle].at < at) from = middle + 1;
        else to = middle;
    }
    return from < site_count && sites[from].at == at ? &sites[from] : NULL;
}
static int by_address(const void *a, const void *b) {
    const struct site *x = a, *y = b;
    return x->at < y->at ? -1 : x->at > y->at;
}
// Asks for all sites of one file of the program at once.
static void read_places(const char *file, uintptr_t base, size_t from, size_t to) {
    char command[PATH_MAX + 100], line[PATH_MAX], input[PATH_MAX + 16];
    if (strchr(file, '\'')) return;
    snprintf(input, sizeof input, "%.4000s.pcs", path);
    FILE *asked = fopen(input, "w");
    if (!asked) return;
    for (size_t n = from; n < to; n++) fprintf(asked, "%#lx\n", (unsigned long)(sites[n].at - base - 1));
    fclose(asked);
    snprintf(command, sizeof command, "addr2line -e '%.3000s' <'%.1000s' 2>/dev/null", file, input);
    unsetenv("LD_PRELOAD");
    FILE *told_by = strchr(input, '\'') ? NULL : popen(command, "r");
    for (size_t n = from; told_by && n < to && fgets(line, sizeof line, told_by); n++) {
        line[strcspn(line, " \n")] = 0;
        size_t known = strlen(folder);
        const char *name = strncmp(line, folder, known) ? line : line + known;
        if (*name != '?') sites[n].name = strcpy(room(strlen(name) + 1), name);
    }
    if (told_by) pclose(told_by);
    unlink(input);
}
static void name_sites(void) {
    static char self[PATH_MAX];
    ssize_t length = readlink("/proc/self/exe", self, sizeof self - 1);
    self[length > 0 ? length : 0] = 0;
    for (size_t from = 0, to; from < site_count; from = to) {
        Dl_info is, next;
        struct link_map *map = NULL;
        to = from + 1;
        if (!dladdr1((void *)sites[from].at, &is, (void **)&map, RTLD_DL_LINKMAP) || !map) continue;
        while (to < site_count && dladdr((void *)sites[to].at, &next) && next.dli_fbase == is.dli_fbase) to++;
        read_places(*map->l_name ? map->l_name : self, map->l_addr, from, to);
    }
}
