/* Calls on the objects of a C program, written into the trace of librdpreload.so or rdmemory.c. Without one of them nothing is
   written, and the program runs as it is.

       rd_object stock = rd_new("dictionary", "stock");
       rd_begin();                                             // the operation and its line are one step: wait for nothing in it
       long old = put(map, "apples", 3);
       RD_CALL(stock, "put", rd_number(old), rd_text("apples"), rd_number(3));
       rd_end();

   The result stands first, then the arguments, none to six of them. */
#pragma once
#include <stddef.h>
#include <stdio.h>
#include <string.h>

#ifdef __cplusplus
extern "C" {
#endif
void rd_enter(void) __attribute__((weak));
void rd_leave(void) __attribute__((weak));
void rd_pair(const void *at) __attribute__((weak));
void rd_fresh(char *into, const char *sort, const char *given) __attribute__((weak));
void rd_object_line(const char *name, const char *kind) __attribute__((weak));
void rd_call_line(const char *place, const char *what) __attribute__((weak));
unsigned long rd_number_of(const void *bytes, size_t length, int forget) __attribute__((weak));
#ifdef __cplusplus
}
#endif

typedef struct { char name[64]; } rd_object;
enum rd_sort { RD_NIL, RD_TRUTH, RD_NUMBER, RD_TEXT, RD_POINTER };
typedef struct { enum rd_sort sort; long long number; const char *text; size_t length; } rd_value;

static inline rd_value rd_nil(void) { rd_value v = {RD_NIL, 0, NULL, 0}; return v; }
static inline rd_value rd_truth(int is) { rd_value v = {RD_TRUTH, is, NULL, 0}; return v; }
static inline rd_value rd_number(long long number) { rd_value v = {RD_NUMBER, number, NULL, 0}; return v; }
static inline rd_value rd_bytes(const char *text, size_t length) { rd_value v = {RD_TEXT, 0, text, length}; return v; }
static inline rd_value rd_text(const char *text) { return text ? rd_bytes(text, strlen(text)) : rd_nil(); }
/* What a pointer points to, by its identity. Say rd_forget before it is freed: what comes to stand there has another number. */
static inline rd_value rd_pointer(const void *to) { rd_value v = {to ? RD_POINTER : RD_NIL, 0, (const char *)to, 0}; return v; }
static inline void rd_forget(const void *to) {
    if (rd_number_of) rd_number_of(&to, sizeof to, 1);
}

/* A new object, of a kind that is built in or of a specification. What it holds at first is then written as calls. */
static inline rd_object rd_new(const char *kind, const char *name) {
    rd_object made;
    memset(&made, 0, sizeof made);
    if (!rd_object_line) return made;
    rd_enter();
    rd_fresh(made.name, kind, name);
    rd_object_line(made.name, kind);
    rd_leave();
    return made;
}
/* An order that the recorder doesn't see: what is before this comes before what is behind the later ones for the same address. */
static inline void rd_order(const void *at) { if (rd_pair) rd_pair(at); }
static inline void rd_begin(void) { if (rd_enter) rd_enter(); }
static inline void rd_end(void) { if (rd_leave) rd_leave(); }

/* Spells a value: 1,100 bytes suffice for any. */
static inline void rd_spell(char *to, rd_value v) {
    char cut[256];
    if (v.sort == RD_NIL) strcpy(to, "nil");
    else if (v.sort == RD_TRUTH) strcpy(to, v.number ? "true" : "false");
    else if (v.sort == RD_NUMBER) sprintf(to, "%lld", v.number);
    else if (v.sort == RD_POINTER) sprintf(to, "\"#%lu\"", rd_number_of(&v.text, sizeof v.text, 0));
    else {
        if (v.length > 255 || (v.length > 102 && !memcmp(v.text + 100, "..#", 3))) {     /* equal ones have one number */
            int n = sprintf(cut + 100, "..#%lu", rd_number_of(v.text, v.length, 0));
            memcpy(cut, v.text, 100);
            v.text = cut, v.length = 100 + n;
        }
        *to++ = '"';
        for (size_t n = 0; n < v.length; n++) {
            unsigned char b = v.text[n];
            if (b == '"' || b == '\\') *to++ = '\\', *to++ = b;
            else if (0x20 <= b && b <= 0x7e) *to++ = b;
            else to += sprintf(to, "\\x%02x", b);
        }
        *to++ = '"', *to = 0;
    }
}
static inline void rd_say(const char *place, const rd_object *object, const char *method, const rd_value *values, size_t count) {
    char line[8192], value[1100];
    if (!rd_call_line || !*object->name) return;
    int length = sprintf(line, "%s %s", object->name, method);
    for (size_t n = 1; n <= count; n++) {                      /* the result, which stands first, comes last */
        rd_spell(value, values[n == count ? 0 : n]);
        length += sprintf(line + length, "%s%s", n == count ? " -> " : " ", value);
    }
    rd_call_line(place, line);
}
#define RD_LINE_(n) #n
#define RD_LINE(n) RD_LINE_(n)
#define RD_CALL(object, method, ...) do {                                                       \
        const rd_value rd_values_[] = {__VA_ARGS__};                                            \
        rd_say(__FILE__ ":" RD_LINE(__LINE__), &(object), method, rd_values_, sizeof rd_values_ / sizeof *rd_values_); \
    } while (0)
