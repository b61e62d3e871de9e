/* What the header's tests compare with, and what they take of the system: declared here, so that they are compiled for x86-64 also where
 * the machine's own headers are another processor's. Linux; C99 and C++. */
#ifndef COMPARE_H
#define COMPARE_H

#include "shrikemuff.h"

#ifdef __cplusplus
extern "C" {
#endif
int printf(const char *form, ...);
void perror(const char *what);
int memcmp(const void *a, const void *b, size_t n);
int strcmp(const char *a, const char *b);
size_t strlen(const char *s);
void *memcpy(void *to, const void *from, size_t n);
void *memset(void *to, int byte, size_t n);
void *mmap(void *address, size_t length, int protection, int flags, int file, long offset);
int mprotect(void *address, size_t length, int protection);
#ifdef __cplusplus
}
#endif

static unsigned compared, wrong;

static inline void same(int line, const char *what, uint64_t got, uint64_t due) {
    compared++;
    if (got == due) return;
    wrong++;
    printf("line %d: %s is %llu and should be %llu\n", line, what, (unsigned long long)got, (unsigned long long)due);
}

static inline void bytes_same(int line, const void *got, const void *due, size_t n) {
    compared++;
    if (memcmp(got, due, n) == 0) return;
    wrong++;
    printf("line %d: memory is not as it should be\n", line);
}

static inline void counted(int line, shrike_count r, uint32_t number, uint32_t count) {
    same(line, "number", r.number, number);
    same(line, "count", r.count, count);
}

static inline void spotted(int line, shrike_spot r, uint32_t number, uint64_t offset) {
    same(line, "number", r.number, number);
    same(line, "offset", r.offset, offset);
}

static inline void judged(int line, shrike_verdict r, uint32_t number, uint32_t place) {
    same(line, "number", r.number, number);
    same(line, "place", r.place, place);
}

static inline void answered(int line, shrike_answer r, uint32_t number, uint32_t place, uint64_t used, int32_t change, uint32_t children) {
    same(line, "number", r.number, number);
    same(line, "place", r.place, place);
    same(line, "used", r.used, used);
    same(line, "change", (uint64_t)(int64_t)r.change, (uint64_t)(int64_t)change);
    same(line, "children", r.children, children);
}

static inline void listed(int line, shrike_listed r, uint32_t number, uint32_t place, uint64_t used, int32_t change, uint32_t children,
                          uint32_t done) {
    answered(line, r.last, number, place, used, change, children);
    same(line, "done", r.done, done);
}

static inline void grouped(int line, shrike_grouped r, uint32_t number, uint32_t place, uint64_t used, int32_t change, uint32_t which) {
    same(line, "number", r.number, number);
    same(line, "place", r.place, place);
    same(line, "used", r.used, used);
    same(line, "change", (uint64_t)(int64_t)r.change, (uint64_t)(int64_t)change);
    same(line, "which", r.which, which);
}

static inline void compared_as(int line, shrike_compared r, uint32_t number, uint32_t takes_all, uint32_t length) {
    same(line, "number", r.number, number);
    same(line, "takes_all", r.takes_all, takes_all);
    same(line, "length", r.length, length);
}

#define COUNTED(call, number, count) counted(__LINE__, call, number, count)
#define SPOTTED(call, number, offset) spotted(__LINE__, call, number, offset)
#define JUDGED(call, number, place) judged(__LINE__, call, number, place)
#define ANSWERED(call, number, place, used, change, children) answered(__LINE__, call, number, place, used, change, children)
#define LISTED(call, number, place, used, change, children, done) listed(__LINE__, call, number, place, used, change, children, done)
#define GROUPED(call, number, place, used, change, which) grouped(__LINE__, call, number, place, used, change, which)
#define COMPARED(call, number, takes_all, length) compared_as(__LINE__, call, number, takes_all, length)
#define SAME(what, got, due) same(__LINE__, what, got, due)
#define BYTES(got, due, n) bytes_same(__LINE__, got, due, n)

/* What a program says at its end, and its status: 1 if anything was wrong. */
static inline int told(void) {
    printf("%u compared, %u wrong\n", compared, wrong);
    return wrong != 0;
}

#endif
