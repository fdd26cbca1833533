/* Stands before the C library's malloc and realloc in a program, and refuses one call of these: that at the place
 * REFUSED_PLACE, counted from 1. With REFUSED_FROM_THERE it refuses each one after that too. At the end it writes how many
 * there were to the file ALLOCATIONS_FILE, if that is named. A program with threads ends by _exit, which calls no destructor. */
#define _GNU_SOURCE
#include <dlfcn.h>
#include <stdio.h>
#include <stdlib.h>

static unsigned long count;

static unsigned long refused_place(void) {
    const char *text = getenv("REFUSED_PLACE");
    return text ? strtoul(text, NULL, 10) : 0;
}

static int is_refused(void) {
    unsigned long place = __atomic_add_fetch(&count, 1, __ATOMIC_SEQ_CST), refused = refused_place();
    return place == refused || (refused && place > refused && getenv("REFUSED_FROM_THERE"));
}

static void *next(const char *name) {
    return dlsym(RTLD_NEXT, name);
}

void *malloc(size_t size) {
    static void *(*real)(size_t);
    if (!real) real = (void *(*)(size_t))next("malloc");
    return is_refused() ? NULL : real(size);
}

void *realloc(void *old, size_t size) {
    static void *(*real)(void *, size_t);
    if (!real) real = (void *(*)(void *, size_t))next("realloc");
    return is_refused() ? NULL : real(old, size);
}

__attribute__((destructor)) static void tell(void) {
    const char *name = getenv("ALLOCATIONS_FILE");
    if (!name) return;
    unsigned long seen = count;
    FILE *file = fopen(name, "w");
    if (!file) return;
    fprintf(file, "%lu\n", seen);
    fclose(file);
}

void _exit(int status) {
    void (*real)(int) = (void (*)(int))next("_exit");
    tell();
    real(status);
    __builtin_unreachable();
}
