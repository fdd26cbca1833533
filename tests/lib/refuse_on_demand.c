/* Stands before the C library's malloc and realloc in a program that goes on, and refuses those of their calls that a test names meanwhile. The test and
 * the program share the file REFUSALS_FILE, which has five numbers of eight bytes: how many calls there were, how many of them were refused, the first and
 * the last place of those that are refused, counted from 1, and how far these places are apart. If the first place is 0, none is refused. */
#define _GNU_SOURCE
#include <dlfcn.h>
#include <fcntl.h>
#include <stdint.h>
#include <stdlib.h>
#include <sys/mman.h>
#include <unistd.h>

struct refusals {
    uint64_t count, refused, first, last, apart;
};

static struct refusals alone, *shared = &alone;

__attribute__((constructor)) static void share(void) {
    int file = open(getenv("REFUSALS_FILE"), O_RDWR | O_CLOEXEC);
    void *found = mmap(NULL, sizeof *shared, PROT_READ | PROT_WRITE, MAP_SHARED, file, 0);
    if (found == MAP_FAILED) abort();
    close(file);
    shared = found;
}

static int is_refused(void) {
    uint64_t place = __atomic_add_fetch(&shared->count, 1, __ATOMIC_SEQ_CST);
    uint64_t first = __atomic_load_n(&shared->first, __ATOMIC_SEQ_CST);
    if (!first || place < first || place > shared->last || (place - first) % shared->apart) return 0;
    __atomic_add_fetch(&shared->refused, 1, __ATOMIC_SEQ_CST);
    return 1;
}

static void *next(const char *name) {
    return dlsym(RTLD_NEXT, name);
}

void *malloc(size_t size) {
    static void *(*real)(size_t);
    if (!real) real = (void *(*)(size_t))next("malloc");
    return is_refused() ? NULL : real(size);
}

void *realloc(void *old, size_t size) {
    static void *(*real)(void *, size_t);
    if (!real) real = (void *(*)(void *, size_t))next("realloc");
    return is_refused() ? NULL : real(old, size);
}
