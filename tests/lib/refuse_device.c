/* Is before the C library's calls on files in a program, and lets one of those fail that are on the files of the folder REFUSED_FOLDER, or on the
 * folder: that at the place REFUSED_PLACE, counted from 1. It fails before anything is done, or where REFUSED_LATE is 1 after all is done; a
 * write, before its second half. Where REFUSED_KILLS is 1 the program is killed in place of the failure. At the end it writes how many there were to
 * the file CALLS_FILE, if that is named. A program with threads ends by _exit, which calls no destructor. */
#define _GNU_SOURCE
#include <dlfcn.h>
#include <errno.h>
#include <fcntl.h>
#include <signal.h>
#include <stdarg.h>
#include <stdio.h>
#include <stdlib.h>
#include <string.h>
#include <sys/file.h>
#include <sys/stat.h>
#include <sys/uio.h>
#include <unistd.h>

#define NEXT(name) ((typeof(&name))dlsym(RTLD_NEXT, #name))

static unsigned long count;

static int is_set(const char *name) {
    const char *text = getenv(name);
    return text && *text == '1';
}

static int is_late(void) {
    return is_set("REFUSED_LATE");
}

static int is_refused_at(const char *path) {
    const char *folder = getenv("REFUSED_FOLDER"), *place = getenv("REFUSED_PLACE");
    if (!folder || !place || strncmp(path, folder, strlen(folder)) != 0) return 0;
    return __atomic_add_fetch(&count, 1, __ATOMIC_RELAXED) == strtoul(place, NULL, 10);
}

static int is_refused(int fd) {
    char link[64], path[4096];
    snprintf(link, sizeof link, "/proc/self/fd/%d", fd);
    ssize_t size = readlink(link, path, sizeof path - 1);
    if (size < 0) return 0;
    path[size] = 0;
    return is_refused_at(path);
}

static int fail(void) {
    if (is_set("REFUSED_KILLS")) kill(getpid(), SIGKILL);
    errno = EIO;
    return -1;
}

/* The call at a refused place is made, if it fails late. */
#define CALL(refused, call) \
    if (!(refused)) return call; \
    if (is_late()) call; \
    return fail()

int open(const char *path, int flags, ...) {
    va_list rest;
    va_start(rest, flags);
    mode_t mode = va_arg(rest, mode_t);
    va_end(rest);
    if (!is_refused_at(path)) return NEXT(open)(path, flags, mode);
    if (is_late()) close(NEXT(open)(path, flags, mode));
    return fail();
}

int statx(int at, const char *path, int flags, unsigned mask, struct statx *found) {
    CALL(*path ? is_refused_at(path) : is_refused(at), NEXT(statx)(at, path, flags, mask, found));
}

int flock(int fd, int how) {
    CALL(is_refused(fd), NEXT(flock)(fd, how));
}

ssize_t read(int fd, void *bytes, size_t size) {
    CALL(is_refused(fd), NEXT(read)(fd, bytes, size));
}

ssize_t pread(int fd, void *bytes, size_t size, off_t at) {
    CALL(is_refused(fd), NEXT(pread)(fd, bytes, size, at));
}

ssize_t write(int fd, const void *bytes, size_t size) {
    if (!is_refused(fd)) return NEXT(write)(fd, bytes, size);
    if (NEXT(write)(fd, bytes, is_late() ? size : size / 2) < 0) return -1;
    return fail();
}

ssize_t writev(int fd, const struct iovec *slices, int number) {
    if (!is_refused(fd)) return NEXT(writev)(fd, slices, number);
    ssize_t put = is_late() ? NEXT(writev)(fd, slices, number) : NEXT(write)(fd, slices->iov_base, slices->iov_len / 2);
    return put < 0 ? -1 : fail();
}

ssize_t pwrite(int fd, const void *bytes, size_t size, off_t at) {
    if (!is_refused(fd)) return NEXT(pwrite)(fd, bytes, size, at);
    if (NEXT(pwrite)(fd, bytes, is_late() ? size : size / 2, at) < 0) return -1;
    return fail();
}

int ftruncate(int fd, off_t size) {
    CALL(is_refused(fd), NEXT(ftruncate)(fd, size));
}

int fsync(int fd) {
    CALL(is_refused(fd), NEXT(fsync)(fd));
}

int fdatasync(int fd) {
    CALL(is_refused(fd), NEXT(fdatasync)(fd));
}

int rename(const char *from, const char *to) {
    CALL(is_refused_at(to), NEXT(rename)(from, to));
}

int unlink(const char *path) {
    CALL(is_refused_at(path), NEXT(unlink)(path));
}

__attribute__((destructor)) static void tell(void) {
    const char *name = getenv("CALLS_FILE");
    FILE *file = name ? fopen(name, "w") : NULL;
    if (!file) return;
    fprintf(file, "%lu\n", count);
    fclose(file);
}

void _exit(int status) {
    tell();
    NEXT(_exit)(status);
    __builtin_unreachable();
}
