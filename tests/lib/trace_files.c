/* Is before the C library's calls that change, sync or rename a file in a program or send to a socket, and tells each of them, in order, in a line of
 * the file TRACE_FILE: its name, the path of the file or the word `socket`, and what else it was given. A line is told before its call is made. If
 * STOP_AT is set, the program is killed where it has told so many lines: the last call isn't made. */
#define _GNU_SOURCE
#include <dlfcn.h>
#include <fcntl.h>
#include <signal.h>
#include <stdarg.h>
#include <stdio.h>
#include <stdlib.h>
#include <string.h>
#include <sys/socket.h>
#include <sys/stat.h>
#include <sys/uio.h>
#include <unistd.h>

static FILE *told_in(void) {
    static FILE *file;
    const char *name = getenv("TRACE_FILE");
    if (!file && name) file = fopen(name, "ae");
    return file;
}

/* The file, for one line: no other thread has one in the meantime. */
static FILE *take(void) {
    FILE *file = told_in();
    if (file) flockfile(file);
    return file;
}

/* Begins a line, unless it would be of a file that has no path. */
static FILE *begin(const char *call, int fd) {
    char link[64], path[4096];
    snprintf(link, sizeof link, "/proc/self/fd/%d", fd);
    ssize_t size = readlink(link, path, sizeof path - 1);
    FILE *file = size < 0 || path[0] != '/' ? NULL : take();
    if (!file) return NULL;
    path[size] = 0;
    fprintf(file, "%s %s", call, path);
    return file;
}

static void end(FILE *file) {
    static long told;
    const char *stop = getenv("STOP_AT");
    if (!file) return;
    fputc('\n', file);
    fflush(file);
    if (++told == (stop ? atol(stop) : 0)) kill(getpid(), SIGKILL);
    funlockfile(file);
}

static void tell(const char *call, int fd) {
    end(begin(call, fd));
}

static void tell_written(const char *call, int fd, const void *bytes, size_t size, off_t at) {
    FILE *file = begin(call, fd);
    if (!file) return;
    fprintf(file, " %lld ", (long long)at);
    for (size_t place = 0; place < size; place++) fprintf(file, "%02x", ((const unsigned char *)bytes)[place]);
    end(file);
}

static void tell_cut(int fd, off_t size) {
    FILE *file = begin("ftruncate", fd);
    if (file) fprintf(file, " %lld", (long long)size);
    end(file);
}

#define NEXT(name) ((typeof(&name))dlsym(RTLD_NEXT, #name))

ssize_t pwrite(int fd, const void *bytes, size_t size, off_t at) {
    tell_written("pwrite", fd, bytes, size, at);
    return NEXT(pwrite)(fd, bytes, size, at);
}

ssize_t pwrite64(int fd, const void *bytes, size_t size, off64_t at) {
    tell_written("pwrite", fd, bytes, size, at);
    return NEXT(pwrite64)(fd, bytes, size, at);
}

ssize_t write(int fd, const void *bytes, size_t size) {
    tell("write", fd);
    return NEXT(write)(fd, bytes, size);
}

ssize_t writev(int fd, const struct iovec *parts, int count) {
    tell("writev", fd);
    return NEXT(writev)(fd, parts, count);
}

ssize_t pwritev(int fd, const struct iovec *parts, int count, off_t at) {
    tell("pwritev", fd);
    return NEXT(pwritev)(fd, parts, count, at);
}

int ftruncate(int fd, off_t size) {
    tell_cut(fd, size);
    return NEXT(ftruncate)(fd, size);
}

int ftruncate64(int fd, off64_t size) {
    tell_cut(fd, size);
    return NEXT(ftruncate64)(fd, size);
}

int fsync(int fd) {
    tell("fsync", fd);
    return NEXT(fsync)(fd);
}

int fdatasync(int fd) {
    tell("fdatasync", fd);
    return NEXT(fdatasync)(fd);
}

int rename(const char *from, const char *to) {
    FILE *file = take();
    if (file) fprintf(file, "rename %s %s", from, to);
    end(file);
    return NEXT(rename)(from, to);
}

static void tell_sent(void) {
    FILE *file = take();
    if (file) fprintf(file, "send socket");
    end(file);
}

ssize_t send(int fd, const void *bytes, size_t size, int flags) {
    tell_sent();
    return NEXT(send)(fd, bytes, size, flags);
}

ssize_t sendmsg(int fd, const struct msghdr *message, int flags) {
    tell_sent();
    return NEXT(sendmsg)(fd, message, flags);
}
