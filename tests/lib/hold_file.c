/* Is before the C library's calls on files in a program, and holds each read and each sync of the file HELD_FILE until there is a file RELEASE_FILE,
 * at most for HELD_SECONDS; or only so many of them as HELD_MOST says, if that is set. It tells in lines of the file TOLD_FILE when the held file is
 * opened, when a call is held, and when that call goes on: since that file is there, or since it gives up. */
#define _GNU_SOURCE
#include <dlfcn.h>
#include <fcntl.h>
#include <stdarg.h>
#include <stdio.h>
#include <stdlib.h>
#include <string.h>
#include <time.h>
#include <unistd.h>

#define NEXT(name) ((typeof(&name))dlsym(RTLD_NEXT, #name))

static int is_held(const char *path) {
    const char *held = getenv("HELD_FILE");
    return held && strcmp(path, held) == 0;
}

static int is_held_descriptor(int fd) {
    char link[64], path[4096];
    snprintf(link, sizeof link, "/proc/self/fd/%d", fd);
    ssize_t size = readlink(link, path, sizeof path - 1);
    if (size < 0) return 0;
    path[size] = 0;
    return is_held(path);
}

/* One write to the end of the file: lines of two threads don't mix. */
static void tell(const char *line) {
    int file = NEXT(open)(getenv("TOLD_FILE"), O_WRONLY | O_APPEND | O_CREAT | O_CLOEXEC, 0666);
    if (file < 0 || write(file, line, strlen(line)) < 0) abort();
    close(file);
}

/* Whether one more call may be held. */
static int may_hold(const char *release) {
    static int count;
    const char *most = getenv("HELD_MOST");
    return !most || access(release, F_OK) == 0 || __sync_fetch_and_add(&count, 1) < atoi(most);
}

static void hold(void) {
    const struct timespec pause = {0, 1000000};
    const char *release = getenv("RELEASE_FILE");
    if (!may_hold(release)) return;
    time_t until = time(NULL) + atoi(getenv("HELD_SECONDS"));
    tell("held\n");
    while (access(release, F_OK) != 0) {
        if (time(NULL) > until) {
            tell("gave up\n");
            return;
        }
        nanosleep(&pause, NULL);
    }
    tell("went on\n");
}

int open(const char *path, int flags, ...) {
    va_list rest;
    va_start(rest, flags);
    mode_t mode = va_arg(rest, mode_t);
    va_end(rest);
    if (is_held(path)) tell("opened\n");
    return NEXT(open)(path, flags, mode);
}

ssize_t read(int fd, void *bytes, size_t size) {
    if (is_held_descriptor(fd)) hold();
    return NEXT(read)(fd, bytes, size);
}

ssize_t pread(int fd, void *bytes, size_t size, off_t at) {
    if (is_held_descriptor(fd)) hold();
    return NEXT(pread)(fd, bytes, size, at);
}

int fsync(int fd) {
    if (is_held_descriptor(fd)) hold();
    return NEXT(fsync)(fd);
}

int fdatasync(int fd) {
    if (is_held_descriptor(fd)) hold();
    return NEXT(fdatasync)(fd);
}
