/* Stands before the C library's calls that read and write sockets, and lets those of one connection fail after so many bytes, as if its client had broken it
 * off. The test and the program share the file SOCKETS_FILE, which has six numbers of eight bytes: the port of that client; how many bytes may be read of it,
 * and how many may be written to it; how many were read and written; and how many calls there were after the one that failed. */
#define _GNU_SOURCE
#include <arpa/inet.h>
#include <dlfcn.h>
#include <errno.h>
#include <fcntl.h>
#include <stdint.h>
#include <stdlib.h>
#include <sys/mman.h>
#include <sys/socket.h>
#include <sys/uio.h>
#include <unistd.h>

#define NEXT(name) ((typeof(&name))dlsym(RTLD_NEXT, #name))
#define SLICES 8

struct broken {
    uint64_t port, most[2], moved[2], late;
};

enum way { READ, WRITTEN };

static struct broken none, *shared = &none;
static int has_failed;

__attribute__((constructor)) static void share(void) {
    int file = open(getenv("SOCKETS_FILE"), O_RDWR | O_CLOEXEC);
    void *found = mmap(NULL, sizeof *shared, PROT_READ | PROT_WRITE, MAP_SHARED, file, 0);
    if (found == MAP_FAILED) abort();
    close(file);
    shared = found;
}

static int is_broken(int fd) {
    struct sockaddr_in peer;
    socklen_t size = sizeof peer;
    if (!shared->port || getpeername(fd, (struct sockaddr *)&peer, &size) != 0) return 0;
    return peer.sin_family == AF_INET && ntohs(peer.sin_port) == shared->port;
}

/* How many of these bytes may be moved. If none may, the call fails. */
static size_t room(enum way way, size_t wanted) {
    size_t left = shared->most[way] - shared->moved[way];
    if (shared->moved[READ] + shared->moved[WRITTEN] == 0) has_failed = 0;
    if (has_failed) shared->late++;
    if (left == 0) {
        has_failed = 1;
        errno = ECONNRESET;
    }
    return has_failed ? 0 : left < wanted ? left : wanted;
}

static ssize_t moved(enum way way, ssize_t count) {
    if (count > 0) shared->moved[way] += count;
    return count;
}

ssize_t recv(int fd, void *bytes, size_t size, int flags) {
    if (!is_broken(fd)) return NEXT(recv)(fd, bytes, size, flags);
    size_t most = room(READ, size);
    return most ? moved(READ, NEXT(recv)(fd, bytes, most, flags)) : -1;
}

ssize_t send(int fd, const void *bytes, size_t size, int flags) {
    if (!is_broken(fd)) return NEXT(send)(fd, bytes, size, flags);
    size_t most = room(WRITTEN, size);
    return most ? moved(WRITTEN, NEXT(send)(fd, bytes, most, flags)) : -1;
}

ssize_t sendmsg(int fd, const struct msghdr *message, int flags) {
    if (!is_broken(fd)) return NEXT(sendmsg)(fd, message, flags);
    struct iovec slices[SLICES];
    struct msghdr front = *message;
    size_t size = 0, number = 0;
    for (; number < message->msg_iovlen && number < SLICES; number++) size += message->msg_iov[number].iov_len;
    size_t most = room(WRITTEN, size), left = most;
    if (!most) return -1;
    for (size_t at = 0; at < number; at++) {
        slices[at] = message->msg_iov[at];
        if (slices[at].iov_len > left) slices[at].iov_len = left;
        left -= slices[at].iov_len;
    }
    front.msg_iov = slices;
    front.msg_iovlen = number;
    return moved(WRITTEN, NEXT(sendmsg)(fd, &front, flags));
}
