/* Is before the C library's call that accepts a client in a program: each takes ACCEPT_MILLISECONDS longer, before it looks for one. */
#define _GNU_SOURCE
#include <dlfcn.h>
#include <stdlib.h>
#include <sys/socket.h>
#include <unistd.h>

int accept4(int fd, struct sockaddr *restrict address, socklen_t *restrict length, int flags) {
    const char *longer = getenv("ACCEPT_MILLISECONDS");
    if (longer) usleep(atoi(longer) * 1000);
    return ((typeof(&accept4))dlsym(RTLD_NEXT, "accept4"))(fd, address, length, flags);
}
