/* Stands before the C library's pthread_create in a program, and refuses one call of it as the system does where there can't be more threads: that at the
 * place REFUSED_PLACE, counted from 1. */
#define _GNU_SOURCE
#include <dlfcn.h>
#include <errno.h>
#include <pthread.h>
#include <stdlib.h>

static unsigned long count;

int pthread_create(pthread_t *thread, const pthread_attr_t *attributes, void *(*run)(void *), void *given) {
    unsigned long place = __atomic_add_fetch(&count, 1, __ATOMIC_SEQ_CST);
    const char *refused = getenv("REFUSED_PLACE");
    if (refused && place == strtoul(refused, NULL, 10)) return EAGAIN;
    return ((typeof(&pthread_create))dlsym(RTLD_NEXT, "pthread_create"))(thread, attributes, run, given);
}
