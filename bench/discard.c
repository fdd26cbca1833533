/* Loads a server of 127.0.0.1 with requests over connections that are kept, and lets the kernel discard the bodies of the replies: none of their bytes is
 * copied, except those that come with the head.
 *
 *     discard PORT THREADS CONNECTIONS SECONDS <REQUESTS
 *
 * REQUESTS has whole requests without a body, one after another. They are sent in turn, over and over, by each connection one at a time: the next one once
 * the reply is there. A connection whose reply says `Connection: close` is made anew. When the seconds are over, no more requests are sent, and the replies
 * under way are awaited. Then it prints one line:
 *
 *     replies COUNT bodies BYTES connections COUNT seconds SECONDS p50 SECONDS p99 SECONDS
 *
 * How long a reply takes is counted from its request to its last byte, and from the connection's start if that is new. Any reply but 200 and 206, one
 * without a Content-Length, one that ends early or goes on, and a silence of PATIENCE seconds end it with a line on standard error and status 1. */
#define _GNU_SOURCE
#include <arpa/inet.h>
#include <errno.h>
#include <pthread.h>
#include <stdarg.h>
#include <stdint.h>
#include <stdio.h>
#include <stdlib.h>
#include <string.h>
#include <sys/epoll.h>
#include <sys/socket.h>
#include <time.h>
#include <unistd.h>

/* The most bytes of a reply that are copied. A small reply comes whole by one call. */
#define ROOM 8192
#define PATIENCE 20
#define MOST_REQUESTS 65536
#define SECOND 1000000000ull

struct request {
    const char *bytes;
    size_t length;
};

struct connection {
    int socket;
    uint64_t asked;
    /* How many bytes the front has. Once the head has come, how many bytes of the body are still to come, and whether the reply is the last one. */
    size_t got, left;
    int has_head, is_last;
    char front[ROOM + 1];
};

struct thread {
    pthread_t id;
    int set;
    struct connection *connections;
    /* The request that is sent next, the number of connections, and how many of these await a reply. */
    size_t next, count, awaiting;
    uint64_t bodies, made;
    /* How long each reply took, in nanoseconds. */
    uint64_t *took;
    size_t replies, room;
};

static struct sockaddr_in server = {.sin_family = AF_INET};
static struct request requests[MOST_REQUESTS];
static size_t request_count;
static uint64_t end;

__attribute__((noreturn, format(printf, 1, 2))) static void fail(const char *what, ...) {
    va_list rest;
    va_start(rest, what);
    fputs("discard: ", stderr);
    vfprintf(stderr, what, rest);
    fputs("\n", stderr);
    exit(1);
}

static uint64_t now(void) {
    struct timespec time;
    clock_gettime(CLOCK_MONOTONIC, &time);
    return time.tv_sec * SECOND + time.tv_nsec;
}

static void *allocated(void *old, size_t size) {
    void *room = realloc(old, size);
    if (!room) fail("no memory");
    return room;
}

/* Reads the requests to the end of the standard input. Each ends with its empty line. */
static void read_requests(void) {
    static char room[1 << 22];
    size_t length = fread(room, 1, sizeof room - 1, stdin);
    if (length == sizeof room - 1) fail("too many bytes of requests");
    for (char *at = room, *last; (last = strstr(at, "\r\n\r\n")); at = last + 4) {
        if (request_count == MOST_REQUESTS) fail("too many requests");
        requests[request_count++] = (struct request){at, last + 4 - at};
    }
    if (!request_count) fail("no requests");
}

static void join(struct thread *me, struct connection *one) {
    struct epoll_event event = {.events = EPOLLIN, .data.ptr = one};
    one->socket = socket(AF_INET, SOCK_STREAM | SOCK_CLOEXEC, 0);
    if (one->socket < 0 || connect(one->socket, (struct sockaddr *)&server, sizeof server) != 0) fail("no connection: %s", strerror(errno));
    if (epoll_ctl(me->set, EPOLL_CTL_ADD, one->socket, &event) != 0) fail("no set: %s", strerror(errno));
    me->made++;
}

static void ask(struct thread *me, struct connection *one) {
    const struct request *request = &requests[me->next++ % request_count];
    one->asked = now();
    if (one->socket < 0) join(me, one);
    one->got = one->left = 0;
    one->has_head = 0;
    ssize_t sent = send(one->socket, request->bytes, request->length, MSG_NOSIGNAL);
    if (sent != (ssize_t)request->length) fail("a request that can't be sent: %s", strerror(errno));
}

/* Reads the head, if all of it has come. */
static void read_head(struct connection *one) {
    one->front[one->got] = 0;
    char *last = strstr(one->front, "\r\n\r\n");
    if (!last && one->got == ROOM) fail("a head of more than %d bytes", ROOM);
    if (!last) return;
    size_t body_got = one->front + one->got - (last + 4);
    last[2] = 0;
    if (strncmp(one->front, "HTTP/1.1 200 ", 13) != 0 && strncmp(one->front, "HTTP/1.1 206 ", 13) != 0) fail("a reply that begins with %.12s", one->front);
    const char *length = strcasestr(one->front, "\r\nContent-Length:");
    if (!length) fail("a reply without a length");
    size_t body = strtoull(strchr(length, ':') + 1, NULL, 10);
    if (body < body_got) fail("a reply that goes on after its %zu bytes", body);
    one->left = body - body_got;
    one->is_last = strcasestr(one->front, "\r\nConnection: close\r\n") != NULL;
    one->has_head = 1;
    /* From here on the body's length. */
    one->got = body;
}

/* Reads what has come of a reply. Whether all of it has. */
static int read_reply(struct connection *one) {
    while (!one->has_head || one->left) {
        int is_body = one->has_head;
        ssize_t count = is_body ? recv(one->socket, NULL, one->left, MSG_TRUNC | MSG_DONTWAIT)
                                : recv(one->socket, one->front + one->got, ROOM - one->got, MSG_DONTWAIT);
        if (count < 0 && errno == EAGAIN) return 0;
        if (count <= 0) fail("a reply that ends early: %s", count ? strerror(errno) : "its connection has ended");
        if (is_body) {
            one->left -= count;
            /* The set tells when there is more. */
            return !one->left;
        }
        one->got += count;
        read_head(one);
    }
    return 1;
}

static void note_reply(struct thread *me, uint64_t took, size_t body) {
    if (me->replies == me->room) {
        me->room = me->room ? 2 * me->room : 1 << 16;
        me->took = allocated(me->took, me->room * sizeof *me->took);
    }
    me->took[me->replies++] = took;
    me->bodies += body;
}

static void go_on(struct thread *me, struct connection *one) {
    if (!read_reply(one)) return;
    uint64_t time = now();
    note_reply(me, time - one->asked, one->got);
    if (one->is_last || time >= end) {
        close(one->socket);
        one->socket = -1;
    }
    if (time < end) ask(me, one);
    else me->awaiting--;
}

static void *load(void *given) {
    struct thread *me = given;
    struct epoll_event events[64];
    for (; me->awaiting < me->count; me->awaiting++) ask(me, &me->connections[me->awaiting]);
    while (me->awaiting) {
        int ready = epoll_wait(me->set, events, sizeof events / sizeof *events, PATIENCE * 1000);
        if (ready < 0) fail("no wait: %s", strerror(errno));
        if (!ready) fail("no reply came for %d seconds", PATIENCE);
        for (int at = 0; at < ready; at++) go_on(me, events[at].data.ptr);
    }
    return NULL;
}

static void start(struct thread *me, size_t number, size_t threads, size_t connections) {
    *me = (struct thread){.count = connections / threads + (number < connections % threads), .next = number * request_count / threads};
    me->connections = allocated(NULL, me->count * sizeof *me->connections);
    for (size_t at = 0; at < me->count; at++) me->connections[at].socket = -1;
    me->set = epoll_create1(EPOLL_CLOEXEC);
    if (me->set < 0 || pthread_create(&me->id, NULL, load, me) != 0) fail("no thread");
}

static int compare(const void *one, const void *other) {
    uint64_t a = *(const uint64_t *)one, b = *(const uint64_t *)other;
    return (a > b) - (a < b);
}

/* Joins what the threads counted, and prints it. */
static void tell(struct thread *threads, size_t count, uint64_t begun) {
    struct thread all = {0};
    for (size_t at = 0; at < count; at++) {
        struct thread *one = &threads[at];
        all.took = allocated(all.took, (all.replies + one->replies) * sizeof *all.took);
        memcpy(all.took + all.replies, one->took, one->replies * sizeof *all.took);
        all.replies += one->replies;
        all.bodies += one->bodies;
        all.made += one->made;
    }
    double seconds = (double)(now() - begun) / SECOND;
    qsort(all.took, all.replies, sizeof *all.took, compare);
    double half = (double)all.took[all.replies / 2] / SECOND, late = (double)all.took[all.replies * 99 / 100] / SECOND;
    printf("replies %zu bodies %lu connections %lu seconds %.6f p50 %.9f p99 %.9f\n", all.replies, all.bodies, all.made, seconds, half, late);
}

int main(int count, char **words) {
    if (count != 5) fail("it takes a port, threads, connections and seconds");
    size_t threads = strtoull(words[2], NULL, 10), connections = strtoull(words[3], NULL, 10);
    double seconds = strtod(words[4], NULL);
    if (!threads || connections < threads || !(seconds > 0)) fail("it takes at least one thread, a connection for each, and some time");
    server.sin_port = htons(strtoul(words[1], NULL, 10));
    server.sin_addr.s_addr = htonl(INADDR_LOOPBACK);
    read_requests();
    uint64_t begun = now();
    end = begun + (uint64_t)(seconds * SECOND);
    struct thread *all = allocated(NULL, threads * sizeof *all);
    for (size_t at = 0; at < threads; at++) start(&all[at], at, threads, connections);
    for (size_t at = 0; at < threads; at++) pthread_join(all[at].id, NULL);
    tell(all, threads, begun);
}
