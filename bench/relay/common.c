/* What the generators and the sinks share; common.h says what each function does. */

#define _GNU_SOURCE
#include "common.h"

#include <arpa/inet.h>
#include <errno.h>
#include <netdb.h>
#include <netinet/tcp.h>
#include <signal.h>
#include <stdarg.h>
#include <stdio.h>
#include <stdlib.h>
#include <string.h>
#include <sys/epoll.h>
#include <sys/ioctl.h>
#include <sys/random.h>
#include <sys/socket.h>
#include <time.h>
#include <unistd.h>

volatile int is_stopped;
static sigset_t unblocked;

void die(const char *format, ...) {
    va_list rest;
    va_start(rest, format);
    vfprintf(stderr, format, rest);
    va_end(rest);
    fputc('\n', stderr);
    exit(1);
}

double moment_s(void) {
    struct timespec t;
    if (clock_gettime(CLOCK_MONOTONIC, &t))
        die("clock: %s", strerror(errno));
    return (double)t.tv_sec + (double)t.tv_nsec / 1e9;
}

void *room_for(size_t count, size_t size) {
    void *room = calloc(count ? count : 1, size);
    if (!room)
        die("memory");
    return room;
}

long number_of(const char *name, const char *text, long least, long most) {
    char *end;
    errno = 0;
    long number = strtol(text, &end, 10);
    if (errno || end == text || *end || number < least || number > most)
        die("%s is a number from %ld to %ld", name, least, most);
    return number;
}

static void set_nodelay(int fd) {
    int on = 1;
    if (setsockopt(fd, IPPROTO_TCP, TCP_NODELAY, &on, sizeof on))
        die("nodelay: %s", strerror(errno));
}

/* Connects once, and blocks meanwhile: a socket, or -1. */
static int dial_once(const struct addrinfo *address) {
    int fd = socket(address->ai_family, SOCK_STREAM | SOCK_CLOEXEC, 0);
    if (fd < 0)
        die("socket: %s", strerror(errno));
    if (!connect(fd, address->ai_addr, address->ai_addrlen))
        return fd;
    if (errno != ECONNREFUSED)
        die("connect: %s", strerror(errno));
    if (close(fd))
        die("close: %s", strerror(errno));
    return -1;
}

static void set_nonblocking(int fd) {
    int on = 1;
    if (ioctl(fd, FIONBIO, &on))
        die("nonblocking: %s", strerror(errno));
}

int dial(const char *host, const char *port) {
    struct addrinfo hints = {.ai_socktype = SOCK_STREAM, .ai_flags = AI_NUMERICHOST | AI_NUMERICSERV};
    struct addrinfo *address;
    int error = getaddrinfo(host, port, &hints, &address);
    if (error)
        die("%s %s: %s", host, port, gai_strerror(error));
    double deadline = moment_s() + 10;
    int fd = dial_once(address);
    while (fd < 0 && moment_s() < deadline) {
        struct timespec pause = {.tv_nsec = 20000000};
        nanosleep(&pause, NULL);
        fd = dial_once(address);
    }
    if (fd < 0)
        die("%s %s: refused for ten seconds", host, port);
    freeaddrinfo(address);
    set_nodelay(fd);
    set_nonblocking(fd);
    return fd;
}

int listen_at(const char *port, int segment) {
    struct sockaddr_in address = {.sin_family = AF_INET, .sin_addr.s_addr = htonl(INADDR_LOOPBACK)};
    address.sin_port = htons((uint16_t)number_of("PORT", port, 0, 65535));
    int on = 1;
    socklen_t len = sizeof address;
    int fd = socket(AF_INET, SOCK_STREAM | SOCK_NONBLOCK | SOCK_CLOEXEC, 0);
    if (fd < 0 || setsockopt(fd, SOL_SOCKET, SO_REUSEADDR, &on, sizeof on) ||
        (segment && setsockopt(fd, IPPROTO_TCP, TCP_MAXSEG, &segment, sizeof segment)) ||
        bind(fd, (struct sockaddr *)&address, sizeof address) || listen(fd, 4096) ||
        getsockname(fd, (struct sockaddr *)&address, &len))
        die("listen: %s", strerror(errno));
    printf("port %d\n", ntohs(address.sin_port));
    if (fflush(stdout))
        die("output: %s", strerror(errno));
    return fd;
}

int next_caller(int listener) {
    int fd;
    do
        fd = accept4(listener, NULL, NULL, SOCK_NONBLOCK | SOCK_CLOEXEC);
    while (fd < 0 && (errno == ECONNABORTED || errno == EINTR));
    if (fd >= 0)
        set_nodelay(fd);
    else if (errno != EAGAIN)
        die("accept: %s", strerror(errno));
    return fd;
}

int new_epoll(void) {
    int epoll = epoll_create1(EPOLL_CLOEXEC);
    if (epoll < 0)
        die("epoll: %s", strerror(errno));
    return epoll;
}

void watch(int epoll, int fd, void *data) {
    struct epoll_event event = {.events = EPOLLIN | EPOLLOUT | EPOLLET, .data.ptr = data};
    if (epoll_ctl(epoll, EPOLL_CTL_ADD, fd, &event))
        die("epoll: %s", strerror(errno));
}

static void note_stop(int signal) {
    (void)signal;
    is_stopped = 1;
}

/* The signals are blocked but in the wait, so that none comes between the look at is_stopped and the wait. */
void catch_stop(void) {
    struct sigaction action = {.sa_handler = note_stop};
    sigset_t blocked;
    if (sigemptyset(&blocked) || sigaddset(&blocked, SIGTERM) || sigaddset(&blocked, SIGINT) ||
        sigprocmask(SIG_BLOCK, &blocked, &unblocked) || sigaction(SIGTERM, &action, NULL) ||
        sigaction(SIGINT, &action, NULL))
        die("signals: %s", strerror(errno));
}

int wait_unless_stopped(int epoll, struct epoll_event *events, int most, int millis) {
    int count = epoll_pwait(epoll, events, most, millis, &unblocked);
    if (count < 0 && errno != EINTR)
        die("epoll: %s", strerror(errno));
    return count < 0 ? 0 : count;
}

long hear(int fd, void *room, size_t size) {
    ssize_t count = read(fd, room, size);
    if (count > 0)
        return count;
    return count < 0 && (errno == EAGAIN || errno == EINTR) ? 0 : -1;
}

int send_waiting(int fd, struct bytes *out) {
    size_t sent = 0;
    while (sent < out->len) {
        ssize_t count = send(fd, out->at + sent, out->len - sent, MSG_NOSIGNAL);
        if (count < 0 && errno == EINTR)
            continue;
        if (count < 0 && errno == EAGAIN)
            break;
        if (count < 0)
            return -1;
        sent += (size_t)count;
    }
    bytes_drop(out, sent);
    return 0;
}

void bytes_add(struct bytes *bytes, const void *more, size_t len) {
    if (bytes->room - bytes->len < len) {
        size_t room = 2 * bytes->room + len;
        unsigned char *at = realloc(bytes->at, room);
        if (!at)
            die("memory");
        bytes->at = at;
        bytes->room = room;
    }
    if (len)
        memcpy(bytes->at + bytes->len, more, len);
    bytes->len += len;
}

void bytes_add_byte(struct bytes *bytes, unsigned char byte) {
    bytes_add(bytes, &byte, 1);
}

void bytes_drop(struct bytes *bytes, size_t len) {
    bytes->len -= len;
    if (len && bytes->len)
        memmove(bytes->at, bytes->at + len, bytes->len);
}

/* 64 random bits (xorshift64*, whose state is never 0). */
static uint64_t draw(void) {
    static uint64_t state;
    while (!state) {
        if (getrandom(&state, sizeof state, 0) != sizeof state)
            die("random: %s", strerror(errno));
    }
    state ^= state >> 12;
    state ^= state << 25;
    state ^= state >> 27;
    return state * 2685821657736338717u;
}

void draw_chunk(char chunk[CHUNK_LEN]) {
    static const char digits[] = "ABCDEFGHIJKLMNOPQRSTUVWXYZabcdefghijklmnopqrstuvwxyz0123456789+/";
    for (int i = 0; i < 21; i += 7) {
        uint64_t bits = draw() >> 8;
        for (int j = 0; j < 7; j++, bits >>= 6)
            chunk[i + j] = digits[bits & 63];
    }
    chunk[21] = digits[(draw() >> 32 & 3) << 4];
    chunk[22] = '=';
    chunk[23] = '=';
}
