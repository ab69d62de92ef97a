/* What the generators and the sinks share: moments, sockets, growing bytes, and random chunk names. */

#ifndef COMMON_H
#define COMMON_H

#include <stddef.h>
#include <stdint.h>

/* Bytes that grow. */
struct bytes {
    unsigned char *at;
    size_t len;
    size_t room;
};

/* Says why on standard error, and ends with status 1. */
_Noreturn void die(const char *format, ...) __attribute__((format(printf, 1, 2)));

/* The monotonic clock, which all processes share, in seconds. */
double moment_s(void);

/* Memory of zeros; the program ends where there is none. */
void *room_for(size_t count, size_t size);

/* The value of an option that has to be a number from least to most. */
long number_of(const char *name, const char *text, long least, long most);

/* Connects, and tries for ten seconds where the connection is refused. The socket does not block. */
int dial(const char *host, const char *port);

/* Listens at a port of 127.0.0.1, or at a free one where it is 0, for segments of at most so many bytes, or any where
 * that is 0, and prints the line `port N`. */
int listen_at(const char *port, int segment);

/* The next connection that waits at a listener, which does not block, or -1. */
int next_caller(int listener);

/* An epoll descriptor, and its watch over a descriptor: reads and writes, told once each. */
int new_epoll(void);
void watch(int epoll, int fd, void *data);

/* After this SIGTERM and SIGINT only set is_stopped, and break a wait of wait_unless_stopped. */
extern volatile int is_stopped;
void catch_stop(void);

struct epoll_event;
/* Waits for events, at most so long: how many there are, 0 also where a signal broke the wait. */
int wait_unless_stopped(int epoll, struct epoll_event *events, int most, int millis);

/* Reads once: more than 0 bytes, 0 where nothing is there yet, -1 where the other side closed or the socket failed. */
long hear(int fd, void *room, size_t size);

/* Writes what waits as far as the socket takes it: 0, or -1 where the socket failed. */
int send_waiting(int fd, struct bytes *out);

void bytes_add(struct bytes *bytes, const void *more, size_t len);
void bytes_add_byte(struct bytes *bytes, unsigned char byte);
/* Takes bytes off the front. */
void bytes_drop(struct bytes *bytes, size_t len);

#define CHUNK_LEN 24

/* The Base64 of 16 random bytes, from a generator of its own that begins where the system's random numbers say. */
void draw_chunk(char chunk[CHUNK_LEN]);

#endif
