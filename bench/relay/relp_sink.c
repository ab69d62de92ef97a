/* The last hop of RELP: takes messages, answers each, and counts.
 *
 *     relp_sink TOTAL PORT
 *
 * It listens at a port of 127.0.0.1, prints `port N` (PORT 0 is a free one), and once it has TOTAL messages
 *
 *     full MOMENT entries E bytes B
 *
 * by the monotonic clock, which all processes share, where bytes are those of the messages as they come here. At
 * SIGTERM it prints `messages E`, and ends.
 *
 * It asks for segments as on an Ethernet. Those of the loopback are longer than all that rsyslog's client sends without
 * an answer, and since that lets the system hold back segments that are not full, it would stand still for a tenth of a
 * second and more between answers, in some runs and not in others.
 */

#include "common.h"

#include <errno.h>
#include <stdio.h>
#include <stdlib.h>
#include <string.h>
#include <sys/epoll.h>
#include <unistd.h>

#define ROOM 262144
#define SEGMENT 1448
#define OFFERS "200 OK\nrelp_version=0\nrelp_software=relp_sink\ncommands=syslog"

struct conn {
    int fd;
    struct bytes in, out;
};

/* A frame: its number and its length, and where its command and its data begin. */
struct frame {
    long number;
    const char *command;
    size_t command_len, size, len;
};

static long total, messages;
static size_t bytes;

static void answer(struct conn *conn, long number, const char *command, const char *data) {
    char head[64];
    size_t len = strlen(data);
    int head_len = snprintf(head, sizeof head, "%ld %s %zu%s", number, command, len, len ? " " : "");
    bytes_add(&conn->out, head, (size_t)head_len);
    bytes_add(&conn->out, data, len);
    bytes_add_byte(&conn->out, '\n');
}

/* A decimal number up to a byte that ends it; where that is not there yet, nothing. */
static int read_number(const char **at, const char *end, long *number) {
    const char *start = *at;
    *number = 0;
    while (*at < end && **at >= '0' && **at <= '9' && *at - start < 10)
        *number = *number * 10 + (*(*at)++ - '0');
    if (*at < end && (*at == start || (**at != ' ' && **at != '\n')))
        die("not a frame of RELP");
    return *at < end;
}

/* Reads the first frame: whether it is whole. */
static int read_frame(struct frame *frame, const char *at, size_t left) {
    const char *start = at, *end = at + left;
    long size;
    if (!read_number(&at, end, &frame->number))
        return 0;
    frame->command = ++at;
    while (at < end && *at != ' ')
        at++;
    frame->command_len = (size_t)(at - frame->command);
    if (frame->command_len > 32)
        die("not a command of RELP");
    if (at >= end || !(++at < end) || !read_number(&at, end, &size))
        return 0;
    frame->size = (size_t)size;
    at += size ? 1 : 0;
    if ((size_t)(end - at) < frame->size + 1)
        return 0;
    if (at[frame->size] != '\n')
        die("a frame without its end");
    frame->len = (size_t)(at - start) + frame->size + 1;
    return 1;
}

static int is_command(const struct frame *frame, const char *name) {
    return frame->command_len == strlen(name) && !memcmp(frame->command, name, frame->command_len);
}

static void note_message(size_t size) {
    messages++;
    bytes += size;
    if (messages != total)
        return;
    printf("full %.6f entries %ld bytes %zu\n", moment_s(), messages, bytes);
    if (fflush(stdout))
        die("output: %s", strerror(errno));
}

static void take_frame(struct conn *conn, const struct frame *frame) {
    if (is_command(frame, "syslog")) {
        note_message(frame->size);
        answer(conn, frame->number, "rsp", "200 OK");
    } else if (is_command(frame, "open")) {
        answer(conn, frame->number, "rsp", OFFERS);
    } else if (is_command(frame, "close")) {
        answer(conn, frame->number, "rsp", "200 OK");
        answer(conn, 0, "serverclose", "");
    } else {
        die("an unknown command of RELP");
    }
}

/* Reads all that is there, and answers: whether the connection stands. */
static int serve(struct conn *conn) {
    static char room[ROOM];
    for (;;) {
        long count = hear(conn->fd, room, ROOM);
        if (count < 0)
            return 0;
        if (!count)
            return !send_waiting(conn->fd, &conn->out);
        bytes_add(&conn->in, room, (size_t)count);
        struct frame frame;
        size_t at = 0;
        for (; read_frame(&frame, (const char *)conn->in.at + at, conn->in.len - at); at += frame.len)
            take_frame(conn, &frame);
        bytes_drop(&conn->in, at);
        if (send_waiting(conn->fd, &conn->out))
            return 0;
    }
}

static void forget(struct conn *conn) {
    if (close(conn->fd))
        die("close: %s", strerror(errno));
    free(conn->in.at);
    free(conn->out.at);
    free(conn);
}

static void welcome(int epoll, int listener) {
    int fd;
    while ((fd = next_caller(listener)) >= 0) {
        struct conn *conn = room_for(1, sizeof *conn);
        conn->fd = fd;
        watch(epoll, fd, conn);
    }
}

int main(int argc, char **argv) {
    if (argc != 3)
        die("relp_sink TOTAL PORT");
    total = number_of("TOTAL", argv[1], 1, 1000000000000);
    catch_stop();
    int epoll = new_epoll();
    int listener = listen_at(argv[2], SEGMENT);
    watch(epoll, listener, NULL);
    struct epoll_event events[256];
    while (!is_stopped) {
        int count = wait_unless_stopped(epoll, events, 256, -1);
        for (int i = 0; i < count; i++) {
            struct conn *conn = events[i].data.ptr;
            if (!conn)
                welcome(epoll, listener);
            else if (!serve(conn))
                forget(conn);
        }
    }
    printf("messages %ld\n", messages);
    return fflush(stdout) ? 1 : 0;
}
