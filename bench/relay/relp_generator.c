/* Sends log-like messages over RELP (the Reliable Event Logging Protocol), and waits for the answer to each.
 *
 *     relp_generator [--connections K] [--total E] [--window W] [--timeout S] HOST PORT
 *
 * A frame is `NUMBER COMMAND LENGTH DATA` and a line feed. It opens a session over each of K connections (1), sends E
 * messages in all (100000) of about 200 bytes with the command `syslog`, at most W of a connection without an answer
 * (128, as rsyslog's own client does), and closes the sessions once all are answered. After S seconds (60) it ends with
 * status 1.
 *
 * It prints `start MOMENT`, by the monotonic clock, which all processes share, before it sends the first message, and
 * in the end
 *
 *     entries E seconds S entries/s R MB/s M bytes B
 *
 * where bytes are those of the messages. Answers tell what the next hop took, not what its own next hop has: see
 * relp_sink.c for that.
 */

#define _POSIX_C_SOURCE 200809L
#include "common.h"
#include "entries.h"

#include <errno.h>
#include <getopt.h>
#include <stdio.h>
#include <stdlib.h>
#include <string.h>
#include <sys/epoll.h>
#include <time.h>

#define OFFERS "relp_version=0\nrelp_software=relp_generator\ncommands=syslog"
#define VARIANTS 1024
#define NUMBERS 999999999
#define BATCH 65536

static const char *host, *port;
static long connections = 1, total = 100000, window = 128, timeout_s = 60;

struct conn {
    int fd;
    int is_open;
    long number; /* of the last frame that was sent */
    long heard;  /* of the last frame that was answered */
    long waiting;
    struct bytes out, in;
};

static struct bytes messages[VARIANTS];
static long allowed, begun, answered;
static size_t bytes;

static void add_frame(struct conn *conn, const char *command, const void *data, size_t len) {
    char head[64];
    conn->number = conn->number % NUMBERS + 1;
    int head_len = snprintf(head, sizeof head, "%ld %s %zu%s", conn->number, command, len, len ? " " : "");
    bytes_add(&conn->out, head, (size_t)head_len);
    bytes_add(&conn->out, data, len);
    bytes_add_byte(&conn->out, '\n');
}

static void flush_out(struct conn *conn) {
    if (send_waiting(conn->fd, &conn->out))
        die("write: %s", strerror(errno));
}

/* Sends what may be sent. */
static void refill(struct conn *conn) {
    while (conn->is_open && conn->waiting < window && begun < allowed && conn->out.len < BATCH) {
        const struct bytes *message = &messages[begun++ % VARIANTS];
        add_frame(conn, "syslog", message->at, message->len);
        conn->waiting++;
        bytes += message->len;
    }
    flush_out(conn);
}

/* The answers come in the order of the frames: the first opens the session, each other is one of a message. */
static void note_answer(struct conn *conn, long number, const char *code) {
    conn->heard = conn->heard % NUMBERS + 1;
    if (number != conn->heard || strncmp(code, "200", 3))
        die("an answer to %ld that is not the one to %ld, or not 200: %.20s", number, conn->heard, code);
    if (conn->is_open) {
        conn->waiting--;
        answered++;
    }
    conn->is_open = 1;
}

/* Reads the first answer, `NUMBER rsp LENGTH DATA`, and says how many bytes it has, 0 where it is not whole. */
static size_t read_answer(struct conn *conn, const char *at, size_t len) {
    char head[64] = {0};
    long number;
    size_t size;
    int head_len = 0;
    memcpy(head, at, len < sizeof head - 1 ? len : sizeof head - 1);
    if (sscanf(head, "%ld rsp %zu%n", &number, &size, &head_len) != 2 || (size_t)head_len >= len)
        return 0;
    if (size > 1000000 || head[head_len] != ' ')
        die("not an answer: %.20s", head);
    if (len < (size_t)head_len + 1 + size + 1)
        return 0;
    if (at[(size_t)head_len + 1 + size] != '\n')
        die("an answer without its end: %.20s", head);
    note_answer(conn, number, at + head_len + 1);
    return (size_t)head_len + 1 + size + 1;
}

static void serve(struct conn *conn) {
    char room[BATCH];
    for (;;) {
        long count = hear(conn->fd, room, sizeof room);
        if (count < 0)
            die("a connection was closed, answered %ld of %ld messages", answered, total);
        if (!count)
            break;
        bytes_add(&conn->in, room, (size_t)count);
        size_t at = 0, len;
        while ((len = read_answer(conn, (const char *)conn->in.at + at, conn->in.len - at)))
            at += len;
        bytes_drop(&conn->in, at);
    }
    refill(conn);
}

/* Serves the connections until a moment, or until so many sessions stand and so many messages are answered. */
static void serve_until(int epoll, struct conn *conns, double deadline, long until_open, long until_answered) {
    struct epoll_event events[256];
    long open = 0;
    while (moment_s() < deadline && (open < until_open || answered < until_answered)) {
        int count = wait_unless_stopped(epoll, events, 256, 100);
        for (int i = 0; i < count; i++)
            serve(events[i].data.ptr);
        open = 0;
        for (long i = 0; until_open && i < connections; i++)
            open += conns[i].is_open;
    }
    if (open < until_open || answered < until_answered)
        die("timeout: opened %ld of %ld, answered %ld of %ld messages", open, until_open, answered, total);
}

static struct conn *open_all(int epoll) {
    struct conn *conns = room_for((size_t)connections, sizeof *conns);
    for (long i = 0; i < connections; i++) {
        conns[i].fd = dial(host, port);
        add_frame(&conns[i], "open", OFFERS, strlen(OFFERS));
        watch(epoll, conns[i].fd, &conns[i]);
    }
    return conns;
}

/* Closes the sessions, and waits for two seconds at most until the other side has closed each connection. */
static void close_all(struct conn *conns) {
    double deadline = moment_s() + 2;
    for (long i = 0; i < connections; i++) {
        add_frame(&conns[i], "close", "", 0);
        flush_out(&conns[i]);
    }
    for (long i = 0; i < connections; i++) {
        char room[4096];
        while (hear(conns[i].fd, room, sizeof room) >= 0 && moment_s() < deadline) {
            struct timespec pause = {.tv_nsec = 1000000};
            nanosleep(&pause, NULL);
        }
    }
}

static void read_words(int argc, char **argv) {
    static const struct option options[] = {
        {"connections", required_argument, NULL, 'k'},
        {"total", required_argument, NULL, 'e'},
        {"window", required_argument, NULL, 'w'},
        {"timeout", required_argument, NULL, 's'},
        {NULL, 0, NULL, 0},
    };
    int option;
    while ((option = getopt_long(argc, argv, "", options, NULL)) != -1) {
        switch (option) {
        case 'k': connections = number_of("--connections", optarg, 1, 100000); break;
        case 'e': total = number_of("--total", optarg, 1, 1000000000000); break;
        case 'w': window = number_of("--window", optarg, 1, 100000); break;
        case 's': timeout_s = number_of("--timeout", optarg, 1, 1000000); break;
        default: die("relp_generator [OPTIONS] HOST PORT");
        }
    }
    if (argc - optind != 2)
        die("relp_generator [OPTIONS] HOST PORT");
    host = argv[optind];
    port = argv[optind + 1];
}

int main(int argc, char **argv) {
    read_words(argc, argv);
    for (unsigned i = 0; i < VARIANTS; i++)
        add_message(&messages[i], i);
    int epoll = new_epoll();
    struct conn *conns = open_all(epoll);
    double deadline = moment_s() + (double)timeout_s;
    serve_until(epoll, conns, deadline, connections, 0);
    allowed = total;
    double start = moment_s();
    printf("start %.6f\n", start);
    if (fflush(stdout))
        die("output: %s", strerror(errno));
    for (long i = 0; i < connections; i++)
        refill(&conns[i]);
    serve_until(epoll, conns, deadline, 0, total);
    double took = moment_s() - start;
    printf("entries %ld seconds %.4f entries/s %.0f MB/s %.1f bytes %zu\n", answered, took, (double)answered / took,
           (double)bytes / took / 1e6, bytes);
    if (fflush(stdout))
        die("output: %s", strerror(errno));
    close_all(conns);
    return 0;
}
