/* Sends requests over many connections, and waits for the acknowledgement of each.
 *
 *     generator [OPTIONS] HOST PORT
 *
 *     --mode M          packed (PackedForward mode), forward (Forward mode) or message (Message mode) (packed)
 *     --connections K   connections at a time (1)
 *     --entries N       entries of a request, about 200 bytes each (100); in Message mode always one
 *     --total E         ends once so many entries are acknowledged, rounded up to whole requests (100000)
 *     --window W        the most unacknowledged requests of a connection (4)
 *     --tags T          the requests go round so many tags (1)
 *     --seconds S       sends no more requests after so many seconds, and ends once all that were sent are acknowledged
 *     --timeout S       ends with status 1 after so many seconds (60)
 *     --latency         also prints the median and the 99th percentile of the round trips
 *     --hold S          sends W requests over each connection, prints `holding` once all are sent, and then only reads
 *                       for S seconds
 *
 * A request is one of a few that are made beforehand, and has a chunk option of its own. The clock runs from the first
 * byte, once all connections stand, to the last acknowledgement. It prints
 *
 *     entries E seconds S entries/s R MB/s M bytes B
 *
 * where bytes are those of the entries once they are packed, without what is around them, and a MB is 10^6 bytes.
 */

#define _GNU_SOURCE
#include "common.h"
#include "entries.h"

#include <errno.h>
#include <getopt.h>
#include <stdio.h>
#include <stdlib.h>
#include <string.h>
#include <sys/epoll.h>
#include <sys/uio.h>
#include <unistd.h>

#define ACK_FRONT "\x81\xa3" "ack" "\xb8"
#define ACK_LEN (6 + CHUNK_LEN)
#define WINDOW_MOST 500

static const char *host, *port;
static long connections = 1, entries = 100, total = 100000, window = 4, tags = 1, timeout_s = 60, seconds_s, hold_s;
static int is_latency;
static enum mode mode = PACKED_FORWARD;

/* A request that was made beforehand. */
struct request {
    struct bytes bytes;
    size_t payload;
};

/* A request of a connection: free, or to be sent, or sent and not yet acknowledged. */
struct slot {
    enum { FREE, QUEUED, SENT } state;
    const struct request *request;
    char chunk[CHUNK_LEN];
    double start;
};

struct conn {
    int fd;
    struct slot *slots;
    /* The slots that are to be sent, in order, in a ring. */
    long *queue;
    long first, queued;
    /* So many bytes of the first of them are sent. */
    size_t sent;
    unsigned char in[4096];
    size_t in_len;
};

static struct request *made;
static long made_count, wanted, begun, all_sent, acked;
static size_t acked_bytes;
static double start, *trips;

/* Requests of about 4 MB in all, and at least one of each tag. */
static void make_requests(void) {
    long variants = 20000 / entries < 1 ? 1 : 20000 / entries > 64 ? 64 : 20000 / entries;
    made_count = tags * variants;
    made = room_for((size_t)made_count, sizeof *made);
    for (long i = 0; i < made_count; i++) {
        char tag[40];
        snprintf(tag, sizeof tag, tags > 1 ? "app.web.access.%ld" : "app.web.access", i % tags);
        made[i].payload = add_request(&made[i].bytes, mode, tag, (unsigned)entries, (unsigned)(i * entries));
    }
}

/* Puts new requests into the free slots, while there are any to be sent. */
static void refill(struct conn *conn) {
    for (long i = 0; i < window && begun < wanted; i++) {
        struct slot *slot = &conn->slots[i];
        if (slot->state != FREE)
            continue;
        slot->state = QUEUED;
        slot->request = &made[begun++ % made_count];
        slot->start = is_latency ? moment_s() : 0;
        draw_chunk(slot->chunk);
        conn->queue[(conn->first + conn->queued++) % window] = i;
    }
}

/* Where the bytes of the slots in the queue are: how many parts. */
static int parts_of(struct conn *conn, struct iovec *parts) {
    int count = 0;
    size_t skip = conn->sent;
    for (long i = 0; i < conn->queued; i++) {
        struct slot *slot = &conn->slots[conn->queue[(conn->first + i) % window]];
        size_t front = slot->request->bytes.len - CHUNK_LEN;
        if (skip < front)
            parts[count++] = (struct iovec){slot->request->bytes.at + skip, front - skip};
        skip = skip < front ? 0 : skip - front;
        parts[count++] = (struct iovec){slot->chunk + skip, CHUNK_LEN - skip};
        skip = 0;
    }
    return count;
}

/* The socket took so many bytes more. */
static void note_sent(struct conn *conn, size_t count) {
    conn->sent += count;
    while (conn->queued) {
        struct slot *slot = &conn->slots[conn->queue[conn->first]];
        if (conn->sent < slot->request->bytes.len)
            return;
        conn->sent -= slot->request->bytes.len;
        slot->state = SENT;
        all_sent++;
        conn->first = (conn->first + 1) % window;
        conn->queued--;
    }
}

/* Sends what waits as far as the socket takes it. */
static void send_queue(struct conn *conn) {
    struct iovec parts[2 * WINDOW_MOST];
    while (conn->queued) {
        ssize_t count = writev(conn->fd, parts, parts_of(conn, parts));
        if (count < 0 && errno == EINTR)
            continue;
        if (count < 0 && errno == EAGAIN)
            return;
        if (count < 0)
            die("write: %s", strerror(errno));
        note_sent(conn, (size_t)count);
    }
}

/* A request is acknowledged, which has to be one that is sent. */
static void settle(struct conn *conn, const unsigned char *chunk) {
    for (long i = 0; i < window; i++) {
        struct slot *slot = &conn->slots[i];
        if (slot->state != SENT || memcmp(slot->chunk, chunk, CHUNK_LEN))
            continue;
        slot->state = FREE;
        if (trips)
            trips[acked] = moment_s() - slot->start;
        acked++;
        acked_bytes += slot->request->payload;
        return;
    }
    die("an acknowledgement of nothing that waits for one");
}

/* The acknowledgements that were read. */
static void settle_all(struct conn *conn) {
    size_t at = 0;
    for (; conn->in_len - at >= ACK_LEN; at += ACK_LEN) {
        if (memcmp(conn->in + at, ACK_FRONT, ACK_LEN - CHUNK_LEN))
            die("not an acknowledgement");
        settle(conn, conn->in + at + ACK_LEN - CHUNK_LEN);
    }
    conn->in_len -= at;
    memmove(conn->in, conn->in + at, conn->in_len);
}

/* Reads all that is there, and sends what may be sent then. */
static void serve(struct conn *conn) {
    for (;;) {
        long count = hear(conn->fd, conn->in + conn->in_len, sizeof conn->in - conn->in_len);
        if (count < 0)
            die("a connection was closed, acknowledged %ld of %ld requests", acked, wanted);
        if (!count)
            break;
        conn->in_len += (size_t)count;
        settle_all(conn);
    }
    refill(conn);
    send_queue(conn);
}

/* Serves the connections until a moment, or until a count comes to the requests that are wanted. */
static void serve_until(int epoll, double deadline, const long *count) {
    struct epoll_event events[256];
    for (double now = moment_s(); now < deadline && *count < wanted; now = moment_s()) {
        int ready = wait_unless_stopped(epoll, events, 256, 100);
        for (int i = 0; i < ready; i++)
            serve(events[i].data.ptr);
        if (seconds_s && now > start + (double)seconds_s)
            wanted = begun;
    }
}

static struct conn *open_all(void) {
    struct conn *conns = room_for((size_t)connections, sizeof *conns);
    for (long i = 0; i < connections; i++) {
        conns[i].fd = dial(host, port);
        conns[i].slots = room_for((size_t)window, sizeof *conns[i].slots);
        conns[i].queue = room_for((size_t)window, sizeof *conns[i].queue);
    }
    return conns;
}

static int compare(const void *a, const void *b) {
    double x = *(const double *)a, y = *(const double *)b;
    return (x > y) - (x < y);
}

static void print_latency(void) {
    qsort(trips, (size_t)acked, sizeof *trips, compare);
    printf("median_ms %.4f p99_ms %.4f\n", trips[acked / 2] * 1e3, trips[acked * 99 / 100] * 1e3);
}

static enum mode mode_of(const char *name) {
    static const char *const names[] = {[PACKED_FORWARD] = "packed", [FORWARD] = "forward", [MESSAGE] = "message"};
    for (enum mode i = PACKED_FORWARD; i <= MESSAGE; i++)
        if (!strcmp(name, names[i]))
            return i;
    die("--mode is packed, forward or message");
}

static void read_option(int option) {
    switch (option) {
    case 'm': mode = mode_of(optarg); break;
    case 'k': connections = number_of("--connections", optarg, 1, 100000); break;
    case 'n': entries = number_of("--entries", optarg, 1, 60000); break;
    case 'e': total = number_of("--total", optarg, 1, 1000000000000); break;
    case 'w': window = number_of("--window", optarg, 1, WINDOW_MOST); break;
    case 't': tags = number_of("--tags", optarg, 1, 100000); break;
    case 's': timeout_s = number_of("--timeout", optarg, 1, 1000000); break;
    case 'u': seconds_s = number_of("--seconds", optarg, 1, 1000000); break;
    case 'h': hold_s = number_of("--hold", optarg, 1, 1000000); break;
    case 'l': is_latency = 1; break;
    default: die("generator [OPTIONS] HOST PORT");
    }
}

static void read_words(int argc, char **argv) {
    static const struct option options[] = {
        {"connections", required_argument, NULL, 'k'}, {"entries", required_argument, NULL, 'n'},
        {"total", required_argument, NULL, 'e'},       {"window", required_argument, NULL, 'w'},
        {"tags", required_argument, NULL, 't'},        {"timeout", required_argument, NULL, 's'},
        {"seconds", required_argument, NULL, 'u'},     {"hold", required_argument, NULL, 'h'},
        {"latency", no_argument, NULL, 'l'},           {"mode", required_argument, NULL, 'm'},
        {NULL, 0, NULL, 0},
    };
    int option;
    while ((option = getopt_long(argc, argv, "", options, NULL)) != -1)
        read_option(option);
    if (argc - optind != 2)
        die("generator [OPTIONS] HOST PORT");
    if (mode == MESSAGE)
        entries = 1;
    host = argv[optind];
    port = argv[optind + 1];
    wanted = hold_s ? connections * window : (total + entries - 1) / entries;
}

/* Sends all, where it can by then, and then only reads for a while. */
static void hold(int epoll, double deadline) {
    static const long never = -1;
    serve_until(epoll, deadline, &all_sent);
    if (all_sent < wanted)
        die("timeout: sent %ld of %ld requests", all_sent, wanted);
    printf("holding %ld\n", all_sent);
    if (fflush(stdout))
        die("output: %s", strerror(errno));
    serve_until(epoll, moment_s() + (double)hold_s, &never);
    printf("acknowledged %ld\n", acked);
}

/* Sends all and waits for all acknowledgements, where they come by then, and prints how fast that was. */
static void run(int epoll, double deadline) {
    serve_until(epoll, deadline, &acked);
    double took = moment_s() - start;
    if (acked < wanted)
        die("timeout: sent %ld and acknowledged %ld of %ld requests", all_sent, acked, wanted);
    double count = (double)acked * (double)entries;
    printf("entries %.0f seconds %.4f entries/s %.0f MB/s %.1f bytes %zu\n", count, took, count / took,
           (double)acked_bytes / took / 1e6, acked_bytes);
    if (is_latency)
        print_latency();
}

int main(int argc, char **argv) {
    read_words(argc, argv);
    make_requests();
    trips = is_latency ? room_for((size_t)wanted, sizeof *trips) : NULL;
    struct conn *conns = open_all();
    int epoll = new_epoll();
    start = moment_s();
    for (long i = 0; i < connections; i++)
        watch(epoll, conns[i].fd, &conns[i]);
    (hold_s ? hold : run)(epoll, start + (double)timeout_s);
    return fflush(stdout) ? 1 : 0;
}
