/* A next hop: takes messages in PackedForward, Forward and Message mode, acknowledges each, and counts.
 *
 *     sink [--silent] PORT
 *
 * It listens at a port of 127.0.0.1, prints `port N` (PORT 0 is a free one), and at SIGTERM
 *
 *     messages M entries E bytes B
 *
 * where entries are, in PackedForward mode, the sum of the options `size`, and bytes are those of the packed entries,
 * which it does not look at. In the other two modes, in which generator.c sends where nothing is between, it has to
 * walk the entries, which are counted as if they were packed. With --silent it acknowledges nothing. It ends with
 * status 1 at what is no such message with a `chunk`.
 */

#include "common.h"
#include "entries.h"

#include <stdio.h>
#include <stdlib.h>
#include <string.h>
#include <sys/epoll.h>
#include <unistd.h>

#define ROOM 1000000
#define HEAD_MOST 100000

/* Where a connection stands in a message. */
struct conn {
    int fd;
    enum { FRONT, PACKED, ENTRIES, OPTION } state;
    size_t left;       /* packed bytes, or entries, that are still to come */
    size_t packed;     /* the bytes of the entries, of those alone that have been walked where they have to be */
    size_t entries;    /* how many have been walked */
    struct bytes rest; /* the front of a head or an entry that is not yet whole */
    struct bytes out;
};

/* Bytes that are read as MessagePack. A read that fails leaves `is_short` or `is_bad`. */
struct cursor {
    const unsigned char *at;
    size_t left;
    int is_short, is_bad;
};

struct text {
    const unsigned char *at;
    size_t len;
};

static int is_silent;
static unsigned long messages, entries, bytes;
static unsigned char room[HEAD_MOST + ROOM];

static const unsigned char *take(struct cursor *in, size_t len) {
    static const unsigned char none[1];
    if (in->is_short || in->is_bad || in->left < len) {
        in->is_short = 1;
        return none;
    }
    const unsigned char *at = in->at;
    in->at += len;
    in->left -= len;
    return at;
}

/* A big-endian number of so many bytes. */
static uint64_t take_number(struct cursor *in, int size) {
    uint64_t number = 0;
    for (int i = 0; i < size; i++)
        number = number << 8 | *take(in, 1);
    return number;
}

/* The length in the head of a str or a bin. */
static size_t take_text_head(struct cursor *in) {
    unsigned char head = *take(in, 1);
    if ((head & 0xe0) == 0xa0)
        return head & 0x1f;
    if (head >= 0xd9 && head <= 0xdb)
        return take_number(in, 1 << (head - 0xd9));
    if (head >= 0xc4 && head <= 0xc6)
        return take_number(in, 1 << (head - 0xc4));
    in->is_bad = !in->is_short;
    return 0;
}

static struct text take_text(struct cursor *in) {
    size_t len = take_text_head(in);
    return (struct text){take(in, len), len};
}

/* The length in the head of an array or a map, whose short heads begin with `fix` and whose long ones are `wide`. */
static size_t take_count(struct cursor *in, unsigned char fix, unsigned char wide) {
    unsigned char head = *take(in, 1);
    if ((head & 0xf0) == fix)
        return head & 0x0f;
    if (head == wide || head == wide + 1)
        return take_number(in, 2 << (head - wide));
    in->is_bad = !in->is_short;
    return 0;
}

/* An unsigned number. */
static uint64_t take_uint(struct cursor *in) {
    unsigned char head = *take(in, 1);
    if (head < 0x80)
        return head;
    if (head >= 0xcc && head <= 0xcf)
        return take_number(in, 1 << (head - 0xcc));
    in->is_bad = !in->is_short;
    return 0;
}

/* The one entry of a message in Message mode, which is counted as if it were packed. */
static void take_event(struct conn *conn, struct cursor *in) {
    size_t len = in->is_short || in->is_bad ? 0 : event_len(in->at, in->left);
    take(in, len);
    in->is_short = in->is_short || !len;
    conn->packed = 1 + len;
    conn->entries = 1;
    conn->state = OPTION;
}

/* Reads as far as the entries, and behind the entry in Message mode: whether that has come whole. */
static int read_front(struct conn *conn, struct cursor *in) {
    size_t places = take_count(in, 0x90, 0xdc);
    take_text(in);
    unsigned char head = in->left ? *in->at : 0;
    in->is_short = in->is_short || !in->left;
    conn->packed = conn->entries = 0;
    if (places == 4) {
        take_event(conn, in);
    } else if ((head & 0xf0) == 0x90 || head == 0xdc || head == 0xdd) {
        conn->left = take_count(in, 0x90, 0xdc);
        conn->state = ENTRIES;
    } else {
        conn->left = conn->packed = take_text_head(in);
        conn->state = PACKED;
    }
    in->is_bad = in->is_bad || (!in->is_short && places != 3 && places != 4);
    return !in->is_short && !in->is_bad;
}

/* Goes over packed bytes, or over entries as far as they are whole: how many bytes these have. */
static size_t pass(struct conn *conn, const unsigned char *at, size_t len) {
    size_t place = 0;
    if (conn->state == PACKED) {
        place = conn->left < len ? conn->left : len;
        conn->left -= place;
        return place;
    }
    for (size_t one; conn->left && (one = entry_len(at + place, len - place)); place += one) {
        conn->left--;
        conn->entries++;
    }
    conn->packed += place;
    return place;
}

static int is_text(struct text text, const char *name) {
    return text.len == strlen(name) && !memcmp(text.at, name, text.len);
}

static void acknowledge(struct conn *conn, struct text chunk) {
    if (is_silent)
        return;
    bytes_add(&conn->out, "\x81\xa3" "ack", 5);
    if (chunk.len < 32)
        bytes_add_byte(&conn->out, (unsigned char)(0xa0 | chunk.len));
    else {
        bytes_add_byte(&conn->out, 0xd9);
        bytes_add_byte(&conn->out, (unsigned char)chunk.len);
    }
    bytes_add(&conn->out, chunk.at, chunk.len);
}

/* An option has the keys `size` and `chunk`, and no others. The size counts where the entries were not walked. */
static int read_option(struct conn *conn, struct cursor *in) {
    struct text chunk = {0};
    uint64_t size = 0;
    size_t pairs = take_count(in, 0x80, 0xde);
    for (size_t i = 0; i < pairs && !in->is_short && !in->is_bad; i++) {
        struct text key = take_text(in);
        if (in->is_short)
            return 0;
        if (is_text(key, "size"))
            size = take_uint(in);
        else if (is_text(key, "chunk"))
            chunk = take_text(in);
        else
            in->is_bad = 1;
    }
    in->is_bad = in->is_bad || (!in->is_short && (!chunk.len || chunk.len > 255));
    if (in->is_short || in->is_bad)
        return 0;
    messages++;
    entries += conn->entries ? conn->entries : size;
    bytes += conn->packed;
    acknowledge(conn, chunk);
    return 1;
}

/* Reads messages as far as the bytes go: how many are left, which begin a head or an entry that is not whole. */
static size_t read_messages(struct conn *conn, const unsigned char *at, size_t len) {
    while (len) {
        if (conn->state == PACKED || conn->state == ENTRIES) {
            size_t count = pass(conn, at, len);
            at += count;
            len -= count;
            if (conn->left && len)
                break;
            conn->state = conn->left ? conn->state : OPTION;
            continue;
        }
        struct cursor in = {at, len, 0, 0};
        int is_front = conn->state == FRONT;
        if (is_front ? read_front(conn, &in) : read_option(conn, &in)) {
            conn->state = is_front ? conn->state : FRONT;
            at = in.at;
            len = in.left;
        } else if (in.is_bad || len > HEAD_MOST) {
            die("not a message with a chunk in a mode of the Forward Protocol");
        } else {
            conn->state = is_front ? FRONT : OPTION;
            break;
        }
    }
    if (len > HEAD_MOST)
        die("an entry that is too long");
    return len;
}

/* Reads all that is there, and acknowledges: whether the connection stands. */
static int serve(struct conn *conn) {
    for (;;) {
        size_t rest = conn->rest.len;
        if (rest)
            memcpy(room, conn->rest.at, rest);
        long count = hear(conn->fd, room + rest, ROOM);
        if (count < 0)
            return 0;
        if (!count)
            return !send_waiting(conn->fd, &conn->out);
        size_t len = rest + (size_t)count;
        size_t left = read_messages(conn, room, len);
        conn->rest.len = 0;
        bytes_add(&conn->rest, room + len - left, left);
        if (send_waiting(conn->fd, &conn->out))
            return 0;
    }
}

static void forget(struct conn *conn) {
    if (close(conn->fd))
        die("close");
    free(conn->rest.at);
    free(conn->out.at);
    free(conn);
}

static void welcome(int epoll, int listener) {
    int fd;
    while ((fd = next_caller(listener)) >= 0) {
        struct conn *conn = room_for(1, sizeof *conn);
        conn->fd = fd;
        watch(epoll, fd, conn);
    }
}

int main(int argc, char **argv) {
    is_silent = argc > 1 && !strcmp(argv[1], "--silent");
    if (argc != 2 + is_silent)
        die("sink [--silent] PORT");
    catch_stop();
    int epoll = new_epoll();
    int listener = listen_at(argv[argc - 1], 0);
    watch(epoll, listener, NULL);
    struct epoll_event events[256];
    while (!is_stopped) {
        int count = wait_unless_stopped(epoll, events, 256, -1);
        for (int i = 0; i < count; i++) {
            struct conn *conn = events[i].data.ptr;
            if (!conn)
                welcome(epoll, listener);
            else if (!serve(conn))
                forget(conn);
        }
    }
    printf("messages %lu entries %lu bytes %lu\n", messages, entries, bytes);
    return fflush(stdout) ? 1 : 0;
}
