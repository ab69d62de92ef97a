/* The least that a relay of the relay's shape does: the floor beside which the relay is measured.
 *
 *     least PORT SINK_PORT [READERS]
 *
 * It listens at a port of 127.0.0.1, prints `port N` (PORT 0 is a free one), sends to the next hop at SINK_PORT, and
 * ends at SIGTERM. As in the relay, READERS threads (1 where it is not given, at most 16), each with a loop, own the
 * sources, which come to them in turn, and another thread, the worker, has one session with the next hop; each entry is checked item by item, which in Forward and Message mode also says where it ends; its
 * bytes are copied once, from where the socket is read to the request that keeps them, or not at all (an entry of
 * Forward or Message mode that is cut by the end of a read is put aside, and walked again); and a source is told of a
 * request only once the next hop has acknowledged the frame that it went in. What comes while a frame is under way goes
 * in the next one. Each frame is in PackedForward mode, whatever the requests in it were.
 *
 * It is no relay: it has no limits, no retries, no settings and no handshake, and nothing of it is proved. It reads
 * only what generator.c sends: requests in PackedForward mode with the options `size` and `chunk`, in Forward and
 * Message mode with the option `chunk`, and with the same tag of at most 31 bytes in all of them, so that one list of
 * what waits is enough. At all else, and where a source does not read its acknowledgements or the next hop goes away,
 * it ends with a message and status 1. A source may close when it likes: what it sent whole goes on.
 */

#define _GNU_SOURCE
#include "common.h"
#include "entries.h"

#include <errno.h>
#include <pthread.h>
#include <signal.h>
#include <stdlib.h>
#include <string.h>
#include <sys/epoll.h>
#include <sys/eventfd.h>
#include <sys/ioctl.h>
#include <sys/socket.h>
#include <sys/uio.h>
#include <unistd.h>

#define ROOM 65536
#define HEAD_MOST 512   /* more than what stands before the entries, an entry, and what stands behind them */
#define PARTS_MOST 1024 /* of a writev */
#define READERS_MOST 16
#define ACK_FRONT "\x81\xa3" "ack" "\xb8"
#define ACK_LEN (6 + CHUNK_LEN)

/* A request and its entries, packed, or those entries of it that came with one read. */
struct request {
    struct request *next;
    struct conn *conn; /* whom to tell, or NULL where more entries of the same request come next */
    size_t len;
    char chunk[CHUNK_LEN];
    unsigned char packed[];
};

/* Requests in order, the bytes of their entries, and how many these are. `last` says nothing where there are none. */
struct list {
    struct request *first, *last;
    size_t len, entries;
};

/* A source, of which its reader alone knows. It stays until it has closed and none of its requests is on its way. */
struct conn {
    struct reader *reader;
    int fd; /* -1 once it has closed */
    enum { FRONT, PACKED, ENTRIES } stage;
    size_t left;      /* so many packed bytes, or entries, are still to come before the options */
    struct list came; /* what is here of the request whose front has come */
    unsigned char rest[HEAD_MOST];
    size_t rest_len; /* so many bytes of a head or an entry that is not yet whole are in `rest` */
    long under_way;  /* its requests of which it is not told yet */
    struct bytes out;
    struct conn *next; /* the next one to which acknowledgements are to be sent */
};

/* A thread that reads sources. */
struct reader {
    int epoll;
    int bell;         /* an eventfd that wakes it */
    int sleeps;       /* under the lock, as what waits for it */
    struct list done;
    char apart[64];   /* from the next one's */
};

/* What the threads share: what waits for the worker, what waits for the readers, and who sleeps. */
static pthread_mutex_t lock = PTHREAD_MUTEX_INITIALIZER;
static pthread_cond_t has_come = PTHREAD_COND_INITIALIZER;
static struct list open_list;
static int worker_sleeps;
static struct reader readers[READERS_MOST];
static size_t reader_count = 1;

static int session; /* the worker's socket, which blocks */
static __thread unsigned char room[HEAD_MOST + ROOM];
static unsigned char tag[32]; /* that of all requests, as a str, once one has come */
static size_t tag_len;

static void list_add(struct list *list, struct list more) {
    if (list->first)
        list->last->next = more.first;
    else
        list->first = more.first;
    list->last = more.last;
    list->len += more.len;
    list->entries += more.entries;
}

/* Puts a list behind another that the threads share: whether the one that takes it sleeps. */
static int put(struct list *list, struct list more, int *sleeps) {
    pthread_mutex_lock(&lock);
    list_add(list, more);
    int wakes = *sleeps;
    *sleeps = 0;
    pthread_mutex_unlock(&lock);
    return wakes;
}

/* What the readers have heard: the worker waits until there is something. */
static struct list take_open(void) {
    pthread_mutex_lock(&lock);
    while (!open_list.first) {
        worker_sleeps = 1;
        pthread_cond_wait(&has_come, &lock);
    }
    worker_sleeps = 0;
    struct list list = open_list;
    open_list = (struct list){0};
    pthread_mutex_unlock(&lock);
    return list;
}

/* What the next hop has acknowledged of a reader's: it goes to sleep where there is nothing. */
static struct list take_done(struct reader *reader) {
    pthread_mutex_lock(&lock);
    struct list list = reader->done;
    reader->done = (struct list){0};
    reader->sleeps = !list.first;
    pthread_mutex_unlock(&lock);
    return list;
}

/* How many entries there are, which have to be whole. */
static size_t count_entries(const unsigned char *at, size_t len) {
    size_t count = 0;
    for (size_t place = 0; place < len; count++) {
        size_t entry = entry_len(at + place, len - place);
        if (!entry)
            die("an entry that is not whole");
        place += entry;
    }
    return count;
}

static void add_number(struct bytes *out, unsigned char head, size_t number) {
    if (number > UINT32_MAX)
        die("a frame of %zu bytes or entries", number);
    bytes_add_byte(out, head);
    for (int shift = 24; shift >= 0; shift -= 8)
        bytes_add_byte(out, (unsigned char)(number >> shift));
}

static void send_parts(const struct iovec *parts, int count) {
    size_t len = 0;
    for (int i = 0; i < count; i++)
        len += parts[i].iov_len;
    if (writev(session, parts, count) != (ssize_t)len) /* it blocks until it has sent all */
        die("the next hop has gone");
}

/* One frame with all of the requests, which are sent from where they are. */
static void send_frame(struct list list, const char *chunk) {
    static struct bytes front, option;
    static struct iovec parts[PARTS_MOST];
    int count = 1;
    front.len = option.len = 0;
    bytes_add_byte(&front, 0x93);
    bytes_add(&front, tag, tag_len);
    add_number(&front, 0xc6, list.len);
    bytes_add(&option, "\x82\xa4" "size", 6);
    add_number(&option, 0xce, list.entries);
    bytes_add(&option, "\xa5" "chunk\xb8", 7);
    bytes_add(&option, chunk, CHUNK_LEN);

    parts[0] = (struct iovec){front.at, front.len};
    for (struct request *it = list.first; it; it = it->next) {
        parts[count++] = (struct iovec){it->packed, it->len};
        if (count == PARTS_MOST) {
            send_parts(parts, count);
            count = 0;
        }
    }
    parts[count++] = (struct iovec){option.at, option.len};
    send_parts(parts, count);
}

/* What the next hop has acknowledged goes to a reader. */
static void hand(struct reader *reader, struct list list) {
    if (list.first && put(&reader->done, list, &reader->sleeps) && eventfd_write(reader->bell, 1))
        die("bell: %s", strerror(errno));
}

/* What the next hop has acknowledged goes to the readers whose sources it came from. */
static void hand_each(struct list list) {
    struct list parts[READERS_MOST] = {0}, whole = {0};
    for (struct request *it = list.first, *next; it; it = next) {
        next = it->next;
        it->next = NULL;
        list_add(&whole, (struct list){it, it, 0, 0});
        if (it->conn) {
            list_add(&parts[it->conn->reader - readers], whole);
            whole = (struct list){0};
        }
    }
    for (size_t i = 0; i < reader_count; i++)
        hand(&readers[i], parts[i]);
}

static void *work(void *none) {
    for (;;) {
        struct list list = take_open();
        char ack[ACK_LEN + 1] = ACK_FRONT, *chunk = ack + ACK_LEN - CHUNK_LEN, reply[ACK_LEN];
        draw_chunk(chunk);
        send_frame(list, chunk);
        if (recv(session, reply, ACK_LEN, MSG_WAITALL) != ACK_LEN)
            die("the next hop has gone");
        if (memcmp(reply, ack, ACK_LEN))
            die("the next hop has not acknowledged what it was sent");
        if (reader_count == 1)
            hand(readers, list);
        else
            hand_each(list);
    }
    return none;
}

static void forget_if_done(struct conn *conn) {
    if (conn->fd < 0 && !conn->under_way) {
        free(conn->out.at);
        free(conn);
    }
}

static void close_source(struct conn *conn) {
    if (close(conn->fd))
        die("close: %s", strerror(errno));
    conn->fd = -1;
    for (struct request *it = conn->came.first, *next; it; it = next) {
        next = it->next;
        free(it);
    }
    forget_if_done(conn);
}

/* Tells a source of a request, once for what waits to be sent: the sources that are to be sent something. */
static struct conn *add_ack(struct conn *told, const struct request *request) {
    struct conn *conn = request->conn;
    if (conn->fd >= 0 && !conn->out.len) {
        conn->next = told;
        told = conn;
    }
    bytes_add(&conn->out, ACK_FRONT, ACK_LEN - CHUNK_LEN);
    bytes_add(&conn->out, request->chunk, CHUNK_LEN);
    conn->under_way--;
    forget_if_done(conn);
    return told;
}

/* Tells the sources of requests that are acknowledged, and forgets these. */
static void tell(struct request *request) {
    struct conn *told = NULL;
    for (struct request *next; request; request = next) {
        next = request->next;
        if (request->conn)
            told = add_ack(told, request);
        free(request);
    }
    for (; told; told = told->next) {
        if (!send_waiting(told->fd, &told->out) && told->out.len)
            die("a source does not read its acknowledgements");
        told->out.len = 0; /* one that has gone is closed where it is read */
    }
}

/* Makes room for more bytes of the request whose front has come, which hold so many entries. */
static unsigned char *keep(struct conn *conn, size_t len, size_t entries) {
    struct request *more = malloc(sizeof *more + len);
    if (!more)
        die("memory");
    *more = (struct request){.len = len};
    list_add(&conn->came, (struct list){more, more, len, entries});
    return more->packed;
}

/* This and the next four read a part of a request: how many bytes it has, or 0 where it is not whole. */
static size_t read_packed_head(struct conn *conn, const unsigned char *at) {
    conn->left = (size_t)at[1] << 24 | (size_t)at[2] << 16 | (size_t)at[3] << 8 | at[4];
    conn->stage = PACKED;
    keep(conn, conn->left, 0);
    return 5;
}

/* The one entry of Message mode, which is packed without the array of the request. */
static size_t read_event(struct conn *conn, const unsigned char *at, size_t len) {
    size_t event = event_len(at, len);
    if (event) {
        unsigned char *entry = keep(conn, 1 + event, 1);
        entry[0] = 0x92;
        memcpy(entry + 1, at, event);
        conn->stage = ENTRIES;
    }
    return event;
}

static void set_tag(const unsigned char *at) {
    pthread_mutex_lock(&lock);
    if (!tag_len) {
        memcpy(tag, at, 1 + (at[0] & 31u));
        __atomic_store_n(&tag_len, 1 + (at[0] & 31u), __ATOMIC_RELEASE);
    }
    pthread_mutex_unlock(&lock);
}

static size_t read_front(struct conn *conn, const unsigned char *at, size_t len) {
    if (len < 2 || len < 2 + (at[1] & 31u) + 5)
        return 0;
    if (!__atomic_load_n(&tag_len, __ATOMIC_ACQUIRE) && (at[1] & 0xe0) == 0xa0)
        set_tag(at + 1);
    if ((at[0] != 0x93 && at[0] != 0x94) || at[1] != tag[0] || memcmp(at + 1, tag, tag_len))
        die("not a request with the first one's tag");
    size_t front = 1 + tag_len, count;
    const unsigned char *body = at + front;
    if (at[0] == 0x94) {
        count = read_event(conn, body, len - front);
        return count ? front + count : 0;
    }
    if (body[0] == 0xc6)
        return front + read_packed_head(conn, body);
    if (body[0] != 0xdc && (body[0] & 0xf0) != 0x90)
        die("not a request that generator.c sends");
    conn->left = body[0] == 0xdc ? (size_t)body[1] << 8 | body[2] : body[0] & 15u;
    if (!conn->left)
        die("a request without entries");
    conn->stage = ENTRIES;
    return front + (body[0] == 0xdc ? 3 : 1);
}

static size_t read_packed(struct conn *conn, const unsigned char *at, size_t len) {
    struct request *request = conn->came.last;
    size_t count = conn->left < len ? conn->left : len;
    memcpy(request->packed + request->len - conn->left, at, count);
    conn->left -= count;
    return count;
}

/* As many entries of Forward mode as are whole. */
static size_t read_entries(struct conn *conn, const unsigned char *at, size_t len) {
    size_t place = 0, count = 0;
    for (size_t one; count < conn->left && (one = entry_len(at + place, len - place)); place += one)
        count++;
    if (count)
        memcpy(keep(conn, place, count), at, place);
    conn->left -= count;
    return place;
}

static size_t read_option(struct conn *conn, const unsigned char *at, size_t len, struct list *heard) {
    size_t place = conn->stage != PACKED ? 1 : len < 7 || at[6] < 0x80 ? 7 : 7 + (1u << (at[6] & 3));
    if (len < place + 7 + CHUNK_LEN)
        return 0;
    if ((conn->stage == PACKED ? memcmp(at, "\x82\xa4" "size", 6) : at[0] != 0x81) ||
        memcmp(at + place, "\xa5" "chunk\xb8", 7))
        die("not the options that generator.c sends");
    struct request *last = conn->came.last;
    if (conn->stage == PACKED)
        conn->came.entries = count_entries(last->packed, last->len);
    last->conn = conn;
    memcpy(last->chunk, at + place + 7, CHUNK_LEN);
    list_add(heard, conn->came);
    conn->came = (struct list){0};
    conn->stage = FRONT;
    conn->under_way++;
    return place + 7 + CHUNK_LEN;
}

/* Reads requests as far as the bytes go, keeps what is left, and hands the requests over. */
static void read_requests(struct conn *conn, const unsigned char *at, size_t len) {
    struct list heard = {0};
    for (size_t count = 1; count; at += count, len -= count) {
        if (conn->stage == FRONT)
            count = read_front(conn, at, len);
        else if (!conn->left)
            count = read_option(conn, at, len, &heard);
        else
            count = (conn->stage == PACKED ? read_packed : read_entries)(conn, at, len);
    }
    if (len > HEAD_MOST)
        die("an entry that generator.c does not send");
    memcpy(conn->rest, at, len);
    conn->rest_len = len;
    if (heard.first && put(&open_list, heard, &worker_sleeps))
        pthread_cond_signal(&has_come);
}

/* Reads once: the packed bytes that are to come go where they stay, and what comes behind them to the room. */
static void serve(struct conn *conn) {
    struct request *last = conn->came.last;
    size_t left = conn->stage == PACKED ? conn->left : 0, rest = conn->rest_len;
    struct iovec parts[] = {{left ? last->packed + last->len - left : room, left}, {room + rest, ROOM}};
    ssize_t count = readv(conn->fd, parts, 2);
    if (count < 0 && (errno == EAGAIN || errno == EINTR))
        return;
    if (count <= 0) {
        close_source(conn);
        return;
    }
    memcpy(room, conn->rest, rest);
    size_t direct = (size_t)count < left ? (size_t)count : left;
    conn->left -= direct;
    read_requests(conn, room, rest + (size_t)count - direct);
}

/* A source is told of for as long as it has bytes to read, so that one read at a time is enough. */
static void welcome(int listener) {
    static size_t next;
    int fd;
    while ((fd = next_caller(listener)) >= 0) {
        struct conn *conn = room_for(1, sizeof *conn);
        conn->fd = fd;
        conn->reader = &readers[next++ % reader_count];
        struct epoll_event event = {.events = EPOLLIN, .data.ptr = conn};
        if (epoll_ctl(conn->reader->epoll, EPOLL_CTL_ADD, fd, &event))
            die("epoll: %s", strerror(errno));
    }
}

static void run(struct reader *reader, int listener) {
    struct epoll_event events[256];
    while (!is_stopped) {
        struct list done = take_done(reader);
        int millis = done.first ? 0 : -1;
        tell(done.first);
        int count = reader == readers ? wait_unless_stopped(reader->epoll, events, 256, millis)
                                      : epoll_wait(reader->epoll, events, 256, millis);
        if (count < 0)
            die("epoll: %s", strerror(errno));
        for (int i = 0; i < count; i++) {
            if (!events[i].data.ptr)
                welcome(listener);
            else if (events[i].data.ptr != &reader->bell)
                serve(events[i].data.ptr);
        }
    }
}

/* The thread of a reader that has no listener. */
static void *read_all(void *reader) {
    run(reader, -1);
    return NULL;
}

static void make_reader(struct reader *reader) {
    reader->epoll = new_epoll();
    reader->bell = eventfd(0, EFD_NONBLOCK | EFD_CLOEXEC);
    if (reader->bell < 0)
        die("eventfd: %s", strerror(errno));
    watch(reader->epoll, reader->bell, &reader->bell); /* told once for each ring, so that it need not be read */
}

int main(int argc, char **argv) {
    if (argc == 4)
        reader_count = strtoul(argv[3], NULL, 10);
    if (argc < 3 || argc > 4 || !reader_count || reader_count > READERS_MOST)
        die("least PORT SINK_PORT [READERS]");
    int off = 0;
    pthread_t thread;
    catch_stop();
    session = dial("127.0.0.1", argv[2]);
    for (size_t i = 0; i < reader_count; i++)
        make_reader(&readers[i]);
    if (ioctl(session, FIONBIO, &off) || signal(SIGPIPE, SIG_IGN) == SIG_ERR ||
        pthread_create(&thread, NULL, work, NULL))
        die("start: %s", strerror(errno));
    int listener = listen_at(argv[1], 0);
    for (size_t i = 1; i < reader_count; i++)
        if (pthread_create(&thread, NULL, read_all, &readers[i]))
            die("start: %s", strerror(errno));
    watch(readers[0].epoll, listener, NULL);
    run(&readers[0], listener);
    return 0;
}
