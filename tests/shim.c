/* Calls of the C library that fail, or fall short (LD_PRELOAD): requests for memory, and calls on TCP sockets; and a clock that
 * is ahead. shim.py builds it, and has the names of its variables and words.
 *
 * REFUSE_AT=N refuses the Nth request for memory of the process, counted from 1, and no other one. REFUSE_ONE_IN=M refuses one
 * in M, by a generator over FAIL_SEED and the request's number. With REFUSE_FD=D a byte `r` is written to the file descriptor D
 * at each refusal. REFUSE_AT=all runs the program again and again, for N = 1, 2, .. until a run meets no refusal, each in a
 * process of its own that is forked before `main`. Standard input, output and error and D are to be files then: each run reads
 * the input from its start, and behind each the line `STATUS OUT ERR` is written to D, with the run's exit status (or 128 and
 * the signal) and where its output and errors end in their files.
 *
 * FAIL_BOARD names a file of 4,096 bytes: 64-bit words, of which the first one says whether calls on sockets fail, and now and
 * then a request for memory (who made the file sets it), and each other one counts calls, or a kind of failure. What fails is
 * drawn from FAIL_SEED, so that the nth draw is the same each time; which thread draws it is not. No other descriptor is
 * touched. It does only what a kernel can do, as far as the program can tell.
 *
 * The program waits by edge-triggered epoll: it reads or writes on until EAGAIN, and then waits for an event. Where a socket
 * is ready, and the shim says EAGAIN or moves fewer bytes than it could, no event would come for what is left, and the program
 * would wait for ever by the shim's own fault. So behind both the shim has epoll look at the socket anew (EPOLL_CTL_MOD with the
 * same interest): the event comes as it does where bytes, or room for bytes, come a moment later.
 *
 * - A short transfer moves one byte, or some. Over one connection in sixteen each transfer moves one.
 * - EINTR moves nothing, and no event comes behind it: who is told so calls again.
 * - ECONNRESET resets the connection first (a connect to AF_UNSPEC does), and the call is made then: its peer is told, and
 *   what the program does with the socket behind that is answered by the kernel.
 * - accept: EMFILE leaves the connection where it is, and no event comes for it, as the kernel does it. ECONNABORTED takes it
 *   and resets it. EINTR leaves it.
 * - socket: EMFILE. connect: ECONNREFUSED or EADDRNOTAVAIL, and nothing was begun.
 * - epoll_wait: EINTR, and no event is taken.
 *
 * The board's word BREAK is how many readers' waits are to fail from then on, for good and with EBADF: those of the epolls to
 * which a connection that was accepted was added by another thread than the main one. BREAK_FIRST says whether those fail to
 * which one was added by the main thread.
 *
 * The board's word AHEAD is by how many seconds the monotonic clock is ahead of the system's. SLEEPS is how many milliseconds a
 * wait of 100 takes, where it is not 0: so long is the longest wait of a thread of the program, and a wake that was lost is not
 * made up for then. PAUSE is how many microseconds a reader's wake of another thread takes more: it loses its core behind it,
 * and the other one goes on. SLOW is how many microseconds it takes more to accept a connection, as on a machine that is busy.
 *
 * A reader may lose its core at any instruction. WHO is 1 if the main thread is to, and 2 if another reader is. Once it wakes
 * behind ARMED was set, it stops STEP instructions behind the call of number CALL: the wait that it woke from is number 0, and
 * each wait or look at the clock is a further one. STOPPED says that it stands, until GO is set. PASSED is how many calls it
 * made, once it sleeps again; STEPS, how many instructions it made to the next call, where it did not stop; and SLEEPING, whether
 * it sleeps. On other processors than x86-64 it stops nowhere. */
#define _GNU_SOURCE
#include <dlfcn.h>
#include <errno.h>
#include <fcntl.h>
#include <netinet/in.h>
#include <signal.h>
#include <stdatomic.h>
#include <stdint.h>
#include <stdio.h>
#include <stdlib.h>
#include <string.h>
#include <sys/epoll.h>
#include <sys/eventfd.h>
#include <sys/mman.h>
#include <sys/socket.h>
#include <sys/syscall.h>
#include <sys/uio.h>
#include <sys/wait.h>
#include <time.h>
#include <ucontext.h>
#include <unistd.h>

/* Words of the board; shim.py has their names in this order. */
enum word { ON, CALLS, SHORT_READ, SHORT_WRITE, WAIT_READ, WAIT_WRITE, CUT_READ, CUT_WRITE, RESET_READ, RESET_WRITE, REFUSED,
    NO_PORT, NO_SOCKET, NO_ACCEPT, ABORTED, CUT_ACCEPT, CUT_WAIT, REQUESTS, NO_MEMORY, BREAK, BROKEN, BREAK_FIRST,
    AHEAD, SLEEPS, PAUSE, WHO, CALL, STEP, ARMED, STOPPED, GO, PASSED, STEPS, SLEEPING, SLOW,
    WORDS };

/* How often of 65,536 draws. */
enum {
    SHORT = 12000,
    WAIT = 3000,
    CUT = 1000,
    RESET = 150,
    ACCEPT = 16000,
    CONNECT = 8000,
    SOCKET = 4000,
    EPOLL = 2000,
    THIN = 4096,
    MEMORY = 20
};

#define MOST 4096
#define LONGEST 100

/* What is known of a descriptor. */
static struct {
    atomic_int is_stream, is_thin, is_taken, is_reader, is_first, is_broken, is_waker, poll;
    struct epoll_event event;
} known[MOST];

/* Whether the thread is a reader, is followed from call to call, and from instruction to instruction. */
static _Thread_local int reads, is_followed, is_stepped;
/* How many calls it made since it woke, and how many instructions since the last of these. */
static _Thread_local uint64_t calls, steps;

static _Atomic uint64_t none[WORDS];
static _Atomic uint64_t *board = none;
static _Atomic uint64_t draws;
static _Atomic uint64_t requests;
static uint64_t seed, refused_at, one_in;
static int told = -1;

#define REAL(name) \
    static __typeof__(name) *real; \
    if (!real) real = (__typeof__(name) *)dlsym(RTLD_NEXT, #name)

static uint64_t number(const char *name, uint64_t absent) {
    const char *text = getenv(name);
    return text ? strtoull(text, 0, 10) : absent;
}

static void on_trap(int number, siginfo_t *info, void *at);

/* Goes on into `main` in a child for each request that is refused, and ends behind the child that met no refusal. */
static void run_each(void) {
    for (refused_at = 1;; refused_at++) {
        lseek(STDIN_FILENO, 0, SEEK_SET);
        off_t before = lseek(told, 0, SEEK_CUR);
        int status = 0;
        pid_t child = fork();
        if (child == 0) return;
        if (child < 0 || waitpid(child, &status, 0) < 0) abort();
        int refused = lseek(told, 0, SEEK_CUR) != before;
        int ended = WIFEXITED(status) ? WEXITSTATUS(status) : 128 + WTERMSIG(status);
        char line[80];
        int size = snprintf(line, sizeof line, "%d %ld %ld\n", ended, (long)lseek(STDOUT_FILENO, 0, SEEK_CUR),
                            (long)lseek(STDERR_FILENO, 0, SEEK_CUR));
        if (write(told, line, size) != size) abort();
        if (!refused) _exit(0);
    }
}

__attribute__((constructor)) static void begin(void) {
    const char *path = getenv("FAIL_BOARD"), *which = getenv("REFUSE_AT");
    seed = number("FAIL_SEED", 1);
    one_in = number("REFUSE_ONE_IN", 0);
    told = (int)number("REFUSE_FD", -1);
    for (int fd = 0; fd < MOST; fd++) known[fd].poll = -1;
    int file = path ? open(path, O_RDWR) : -1;
    if (file >= 0) {
        void *at = mmap(0, 4096, PROT_READ | PROT_WRITE, MAP_SHARED, file, 0);
        if (at != MAP_FAILED) board = at;
        close(file);
        struct sigaction trap = {.sa_sigaction = on_trap, .sa_flags = SA_SIGINFO};
        sigaction(SIGTRAP, &trap, 0);
    }
    if (which && !strcmp(which, "all")) run_each();
    else refused_at = number("REFUSE_AT", 0);
    atomic_store(&requests, 0);
}

static void count(enum word word) { atomic_fetch_add(&board[word], 1); }

/* The nth number of a generator (splitmix64). */
static uint64_t drawn(uint64_t from, uint64_t n) {
    uint64_t x = from + n * 0x9e3779b97f4a7c15u;
    x = (x ^ (x >> 30)) * 0xbf58476d1ce4e5b9u;
    x = (x ^ (x >> 27)) * 0x94d049bb133111ebu;
    return x ^ (x >> 31);
}

static uint64_t draw(void) { return drawn(seed * 0xd1342543de82ef95u, atomic_fetch_add(&draws, 1) + 1); }

/* Whether something comes that comes so often of 65,536 draws. */
static int comes(unsigned often) { return atomic_load(&board[ON]) && (draw() & 65535) < often; }

/* The processor traps behind each instruction of a thread whose flags have this. */
#define TRAPS 0x100

static void on_trap(int number, siginfo_t *info, void *at) {
#ifdef __x86_64__
    greg_t *flags = &((ucontext_t *)at)->uc_mcontext.gregs[REG_EFL];
    int was = errno;
    (void)number, (void)info;
    if (is_stepped && steps++ == atomic_load(&board[STEP])) {
        is_stepped = 0;
        atomic_store(&board[STOPPED], 1);
        while (!atomic_load(&board[GO])) usleep(20);
    }
    *flags = is_stepped ? *flags | TRAPS : *flags & ~(greg_t)TRAPS;
    errno = was;
#else
    (void)number, (void)info, (void)at;
#endif
}

/* Whether this thread is the one to be stopped. */
static int is_chosen(void) {
    uint64_t who = atomic_load(&board[WHO]);
    return who && reads && (gettid() == getpid()) == (who == 1);
}

/* A thread that is followed makes a call: its instructions are counted up to here. */
static void arrive(void) {
    if (is_stepped) atomic_store(&board[STEPS], steps);
    is_stepped = 0;
}

/* It goes on behind a call. */
static void go_on(void) {
    if (!is_followed || calls++ != atomic_load(&board[CALL])) return;
    sigset_t trap;
    sigemptyset(&trap);
    sigaddset(&trap, SIGTRAP);
    pthread_sigmask(SIG_UNBLOCK, &trap, 0);
    steps = 0;
    is_stepped = 1;
    syscall(SYS_tgkill, getpid(), gettid(), SIGTRAP);
}

/* It is about to sleep. */
static void lie_down(void) {
    if (is_followed) atomic_store(&board[PASSED], calls);
    is_followed = 0;
    atomic_store(&board[SLEEPING], 1);
}

/* It woke. */
static void get_up(void) {
    atomic_store(&board[SLEEPING], 0);
    is_followed = atomic_exchange(&board[ARMED], 0) != 0;
    calls = 0;
}

static int is_stream(int fd) { return fd >= 0 && fd < MOST && atomic_load(&known[fd].is_stream); }

static void know(int fd) {
    if (fd < 0 || fd >= MOST) return;
    atomic_store(&known[fd].poll, -1);
    atomic_store(&known[fd].is_thin, comes(THIN));
    atomic_store(&known[fd].is_taken, 0);
    atomic_store(&known[fd].is_stream, 1);
}

static int fail(int why, enum word word) {
    count(word);
    errno = why;
    return -1;
}

int epoll_ctl(int poll, int op, int fd, struct epoll_event *event) {
    REAL(epoll_ctl);
    if (is_stream(fd)) {
        if (op == EPOLL_CTL_DEL) {
            atomic_store(&known[fd].poll, -1);
        } else {
            known[fd].event = *event;
            atomic_store(&known[fd].poll, poll);
            if (atomic_load(&known[fd].is_taken) && poll < MOST) {
                atomic_store(gettid() == getpid() ? &known[poll].is_first : &known[poll].is_reader, 1);
                reads = 1;
            }
        }
    }
    return real(poll, op, fd, event);
}

/* Epoll looks anew whether a socket is ready. */
static void look_again(int fd) {
    REAL(epoll_ctl);
    int poll = atomic_load(&known[fd].poll), was = errno;
    struct epoll_event event = known[fd].event;
    if (poll >= 0) real(poll, EPOLL_CTL_MOD, fd, &event);
    errno = was;
}

/* Whether the waits of an epoll fail for good. */
static int is_broken(int poll) {
    if (poll < 0 || poll >= MOST) return 0;
    if (atomic_load(&known[poll].is_first)) return atomic_load(&board[BREAK_FIRST]) != 0;
    if (!atomic_load(&known[poll].is_reader)) return 0;
    if (atomic_load(&known[poll].is_broken)) return 1;
    if (atomic_load(&board[BREAK]) <= atomic_load(&board[BROKEN])) return 0;
    atomic_store(&known[poll].is_broken, 1);
    count(BROKEN);
    return 1;
}

int epoll_wait(int poll, struct epoll_event *events, int most, int longest) {
    REAL(epoll_wait);
    if (is_broken(poll)) {
        errno = EBADF;
        return -1;
    }
    if (comes(EPOLL)) return fail(EINTR, CUT_WAIT);
    int sleeps = (int)atomic_load(&board[SLEEPS]), is_long = longest == LONGEST, chosen = is_chosen();
    arrive();
    if (chosen && is_long) lie_down();
    int result = real(poll, events, most, sleeps && is_long ? sleeps : longest), was = errno;
    if (chosen && is_long) get_up();
    go_on();
    errno = was;
    return result;
}

int eventfd(unsigned int first, int flags) {
    REAL(eventfd);
    int fd = real(first, flags);
    if (fd >= 0 && fd < MOST) atomic_store(&known[fd].is_waker, 1);
    return fd;
}

/* A reader woke another thread. */
static void pause_behind(int fd) {
    useconds_t pause = (useconds_t)atomic_load(&board[PAUSE]);
    if (pause && reads && fd >= 0 && fd < MOST && atomic_load(&known[fd].is_waker)) usleep(pause);
}

int socket(int domain, int type, int protocol) {
    REAL(socket);
    int is_tcp = (domain == AF_INET || domain == AF_INET6) && (type & 15) == SOCK_STREAM;
    if (is_tcp && comes(SOCKET)) return fail(EMFILE, NO_SOCKET);
    int fd = real(domain, type, protocol);
    if (is_tcp) know(fd);
    return fd;
}

int connect(int fd, const struct sockaddr *to, socklen_t length) {
    REAL(connect);
    if (is_stream(fd) && comes(CONNECT)) return draw() & 1 ? fail(ECONNREFUSED, REFUSED) : fail(EADDRNOTAVAIL, NO_PORT);
    return real(fd, to, length);
}

/* A reset instead of a close. */
static void reset(int fd) {
    REAL(connect);
    struct sockaddr nobody = {.sa_family = AF_UNSPEC};
    real(fd, &nobody, sizeof nobody);
}

int accept4(int fd, struct sockaddr *from, socklen_t *length, int flags) {
    REAL(accept4);
    if (is_stream(fd) && comes(ACCEPT)) {
        switch (draw() & 3) {
        case 0: {
            int taken = real(fd, 0, 0, flags);
            if (taken < 0) return taken;
            reset(taken);
            close(taken);
            return fail(ECONNABORTED, ABORTED);
        }
        case 1: return fail(EINTR, CUT_ACCEPT);
        default: return fail(EMFILE, NO_ACCEPT);
        }
    }
    int taken = real(fd, from, length, flags);
    useconds_t slow = (useconds_t)atomic_load(&board[SLOW]);
    if (slow && taken >= 0 && is_stream(fd)) usleep(slow);
    know(taken);
    if (taken >= 0 && taken < MOST) atomic_store(&known[taken].is_taken, 1);
    return taken;
}

int close(int fd) {
    REAL(close);
    if (is_stream(fd)) {
        atomic_store(&known[fd].is_stream, 0);
        atomic_store(&known[fd].poll, -1);
    }
    return real(fd);
}

/* How many bytes a transfer moves of so many; where it moves none, 0, and errno says why. */
static size_t most_of(int fd, size_t length, int is_write) {
    count(CALLS);
    if (comes(RESET)) {
        count(is_write ? RESET_WRITE : RESET_READ);
        reset(fd);
        return length;
    }
    if (comes(WAIT)) {
        fail(EAGAIN, is_write ? WAIT_WRITE : WAIT_READ);
        look_again(fd);
        return 0;
    }
    if (comes(CUT)) {
        fail(EINTR, is_write ? CUT_WRITE : CUT_READ);
        return 0;
    }
    int is_thin = atomic_load(&board[ON]) && atomic_load(&known[fd].is_thin);
    if (length < 2 || (!is_thin && !comes(SHORT))) return length;
    size_t most = is_thin || draw() & 1 ? 1 : 1 + draw() % (length - 1);
    count(is_write ? SHORT_WRITE : SHORT_READ);
    return most;
}

/* What a transfer came to that was to move so many bytes and moved at most so many. */
static ssize_t moved(int fd, size_t most, size_t length, ssize_t result) {
    if (most < length && result > 0) look_again(fd);
    return result;
}

ssize_t recv(int fd, void *to, size_t length, int flags) {
    REAL(recv);
    if (!is_stream(fd) || !length || flags & MSG_PEEK) return real(fd, to, length, flags);
    size_t most = most_of(fd, length, 0);
    return most ? moved(fd, most, length, real(fd, to, most, flags)) : -1;
}

ssize_t read(int fd, void *to, size_t length) {
    REAL(read);
    if (!is_stream(fd) || !length) return real(fd, to, length);
    size_t most = most_of(fd, length, 0);
    return most ? moved(fd, most, length, real(fd, to, most)) : -1;
}

ssize_t send(int fd, const void *from, size_t length, int flags) {
    REAL(send);
    if (!is_stream(fd) || !length) return real(fd, from, length, flags);
    size_t most = most_of(fd, length, 1);
    return most ? moved(fd, most, length, real(fd, from, most, flags)) : -1;
}

ssize_t write(int fd, const void *from, size_t length) {
    REAL(write);
    if (!is_stream(fd) || !length) {
        ssize_t written = real(fd, from, length);
        pause_behind(fd);
        return written;
    }
    size_t most = most_of(fd, length, 1);
    return most ? moved(fd, most, length, real(fd, from, most)) : -1;
}

/* The first so many bytes of these pieces: how many pieces they are. */
static size_t front(const struct iovec *pieces, size_t count, size_t most, struct iovec *to) {
    size_t at = 0;
    for (; at < count && most; at++) {
        to[at] = pieces[at];
        if (to[at].iov_len > most) to[at].iov_len = most;
        most -= to[at].iov_len;
    }
    return at;
}

static size_t length_of(const struct iovec *pieces, size_t count) {
    size_t length = 0;
    for (size_t at = 0; at < count; at++) length += pieces[at].iov_len;
    return length;
}

ssize_t sendmsg(int fd, const struct msghdr *message, int flags) {
    REAL(sendmsg);
    struct iovec pieces[64];
    size_t length = length_of(message->msg_iov, message->msg_iovlen);
    if (!is_stream(fd) || !length || message->msg_iovlen > 64) return real(fd, message, flags);
    size_t most = most_of(fd, length, 1);
    if (!most) return -1;
    struct msghdr part = *message;
    part.msg_iovlen = front(message->msg_iov, message->msg_iovlen, most, pieces);
    part.msg_iov = pieces;
    return moved(fd, most, length, real(fd, &part, flags));
}

ssize_t writev(int fd, const struct iovec *from, int count) {
    REAL(writev);
    struct iovec pieces[64];
    size_t length = count > 0 ? length_of(from, count) : 0;
    if (!is_stream(fd) || !length || count > 64) return real(fd, from, count);
    size_t most = most_of(fd, length, 1);
    if (!most) return -1;
    return moved(fd, most, length, real(fd, pieces, (int)front(from, count, most, pieces)));
}

/* It asks the kernel itself: a sanitizer reads the clock before the next library can be looked up. */
int clock_gettime(clockid_t which, struct timespec *to) {
    arrive();
    int failed = (int)syscall(SYS_clock_gettime, which, to);
    if (!failed && which == CLOCK_MONOTONIC) to->tv_sec += (time_t)atomic_load(&board[AHEAD]);
    go_on();
    return failed;
}

/* Whether a request for memory is refused. */
static int is_refused(void) {
    uint64_t request = atomic_fetch_add(&requests, 1) + 1;
    count(REQUESTS);
    if (request != refused_at && !(one_in && drawn(seed, request) % one_in == 0) && !comes(MEMORY)) return 0;
    count(NO_MEMORY);
    if (told >= 0 && write(told, "r", 1) != 1) abort();
    errno = ENOMEM;
    return 1;
}

extern void *__libc_malloc(size_t), *__libc_realloc(void *, size_t);

void *malloc(size_t size) { return is_refused() ? 0 : __libc_malloc(size); }

void *realloc(void *old, size_t size) { return is_refused() ? 0 : __libc_realloc(old, size); }
