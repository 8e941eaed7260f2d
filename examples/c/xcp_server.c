/* A slave of XCP on Ethernet, by UDP and by TCP, with two tasks in threads of their own: one each
 * millisecond, one each ten. Their variables are globals, which stand in one table; of that is made
 * the A2L file that a master fetches (a2l_table.h).
 *
 *   xcp_server [--udp PORT] [--tcp PORT] [--seconds N] [--any]
 *   xcp_server --a2l FILE
 *   xcp_server --help
 *
 * Its first line says the ports. It ends after N seconds, or at SIGINT or SIGTERM, and prints the
 * account of the session.
 *
 * Each task has its variables in a section of its own, which no one else writes and its event
 * channel alone may read. It hands that to its triggers as it is: there is no image, no copy and no
 * lock. What is read without a DAQ list is read while the tasks go on, so for that each leaves a
 * copy of its section once a period, and waits for nobody.
 *
 * One master at a time, and --help says which. No line carries out a command: CONNECT and
 * DISCONNECT tell who the master is, what the master sends goes to the library, and what that lays
 * out goes to the master. It waits until a socket has something, or a trigger says that a sample
 * was taken. Link with a2l_table.c, -lm and -pthread. */
#define _DEFAULT_SOURCE /* for IP_RECVERR, beside what POSIX has */
#include "a2l_table.h"
#include "nerthogal.h"
#include <arpa/inet.h>
#include <errno.h>
#include <fcntl.h>
#include <math.h>
#include <netinet/in.h>
#include <netinet/tcp.h>
#include <poll.h>
#include <pthread.h>
#include <signal.h>
#include <stdio.h>
#include <stdlib.h>
#include <string.h>
#include <sys/socket.h>
#include <time.h>
#include <unistd.h>

/* ---- the variables */

#define FAST __attribute__((section("fast_vars"))) /* of the task of 1 ms */
#define SLOW __attribute__((section("slow_vars"))) /* of that of 10 ms */

#ifdef VARIABLES /* a file with others, and with what they need */
#include VARIABLES
#else

enum { MAX_CTO = 64, RING = 4096, MOST = 1024 }; /* MOST: bytes of a section, which is copied */

FAST static uint32_t counter, stamp;
FAST static uint16_t engine_speed;
FAST static int16_t torque;
FAST static double distance;
SLOW static uint32_t slow_counter, slow_stamp;
SLOW static float voltage;
SLOW static uint8_t temperature, state;

static const char *const states[] = {"off", "starting", "running", "stopping", NULL};

static const struct a2l_variable variables[] = {
    A2L_VARIABLE(counter, .event = 0, .comment = "Triggers of the task of 1 ms"),
    A2L_VARIABLE(stamp, .event = 0, .unit = "us", .comment = "When it was triggered"),
    A2L_VARIABLE(engine_speed, .event = 0, .unit = "1/min", .factor = 0.25, .digits = 2,
                 .upper = 8000, .comment = "A sine of one second"),
    A2L_VARIABLE(torque, .event = 0, .unit = "Nm", .factor = 0.5, .digits = 1, .lower = -250,
                 .upper = 250, .comment = "A saw-tooth of one second"),
    A2L_VARIABLE(distance, .event = 0, .unit = "m", .digits = 3, .upper = 1e9,
                 .comment = "A millimetre each trigger"),
    A2L_VARIABLE(slow_counter, .event = 1, .comment = "Triggers of the task of 10 ms"),
    A2L_VARIABLE(slow_stamp, .event = 1, .unit = "us", .comment = "When it was triggered"),
    A2L_VARIABLE(voltage, .event = 1, .unit = "V", .digits = 2, .upper = 16),
    A2L_VARIABLE(temperature, .event = 1, .unit = "deg C", .factor = 1, .offset = -40,
                 .comment = "It rises and falls back"),
    A2L_VARIABLE(state, .event = 1, .states = states, .upper = 3,
                 .comment = "What the machine does"),
};

static void compute_fast(uint32_t turn, uint32_t now) {
    double angle = 2 * 3.14159265358979 * (turn % 1000) / 1000;
    counter = turn;
    stamp = now;
    engine_speed = (uint16_t)lround(4 * (3000 + 2000 * sin(angle)));
    torque = (int16_t)((int)(turn % 1000) - 500);
    distance = turn / 1000.0;
}

static void compute_slow(uint32_t turn, uint32_t now) {
    slow_counter = turn;
    slow_stamp = now;
    voltage = 12 + turn % 8 / 4.0f;
    temperature = (uint8_t)(120 + turn % 50);
    state = (uint8_t)(turn / 25 % 4);
}

#endif

/* ---- what a master is told of them */

enum { TASKS = 2, MAX_DTO = 1400 };

/* The linker knows where a section begins and ends. */
extern const uint8_t __start_fast_vars[], __stop_fast_vars[];
extern const uint8_t __start_slow_vars[], __stop_slow_vars[];

static ng_memory memory[TASKS]; /* the sections, where they are */
static ng_segment segments[TASKS] = {{.base = 0x10000000, .events = 1 << 0},
                                     {.base = 0x20000000, .events = 1 << 1}};
static const ng_event events[TASKS] = {
    {.capacity = RING, .name = "1 ms", .cycle = 1, .cycle_unit = 6, .priority = 1},
    {.capacity = RING, .name = "10 ms", .cycle = 10, .cycle_unit = 6}};
static ng_profile profile = {.id = NG_ABSOLUTE, .ticks = 1, .unit = 3, .stamp_size = 4,
                             .max_cto = MAX_CTO, .max_dto = MAX_DTO, .name = "xcp_server",
                             .a2l_name = "xcp_server"};

static char *a2l;
static size_t a2l_len;

static ng_memory section(const uint8_t *start, const uint8_t *stop) {
    return (ng_memory){start, (size_t)((uintptr_t)stop - (uintptr_t)start)};
}

/* Finds the sections, and makes the A2L file and the EPK. Answers whether each variable is where
 * its task samples it, and the file was made. */
static bool describe(void) {
    const struct a2l_table table = {
        .profile = &profile, .segments = segments, .memory = memory, .events = events,
        .variables = variables, .segment_count = TASKS, .event_count = TASKS,
        .variable_count = sizeof variables / sizeof *variables, .address = "127.0.0.1",
        .port = 5555};
    memory[0] = section(__start_fast_vars, __stop_fast_vars);
    memory[1] = section(__start_slow_vars, __stop_slow_vars);
    for (int t = 0; t < TASKS; t++) segments[t].len = memory[t].len;
    const struct a2l_variable *wrong = a2l_misplaced(&table);
    if (wrong != NULL)
        fprintf(stderr, "xcp_server: %s is in no section that its task samples\n", wrong->name);
    else if (memory[0].len > MOST || memory[1].len > MOST)
        fprintf(stderr, "xcp_server: a section has more than %d bytes\n", MOST);
    else {
        a2l_len = a2l_write(&table, NULL, 0, profile.epk);
        a2l = malloc(a2l_len + 1);
        if (a2l != NULL) return a2l_write(&table, a2l, a2l_len + 1, profile.epk) == a2l_len;
        fprintf(stderr, "xcp_server: out of memory\n");
    }
    return false;
}

/* Writes the A2L file. Answers whether all of it was written. */
static bool write_a2l(const char *path) {
    FILE *file = fopen(path, "wb");
    bool whole = file != NULL && fwrite(a2l, 1, a2l_len, file) == a2l_len;
    if (file != NULL && fclose(file) != 0) whole = false;
    if (!whole) fprintf(stderr, "xcp_server: cannot write %s: %s\n", path, strerror(errno));
    return whole;
}

/* ---- the tasks */

static int over; /* whether all is to end: by a signal, or when time is up */

static bool is_over(void) { return __atomic_load_n(&over, __ATOMIC_SEQ_CST) != 0; }

/* A pipe, whose first end is heard by the thread that sends. It never blocks: while bytes are in it
 * the thread is awake. */
static int bell[2] = {-1, -1};

static void ring(void) {
    int before = errno;
    if (write(bell[1], "", 1) < 0) errno = before;
}

static void end(int signal) {
    (void)signal;
    __atomic_store_n(&over, 1, __ATOMIC_SEQ_CST);
    ring();
}

static uint64_t now_ns(void) {
    struct timespec now;
    clock_gettime(CLOCK_MONOTONIC, &now);
    return (uint64_t)now.tv_sec * 1000000000u + (uint64_t)now.tv_nsec;
}

/* Microseconds: what timestamps and the DAQ clock count. */
static uint32_t now_us(void) { return (uint32_t)(now_ns() / 1000u); }

static uint32_t now_ms(void) { return (uint32_t)(now_ns() / 1000000u); }

static uint32_t due_at; /* when a trigger last found a DAQ list due, by now_ms */

/* Copies of a task's section: the one that the task writes, the one that is read, and between them
 * one that they exchange, with FRESH if the task left it. So none is written while it is read. */
struct copies {
    uint8_t bytes[3][MOST];
    unsigned written, between, read;
};

enum { FRESH = 4 };

struct task {
    ng_task task;
    void (*compute)(uint32_t turn, uint32_t now);
    long period; /* nanoseconds */
    bool fault;
    pthread_t thread;
    struct copies copies;
};

static struct task tasks[TASKS] = {
    {.task = NG_TASK_INIT, .compute = compute_fast, .period = 1000000,
     .copies = {.between = 1, .read = 2}},
    {.task = NG_TASK_INIT, .compute = compute_slow, .period = 10000000,
     .copies = {.between = 1, .read = 2}}};

static void leave_copy(struct task *self) {
    struct copies *copies = &self->copies;
    const ng_memory *own = &memory[self - tasks];
    memcpy(copies->bytes[copies->written], own->at, own->len);
    copies->written = ~FRESH
        & __atomic_exchange_n(&copies->between, copies->written | FRESH, __ATOMIC_SEQ_CST);
}

/* The copy that a task left last. It stays as it is until the next call. */
static ng_memory last_copy(struct task *task) {
    struct copies *copies = &task->copies;
    if (__atomic_load_n(&copies->between, __ATOMIC_SEQ_CST) & FRESH)
        copies->read = ~FRESH
            & __atomic_exchange_n(&copies->between, copies->read, __ATOMIC_SEQ_CST);
    return (ng_memory){copies->bytes[copies->read], memory[task - tasks].len};
}

/* Takes a trigger of the task's own section. The other one is written meanwhile: it isn't there. */
static void take_trigger(struct task *self, uint32_t now) {
    ng_memory own[TASKS] = {NG_NOT_THERE, NG_NOT_THERE};
    ng_taken taken;
    own[self - tasks] = memory[self - tasks];
    if (ng_task_trigger(&self->task, own, TASKS, now, &taken) != NG_OK) {
        self->fault = true;
        return;
    }
    if (taken.due != 0) __atomic_store_n(&due_at, now_ms(), __ATOMIC_SEQ_CST);
    if (taken.accepted != 0) ring();
}

/* Computes its variables, leaves a copy, and takes a trigger of them, once a period. */
static void *run_task(void *argument) {
    struct task *self = argument;
    struct timespec next;
    clock_gettime(CLOCK_MONOTONIC, &next);
    for (uint32_t turn = 0; !is_over(); turn++) {
        uint32_t now = now_us();
        self->compute(turn, now);
        leave_copy(self);
        take_trigger(self, now);
        next.tv_nsec += self->period;
        if (next.tv_nsec >= 1000000000) {
            next.tv_nsec -= 1000000000;
            next.tv_sec++;
        }
        clock_nanosleep(CLOCK_MONOTONIC, TIMER_ABSTIME, &next, NULL);
    }
    if (ng_task_finish(&self->task) != NG_OK) self->fault = true;
    return NULL;
}

/* ---- the transports */

#define FRAME_BYTES (4 + MAX_CTO) /* of the longest frame of a master, with LEN and CTR */
#define GUESTS 4       /* connections that may wait, of which no CONNECT came yet */
#define PAGES 64       /* pages that are sent before the sockets are looked at again */
#define SILENCE 10000u /* after so many milliseconds a master that is silent may be replaced */

/* A connection of which no CONNECT came yet. */
struct guest {
    int socket; /* -1 where there is none */
    uint8_t heard[FRAME_BYTES];
    size_t len;
};

/* Where in a frame the master's bytes stand. */
struct place {
    size_t at; /* bytes of it that came */
    uint8_t front[6];
};

struct server {
    ng_slave slave;
    int udp, listener, tcp;      /* sockets; tcp is -1 where no master is connected by it */
    struct guest guests[GUESTS]; /* the oldest first */
    struct sockaddr_in master;   /* its address, by UDP */
    bool by_udp;                 /* whether there is one */
    struct place place;
    bool left;                   /* whether the master sent DISCONNECT last, and no CONNECT then */
    uint32_t heard_at;           /* when it was heard last, by now_ms */
    uint8_t heard[2048];         /* bytes that came and weren't taken yet */
    size_t from, to;             /* where they stand */
    uint8_t page[4 + MAX_DTO];   /* frames that wait, as the last peek laid them out */
    size_t gone;                 /* so many bytes of them went out by TCP */
    bool full;                   /* whether the socket had no room for more */
    bool more;                   /* whether there may be pages that could be sent */
};

static bool nothing_heard(const struct server *s) { return s->from == s->to; }

static bool is_recent(uint32_t at) { return now_ms() - at < SILENCE; }

/* Whether there is a master that another one's CONNECT doesn't replace. */
static bool is_taken(const struct server *s) {
    if ((s->tcp < 0 && !s->by_udp) || s->left) return false;
    return is_recent(s->heard_at) || is_recent(__atomic_load_n(&due_at, __ATOMIC_SEQ_CST));
}

/* The connection is gone. What waits is thrown away, so that it never reaches another master. */
static void lose(struct server *s) {
    ng_slave_hang_up(&s->slave);
    if (s->tcp >= 0) close(s->tcp);
    s->tcp = -1;
    s->by_udp = s->left = s->full = false;
    s->from = s->to = s->gone = s->place.at = 0;
}

static bool is_master(const struct server *s, const struct sockaddr_in *from) {
    return s->by_udp && from->sin_port == s->master.sin_port
        && from->sin_addr.s_addr == s->master.sin_addr.s_addr;
}

/* Looks where the network says that datagrams don't arrive: a master there is lost. */
static void hear_errors(struct server *s) {
#ifdef IP_RECVERR
    struct sockaddr_in at;
    uint8_t more[512];
    for (;;) {
        struct msghdr error = {.msg_name = &at, .msg_namelen = sizeof at,
                               .msg_control = more, .msg_controllen = sizeof more};
        if (recvmsg(s->udp, &error, MSG_ERRQUEUE | MSG_DONTWAIT) < 0) return;
        if (is_master(s, &at)) lose(s);
    }
#else
    (void)s;
#endif
}

/* Whether a socket has only no room or no bytes just now. */
static bool is_later(void) { return errno == EAGAIN || errno == EWOULDBLOCK || errno == EINTR; }

/* Sends a page by UDP, whole, or not at all. What fails may tell of an earlier datagram, so it is
 * tried once more; if it fails then too, it is lost, as the network may lose any. */
static bool send_datagram(struct server *s, size_t len) {
    s->full = false;
    for (int tries = 0; tries < 2 && s->by_udp; tries++) {
        if (sendto(s->udp, s->page, len, 0, (struct sockaddr *)&s->master, sizeof s->master) >= 0)
            return true;
        s->full = is_later();
        if (s->full) return false;
        hear_errors(s);
    }
    return s->by_udp;
}

/* Sends what is left of a page by TCP; answers whether all of it went out. */
static bool send_stream(struct server *s, size_t len) {
    ssize_t sent = send(s->tcp, s->page + s->gone, len - s->gone, MSG_NOSIGNAL);
    if (sent < 0 && !is_later()) {
        lose(s);
        return false;
    }
    if (sent > 0) s->gone += (size_t)sent;
    s->full = s->gone < len;
    if (s->full) return false;
    s->gone = 0;
    return true;
}

/* Sends what waits, page by page, but not so much at once that a master isn't heard while samples
 * come as fast as they go. What a socket refuses waits on: the next peek lays the same frames out
 * first. */
static void send_waiting(struct server *s) {
    s->more = false;
    for (int pages = 0; s->tcp >= 0 || s->by_udp; pages++) {
        size_t len = 0;
        s->more = pages == PAGES;
        if (s->more) return;
        ng_slave_peek(&s->slave, s->page, sizeof s->page, &len);
        if (len == 0) return;
        if (!(s->tcp >= 0 ? send_stream(s, len) : send_datagram(s, len))) return;
        ng_slave_sent(&s->slave);
    }
}

/* Hands what was heard to the slave, as far as replies find room. */
static void pass_on(struct server *s) {
    while (!nothing_heard(s)) {
        size_t taken = 0, len = s->to - s->from;
        const uint8_t *heard = s->heard + s->from;
        const ng_memory copies[TASKS] = {last_copy(&tasks[0]), last_copy(&tasks[1])};
        if (s->tcp < 0)
            ng_slave_datagram(&s->slave, heard, len, now_us(), copies, TASKS, &taken);
        else if (ng_slave_receive(&s->slave, heard, len, now_us(), copies, TASKS, &taken)
                 != NG_OK) {
            send_waiting(s); /* the replies to what came before a bad frame */
            lose(s);         /* behind it a stream can't be read on */
            return;
        }
        s->from += taken;
        send_waiting(s);
        if (taken == 0) return; /* replies wait to be sent */
    }
}

/* The length of a frame whose LEN stands here; 0 for a LEN that is none. */
static size_t frame_len(const uint8_t *bytes) {
    size_t len = bytes[0] | (size_t)bytes[1] << 8;
    return len == 0 || len > FRAME_BYTES - 4 ? 0 : 4 + len;
}

/* What the bytes of one who isn't the master begin with: a CONNECT, whole or in part, or others. */
enum front { PART, CONNECTS, OTHERS };
static enum front front_of(const uint8_t *bytes, size_t len) {
    if (len < 6) return PART;
    if (frame_len(bytes) < 6 || bytes[4] != 0xFF || bytes[5] != 0) return OTHERS;
    return len < frame_len(bytes) ? PART : CONNECTS;
}

/* Follows the frames of the master's bytes, and notes whether it left. */
static void follow(struct server *s, const uint8_t *bytes, size_t len) {
    struct place *place = &s->place;
    for (size_t i = 0; i < len; i++) {
        if (place->at < sizeof place->front) place->front[place->at] = bytes[i];
        place->at++;
        if (place->at < 4) continue;
        size_t whole = frame_len(place->front);
        if (whole == 0) return; /* the library reads no further either */
        if (place->at < whole) continue;
        if (place->front[4] == 0xFE) s->left = true;
        if (front_of(place->front, 6) != OTHERS) s->left = false;
        place->at = 0;
    }
}

/* So many bytes of the master were heard. */
static void take_heard(struct server *s, size_t len) {
    s->from = 0;
    s->to = len;
    s->heard_at = now_ms();
    if (s->by_udp) s->place.at = 0; /* a datagram begins with a frame */
    follow(s, s->heard, len);
}

static void hear_stream(struct server *s) {
    ssize_t got = recv(s->tcp, s->heard, sizeof s->heard, 0);
    if (got < 0 && is_later()) return;
    if (got <= 0) {
        lose(s);
        return;
    }
    take_heard(s, (size_t)got);
}

/* Takes a datagram of the master; or of another address, if that begins with a CONNECT and there is
 * no master that stays. */
static void hear_datagram(struct server *s) {
    struct sockaddr_in from;
    socklen_t size = sizeof from;
    ssize_t got = recvfrom(s->udp, s->heard, sizeof s->heard, 0, (struct sockaddr *)&from, &size);
    if (got < 0) return;
    if (!is_master(s, &from)) {
        if (front_of(s->heard, (size_t)got) != CONNECTS || is_taken(s)) return;
        lose(s);
        s->master = from;
        s->by_udp = true;
    }
    take_heard(s, (size_t)got);
}

static void forget(struct guest *guest) { *guest = (struct guest){.socket = -1}; }

/* Hears a connection that isn't the master's. Its CONNECT makes it the master's, if there is none
 * that stays. Where it sends anything else, or comes too soon, it is closed. */
static void hear_guest(struct server *s, struct guest *guest) {
    size_t room = sizeof guest->heard - guest->len;
    ssize_t got = recv(guest->socket, guest->heard + guest->len, room, 0);
    if (got < 0 && is_later()) return;
    if (got > 0) guest->len += (size_t)got;
    enum front front = front_of(guest->heard, guest->len);
    if (got > 0 && front == PART) return;
    if (got > 0 && front == CONNECTS && !is_taken(s)) {
        lose(s);
        s->tcp = guest->socket;
        memcpy(s->heard, guest->heard, guest->len);
        take_heard(s, guest->len);
    } else close(guest->socket);
    forget(guest);
}

/* Takes a connection, which waits for its CONNECT in the last place; where all are taken the oldest
 * one is closed. The buffer of the socket is small: a master that doesn't keep up is told so by the
 * overload bit, and not by samples that are old. */
static void take_guest(struct server *s) {
    int client = accept(s->listener, NULL, NULL), one = 1, room = 8192;
    if (client < 0) return;
    fcntl(client, F_SETFL, O_NONBLOCK);
    setsockopt(client, IPPROTO_TCP, TCP_NODELAY, &one, sizeof one);
    setsockopt(client, SOL_SOCKET, SO_SNDBUF, &room, sizeof room);
    int free = 0;
    while (free < GUESTS - 1 && s->guests[free].socket >= 0) free++;
    if (s->guests[free].socket >= 0) {
        close(s->guests[0].socket);
        memmove(s->guests, s->guests + 1, sizeof s->guests - sizeof *s->guests);
    }
    forget(&s->guests[free]);
    s->guests[free].socket = client;
}

static void empty_bell(void) {
    uint8_t bytes[256];
    while (read(bell[0], bytes, sizeof bytes) > 0) {}
}

/* Waits until something comes, a trigger or a signal rings, or a socket that was full has room, but
 * for no more than so many milliseconds, if that isn't below 0, and not where there is more to be
 * sent; and does what is to be done. */
static void serve_once(struct server *s, int most) {
    short hears = nothing_heard(s) ? POLLIN : 0, sends = s->full ? POLLOUT : 0;
    struct pollfd sockets[4 + GUESTS] = {
        {s->udp, (short)(hears | (s->by_udp ? sends : 0)), 0}, {s->listener, POLLIN, 0},
        {s->tcp, (short)(hears | sends), 0}, {bell[0], POLLIN, 0}};
    for (int g = 0; g < GUESTS; g++)
        sockets[4 + g] = (struct pollfd){s->guests[g].socket, POLLIN, 0};
    if (poll(sockets, 4 + GUESTS, s->more ? 0 : most) > 0) {
        if (sockets[3].revents != 0) empty_bell();
        if (sockets[0].revents & POLLERR) hear_errors(s);
        for (int g = 0; g < GUESTS; g++)
            if (sockets[4 + g].revents != 0) hear_guest(s, &s->guests[g]);
        if (sockets[1].revents & POLLIN) take_guest(s);
        if (nothing_heard(s) && sockets[0].revents & POLLIN) hear_datagram(s);
        if (nothing_heard(s) && s->tcp == sockets[2].fd && (sockets[2].revents & ~POLLOUT))
            hear_stream(s);
    }
    pass_on(s);
    send_waiting(s);
}

/* ---- opening and closing */

/* A socket of this kind on a port, and which port that is; or ends the program. No two servers have
 * one port; by TCP one may have it while connections of an earlier one end. */
static int listen_on(int kind, unsigned port, bool any, unsigned *is) {
    struct sockaddr_in at = {.sin_family = AF_INET, .sin_port = htons((uint16_t)port)};
    socklen_t size = sizeof at;
    int s = socket(AF_INET, kind, 0), one = 1;
    at.sin_addr.s_addr = htonl(any ? INADDR_ANY : INADDR_LOOPBACK);
    if (kind == SOCK_STREAM) setsockopt(s, SOL_SOCKET, SO_REUSEADDR, &one, sizeof one);
    if (s < 0 || bind(s, (struct sockaddr *)&at, sizeof at) < 0
        || (kind == SOCK_STREAM && listen(s, GUESTS) < 0)
        || getsockname(s, (struct sockaddr *)&at, &size) < 0) {
        fprintf(stderr, "xcp_server: %s port %u: %s\n", kind == SOCK_STREAM ? "TCP" : "UDP", port,
                strerror(errno));
        exit(1);
    }
    fcntl(s, F_SETFL, O_NONBLOCK);
#ifdef IP_RECVERR
    if (kind == SOCK_DGRAM) setsockopt(s, IPPROTO_IP, IP_RECVERR, &one, sizeof one);
#endif
    *is = ntohs(at.sin_port);
    return s;
}

static bool open_slave(struct server *s) {
    return ng_slave_open(&profile, segments, TASKS, events, TASKS, (const uint8_t *)a2l, a2l_len,
                         &s->slave) == NG_OK
        && ng_slave_task(&s->slave, 0, &tasks[0].task) == NG_OK
        && ng_slave_task(&s->slave, 1, &tasks[1].task) == NG_OK;
}

static bool open_bell(void) {
    if (pipe(bell) != 0) return false;
    return fcntl(bell[0], F_SETFL, O_NONBLOCK) == 0 && fcntl(bell[1], F_SETFL, O_NONBLOCK) == 0;
}

/* Closes the slave, and prints the lines of the DAQ lists that had something due. */
static bool print_account(ng_slave *slave) {
    ng_line lines[NG_MAX_LISTS];
    ng_measurements each;
    bool whole = false;
    if (ng_slave_close(slave, lines, NG_MAX_LISTS, &whole, &each) != NG_OK) return false;
    for (size_t l = 0; l < NG_MAX_LISTS; l++)
        if (lines[l].due > 0)
            printf("list %u due %llu written %llu dropped %llu left %llu\n", lines[l].list,
                   (unsigned long long)lines[l].due, (unsigned long long)lines[l].written,
                   (unsigned long long)lines[l].dropped, (unsigned long long)lines[l].left);
    printf("whole %s\n", whole ? "yes" : "no");
    return whole;
}

struct options {
    unsigned udp, tcp, seconds;
    bool any;
    const char *a2l;
};

/* A number of at most this, or ends the program. */
static unsigned number_of(const char *text, unsigned long most) {
    char *behind;
    unsigned long number = strtoul(text, &behind, 10);
    if (*text < '0' || *text > '9' || *behind != 0 || number > most) {
        fprintf(stderr, "xcp_server: not a number up to %lu: %s\n", most, text);
        exit(2);
    }
    return (unsigned)number;
}

static const char usage[] = "usage: xcp_server [--udp PORT] [--tcp PORT] [--seconds N] [--any]\n"
                            "       xcp_server --a2l FILE\n";

static const char help[] =
    "\n"
    "A slave of XCP on Ethernet with tasks of 1 ms and 10 ms. A master may fetch its A2L file.\n"
    "\n"
    "  --udp PORT, --tcp PORT  5555 where nothing is said; 0 is a port that the system chooses\n"
    "  --seconds N             ends after so long; else at SIGINT or SIGTERM\n"
    "  --a2l FILE              writes the A2L file, and ends\n"
    "  --any                   listens on all addresses, and not on 127.0.0.1 alone; XCP has no\n"
    "                          password\n"
    "\n"
    "One master at a time: whoever was answered to CONNECT, until it sends DISCONNECT or its\n"
    "connection is lost. Another one's CONNECT, by UDP or by TCP, gets no reply while the master\n"
    "measures or was heard within the last 10 seconds; then it takes the master's place. A\n"
    "connection by TCP whose first frame isn't a CONNECT that is answered is closed.\n";

static struct options read_options(int argc, char **argv) {
    struct options o = {5555, 5555, 0, false, NULL};
    for (int i = 1; i < argc; i++) {
        bool more = i + 1 < argc;
        if (strcmp(argv[i], "--any") == 0) o.any = true;
        else if (more && strcmp(argv[i], "--udp") == 0) o.udp = number_of(argv[++i], 65535);
        else if (more && strcmp(argv[i], "--tcp") == 0) o.tcp = number_of(argv[++i], 65535);
        else if (more && strcmp(argv[i], "--a2l") == 0) o.a2l = argv[++i];
        else if (more && strcmp(argv[i], "--seconds") == 0) o.seconds = number_of(argv[++i], 86400);
        else if (strcmp(argv[i], "--help") == 0) {
            printf("%s%s", usage, help);
            exit(0);
        } else {
            fprintf(stderr, "%s", usage);
            exit(2);
        }
    }
    return o;
}

/* Serves until a signal comes, or for so many seconds, if that isn't 0. */
static void serve(struct server *s, unsigned seconds) {
    uint64_t until = now_ns() / 1000000 + seconds * 1000ull;
    while (!is_over()) {
        uint64_t now = now_ns() / 1000000;
        if (seconds != 0 && now >= until) break;
        serve_once(s, seconds == 0 ? -1 : (int)(until - now));
    }
}

int main(int argc, char **argv) {
    struct options o = read_options(argc, argv);
    struct sigaction ends = {.sa_handler = end};
    struct server s = {.slave = NG_SLAVE_INIT, .tcp = -1};
    unsigned udp, tcp;
    if (!describe()) return 1;
    if (o.a2l != NULL) return write_a2l(o.a2l) ? 0 : 1;
    for (int g = 0; g < GUESTS; g++) forget(&s.guests[g]);
    if (!open_slave(&s) || !open_bell()) return 1;
    sigaction(SIGINT, &ends, NULL);
    sigaction(SIGTERM, &ends, NULL);
    s.udp = listen_on(SOCK_DGRAM, o.udp, o.any, &udp);
    s.listener = listen_on(SOCK_STREAM, o.tcp, o.any, &tcp);
    printf("udp %u tcp %u\n", udp, tcp);
    fflush(stdout);
    for (int t = 0; t < TASKS; t++)
        if (pthread_create(&tasks[t].thread, NULL, run_task, &tasks[t]) != 0) return 1;
    serve(&s, o.seconds);

    end(0);
    for (int t = 0; t < TASKS; t++) pthread_join(tasks[t].thread, NULL);
    lose(&s);
    for (int g = 0; g < GUESTS; g++)
        if (s.guests[g].socket >= 0) close(s.guests[g].socket);
    free(a2l);
    return print_account(&s.slave) && !tasks[0].fault && !tasks[1].fault ? 0 : 1;
}
