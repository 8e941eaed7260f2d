/* A slave of XCP by UDP in one thread: each 10 ms it computes its variables and takes a trigger,
 * and in between it answers a master. Put your own variables there: they get addresses, and an A2L
 * file that the master fetches.
 *
 *   first_server [PORT]     5555 where nothing is said; it listens on this machine alone
 *
 * One thread doesn't write while it is in a call. If tasks have threads of their own, each has a
 * section of its own, as in xcp_server.c. Link with a2l_table.c. */
#define _DEFAULT_SOURCE
#include "a2l_table.h"
#include <arpa/inet.h>
#include <poll.h>
#include <stdlib.h>
#include <sys/timerfd.h>
#include <unistd.h>

static struct pollfd line[2];     /* a socket, and a timer of 10 ms */
static struct sockaddr_in master; /* who sent the last datagram */

static bool listen_on(int port) {
    struct sockaddr_in at = {.sin_family = AF_INET, .sin_port = htons((uint16_t)port)};
    const struct itimerspec each = {{0, 10000000}, {0, 10000000}};
    at.sin_addr.s_addr = htonl(INADDR_LOOPBACK);
    line[0] = (struct pollfd){socket(AF_INET, SOCK_DGRAM, 0), POLLIN, 0};
    line[1] = (struct pollfd){timerfd_create(CLOCK_MONOTONIC, 0), POLLIN, 0};
    return bind(line[0].fd, (struct sockaddr *)&at, sizeof at) == 0
        && timerfd_settime(line[1].fd, 0, &each, NULL) == 0;
}

static void send_waiting(ng_slave *slave) {
    uint8_t page[1400];
    size_t len;
    while (ng_slave_peek(slave, page, sizeof page, &len) == NG_OK && len > 0) {
        sendto(line[0].fd, page, len, 0, (struct sockaddr *)&master, sizeof master);
        ng_slave_sent(slave);
    }
}

/* Sends what waits, and answers the master, until the next period begins. */
static void serve(ng_slave *slave, const ng_memory *memory, uint32_t now) {
    uint8_t bytes[1400];
    uint64_t periods;
    send_waiting(slave);
    while (poll(line, 2, -1) > 0 && line[1].revents == 0) {
        socklen_t size = sizeof master;
        ssize_t got = recvfrom(line[0].fd, bytes, sizeof bytes, MSG_DONTWAIT,
                               (struct sockaddr *)&master, &size);
        size_t taken = 0;
        for (size_t at = 0; got > 0 && at < (size_t)got; at += taken) {
            ng_slave_datagram(slave, bytes + at, (size_t)got - at, now, memory, 1, &taken);
            send_waiting(slave);
        }
    }
    if (read(line[1].fd, &periods, sizeof periods) < 0) exit(1);
}

#define MEASURED __attribute__((section("measured")))
MEASURED static uint32_t counter;
MEASURED static uint16_t engine_speed;
MEASURED static uint8_t state;
static const struct a2l_variable variables[] = {
    A2L_VARIABLE(counter, .comment = "Triggers"),
    A2L_VARIABLE(engine_speed, .unit = "1/min", .factor = 0.25, .digits = 2, .upper = 8000),
    A2L_VARIABLE(state, .states = (const char *const[]){"off", "running", NULL})};
extern const uint8_t __start_measured[], __stop_measured[]; /* the linker has them */

int main(int argc, char **argv) {
    static char a2l[65536];
    const ng_memory memory = {__start_measured, (size_t)(__stop_measured - __start_measured)};
    const ng_segment segment = {.base = 0x10000000, .len = memory.len, .events = 1};
    const ng_event event = {.capacity = 4096, .name = "10 ms", .cycle = 10, .cycle_unit = 6};
    ng_profile profile = {.ticks = 1, .unit = 7, .stamp_size = 4, .max_cto = 64,
                          .max_dto = 64, .name = "first_server"};
    const struct a2l_table table = {&profile, &segment, &memory, &event, variables, 1, 1, 3,
                                    "127.0.0.1", 5555};
    size_t len = a2l_write(&table, a2l, sizeof a2l, profile.epk);
    ng_slave slave = NG_SLAVE_INIT;
    ng_task task = NG_TASK_INIT;
    ng_taken taken;
    if (len == 0 || len >= sizeof a2l || !listen_on(argc > 1 ? atoi(argv[1]) : 5555)
        || ng_slave_open(&profile, &segment, 1, &event, 1, (uint8_t *)a2l, len, &slave) != NG_OK
        || ng_slave_task(&slave, 0, &task) != NG_OK) return 1;
    for (;; serve(&slave, &memory, counter)) {
        counter++;
        engine_speed = (uint16_t)(4 * (800 + counter % 1000));
        state = counter / 100 % 2;
        ng_task_trigger(&task, &memory, 1, counter, &taken);
    }
}
