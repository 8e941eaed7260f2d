/* Measures how many samples a second a slave gives away by UDP on loopback, in one thread, and what
 * of that is the library's. A round is as many triggers of its task as fill the ring, and then pages
 * of frames until nothing waits, each sent as a datagram to a socket that another thread reads; then
 * the same with the sends left out. Prints for two set-ups the samples a second and the thread's
 * processor time for a sample, in nanoseconds, with the sends and without: the least of five
 * measurements of a second each. */
#define _POSIX_C_SOURCE 200809L
#include "nerthogal.h"
#include <arpa/inet.h>
#include <netinet/in.h>
#include <pthread.h>
#include <stdio.h>
#include <stdlib.h>
#include <string.h>
#include <sys/socket.h>
#include <time.h>
#include <unistd.h>

/* No segment is there to be read without a DAQ list; no A2L file. */
static const ng_memory not_there = NG_NOT_THERE;
#define NO_MEMORY &not_there, 0
#define NO_A2L (const uint8_t *)"", 0

#define SAMPLES 64u
#define SEGMENT_BYTES 4096u
#define MEASUREMENTS 5

/* So many DAQ lists of event channel 0, each of so many ODTs of one entry: a whole packet, or two
 * bytes. In the ring a sample takes 16 bytes, and 4 and the packet for each of its packets, up to a
 * multiple of 8. */
typedef struct {
    const char *name;
    uint8_t lists, odts, mode, first_size, size;
    size_t record;
} set;

static const set sets[] = {
    {"one list, one entry of 2 bytes", 1, 1, 0x00, 2, 2, 24},
    {"sixteen lists of seven ODTs of 64 bytes, with a timestamp", 16, 7, 0x10, 59, 63, 496},
};

static void want(bool holds, const char *what) {
    if (holds) return;
    fprintf(stderr, "live: %s\n", what);
    exit(1);
}

/* Sends a command, and looks at its reply. */
static void command(ng_slave *slave, const uint8_t *packet, uint8_t len) {
    uint8_t frame[16] = {len, 0, 0, 0}, reply[NG_PEEK_BYTES];
    size_t taken = 0, replied = 0;
    memcpy(frame + 4, packet, len);
    want(ng_slave_datagram(slave, frame, 4u + len, 0, NO_MEMORY, &taken) == NG_OK, "a datagram");
    want(ng_slave_peek(slave, reply, sizeof reply, &replied) == NG_OK, "peek");
    want(replied >= 5 && reply[4] == 0xFF, "a command is accepted");
    want(ng_slave_sent(slave) == NG_OK, "sent");
}

#define COMMAND(slave, ...) command(slave, (const uint8_t[]){__VA_ARGS__}, sizeof((const uint8_t[]){__VA_ARGS__}))

static void set_up(ng_slave *slave, const set *set) {
    COMMAND(slave, 0xFF, 0);
    COMMAND(slave, 0xD5, 0, set->lists, 0);
    for (uint8_t l = 0; l < set->lists; l++) COMMAND(slave, 0xD4, 0, l, 0, set->odts);
    for (uint8_t l = 0; l < set->lists; l++)
        for (uint8_t odt = 0; odt < set->odts; odt++) COMMAND(slave, 0xD3, 0, l, 0, odt, 1);
    for (uint8_t l = 0; l < set->lists; l++) {
        for (uint8_t odt = 0; odt < set->odts; odt++) {
            unsigned address = (unsigned)(l * set->odts + odt) * 36u;
            COMMAND(slave, 0xE2, 0, l, 0, odt, 0);
            COMMAND(slave, 0xE1, 0xFF, odt == 0 ? set->first_size : set->size, 0, (uint8_t)address,
                    (uint8_t)(address >> 8), 0, 0);
        }
        COMMAND(slave, 0xE0, set->mode, l, 0, 0, 0, 1, 0);
        COMMAND(slave, 0xDE, 2, l, 0);
    }
    COMMAND(slave, 0xDD, 1);
}

static double seconds(clockid_t clock) {
    struct timespec now;
    clock_gettime(clock, &now);
    return (double)now.tv_sec + (double)now.tv_nsec / 1e9;
}

/* Reads what comes, until it is told to end by an empty datagram. */
static void *read_all(void *socket) {
    uint8_t bytes[2048];
    while (recv(*(int *)socket, bytes, sizeof bytes, 0) > 0) continue;
    return NULL;
}

/* Two sockets, of which the second one takes what the first one sends. */
static void join(int *sender, int *reader) {
    struct sockaddr_in at = {.sin_family = AF_INET};
    socklen_t size = sizeof at;
    at.sin_addr.s_addr = htonl(INADDR_LOOPBACK);
    *sender = socket(AF_INET, SOCK_DGRAM, 0);
    *reader = socket(AF_INET, SOCK_DGRAM, 0);
    want(bind(*reader, (struct sockaddr *)&at, sizeof at) == 0, "bind");
    want(getsockname(*reader, (struct sockaddr *)&at, &size) == 0, "a port");
    want(connect(*sender, (struct sockaddr *)&at, sizeof at) == 0, "connect");
}

/* What a sample takes, in nanoseconds: by the clock, and of the thread's processor time. */
typedef struct {
    double wall, processor;
} cost;

/* Rounds for a second; pages go to a socket, or nowhere if that is negative. */
static cost measure(ng_slave *slave, ng_task *task, const set *set, int out) {
    static uint8_t bytes[SEGMENT_BYTES], page[1400];
    static const ng_memory memory = {bytes, sizeof bytes};
    double wall = seconds(CLOCK_MONOTONIC), processor = seconds(CLOCK_THREAD_CPUTIME_ID), now;
    unsigned long samples = 0;
    do {
        size_t len;
        for (unsigned k = 0; k < SAMPLES / set->lists; k++) {
            ng_taken taken;
            want(ng_task_trigger(task, &memory, 1, k, &taken) == NG_OK, "trigger");
            want(taken.dropped == 0, "no sample is dropped");
            samples += set->lists;
        }
        do {
            want(ng_slave_peek(slave, page, sizeof page, &len) == NG_OK, "peek");
            if (len > 0 && out >= 0) want(send(out, page, len, 0) == (ssize_t)len, "send");
            want(ng_slave_sent(slave) == NG_OK, "sent");
        } while (len > 0);
        now = seconds(CLOCK_MONOTONIC);
    } while (now - wall < 1);
    processor = seconds(CLOCK_THREAD_CPUTIME_ID) - processor;
    return (cost){(now - wall) / (double)samples * 1e9, processor / (double)samples * 1e9};
}

static void measure_set(const set *set, int out) {
    static const ng_segment segment = {.len = SEGMENT_BYTES, .events = 1};
    static const ng_profile profile = {.id = NG_ABSOLUTE, .ticks = 1, .unit = 3, .stamp_size = 4,
                                       .max_cto = 64, .max_dto = 64};
    const ng_event event = {.capacity = SAMPLES * set->record};
    ng_slave slave = NG_SLAVE_INIT;
    ng_task task = NG_TASK_INIT;
    cost sent = {1e9, 1e9}, kept = {1e9, 1e9};
    want(ng_slave_open(&profile, &segment, 1, &event, 1, NO_A2L, &slave) == NG_OK, "open");
    want(ng_slave_task(&slave, 0, &task) == NG_OK, "task");
    set_up(&slave, set);
    for (int m = 0; m < MEASUREMENTS; m++) {
        cost one = measure(&slave, &task, set, out), other = measure(&slave, &task, set, -1);
        if (one.processor < sent.processor) sent = one;
        if (other.processor < kept.processor) kept = other;
    }
    printf("%s: %.0f samples a second; processor time %.0f ns, without the sends %.0f ns\n", set->name,
           1e9 / sent.wall, sent.processor, kept.processor);
    ng_line lines[NG_MAX_LISTS];
    ng_measurements each;
    bool whole;
    want(ng_task_finish(&task) == NG_OK, "finish");
    want(ng_slave_close(&slave, lines, NG_MAX_LISTS, &whole, &each) == NG_OK && whole, "close");
}

int main(void) {
    int sender, reader;
    pthread_t thread;
    join(&sender, &reader);
    want(pthread_create(&thread, NULL, read_all, &reader) == 0, "a thread");
    for (size_t k = 0; k < sizeof sets / sizeof sets[0]; k++) measure_set(&sets[k], sender);
    send(sender, "", 0, 0);
    pthread_join(thread, NULL);
    return 0;
}
