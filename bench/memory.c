/* Measures a slave's triggers through the calls for C, over memory of 16 bytes, over one segment of
 * 1 MB, and over two, of which the second has the entry: of a DAQ list of one entry of 2 bytes. A
 * round is 64 triggers, which fill the ring; what they sent is peeked at behind it, which isn't
 * timed. Prints for each memory what a trigger takes at which the list is due, and one at which it
 * isn't, in tenths of a nanosecond: the fastest of seven measurements, in turn. */
#define _POSIX_C_SOURCE 200809L
#include "nerthogal.h"
#include <stdio.h>
#include <stdlib.h>
#include <string.h>
#include <time.h>

#define LONG (1u << 20)
#define TRIGGERS 64u
#define RECORD 24u /* what a sample takes in the ring: 16 bytes, LEN and CTR, and 3 bytes */
#define ROUNDS (1u << 13)
#define MEASUREMENTS 7

static uint8_t low[LONG], high[LONG], page[1400];

/* A memory, with a slave over it whose list is due at each trigger, and one at every 255th. */
static struct side {
    const char *name;
    size_t count;
    ng_memory memory[2];
    ng_slave slaves[2];
    ng_task tasks[2];
    double least[2]; /* nanoseconds */
} sides[] = {{"16 bytes", 1, {{low, 16}}, {NG_SLAVE_INIT}, {NG_TASK_INIT}, {1e9, 1e9}},
             {"1 MB", 1, {{low, LONG}}, {NG_SLAVE_INIT}, {NG_TASK_INIT}, {1e9, 1e9}},
             {"two of 1 MB", 2, {{low, LONG}, {high, LONG}}, {NG_SLAVE_INIT}, {NG_TASK_INIT},
              {1e9, 1e9}}};

static void want(bool holds, const char *what) {
    if (holds) return;
    fprintf(stderr, "memory: %s\n", what);
    exit(1);
}

static size_t take_page(ng_slave *slave) {
    size_t len = 0;
    want(ng_slave_peek(slave, page, sizeof page, &len) == NG_OK, "peek");
    want(ng_slave_sent(slave) == NG_OK, "sent");
    return len;
}

static void ask(ng_slave *slave, const uint8_t *packet, uint8_t len) {
    uint8_t frame[64] = {len};
    static const ng_memory none = NG_NOT_THERE;
    size_t taken;
    memcpy(frame + 4, packet, len);
    want(ng_slave_datagram(slave, frame, 4u + len, 0, &none, 0, &taken) == NG_OK, "datagram");
    want(take_page(slave) > 4 && page[4] == 0xFF, "a command is accepted");
}

#define ASK(slave, ...) ask(slave, (const uint8_t[]){__VA_ARGS__}, sizeof(const uint8_t[]){__VA_ARGS__})

static void open_slave(struct side *side, unsigned which) {
    static const ng_profile profile = {.ticks = 1, .unit = 3, .stamp_size = 4, .max_cto = 64,
                                       .max_dto = 64};
    static const ng_event event = {.capacity = TRIGGERS * RECORD};
    ng_slave *slave = &side->slaves[which];
    ng_segment segments[2] = {{0, 0, side->memory[0].len, 1}, {1, 0, side->memory[1].len, 1}};
    want(ng_slave_open(&profile, segments, side->count, &event, 1, low, 0, slave) == NG_OK
             && ng_slave_task(slave, 0, &side->tasks[which]) == NG_OK, "open");
    ASK(slave, 0xFF, 0);
    ASK(slave, 0xD5, 0, 1, 0);
    ASK(slave, 0xD4, 0, 0, 0, 1);
    ASK(slave, 0xD3, 0, 0, 0, 0, 1);
    ASK(slave, 0xE2, 0, 0, 0, 0, 0);
    ASK(slave, 0xE1, 0xFF, 2, (uint8_t)(side->count - 1), 0, 0, 0, 0);
    ASK(slave, 0xE0, 0, 0, 0, 0, 0, which == 0 ? 1 : 255, 0);
    ASK(slave, 0xDE, 1, 0, 0);
}

static double now(void) {
    struct timespec at;
    clock_gettime(CLOCK_MONOTONIC, &at);
    return 1e9 * (double)at.tv_sec + (double)at.tv_nsec;
}

/* So many triggers, of which each is due, or none is. */
static double triggers(struct side *side, unsigned which, unsigned count) {
    ng_taken taken;
    unsigned due = 0;
    double start = now();
    for (unsigned k = 0; k < count; k++) {
        ng_task_trigger(&side->tasks[which], side->memory, side->count, k, &taken);
        due += taken.accepted;
    }
    start = now() - start;
    want(due == (which == 0 ? count : 0), "samples");
    return start;
}

static void measure(struct side *side, unsigned which) {
    unsigned count = which == 0 ? TRIGGERS : 254;
    double all = 0;
    ng_taken taken;
    for (unsigned round = 0; round < ROUNDS; round++) {
        if (which == 1) ng_task_trigger(&side->tasks[1], side->memory, side->count, 0, &taken);
        all += triggers(side, which, count);
        while (take_page(&side->slaves[which]) > 0) {}
    }
    all /= (double)ROUNDS * count;
    if (all < side->least[which]) side->least[which] = all;
}

int main(void) {
    for (unsigned s = 0; s < 3; s++)
        for (unsigned which = 0; which < 2; which++) open_slave(&sides[s], which);
    for (unsigned k = 0; k < MEASUREMENTS; k++)
        for (unsigned s = 0; s < 3; s++)
            for (unsigned which = 0; which < 2; which++) measure(&sides[s], which);
    for (unsigned s = 0; s < 3; s++)
        printf("%s: due %.0f, not due %.0f\n", sides[s].name, 10 * sides[s].least[0],
               10 * sides[s].least[1]);
}
