/* A master of a slave in the same thread, for tests that roll what it does. What the slave sends is
 * read as a master reads it: CTR rises by one, each command has its reply, in order, no packet of a
 * list stands outside of a run, and each sample is whole. Each packet of a list has the number that
 * stands in memory. The test defines LISTS before, the number of DAQ lists, and take. */
#ifndef MASTER_H
#define MASTER_H

#include "nerthogal.h"
#include <stdio.h>
#include <stdlib.h>
#include <string.h>

/* No segment is there to be read without a DAQ list; no A2L file. */
static const ng_memory not_there = NG_NOT_THERE;
#define NO_MEMORY &not_there, 0
#define NO_A2L (const uint8_t *)"", 0

#define PAGE 9000 /* more than ever waits: samples of 8192 bytes, and 16 replies */
#define ALL 0xFFFFu

/* In so many looks all that waits is shown, though more is taken meanwhile. */
#define LOOKS 8

static unsigned seed;

static void want(bool holds, const char *what) {
    if (holds) return;
    printf("FAILED, with seed %u: %s\n", seed, what);
    exit(1);
}

static unsigned roll(unsigned sides) { return (unsigned)rand() / 7u % sides; }

/* ---- what the slave sends */

/* The DAQ lists. */
struct shape {
    unsigned channel, odts, prescaler;
};
static struct shape shapes[LISTS];

/* What the master sent that wasn't answered yet: lists that it starts or stops, or the clock. */
struct command {
    enum { OTHER, START, STOP, GET_CLOCK } kind;
    uint32_t value;
};
static struct command asked[64];
static unsigned waiting;

static uint16_t counter;
static bool refused;           /* the last start, with ERR_CMD_BUSY */
static unsigned running;       /* the lists, by the replies */
static uint32_t starts[LISTS]; /* how often each was started, where it didn't run */
static bool has_rest;          /* of a sample of two packets: the second's PID and number */
static unsigned rest_pid;
static uint32_t rest_number;

/* A sample of a list was sent, of memory with this number, marked by an overload or not. */
static void take(unsigned l, uint32_t number, bool marked);

static uint32_t number_in(const uint8_t *bytes) {
    return bytes[0] | (uint32_t)bytes[1] << 8 | (uint32_t)bytes[2] << 16 | (uint32_t)bytes[3] << 24;
}

static void look_at_reply(const uint8_t *packet, unsigned len) {
    struct command command = asked[0];
    want(waiting > 0, "a reply for each command");
    want(!has_rest, "a sample is whole");
    waiting--;
    memmove(asked, asked + 1, waiting * sizeof *asked);
    if (command.kind == START) {
        refused = packet[0] == 0xFE && packet[1] == 0x10;
        if (refused) return;
        for (unsigned l = 0; l < LISTS; l++) starts[l] += (command.value & ~running) >> l & 1u;
        running |= command.value;
    }
    want(packet[0] == 0xFF, "a positive reply");
    if (command.kind == STOP) running &= ~command.value;
    if (command.kind == GET_CLOCK)
        want(len == 8 && number_in(packet + 4) == command.value, "the clock");
}

static void look_at_sample(const uint8_t *packet, unsigned len) {
    unsigned odt = packet[0] & 0x7Fu, l = 0;
    want(len == 5, "a packet of a list");
    uint32_t number = number_in(packet + 1);
    if (has_rest) {
        want(packet[0] == rest_pid && number == rest_number, "a sample is whole");
        has_rest = false;
        return;
    }
    while (l < LISTS && odt >= shapes[l].odts) odt -= shapes[l++].odts;
    want(l < LISTS && odt == 0, "the first packet of a list");
    want(running >> l & 1u, "it stands behind its list's start, and before its stop");
    take(l, number, packet[0] >= 0x80);
    has_rest = shapes[l].odts == 2;
    rest_pid = (packet[0] & 0x7Fu) + 1;
    rest_number = number;
}

static uint8_t page[PAGE];

/* How much of the page was shown before, and not sent. */
static size_t shown;

/* Shows what waits, which begins with what was shown before. */
static size_t look(ng_slave *slave) {
    static uint8_t before[PAGE];
    size_t len = 0;
    memcpy(before, page, shown);
    want(ng_slave_peek(slave, page, PAGE, &len) == NG_OK, "peek");
    want(len >= shown && memcmp(before, page, shown) == 0, "what was not sent is shown again");
    shown = len;
    return len;
}

/* Sends what waits. Answers whether anything did. */
static bool send(ng_slave *slave) {
    size_t len = look(slave);
    want(ng_slave_sent(slave) == NG_OK, "sent");
    shown = 0;
    for (size_t at = 0; at < len; at += 4u + page[at]) {
        const uint8_t *frame = page + at;
        want(frame[0] > 0 && frame[1] == 0 && at + 4 + frame[0] <= len, "whole frames");
        want((frame[2] | frame[3] << 8) == counter, "CTR rises by one");
        counter++;
        if (frame[4] >= 0xFE) look_at_reply(frame + 4, frame[0]);
        else look_at_sample(frame + 4, frame[0]);
    }
    want(!has_rest, "a sample is whole");
    return len > 0;
}

/* Sends until all replies came. */
static void settle(ng_slave *slave) {
    for (unsigned k = 0; k < LOOKS && waiting > 0; k++) send(slave);
    want(waiting == 0, "a reply for each command");
}

/* ---- what the master sends */

static uint32_t clock_now;

/* The slave hears a packet of up to 8 bytes. If there is no room for one more reply, what waits is
 * sent first. */
static void ask(ng_slave *slave, const uint8_t *packet, uint8_t len, int kind, uint32_t value) {
    uint8_t frame[12] = {len, 0, 0, 0};
    size_t taken = 0;
    memcpy(frame + 4, packet, len);
    for (unsigned k = 0; k < LOOKS && taken == 0; k++) {
        want(ng_slave_receive(slave, frame, 4u + len, clock_now, NO_MEMORY, &taken) == NG_OK, "receive");
        if (taken == 0) send(slave);
    }
    want(taken == 4u + len, "a command finds room");
    asked[waiting].kind = kind;
    asked[waiting++].value = value;
}

#define ASK(slave, kind, value, ...)                                                             \
    do {                                                                                         \
        const uint8_t packet[] = {__VA_ARGS__};                                                  \
        ask(slave, packet, sizeof packet, kind, value);                                          \
    } while (0)

/* Sets the lists up, where none is set up. */
static void set_up_lists(ng_slave *slave) {
    ASK(slave, OTHER, 0, 0xD5, 0, LISTS, 0);
    for (uint8_t l = 0; l < LISTS; l++)
        ASK(slave, OTHER, 0, 0xD4, 0, l, 0, (uint8_t)shapes[l].odts);
    for (uint8_t l = 0; l < LISTS; l++)
        for (uint8_t odt = 0; odt < shapes[l].odts; odt++)
            ASK(slave, OTHER, 0, 0xD3, 0, l, 0, odt, 1);
    for (uint8_t l = 0; l < LISTS; l++) {
        for (uint8_t odt = 0; odt < shapes[l].odts; odt++) {
            ASK(slave, OTHER, 0, 0xE2, 0, l, 0, odt, 0);
            ASK(slave, OTHER, 0, 0xE1, 0xFF, 4, 0, 0, 0, 0, 0);
        }
        ASK(slave, OTHER, 0, 0xE0, 0, l, 0, (uint8_t)shapes[l].channel, 0,
            (uint8_t)shapes[l].prescaler, 0);
    }
    settle(slave);
}

static void stop_one(ng_slave *slave, uint8_t l) { ASK(slave, STOP, 1u << l, 0xDE, 0, l, 0); }

/* How often something waited for a master that was lost. */
static unsigned long thrown;

/* The master is lost. What waits for it never comes, shown or not, so its commands aren't answered,
 * and the CTR that comes next is the one behind that of the last frame that was read. */
static void lose(ng_slave *slave) {
    thrown += look(slave) > 0;
    want(ng_slave_hang_up(slave) == NG_OK, "hang up");
    waiting = running = 0;
    shown = 0;
    want(look(slave) == 0, "what waited is thrown away");
}

/* ---- the slave */

/* Opens a slave of two event channels, whose rings have so many bytes, and of a segment of four
 * bytes. Nothing was sent so far. In a ring a sample of a list takes 32 bytes, or 40 if it has two
 * packets, and a stop takes 8. */
static void open_with(size_t cap, size_t other, ng_slave *slave) {
    ng_profile profile = {
        .id = NG_ABSOLUTE, .ticks = 1, .unit = 3, .stamp_size = 4, .max_cto = 64, .max_dto = 64,
        .name = ""};
    ng_segment segment = {.len = 4, .events = 3};
    ng_event events[2] = {{.name = "e0"}, {.name = "e1"}};
    events[0].capacity = cap;
    events[1].capacity = other;
    want(ng_slave_open(&profile, &segment, 1, events, 2, NO_A2L, slave) == NG_OK, "open");
    counter = 0;
    waiting = running = 0;
    shown = 0;
    has_rest = false;
}

#endif
