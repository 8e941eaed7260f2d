/* Goes through each call of a slave and of its tasks, and each status that can be met. Prints a
 * line for each part; ends with status 1 at the first answer that isn't the one wanted. Frames are
 * written out by hand: LEN and CTR, least significant byte first, and then the packet. */
#include "memory.h"
#include "nerthogal.h"
#include <stdio.h>
#include <stdlib.h>
#include <string.h>

/* No segment is there to be read without a DAQ list; no A2L file. */
static const ng_memory not_there = NG_NOT_THERE;
#define NO_MEMORY &not_there, 0
#define NO_A2L (const uint8_t *)"", 0

#define UNWRITTEN 0xA5u
#define CLOCK 0x01020304u
#define LEN(table) (sizeof(table) / sizeof(table)[0])

static const char *part = "";

static void want(bool holds, const char *what) {
    if (holds) return;
    printf("%s: FAILED: %s\n", part, what);
    exit(1);
}

static void begin(const char *name) { part = name; }

static void end(void) { printf("%s: ok\n", part); }

/* The bytes of a text in hexadecimal. */
static size_t unhex(const char *text, uint8_t *bytes) {
    size_t len = strlen(text) / 2;
    for (size_t i = 0; i < len; i++) {
        unsigned byte = 0;
        sscanf(text + 2 * i, "%2x", &byte);
        bytes[i] = (uint8_t)byte;
    }
    return len;
}

/* An identification field of one byte, and timestamps of four bytes in microseconds. */
static ng_profile profile_of(void) {
    ng_profile profile = {
        .id = NG_ABSOLUTE, .ticks = 1, .unit = 3, .stamp_size = 4, .max_cto = 64, .max_dto = 64,
        .name = "ng"};
    return profile;
}

/* An event channel of 1 ms whose ring has room for four samples of one frame of 9 to 16 bytes: each
 * takes 16 bytes and its frame, filled up to a multiple of 8. */
static ng_event event_of(const char *name) {
    ng_event event = {.capacity = 4 * 32, .cycle = 1, .cycle_unit = 6};
    memcpy(event.name, name, strlen(name));
    return event;
}

/* A segment of addresses from 0 on, that each of so many event channels may read. */
static ng_segment segment_of(size_t len, size_t channels) {
    ng_segment segment = {.len = len, .events = (uint16_t)((1u << channels) - 1)};
    return segment;
}

/* A slave of one event channel, or of two, and of one segment of two bytes. */
static ng_slave open_slave(size_t channels) {
    ng_profile profile = profile_of();
    ng_segment segment = segment_of(2, channels);
    ng_event events[2] = {event_of("e0"), event_of("e1")};
    ng_slave slave = NG_SLAVE_INIT;
    want(ng_slave_open(&profile, &segment, 1, events, channels, NO_A2L, &slave) == NG_OK, "open");
    return slave;
}

static ng_task task_of(ng_slave *slave, uint16_t channel) {
    ng_task task = NG_TASK_INIT;
    want(ng_slave_task(slave, channel, &task) == NG_OK, "task");
    return task;
}

/* How a slave hears frames of its master: from a stream, whole or in pieces, or in datagrams. */
static enum { STREAM, PIECES, DATAGRAMS } way = STREAM;

/* The bytes of a piece. */
static size_t piece = 1;

/* With so many segments, to be read without a DAQ list. */
static void hear_with(ng_slave *slave, const char *frames, const ng_memory *memory, size_t count) {
    static uint8_t bytes[1024];
    size_t len = unhex(frames, bytes), taken = 77, step;
    if (way == DATAGRAMS) {
        want(ng_slave_datagram(slave, bytes, len, CLOCK, memory, count, &taken) == NG_OK, frames);
        want(taken == len, frames);
        return;
    }
    for (size_t at = 0; at < len; at += step) {
        step = way == PIECES && piece < len - at ? piece : len - at;
        taken = 77;
        want(ng_slave_receive(slave, bytes + at, step, CLOCK, memory, count, &taken) == NG_OK, frames);
        want(taken == step, frames);
    }
}

static void hear(ng_slave *slave, const char *frames) { hear_with(slave, frames, NO_MEMORY); }

static uint8_t buffer[9000]; /* more than ever waits */

/* Wants these frames to wait, and behind them nothing written. */
static void shows(ng_slave *slave, const char *frames) {
    static uint8_t bytes[sizeof buffer];
    size_t len = 77;
    memset(buffer, UNWRITTEN, sizeof buffer);
    memset(bytes, UNWRITTEN, sizeof bytes);
    unsigned long asked = memory_asked;
    want(ng_slave_peek(slave, buffer, sizeof buffer, &len) == NG_OK, "peek");
    want(asked == memory_asked, "no memory is asked for");
    want(len == unhex(frames, bytes) && memcmp(buffer, bytes, sizeof buffer) == 0, frames);
}

/* The same, and sends them. */
static void sends(ng_slave *slave, const char *frames) {
    shows(slave, frames);
    want(ng_slave_sent(slave) == NG_OK, "sent");
}

/* A trigger with so many segments. */
static void trigger_with(ng_task *task, const ng_memory *memory, size_t count, unsigned due,
                         unsigned accepted) {
    ng_taken taken = {0x5555, 0x5555, 0x5555};
    unsigned long asked = memory_asked, held = memory_held;
    want(ng_task_trigger(task, memory, count, 0, &taken) == NG_OK, "trigger");
    want(asked == memory_asked && held == memory_held, "no memory is asked for or given back");
    want(taken.due == due && taken.accepted == accepted && taken.dropped == (due & ~accepted),
         "what the trigger did");
}

/* A trigger with the bytes of one segment. */
static void trigger(ng_task *task, const char *segment, unsigned due, unsigned accepted) {
    uint8_t bytes[2] = {0};
    ng_memory memory = {bytes, unhex(segment, bytes)};
    trigger_with(task, &memory, 1, due, accepted);
}

/* A trigger whose memory is wrong. */
static void wrong_memory(ng_task *task, const ng_memory *memory, size_t count, const char *what) {
    ng_taken taken = {1, 2, 3};
    want(ng_task_trigger(task, memory, count, 0, &taken) == NG_WRONG_MEMORY, what);
    want(taken.due == 1 && taken.accepted == 2 && taken.dropped == 3, "nothing is written");
}

static ng_line lines[NG_MAX_LISTS + 1];
static ng_measurements each;

/* What a slave is about. */
static void is_about(ng_slave *slave, bool connected, bool measuring, size_t waiting) {
    ng_slave_state state = {!connected, !measuring, waiting + 1};
    want(ng_slave_status(slave, &state) == NG_OK, "status");
    want(state.connected == connected && state.measuring == measuring, "connected, measuring");
    want(state.waiting == waiting, "how many bytes wait");
}

/* The accounts of the last measurements, and of those before, add up to the line of a list. */
static void adds_up(const ng_line *line) {
    size_t l = line->list;
    uint64_t due = each.older.lines[l].due, written = each.older.lines[l].written;
    for (size_t k = 0; k < each.count; k++) {
        due += each.last[k].lines[l].due;
        written += each.last[k].lines[l].written;
    }
    want(due == line->due && written == line->written, "the measurements add up");
}

/* Closes a slave, and wants these lines, of zeros for the other lists. */
static void close_with(ng_slave *slave, const ng_line *account, size_t count) {
    bool whole = false;
    memset(lines, UNWRITTEN, sizeof lines);
    want(ng_slave_close(slave, lines, LEN(lines), &whole, &each) == NG_OK, "close");
    want(whole, "the account is whole");
    for (size_t l = 0; l < NG_MAX_LISTS; l++) {
        ng_line zeros = {(uint8_t)l, 0, 0, 0, 0};
        ng_line wanted = l < count ? account[l] : zeros;
        want(lines[l].list == l && lines[l].due == wanted.due, "due");
        want(lines[l].written == wanted.written && lines[l].dropped == wanted.dropped
                 && lines[l].left == wanted.left, "written, dropped, left");
        adds_up(&lines[l]);
    }
    want(lines[NG_MAX_LISTS].due == 0xA5A5A5A5A5A5A5A5u, "behind the account nothing is written");
    want(ng_slave_close(slave, lines, LEN(lines), &whole, &each) == NG_EMPTY, "it is empty then");
}

static void finish(ng_task *task) {
    want(ng_task_finish(task) == NG_OK && ng_task_finish(task) == NG_EMPTY, "finish");
}

/* Changes one thing of a profile, of an event channel, or of two segments that touch, so that it is
 * out of a limit. */
static void spoil(unsigned k, ng_profile *p, ng_event *e, ng_segment *s) {
    switch (k) {
    case 0: s[0].len = 0; break;
    case 1: s[1].len = 0x100000001u; break;
    case 2: p->id = 3; break;
    case 3: e->capacity = NG_MIN_FRAME_RING - 8; break;
    case 4: p->ticks = 0; break;
    case 5: p->unit = 10; break;
    case 6: p->stamp_size = 3; break;
    case 7: p->stamp_size = 0; break;
    case 8: s[1].base = 0xFFFFFFFFu; break;
    case 9: memset(p->name, 'n', sizeof p->name); break;
    case 10: p->name[0] = 0x1F; break;
    case 11: p->name[0] = 0x7F; break;
    case 12: e->capacity = 0; break;
    case 13: e->capacity = NG_MAX_FRAME_RING + 8; break;
    case 14: e->capacity = SIZE_MAX; break;
    case 15: memset(e->name, 'n', sizeof e->name); break;
    case 16: e->name[1] = '\n'; break;
    case 17: e->cycle_unit = 10; break;
    case 18: e->capacity = NG_MIN_FRAME_RING - 1; break;
    case 19: p->id = UINT32_MAX; break;
    case 20: memset(p->a2l_name, 'n', sizeof p->a2l_name); break;
    case 21: memset(p->epk, 'n', sizeof p->epk); break;
    case 22: p->epk[0] = 0x7F; break;
    case 23: s[1].base = 1; break;        /* a byte is of both */
    case 24: s[1].base = 0; break;        /* all are */
    case 25: s[0].extension = 1; break;   /* the other order */
    case 26: s[0].events = 4; break;      /* event channel 2 */
    case 27: p->max_cto = 7; break;
    case 28: p->max_cto = 0; break;
    case 29: p->max_cto = 9; break;       /* the reply with the name has 10 bytes */
    case 30: e->capacity = NG_MIN_FRAME_RING + 4; break;
    case 31: e->capacity = SIZE_MAX - 7; break; /* a multiple of 8 */
    case 32: p->max_dto = 7; break;
    case 33: p->max_dto = 8193; break;
    case 34: p->max_dto = 0; break;
    default: s[1].events = 0x8001; break; /* event channel 15 */
    }
}

static void openings(void) {
    ng_profile good = profile_of();
    ng_event events[17] = {event_of("e0")};
    ng_segment segments[17];
    ng_slave slave = NG_SLAVE_INIT;
    begin("openings");
    for (size_t c = 1; c < 17; c++) events[c] = event_of("e1");
    for (unsigned k = 0; k < 36; k++) {
        ng_profile p = good;
        ng_event e = event_of("e0");
        ng_segment s[2] = {segment_of(2, 2), segment_of(2, 1)};
        s[1].base = 2;
        spoil(k, &p, &e, s);
        events[1] = e;
        want(ng_slave_open(&p, s, 2, events, 2, NO_A2L, &slave) == NG_BAD_LIMITS, "out of a limit");
        want(!slave.full, "nothing is made");
    }
    events[1] = event_of("");
    for (size_t i = 0; i < 17; i++) {
        segments[i] = segment_of(i % 2 == 0 ? 2 : 0xFFFFFFFEu, 8);
        segments[i].extension = (uint8_t)(i / 2 * 36);
        segments[i].base = (uint32_t)(i % 2 * 2);
    }
    want(ng_slave_open(&good, segments, 1, events, 0, NO_A2L, &slave) == NG_BAD_LIMITS, "no event channel");
    want(ng_slave_open(&good, segments, 1, events, 17, NO_A2L, &slave) == NG_BAD_LIMITS, "too many");
    want(ng_slave_open(&good, segments, 0, events, 8, NO_A2L, &slave) == NG_BAD_LIMITS, "no segment");
    want(ng_slave_open(&good, segments, 17, events, 8, NO_A2L, &slave) == NG_BAD_LIMITS, "seventeen");
    memset(good.name, 'n', NG_MAX_NAME);
    memset(good.a2l_name, 'a', NG_MAX_NAME);
    memset(good.epk, 'e', NG_MAX_NAME);
    want(ng_slave_open(&good, segments, 16, events, 16, NO_A2L, &slave) == NG_OK, "sixteen of each");
    want(ng_slave_open(&good, segments, 17, events, 17, NO_A2L, &slave) == NG_IN_USE, "it is in use");
    close_with(&slave, NULL, 0);
    end();
}

static void empty_handles(void) {
    ng_slave slave = NG_SLAVE_INIT;
    ng_task task = NG_TASK_INIT;
    size_t len = 77;
    bool whole = true;
    ng_taken taken = {1, 2, 3};
    ng_slave_state state = {true, true, 77};
    begin("empty handles");
    want(ng_slave_task(&slave, 0, &task) == NG_EMPTY, "task");
    want(ng_slave_receive(&slave, buffer, 0, 0, NO_MEMORY, &len) == NG_EMPTY, "receive");
    want(ng_slave_datagram(&slave, buffer, 0, 0, NO_MEMORY, &len) == NG_EMPTY, "datagram");
    want(ng_slave_hang_up(&slave) == NG_EMPTY, "hang_up");
    want(ng_slave_peek(&slave, buffer, 0, &len) == NG_EMPTY, "peek");
    want(ng_slave_sent(&slave) == NG_EMPTY, "sent");
    want(ng_slave_status(&slave, &state) == NG_EMPTY, "status");
    want(ng_slave_close(&slave, lines, 0, &whole, &each) == NG_EMPTY, "close");
    want(ng_task_trigger(&task, NO_MEMORY, 0, &taken) == NG_EMPTY, "trigger");
    want(ng_task_finish(&task) == NG_EMPTY, "finish");
    want(len == 77 && whole && taken.due == 1 && taken.dropped == 3, "nothing is written");
    want(state.connected && state.measuring && state.waiting == 77, "nothing is written");
    end();
}

/* A worked session: what the master sends, what waits then at the slave, and is sent. */
static const struct {
    const char *master, *slave;
} connecting[] = {
    {"01000000fd", ""},
    {"02000100ff00", "08000000ff04804040000101"},
    {"02000200ff01", "02000100fe22"},
    {"01000300fd", "06000200ff0000000000"},
    {"01000400fc", "02000300fe00"},
    {"02000500fa00", "0a000400ff010000020000006e67"},
    {"01000600da", "08000500ff53000001000000"},
    {"01000700d9", "08000600ff013f0100340100"},
    {"02000800f501", "02000700fe29"},
    {"04000900d7000000", "07000800ff441002010600"},
    {"02000a00f502", "03000900ff6530"},
    {"02000b00f501", "02000a00fe22"},
    {"04000c00d7000100", "02000b00fe22"},
    {"01000d00dc", "08000c00ff00000004030201"},
    {"01000e00d6", "01000d00ff"},
    {"04000f00d5000100", "01000e00ff"},
    {"05001000d400000001", "01000f00ff"},
    {"06001100d30000000001", "01001000ff"},
    {"06001200e20000000000", "01001100ff"},
    {"08001300e1ff020000000000", "01001200ff"},
    {"08001400e000000000000100", "01001300ff"},
    {"04001500df000000", "08001400ff00000000000100"},
    {"04001600de010000", "02001500ff00"},
};

static void session(void) {
    static const ng_line account[] = {{0, 4, 3, 0, 1}};
    ng_slave slave = open_slave(1);
    ng_task task = task_of(&slave, 0);
    trigger(&task, "", 0, 0);
    for (size_t k = 0; k < LEN(connecting); k++) {
        hear(&slave, connecting[k].master);
        sends(&slave, connecting[k].slave);
    }
    trigger(&task, "aabb", 1, 1);
    sends(&slave, "0300160000aabb");
    hear(&slave, "01001700fd");
    sends(&slave, "06001700ff4000000000");
    trigger(&task, "ccdd", 1, 1);
    hear(&slave, "04001800de000000");
    sends(&slave, "02001800ff00");
    hear(&slave, "04001900de010000");
    trigger(&task, "eeff", 1, 1);
    shows(&slave, "02001900ff00" "03001a0000eeff");
    sends(&slave, "02001900ff00" "03001a0000eeff");
    sends(&slave, "");
    for (unsigned k = 0; k < 4; k++) {
        hear(&slave, "04001a00de000000");
        hear(&slave, "04001b00de010000");
    }
    sends(&slave, "02001b00ff00" "02001c00ff00" "02001d00ff00" "02001e00ff00"
                  "02001f00ff00" "02002000ff00" "02002100ff00" "02002200ff00");
    trigger(&task, "1122", 1, 1);
    sends(&slave, "03002300001122");
    hear(&slave, "01001c00fe");
    sends(&slave, "01002400ff");
    hear(&slave, "01001d00fd");
    sends(&slave, "");
    trigger(&task, "3344", 0, 0);
    finish(&task);
    close_with(&slave, account, 1);
}

/* A master that reads without a DAQ list: memory as it is handed in with each packet, and texts. */
static void reading(void) {
    static const uint8_t first[3] = {0xAB, 0xCD, 0xEF}, second[2] = {0x12, 0x34};
    static const char told[] = "an A2L file, of more bytes than one reply has, which are sixty-three";
    static const ng_memory one = {first, 1}, two = {first, 2}, three = {first, 3}, other = {second, 2};
    ng_profile profile = profile_of();
    ng_segment segment = segment_of(2, 1);
    ng_event event = event_of("e0");
    ng_slave slave = NG_SLAVE_INIT;
    char a2l[sizeof told];
    memcpy(a2l, told, sizeof told);
    memcpy(profile.a2l_name, "file", 4);
    memcpy(profile.epk, "v1", 2);
    want(ng_slave_open(&profile, &segment, 1, &event, 1, (const uint8_t *)a2l, sizeof a2l, &slave)
             == NG_OK, "open");
    memset(a2l, 0, sizeof a2l); /* the slave has a copy */
    hear(&slave, "02000000ff00" "02000000fa01" "02000000f504" "02000000fa05" "02000000f502");
    sends(&slave, "08000000ff04804040000101" "08000100ff00000004000000" "05000200ff66696c65"
                  "08000300ff00000002000000" "03000400ff7631");
    hear(&slave, "02000000fa04" "02000000f53f" "02000000f506");
    sends(&slave, "08000500ff00000045000000"
                  "40000600ff616e2041324c2066696c652c206f66206d6f726520627974657320"
                  "7468616e206f6e65207265706c79206861732c20776869636820617265207369"
                  "7874792d"
                  "07000700ff746872656500");
    /* each packet reads what was handed in with it; of another length, or none, it isn't there */
    hear_with(&slave, "08000000f402000000000000", &two, 1);
    hear_with(&slave, "08000000f600000000000000" "02000000f501", &two, 1);
    hear_with(&slave, "02000000f501", &other, 1);
    hear_with(&slave, "02000000f501", &other, 1);
    sends(&slave, "03000800ffabcd" "01000900ff" "02000a00ffab" "02000b00ff34" "02000c00fe22");
    hear_with(&slave, "08000000f401000000000000", &three, 1);
    hear_with(&slave, "08000000f401000000000000", &one, 1);
    hear(&slave, "08000000f401000000000000" "01000000fe");
    sends(&slave, "02000d00fe24" "02000e00fe24" "02000f00fe24" "01001000ff");
    close_with(&slave, NULL, 0);
}

static void readings(void) {
    begin("reading without a DAQ list, by a stream");
    reading();
    end();
    begin("that byte by byte");
    way = PIECES;
    reading();
    end();
    begin("that by datagrams");
    way = DATAGRAMS;
    reading();
    way = STREAM;
    end();
}

static void sessions(void) {
    begin("a worked session, by a stream");
    session();
    end();
    begin("the same, byte by byte");
    way = PIECES;
    session();
    end();
    begin("the same, by datagrams");
    way = DATAGRAMS;
    session();
    way = STREAM;
    end();
}

/* The tasks are those of their event channels, whichever is handed out first. */
static void two_channels(void) {
    static const ng_line account[] = {{0, 1, 1, 0, 0}, {1, 2, 2, 0, 0}};
    begin("two event channels, and their tasks");
    for (unsigned k = 0; k < 2; k++) {
        ng_slave slave = open_slave(2);
        ng_task tasks[2] = {NG_TASK_INIT, NG_TASK_INIT}, more = NG_TASK_INIT;
        uint16_t first = (uint16_t)k, second = (uint16_t)(1 - k);
        want(ng_slave_task(&slave, 2, &more) == NG_BAD_LIMITS, "no event channel 2");
        want(ng_slave_task(&slave, UINT16_MAX, &more) == NG_BAD_LIMITS, "nor 65535");
        tasks[first] = task_of(&slave, first);
        want(ng_slave_task(&slave, first, &more) == NG_NO_TASK && !more.full, "once");
        want(ng_slave_task(&slave, second, &tasks[first]) == NG_IN_USE, "it is in use");
        tasks[second] = task_of(&slave, second);
        hear(&slave, "02000000ff00" "04000000d5000200" "05000000d400000001" "05000000d400010001"
                     "06000000d30000000001" "06000000d30001000001");
        hear(&slave, "06000000e20000000000" "08000000e1ff010000000000" "08000000e000000000000100"
                     "06000000e20001000000" "08000000e1ff010001000000" "08000000e000010001000100");
        sends(&slave, "08000000ff04804040000101" "01000100ff" "01000200ff" "01000300ff"
                      "01000400ff" "01000500ff" "01000600ff" "01000700ff" "01000800ff"
                      "01000900ff" "01000a00ff" "01000b00ff");
        hear(&slave, "04000000de020000" "04000000de020100" "02000000dd01");
        sends(&slave, "02000c00ff00" "02000d00ff01" "01000e00ff");
        trigger(&tasks[1], "a1a2", 2, 2);
        sends(&slave, "02000f0001a2");
        trigger(&tasks[0], "b1b2", 1, 1);
        sends(&slave, "0200100000b1");
        trigger(&tasks[1], "c1c2", 2, 2);
        sends(&slave, "0200110001c2");
        finish(&tasks[0]);
        finish(&tasks[1]);
        close_with(&slave, account, 2);
    }
    end();
}

/* Three segments: one that both event channels may read, one behind it for event channel 0 alone,
 * and one of another extension for event channel 1 alone. */
static const ng_segment segments_of_tasks[3] = {{0, 0x1000, 4, 3}, {0, 0x1004, 4, 1}, {1, 0x1000, 2, 2}};

static const uint8_t common[4] = {0x10, 0x11, 0x12, 0x13}, fast[4] = {0x20, 0x21, 0x22, 0x23},
                     slow[2] = {0x30, 0x31};

static ng_slave open_segments(void) {
    ng_profile profile = profile_of();
    ng_event events[2] = {event_of("e0"), event_of("e1")};
    ng_slave slave = NG_SLAVE_INIT;
    want(ng_slave_open(&profile, segments_of_tasks, 3, events, 2, NO_A2L, &slave) == NG_OK, "open");
    return slave;
}

/* Two DAQ lists: one of variables of the first two segments, and one of the first and the last. What
 * lies in no segment, or in two, or is another event channel's, is refused. */
static void set_up_segments(ng_slave *slave) {
    hear(slave, "02000000ff00" "04000000d5000200" "05000000d400000001" "05000000d400010001"
                "06000000d30000000003" "06000000d30001000002" "06000000e20000000000");
    sends(slave, "08000000ff04804040000101" "01000100ff" "01000200ff" "01000300ff" "01000400ff"
                 "01000500ff" "01000600ff");
    hear(slave, "08000000e1ff020003100000" "08000000e1ff010108100000" "08000000e1ff010102100000"
                "08000000e1ff010200100000" "08000000e1ff020002100000" "08000000e1ff010004100000"
                "08000000e1ff020006100000" "06000000e20001000000" "08000000e1ff010000100000"
                "08000000e1ff010101100000");
    sends(slave, "02000700fe22" "02000800fe22" "02000900fe22" "02000a00fe22" "01000b00ff"
                 "01000c00ff" "01000d00ff" "01000e00ff" "01000f00ff" "01001000ff");
    hear(slave, "06000000e20001000001" "01000000db" "08000000e000000001000100"
                "08000000e000010001000100" "04000000de010000" "08000000e000000000000100"
                "04000000de010100" "04000000de010000");
    sends(slave, "01001100ff" "08001200ffff010101100000" "01001300ff" "01001400ff" "02001500fe2a"
                 "01001600ff" "02001700ff01" "02001800ff00");
}

/* A part that an event channel may read is there in its length, and what it reads is what stands
 * there; of the others it knows nothing. */
static void trigger_segments(ng_slave *slave, ng_task *tasks) {
    ng_memory first[3] = {{common, 4}, {fast, 4}, NG_NOT_THERE};
    ng_memory second[4] = {{common, 4}, NG_NOT_THERE, {slow, 2}, NG_NOT_THERE};
    trigger_with(&tasks[0], first, 3, 1, 1);
    sends(slave, "06001900001213202223");
    trigger_with(&tasks[1], second, 3, 2, 2);
    sends(slave, "03001a00011031");
    for (size_t count = 0; count < 5; count++)
        if (count != 3) wrong_memory(&tasks[1], second, count, "not a part for each segment");
    for (size_t len = 0; len < 4; len++) {
        first[1] = (ng_memory){len == 0 ? NULL : fast, len};
        wrong_memory(&tasks[0], first, 3, "a part of its own of another length");
        second[1] = first[1];
        trigger_with(&tasks[1], second, 3, 2, 2);
    }
    sends(slave, "03001b00011031" "03001c00011031" "03001d00011031" "03001e00011031");
    first[0] = (ng_memory){slow, 2};
    first[1] = (ng_memory){fast, 4};
    wrong_memory(&tasks[0], first, 3, "a common part of another length");
    second[2] = (ng_memory)NG_NOT_THERE;
    wrong_memory(&tasks[1], second, 3, "no part of its own");
    first[0] = (ng_memory){fast, 4};
    first[1] = (ng_memory){common, 4};
    trigger_with(&tasks[0], first, 3, 1, 1);
    sends(slave, "06001f00002223101213");
}

/* Without a DAQ list all segments are read that are there, but never from one into another. */
static void read_segments(ng_slave *slave) {
    const ng_memory all[3] = {{common, 4}, {fast, 4}, {slow, 2}};
    const ng_memory some[3] = {{NULL, 0}, {fast, 4}, {slow, 1}};
    hear_with(slave, "08000000f402000002100000" "08000000f404000004100000" "08000000f402000100100000"
                     "08000000f402000003100000" "08000000f401000102100000" "08000000f401000200100000",
              all, 3);
    sends(slave, "03002000ff1213" "05002100ff20212223" "03002200ff3031" "02002300fe22"
                 "02002400fe22" "02002500fe22");
    hear_with(slave, "08000000f600000003100000" "02000000f502" "02000000f501" "02000000f502"
                     "02000000f503" "02000000f502" "08000000f600000108100000", all, 3);
    sends(slave, "01002600ff" "02002700fe22" "02002800ff13" "03002900ff2021" "02002a00fe22"
                 "03002b00ff2223" "02002c00fe22");
    hear_with(slave, "08000000f401000000100000" "08000000f401000007100000" "08000000f401000101100000"
                     "08000000f402000003100000", some, 3);
    sends(slave, "02002d00fe24" "02002e00ff23" "02002f00fe24" "02003000fe22");
    hear_with(slave, "08000000f401000000100000" "08000000f401000004100000", all, 1);
    hear(slave, "08000000f401000000100000");
    sends(slave, "02003100ff10" "02003200fe24" "02003300fe24");
}

static void segments(void) {
    static const ng_line account[] = {{0, 2, 2, 0, 0}, {1, 5, 5, 0, 0}};
    ng_slave slave = open_segments();
    ng_task tasks[2] = {task_of(&slave, 0), task_of(&slave, 1)};
    begin("memory in segments, each for some event channels");
    trigger_with(&tasks[0], NO_MEMORY, 0, 0);
    set_up_segments(&slave);
    trigger_segments(&slave, tasks);
    read_segments(&slave);
    finish(&tasks[0]);
    finish(&tasks[1]);
    close_with(&slave, account, 2);
    end();
}

/* CONNECT, GET_STATUS and GET_DAQ_CLOCK, whose replies tell that no list runs, and the clock. */
static const char three[] = "02000000ff00" "01000100fd" "01000200dc";

/* Frames that come in pieces of so many bytes, and one whose bytes come in three calls. */
static void pieces(void) {
    static const size_t lens[] = {1, 2, 3, 16};
    begin("frames in pieces");
    for (size_t k = 0; k < LEN(lens); k++) {
        ng_slave slave = open_slave(1);
        way = PIECES;
        piece = lens[k];
        hear(&slave, three);
        sends(&slave, "08000000ff04804040000101" "06000100ff0000000000" "08000200ff00000004030201");
        hear(&slave, three);
        sends(&slave, "08000300ff04804040000101" "06000400ff0000000000" "08000500ff00000004030201");
        piece = 1;
        way = STREAM;
        hear(&slave, "02000000ff");
        sends(&slave, "");
        hear(&slave, "");
        sends(&slave, "");
        hear(&slave, "000100");
        sends(&slave, "08000600ff04804040000101");
        hear(&slave, "0707fd");
        sends(&slave, "06000700ff0000000000");
        close_with(&slave, NULL, 0);
    }
    end();
}

/* A part of a frame at the end of a datagram, or a bad one, is dropped, and nothing else. */
static void datagrams(void) {
    static const char *const more[] = {"01000400", "", "41000700fd", "", "0100", ""};
    ng_slave slave = open_slave(1);
    begin("datagrams with a part of a frame, or a bad one, at the end");
    way = DATAGRAMS;
    hear(&slave, three);
    sends(&slave, "08000000ff04804040000101" "06000100ff0000000000" "08000200ff00000004030201");
    hear(&slave, "");
    sends(&slave, "");
    for (unsigned k = 0; k < LEN(more); k++) {
        char frames[32], reply[32];
        snprintf(frames, sizeof frames, "01000300fd%s", more[k]);
        snprintf(reply, sizeof reply, "0600%02x00ff0000000000", 3 + k);
        hear(&slave, frames);
        sends(&slave, reply);
        hear(&slave, "00");
        sends(&slave, "");
    }
    way = STREAM;
    close_with(&slave, NULL, 0);
    end();
}

/* Wants the slave to have no master. */
static void hear_nothing(ng_slave *slave) {
    way = DATAGRAMS;
    hear(slave, "01000000fd");
    sends(slave, "");
    way = STREAM;
}

/* A bad frame closes a stream, until the slave hangs up. */
static void bad_frames(void) {
    static const char *const bad[] = {"0000", "4100", "0001", "ffff"};
    begin("a bad frame closes a stream, and drops what is left of a datagram");
    for (size_t k = 0; k < LEN(bad); k++) {
        ng_slave slave = open_slave(1);
        uint8_t bytes[64];
        size_t taken = 77, len = unhex("02000000ff00", bytes);
        len += unhex(bad[k], bytes + len);
        want(ng_slave_receive(&slave, bytes, len, 0, NO_MEMORY, &taken) == NG_BAD_FRAME, "a bad LEN");
        want(taken == 77, "nothing is told");
        sends(&slave, "08000000ff04804040000101");
        want(ng_slave_receive(&slave, bytes, 6, 0, NO_MEMORY, &taken) == NG_BAD_FRAME, "it stays closed");
        want(ng_slave_receive(&slave, bytes, 0, 0, NO_MEMORY, &taken) == NG_BAD_FRAME, "it stays closed");
        sends(&slave, "");
        way = DATAGRAMS;
        hear(&slave, "01000000fd");
        sends(&slave, "");
        want(ng_slave_datagram(&slave, bytes, len, 0, NO_MEMORY, &taken) == NG_OK && taken == len, "datagram");
        sends(&slave, "08000100ff04804040000101");
        want(ng_slave_receive(&slave, bytes, 6, 0, NO_MEMORY, &taken) == NG_BAD_FRAME, "it stays closed");
        hear(&slave, "01000000fd");
        sends(&slave, "06000200ff0000000000");
        way = STREAM;
        want(ng_slave_hang_up(&slave) == NG_OK, "hang up");
        hear(&slave, "01000000fd");
        sends(&slave, "");
        hear(&slave, "02000000ff00" "0200");
        sends(&slave, "08000300ff04804040000101");
        want(ng_slave_hang_up(&slave) == NG_OK, "what is held of a frame is dropped");
        hear(&slave, "02000000ff00");
        sends(&slave, "08000400ff04804040000101");
        want(ng_slave_receive(&slave, bytes + 6, 1, 0, NO_MEMORY, &taken) == NG_OK && taken == 1, "half");
        want(ng_slave_receive(&slave, bytes + 7, 1, 0, NO_MEMORY, &taken) == NG_BAD_FRAME, "the other half");
        hear_nothing(&slave);
        close_with(&slave, NULL, 0);
    }
    end();
}

/* Sixteen replies wait at most. */
static void many_replies(void) {
    ng_slave slave = open_slave(1);
    uint8_t bytes[6 + 20 * 5];
    size_t len = unhex("02000000ff00", bytes), taken = 77;
    begin("where sixteen replies wait, no more bytes are taken");
    for (unsigned k = 0; k < 20; k++) len += unhex("01000000fc", bytes + len);
    want(ng_slave_receive(&slave, bytes, len, 0, NO_MEMORY, &taken) == NG_OK && taken == 6 + 15 * 5, "16");
    want(ng_slave_datagram(&slave, bytes + taken, 5, 0, NO_MEMORY, &len) == NG_OK && len == 0, "no more");
    want(ng_slave_receive(&slave, bytes + taken, 5, 0, NO_MEMORY, &len) == NG_OK && len == 0, "no more");
    want(ng_slave_peek(&slave, buffer, sizeof buffer, &len) == NG_OK && len == 12 + 15 * 6, "16");
    want(ng_slave_sent(&slave) == NG_OK, "sent");
    want(ng_slave_receive(&slave, bytes + taken, 25, 0, NO_MEMORY, &len) == NG_OK && len == 25, "the others");
    want(ng_slave_peek(&slave, buffer, sizeof buffer, &len) == NG_OK && len == 5 * 6, "5");
    want(ng_slave_sent(&slave) == NG_OK, "sent");
    want(ng_slave_datagram(&slave, bytes, 106, 0, NO_MEMORY, &taken) == NG_OK && taken == 6 + 15 * 5, "16");
    want(ng_slave_datagram(&slave, bytes + taken, 5, 0, NO_MEMORY, &len) == NG_OK && len == 0, "no more");
    want(ng_slave_peek(&slave, buffer, sizeof buffer, &len) == NG_OK && len == 12 + 15 * 6, "16");
    want(ng_slave_sent(&slave) == NG_OK, "sent");
    want(ng_slave_datagram(&slave, bytes + taken, 25, 0, NO_MEMORY, &len) == NG_OK && len == 25, "the others");
    close_with(&slave, NULL, 0);
    end();
}

/* Hears a command, and sends its reply, which is positive. */
static void ask(ng_slave *slave, const char *packet) {
    uint8_t frame[68];
    size_t len = unhex(packet, frame + 4), taken = 77;
    memcpy(frame, (uint8_t[]){(uint8_t)len, 0, 0, 0}, 4);
    want(ng_slave_datagram(slave, frame, 4 + len, 0, NO_MEMORY, &taken) == NG_OK && taken == 4 + len, packet);
    want(ng_slave_peek(slave, buffer, sizeof buffer, &len) == NG_OK && len > 4, packet);
    want(buffer[4] == 0xFF && ng_slave_sent(slave) == NG_OK, packet);
}

#define ASK(slave, ...) \
    do { \
        char packet[64]; \
        snprintf(packet, sizeof packet, __VA_ARGS__); \
        ask(slave, packet); \
    } while (0)

/* DAQ lists of one event channel or more, in turn, each with as many ODTs, and these with as many
 * entries. */
struct load {
    unsigned channels, capacity;
    unsigned lists, odts, entries, size;
    ng_id_kind id;
};

static void set_up(ng_slave *slave, const struct load *load) {
    ASK(slave, "ff00");
    ASK(slave, "d500%02x00", load->lists);
    for (unsigned l = 0; l < load->lists; l++) ASK(slave, "d400%02x00%02x", l, load->odts);
    for (unsigned l = 0; l < load->lists; l++)
        for (unsigned k = 0; k < load->odts; k++)
            ASK(slave, "d300%02x00%02x%02x", l, k, load->entries);
    for (unsigned l = 0; l < load->lists; l++) {
        for (unsigned k = 0; k < load->odts; k++) {
            ASK(slave, "e200%02x00%02x00", l, k);
            for (unsigned e = 0; e < load->entries; e++)
                ASK(slave, "e1ff%02x00%02x000000", load->size, e * (load->size + 1));
        }
        ASK(slave, "e010%02x00%02x000100", l, l % load->channels);
    }
}

/* Starts all lists. */
static void start_all(ng_slave *slave, const struct load *load) {
    for (unsigned l = 0; l < load->lists; l++) ASK(slave, "de02%02x00", l);
    ask(slave, "dd01");
}

static void trigger_all(ng_task *tasks, const struct load *load) {
    static uint8_t bytes_of_first[256];
    static const ng_memory memory[NG_MAX_SEGMENTS] = {{bytes_of_first, sizeof bytes_of_first}};
    unsigned long bytes = memory_bytes;
    ng_taken taken;
    for (unsigned c = 0; c < load->channels; c++)
        want(ng_task_trigger(&tasks[c], memory, NG_MAX_SEGMENTS, 0, &taken) == NG_OK, "trigger");
    want(bytes == memory_bytes, "triggers take no memory, and give none back");
}

/* Wants so many bytes to be within these, and tells how many they are where they aren't. */
static void within(unsigned long least, unsigned long bytes, unsigned long most, const char *what) {
    bool holds = least <= bytes && bytes <= most;
    if (!holds) printf("%lu bytes, and not %lu to %lu: ", bytes, least, most);
    want(holds, what);
}

/* The bytes of a sample of each list of an event channel, but no more than its capacity or than a
 * sample. */
static unsigned long at_a_trigger(const struct load *load, unsigned channel, unsigned long record) {
    unsigned long lists = (load->lists + load->channels - 1 - channel) / load->channels;
    unsigned long all = lists * record;
    unsigned long most = load->capacity > record ? load->capacity : record;
    return all < most ? all : most;
}

/* What nerthogal.h says of the bytes that a slave takes at most, and when it gives them back. All its
 * texts are as long as may be, and there are as many segments as may be; of these each event channel
 * may read the first. */
static void heap_of(const struct load *load) {
    static const uint8_t a2l[1000] = {0};
    unsigned l = load->lists, o = l * load->odts, e = o * load->entries, n = load->channels;
    unsigned long of_slave = 30000 + 16000 * n + sizeof a2l;
    unsigned long of_lists = 48 * l + 24 * o + 16 * e;
    unsigned long field = load->id == NG_RELATIVE_WORD ? 3 : 1, stamp = 4;
    unsigned long frames = load->odts * (4 + field + load->entries * load->size) + stamp;
    unsigned long record = (16 + frames + 7) / 8 * 8;
    unsigned long page = 22000 + 18 * (frames > 8192 ? frames : 8192);
    unsigned long most = 2500 * n + 160 * l + 100 * o + 80 * e;
    for (unsigned c = 0; c < n; c++) most += load->capacity + at_a_trigger(load, c, record);
    ng_profile profile = profile_of();
    ng_segment segments[NG_MAX_SEGMENTS] = {segment_of(256, n)};
    ng_event events[16] = {event_of("e")};
    ng_slave slave = NG_SLAVE_INIT;
    ng_task tasks[16];
    unsigned long before = memory_bytes;
    for (uint8_t i = 1; i < NG_MAX_SEGMENTS; i++) {
        segments[i] = segment_of(1, 0);
        segments[i].extension = i;
    }
    profile.id = load->id;
    profile.max_dto = 1400;
    memset(profile.name, 'n', NG_MAX_NAME);
    memset(profile.a2l_name, 'a', NG_MAX_NAME);
    memset(profile.epk, 'e', NG_MAX_NAME);
    memset(events[0].name, 'e', NG_MAX_NAME);
    for (unsigned c = 0; c < n; c++) {
        events[c] = events[0];
        events[c].capacity = load->capacity;
    }
    want(ng_slave_open(&profile, segments, NG_MAX_SEGMENTS, events, n, a2l, sizeof a2l, &slave) == NG_OK,
         "open");
    for (unsigned c = 0; c < n; c++) tasks[c] = task_of(&slave, (uint16_t)c);
    unsigned long opened = memory_bytes;
    within(0, opened - before, of_slave, "of a slave");
    set_up(&slave, load);
    within(of_lists, memory_bytes - opened, of_lists, "of its DAQ lists");
    start_all(&slave, load);
    unsigned long measures = memory_bytes;
    within(0, measures - opened - of_lists, page + most, "of a page and a measurement");
    if (n == 2) within(423000, measures - before, 443000, "some 433 kB");
    trigger_all(tasks, load);
    ask(&slave, "fe");
    /* each stop of a list finds room, also in the smallest ring */
    for (unsigned k = 0; k < 4; k++) {
        size_t len;
        trigger_all(tasks, load);
        want(ng_slave_peek(&slave, buffer, sizeof buffer, &len) == NG_OK, "peek");
        want(ng_slave_sent(&slave) == NG_OK, "sent");
    }
    unsigned long kept = measures - of_lists;
    within(kept, memory_bytes, kept, "it is kept behind DISCONNECT");
    set_up(&slave, load);
    start_all(&slave, load);
    within(measures, memory_bytes, measures, "the next one takes its place");
    trigger_all(tasks, load);
    ask(&slave, "dd00");
    start_all(&slave, load);
    unsigned long both = memory_bytes;
    within(measures + 1, both, measures + most, "beside one that tasks have");
    ask(&slave, "dd00");
    start_all(&slave, load);
    within(both, memory_bytes, both, "there are no more than two");
    for (unsigned c = 0; c < n; c++) want(ng_task_finish(&tasks[c]) == NG_OK, "finish");
    bool whole = false;
    want(ng_slave_close(&slave, lines, NG_MAX_LISTS, &whole, &each) == NG_OK && whole, "close");
    within(before, memory_bytes, before, "all is given back");
}

static void heap(void) {
    static const struct load loads[] = {{1, 64, 1, 1, 1, 1, NG_ABSOLUTE},
                                        {1, 12800, 15, 8, 17, 1, NG_ABSOLUTE},
                                        {2, 32768, 15, 8, 15, 3, NG_ABSOLUTE},
                                        {1, 32768, 1, 124, 100, 1, NG_ABSOLUTE},
                                        {16, 64, 16, 1, 1, 1, NG_ABSOLUTE},
                                        {16, 65536, 16, 8, 32, 1, NG_RELATIVE_WORD}};
    begin("a slave takes as many bytes as are said, and gives them back");
    for (size_t k = 0; k < LEN(loads); k++) heap_of(&loads[k]);
    end();
}

/* In a ring that has room for nothing a stop waits, and so does a start behind it. */
static void waiting_stop(void) {
    static const struct load load = {1, 128, 3, 1, 1, 1, NG_ABSOLUTE};
    ng_slave slave = open_slave(1);
    ng_task task = task_of(&slave, 0);
    static const uint8_t bytes[2] = {0};
    static const ng_memory memory = {bytes, sizeof bytes};
    ng_taken taken = {0};
    size_t len;
    begin("a stop waits for room in a full ring, and a later start behind it");
    set_up(&slave, &load);
    ask(&slave, "de010000"); /* three lists are ready, and the first one is started */
    /* each sample takes 16 bytes, and a frame of 10, up to a multiple of 8: four fill 128 */
    while (taken.dropped == 0)
        want(ng_task_trigger(&task, &memory, 1, 0, &taken) == NG_OK && taken.due == 1, "0 is due");
    hear(&slave, "04000000de010200" "04000000de000000" "04000000de010100");
    want(ng_task_trigger(&task, &memory, 1, 0, &taken) == NG_OK, "trigger");
    want(taken.due == 5 && taken.accepted == 0, "2 was started before; 0 still runs, 1 doesn't");
    want(ng_slave_peek(&slave, buffer, sizeof buffer, &len) == NG_OK && len > 0, "peek");
    want(ng_task_trigger(&task, &memory, 1, 0, &taken) == NG_OK, "trigger");
    want(taken.due == 6 && taken.accepted == 6, "the stop is done, and then the start");
    want(ng_task_finish(&task) == NG_OK, "finish");
    bool whole = false;
    want(ng_slave_close(&slave, lines, NG_MAX_LISTS, &whole, &each) == NG_OK && whole, "close");
    want(lines[0].written == 0, "the stop holds for the master at once");
    end();
}

static void start(ng_slave *slave) {
    hear(slave, "02000000ff00" "04000000d5000100" "05000000d400000001" "06000000d30000000001"
                "06000000e20000000000" "08000000e1ff020000000000" "08000000e000000000000100"
                "04000000de010000");
    sends(slave, "08000000ff04804040000101" "01000100ff" "01000200ff" "01000300ff" "01000400ff"
                 "01000500ff" "01000600ff" "02000700ff00");
}

/* A bad frame ends a measurement, and throws nothing away. */
static void behind_a_bad_frame(void) {
    static const ng_line account[] = {{0, 2, 1, 0, 1}};
    ng_slave slave = open_slave(1);
    ng_task task = task_of(&slave, 0);
    uint8_t bytes[64];
    size_t taken = 77, len = unhex("01000000dc" "4100", bytes);
    begin("what waits at a bad frame is still sent");
    start(&slave);
    trigger(&task, "aabb", 1, 1);
    hear(&slave, "01000000fd");
    shows(&slave, "06000800ff4000000000" "0300090000aabb");
    trigger(&task, "ccdd", 1, 1);
    want(ng_slave_receive(&slave, bytes, len, CLOCK, NO_MEMORY, &taken) == NG_BAD_FRAME, "a bad LEN");
    sends(&slave, "06000800ff4000000000" "0300090000aabb" "08000a00ff00000004030201");
    trigger(&task, "eeff", 0, 0);
    hear_nothing(&slave);
    finish(&task);
    close_with(&slave, account, 1);
    end();
}

/* What waits for a master that is gone is thrown away, also what was shown and not sent, and CTR
 * goes on behind the last frame that was sent. */
static void lost_masters(void) {
    static const ng_line account[] = {{0, 5, 2, 0, 3}};
    ng_slave slave = open_slave(1);
    ng_task task = task_of(&slave, 0);
    begin("what waits for a master that is gone never reaches another one");
    is_about(&slave, false, false, 0);
    start(&slave);
    is_about(&slave, true, true, 0);
    trigger(&task, "aabb", 1, 1);
    sends(&slave, "0300080000aabb");
    hear(&slave, "01000000fd");
    is_about(&slave, true, true, 10);
    trigger(&task, "ccdd", 1, 1);
    shows(&slave, "06000900ff4000000000" "03000a0000ccdd");
    is_about(&slave, true, true, 17);
    trigger(&task, "eeff", 1, 1);
    want(ng_slave_hang_up(&slave) == NG_OK, "hang up");
    is_about(&slave, false, false, 0);
    want(ng_slave_sent(&slave) == NG_OK, "nothing is shown any more");
    shows(&slave, "");
    trigger(&task, "1122", 0, 0);
    hear(&slave, "02000000ff00");
    sends(&slave, "08000900ff04804040000101");
    hear(&slave, "04000000d5000100" "05000000d400000001" "06000000d30000000001"
                 "06000000e20000000000" "08000000e1ff020000000000" "08000000e000000000000100"
                 "04000000de010000");
    sends(&slave, "01000a00ff" "01000b00ff" "01000c00ff" "01000d00ff" "01000e00ff" "01000f00ff"
                  "02001000ff00");
    trigger(&task, "3344", 1, 1);
    sends(&slave, "03001100003344");
    trigger(&task, "5566", 1, 1);
    hear(&slave, "01000000fe");
    shows(&slave, "01001200ff");
    want(ng_slave_hang_up(&slave) == NG_OK, "hang up, where no master is connected");
    shows(&slave, "");
    hear(&slave, "02000000ff00");
    sends(&slave, "08001200ff04804040000101");
    finish(&task);
    close_with(&slave, account, 1);
    end();
}

/* Sends what waits, whatever it is. */
static void skip(ng_slave *slave) {
    size_t len = 0;
    want(ng_slave_peek(slave, buffer, sizeof buffer, &len) == NG_OK && len > 0, "peek");
    want(ng_slave_sent(slave) == NG_OK, "sent");
}

/* Wants so many frames from the first on of samples of 8 packets of 64 bytes: the bytes of the
 * first sample are 0x11 each, those of the next 0x12, and so on; the first frame has CTR 29. */
static void shows_frames(ng_slave *slave, size_t cap, size_t first, size_t count) {
    size_t len = 77;
    want(ng_slave_peek(slave, buffer, cap, &len) == NG_OK && len == count * 68, "whole frames");
    for (size_t k = 0; k < count; k++) {
        const uint8_t *frame = buffer + k * 68;
        size_t n = first + k;
        want(frame[0] == 64 && frame[1] == 0 && frame[2] == 29 + n && frame[3] == 0, "header");
        want(frame[4] == n % 8, "PID");
        for (size_t i = 5; i < 68; i++) want(frame[i] == 0x11 + n / 8, "the segment's bytes");
    }
}

/* What a sample of 8 packets of 64 bytes takes in a ring: 16 bytes, and 8 frames of 68. */
#define LONG_SAMPLE 560u

/* A slave that has taken triggers, each with such a sample, over a ring of so many bytes. */
static ng_slave long_samples(size_t capacity, ng_task *task, unsigned triggers) {
    ng_profile profile = profile_of();
    ng_event event = event_of("e0");
    ng_slave slave = NG_SLAVE_INIT;
    uint8_t bytes[63];
    ng_segment segment = segment_of(sizeof bytes, 1);
    ng_memory memory = {bytes, sizeof bytes};
    event.capacity = capacity;
    want(ng_slave_open(&profile, &segment, 1, &event, 1, NO_A2L, &slave) == NG_OK, "open");
    *task = task_of(&slave, 0);
    hear(&slave, "02000000ff00" "04000000d5000100" "05000000d400000008");
    skip(&slave);
    for (unsigned k = 0; k < 8; k++) {
        char frames[32];
        snprintf(frames, sizeof frames, "06000000d3000000%02x01", k);
        hear(&slave, frames);
    }
    skip(&slave);
    for (unsigned k = 0; k < 8; k++) {
        char frames[32];
        snprintf(frames, sizeof frames, "06000000e2000000%02x00", k);
        hear(&slave, frames);
        hear(&slave, "08000000e1ff3f0000000000");
    }
    skip(&slave);
    hear(&slave, "08000000e000000000000100" "04000000de010000");
    skip(&slave);
    for (unsigned k = 1; k <= triggers; k++) {
        memset(bytes, 0x10 + (int)k, sizeof bytes);
        trigger_with(task, &memory, 1, 1, 1);
    }
    return slave;
}

/* A sample goes out in several datagrams, and what is not sent is shown again. */
static void full_buffers(void) {
    static const ng_line account[] = {{0, 17, 17, 0, 0}};
    ng_task task;
    begin("buffers of a few frames");
    ng_slave slave = long_samples(17 * LONG_SAMPLE, &task, 17);
    shows_frames(&slave, 4 * 68 - 1, 0, 3);
    shows_frames(&slave, 4 * 68 - 1, 0, 3);
    want(ng_slave_sent(&slave) == NG_OK, "sent");
    /* a page of 8192 bytes has 15 samples: the next one finds no room behind what waits of them */
    shows_frames(&slave, NG_PEEK_BYTES, 3, 117);
    shows_frames(&slave, 5 * 68 - 1, 3, 4);
    shows_frames(&slave, 5 * 68, 3, 5);
    want(ng_slave_sent(&slave) == NG_OK, "sent");
    is_about(&slave, true, true, 14 * 8 * 68);
    shows_frames(&slave, sizeof buffer, 8, 120);
    want(ng_slave_sent(&slave) == NG_OK, "sent");
    shows_frames(&slave, sizeof buffer, 128, 8);
    want(ng_slave_sent(&slave) == NG_OK, "sent");
    sends(&slave, "");
    finish(&task);
    close_with(&slave, account, 1);
    end();
}

/* A sample of which only some frames were sent is left, and CTR goes on behind these. */
static void cut_samples(void) {
    static const ng_line account[] = {{0, 2, 1, 0, 1}};
    ng_task task;
    begin("a sample that is cut where the transport is lost");
    ng_slave slave = long_samples(3 * LONG_SAMPLE, &task, 2);
    shows_frames(&slave, sizeof buffer, 0, 16);
    shows_frames(&slave, 12 * 68, 0, 12);
    want(ng_slave_sent(&slave) == NG_OK, "sent");
    shows_frames(&slave, sizeof buffer, 12, 4);
    want(ng_slave_hang_up(&slave) == NG_OK, "hang up");
    is_about(&slave, false, false, 0);
    hear(&slave, "02000000ff00");
    sends(&slave, "08002900ff04804040000101");
    finish(&task);
    close_with(&slave, account, 1);
    end();
}

static ng_slave open_ring(size_t capacity) {
    ng_profile profile = profile_of();
    ng_segment segment = segment_of(2, 1);
    ng_event event = event_of("e0");
    ng_slave slave = NG_SLAVE_INIT;
    event.capacity = capacity;
    want(ng_slave_open(&profile, &segment, 1, &event, 1, NO_A2L, &slave) == NG_OK, "open");
    return slave;
}

static void smallest_ring(void) {
    static const ng_line account[] = {{0, 4, 3, 1, 0}};
    ng_slave slave = open_ring(NG_MIN_FRAME_RING);
    ng_task task = task_of(&slave, 0);
    start(&slave);
    /* each sample takes 16 bytes, and a frame of 7, up to a multiple of 8: 64 bytes have two */
    trigger(&task, "aabb", 1, 1);
    trigger(&task, "ccdd", 1, 1);
    trigger(&task, "eeff", 1, 0);
    sends(&slave, "0300080000aabb" "0300090000ccdd");
    trigger(&task, "1122", 1, 1);
    sends(&slave, "03000a00801122");
    finish(&task);
    close_with(&slave, account, 1);
}

static void greatest_ring(void) {
    static const ng_line account[] = {{0, 1, 1, 0, 0}};
    ng_slave slave = open_ring(NG_MAX_FRAME_RING);
    ng_task task = task_of(&slave, 0);
    unsigned long before = memory_bytes;
    start(&slave);
    want(memory_bytes - before > NG_MAX_FRAME_RING, "the measurement's ring is there");
    trigger(&task, "aabb", 1, 1);
    sends(&slave, "0300080000aabb");
    finish(&task);
    close_with(&slave, account, 1);
}

/* Of two samples one is accepted, where it just fits. */
static void one_sample(void) {
    static const ng_line account[] = {{0, 2, 1, 1, 0}};
    static const uint8_t bytes[63];
    static const ng_memory memory = {bytes, sizeof bytes};
    ng_task task;
    ng_slave slave = long_samples(LONG_SAMPLE, &task, 0);
    trigger_with(&task, &memory, 1, 1, 1);
    trigger_with(&task, &memory, 1, 1, 0);
    skip(&slave);
    finish(&task);
    close_with(&slave, account, 1);
}

/* Where a sample is longer than its ring, its list isn't started, and nothing is due. */
static void no_sample(void) {
    static const uint8_t bytes[63];
    static const ng_memory memory = {bytes, sizeof bytes};
    ng_task task;
    ng_slave slave = long_samples(LONG_SAMPLE - 8, &task, 0);
    is_about(&slave, true, false, 0);
    hear(&slave, "04000000de010000");
    sends(&slave, "02001d00fe30");
    trigger_with(&task, &memory, 1, 0, 0);
    finish(&task);
    close_with(&slave, NULL, 0);
}

static void full_rings(void) {
    begin("the smallest ring and the greatest, and samples that just fit, or don't");
    smallest_ring();
    greatest_ring();
    one_sample();
    no_sample();
    end();
}

/* A peek needs room for the longest frame that the profile allows, whatever waits. */
static void least_buffer(uint8_t max_cto, uint16_t max_dto, size_t least) {
    ng_profile profile = profile_of();
    ng_segment segment = segment_of(2, 1);
    ng_event event = event_of("e0");
    ng_slave slave = NG_SLAVE_INIT;
    size_t len = 77;
    profile.max_cto = max_cto;
    profile.max_dto = max_dto;
    profile.name[0] = 0;
    want(ng_slave_open(&profile, &segment, 1, &event, 1, NO_A2L, &slave) == NG_OK, "open");
    hear(&slave, "02000000ff00");
    want(ng_slave_peek(&slave, buffer, least - 1, &len) == NG_SMALL_BUFFER && len == 77, "peek");
    want(ng_slave_peek(&slave, buffer, least, &len) == NG_OK && len == 12, "peek");
    want(buffer[7] == max_cto && (buffer[8] | buffer[9] << 8) == max_dto, "what CONNECT tells");
    close_with(&slave, NULL, 0);
}

static void small_buffers(void) {
    static const ng_line account[] = {{0, 1, 0, 0, 1}};
    ng_slave slave = open_slave(1);
    ng_task task = task_of(&slave, 0);
    size_t len = 77;
    bool whole = true;
    const ng_memory one = {buffer, 1}, three = {buffer, 3};
    begin("buffers that are too short, and segments of another length");
    start(&slave);
    trigger(&task, "aabb", 1, 1);
    memset(buffer, UNWRITTEN, sizeof buffer);
    want(ng_slave_peek(&slave, buffer, 4 + 64 - 1, &len) == NG_SMALL_BUFFER, "peek");
    want(len == 77 && buffer[0] == UNWRITTEN, "nothing is written");
    want(ng_slave_peek(&slave, buffer, 4 + 64, &len) == NG_OK && len == 7, "peek");
    wrong_memory(&task, &one, 1, "one byte");
    wrong_memory(&task, &three, 1, "three bytes");
    want(ng_slave_close(&slave, lines, NG_MAX_LISTS - 1, &whole, &each) == NG_SMALL_BUFFER, "close");
    finish(&task);
    close_with(&slave, account, 1);
    least_buffer(255, 8, 4 + 255);
    least_buffer(8, 1400, 4 + 1400);
    least_buffer(8, 8192, NG_PEEK_BYTES);
    end();
}

/* A slave one of whose tasks isn't finished stays open. */
static void unfinished(void) {
    static const ng_line account[] = {{0, 2, 1, 0, 1}};
    ng_slave slave = open_slave(2);
    ng_task task = task_of(&slave, 0);
    bool whole = false;
    begin("a slave one of whose tasks isn't finished stays open, and loses nothing");
    memset(lines, UNWRITTEN, sizeof lines);
    want(ng_slave_close(&slave, lines, NG_MAX_LISTS, &whole, &each) == NG_UNFINISHED, "close");
    start(&slave);
    trigger(&task, "aabb", 1, 1);
    want(ng_slave_close(&slave, lines, NG_MAX_LISTS, &whole, &each) == NG_UNFINISHED, "close");
    want(!whole && lines[0].due == 0xA5A5A5A5A5A5A5A5u, "nothing is written");
    sends(&slave, "0300080000aabb");
    trigger(&task, "ccdd", 1, 1);
    finish(&task);
    close_with(&slave, account, 1);
    end();
}

/* A measurement of a task that was finished, or that never fetched it, ends as others do. */
static void gone_tasks(void) {
    static const ng_line none[] = {{0, 0, 0, 0, 0}}, one[] = {{0, 1, 1, 0, 0}};
    begin("measurements that a task left, or never took, are in the account");
    for (unsigned k = 0; k < 3; k++) {
        ng_slave slave = open_slave(1);
        ng_task task = NG_TASK_INIT;
        if (k > 0) task = task_of(&slave, 0);
        if (k == 1) finish(&task);
        start(&slave);
        if (k == 2) trigger(&task, "aabb", 1, 1);
        if (k == 2) finish(&task);
        sends(&slave, k == 2 ? "0300080000aabb" : "");
        hear(&slave, "04000000de000000" "04000000de010000" "02000000dd00");
        sends(&slave, k == 2 ? "02000900ff00" "02000a00ff00" "01000b00ff"
                             : "02000800ff00" "02000900ff00" "01000a00ff");
        close_with(&slave, k == 2 ? one : none, 1);
    }
    end();
}

/* Handles of another kind are as empty ones. */
static void other_kinds(void) {
    ng_slave slave = open_slave(1);
    ng_task task = NG_TASK_INIT;
    begin("a task's handle in place of a slave's");
    want(ng_slave_task(&slave, 0, &task) == NG_OK, "task");
    ng_slave other = {task.at, task.full};
    want(ng_slave_sent(&other) == NG_EMPTY && other.full, "it is no slave");
    finish(&task);
    close_with(&slave, NULL, 0);
    end();
}

/* Each allocation of an opening and of its tasks is refused in turn. */
static void no_memory(void) {
    begin("want of memory");
    for (unsigned long k = 0;; k++) {
        ng_profile profile = profile_of();
        ng_segment segment = segment_of(2, 2);
        ng_event events[2] = {event_of("e0"), event_of("e1")};
        ng_slave slave = NG_SLAVE_INIT;
        ng_task task = NG_TASK_INIT;
        unsigned long held = memory_held;
        memory_refuse_behind(k);
        ng_status opened = ng_slave_open(&profile, &segment, 1, events, 2, NO_A2L, &slave);
        if (opened == NG_MEMORY) want(held == memory_held, "what was had is given back");
        unsigned long before = memory_held;
        ng_status lent = opened == NG_OK ? ng_slave_task(&slave, 1, &task) : NG_OK;
        if (lent == NG_MEMORY) want(before == memory_held, "what was had is given back");
        bool refused = memory_refused();
        unsigned long lacking = (opened == NG_MEMORY) + (lent == NG_MEMORY);
        want(lacking <= (refused ? 1u : 0u), "want of memory is answered where it was met");
        if (opened == NG_MEMORY)
            want(ng_slave_open(&profile, &segment, 1, events, 2, NO_A2L, &slave) == NG_OK, "again");
        if (!task.full) task = task_of(&slave, 1);
        finish(&task);
        close_with(&slave, NULL, 0);
        want(held == memory_held, "all is given back");
        if (!refused) {
            want(k > 8, "some were refused");
            break;
        }
    }
    end();
}

static void long_run(void) {
    static const ng_line account[] = {{0, 70000, 70000, 0, 0}};
    ng_slave slave = open_slave(1);
    ng_task task = task_of(&slave, 0);
    size_t len = 0;
    ng_taken taken;
    begin("seventy thousand triggers and peeks ask for no memory, and CTR wraps");
    start(&slave);
    trigger(&task, "0000", 1, 1);
    sends(&slave, "03000800000000");
    unsigned long asked = memory_asked, held = memory_held;
    for (uint32_t k = 1; k < 70000; k++) {
        uint8_t bytes[2] = {(uint8_t)k, (uint8_t)(k >> 8)};
        ng_memory memory = {bytes, sizeof bytes};
        want(ng_task_trigger(&task, &memory, 1, k, &taken) == NG_OK && taken.accepted == 1, "taken");
        want(ng_slave_peek(&slave, buffer, sizeof buffer, &len) == NG_OK && len == 7, "a frame");
        want(buffer[0] == 3 && buffer[1] == 0 && buffer[4] == 0, "a whole frame");
        want((buffer[2] | buffer[3] << 8) == (int)((k + 8) & 0xFFFF), "its counter");
        want(buffer[5] == bytes[0] && buffer[6] == bytes[1], "its bytes");
        want(ng_slave_sent(&slave) == NG_OK, "sent");
    }
    want(asked == memory_asked && held == memory_held, "none was asked for, none given back");
    finish(&task);
    close_with(&slave, account, 1);
    end();
}

int main(void) {
    static char text[4096];
    setvbuf(stdout, text, _IOFBF, sizeof text);
    unsigned long held = memory_held;
    empty_handles();
    openings();
    sessions();
    readings();
    two_channels();
    segments();
    pieces();
    datagrams();
    bad_frames();
    many_replies();
    behind_a_bad_frame();
    lost_masters();
    full_buffers();
    cut_samples();
    full_rings();
    small_buffers();
    unfinished();
    gone_tasks();
    other_kinds();
    no_memory();
    long_run();
    heap();
    waiting_stop();
    begin("all memory was given back");
    want(memory_held == held, "a block is left");
    end();
    return 0;
}
