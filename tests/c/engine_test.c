/* Goes through each call of an engine and of its samplers, and each status that can be met. Prints
 * a line for each part; ends with status 1 at the first answer that isn't the one wanted. */
#include "memory.h"
#include "nerthogal.h"
#include <stdio.h>
#include <stdlib.h>
#include <string.h>

#define UNWRITTEN 0xA5u

static const char *part = "";

/* The kind of rings that the parts are gone through with. */
static ng_ring ring = NG_RING_ITEMS;

static const char *over(void) { return ring == NG_RING_BYTES ? "over rings of bytes: " : ""; }

static void want(bool holds, const char *what) {
    if (holds) return;
    printf("%s%s: FAILED: %s\n", over(), part, what);
    exit(1);
}

static void begin(const char *name) { part = name; }

static void end(void) { printf("%s%s: ok\n", over(), part); }

/* The bytes of a text in hexadecimal. */
static size_t unhex(const char *text, uint8_t *bytes) {
    size_t len = strlen(text) / 2;
    for (size_t i = 0; i < len; i++) {
        unsigned byte = 0;
        sscanf(text + 2 * i, "%2x", &byte);
        bytes[i] = (uint8_t)byte;
    }
    return len;
}

static void send(ng_store *store, const char *packet) {
    uint8_t bytes[16] = {0}, reply[NG_REPLY_BYTES];
    size_t len = 0, bytes_len = unhex(packet, bytes);
    want(ng_store_command(store, bytes, bytes_len, reply, sizeof reply, &len) == NG_OK, packet);
    want(reply[0] == 0xFF, packet);
}

/* One event channel, images of two bytes, and one DAQ list whose one entry is the image. */
static ng_store one_list(void) {
    static const char *const packets[] = {"d5000100",     "d400000001",       "d30000000001",
                                          "e20000000000", "e1ff020000000000", "e000000000000100",
                                          "de010000"};
    ng_store store = NG_STORE_INIT;
    want(ng_store_new(1, 2, NG_ABSOLUTE, 4, &store) == NG_OK, "new");
    for (size_t k = 0; k < sizeof packets / sizeof packets[0]; k++) send(&store, packets[k]);
    return store;
}

/* Two event channels, images of one byte, and a DAQ list for each channel. */
static ng_store two_lists(void) {
    static const char *const packets[] = {
        "d5000200",         "d400000001",   "d400010001",       "d30000000001",
        "d30001000001",     "e20000000000", "e1ff010000000000", "e000000000000100",
        "e20001000000",     "e1ff010000000000", "e000010001000100", "de010000", "de010100"};
    ng_store store = NG_STORE_INIT;
    want(ng_store_new(2, 1, NG_ABSOLUTE, 4, &store) == NG_OK, "new");
    for (size_t k = 0; k < sizeof packets / sizeof packets[0]; k++) send(&store, packets[k]);
    return store;
}

/* Opens an engine whose rings have room for so many samples of a packet of 3 bytes, or for more. */
static ng_status open_with(ng_store *store, const size_t *samples, size_t count,
                           ng_engine *engine) {
    size_t caps[NG_MAX_CHANNELS];
    for (size_t c = 0; c < count; c++) {
        caps[c] = ring == NG_RING_BYTES ? 16 * samples[c] : samples[c];
        if (ring == NG_RING_BYTES && caps[c] < NG_MIN_BYTE_RING) caps[c] = NG_MIN_BYTE_RING;
    }
    return ng_open(store, ring, caps, count, engine);
}

static uint8_t frames[NG_PUMP_BYTES];

/* Wants these frames, and behind them nothing written. Answers how many they are. */
static unsigned want_frames(const char *wanted, size_t len) {
    static uint8_t bytes[NG_PUMP_BYTES];
    unsigned count = 0;
    memset(bytes, UNWRITTEN, sizeof bytes);
    want(len == unhex(wanted, bytes) && memcmp(frames, bytes, sizeof frames) == 0, wanted);
    for (size_t at = 0; at < len; at += 4u + bytes[at]) count++;
    return count;
}

/* Pumps, and wants these frames, of which so many items were taken. */
static void pump(ng_engine *engine, const char *wanted, unsigned taken, unsigned stopped) {
    size_t len = 77;
    ng_pumped pumped = {0x5555, 0x55, 0x55};
    memset(frames, UNWRITTEN, sizeof frames);
    want(ng_pump(engine, frames, sizeof frames, &len, &pumped) == NG_OK, "pump");
    want(pumped.frames == want_frames(wanted, len), "how many frames the pump wrote");
    want(pumped.taken == taken && pumped.stopped == stopped, "what the pump took");
}

/* Drains a round, and wants these frames; where nothing is to be taken, nothing was left. */
static void drain(ng_engine *engine, const char *wanted, unsigned taken, unsigned stopped) {
    size_t len = 77;
    ng_pumped pumped = {0x5555, 0x55, 0x55};
    bool left = taken == 0;
    memset(frames, UNWRITTEN, sizeof frames);
    want(ng_drain(engine, frames, sizeof frames, &len, &pumped, &left) == NG_OK, "drain");
    want(pumped.frames == want_frames(wanted, len), "how many frames the drain wrote");
    want(pumped.taken == taken && pumped.stopped == stopped, "what the drain took");
    want(left == (taken > 0), "whether something was left before it");
}

static void trigger(ng_sampler *sampler, const char *image, unsigned due, unsigned accepted) {
    uint8_t bytes[2] = {0};
    ng_taken taken = {0x5555, 0x5555, 0x5555};
    size_t len = unhex(image, bytes);
    want(ng_trigger(sampler, bytes, len, 0, &taken) == NG_OK, image);
    want(taken.due == due && taken.accepted == accepted && taken.dropped == (due & ~accepted),
         "what the trigger did");
}

static void counts(ng_sampler *sampler, uint8_t list, uint64_t due, uint64_t dropped) {
    ng_counts told = {0, 0, 0};
    want(ng_counts_of(sampler, list, &told) == NG_OK, "counts");
    want(told.due == due && told.dropped == dropped && told.accepted == due - dropped, "counts");
}

static void free_all(ng_store *store, ng_engine *engine, ng_sampler *sampler) {
    want(ng_sampler_free(sampler) == NG_OK && ng_sampler_free(sampler) == NG_EMPTY, "free");
    want(ng_engine_free(engine) == NG_OK && ng_engine_free(engine) == NG_EMPTY, "free");
    want(ng_store_free(store) == NG_OK, "free");
}

static void openings(void) {
    ng_store store = one_list(), none = NG_STORE_INIT, idle = NG_STORE_INIT;
    ng_engine engine = NG_ENGINE_INIT;
    ng_sampler sampler = NG_SAMPLER_INIT, more = NG_SAMPLER_INIT;
    static const struct {
        ng_ring ring;
        size_t caps[2], count;
    } bad[] = {
        {NG_RING_ITEMS, {4, 4}, 0},     {NG_RING_ITEMS, {4, 4}, 2},
        {NG_RING_ITEMS, {0, 0}, 1},     {NG_RING_ITEMS, {1025, 0}, 1},
        {NG_RING_ITEMS, {SIZE_MAX, 0}, 1},
        {NG_RING_BYTES, {532, 532}, 0}, {NG_RING_BYTES, {532, 532}, 2},
        {NG_RING_BYTES, {0, 0}, 1},     {NG_RING_BYTES, {531, 0}, 1},
        {NG_RING_BYTES, {65537, 0}, 1}, {NG_RING_BYTES, {SIZE_MAX, 0}, 1},
    };
    static const ng_ring no_kinds[] = {2, 256, UINT32_MAX};
    size_t cap = ring == NG_RING_BYTES ? NG_MIN_BYTE_RING : 1;
    size_t most = ring == NG_RING_BYTES ? NG_MAX_BYTE_RING : NG_MAX_RING;
    begin("openings");
    want(ng_next_sampler(&engine, &sampler) == NG_EMPTY, "no engine");
    want(ng_open(&none, ring, &cap, 1, &engine) == NG_EMPTY, "no store");
    for (size_t k = 0; k < sizeof bad / sizeof bad[0]; k++)
        want(ng_open(&store, bad[k].ring, bad[k].caps, bad[k].count, &engine) == NG_BAD_CAPS,
             "capacities");
    for (size_t k = 0; k < sizeof no_kinds / sizeof no_kinds[0]; k++) {
        want(ng_open(&store, no_kinds[k], &cap, 1, &engine) == NG_BAD_LIMITS, "no such kind");
        want(ng_open(&store, no_kinds[k], &cap, 0, &engine) == NG_BAD_LIMITS, "before the caps");
        want(ng_open(&none, no_kinds[k], &cap, 1, &engine) == NG_EMPTY, "behind the store");
    }
    want(ng_store_new(1, 2, NG_ABSOLUTE, 4, &idle) == NG_OK, "new");
    want(ng_open(&idle, ring, &cap, 1, &engine) == NG_NOTHING_RUNNING, "no list runs");
    want(ng_open(&idle, ring, &cap, 0, &engine) == NG_BAD_CAPS, "capacities are looked at first");
    want(ng_engine_free(&engine) == NG_EMPTY, "nothing was opened");
    want(ng_open(&store, ring, &cap, 1, &engine) == NG_OK, "open");
    want(ng_open(&store, ring, &cap, 1, &engine) == NG_IN_USE, "open again");
    want(ng_open(&none, 2, &cap, 0, &engine) == NG_IN_USE, "it is looked at first");
    want(ng_next_sampler(&engine, &sampler) == NG_OK, "the one sampler");
    want(ng_next_sampler(&engine, &sampler) == NG_IN_USE, "it is there");
    want(ng_next_sampler(&engine, &more) == NG_NO_SAMPLER, "there is no other");
    want(ng_store_free(&idle) == NG_OK, "free");
    want(ng_sampler_free(&sampler) == NG_OK && ng_engine_free(&engine) == NG_OK, "free");
    want(ng_open(&store, ring, &most, 1, &engine) == NG_OK, "the greatest rings");
    want(ng_next_sampler(&engine, &sampler) == NG_OK, "the one sampler");
    free_all(&store, &engine, &sampler);
    end();
}

static void empty_handles(void) {
    ng_engine engine = NG_ENGINE_INIT;
    ng_sampler sampler = NG_SAMPLER_INIT;
    uint8_t image[2] = {0};
    size_t len = 77;
    ng_taken taken = {1, 2, 3};
    ng_counts told = {1, 2, 3};
    ng_pumped pumped = {1, 2, 3};
    ng_pumped_all all = {1, 2, 3};
    begin("empty handles");
    want(ng_trigger(&sampler, image, 2, 0, &taken) == NG_EMPTY, "trigger");
    want(ng_start(&sampler, 0) == NG_EMPTY && ng_stop(&sampler, 0) == NG_EMPTY, "start, stop");
    want(ng_counts_of(&sampler, 0, &told) == NG_EMPTY, "counts");
    want(ng_pump(&engine, frames, 0, &len, &pumped) == NG_EMPTY, "pump");
    want(ng_pump_all(&engine, frames, 0, &len, &all) == NG_EMPTY && all.taken == 1, "pump all");
    want(ng_sampler_free(&sampler) == NG_EMPTY && ng_engine_free(&engine) == NG_EMPTY, "free");
    want(len == 77 && taken.due == 1 && told.due == 1 && pumped.stopped == 1, "nothing is written");
    end();
}

static void samples(void) {
    ng_store store = one_list();
    ng_engine engine = NG_ENGINE_INIT;
    ng_sampler sampler = NG_SAMPLER_INIT;
    size_t cap = 1;
    begin("samples, an overload, starts and stops");
    want(open_with(&store, &cap, 1, &engine) == NG_OK, "open");
    want(ng_next_sampler(&engine, &sampler) == NG_OK, "sampler");
    trigger(&sampler, "aabb", 1, 1);
    trigger(&sampler, "ccdd", 1, 0);
    want(ng_stop(&sampler, 0) == NG_NO_ROOM, "no room for the stop marker");
    pump(&engine, "0300000000aabb", 1, 0);
    trigger(&sampler, "eeff", 1, 1);
    pump(&engine, "0300010080eeff", 1, 0);
    pump(&engine, "", 0, 0);
    want(ng_stop(&sampler, 1) == NG_NOT_OF_CHANNEL, "stop of no list");
    want(ng_stop(&sampler, 0) == NG_OK && ng_stop(&sampler, 0) == NG_NOT_RUNNING, "stop");
    trigger(&sampler, "0102", 0, 0);
    pump(&engine, "", 1, 1);
    want(ng_start(&sampler, 255) == NG_NOT_OF_CHANNEL, "start of no list");
    want(ng_start(&sampler, 0) == NG_OK && ng_start(&sampler, 0) == NG_RUNNING, "start");
    trigger(&sampler, "0304", 1, 1);
    pump(&engine, "03000200000304", 1, 0);
    counts(&sampler, 0, 4, 1);
    ng_counts told = {7, 7, 7};
    want(ng_counts_of(&sampler, 1, &told) == NG_NOT_OF_CHANNEL, "counts of no list");
    want(told.due == 7, "nothing is written");
    free_all(&store, &engine, &sampler);
    end();
}

static void wrong_images(void) {
    ng_store store = one_list();
    ng_engine engine = NG_ENGINE_INIT;
    ng_sampler sampler = NG_SAMPLER_INIT;
    size_t cap = 1;
    uint8_t image[4] = {0};
    ng_taken taken = {7, 7, 7};
    begin("images of another length");
    want(open_with(&store, &cap, 1, &engine) == NG_OK, "open");
    want(ng_next_sampler(&engine, &sampler) == NG_OK, "sampler");
    for (size_t len = 0; len < 5; len++)
        if (len != 2) want(ng_trigger(&sampler, image, len, 0, &taken) == NG_WRONG_IMAGE, "image");
    want(taken.due == 7, "nothing is written");
    counts(&sampler, 0, 0, 0);
    pump(&engine, "", 0, 0);
    free_all(&store, &engine, &sampler);
    end();
}

static void small_buffers(void) {
    ng_store store = one_list();
    ng_engine engine = NG_ENGINE_INIT;
    ng_sampler sampler = NG_SAMPLER_INIT;
    size_t cap = 1, len = 77;
    ng_pumped pumped = {7, 7, 7};
    ng_pumped_all all = {7, 7, 7};
    begin("a buffer that is too short: nothing is taken, nothing lost");
    want(open_with(&store, &cap, 1, &engine) == NG_OK, "open");
    want(ng_next_sampler(&engine, &sampler) == NG_OK, "sampler");
    trigger(&sampler, "aabb", 1, 1);
    memset(frames, UNWRITTEN, sizeof frames);
    want(ng_pump(&engine, frames, 0, &len, &pumped) == NG_SMALL_BUFFER, "no byte");
    want(ng_pump(&engine, frames, NG_PUMP_BYTES - 1, &len, &pumped) == NG_SMALL_BUFFER, "one less");
    want(ng_pump_all(&engine, frames, 0, &len, &all) == NG_SMALL_BUFFER, "no byte for all");
    want(ng_pump_all(&engine, frames, NG_PUMP_ALL_BYTES - 1, &len, &all) == NG_SMALL_BUFFER,
         "one less for all");
    want(len == 77 && pumped.taken == 7 && all.taken == 7 && frames[0] == UNWRITTEN,
         "nothing is written");
    pump(&engine, "0300000000aabb", 1, 0);
    free_all(&store, &engine, &sampler);
    end();
}

static void two_channels(void) {
    ng_store store = two_lists();
    ng_engine engine = NG_ENGINE_INIT;
    ng_sampler first = NG_SAMPLER_INIT, second = NG_SAMPLER_INIT, third = NG_SAMPLER_INIT;
    size_t caps[2] = {4, 4};
    begin("two event channels, and their samplers in rising order");
    want(open_with(&store, caps, 2, &engine) == NG_OK, "open");
    want(ng_store_free(&store) == NG_OK, "the store is freed first");
    want(ng_next_sampler(&engine, &first) == NG_OK, "channel 0");
    want(ng_next_sampler(&engine, &second) == NG_OK, "channel 1");
    want(ng_next_sampler(&engine, &third) == NG_NO_SAMPLER, "there is no other");
    trigger(&second, "b1", 2, 2);
    trigger(&first, "a1", 1, 1);
    trigger(&first, "a2", 1, 1);
    pump(&engine, "0200000000a10200010001b1", 2, 0);
    pump(&engine, "0200020000a2", 1, 0);
    want(ng_engine_free(&engine) == NG_OK, "the engine is freed before its samplers");
    trigger(&first, "a3", 1, 1);
    counts(&first, 0, 3, 0);
    want(ng_sampler_free(&first) == NG_OK && ng_sampler_free(&second) == NG_OK, "free");
    end();
}

#define MANY 120u

/* Triggers two engines alike: 120 samples of one and 70 of the other event channel, with a stop and
 * a start among them. */
static void trigger_alike(ng_sampler *first, ng_sampler *second) {
    ng_taken taken;
    for (size_t k = 0; k < MANY; k++) {
        const uint8_t image[1] = {(uint8_t)k};
        want(ng_trigger(first, image, 1, 0, &taken) == NG_OK, "trigger");
        if (k < 70) want(ng_trigger(second, image, 1, 0, &taken) == NG_OK, "trigger");
        if (k == 99) want(ng_stop(first, 0) == NG_OK && ng_start(first, 0) == NG_OK, "stop, start");
    }
}

/* An engine over two channels that was triggered so. */
static void open_alike(ng_store *store, ng_engine *engine, ng_sampler samplers[2]) {
    size_t caps[2] = {MANY + 1, MANY + 1};
    want(open_with(store, caps, 2, engine) == NG_OK, "open");
    for (size_t c = 0; c < 2; c++)
        want(ng_next_sampler(engine, &samplers[c]) == NG_OK, "sampler");
    trigger_alike(&samplers[0], &samplers[1]);
}

static void free_alike(ng_engine *engine, ng_sampler samplers[2]) {
    for (size_t c = 0; c < 2; c++) want(ng_sampler_free(&samplers[c]) == NG_OK, "free");
    want(ng_engine_free(engine) == NG_OK, "free");
}

/* All bytes that pumps give, one at a time. */
static size_t pump_singly(ng_engine *engine, uint8_t *bytes, ng_pumped_all *all) {
    size_t len = 0, more = 0;
    ng_pumped pumped = {0, 1, 0};
    while (pumped.taken > 0) {
        want(ng_pump(engine, frames, sizeof frames, &more, &pumped) == NG_OK, "pump");
        memcpy(bytes + len, frames, more);
        len += more;
        all->taken += pumped.taken;
        all->frames += pumped.frames;
        all->stopped |= pumped.stopped;
    }
    return len;
}

/* And all that pumps give that fill a buffer of so many bytes. A sample has 6 bytes. */
static size_t pump_together(ng_engine *engine, size_t cap, uint8_t *bytes, ng_pumped_all *all) {
    size_t len = 0, more = 1;
    ng_pumped_all pumped = {0, 0, 0};
    for (bool full = true; more > 0; len += more) {
        memset(frames, UNWRITTEN, sizeof frames);
        want(ng_pump_all(engine, frames, cap, &more, &pumped) == NG_OK, "pump all");
        want(more <= cap && more == 6 * pumped.frames, "whole samples");
        want(full || more == 0, "nothing is left behind a buffer that isn't full");
        full = cap - more < 6;
        for (size_t k = more; k < sizeof frames; k++) want(frames[k] == UNWRITTEN, "behind them");
        memcpy(bytes + len, frames, more);
        all->taken += pumped.taken;
        all->frames += pumped.frames;
        all->stopped |= pumped.stopped;
    }
    return len;
}

/* Buffers are filled, also such that end at one and at the other event channel. */
static void filled_buffers(void) {
    static const size_t caps[] = {NG_PUMP_ALL_BYTES, 546, 547, 1140, 1146, NG_PUMP_BYTES};
    static uint8_t wanted[6 * 2 * MANY], given[6 * 2 * MANY];
    ng_store store = two_lists();
    begin("filled buffers have what pumps give, in their order");
    for (size_t k = 0; k < sizeof caps / sizeof caps[0]; k++) {
        ng_engine one = NG_ENGINE_INIT, other = NG_ENGINE_INIT;
        ng_sampler of_one[2] = {NG_SAMPLER_INIT, NG_SAMPLER_INIT};
        ng_sampler of_other[2] = {NG_SAMPLER_INIT, NG_SAMPLER_INIT};
        ng_pumped_all singly = {0, 0, 0}, together = {0, 0, 0};
        open_alike(&store, &one, of_one);
        open_alike(&store, &other, of_other);
        unsigned long asked = memory_asked, held = memory_held;
        size_t len = pump_singly(&one, wanted, &singly);
        want(pump_together(&other, caps[k], given, &together) == len, "as many bytes");
        want(asked == memory_asked && held == memory_held, "none was asked for, none given back");
        want(memcmp(wanted, given, len) == 0, "the same bytes");
        want(singly.frames == together.frames && together.frames == len / 6, "the same frames");
        want(singly.taken == together.taken && together.taken == together.frames + 1, "one stop");
        want(singly.stopped == 1 && together.stopped == 1, "of list 0");
        free_alike(&one, of_one);
        free_alike(&other, of_other);
    }
    want(ng_store_free(&store) == NG_OK, "free");
    end();
}

/* A DAQ list of two ODTs of one byte each, with timestamps, behind a list of one ODT. A sample is
 * dropped, and the packets of the next one are those of docs/PROFILE.md, in each form. */
static void forms(void) {
    static const char *const packets[] = {
        "d5000200",         "d400000001",   "d400010002",       "d30001000001",     "d30001000101",
        "e20001000000",     "e1ff010000000000", "e20001000100", "e1ff010001000000",
        "e010010000000100", "de010100"};
    static const struct {
        ng_id_kind id;
        uint8_t stamp_size;
        const char *first, *marked;
    } rows[] = {
        {NG_ABSOLUTE, 1, "030000000104c1" "0200010002d1",
         "030002008104aa" "0200030002bb"},
        {NG_ABSOLUTE, 2, "04000000010403c1" "0200010002d1",
         "04000200810403aa" "0200030002bb"},
        {NG_ABSOLUTE, 4, "060000000104030201c1" "0200010002d1",
         "060002008104030201aa" "0200030002bb"},
        {NG_RELATIVE_BYTE, 1, "04000000000104c1" "030001000101d1",
         "04000200800104aa" "030003000101bb"},
        {NG_RELATIVE_BYTE, 2, "0500000000010403c1" "030001000101d1",
         "0500020080010403aa" "030003000101bb"},
        {NG_RELATIVE_BYTE, 4, "07000000000104030201c1" "030001000101d1",
         "07000200800104030201aa" "030003000101bb"},
        {NG_RELATIVE_WORD, 1, "0500000000010004c1" "04000100010100d1",
         "0500020080010004aa" "04000300010100bb"},
        {NG_RELATIVE_WORD, 2, "060000000001000403c1" "04000100010100d1",
         "060002008001000403aa" "04000300010100bb"},
        {NG_RELATIVE_WORD, 4, "0800000000010004030201c1" "04000100010100d1",
         "0800020080010004030201aa" "04000300010100bb"},
    };
    static const uint8_t images[3][2] = {{0xC1, 0xD1}, {0xC2, 0xD2}, {0xAA, 0xBB}};
    begin("frames in each form of packets");
    for (size_t k = 0; k < sizeof rows / sizeof rows[0]; k++) {
        ng_store store = NG_STORE_INIT;
        ng_engine engine = NG_ENGINE_INIT;
        ng_sampler sampler = NG_SAMPLER_INIT;
        size_t cap = 1;
        ng_taken taken;
        want(ng_store_new(1, 2, rows[k].id, rows[k].stamp_size, &store) == NG_OK, "new");
        for (size_t i = 0; i < sizeof packets / sizeof packets[0]; i++) send(&store, packets[i]);
        want(open_with(&store, &cap, 1, &engine) == NG_OK, "open");
        want(ng_next_sampler(&engine, &sampler) == NG_OK, "sampler");
        for (size_t i = 0; i < 3; i++) {
            want(ng_trigger(&sampler, images[i], 2, 0x01020304, &taken) == NG_OK, "trigger");
            want(taken.dropped == (i == 1 ? 2 : 0), "the second one finds no room");
            if (i == 0) continue;
            pump(&engine, i == 1 ? rows[k].first : rows[k].marked, 1, 0);
        }
        free_all(&store, &engine, &sampler);
    }
    end();
}

/* A drain that is refused with this status: all is as it was. */
static void no_drain(ng_engine *engine, size_t cap, ng_status status) {
    for (unsigned k = 0; k < 2; k++) {
        size_t len = 77;
        ng_pumped pumped = {7, 7, 7};
        bool left = k == 1;
        memset(frames, UNWRITTEN, sizeof frames);
        want(ng_drain(engine, frames, cap, &len, &pumped, &left) == status, "drain");
        want(len == 77 && left == (k == 1), "nothing is written");
        want(pumped.stopped == 7 && pumped.taken == 7 && pumped.frames == 7, "nothing is written");
        for (size_t i = 0; i < sizeof frames; i++) want(frames[i] == UNWRITTEN, "the buffer stays");
    }
}

/* Room for an account with one line more than it needs, and what stands in it before. */
#define ROOM (NG_MAX_LISTS + 1)
static const ng_line unwritten = {0xA5, 11, 22, 33, 44};
static ng_line lines[ROOM];

static bool same_line(const ng_line *one, const ng_line *other) {
    return one->list == other->list && one->due == other->due && one->written == other->written
           && one->dropped == other->dropped && one->left == other->left;
}

/* Wants these lines, in whose number they rise and add up, and behind them nothing written. */
static void want_lines(const ng_line *wanted, size_t count) {
    for (size_t k = 0; k < ROOM; k++)
        want(same_line(&lines[k], k < count ? &wanted[k] : &unwritten), "a line of the account");
    for (size_t k = 0; k < count; k++) {
        want(k == 0 || lines[k - 1].list < lines[k].list, "the lines rise");
        want(lines[k].due == lines[k].written + lines[k].dropped + lines[k].left, "they add up");
    }
}

static void unwrite_lines(void) {
    for (size_t k = 0; k < ROOM; k++) lines[k] = unwritten;
}

/* A closing that is refused with this status: all is as it was. */
static void no_close(ng_engine *engine, size_t cap, ng_status status) {
    for (unsigned k = 0; k < 2; k++) {
        ng_report report = {77, k == 1};
        unwrite_lines();
        want(ng_close(engine, lines, cap, &report) == status, "close");
        want(report.lines == 77 && report.failed == (k == 1), "nothing is written");
        want_lines(NULL, 0);
    }
}

/* Closes an engine, and wants this account; with room for the most lines, or for one more. */
static void close_with(ng_engine *engine, size_t cap, const ng_line *wanted, size_t count) {
    ng_report report = {77, true};
    size_t len = 77;
    ng_pumped pumped = {7, 7, 7};
    unwrite_lines();
    want(ng_close(engine, lines, cap, &report) == NG_OK, "close");
    want(report.lines == count && !report.failed, "the rest of the account");
    want_lines(wanted, count);
    no_close(engine, ROOM, NG_EMPTY);
    no_drain(engine, sizeof frames, NG_EMPTY);
    want(ng_pump(engine, frames, sizeof frames, &len, &pumped) == NG_EMPTY, "pump once closed");
    want(len == 77 && pumped.taken == 7, "nothing is written");
    want(ng_engine_free(engine) == NG_EMPTY, "free once closed");
}

/* The calls of a sampler that was finished find an empty handle. */
static void is_empty(ng_sampler *sampler) {
    uint8_t image[2] = {0};
    ng_taken taken = {7, 7, 7};
    ng_counts told = {7, 7, 7};
    want(ng_trigger(sampler, image, 2, 0, &taken) == NG_EMPTY && taken.due == 7, "trigger");
    want(ng_start(sampler, 0) == NG_EMPTY && ng_stop(sampler, 0) == NG_EMPTY, "start, stop");
    want(ng_counts_of(sampler, 0, &told) == NG_EMPTY && told.due == 7, "counts");
    want(ng_finish(sampler) == NG_EMPTY, "finish again");
    want(ng_sampler_free(sampler) == NG_EMPTY, "free");
}

static void finish(ng_sampler *sampler) {
    want(ng_finish(sampler) == NG_OK, "finish");
    is_empty(sampler);
}

static void finishing(void) {
    static const ng_line account[] = {{0, 2, 1, 0, 1}};
    ng_store store = one_list();
    ng_engine engine = NG_ENGINE_INIT;
    ng_sampler sampler = NG_SAMPLER_INIT;
    size_t cap = 2;
    begin("the end: samplers are finished");
    want(ng_finish(&sampler) == NG_EMPTY, "no sampler");
    want(open_with(&store, &cap, 1, &engine) == NG_OK, "open");
    want(ng_next_sampler(&engine, &sampler) == NG_OK, "sampler");
    trigger(&sampler, "aabb", 1, 1);
    trigger(&sampler, "ccdd", 1, 1);
    finish(&sampler);
    want(ng_next_sampler(&engine, &sampler) == NG_NO_SAMPLER, "it isn't handed out again");
    pump(&engine, "0300000000aabb", 1, 0);
    close_with(&engine, NG_MAX_LISTS, account, 1);
    want(ng_next_sampler(&engine, &sampler) == NG_EMPTY, "no engine");

    want(open_with(&store, &cap, 1, &engine) == NG_OK, "the handle is filled again");
    want(ng_next_sampler(&engine, &sampler) == NG_OK, "and that of the sampler");
    trigger(&sampler, "aabb", 1, 1);
    want(ng_engine_free(&engine) == NG_OK, "the engine is freed first");
    want(ng_finish(&sampler) == NG_NO_ENGINE, "no engine to go back to");
    is_empty(&sampler);

    want(open_with(&store, &cap, 1, &engine) == NG_OK, "open");
    want(ng_next_sampler(&engine, &sampler) == NG_OK, "sampler");
    trigger(&sampler, "aabb", 1, 1);
    finish(&sampler);
    want(ng_engine_free(&engine) == NG_OK, "an engine may be freed in the place of closing it");
    want(ng_store_free(&store) == NG_OK, "free");
    end();
}

/* What is answered while one of two samplers is there still. */
static void is_unfinished(ng_engine *engine) {
    no_drain(engine, NG_PUMP_BYTES - 1, NG_SMALL_BUFFER);
    no_drain(engine, 0, NG_SMALL_BUFFER);
    no_drain(engine, sizeof frames, NG_UNFINISHED);
    no_close(engine, NG_MAX_LISTS - 1, NG_SMALL_BUFFER);
    no_close(engine, 0, NG_SMALL_BUFFER);
    no_close(engine, NG_MAX_LISTS, NG_UNFINISHED);
}

static void unfinished(void) {
    static const ng_line account[] = {{0, 1, 0, 0, 1}, {1, 1, 0, 0, 1}};
    ng_store store = two_lists();
    ng_engine engine = NG_ENGINE_INIT;
    ng_sampler first = NG_SAMPLER_INIT, second = NG_SAMPLER_INIT;
    size_t caps[2] = {4, 4};
    begin("the end: an engine one of whose samplers isn't finished");
    no_drain(&engine, 0, NG_EMPTY);
    no_close(&engine, 0, NG_EMPTY);
    for (unsigned k = 0; k < 2; k++) {
        want(open_with(&store, caps, 2, &engine) == NG_OK, "open");
        is_unfinished(&engine); /* both are in the engine */
        want(ng_next_sampler(&engine, &first) == NG_OK, "channel 0");
        is_unfinished(&engine);
        trigger(&first, "a1", 1, 1);
        if (k == 0) finish(&first);
        is_unfinished(&engine); /* one is in the engine */
        want(ng_next_sampler(&engine, &second) == NG_OK, "channel 1");
        trigger(&second, "b1", 2, 2);
        is_unfinished(&engine);
        finish(k == 0 ? &second : &first);
        if (k == 1) is_unfinished(&engine); /* one is handed out */
        if (k == 1) finish(&second);
        no_drain(&engine, NG_PUMP_BYTES - 1, NG_SMALL_BUFFER);
        no_close(&engine, NG_MAX_LISTS - 1, NG_SMALL_BUFFER);
        close_with(&engine, NG_MAX_LISTS, account, 2);
    }
    want(open_with(&store, caps, 2, &engine) == NG_OK, "open");
    want(ng_next_sampler(&engine, &first) == NG_OK, "channel 0");
    want(ng_next_sampler(&engine, &second) == NG_OK, "channel 1");
    trigger(&second, "b1", 2, 2);
    want(ng_sampler_free(&first) == NG_OK, "one is freed, and not finished");
    finish(&second);
    is_unfinished(&engine);
    pump(&engine, "0200000001b1", 1, 0);
    want(ng_engine_free(&engine) == NG_OK && ng_store_free(&store) == NG_OK, "free");
    end();
}

/* The rounds of a drain are those of pumps, whichever sampler was finished first. */
static void rounds(void) {
    static const ng_line account[] = {{0, 3, 3, 0, 0}, {1, 3, 2, 1, 0}};
    ng_store store = two_lists();
    size_t caps[2] = {3, 2};
    begin("the end: rings are drained in rounds");
    for (unsigned k = 0; k < 4; k++) {
        ng_engine engine = NG_ENGINE_INIT;
        ng_sampler first = NG_SAMPLER_INIT, second = NG_SAMPLER_INIT;
        want(open_with(&store, caps, 2, &engine) == NG_OK, "open");
        want(ng_next_sampler(&engine, &first) == NG_OK, "channel 0");
        want(ng_next_sampler(&engine, &second) == NG_OK, "channel 1");
        trigger(&first, "a1", 1, 1);
        trigger(&first, "a2", 1, 1);
        trigger(&second, "b1", 2, 2);
        if (k < 2) pump(&engine, "0200000000a1" "0200010001b1", 2, 0);
        trigger(&second, "b2", 2, 2);
        if (k < 2) want(ng_stop(&second, 1) == NG_OK, "stop");
        if (k < 2) want(ng_start(&second, 1) == NG_OK, "start");
        trigger(&second, "b3", 2, 0);
        trigger(&first, "a3", 1, 1);
        finish(k % 2 == 0 ? &second : &first);
        finish(k % 2 == 0 ? &first : &second);
        if (k >= 2) pump(&engine, "0200000000a1" "0200010001b1", 2, 0); /* pumps go on */
        drain(&engine, "0200020000a2" "0200030001b2", 2, 0);
        if (k < 2) drain(&engine, "0200040000a3", 2, 2); /* and the stop of list 1 */
        else drain(&engine, "0200040000a3", 1, 0);
        drain(&engine, "", 0, 0);
        drain(&engine, "", 0, 0);
        pump(&engine, "", 0, 0);
        close_with(&engine, ROOM, account, 2);
    }
    want(ng_store_free(&store) == NG_OK, "free");
    end();
}

/* The frame of an image whose first byte this is, with its counter. */
static const char *frame(unsigned counter, unsigned pid, unsigned image) {
    static char text[16];
    sprintf(text, "0300%02x00%02x%02xbb", counter, pid, image);
    return text;
}

/* A ring of 544 bytes has room for 34 samples of a packet of 3 bytes, which take up 16 bytes each;
 * then a stop, which takes up 3, has none. */
static void full_rings(void) {
    static const ng_line account[] = {{0, 36, 34, 1, 1}};
    static const size_t caps[1] = {544};
    ng_store store = one_list();
    ng_engine engine = NG_ENGINE_INIT;
    ng_sampler sampler = NG_SAMPLER_INIT;
    uint8_t image[2] = {0, 0xBB};
    ng_taken taken;
    begin("a full ring: an overload, a stop without room, and the end");
    want(ng_open(&store, NG_RING_BYTES, caps, 1, &engine) == NG_OK, "open");
    want(ng_next_sampler(&engine, &sampler) == NG_OK, "sampler");
    for (; image[0] < 35; image[0]++) {
        want(ng_trigger(&sampler, image, 2, 0, &taken) == NG_OK, "trigger");
        want(taken.accepted == (image[0] < 34 ? 1 : 0), "34 samples have room");
    }
    want(ng_stop(&sampler, 0) == NG_NO_ROOM, "no room for the stop marker");
    pump(&engine, frame(0, 0, 0), 1, 0);
    want(ng_trigger(&sampler, image, 2, 0, &taken) == NG_OK && taken.accepted == 1, "room again");
    pump(&engine, frame(1, 0, 1), 1, 0);
    want(ng_stop(&sampler, 0) == NG_OK, "stop");
    counts(&sampler, 0, 36, 1);
    finish(&sampler);
    for (unsigned k = 2; k < 34; k++) drain(&engine, frame(k, 0, k), 1, 0);
    close_with(&engine, ROOM, account, 1);
    want(ng_store_free(&store) == NG_OK, "free");
    end();
}

/* Behind a drop the first sample that finds room is marked, and all that was sent is drained. */
static void drained_rings(void) {
    static const ng_line account[] = {{0, 36, 35, 1, 0}};
    static const size_t caps[1] = {544};
    ng_store store = one_list();
    ng_engine engine = NG_ENGINE_INIT;
    ng_sampler sampler = NG_SAMPLER_INIT;
    uint8_t image[2] = {0, 0xBB};
    ng_taken taken;
    begin("a full ring is drained: the sample behind the drop is marked");
    want(ng_open(&store, NG_RING_BYTES, caps, 1, &engine) == NG_OK, "open");
    want(ng_next_sampler(&engine, &sampler) == NG_OK, "sampler");
    for (; image[0] < 35; image[0]++)
        want(ng_trigger(&sampler, image, 2, 0, &taken) == NG_OK, "trigger");
    pump(&engine, frame(0, 0, 0), 1, 0);
    want(ng_trigger(&sampler, image, 2, 0, &taken) == NG_OK && taken.accepted == 1, "room again");
    pump(&engine, frame(1, 0, 1), 1, 0);
    want(ng_stop(&sampler, 0) == NG_OK, "stop");
    finish(&sampler);
    for (unsigned k = 2; k < 34; k++) drain(&engine, frame(k, 0, k), 1, 0);
    drain(&engine, frame(34, 0x80, 35), 1, 0);
    drain(&engine, "", 1, 1);
    drain(&engine, "", 0, 0);
    close_with(&engine, ROOM, account, 1);
    want(ng_store_free(&store) == NG_OK, "free");
    end();
}

/* Images of one byte, and four DAQ lists: list 0 of event channel 1; list 1 of event channel 0 with
 * a prescaler of 2; list 2 of event channel 0, which is ready and doesn't run; and list 3, which
 * isn't ready. */
static ng_store crossed_lists(void) {
    static const char *const packets[] = {
        "d5000400",         "d400000001",       "d400010001",       "d400020001",
        "d30000000001",     "d30001000001",     "d30002000001",     "e20000000000",
        "e1ff010000000000", "e000000001000100", "e20001000000",     "e1ff010000000000",
        "e000010000000200", "e20002000000",     "e1ff010000000000", "e000020000000100",
        "de010000",         "de010100"};
    ng_store store = NG_STORE_INIT;
    want(ng_store_new(2, 1, NG_ABSOLUTE, 4, &store) == NG_OK, "new");
    for (size_t k = 0; k < sizeof packets / sizeof packets[0]; k++) send(&store, packets[k]);
    return store;
}

/* The account of the same triggers behind 0 to 3 rounds of a drain. */
static void accounts(void) {
    static const ng_line account[][3] = {
        {{0, 3, 1, 1, 1}, {1, 4, 1, 1, 2}, {2, 0, 0, 0, 0}},
        {{0, 3, 2, 1, 0}, {1, 4, 2, 1, 1}, {2, 0, 0, 0, 0}},
        {{0, 3, 2, 1, 0}, {1, 4, 3, 1, 0}, {2, 0, 0, 0, 0}},
        {{0, 3, 2, 1, 0}, {1, 4, 3, 1, 0}, {2, 0, 0, 0, 0}},
    };
    ng_store store = crossed_lists();
    size_t caps[2] = {2, 1};
    begin("the end: accounts, a line for each list in rising number");
    for (unsigned k = 0; k < 4; k++) {
        ng_engine engine = NG_ENGINE_INIT;
        ng_sampler first = NG_SAMPLER_INIT, second = NG_SAMPLER_INIT;
        want(open_with(&store, caps, 2, &engine) == NG_OK, "open");
        want(ng_next_sampler(&engine, &first) == NG_OK, "channel 0");
        want(ng_next_sampler(&engine, &second) == NG_OK, "channel 1");
        trigger(&first, "a1", 2, 2);
        trigger(&first, "a2", 0, 0);
        trigger(&first, "a3", 2, 2);
        trigger(&first, "a4", 0, 0);
        trigger(&first, "a5", 2, 0);
        trigger(&second, "b1", 1, 1);
        trigger(&second, "b2", 1, 0);
        pump(&engine, "0200000001a1" "0200010000b1", 2, 0);
        trigger(&second, "b3", 1, 1);
        trigger(&first, "a6", 0, 0);
        trigger(&first, "a7", 2, 2);
        finish(&second);
        finish(&first);
        if (k > 0) drain(&engine, "0200020001a3" "0200030080b3", 2, 0);
        if (k > 1) drain(&engine, "0200040081a7", 1, 0);
        if (k > 2) drain(&engine, "", 0, 0);
        close_with(&engine, k % 2 == 0 ? NG_MAX_LISTS : ROOM, account[k], 3);
    }
    want(ng_store_free(&store) == NG_OK, "free");
    end();
}

/* Frees an engine with its two samplers; or finishes these, and closes it. */
static void give_up(ng_engine *engine, ng_sampler *first, ng_sampler *second, bool closes) {
    static const ng_line account[] = {{0, 0, 0, 0, 0}, {1, 0, 0, 0, 0}};
    if (!closes) {
        want(ng_engine_free(engine) == NG_OK, "free");
        want(ng_sampler_free(first) == NG_OK && ng_sampler_free(second) == NG_OK, "free");
        return;
    }
    finish(first);
    finish(second);
    drain(engine, "", 0, 0);
    close_with(engine, NG_MAX_LISTS, account, 2);
}

/* Each allocation of an opening and of its samplers is refused in turn. Answers how many. */
static unsigned long refusals(ng_store *store, bool closes) {
    size_t caps[2] = {4, 4};
    for (unsigned long k = 0;; k++) {
        ng_engine engine = NG_ENGINE_INIT;
        ng_sampler first = NG_SAMPLER_INIT, second = NG_SAMPLER_INIT;
        unsigned long held = memory_held;
        memory_refuse_behind(k);
        ng_status opened = open_with(store, caps, 2, &engine);
        unsigned long before = memory_held;
        ng_status one = opened == NG_OK ? ng_next_sampler(&engine, &first) : NG_OK;
        if (one == NG_MEMORY) want(before == memory_held, "what was had is given back");
        before = memory_held;
        ng_status two = opened == NG_OK ? ng_next_sampler(&engine, &second) : NG_OK;
        if (two == NG_MEMORY) want(before == memory_held, "what was had is given back");
        bool refused = memory_refused();
        unsigned long lacking = (opened == NG_MEMORY) + (one == NG_MEMORY) + (two == NG_MEMORY);
        want(lacking == (refused ? 1u : 0u), "want of memory is answered once, where it was met");
        if (opened == NG_MEMORY) {
            want(held == memory_held, "what was had is given back");
            want(open_with(store, caps, 2, &engine) == NG_OK, "open again");
            want(ng_next_sampler(&engine, &first) == NG_OK, "sampler 0");
            want(ng_next_sampler(&engine, &second) == NG_OK, "sampler 1");
        }
        /* the sampler that wasn't handed out comes next, and is that of its channel */
        if (one == NG_MEMORY) want(ng_next_sampler(&engine, &first) == NG_OK, "sampler 1");
        if (two == NG_MEMORY) want(ng_next_sampler(&engine, &second) == NG_OK, "sampler 1");
        want(ng_start(one == NG_MEMORY ? &second : &first, 1) == NG_NOT_OF_CHANNEL, "channel 0");
        want(ng_start(one == NG_MEMORY ? &first : &second, 0) == NG_NOT_OF_CHANNEL, "channel 1");
        give_up(&engine, &first, &second, closes);
        want(held == memory_held, "all is given back");
        if (!refused) return k;
    }
}

/* Once all samplers were handed out no memory is asked for. */
static void no_sampler(ng_store *store) {
    size_t caps[2] = {4, 4};
    ng_engine engine = NG_ENGINE_INIT;
    ng_sampler first = NG_SAMPLER_INIT, second = NG_SAMPLER_INIT, third = NG_SAMPLER_INIT;
    want(open_with(store, caps, 2, &engine) == NG_OK, "open");
    want(ng_next_sampler(&engine, &first) == NG_OK, "sampler 0");
    want(ng_next_sampler(&engine, &second) == NG_OK, "sampler 1");
    memory_refuse_behind(0);
    want(ng_next_sampler(&engine, &third) == NG_NO_SAMPLER, "this is looked at before memory");
    want(ng_next_sampler(&engine, &first) == NG_IN_USE, "this too");
    want(!memory_refused(), "no memory is asked for");
    give_up(&engine, &first, &second, true);
}

static void no_memory(void) {
    ng_store store = two_lists();
    begin("want of memory");
    no_sampler(&store);
    unsigned long count = refusals(&store, false);
    want(count > 8, "some were refused");
    want(refusals(&store, true) == count, "as many where the engines are closed");
    want(ng_store_free(&store) == NG_OK, "free");
    end();
}

static void long_run(void) {
    static const ng_line account[] = {{0, 100100, 100063, 37, 0}};
    unsigned long before = memory_held;
    ng_store store = one_list();
    ng_engine engine = NG_ENGINE_INIT;
    ng_sampler sampler = NG_SAMPLER_INIT;
    size_t cap = 64, len = 0;
    ng_taken taken;
    ng_pumped pumped;
    ng_report report = {77, true};
    unsigned long whole = 0;
    begin("a hundred thousand triggers and pumps, and the end, ask for no memory");
    want(open_with(&store, &cap, 1, &engine) == NG_OK, "open");
    want(ng_next_sampler(&engine, &sampler) == NG_OK, "sampler");
    unsigned long asked = memory_asked, held = memory_held;
    for (uint32_t k = 0; k < 100000; k++) {
        uint8_t image[2] = {(uint8_t)k, (uint8_t)(k >> 8)};
        want(ng_trigger(&sampler, image, 2, k, &taken) == NG_OK && taken.accepted == 1, "trigger");
        want(ng_pump(&engine, frames, sizeof frames, &len, &pumped) == NG_OK, "pump");
        want(len == 7 && frames[0] == 3 && frames[1] == 0 && frames[4] == 0, "a whole frame");
        want(frames[2] == (k & 0xFF) && frames[3] == ((k >> 8) & 0xFF), "its counter");
        want(frames[5] == image[0] && frames[6] == image[1], "its bytes");
        whole += pumped.frames;
    }
    want(ng_stop(&sampler, 0) == NG_OK && ng_start(&sampler, 0) == NG_OK, "stop, start");
    want(asked == memory_asked && held == memory_held, "none was asked for, none given back");
    want(whole == 100000, "a frame for each trigger");
    counts(&sampler, 0, 100000, 0);
    for (uint32_t k = 0; k < 100; k++) {
        uint8_t image[2] = {0xEE, (uint8_t)k};
        want(ng_trigger(&sampler, image, 2, k, &taken) == NG_OK, "trigger");
    }
    want(ng_finish(&sampler) == NG_OK, "finish");
    for (bool left = true; left; whole += pumped.frames)
        want(ng_drain(&engine, frames, sizeof frames, &len, &pumped, &left) == NG_OK, "drain");
    want(whole == 100063, "what had room behind the stop was drained");
    unwrite_lines();
    want(ng_close(&engine, lines, NG_MAX_LISTS, &report) == NG_OK, "close");
    want(asked == memory_asked, "none was asked for at the end");
    want(report.lines == 1 && !report.failed, "the rest of the account");
    want_lines(account, 1);
    want(ng_store_free(&store) == NG_OK, "free");
    want(before == memory_held, "all is given back");
    end();
}

int main(void) {
    static char text[4096];
    setvbuf(stdout, text, _IOFBF, sizeof text);
    unsigned long held = memory_held;
    openings();
    empty_handles();
    samples();
    wrong_images();
    small_buffers();
    two_channels();
    filled_buffers();
    forms();
    finishing();
    unfinished();
    rounds();
    accounts();
    no_memory();
    long_run();
    ring = NG_RING_BYTES;
    openings();
    wrong_images();
    small_buffers();
    two_channels();
    filled_buffers();
    finishing();
    unfinished();
    full_rings();
    drained_rings();
    no_memory();
    long_run();
    ring = NG_RING_ITEMS;
    begin("all memory was given back");
    want(memory_held == held, "a block is left");
    end();
    return 0;
}
