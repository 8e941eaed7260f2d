/* Two samplers in threads of their own, beside a transmitter in the first thread, many times over.
 * Each thread finishes its sampler itself; the first one drains the rings and closes the engine, in
 * every other pair of runs before it joins the threads. The images are numbered, so that each frame
 * tells what was dropped before it. Prints one line; ends with status 1 at the first thing that
 * isn't as wanted. */
#include "memory.h"
#include "nerthogal.h"
#include <pthread.h>
#include <stdio.h>
#include <stdlib.h>
#include <string.h>

#define CHANNELS 2
#define TRIGGERS 400u
#define PUMPS 100
#define TIMES 1000

static void want(bool holds, const char *what) {
    if (holds) return;
    printf("FAILED: %s\n", what);
    exit(1);
}

/* A DAQ list for each event channel, whose one entry is the whole image of four bytes. */
static void set_up(ng_store *store) {
    static const struct {
        uint8_t bytes[8];
        size_t len;
    } packets[] = {
        {{0xD5, 0, 2, 0}, 4},
        {{0xD4, 0, 0, 0, 1}, 5},
        {{0xD4, 0, 1, 0, 1}, 5},
        {{0xD3, 0, 0, 0, 0, 1}, 6},
        {{0xD3, 0, 1, 0, 0, 1}, 6},
        {{0xE2, 0, 0, 0, 0, 0}, 6},
        {{0xE1, 0xFF, 4, 0, 0, 0, 0, 0}, 8},
        {{0xE0, 0, 0, 0, 0, 0, 1, 0}, 8},
        {{0xE2, 0, 1, 0, 0, 0}, 6},
        {{0xE1, 0xFF, 4, 0, 0, 0, 0, 0}, 8},
        {{0xE0, 0, 1, 0, 1, 0, 1, 0}, 8},
        {{0xDE, 1, 0, 0}, 4},
        {{0xDE, 1, 1, 0}, 4},
    };
    uint8_t reply[NG_REPLY_BYTES];
    size_t len;
    want(ng_store_new(CHANNELS, 4, NG_ABSOLUTE, 4, store) == NG_OK, "new");
    for (size_t k = 0; k < sizeof packets / sizeof packets[0]; k++) {
        want(ng_store_command(store, packets[k].bytes, packets[k].len, reply, sizeof reply, &len)
                 == NG_OK, "command");
        want(reply[0] == 0xFF, "reply");
    }
}

/* Takes triggers by the sampler that it is handed, and finishes it. */
static void *sample(void *argument) {
    ng_sampler *sampler = argument;
    for (uint32_t k = 0; k < TRIGGERS; k++) {
        uint8_t image[4] = {(uint8_t)k, (uint8_t)(k >> 8), 0, 0};
        ng_taken taken;
        if (ng_trigger(sampler, image, 4, 0, &taken) != NG_OK) return argument;
        if ((taken.accepted | taken.dropped) != taken.due) return argument;
    }
    return ng_finish(sampler) == NG_OK ? NULL : argument;
}

/* What the frames so far told. */
static uint32_t counter, received[CHANNELS], next[CHANNELS];

static void look_at(const uint8_t *frame) {
    uint32_t list = frame[4] & 0x7Fu, number = frame[5] | (uint32_t)frame[6] << 8;
    want(frame[0] == 5 && frame[1] == 0, "LEN");
    want((frame[2] | (uint32_t)frame[3] << 8) == (counter & 0xFFFF), "CTR rises by one");
    want(list < CHANNELS && number >= next[list], "a list's samples come in order");
    want(((frame[4] & 0x80) != 0) == (number > next[list]), "an overload marks each gap, no other");
    counter++;
    received[list]++;
    next[list] = number + 1;
}

static uint8_t frames[NG_PUMP_BYTES];

static void look_at_all(size_t len, unsigned count) {
    want(len == 9u * count, "whole frames");
    for (size_t at = 0; at < len; at += 9) look_at(frames + at);
}

static void pump(ng_engine *engine) {
    size_t len = 0;
    ng_pumped pumped;
    want(ng_pump(engine, frames, sizeof frames, &len, &pumped) == NG_OK, "pump");
    look_at_all(len, pumped.frames);
}

/* A round of a drain, or a pump while a sampler isn't finished. Answers whether there is more. */
static bool drain(ng_engine *engine) {
    size_t len = 0;
    ng_pumped pumped;
    bool left = true;
    ng_status status = ng_drain(engine, frames, sizeof frames, &len, &pumped, &left);
    if (status == NG_UNFINISHED) {
        pump(engine);
        return true;
    }
    want(status == NG_OK, "drain");
    want(left == (pumped.taken > 0), "a round takes what was left before it");
    look_at_all(len, pumped.frames);
    return left;
}

static void join(pthread_t *threads) {
    for (int c = 0; c < CHANNELS; c++) {
        void *fault = NULL;
        want(pthread_join(threads[c], &fault) == 0 && fault == NULL, "a sampler's thread");
    }
}

/* Closes the engine, whose account says what the frames told. */
static void account(ng_engine *engine) {
    ng_line lines[NG_MAX_LISTS];
    ng_report report;
    want(ng_close(engine, lines, NG_MAX_LISTS, &report) == NG_OK, "close");
    want(report.lines == CHANNELS && !report.failed, "the rest of the account");
    for (size_t l = 0; l < CHANNELS; l++) {
        want(lines[l].list == l && lines[l].due == TRIGGERS, "due");
        want(lines[l].due == lines[l].written + lines[l].dropped + lines[l].left, "it adds up");
        want(lines[l].left == 0, "nothing is left behind a drain");
        want(lines[l].written == received[l], "what was written was received");
    }
}

static void run(ng_ring ring, size_t cap, bool joins) {
    const size_t caps[CHANNELS] = {cap, cap};
    ng_store store = NG_STORE_INIT;
    ng_engine engine = NG_ENGINE_INIT;
    ng_sampler samplers[CHANNELS] = {NG_SAMPLER_INIT, NG_SAMPLER_INIT};
    pthread_t threads[CHANNELS];
    unsigned long held = memory_held;
    set_up(&store);
    want(ng_open(&store, ring, caps, CHANNELS, &engine) == NG_OK, "open");
    want(ng_store_free(&store) == NG_OK, "free");
    counter = 0;
    for (int c = 0; c < CHANNELS; c++) {
        received[c] = next[c] = 0;
        want(ng_next_sampler(&engine, &samplers[c]) == NG_OK, "sampler");
    }
    for (int c = 0; c < CHANNELS; c++)
        want(pthread_create(&threads[c], NULL, sample, &samplers[c]) == 0, "thread");
    for (int k = 0; k < PUMPS; k++) pump(&engine);
    if (joins) join(threads);
    while (drain(&engine)) {}
    account(&engine);
    if (!joins) join(threads);
    want(memory_held == held, "all memory was given back");
}

int main(void) {
    for (int k = 0; k < TIMES; k++) {
        run(NG_RING_ITEMS, k % 2 == 0 ? 4 : NG_MAX_RING, k % 4 < 2);
        run(NG_RING_BYTES, k % 2 == 0 ? NG_MIN_BYTE_RING : NG_MAX_BYTE_RING, k % 4 < 2);
    }
    printf("two samplers in threads beside a transmitter: ok\n");
    return 0;
}
