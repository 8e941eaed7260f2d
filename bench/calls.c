/* Measures an engine through the calls for C, in one thread: a round is 64 triggers, which fill the
 * ring, and then pumps until one takes nothing: each of one sample, or as many as fill a buffer of
 * 1400 bytes. Prints for each DAQ list what a sample takes, from its trigger to its frames in the
 * caller's buffer, in tenths of a nanosecond: the fastest of seven measurements of half a million
 * samples each way. `daq_bench engine` measures the same without C. */
#define _POSIX_C_SOURCE 200809L
#include "nerthogal.h"
#include <stdio.h>
#include <stdlib.h>
#include <time.h>

#define PLACES 64u
#define ROUNDS (1u << 13)
#define MEASUREMENTS 7
#define DATAGRAM 1400u

/* One DAQ list of event channel 0: so many ODTs, each of so many entries of `size` bytes, `step`
 * bytes from one to the next. */
typedef struct {
    const char *name;
    uint8_t mode, odts, entries, size, step;
} list;

static const list lists[] = {
    {"one entry of 2 bytes", 0x00, 1, 1, 2, 2},
    {"eight entries of 4 bytes, apart, and a timestamp", 0x10, 1, 8, 4, 100},
    {"one entry of 62 bytes", 0x00, 1, 1, 62, 62},
    {"eight ODTs of 64 bytes", 0x00, 8, 1, 63, 63},
    {"seven ODTs of 15 entries of 4 bytes, apart", 0x00, 7, 15, 4, 36},
};

static void want(bool holds, const char *what) {
    if (holds) return;
    fprintf(stderr, "calls: %s\n", what);
    exit(1);
}

static void command(ng_store *store, const uint8_t *bytes, size_t len) {
    uint8_t reply[NG_REPLY_BYTES];
    size_t reply_len;
    want(ng_store_command(store, bytes, len, reply, sizeof reply, &reply_len) == NG_OK, "command");
    want(reply[0] == 0xFF, "a command is accepted");
}

static void write_entries(ng_store *store, const list *set) {
    for (uint8_t odt = 0; odt < set->odts; odt++) {
        const uint8_t pointer[] = {0xE2, 0, 0, 0, odt, 0};
        command(store, pointer, sizeof pointer);
        for (uint8_t entry = 0; entry < set->entries; entry++) {
            unsigned address = (unsigned)(odt * set->entries + entry) * set->step;
            const uint8_t packet[] = {0xE1, 0xFF, set->size, 0, (uint8_t)address,
                                      (uint8_t)(address >> 8), 0, 0};
            command(store, packet, sizeof packet);
        }
    }
}

static void set_up(ng_store *store, const list *set) {
    const uint8_t daq[] = {0xD5, 0, 1, 0}, odts[] = {0xD4, 0, 0, 0, set->odts},
                  mode[] = {0xE0, set->mode, 0, 0, 0, 0, 1, 0}, start[] = {0xDE, 1, 0, 0};
    want(ng_store_new(1, NG_MAX_IMAGE, NG_ABSOLUTE, 4, store) == NG_OK, "new");
    command(store, daq, sizeof daq);
    command(store, odts, sizeof odts);
    for (uint8_t odt = 0; odt < set->odts; odt++) {
        const uint8_t entries[] = {0xD3, 0, 0, 0, odt, set->entries};
        command(store, entries, sizeof entries);
    }
    write_entries(store, set);
    command(store, mode, sizeof mode);
    command(store, start, sizeof start);
}

/* Pumps until nothing is left, and answers how many bytes the frames have. */
typedef size_t (*emptying)(ng_engine *engine);

static size_t one_by_one(ng_engine *engine) {
    static uint8_t frames[NG_PUMP_BYTES];
    size_t len, bytes = 0;
    ng_pumped pumped;
    do {
        want(ng_pump(engine, frames, sizeof frames, &len, &pumped) == NG_OK, "pump");
        bytes += len;
    } while (pumped.taken > 0);
    return bytes;
}

static size_t by_datagrams(ng_engine *engine) {
    static uint8_t frames[DATAGRAM];
    size_t len, bytes = 0;
    ng_pumped_all pumped;
    do {
        want(ng_pump_all(engine, frames, sizeof frames, &len, &pumped) == NG_OK, "pump all");
        bytes += len;
    } while (pumped.taken > 0);
    return bytes;
}

/* One round. Answers how many bytes its frames have. */
static size_t round_of(ng_sampler *sampler, ng_engine *engine, const uint8_t *image,
                       emptying empty) {
    ng_taken taken;
    for (uint32_t k = 0; k < PLACES; k++) {
        want(ng_trigger(sampler, image, NG_MAX_IMAGE, k, &taken) == NG_OK, "trigger");
        want(taken.dropped == 0, "nothing is dropped");
    }
    return empty(engine);
}

static double nanoseconds(void) {
    struct timespec now;
    clock_gettime(CLOCK_MONOTONIC, &now);
    return 1e9 * (double)now.tv_sec + (double)now.tv_nsec;
}

static double measure(ng_sampler *sampler, ng_engine *engine, const uint8_t *image,
                      emptying empty) {
    double least = 0;
    for (int k = 0; k < MEASUREMENTS; k++) {
        double start = nanoseconds();
        for (uint32_t round = 0; round < ROUNDS; round++) round_of(sampler, engine, image, empty);
        double took = nanoseconds() - start;
        if (k == 0 || took < least) least = took;
    }
    return least / (ROUNDS * (double)PLACES);
}

int main(void) {
    static const uint8_t image[NG_MAX_IMAGE] = {0xA5};
    const size_t caps[] = {PLACES};
    for (size_t k = 0; k < sizeof lists / sizeof lists[0]; k++) {
        ng_store store = NG_STORE_INIT;
        ng_engine engine = NG_ENGINE_INIT;
        ng_sampler sampler = NG_SAMPLER_INIT;
        set_up(&store, &lists[k]);
        want(ng_open(&store, NG_RING_ITEMS, caps, 1, &engine) == NG_OK, "open");
        want(ng_next_sampler(&engine, &sampler) == NG_OK, "sampler");
        size_t bytes = round_of(&sampler, &engine, image, one_by_one) / PLACES;
        printf("%s, %u places, %zu bytes, through C: one thread %.0f, datagrams %.0f\n",
               lists[k].name, PLACES, bytes, 10 * measure(&sampler, &engine, image, one_by_one),
               10 * measure(&sampler, &engine, image, by_datagrams));
        want(ng_sampler_free(&sampler) == NG_OK && ng_engine_free(&engine) == NG_OK, "free");
        want(ng_store_free(&store) == NG_OK, "free");
    }
    return 0;
}
