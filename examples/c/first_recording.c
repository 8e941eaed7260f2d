/* Samples three images by one DAQ list, through a ring of one place, and prints the frames and the
 * list's counts.
 *
 * Look at the second frame: the sample before it found no room and was dropped, so the highest bit
 * of its PID is set (80). */
#include "nerthogal.h"
#include <stdio.h>

/* Of one DAQ list, which runs, the one entry is the whole image of two bytes. */
static ng_status set_up(ng_store *store) {
    static const struct {
        uint8_t bytes[8];
        size_t len;
    } packets[] = {
        {{0xD5, 0, 1, 0}, 4},
        {{0xD4, 0, 0, 0, 1}, 5},
        {{0xD3, 0, 0, 0, 0, 1}, 6},
        {{0xE2, 0, 0, 0, 0, 0}, 6},
        {{0xE1, 0xFF, 2, 0, 0, 0, 0, 0}, 8},
        {{0xE0, 0, 0, 0, 0, 0, 1, 0}, 8},
        {{0xDE, 1, 0, 0}, 4},
    };
    uint8_t reply[NG_REPLY_BYTES];
    size_t len;
    ng_status status = ng_store_new(1, 2, NG_ABSOLUTE, 4, store);
    for (size_t k = 0; status == NG_OK && k < sizeof packets / sizeof packets[0]; k++)
        status = ng_store_command(store, packets[k].bytes, packets[k].len, reply, sizeof reply,
                                  &len);
    return status;
}

static void print_frames(ng_engine *engine) {
    static uint8_t frames[NG_PUMP_BYTES];
    size_t len;
    ng_pumped pumped;
    if (ng_pump(engine, frames, sizeof frames, &len, &pumped) != NG_OK) return;
    for (size_t i = 0; i < len; i++) printf("%02x", frames[i]);
}

int main(void) {
    static const uint8_t images[3][2] = {{0xAA, 0xBB}, {0xCC, 0xDD}, {0xEE, 0xFF}};
    const size_t caps[1] = {1};
    ng_store store = NG_STORE_INIT;
    ng_engine engine = NG_ENGINE_INIT;
    ng_sampler sampler = NG_SAMPLER_INIT;
    ng_taken taken;
    ng_counts counts = {0, 0, 0};

    if (set_up(&store) != NG_OK) return 1;
    if (ng_open(&store, NG_RING_ITEMS, caps, 1, &engine) != NG_OK) return 1;
    if (ng_next_sampler(&engine, &sampler) != NG_OK) return 1;

    /* the second sample finds no room: it is dropped, and the third one says so */
    ng_trigger(&sampler, images[0], 2, 0, &taken);
    ng_trigger(&sampler, images[1], 2, 1, &taken);
    print_frames(&engine);
    ng_trigger(&sampler, images[2], 2, 2, &taken);
    print_frames(&engine);

    ng_counts_of(&sampler, 0, &counts);
    printf("\nlist 0: %u due, %u accepted, %u dropped\n", (unsigned)counts.due,
           (unsigned)counts.accepted, (unsigned)counts.dropped);
    ng_sampler_free(&sampler);
    ng_engine_free(&engine);
    ng_store_free(&store);
    return 0;
}
