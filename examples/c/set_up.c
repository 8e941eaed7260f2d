/* Sets one DAQ list up by command packets, and prints what answers each.
 *
 * Look at the last line: the list was started, and FF is followed by its FIRST_PID, 00. */
#include "nerthogal.h"
#include <stdio.h>

/* The commands of a master: the one entry of the one list is the two bytes of the image. */
static const struct {
    uint8_t bytes[8];
    size_t len;
} packets[] = {
    {{0xD6}, 1},                         /* FREE_DAQ */
    {{0xD5, 0, 1, 0}, 4},                /* ALLOC_DAQ: one list */
    {{0xD4, 0, 0, 0, 1}, 5},             /* ALLOC_ODT: of list 0, one ODT */
    {{0xD3, 0, 0, 0, 0, 1}, 6},          /* ALLOC_ODT_ENTRY: of its ODT 0, one entry */
    {{0xE2, 0, 0, 0, 0, 0}, 6},          /* SET_DAQ_PTR: to this entry */
    {{0xE1, 0xFF, 2, 0, 0, 0, 0, 0}, 8}, /* WRITE_DAQ: two bytes at address 0 */
    {{0xE0, 0, 0, 0, 0, 0, 1, 0}, 8},    /* SET_DAQ_LIST_MODE: event channel 0, prescaler 1 */
    {{0xDE, 1, 0, 0}, 4},                /* START_STOP_DAQ_LIST: starts list 0 */
};

int main(void) {
    ng_store store = NG_STORE_INIT;
    if (ng_store_new(1, 2, NG_ABSOLUTE, 4, &store) != NG_OK) return 1;
    for (size_t k = 0; k < sizeof packets / sizeof packets[0]; k++) {
        uint8_t reply[NG_REPLY_BYTES];
        size_t len = 0;
        if (ng_store_command(&store, packets[k].bytes, packets[k].len, reply, sizeof reply, &len)
            != NG_OK)
            return 1;
        for (size_t i = 0; i < len; i++) printf("%02x", reply[i]);
        printf("\n");
    }
    ng_store_free(&store);
    return 0;
}
