/* Goes through each call of a store and each status of it, and through packets of each reply.
 * Prints a line for each part; ends with status 1 at the first answer that isn't the one wanted. */
#include "memory.h"
#include "nerthogal.h"
#include <stdio.h>
#include <stdlib.h>
#include <string.h>

#define UNWRITTEN 0xA5u

static const char *part = "";

static void want(bool holds, const char *what) {
    if (holds) return;
    printf("%s: FAILED: %s\n", part, what);
    exit(1);
}

static void begin(const char *name) { part = name; }

static void end(void) { printf("%s: ok\n", part); }

/* The bytes of a text in hexadecimal. */
static size_t unhex(const char *text, uint8_t *bytes) {
    size_t len = strlen(text) / 2;
    for (size_t i = 0; i < len; i++) {
        unsigned byte = 0;
        sscanf(text + 2 * i, "%2x", &byte);
        bytes[i] = (uint8_t)byte;
    }
    return len;
}

/* Sends a packet, and wants this status. Where it is NG_OK it wants this reply, behind which
 * nothing is written; elsewhere nothing is written at all. */
static void send(ng_store *store, const char *packet, ng_status status, const char *wanted) {
    uint8_t bytes[16] = {0}, reply[NG_REPLY_BYTES], answer[NG_REPLY_BYTES];
    size_t len = 77, bytes_len = unhex(packet, bytes), answer_len = 77;
    memset(reply, UNWRITTEN, sizeof reply);
    memset(answer, UNWRITTEN, sizeof answer);
    want(ng_store_command(store, bytes, bytes_len, reply, sizeof reply, &len) == status, packet);
    if (status == NG_OK) answer_len = unhex(wanted, answer);
    want(len == answer_len, "the length of the reply");
    want(memcmp(reply, answer, sizeof reply) == 0, "the reply, and what is behind it");
}

static void send_all(ng_store *store, const char *const rows[][2], size_t count) {
    for (size_t k = 0; k < count; k++) send(store, rows[k][0], NG_OK, rows[k][1]);
}
#define SEND_ALL(store, rows) send_all(store, rows, sizeof rows / sizeof rows[0])

static void limits(void) {
    static const struct {
        uint16_t channels;
        size_t image_len;
        ng_id_kind id;
        uint8_t stamp_size;
        ng_status status;
    } rows[] = {
        {0, 2, NG_ABSOLUTE, 4, NG_BAD_LIMITS},
        {9, 2, NG_ABSOLUTE, 4, NG_BAD_LIMITS},
        {65535, 2, NG_ABSOLUTE, 4, NG_BAD_LIMITS},
        {1, 0, NG_ABSOLUTE, 4, NG_BAD_LIMITS},
        {1, 4097, NG_ABSOLUTE, 4, NG_BAD_LIMITS},
        {1, SIZE_MAX, NG_ABSOLUTE, 4, NG_BAD_LIMITS},
        {0, 0, NG_ABSOLUTE, 4, NG_BAD_LIMITS},
        {9, 4097, NG_ABSOLUTE, 4, NG_BAD_LIMITS},
        {1, 2, 3, 4, NG_BAD_LIMITS},
        {1, 2, 255, 4, NG_BAD_LIMITS},
        {1, 2, 256, 4, NG_BAD_LIMITS},   /* its lowest byte is NG_ABSOLUTE */
        {1, 2, 65537, 4, NG_BAD_LIMITS}, /* its lowest two bytes are NG_RELATIVE_BYTE */
        {1, 2, UINT32_MAX, 4, NG_BAD_LIMITS},
        {1, 2, NG_ABSOLUTE, 0, NG_BAD_LIMITS},
        {1, 2, NG_ABSOLUTE, 3, NG_BAD_LIMITS},
        {1, 2, NG_ABSOLUTE, 5, NG_BAD_LIMITS},
        {1, 2, NG_ABSOLUTE, 8, NG_BAD_LIMITS},
        {1, 2, NG_ABSOLUTE, 255, NG_BAD_LIMITS},
        {1, 2, NG_RELATIVE_BYTE, 0, NG_BAD_LIMITS},
        {1, 2, NG_RELATIVE_WORD, 3, NG_BAD_LIMITS},
        {9, 0, 3, 0, NG_BAD_LIMITS},
        {1, 1, NG_ABSOLUTE, 4, NG_OK},
        {1, NG_MAX_IMAGE, NG_ABSOLUTE, 4, NG_OK},
        {NG_MAX_CHANNELS, 1, NG_ABSOLUTE, 4, NG_OK},
        {8, 4096, NG_RELATIVE_WORD, 1, NG_OK},
    };
    begin("stores within and out of their limits");
    for (size_t k = 0; k < sizeof rows / sizeof rows[0]; k++) {
        ng_store store = NG_STORE_INIT;
        unsigned long asked = memory_asked;
        want(ng_store_new(rows[k].channels, rows[k].image_len, rows[k].id, rows[k].stamp_size,
                          &store) == rows[k].status, "new");
        want(rows[k].status == NG_OK || asked == memory_asked, "no memory is asked for");
        want(ng_store_free(&store) == (rows[k].status == NG_OK ? NG_OK : NG_EMPTY), "free");
    }
    end();
}

/* One stamped DAQ list behind another one, its entry of `size` bytes: starts it. */
static void start_stamped(ng_store *store, unsigned size, const char *wanted) {
    static const char *const packets[] = {"d6",         "d5000200",     "d400000001",
                                          "d400010001", "d30001000001", "e20001000000"};
    char write[32];
    for (size_t k = 0; k < sizeof packets / sizeof packets[0]; k++)
        send(store, packets[k], NG_OK, "ff");
    snprintf(write, sizeof write, "e1ff%02x0000000000", size);
    send(store, write, NG_OK, "ff");
    send(store, "e010010000000100", NG_OK, "ff"); /* TIMESTAMP */
    send(store, "de010100", NG_OK, wanted);
}

/* A packet has at most 64 bytes: what its identification field and its timestamp leave is room for
 * entries. */
static void forms(void) {
    static const struct {
        ng_id_kind id;
        uint8_t stamp_size;
        unsigned room;
        const char *started;
    } rows[] = {
        {NG_ABSOLUTE, 1, 62, "ff01"},      {NG_ABSOLUTE, 2, 61, "ff01"},
        {NG_ABSOLUTE, 4, 59, "ff01"},      {NG_RELATIVE_BYTE, 1, 61, "ff00"},
        {NG_RELATIVE_BYTE, 2, 60, "ff00"}, {NG_RELATIVE_BYTE, 4, 58, "ff00"},
        {NG_RELATIVE_WORD, 1, 60, "ff00"}, {NG_RELATIVE_WORD, 2, 59, "ff00"},
        {NG_RELATIVE_WORD, 4, 57, "ff00"},
    };
    begin("each identification field with each size of timestamps");
    for (size_t k = 0; k < sizeof rows / sizeof rows[0]; k++) {
        ng_store store = NG_STORE_INIT;
        want(ng_store_new(1, 64, rows[k].id, rows[k].stamp_size, &store) == NG_OK, "new");
        start_stamped(&store, rows[k].room + 1, "fe2a"); /* ERR_DAQ_CONFIG */
        start_stamped(&store, rows[k].room, rows[k].started);
        want(ng_store_free(&store) == NG_OK, "free");
    }
    end();
}

static void empty_handles(void) {
    ng_store store = NG_STORE_INIT;
    begin("an empty handle");
    send(&store, "d6", NG_EMPTY, "");
    want(ng_store_free(&store) == NG_EMPTY, "free");
    want(ng_store_new(1, 2, NG_ABSOLUTE, 4, &store) == NG_OK, "new");
    want(ng_store_free(&store) == NG_OK, "free");
    want(ng_store_free(&store) == NG_EMPTY, "free again");
    send(&store, "d6", NG_EMPTY, "");
    uint8_t packet = 0xD6, reply[1];
    size_t len = 77;
    want(ng_store_command(&store, &packet, 1, reply, 1, &len) == NG_EMPTY, "it is looked at first");
    want(ng_store_new(1, 2, NG_ABSOLUTE, 4, &store) == NG_OK, "filled again");
    send(&store, "d6", NG_OK, "ff");
    want(ng_store_free(&store) == NG_OK, "free");
    end();
}

static void full_handles(void) {
    ng_store store = NG_STORE_INIT;
    begin("a handle that is full stays as it was");
    want(ng_store_new(1, 2, NG_ABSOLUTE, 4, &store) == NG_OK, "new");
    send(&store, "d5000100", NG_OK, "ff");
    want(ng_store_new(1, 2, NG_ABSOLUTE, 4, &store) == NG_IN_USE, "new");
    want(ng_store_new(9, 0, 3, 0, &store) == NG_IN_USE, "it is looked at first");
    send(&store, "d400000001", NG_OK, "ff");
    want(ng_store_free(&store) == NG_OK, "free");
    end();
}

static void small_buffers(void) {
    ng_store store = NG_STORE_INIT;
    uint8_t packet[4] = {0xD5, 0, 1, 0}, reply[NG_REPLY_BYTES], odt[5] = {0xD4, 0, 0, 0, 1};
    begin("a buffer that is too short");
    want(ng_store_new(1, 2, NG_ABSOLUTE, 4, &store) == NG_OK, "new");
    for (size_t cap = 0; cap < NG_REPLY_BYTES; cap++) {
        size_t len = 77;
        memset(reply, UNWRITTEN, sizeof reply);
        want(ng_store_command(&store, packet, 4, reply, cap, &len) == NG_SMALL_BUFFER, "status");
        want(len == 77 && reply[0] == UNWRITTEN && reply[1] == UNWRITTEN, "nothing is written");
    }
    /* ALLOC_DAQ wasn't carried out, so ALLOC_ODT is out of sequence */
    send(&store, "d400000001", NG_OK, "fe29");
    send(&store, "d5000100", NG_OK, "ff");
    uint8_t longer[12];
    size_t len = 77;
    memset(longer, UNWRITTEN, sizeof longer);
    want(ng_store_command(&store, odt, 5, longer, sizeof longer, &len) == NG_OK, "a longer one");
    want(len == 1 && longer[0] == 0xFF && longer[1] == UNWRITTEN, "its reply");
    want(longer[11] == UNWRITTEN, "its last byte");
    want(ng_store_free(&store) == NG_OK, "free");
    end();
}

/* One DAQ list, whose one entry is two bytes at address 0; it runs. */
static const char *const set_up[][2] = {
    {"d6", "ff"},           {"d5000100", "ff"},         {"d400000001", "ff"},
    {"d30000000001", "ff"}, {"e20000000000", "ff"},     {"e1ff020000000000", "ff"},
    {"e000000000000100", "ff"}, {"de010000", "ff00"},
};

static void replies(void) {
    static const char *const refused[][2] = {
        {"", "fe21"},         /* ERR_CMD_SYNTAX: no byte */
        {"c0", "fe20"},       /* ERR_CMD_UNKNOWN */
        {"e1ff02", "fe21"},   /* ERR_CMD_SYNTAX: too short */
        {"d5000100", "fe11"}, /* ERR_DAQ_ACTIVE: the list runs */
        {"de030000", "fe27"}, /* ERR_MODE_NOT_VALID */
        {"de010100", "fe22"}, /* ERR_OUT_OF_RANGE: there is no list 1 */
        {"dd00", "ff"},       /* stops all lists */
        {"d400000001", "fe29"}, /* ERR_SEQUENCE: behind ALLOC_ODT_ENTRY */
        {"d6", "ff"},
        {"d5001100", "fe30"}, /* ERR_MEMORY_OVERFLOW: 17 lists */
        {"d5000200", "ff"},
        {"d400000001", "ff"},
        {"d400010001", "ff"},
        {"de020100", "ff01"}, /* FIRST_PID of list 1 */
        {"de010000", "fe2a"}, /* ERR_DAQ_CONFIG: the list isn't ready */
    };
    ng_store store = NG_STORE_INIT;
    begin("each command, and each error");
    want(ng_store_new(1, 2, NG_ABSOLUTE, 4, &store) == NG_OK, "new");
    SEND_ALL(&store, set_up);
    SEND_ALL(&store, refused);
    want(ng_store_free(&store) == NG_OK, "free");
    end();
}

static void two_stores(void) {
    ng_store one = NG_STORE_INIT, two = NG_STORE_INIT;
    begin("two stores are apart");
    want(ng_store_new(1, 2, NG_ABSOLUTE, 4, &one) == NG_OK, "new");
    want(ng_store_new(8, 4096, NG_ABSOLUTE, 4, &two) == NG_OK, "new");
    send(&one, "d5000100", NG_OK, "ff");
    send(&two, "d400000001", NG_OK, "fe29");
    send(&one, "d400000001", NG_OK, "ff");
    want(ng_store_free(&one) == NG_OK, "free");
    send(&one, "d6", NG_EMPTY, "");
    send(&two, "d5000100", NG_OK, "ff");
    want(ng_store_free(&two) == NG_OK, "free");
    end();
}

/* Refuses the blocks of a set-up in turn. What was refused is answered by NG_MEMORY and leaves
 * all as it was, and is done when it is asked for again. */
static void no_memory(void) {
    static const size_t allocations[] = {1, 2, 3};
    unsigned long refused = 0;
    begin("want of memory");
    ng_store store = NG_STORE_INIT;
    memory_refuse_behind(0);
    want(ng_store_new(1, 2, NG_ABSOLUTE, 4, &store) == NG_MEMORY, "new");
    want(memory_refused(), "a block was refused");
    send(&store, "d6", NG_EMPTY, "");
    want(ng_store_new(1, 2, NG_ABSOLUTE, 4, &store) == NG_OK, "new again");
    for (size_t k = 0; k < sizeof set_up / sizeof set_up[0]; k++) {
        for (size_t i = 0; i < 3; i++) {
            if (allocations[i] != k) continue;
            memory_refuse_behind(0);
            uint8_t bytes[16], reply[NG_REPLY_BYTES] = {UNWRITTEN};
            size_t len = 77, bytes_len = unhex(set_up[k][0], bytes);
            ng_status status = ng_store_command(&store, bytes, bytes_len, reply, 8, &len);
            want(memory_refused() && status == NG_MEMORY, set_up[k][0]);
            want(len == 77 && reply[0] == UNWRITTEN, "nothing is written");
            refused++;
        }
        send(&store, set_up[k][0], NG_OK, set_up[k][1]);
    }
    want(refused == 3, "three commands take memory");
    want(ng_store_free(&store) == NG_OK, "free");
    end();
}

int main(void) {
    static char text[4096];
    setvbuf(stdout, text, _IOFBF, sizeof text);
    unsigned long held = memory_held;
    limits();
    forms();
    empty_handles();
    full_handles();
    small_buffers();
    replies();
    two_stores();
    no_memory();
    begin("all memory was given back");
    want(memory_held == held, "a block is left");
    end();
    return 0;
}
