/* Carries a run file out in one thread, and prints what `./xcpdaq FILE` prints: the frames as one
 * hexadecimal line, and the account.
 *
 *   run FILE
 *
 * The run file is read as those of examples/ stand: keys in front of their values, and no escape in
 * a string.
 *
 * Look at number(): an engine numbers its frames from 0. Here they go over one connection with the
 * replies to the commands, so their counters go on behind those. */
#include "nerthogal.h"
#include <inttypes.h>
#include <stdio.h>
#include <stdlib.h>
#include <string.h>

/* Ends with a line on standard error, as xcpdaq does. */
static void stop(int status, const char *fault) {
    fprintf(stderr, "run: %s\n", fault);
    exit(status);
}

static void stop_at(const char *place, size_t k) {
    fprintf(stderr, "run: bad run: %s %zu\n", place, k);
    exit(2);
}

static void want(bool holds, const char *what) {
    if (!holds) stop(3, what);
}

/* ---- a run file */

#define MOST_BYTES (1u << 20)
#define MOST_STRINGS 8192

typedef struct {
    char *at[MOST_STRINGS];
    size_t count;
} strings;

static uint64_t channels, image_len, stamp_size = 4, caps[NG_MAX_CHANNELS], caps_len;
static ng_id_kind id = NG_ABSOLUTE;
static ng_ring ring = NG_RING_ITEMS;
static bool drains = true;
static strings setup, steps;

static char text[MOST_BYTES + 1], *at = text;

/* Reads the whole file. A comment that takes up a line is made blank. */
static void read_text(const char *name) {
    FILE *file = fopen(name, "rb");
    if (file == NULL) stop(2, "cannot read run");
    size_t len = fread(text, 1, sizeof text, file);
    if (ferror(file) != 0 || len == sizeof text) stop(2, "cannot read run");
    text[len] = '\0';
    fclose(file);
    for (char *line = text; line != NULL; line = strchr(line, '\n')) {
        while (*line == '\n') line++;
        if (*line == '#') memset(line, ' ', strcspn(line, "\n"));
    }
}

/* What stands at the front of the text, behind blanks: nothing is left where it is '\0'. */
static char front(void) {
    at += strspn(at, " \t\r\n");
    return *at;
}

static bool skip(char wanted) {
    if (front() != wanted) return false;
    at++;
    return true;
}

/* A key, or a value without quotes. */
static const char *word(char *room, size_t size) {
    front();
    size_t len = strspn(at, "abcdefghijklmnopqrstuvwxyz_0123456789");
    if (len == 0 || len >= size) stop(2, "bad run: not toml");
    memcpy(room, at, len);
    room[len] = '\0';
    at += len;
    return room;
}

static uint64_t integer(void) {
    char room[21];
    return strtoull(word(room, sizeof room), NULL, 10);
}

/* A string, which is ended in its place in the text. */
static char *string(void) {
    if (!skip('"')) stop(2, "bad run: not toml");
    char *start = at;
    at += strcspn(at, "\"\n");
    if (*at != '"') stop(2, "bad run: not toml");
    *at++ = '\0';
    return start;
}

static void read_strings(strings *into) {
    if (!skip('[')) stop(2, "bad run: key");
    while (!skip(']')) {
        if (into->count == MOST_STRINGS) stop(2, "bad run: key");
        into->at[into->count++] = string();
        if (!skip(',') && front() != ']') stop(2, "bad run: not toml");
    }
}

static void read_caps(void) {
    if (!skip('[')) stop(2, "bad run: key");
    while (!skip(']')) {
        if (caps_len == NG_MAX_CHANNELS) stop(2, "bad run: key");
        caps[caps_len++] = integer();
        if (!skip(',') && front() != ']') stop(2, "bad run: not toml");
    }
}

static bool boolean(void) {
    char room[8];
    bool yes = strcmp(word(room, sizeof room), "true") == 0;
    if (!yes && strcmp(room, "false") != 0) stop(2, "bad run: key");
    return yes;
}

static void read_id(void) {
    const char *kind = string();
    if (strcmp(kind, "byte") == 0) id = NG_RELATIVE_BYTE;
    else if (strcmp(kind, "word") == 0) id = NG_RELATIVE_WORD;
    else if (strcmp(kind, "absolute") != 0) stop(2, "bad run: key");
}

static void read_ring(void) {
    const char *kind = string();
    if (strcmp(kind, "bytes") == 0) ring = NG_RING_BYTES;
    else if (strcmp(kind, "samples") != 0) stop(2, "bad run: key");
}

static void read_value(const char *key) {
    if (strcmp(key, "channels") == 0) channels = integer();
    else if (strcmp(key, "image_len") == 0) image_len = integer();
    else if (strcmp(key, "stamp_size") == 0) stamp_size = integer();
    else if (strcmp(key, "caps") == 0) read_caps();
    else if (strcmp(key, "id") == 0) read_id();
    else if (strcmp(key, "setup") == 0) read_strings(&setup);
    else if (strcmp(key, "steps") == 0) read_strings(&steps);
    else if (strcmp(key, "drain") == 0) drains = boolean();
    else if (strcmp(key, "ring") == 0) read_ring();
    else stop(2, "bad run: key");
}

static void look_at_numbers(void) {
    bool good = channels >= 1 && channels <= NG_MAX_CHANNELS && caps_len == channels;
    good = good && image_len >= 1 && image_len <= NG_MAX_IMAGE;
    good = good && (stamp_size == 1 || stamp_size == 2 || stamp_size == 4);
    uint64_t least = ring == NG_RING_BYTES ? NG_MIN_BYTE_RING : 1;
    uint64_t most = ring == NG_RING_BYTES ? NG_MAX_BYTE_RING : NG_MAX_RING;
    for (size_t c = 0; c < caps_len; c++) good = good && caps[c] >= least && caps[c] <= most;
    if (!good) stop(2, "bad run: key");
}

static void read_run(const char *name) {
    read_text(name);
    while (front() != '\0') {
        char key[16];
        word(key, sizeof key);
        if (!skip('=')) stop(2, "bad run: not toml");
        read_value(key);
    }
    look_at_numbers();
}

/* ---- strings of hexadecimal, and steps */

static uint8_t bytes[NG_MAX_IMAGE];

/* The bytes of a text. Answers whether it is hexadecimal, of no more bytes than there is room. */
static bool unhex(const char *hex, size_t *len) {
    size_t digits = strspn(hex, "0123456789abcdefABCDEF");
    *len = digits / 2;
    if (hex[digits] != '\0' || digits % 2 != 0 || *len > sizeof bytes) return false;
    for (size_t i = 0; i < *len; i++) {
        char pair[3] = {hex[2 * i], hex[2 * i + 1], '\0'};
        bytes[i] = (uint8_t)strtoul(pair, NULL, 16);
    }
    return true;
}

typedef enum { TRIGGER, START, STOP, PUMP } kind;

typedef struct {
    kind kind;
    uint64_t channel, number; /* a timestamp, or a DAQ list */
    const char *image;
} step;

/* A decimal number up to a bound, of digits with no zero in front; *from goes behind it. */
static bool digits(const char **from, uint64_t most, uint64_t *number) {
    size_t len = strspn(*from, "0123456789");
    if (len == 0 || len > 10 || (len > 1 && **from == '0')) return false;
    *number = strtoull(*from, NULL, 10);
    *from += len;
    return *number <= most;
}

static bool begins(const char **from, const char *wanted) {
    size_t len = strlen(wanted);
    if (strncmp(*from, wanted, len) != 0) return false;
    *from += len;
    return true;
}

/* Reads a step, between whose words stands one space. Answers whether it is one. */
static bool read_step(const char *from, step *into) {
    size_t len;
    if (strcmp(from, "pump") == 0) {
        into->kind = PUMP;
        return true;
    }
    if (begins(&from, "trigger ")) into->kind = TRIGGER;
    else if (begins(&from, "start ")) into->kind = START;
    else if (begins(&from, "stop ")) into->kind = STOP;
    else return false;
    if (!digits(&from, channels - 1, &into->channel) || !begins(&from, " ")) return false;
    if (into->kind != TRIGGER) return digits(&from, 255, &into->number) && *from == '\0';
    if (!digits(&from, UINT32_MAX, &into->number) || !begins(&from, " ")) return false;
    into->image = from;
    return unhex(from, &len) && len > 0;
}

/* Looks at all strings before anything is carried out. */
static void look_at_strings(void) {
    size_t len;
    step into;
    for (size_t k = 0; k < setup.count; k++)
        if (!unhex(setup.at[k], &len) || len > 255) stop_at("setup", k);
    for (size_t k = 0; k < steps.count; k++)
        if (!read_step(steps.at[k], &into)) stop_at("step", k);
}

/* ---- frames */

static uint8_t sent[16u << 20];
static size_t sent_len;
static uint16_t counter; /* of the next frame */
static uint16_t replies; /* the frames before those of the engine */

static void put(const uint8_t *from, size_t len) {
    want(sent_len + len <= sizeof sent, "no room for the frames");
    memcpy(sent + sent_len, from, len);
    sent_len += len;
}

/* Sends the reply to a command: LEN, CTR and the packet. */
static void send_reply(const uint8_t *reply, size_t len) {
    const uint8_t header[4] = {(uint8_t)len, 0, (uint8_t)counter, (uint8_t)(counter >> 8)};
    put(header, sizeof header);
    put(reply, len);
    counter++;
}

/* Numbers a frame of the engine anew, behind the replies. */
static void number(uint8_t *frame) {
    want((uint16_t)(frame[2] | frame[3] << 8) == (uint16_t)(counter - replies), "CTR");
    frame[2] = (uint8_t)counter;
    frame[3] = (uint8_t)(counter >> 8);
    counter++;
}

static void send_frames(uint8_t *frames, size_t len, unsigned count) {
    size_t here = 0;
    for (unsigned k = 0; k < count; k++) {
        want(len - here >= 4 && len - here >= 4u + frames[here], "whole frames");
        number(frames + here);
        here += 4u + frames[here];
    }
    want(here == len, "whole frames");
    put(frames, len);
}

/* ---- the run */

static ng_store store = NG_STORE_INIT;
static ng_engine engine = NG_ENGINE_INIT;
static ng_sampler samplers[NG_MAX_CHANNELS];
static unsigned long refused;

static void set_up(void) {
    uint8_t reply[NG_REPLY_BYTES];
    size_t len;
    want(ng_store_new((uint16_t)channels, image_len, id, (uint8_t)stamp_size, &store) == NG_OK,
         "no store");
    for (size_t k = 0; k < setup.count; k++) {
        unhex(setup.at[k], &len);
        want(ng_store_command(&store, bytes, len, reply, sizeof reply, &len) == NG_OK, "command");
        send_reply(reply, len);
    }
    replies = counter;
}

static void open_engine(void) {
    size_t places[NG_MAX_CHANNELS];
    const ng_sampler none = NG_SAMPLER_INIT;
    for (size_t c = 0; c < caps_len; c++) places[c] = caps[c];
    ng_status status = ng_open(&store, ring, places, caps_len, &engine);
    if (status == NG_NOTHING_RUNNING) stop(1, "nothing running");
    want(status == NG_OK, "no engine");
    for (size_t c = 0; c < channels; c++) {
        samplers[c] = none;
        want(ng_next_sampler(&engine, &samplers[c]) == NG_OK, "no sampler");
    }
}

static uint8_t frames[NG_PUMP_BYTES];

static void pump(void) {
    size_t len;
    ng_pumped pumped;
    want(ng_pump(&engine, frames, sizeof frames, &len, &pumped) == NG_OK, "pump");
    send_frames(frames, len, pumped.frames);
}

static void drain(void) {
    for (bool left = true; left;) {
        size_t len;
        ng_pumped pumped;
        want(ng_drain(&engine, frames, sizeof frames, &len, &pumped, &left) == NG_OK, "drain");
        send_frames(frames, len, pumped.frames);
    }
}

/* A call of a sampler. Answers its status, which is NG_OK or that of a refusal. */
static ng_status call(const step *it) {
    ng_sampler *sampler = &samplers[it->channel];
    ng_taken taken;
    size_t len;
    if (it->kind == START) return ng_start(sampler, (uint8_t)it->number);
    if (it->kind == STOP) return ng_stop(sampler, (uint8_t)it->number);
    unhex(it->image, &len);
    return ng_trigger(sampler, bytes, len, (uint32_t)it->number, &taken);
}

static void carry_out(const step *it) {
    if (it->kind == PUMP) {
        pump();
        return;
    }
    ng_status status = call(it);
    if (status == NG_WRONG_IMAGE || status == NG_NOT_OF_CHANNEL || status == NG_RUNNING
        || status == NG_NOT_RUNNING || status == NG_NO_ROOM)
        refused++;
    else want(status == NG_OK, "a step");
}

static void print_account(void) {
    ng_line lines[NG_MAX_LISTS];
    ng_report report;
    want(ng_close(&engine, lines, NG_MAX_LISTS, &report) == NG_OK, "close");
    for (size_t i = 0; i < sent_len; i++) printf("%02x", sent[i]);
    printf("\n");
    for (size_t k = 0; k < report.lines; k++)
        printf("list %u due %" PRIu64 " written %" PRIu64 " dropped %" PRIu64 " left %" PRIu64 "\n",
               lines[k].list, lines[k].due, lines[k].written, lines[k].dropped, lines[k].left);
    printf("refused %lu\nfailed %s\n", refused, report.failed ? "yes" : "no");
}

int main(int count, char **words) {
    if (count != 2) stop(2, "bad command line");
    read_run(words[1]);
    look_at_strings();
    set_up();
    open_engine();
    for (size_t k = 0; k < steps.count; k++) {
        step it = {PUMP, 0, 0, NULL};
        read_step(steps.at[k], &it);
        carry_out(&it);
    }
    for (size_t c = 0; c < channels; c++) want(ng_finish(&samplers[c]) == NG_OK, "finish");
    if (drains) drain();
    print_account();
    want(ng_store_free(&store) == NG_OK, "free");
    return 0;
}
