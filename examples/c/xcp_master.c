/* A small master of XCP on Ethernet, to try a slave with: it fetches the slave's A2L file, measures
 * variables by their names, and prints a row of CSV for each sample.
 *
 *   xcp_master --tcp PORT [--names NAME,..] [--samples N | --seconds N] [--times N] [--poll MS]
 *              [--a2l FILE] [--pause MS] [--vanish] [--bad] [--wait MS] [--record FILE]
 *   xcp_master --udp PORT [the same]
 *   xcp_master --help
 *
 * It knows no address: names, types, addresses, event channels, conversions and how many ODTs and
 * entries a DAQ list may have are those of the file (a2l_reader.h). Of two or more variables the
 * last is polled, by SHORT_UPLOAD, while the others are measured, each event channel's by a DAQ
 * list, in as many packets of up to MAX_DTO bytes as they need. That goes on until N samples of the
 * first list came (100), or for N seconds, and as often as is said (once), each time with lists set
 * up anew. It checks what comes: counters rise by one; each reply is to its command; no
 * sample stands outside of a measurement; a sample's packets are whole, and in order.
 * With --pause it reads nothing for so long in the middle of a measurement, so that samples are
 * dropped. With --vanish it goes in the middle of one, and with --bad it sends a bad frame then. It
 * waits for a reply for as long as is said (10000).
 * With --record it keeps what it sends and hears as a capture, by capture_file.h.
 * Its last line on standard error says how many samples came of each event channel, how often it
 * polled, and how many overloads there were. Ends with status 1 at the first thing that isn't as it
 * should be. */
#define _POSIX_C_SOURCE 200809L
#include "a2l_reader.h"
#include "capture_file.h"
#include <arpa/inet.h>
#include <netinet/in.h>
#include <poll.h>
#include <stdbool.h>
#include <stdint.h>
#include <stdio.h>
#include <stdlib.h>
#include <string.h>
#include <sys/socket.h>
#include <time.h>
#include <unistd.h>

static struct record record; /* what is kept of it as a capture, if anything */

/* Ends the program; with status 1 if the capture isn't whole. */
static void leave(int status) {
    bool whole = record_end(&record);
    exit(whole ? status : 1);
}

static void fail(const char *what) {
    fflush(stdout);
    fprintf(stderr, "xcp_master: %s\n", what);
    leave(1);
}

static void want(bool holds, const char *what) {
    if (!holds) fail(what);
}

static uint64_t get(const uint8_t *at, unsigned bytes) {
    uint64_t value = 0;
    for (unsigned i = 0; i < bytes; i++) value |= (uint64_t)at[i] << 8 * i;
    return value;
}

static void put(uint8_t *at, unsigned bytes, uint32_t value) {
    for (unsigned i = 0; i < bytes; i++) at[i] = (uint8_t)(value >> 8 * i);
}

/* ---- the variables, as the A2L file has them */

/* Absolute ODT numbers go up to 0x7B, below the overload indication, and a number of entries up to
 * 255. One variable more may be polled. */
enum { LISTS = 16, ODTS = 0x7C, ENTRIES = 255, VARIABLES = ODTS * ENTRIES + 1 };
enum { UNSIGNED, SIGNED, FLOAT };

static const struct type {
    const char *name;
    unsigned size, kind;
} types[] = {{"UBYTE", 1, UNSIGNED}, {"SBYTE", 1, SIGNED}, {"UWORD", 2, UNSIGNED},
             {"SWORD", 2, SIGNED}, {"ULONG", 4, UNSIGNED}, {"SLONG", 4, SIGNED},
             {"A_UINT64", 8, UNSIGNED}, {"A_INT64", 8, SIGNED}, {"FLOAT32_IEEE", 4, FLOAT},
             {"FLOAT64_IEEE", 8, FLOAT}};

static struct variable {
    const char *name;
    const struct type *type;
    uint32_t address;
    uint8_t extension;
    unsigned event, list; /* list: where it is measured */
    bool is_linear;       /* whether its value is factor * raw + offset */
    double factor, offset;
    int digits;           /* that are shown of it behind the point */
    size_t texts;         /* its COMPU_VTAB, or 0 */
    uint64_t raw;         /* its value in the sample that came last */
} variables[VARIABLES];

static unsigned count;           /* so many are to be shown: all but the last are measured .. */
static struct variable *polled;  /* .. and that is polled, if there are two */

static struct a2l a2l;
static char *a2l_bytes;
static size_t a2l_len;

/* Takes the variable of a block. */
static void add_variable(size_t block) {
    want(count < VARIABLES, "more variables than DAQ lists can have");
    struct variable *v = &variables[count++];
    size_t method = a2l_block(&a2l, "COMPU_METHOD", a2l_word(&a2l, block, "MEASUREMENT", 4));
    const char *factor = a2l_word(&a2l, method, "COEFFS_LINEAR", 1);
    const char *point = strchr(a2l_word(&a2l, method, "COMPU_METHOD", 4), '.');
    v->name = a2l_word(&a2l, block, "MEASUREMENT", 1);
    for (size_t t = 0; t < sizeof types / sizeof *types; t++)
        if (strcmp(a2l_word(&a2l, block, "MEASUREMENT", 3), types[t].name) == 0)
            v->type = &types[t];
    want(v->type != NULL, "a type that isn't known");
    v->address = (uint32_t)strtoul(a2l_word(&a2l, block, "ECU_ADDRESS", 1), NULL, 0);
    v->extension = (uint8_t)strtoul(a2l_word(&a2l, block, "ECU_ADDRESS_EXTENSION", 1), NULL, 0);
    v->event = (unsigned)strtoul(a2l_word(&a2l, block, "DEFAULT_EVENT_LIST", 2), NULL, 0);
    v->is_linear = *factor != 0;
    v->factor = strtod(factor, NULL);
    v->offset = strtod(a2l_word(&a2l, method, "COEFFS_LINEAR", 2), NULL);
    v->digits = point == NULL ? 0 : atoi(point + 1);
    v->texts = a2l_block(&a2l, "COMPU_VTAB", a2l_word(&a2l, method, "COMPU_TAB_REF", 1));
}

/* Chooses variables by their names, which commas part; or all. Answers whether there are any, and
 * the file has each. */
static bool choose(char *names) {
    size_t block = 0;
    while (names == NULL && (block = a2l_next(&a2l, "MEASUREMENT", block)) != 0)
        add_variable(block);
    while (names != NULL) {
        char *comma = strchr(names, ',');
        if (comma != NULL) *comma++ = 0;
        block = a2l_block(&a2l, "MEASUREMENT", names);
        if (block == 0) {
            fprintf(stderr, "xcp_master: no such measurement in the A2L file: %s\n", names);
            return false;
        }
        add_variable(block);
        names = comma;
    }
    if (count > 1) polled = &variables[--count];
    return count > 0;
}

/* The text that a raw value has, or NULL. */
static const char *text_of(const struct variable *v) {
    unsigned long many = strtoul(a2l_word(&a2l, v->texts, "COMPU_VTAB", 4), NULL, 0);
    for (unsigned long k = 0; k < many; k++)
        if (strtoull(a2l_word(&a2l, v->texts, "COMPU_VTAB", 5 + 2 * k), NULL, 0) == v->raw)
            return a2l_word(&a2l, v->texts, "COMPU_VTAB", 6 + 2 * k);
    return NULL;
}

static double number_of(const struct variable *v) {
    double wide;
    float narrow;
    uint32_t bits = (uint32_t)v->raw;
    if (v->type->kind == FLOAT && v->type->size == 4) {
        memcpy(&narrow, &bits, sizeof narrow);
        return narrow;
    }
    if (v->type->kind == UNSIGNED) return (double)v->raw;
    if (v->type->kind == SIGNED) {
        uint64_t sign = (uint64_t)1 << (8 * v->type->size - 1);
        return (double)(int64_t)((v->raw ^ sign) - sign);
    }
    memcpy(&wide, &v->raw, sizeof wide);
    return wide;
}

/* Prints a value with as many digits behind the point as its conversion says. */
static void print_value(const struct variable *v) {
    const char *text = text_of(v);
    double value = number_of(v);
    if (v->is_linear) value = v->factor * value + v->offset;
    if (text != NULL) printf("%s", text);
    else printf("%.*f", v->digits, value);
}

/* The name of an event channel. */
static const char *event_name(unsigned event) {
    for (size_t block = 0; (block = a2l_next(&a2l, "EVENT", block)) != 0;)
        if (strtoul(a2l_word(&a2l, block, "EVENT", 3), NULL, 0) == event)
            return a2l_word(&a2l, block, "EVENT", 1);
    return "";
}

/* How many ODTs or entries a list may have: what the file says of its first one, since those that
 * are allocated are all alike; but no more than there can be. */
static unsigned limit_of(const char *keyword, unsigned most) {
    size_t list = a2l_next(&a2l, "DAQ_LIST", 0);
    unsigned long limit = strtoul(a2l_word(&a2l, list, keyword, 1), NULL, 0);
    return limit == 0 || limit > most ? most : (unsigned)limit;
}

/* ---- the samples */

static struct list {
    unsigned event, first_odt, odt_count; /* its ODTs are odts[first_odt] and so on */
    unsigned first_pid, next;             /* next: the ODT whose packet comes next */
    const char *name;                     /* of the event channel */
    uint32_t stamp;
    bool marked;
    unsigned long samples;
} lists[LISTS];

static struct odt {
    unsigned first;                       /* its variables are placed[first] and so on */
    uint8_t entries;
} odts[ODTS];

static struct variable *placed[VARIABLES];
static unsigned list_count, odt_count;
static bool measures;                  /* between the reply to a start and that to a stop */
static double tick;                    /* seconds */
static unsigned long overloads, polls;

static void print_row(uint32_t stamp, const char *event, const char *mark, unsigned list) {
    printf("%.6f,%s,%s", stamp * tick, event, mark);
    for (unsigned v = 0; v < count; v++) {
        printf(",");
        if (variables[v].list == list) print_value(&variables[v]);
    }
    if (polled != NULL) {
        printf(",");
        if (list == LISTS) print_value(polled);
    }
    printf("\n");
}

static const struct odt *odt_of(unsigned list, unsigned odt) {
    return &odts[lists[list].first_odt + odt];
}

static struct list *list_of(unsigned pid) {
    for (unsigned l = 0; l < list_count; l++)
        if (pid >= lists[l].first_pid && pid < lists[l].first_pid + lists[l].odt_count)
            return &lists[l];
    fail("a PID of no list");
    return NULL;
}

/* A DAQ packet: PID, in the first ODT a timestamp, and the values of the ODT. */
static void take_packet(const uint8_t *packet, unsigned len) {
    struct list *list = list_of(packet[0] & 0x7Fu);
    unsigned odt = (packet[0] & 0x7Fu) - list->first_pid, at = odt == 0 ? 5 : 1;
    want(measures, "a sample outside of a measurement");
    want(odt == list->next, "a packet of a sample is missing");
    if (odt == 0) {
        want(len >= 5, "a sample that is too short");
        list->marked = (packet[0] & 0x80u) != 0;
        list->stamp = (uint32_t)get(packet + 1, 4);
    }
    const struct odt *it = odt_of((unsigned)(list - lists), odt);
    for (unsigned e = 0; e < it->entries; e++) {
        struct variable *v = placed[it->first + e];
        want(at + v->type->size <= len, "a sample that is too short");
        v->raw = get(packet + at, v->type->size);
        at += v->type->size;
    }
    want(at == len, "a sample that is too long");
    list->next = (odt + 1) % list->odt_count;
    if (list->next != 0) return;
    list->samples++;
    overloads += list->marked;
    print_row(list->stamp, list->name, list->marked ? "1" : "0", (unsigned)(list - lists));
}

/* ---- frames, and the commands */

static int line;                      /* the socket */
static bool by_stream;
static int patience = 10000;          /* for a reply, in milliseconds */
static uint8_t heard[4 + 0xFFFF];     /* what came and wasn't looked at yet; the longest frame */
static size_t from, to;
static uint16_t sent, expected;       /* CTR of the next frame, there and here */
static unsigned max_cto = 8, max_dto; /* bytes of a packet, as the reply to CONNECT says */
static unsigned max_entry;            /* bytes of an entry, as GET_DAQ_RESOLUTION_INFO says */
static bool counts;                   /* whether a frame came */

/* Waits for bytes for so many milliseconds. */
static bool hear_more(int wait) {
    struct pollfd socket = {line, POLLIN, 0};
    if (poll(&socket, 1, wait) <= 0) return false;
    memmove(heard, heard + from, to - from);
    to -= from;
    from = 0;
    ssize_t got = recv(line, heard + to, sizeof heard - to, 0);
    want(got > 0, "the server is gone");
    record_bytes(&record, false, heard + to, (size_t)got);
    to += (size_t)got;
    return true;
}

/* The next packet, if one comes within so many milliseconds. */
static const uint8_t *next_packet(unsigned *len, int wait) {
    while (to - from < 4 || to - from < 4 + get(heard + from, 2))
        if (!hear_more(wait)) return NULL;
    const uint8_t *frame = heard + from;
    *len = (unsigned)get(frame, 2);
    want(*len > 0 && *len <= (max_cto > max_dto ? max_cto : max_dto), "LEN");
    want(!counts || get(frame + 2, 2) == expected, "CTR rises by one");
    counts = true;
    expected = (uint16_t)(get(frame + 2, 2) + 1);
    from += 4u + *len;
    return frame + 4;
}

/* Sends bytes; answers whether all of them went out. */
static bool send_bytes(const uint8_t *bytes, size_t len) {
    ssize_t gone = send(line, bytes, len, MSG_NOSIGNAL);
    if (gone > 0) record_bytes(&record, true, bytes, (size_t)gone);
    return gone == (ssize_t)len;
}

static void send_frame(const uint8_t *packet, unsigned len) {
    uint8_t frame[68];
    put(frame, 2, len);
    put(frame + 2, 2, sent++);
    memcpy(frame + 4, packet, len);
    want(send_bytes(frame, 4u + len), "sending");
}

static void refused(uint8_t command, uint8_t error) {
    char text[64];
    snprintf(text, sizeof text, "command %02X was refused: error %02X", command, error);
    fail(text);
}

/* Sends a command, and waits for its positive reply. Samples that come meanwhile are taken. */
static const uint8_t *ask(const uint8_t *packet, unsigned len) {
    send_frame(packet, len);
    for (;;) {
        unsigned size = 0;
        const uint8_t *reply = next_packet(&size, patience);
        want(reply != NULL, "no reply");
        if (reply[0] < 0xFE) take_packet(reply, size);
        else {
            if (reply[0] != 0xFF) refused(packet[0], size > 1 ? reply[1] : 0);
            return reply;
        }
    }
}

#define ASK(...) ask((const uint8_t[]){__VA_ARGS__}, sizeof((const uint8_t[]){__VA_ARGS__}))

/* Connects, and makes sure that samples come in the form in which take_packet reads them; a capture
 * has that then too. */
static void ask_who_is_there(void) {
    const uint8_t *reply = ASK(0xFF, 0); /* CONNECT */
    want((reply[2] & 0x07) == 0, "another byte order or address granularity");
    max_cto = reply[3];
    max_dto = (unsigned)get(reply + 4, 2);
    want(max_cto >= 8 && max_dto >= 16, "packets that are too short");
    reply = ASK(0xDA);                   /* GET_DAQ_PROCESSOR_INFO */
    want(reply[1] >> 6 == 1, "no overload indication in the PID");
    want(reply[7] >> 6 == 0, "no absolute ODT numbers");
    reply = ASK(0xD9);                   /* GET_DAQ_RESOLUTION_INFO */
    want(reply[1] == 1, "entries that aren't of bytes");
    max_entry = reply[2];
    want((reply[5] & 0x07) == 4, "no timestamps of 4 bytes");
    tick = (double)get(reply + 6, 2) / 1e9;
    for (unsigned unit = reply[5] >> 4; unit > 0; unit--) tick *= 10;
}

/* The text of GET_ID, which UPLOAD reads. */
static char *upload(uint8_t kind, size_t *len) {
    *len = (size_t)get(ASK(0xFA, kind) + 4, 4); /* GET_ID */
    char *text = malloc(*len + 1);
    want(text != NULL, "out of memory");
    for (size_t at = 0; at < *len;) {
        uint8_t part = (uint8_t)(*len - at < max_cto - 1 ? *len - at : max_cto - 1);
        memcpy(text + at, ASK(0xF5, part) + 1, part); /* UPLOAD */
        at += part;
    }
    text[*len] = 0;
    return text;
}

/* Fetches the A2L file, which is kept if that is wanted. It has the EPK that the slave answers. */
static void fetch(const char *path) {
    size_t len;
    a2l_bytes = upload(4, &a2l_len);
    if (path != NULL) {
        FILE *file = fopen(path, "wb");
        bool whole = file != NULL && fwrite(a2l_bytes, 1, a2l_len, file) == a2l_len;
        want(file != NULL && fclose(file) == 0 && whole, "the A2L file can't be written");
    }
    char *epk = upload(5, &len);
    want(a2l_read(&a2l, a2l_bytes, a2l_len), "out of memory");
    size_t block = a2l_next(&a2l, "MOD_PAR", 0);
    want(block != 0, "an A2L file without MOD_PAR");
    want(strcmp(a2l_word(&a2l, block, "EPK", 1), epk) == 0, "the A2L file is of another program");
    free(epk);
}

/* Gives the variables that are measured a list for each of their event channels. */
static void place_in_lists(void) {
    for (unsigned v = 0; v < count; v++) {
        unsigned l = 0;
        while (l < list_count && lists[l].event != variables[v].event) l++;
        want(l < LISTS, "more event channels than DAQ lists");
        if (l == list_count)
            lists[list_count++] = (struct list){.event = variables[v].event,
                                                .name = event_name(variables[v].event)};
        variables[v].list = l;
    }
}

/* Fills the ODTs of the lists, one after another: a packet has up to MAX_DTO bytes, of which one is
 * the PID, and in a list's first packet four are the timestamp. */
static void place(void) {
    unsigned most_odts = limit_of("MAX_ODT", ODTS), most = limit_of("MAX_ODT_ENTRIES", ENTRIES);
    unsigned at = 0;
    place_in_lists();
    for (unsigned l = 0; l < list_count; l++) {
        unsigned room = 0;
        lists[l].first_odt = odt_count;
        for (unsigned v = 0; v < count; v++) {
            unsigned size = variables[v].type->size;
            if (variables[v].list != l) continue;
            want(size <= max_entry, "a variable that is longer than an entry");
            if (room < size || odts[odt_count - 1].entries == most) {
                want(lists[l].odt_count < most_odts && odt_count < ODTS,
                     "more variables than ODTs have room for");
                room = max_dto - (lists[l].odt_count++ == 0 ? 5 : 1);
                odts[odt_count++].first = at;
            }
            room -= size;
            odts[odt_count - 1].entries++;
            placed[at++] = &variables[v];
        }
    }
}

static void write_odt(unsigned list, unsigned odt) {
    const struct odt *it = odt_of(list, odt);
    ASK(0xE2, 0, (uint8_t)list, 0, (uint8_t)odt, 0); /* SET_DAQ_PTR */
    for (unsigned e = 0; e < it->entries; e++) {
        const struct variable *v = placed[it->first + e];
        uint8_t write[8] = {0xE1, 0xFF, (uint8_t)v->type->size, v->extension};
        put(write + 4, 4, v->address);
        ask(write, sizeof write); /* WRITE_DAQ */
    }
}

/* Lists with a timestamp, each of them by its event channel, selected. */
static void set_up(void) {
    ASK(0xD6);                         /* FREE_DAQ */
    ASK(0xD5, 0, (uint8_t)list_count, 0); /* ALLOC_DAQ */
    for (uint8_t l = 0; l < list_count; l++)
        ASK(0xD4, 0, l, 0, (uint8_t)lists[l].odt_count); /* ALLOC_ODT */
    for (uint8_t l = 0; l < list_count; l++)
        for (uint8_t k = 0; k < lists[l].odt_count; k++)
            ASK(0xD3, 0, l, 0, k, odt_of(l, k)->entries); /* ALLOC_ODT_ENTRY */
    for (uint8_t l = 0; l < list_count; l++) {
        for (unsigned k = 0; k < lists[l].odt_count; k++) write_odt(l, k);
        ASK(0xE0, 0x10, l, 0, (uint8_t)lists[l].event, 0, 1, 0); /* SET_DAQ_LIST_MODE: TIMESTAMP */
        lists[l].first_pid = ASK(0xDE, 2, l, 0)[1]; /* START_STOP_DAQ_LIST: select */
        lists[l].next = 0;
    }
}

/* Reads a variable without a list, at a time by the slave's clock. */
static void poll_variable(void) {
    uint8_t read[8] = {0xF4, (uint8_t)polled->type->size, 0, polled->extension};
    uint32_t clock = (uint32_t)get(ASK(0xDC) + 4, 4); /* GET_DAQ_CLOCK */
    put(read + 4, 4, polled->address);
    polled->raw = get(ask(read, sizeof read) + 1, polled->type->size); /* SHORT_UPLOAD */
    polls++;
    print_row(clock, "polled", "", LISTS);
}

static long now_ms(void) {
    struct timespec now;
    clock_gettime(CLOCK_MONOTONIC, &now);
    return (long)now.tv_sec * 1000 + now.tv_nsec / 1000000;
}

struct options {
    int kind;
    unsigned port;
    unsigned long samples, times;
    int pause, poll, seconds;
    bool vanish, bad;
    char *names;
    const char *record, *a2l;
};

/* What is done in the middle of a measurement. */
static void disturb(const struct options *o) {
    if (o->vanish) leave(0);
    if (o->bad) send_bytes((const uint8_t[4]){0}, 4);
    if (o->pause > 0)
        nanosleep(&(struct timespec){o->pause / 1000, o->pause % 1000 * 1000000L}, NULL);
}

/* Takes samples until so many of the first list came in this measurement, or time is up. */
static void measure(const struct options *o) {
    unsigned long begun = lists[0].samples;
    long start = now_ms(), polled_at = start - o->poll;
    bool disturbed = false;
    measures = true; /* a start is answered before its first sample, so none came yet */
    ASK(0xDD, 1);    /* START_STOP_SYNCH: start */
    while (o->seconds > 0 ? now_ms() - start < o->seconds * 1000L
                          : lists[0].samples - begun < o->samples) {
        unsigned len = 0;
        const uint8_t *packet = next_packet(&len, 10000);
        want(packet != NULL, "no sample");
        want(packet[0] < 0xFE, "a reply to nothing");
        take_packet(packet, len);
        if (polled != NULL && now_ms() - polled_at >= o->poll) {
            poll_variable();
            polled_at = now_ms();
        }
        if (lists[0].samples - begun < o->samples / 2 || disturbed) continue;
        disturbed = true;
        disturb(o);
    }
    ASK(0xDD, 0);    /* START_STOP_SYNCH: stop all */
    measures = false;
}

/* By UDP what finds no room in the socket's buffer is lost, so it is as large as may be; by TCP it
 * is small where there is a pause, so that samples are dropped soon. */
static void connect_to(const struct options *o) {
    struct sockaddr_in at = {.sin_family = AF_INET, .sin_port = htons((uint16_t)o->port)};
    int room = o->kind == SOCK_STREAM ? 4096 : 1 << 22;
    by_stream = o->kind == SOCK_STREAM;
    at.sin_addr.s_addr = htonl(INADDR_LOOPBACK);
    line = socket(AF_INET, o->kind, 0);
    if (!by_stream || o->pause > 0) setsockopt(line, SOL_SOCKET, SO_RCVBUF, &room, sizeof room);
    want(line >= 0 && connect(line, (struct sockaddr *)&at, sizeof at) == 0, "no connection");
}

static const char usage[] =
    "usage: xcp_master --tcp PORT | --udp PORT [--names NAME,..] [--samples N | --seconds N]\n"
    "                  [--times N] [--poll MS] [--a2l FILE] [--pause MS] [--vanish] [--bad]\n"
    "                  [--wait MS] [--record FILE]\n";

static const char help[] =
    "\n"
    "Fetches the A2L file of a slave on this machine, measures variables by name, polls the last\n"
    "of them meanwhile, and prints a row of CSV for each sample. It checks what comes.\n"
    "\n"
    "  --tcp PORT, --udp PORT  where the slave listens\n"
    "  --names NAME,..         these variables; else all of the A2L file\n"
    "  --samples N             measures until so many samples of the first list came; else 100\n"
    "  --seconds N             measures for so long\n"
    "  --times N               measures so often; else once\n"
    "  --poll MS               polls so often; else each 100\n"
    "  --a2l FILE              keeps the A2L file\n"
    "  --pause MS              reads nothing for so long in the middle of each measurement\n"
    "  --vanish                goes in the middle of one, and says nothing\n"
    "  --bad                   sends a bad frame in the middle of each\n"
    "  --wait MS               waits for a reply for so long; else 10000\n"
    "  --record FILE           keeps what it sends and hears as a capture that Wireshark and\n"
    "                          tcpdump read; if it can't all be written, the status is 1\n";

/* Takes an option that has a value. Answers whether there is such a one. */
static bool take_option(struct options *o, const char *name, char *value) {
    if (strcmp(name, "--samples") == 0) o->samples = strtoul(value, NULL, 10);
    else if (strcmp(name, "--seconds") == 0) o->seconds = atoi(value);
    else if (strcmp(name, "--times") == 0) o->times = strtoul(value, NULL, 10);
    else if (strcmp(name, "--poll") == 0) o->poll = atoi(value);
    else if (strcmp(name, "--pause") == 0) o->pause = atoi(value);
    else if (strcmp(name, "--wait") == 0) patience = atoi(value);
    else if (strcmp(name, "--names") == 0) o->names = value;
    else if (strcmp(name, "--a2l") == 0) o->a2l = value;
    else if (strcmp(name, "--record") == 0) o->record = value;
    else if (strcmp(name, "--tcp") == 0 || strcmp(name, "--udp") == 0) {
        o->kind = name[2] == 't' ? SOCK_STREAM : SOCK_DGRAM;
        o->port = (unsigned)atoi(value);
    } else return false;
    return true;
}

static struct options read_options(int argc, char **argv) {
    struct options o = {.samples = 100, .times = 1, .poll = 100};
    bool good = true;
    for (int i = 1; i < argc && good; i++) {
        if (strcmp(argv[i], "--vanish") == 0) o.vanish = true;
        else if (strcmp(argv[i], "--bad") == 0) o.bad = true;
        else if (strcmp(argv[i], "--help") == 0) {
            printf("%s%s", usage, help);
            exit(0);
        } else {
            good = i + 1 < argc && take_option(&o, argv[i], argv[i + 1]);
            i++;
        }
    }
    if (!good || o.port == 0) {
        fprintf(stderr, "%s", usage);
        exit(2);
    }
    return o;
}

static void print_account(void) {
    fprintf(stderr, "samples");
    for (unsigned l = 0; l < list_count; l++)
        fprintf(stderr, "%s %lu of %s", l == 0 ? "" : ",", lists[l].samples, lists[l].name);
    fprintf(stderr, ", polls %lu, overloads %lu\n", polls, overloads);
}

int main(int argc, char **argv) {
    struct options o = read_options(argc, argv);
    connect_to(&o);
    if (o.record != NULL) record_to(&record, o.record, line, by_stream);
    ask_who_is_there();
    fetch(o.a2l);
    if (!choose(o.names)) {
        ASK(0xFE); /* DISCONNECT */
        leave(2);
    }
    place();
    printf("seconds,event,overload");
    for (unsigned v = 0; v < count + (polled != NULL); v++) printf(",%s", variables[v].name);
    printf("\n");
    for (unsigned long k = 0; k < o.times; k++) {
        set_up();
        measure(&o);
    }
    ASK(0xFE); /* DISCONNECT */
    bool whole = record_end(&record);
    print_account();
    a2l_free(&a2l);
    free(a2l_bytes);
    return whole ? 0 : 1;
}
