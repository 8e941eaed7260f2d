/* Variables of xcp_server.c in place of its own, as many as a tool may measure: cc -DVARIABLES='"many_variables.h"', or ./live --many.
 * The task of 1 ms has 500 signals, for which no packet has entries enough. That of 10 ms has what fills ten packets of 1400 bytes to the
 * last one, in the order of the table, and behind it what is polled meanwhile. Each value is the turn of its task and the place of the
 * variable in its group, added: so one of another turn, or of another place, is seen. */

enum { MAX_CTO = 255, RING = 1 << 18, MOST = 1 << 14 };
enum { SIGNALS = 500, PACKETS = 10, ROOM = 174, WIDES = PACKETS * ROOM - 1, ALL = 2 + SIGNALS + 2 + WIDES + 3 * PACKETS };

FAST static uint32_t counter, stamp;
FAST static float signals[SIGNALS];
SLOW static uint32_t slow_counter, slow_stamp;
SLOW static uint64_t wides[WIDES]; /* with the number in both halves */
SLOW static uint32_t longs[PACKETS];
SLOW static uint16_t words[PACKETS];
SLOW static uint8_t bytes[PACKETS];

static char names[ALL][24];
static struct a2l_variable variables[ALL];

static void add(const char *group, unsigned place, const volatile void *at, enum a2l_type type, unsigned event) {
    static size_t count;
    snprintf(names[count], sizeof *names, "%s_%04u", group, place);
    variables[count] = (struct a2l_variable){.name = names[count], .at = at, .type = type, .event = event,
                                              .digits = type == A2L_FLOAT32};
    count++;
}

/* The first packet has the counter and the stamp in place of one of the wide ones, and the timestamp in place of a long one. The long
 * one that is left over is polled. */
__attribute__((constructor)) static void fill_table(void) {
    unsigned wide = 0;
    add("counter", 0, &counter, A2L_ULONG, 0);
    add("stamp", 0, &stamp, A2L_ULONG, 0);
    for (unsigned k = 0; k < SIGNALS; k++) add("signal", k, &signals[k], A2L_FLOAT32, 0);
    add("slow_counter", 0, &slow_counter, A2L_ULONG, 1);
    add("slow_stamp", 0, &slow_stamp, A2L_ULONG, 1);
    for (unsigned p = 0; p < PACKETS; p++) {
        for (unsigned k = p == 0; k < ROOM; k++, wide++) add("wide", wide, &wides[wide], A2L_UINT64, 1);
        if (p > 0) add("long", p - 1, &longs[p - 1], A2L_ULONG, 1);
        add("word", p, &words[p], A2L_UWORD, 1);
        add("byte", p, &bytes[p], A2L_UBYTE, 1);
    }
    add("long", PACKETS - 1, &longs[PACKETS - 1], A2L_ULONG, 1);
}

static void compute_fast(uint32_t turn, uint32_t now) {
    counter = turn;
    stamp = now;
    for (unsigned k = 0; k < SIGNALS; k++) signals[k] = (float)(turn + k);
}

static void compute_slow(uint32_t turn, uint32_t now) {
    slow_counter = turn;
    slow_stamp = now;
    for (unsigned k = 0; k < WIDES; k++) wides[k] = (uint64_t)(turn + k) << 32 | (turn + k);
    for (unsigned k = 0; k < PACKETS; k++) {
        longs[k] = turn + k;
        words[k] = (uint16_t)(turn + k);
        bytes[k] = (uint8_t)(turn + k);
    }
}
