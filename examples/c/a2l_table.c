/* See a2l_table.h. */
#include "a2l_table.h"
#include <stdarg.h>
#include <stdio.h>

/* The last limits are rounded to what 15 digits and a factor leave in range. */
static const struct { const char *name; size_t size; double lower, upper; } types[] = {
    {"UBYTE", 1, 0, 255}, {"SBYTE", 1, -128, 127}, {"UWORD", 2, 0, 65535},
    {"SWORD", 2, -32768, 32767}, {"ULONG", 4, 0, 4294967295.0},
    {"SLONG", 4, -2147483648.0, 2147483647.0}, {"A_UINT64", 8, 0, 1.8446744073709e19},
    {"A_INT64", 8, -9.2233720368547e18, 9.2233720368547e18},
    {"FLOAT32_IEEE", 4, -3.4e38, 3.4e38}, {"FLOAT64_IEEE", 8, -1e300, 1e300}};

#define COMMANDS(X) X(GET_ID, 250) X(SET_MTA, 246) X(UPLOAD, 245) X(SHORT_UPLOAD, 244) \
    X(CLEAR_DAQ_LIST, 227) X(SET_DAQ_PTR, 226) X(WRITE_DAQ, 225) X(SET_DAQ_LIST_MODE, 224) \
    X(GET_DAQ_LIST_MODE, 223) X(START_STOP_DAQ_LIST, 222) X(START_STOP_SYNCH, 221) \
    X(GET_DAQ_CLOCK, 220) X(READ_DAQ, 219) X(GET_DAQ_PROCESSOR_INFO, 218) \
    X(GET_DAQ_RESOLUTION_INFO, 217) X(GET_DAQ_LIST_INFO, 216) X(GET_DAQ_EVENT_INFO, 215) \
    X(FREE_DAQ, 214) X(ALLOC_DAQ, 213) X(ALLOC_ODT, 212) X(ALLOC_ODT_ENTRY, 211) \
    X(WRITE_DAQ_MULTIPLE, 199)
#define OF_A2ML(name, code) ",\n  \"" #name "\" = " #code
#define OPTIONAL(name, code) "    OPTIONAL_CMD " #name "\n"
#define TEXT(...) #__VA_ARGS__

/* What IF_DATA has below, of the grammar in ASAM MCD-1 XCP, "interface to ASAM MCD-2 MC". */
static const char a2ml[] = "/begin A2ML\n"
    TEXT(taggedstruct Common_Parameters { block "PROTOCOL_LAYER" struct { uint; uint; uint; uint;
        uint; uint; uint; uint; uchar; uint; enum { "BYTE_ORDER_MSB_LAST" = 0 };
        enum { "ADDRESS_GRANULARITY_BYTE" = 1 }; taggedstruct {)
    "(\"OPTIONAL_CMD\" enum { \"GET_COMM_MODE_INFO\" = 251" COMMANDS(OF_A2ML) " })*; }; };\n"
    TEXT(block "DAQ" struct { enum { "DYNAMIC" = 1 }; uint; uint; uchar;
        enum { "OPTIMISATION_TYPE_DEFAULT" = 0 }; enum { "ADDRESS_EXTENSION_FREE" = 0 };
        enum { "IDENTIFICATION_FIELD_TYPE_ABSOLUTE" = 0,
            "IDENTIFICATION_FIELD_TYPE_RELATIVE_BYTE" = 1,
            "IDENTIFICATION_FIELD_TYPE_RELATIVE_WORD" = 2 };
        enum { "GRANULARITY_ODT_ENTRY_SIZE_DAQ_BYTE" = 1 }; uchar;
        enum { "OVERLOAD_INDICATION_PID" = 1 }; taggedstruct { "PRESCALER_SUPPORTED";) "\n"
    TEXT(block "TIMESTAMP_SUPPORTED" struct { uint; enum { "SIZE_BYTE" = 1, "SIZE_WORD" = 2,
        "SIZE_DWORD" = 4 }; enum { "UNIT_1NS" = 0, "UNIT_10NS" = 1, "UNIT_100NS" = 2,
        "UNIT_1US" = 3, "UNIT_10US" = 4, "UNIT_100US" = 5, "UNIT_1MS" = 6, "UNIT_10MS" = 7,
        "UNIT_100MS" = 8, "UNIT_1S" = 9 }; };) "\n"
    TEXT((block "DAQ_LIST" struct { uint; taggedstruct { "DAQ_LIST_TYPE" enum { "DAQ" = 1 };
        "MAX_ODT" uchar; "MAX_ODT_ENTRIES" uchar; }; })*;) "\n"
    TEXT((block "EVENT" struct { char[101]; char[9]; uint; enum { "DAQ" = 1 }; uchar; uchar;
        uchar; uchar; taggedstruct { "CONSISTENCY" enum { "DAQ" = 0 }; }; })*; }; };) "\n"
    TEXT(block "DAQ_EVENT" taggedunion { "VARIABLE" taggedstruct {
        block "AVAILABLE_EVENT_LIST" taggedstruct { ("EVENT" uint)*; };
        block "DEFAULT_EVENT_LIST" taggedstruct { ("EVENT" uint)*; }; }; }; };) "\n"
    TEXT(struct IP { uint; uint; taggedunion { "ADDRESS" char[15]; }; };
        block "IF_DATA" taggedunion if_data { "XCP" struct { taggedstruct Common_Parameters;
        taggedstruct { block "XCP_ON_TCP_IP" struct IP; block "XCP_ON_UDP_IP" struct IP; }; };
        };) "\n/end A2ML\n\n";

struct text { char *buffer; size_t size, len; }; /* what found no room counts too */

static void put(struct text *to, const char *format, ...) {
    size_t room = to->len < to->size ? to->size - to->len : 0;
    va_list words;
    va_start(words, format);
    int len = vsnprintf(room > 0 ? to->buffer + to->len : NULL, room, format, words);
    va_end(words);
    if (len > 0) to->len += (size_t)len;
}

/* At most so many letters between quotes, with a space before and behind them. */
static void put_quoted(struct text *to, const char *it, size_t most) {
    put(to, " \"");
    for (size_t i = 0; it != NULL && i < most && it[i] != 0; i++)
        put(to, it[i] == '"' || it[i] == '\\' ? "\\%c" : "%c", it[i]);
    put(to, "\" ");
}

/* The segment of a variable, if its event channel may read it; at gets the place there. */
static const ng_segment *segment_of(const struct a2l_table *t, const struct a2l_variable *v,
                                    uintptr_t *at) {
    for (const ng_segment *it = t->segments; it < t->segments + t->segment_count; it++) {
        *at = (uintptr_t)v->at - (uintptr_t)t->memory[it - t->segments].at;
        if (*at < it->len && types[v->type].size <= it->len - *at)
            return v->event < t->event_count && it->events >> v->event & 1 ? it : NULL;
    }
    return NULL;
}

const struct a2l_variable *a2l_misplaced(const struct a2l_table *t) {
    uintptr_t at;
    for (size_t i = 0; i < t->variable_count; i++)
        if (segment_of(t, &t->variables[i], &at) == NULL) return &t->variables[i];
    return NULL;
}

static void put_if_data(struct text *to, const struct a2l_table *t) {
    static const char *const ids[] = {"ABSOLUTE", "RELATIVE_BYTE", "RELATIVE_WORD"};
    static const char *const sizes[] = {"", "BYTE", "WORD", "", "DWORD"};
    static const char *const units[] = {"NS", "US", "MS", "S"};
    const ng_profile *p = t->profile;
    put(to, "/begin IF_DATA XCP\n"
              "  /begin PROTOCOL_LAYER 0x0101 2000 2000 2000 2000 2000 2000 2000 %u %u\n"
              "    BYTE_ORDER_MSB_LAST ADDRESS_GRANULARITY_BYTE\n"
              "    OPTIONAL_CMD GET_COMM_MODE_INFO\n" COMMANDS(OPTIONAL)
              "  /end PROTOCOL_LAYER\n"
              "  /begin DAQ DYNAMIC 16 %u 0 OPTIMISATION_TYPE_DEFAULT ADDRESS_EXTENSION_FREE\n"
              "    IDENTIFICATION_FIELD_TYPE_%s GRANULARITY_ODT_ENTRY_SIZE_DAQ_BYTE %u\n"
              "    OVERLOAD_INDICATION_PID PRESCALER_SUPPORTED\n", p->max_cto,
        p->max_dto, (unsigned)t->event_count, ids[p->id % 3],
        p->max_dto > 255 ? 255u : p->max_dto - 1u);
    put(to, "    /begin TIMESTAMP_SUPPORTED %u SIZE_%s UNIT_1%.*s%s /end TIMESTAMP_SUPPORTED\n",
        p->ticks, sizes[p->stamp_size % 5], p->unit % 3, "00", units[p->unit / 3 % 4]);
    for (unsigned l = 0; l < NG_MAX_LISTS; l++)
        put(to, "    /begin DAQ_LIST %u DAQ_LIST_TYPE DAQ MAX_ODT 124 MAX_ODT_ENTRIES 255 "
                  "/end DAQ_LIST\n", l);
    for (unsigned c = 0; c < t->event_count; c++) {
        put(to, "    /begin EVENT");
        put_quoted(to, t->events[c].name, 100);
        put_quoted(to, t->events[c].name, 8);
        put(to, "%u DAQ 16 %u %u %u CONSISTENCY DAQ /end EVENT\n", c, t->events[c].cycle,
            t->events[c].cycle_unit, t->events[c].priority);
    }
    put(to, "  /end DAQ\n"
              "  /begin XCP_ON_TCP_IP 0x0100 %u ADDRESS \"%s\" /end XCP_ON_TCP_IP\n"
              "  /begin XCP_ON_UDP_IP 0x0100 %u ADDRESS \"%s\" /end XCP_ON_UDP_IP\n"
              "/end IF_DATA\n\n", t->port, t->address, t->port, t->address);
}

static double value_of(const struct a2l_variable *v, double raw) {
    return (v->factor == 0 ? 1 : v->factor) * raw + v->offset;
}

static void put_method(struct text *to, const struct a2l_variable *v) {
    bool same = value_of(v, 0) == 0 && value_of(v, 1) == 1;
    unsigned count = 0;
    put(to, "/begin COMPU_METHOD %s_method \"\" %s \"%%12.%u\"", v->name,
        v->states != NULL ? "TAB_VERB" : same ? "IDENTICAL" : "LINEAR", v->digits);
    put_quoted(to, v->unit, SIZE_MAX);
    if (v->states != NULL) put(to, "COMPU_TAB_REF %s_texts ", v->name);
    else if (!same)
        put(to, "COEFFS_LINEAR %.15g %.15g ", v->factor == 0 ? 1 : v->factor, v->offset);
    put(to, "/end COMPU_METHOD\n");
    if (v->states == NULL) return;
    while (v->states[count] != NULL) count++;
    put(to, "/begin COMPU_VTAB %s_texts \"\" TAB_VERB %u", v->name, count);
    for (unsigned i = 0; i < count; i++) {
        put(to, " %u", i);
        put_quoted(to, v->states[i], SIZE_MAX);
    }
    put(to, "/end COMPU_VTAB\n");
}

static void put_variable(struct text *to, const struct a2l_table *t, const struct a2l_variable *v) {
    uintptr_t at;
    const ng_segment *segment = segment_of(t, v, &at);
    bool all = v->lower == 0 && v->upper == 0;
    double one = all ? value_of(v, types[v->type].lower) : v->lower;
    double other = all ? value_of(v, types[v->type].upper) : v->upper;
    put_method(to, v);
    put(to, "/begin MEASUREMENT %s", v->name);
    put_quoted(to, v->comment, SIZE_MAX);
    put(to, "%s %s_method 0 0 %.15g %.15g\n  ECU_ADDRESS 0x%08lX ECU_ADDRESS_EXTENSION %u\n"
              "  /begin IF_DATA XCP /begin DAQ_EVENT VARIABLE\n    /begin AVAILABLE_EVENT_LIST",
        types[v->type].name, v->name, one < other ? one : other, one < other ? other : one,
        (unsigned long)(segment->base + at), segment->extension);
    for (unsigned c = 0; c < t->event_count; c++)
        if (segment->events >> c & 1) put(to, " EVENT %u", c);
    put(to, " /end AVAILABLE_EVENT_LIST\n    /begin DEFAULT_EVENT_LIST EVENT %u "
              "/end DEFAULT_EVENT_LIST\n  /end DAQ_EVENT /end IF_DATA\n/end MEASUREMENT\n\n",
        v->event);
}

size_t a2l_write(const struct a2l_table *t, char *buffer, size_t size, char epk[NG_MAX_NAME + 1]) {
    struct text text = {buffer, size, 0};
    const char *name = t->profile->name;
    unsigned long long sum = 0xCBF29CE484222325;
    if (a2l_misplaced(t) != NULL) return 0;
    put(&text, "ASAP2_VERSION 1 61\n/begin PROJECT %s \"\"\n/begin MODULE %s \"\"\n\n%s"
               "/begin MOD_COMMON \"\" BYTE_ORDER MSB_LAST ALIGNMENT_BYTE 1 ALIGNMENT_WORD 1\n"
               "  ALIGNMENT_LONG 1 ALIGNMENT_FLOAT32_IEEE 1 ALIGNMENT_FLOAT64_IEEE 1\n"
               "/end MOD_COMMON\n\n", name, name, a2ml);
    put_if_data(&text, t);
    for (size_t i = 0; i < t->variable_count; i++) put_variable(&text, t, &t->variables[i]);
    put(&text, "/begin MOD_PAR \"\"\n");
    for (size_t i = 0; i < t->segment_count; i++)
        put(&text, "  /begin MEMORY_SEGMENT segment_%u \"\" VARIABLES RAM INTERN 0x%08lX 0x%llX "
                   "-1 -1 -1 -1 -1 /end MEMORY_SEGMENT\n", (unsigned)i,
            (unsigned long)t->segments[i].base, (unsigned long long)t->segments[i].len);
    for (size_t i = 0; i < text.len && i < size; i++) /* FNV-1a */
        sum = (sum ^ (unsigned char)buffer[i]) * 0x100000001B3;
    snprintf(epk, NG_MAX_NAME + 1, "%.39s %016llx", name, sum);
    put(&text, "  EPK");
    put_quoted(&text, epk, SIZE_MAX);
    put(&text, "\n/end MOD_PAR\n\n/end MODULE\n/end PROJECT\n");
    return text.len;
}
