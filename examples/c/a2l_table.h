/* Your variables in one table, from which the program writes its A2L file (ASAM MCD-2 MC 1.6, with
 * XCP on Ethernet). Take this file and a2l_table.c over into your program; they are ISO C11.
 *
 *   static const struct a2l_variable variables[] = {
 *       A2L_VARIABLE(engine_speed, .event = 0, .unit = "1/min", .factor = 0.25, .upper = 8000),
 *       A2L_VARIABLE(state, .event = 1, .states = (const char *const[]){"off", "on", NULL})};
 *
 * All else is in what the slave is opened with, so that the two can't differ. The address of a
 * variable is its place in its segment, from the segment's base on. */
#ifndef A2L_TABLE_H
#define A2L_TABLE_H

#include "nerthogal.h"

enum a2l_type { A2L_UBYTE, A2L_SBYTE, A2L_UWORD, A2L_SWORD, A2L_ULONG, A2L_SLONG, A2L_UINT64,
                A2L_INT64, A2L_FLOAT32, A2L_FLOAT64 };

struct a2l_variable {
    const char *name, *unit, *comment;
    const volatile void *at;
    enum a2l_type type;
    unsigned event;            /* the event channel that measures it */
    double factor, offset;     /* its value is factor * raw + offset; a factor of 0 stands for 1 */
    unsigned digits;           /* that are shown of it behind the point */
    const char *const *states; /* or the texts of 0, 1 and so on, and NULL behind the last one */
    double lower, upper;       /* of its value; both 0, all that its type can have */
};

/* A variable of the program: its name, place and type, and the fields that it needs beside. */
#define A2L_VARIABLE(variable, ...) \
    { .name = #variable, .at = &(variable), .type = A2L_TYPE(variable), __VA_ARGS__ }
#define A2L_TYPE(variable) _Generic((variable), bool: A2L_UBYTE, \
    unsigned char: A2L_UBYTE, signed char: A2L_SBYTE, unsigned short: A2L_UWORD, \
    short: A2L_SWORD, unsigned: A2L_ULONG, int: A2L_SLONG, float: A2L_FLOAT32, \
    unsigned long: sizeof(long) == 4 ? A2L_ULONG : A2L_UINT64, double: A2L_FLOAT64, \
    long: sizeof(long) == 4 ? A2L_SLONG : A2L_INT64, \
    unsigned long long: A2L_UINT64, long long: A2L_INT64)

struct a2l_table {
    const ng_profile *profile; /* its name is the module's too: letters, digits and _ */
    const ng_segment *segments;
    const ng_memory *memory; /* where the variables of each segment are */
    const ng_event *events;
    const struct a2l_variable *variables;
    size_t segment_count, event_count, variable_count;
    const char *address;     /* where the slave listens, such as "127.0.0.1" */
    unsigned port;           /* by UDP and by TCP */
};

/* The first variable that isn't in a segment which its event channel may read, or NULL. */
const struct a2l_variable *a2l_misplaced(const struct a2l_table *table);

/* Writes the A2L file as snprintf does: it returns the length, and if that isn't below size, not
 * all of it found room. It returns 0 if a variable is misplaced. epk gets a text for the profile,
 * also in the file, with a number of all the rest. Decimal points are those of the locale "C". */
size_t a2l_write(const struct a2l_table *table, char *buffer, size_t size,
                 char epk[NG_MAX_NAME + 1]);
#endif
