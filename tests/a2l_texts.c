/* Prints the A2L file that examples/c/a2l_table.c writes of variables of all types, with all that a
 * table may have; once it is written into each shorter buffer, and never beyond one. Then its EPK
 * stands on standard error. */
#include "../examples/c/a2l_table.h"
#include <stdio.h>
#include <stdlib.h>
#include <string.h>

#define FIRST __attribute__((section("first_vars")))
#define SECOND __attribute__((section("second_vars")))
FIRST uint8_t a_byte;
FIRST int8_t a_signed_byte;
FIRST volatile uint16_t a_word;
FIRST int16_t a_signed_word;
FIRST bool a_flag;
SECOND uint32_t a_long;
SECOND int32_t a_signed_long;
SECOND uint64_t a_long_long;
SECOND int64_t a_signed_long_long;
SECOND float a_float;
SECOND double a_double;
uint8_t elsewhere;

extern const uint8_t __start_first_vars[], __stop_first_vars[];
extern const uint8_t __start_second_vars[], __stop_second_vars[];

static const char *const states[] = {"off", "say \"on\"", "back\\slash", NULL};
static const struct a2l_variable variables[] = {
    A2L_VARIABLE(a_byte, .states = states, .upper = 2, .comment = "With \"texts\""),
    A2L_VARIABLE(a_signed_byte, .event = 2),
    A2L_VARIABLE(a_word, .unit = "1/min", .factor = 0.25, .digits = 2, .upper = 8000),
    A2L_VARIABLE(a_signed_word, .unit = "deg C", .factor = 0.5, .offset = -40, .digits = 1),
    A2L_VARIABLE(a_flag, .factor = -1, .offset = 1),
    A2L_VARIABLE(a_long, .event = 1),
    A2L_VARIABLE(a_signed_long, .event = 1, .factor = 1),
    A2L_VARIABLE(a_long_long, .event = 1, .lower = 1, .upper = 1e15),
    A2L_VARIABLE(a_signed_long_long, .event = 1),
    A2L_VARIABLE(a_float, .event = 1, .digits = 3, .unit = "V"),
    A2L_VARIABLE(a_double, .event = 1, .factor = 2),
    A2L_VARIABLE(a_long, .event = 0),    /* not of its event channel */
    A2L_VARIABLE(a_long, .event = 3),    /* of none */
    A2L_VARIABLE(elsewhere, .event = 1), /* in no section */
};
enum { VARIABLES = sizeof variables / sizeof *variables, MISPLACED = 3 };

static void want(bool holds, const char *what) {
    if (holds) return;
    fprintf(stderr, "%s\n", what);
    exit(1);
}

/* Writes into a buffer of just this size. */
static void write_into(const struct a2l_table *table, size_t size, const char *whole, size_t len) {
    char epk[NG_MAX_NAME + 1], *part = malloc(size);
    want(part != NULL && a2l_write(table, part, size, epk) == len, "the length");
    want(memcmp(part, whole, size - 1) == 0 && part[size - 1] == 0, "the front of the file");
    free(part);
}

int main(void) {
    static char file[1 << 16];
    const ng_profile profile = {.id = NG_RELATIVE_WORD, .ticks = 10, .unit = 5, .stamp_size = 2,
                                .max_cto = 64, .max_dto = 64, .name = "texts"};
    const ng_event events[] = {{.name = "a \"quoted\" one", .cycle = 1, .cycle_unit = 6},
                               {.name = "b", .priority = 7}, {.name = "c"}};
    const ng_memory memory[] = {
        {__start_first_vars, (size_t)(__stop_first_vars - __start_first_vars)},
        {__start_second_vars, (size_t)(__stop_second_vars - __start_second_vars)}};
    const ng_segment segments[] = {{0, 0xFFFF0000, memory[0].len, 5}, {3, 0, memory[1].len, 2}};
    struct a2l_table table = {&profile, segments, memory, events, variables, 2, 3, VARIABLES,
                              "192.168.0.1", 12345};
    char epk[NG_MAX_NAME + 1], none[NG_MAX_NAME + 1];
    for (size_t k = VARIABLES - MISPLACED; k < VARIABLES; k++) {
        table.variables = &variables[k];
        table.variable_count = VARIABLES - k;
        want(a2l_misplaced(&table) == &variables[k], "what is misplaced");
    }
    table.variables = variables;
    table.variable_count = VARIABLES - MISPLACED;
    want(a2l_misplaced(&table) == NULL, "nothing is misplaced");
    size_t len = a2l_write(&table, file, sizeof file, epk);
    want(len == strlen(file) && a2l_write(&table, NULL, 0, none) == len, "the length of the whole");
    for (size_t size = 1; size <= len + 1; size++) write_into(&table, size, file, len);
    fputs(file, stdout);
    fprintf(stderr, "%s\n", epk);
    return 0;
}
