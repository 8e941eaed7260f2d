/* The program's malloc, realloc and free, counted and refused. Link with
 * -Wl,--wrap=malloc,--wrap=realloc,--wrap=free. Blocks may be had and given back in any thread;
 * read the counts, and refuse, while one thread runs alone. */
#ifndef MEMORY_H
#define MEMORY_H

#include <stdbool.h>

extern unsigned long memory_asked; /* calls of malloc and realloc */
extern unsigned long memory_held;  /* blocks that were given and not freed */
extern unsigned long memory_bytes; /* what was asked for of these */

/* Gives as many more blocks as are said, refuses the one behind them, and gives all others. */
void memory_refuse_behind(unsigned long blocks);

/* Whether that one was asked for, and refused; refuses none from now on. */
bool memory_refused(void);

/* How many calls of malloc, realloc and free there were in the thread that asks. */
unsigned long memory_calls(void);

#endif
