#include "memory.h"
#include <stddef.h>
#include <stdint.h>

void *__real_malloc(size_t bytes);
void *__real_realloc(void *block, size_t bytes);
void __real_free(void *block);

unsigned long memory_asked;
unsigned long memory_held;
unsigned long memory_bytes;

/* Before a block stands its size, in so many bytes that the block is as aligned as malloc's. */
#define FRONT 16

static bool refuses;
static bool refused;
static unsigned long left;

/* The calls of malloc, realloc and free in this thread. */
static __thread unsigned long calls;

unsigned long memory_calls(void) { return calls; }

/* Threads may give blocks back at the same time: ng_finish does. */
static void add(unsigned long *count, long more) {
    __atomic_fetch_add(count, (unsigned long)more, __ATOMIC_SEQ_CST);
}

void memory_refuse_behind(unsigned long blocks) {
    refuses = true;
    refused = false;
    left = blocks;
}

bool memory_refused(void) {
    refuses = false;
    return refused;
}

/* Whether this call is refused. */
static bool refuse(void) {
    calls++;
    add(&memory_asked, 1);
    if (!refuses || refused) return false;
    if (left == 0) {
        refused = true;
        return true;
    }
    left--;
    return false;
}

static size_t *front_of(void *block) { return (size_t *)(void *)((char *)block - FRONT); }

/* The block behind this front, which now has so many bytes; they were counted before as so many. */
static void *block_of(void *front, size_t bytes, size_t before) {
    if (front == NULL) return NULL;
    *(size_t *)front = bytes;
    add(&memory_bytes, (long)bytes - (long)before);
    return (char *)front + FRONT;
}

void *__wrap_malloc(size_t bytes) {
    if (refuse() || bytes > SIZE_MAX - FRONT) return NULL;
    void *block = block_of(__real_malloc(FRONT + bytes), bytes, 0);
    if (block != NULL) add(&memory_held, 1);
    return block;
}

void *__wrap_realloc(void *block, size_t bytes) {
    if (block == NULL) return __wrap_malloc(bytes);
    if (refuse() || bytes > SIZE_MAX - FRONT) return NULL;
    size_t before = *front_of(block);
    return block_of(__real_realloc(front_of(block), FRONT + bytes), bytes, before);
}

void __wrap_free(void *block) {
    calls++;
    if (block == NULL) return;
    add(&memory_held, -1);
    add(&memory_bytes, -(long)*front_of(block));
    __real_free(front_of(block));
}
