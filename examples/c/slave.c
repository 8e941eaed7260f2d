/* A slave of two tasks: a fast one and a slow one, each of which samples its variables in a thread
 * of its own, and a transmitter in the first thread, which hands the frames on.
 *
 *   slave [FILE]   the frames go to FILE, byte by byte, and are counted alone where none is named
 *
 * Look at the lines: each sample that was due was written, dropped or left. How many were dropped
 * depends on the schedule; it stands on standard error where there is a FILE. */
#define _POSIX_C_SOURCE 200809L
#include "nerthogal.h"
#include <pthread.h>
#include <stdio.h>
#include <time.h>

/* ---- the set-up: what a master sends */

#define IMAGE_BYTES 8u /* the memory image of a task: addresses 0 to 7 */
#define TASKS 2        /* one event channel each */

/* List 0 is sampled by the fast task and list 1 by the slow one, each with a timestamp. */
static const struct {
    uint8_t bytes[8];
    size_t len;
} commands[] = {
    {{0xD6}, 1},                         /* FREE_DAQ */
    {{0xD5, 0, 2, 0}, 4},                /* ALLOC_DAQ: two lists */
    {{0xD4, 0, 0, 0, 1}, 5},             /* ALLOC_ODT: one for each of them */
    {{0xD4, 0, 1, 0, 1}, 5},
    {{0xD3, 0, 0, 0, 0, 2}, 6},          /* ALLOC_ODT_ENTRY: two for list 0, one for list 1 */
    {{0xD3, 0, 1, 0, 0, 1}, 6},
    {{0xE2, 0, 0, 0, 0, 0}, 6},          /* SET_DAQ_PTR: list 0, ODT 0, entry 0 */
    {{0xE1, 0xFF, 4, 0, 0, 0, 0, 0}, 8}, /* WRITE_DAQ: four bytes at address 0 */
    {{0xE1, 0xFF, 2, 0, 6, 0, 0, 0}, 8}, /* and two bytes at address 6 */
    {{0xE0, 0x10, 0, 0, 0, 0, 1, 0}, 8}, /* SET_DAQ_LIST_MODE: TIMESTAMP, event channel 0 */
    {{0xE2, 0, 1, 0, 0, 0}, 6},          /* the same for list 1: two bytes, event channel 1 */
    {{0xE1, 0xFF, 2, 0, 4, 0, 0, 0}, 8},
    {{0xE0, 0x10, 1, 0, 1, 0, 1, 0}, 8},
    {{0xDE, 1, 0, 0}, 4},                /* START_STOP_DAQ_LIST: starts each of them */
    {{0xDE, 1, 1, 0}, 4},
};

/* A real slave takes each packet from its transport, and sends the reply back. */
static bool set_up(ng_store *store) {
    uint8_t reply[NG_REPLY_BYTES];
    size_t len;
    if (ng_store_new(TASKS, IMAGE_BYTES, NG_ABSOLUTE, 4, store) != NG_OK) return false;
    for (size_t k = 0; k < sizeof commands / sizeof commands[0]; k++) {
        if (ng_store_command(store, commands[k].bytes, commands[k].len, reply, sizeof reply, &len)
            != NG_OK)
            return false; /* want of memory */
        if (reply[0] != 0xFF) return false; /* the command was refused */
    }
    return true;
}

/* ---- the tasks */

typedef struct {
    ng_sampler sampler;
    uint32_t triggers, period; /* how many, and the ticks between two of them */
    bool good;
} task;

static pthread_mutex_t lock = PTHREAD_MUTEX_INITIALIZER;
static int running;

/* Waits for so many ticks of 20 microseconds. A real task waits for its timer. */
static void wait_for(uint32_t ticks) {
    struct timespec span = {0, 20000L * (long)ticks};
    nanosleep(&span, NULL);
}

static void put(uint8_t *at, size_t bytes, uint32_t value) {
    for (size_t i = 0; i < bytes; i++) at[i] = (uint8_t)(value >> 8 * i);
}

/* Controls something, and takes a trigger at the end of each period. The image is the task's own:
 * nobody else writes it while it is sampled, so what a sample has belongs to one period. */
static void *run_task(void *argument) {
    task *self = argument;
    uint8_t image[IMAGE_BYTES] = {0};
    ng_taken taken;
    for (uint32_t k = 0; k < self->triggers; k++) {
        uint32_t now = k * self->period;
        put(image + 0, 4, now * now);
        put(image + 4, 2, 900 + k % 7);
        put(image + 6, 2, k);
        if (ng_trigger(&self->sampler, image, sizeof image, now, &taken) != NG_OK)
            self->good = false;
        wait_for(self->period);
    }
    /* what is in the ring stays there for the transmitter */
    if (ng_finish(&self->sampler) != NG_OK) self->good = false;
    pthread_mutex_lock(&lock);
    running--;
    pthread_mutex_unlock(&lock);
    return NULL;
}

/* ---- the transmitter */

static FILE *file;              /* where the frames go, or NULL */
static unsigned long handed_on; /* frames */
static uint8_t frames[NG_PUMP_BYTES];

#define DATAGRAM_BYTES 1400u /* what goes to a network in one piece */

static bool hand_on(size_t len, uint64_t count) {
    handed_on += count;
    return file == NULL || fwrite(frames, 1, len, file) == len;
}

static bool tasks_run(void) {
    pthread_mutex_lock(&lock);
    bool some = running > 0;
    pthread_mutex_unlock(&lock);
    return some;
}

/* Pumps while the tasks run: each call takes as many samples as a datagram has room for, in turn
 * from the one and the other task. */
static bool transmit(ng_engine *engine) {
    size_t len;
    ng_pumped_all pumped;
    while (tasks_run()) {
        if (ng_pump_all(engine, frames, DATAGRAM_BYTES, &len, &pumped) != NG_OK) return false;
        if (!hand_on(len, pumped.frames)) return false;
        if (pumped.taken == 0) wait_for(1);
    }
    return true;
}

/* Hands on what is left once the tasks are over. */
static bool drain(ng_engine *engine) {
    size_t len;
    ng_pumped pumped;
    for (bool left = true; left;) {
        if (ng_drain(engine, frames, sizeof frames, &len, &pumped, &left) != NG_OK) return false;
        if (!hand_on(len, pumped.frames)) return false;
    }
    return true;
}

/* ---- the account */

static bool close_and_print(ng_engine *engine) {
    ng_line lines[NG_MAX_LISTS];
    ng_report report;
    uint64_t written = 0;
    if (ng_close(engine, lines, NG_MAX_LISTS, &report) != NG_OK) return false;
    for (size_t k = 0; k < report.lines; k++) {
        const ng_line *line = &lines[k];
        bool adds_up = line->due == line->written + line->dropped + line->left;
        printf("list %u: %lu due, adds up: %s\n", line->list, (unsigned long)line->due,
               adds_up ? "yes" : "no");
        if (file != NULL)
            fprintf(stderr, "list %u: %lu due, %lu written, %lu dropped, %lu left\n", line->list,
                    (unsigned long)line->due, (unsigned long)line->written,
                    (unsigned long)line->dropped, (unsigned long)line->left);
        written += line->written;
    }
    /* each sample of these lists is one frame */
    printf("a frame for each sample that was written: %s\n", handed_on == written ? "yes" : "no");
    return !report.failed;
}

/* ---- all of it */

static bool start_tasks(ng_engine *engine, task *tasks, pthread_t *threads) {
    for (int c = 0; c < TASKS; c++)
        if (ng_next_sampler(engine, &tasks[c].sampler) != NG_OK) return false;
    running = TASKS;
    for (int c = 0; c < TASKS; c++)
        if (pthread_create(&threads[c], NULL, run_task, &tasks[c]) != 0) return false;
    return true;
}

static bool slave(void) {
    const size_t caps[TASKS] = {64, 8}; /* so many samples may wait for the transmitter */
    static task tasks[TASKS] = {{NG_SAMPLER_INIT, 1000, 1, true}, {NG_SAMPLER_INIT, 100, 10, true}};
    pthread_t threads[TASKS];
    ng_store store = NG_STORE_INIT;
    ng_engine engine = NG_ENGINE_INIT;
    if (!set_up(&store)) return false;
    if (ng_open(&store, NG_RING_ITEMS, caps, TASKS, &engine) != NG_OK) return false;
    if (!start_tasks(&engine, tasks, threads) || !transmit(&engine)) return false;
    for (int c = 0; c < TASKS; c++)
        if (pthread_join(threads[c], NULL) != 0 || !tasks[c].good) return false;
    return drain(&engine) && close_and_print(&engine) && ng_store_free(&store) == NG_OK;
}

int main(int count, char **words) {
    if (count > 1 && (file = fopen(words[1], "wb")) == NULL) {
        perror(words[1]);
        return 2;
    }
    bool good = slave();
    if (file != NULL && fclose(file) != 0) good = false;
    if (!good) fprintf(stderr, "slave: failed\n");
    return good ? 0 : 1;
}
