/* Measurements of a slave that come and go while its tasks run, each in a thread of its own and as
 * fast as it can: 1,000 of them with each of three seeds, over small and over larger rings. The
 * slave is in the first thread, beside a master that sends orders at random, loses its connection,
 * and sets lists up anew. What the slave sends is read as a master reads it: CTR rises by one, each
 * command has its reply, in order, no packet of a list stands outside of a run, each sample is
 * whole, and the samples of a list rise. What waits for a master that is lost never comes. A start
 * that is refused with ERR_CMD_BUSY is accepted in the end. The account has what the triggers
 * answered as due and dropped, and what was read as written. The triggers take and free no memory.
 * Prints a line for each seed; ends with status 1 at the first thing that isn't as wanted. */
#define _POSIX_C_SOURCE 200809L
#define LISTS 6
#include "master.h"
#include "memory.h"
#include <pthread.h>
#include <sched.h>

#define CHANNELS 2
#define MEASUREMENTS 1000

/* ---- the tasks */

/* A task in its thread, and what its triggers did. */
struct sampling {
    ng_task task;
    uint64_t due[LISTS], dropped[LISTS];
    bool fault;
};

static bool over;

/* Takes triggers until all is over, and finishes the task. Memory has the number of the trigger,
 * from 1 on. */
static void *sample(void *argument) {
    struct sampling *sampling = argument;
    unsigned long calls = memory_calls();
    for (uint32_t k = 1; !__atomic_load_n(&over, __ATOMIC_SEQ_CST); k++) {
        uint8_t bytes[4] = {(uint8_t)k, (uint8_t)(k >> 8), (uint8_t)(k >> 16), (uint8_t)(k >> 24)};
        ng_memory memory = {bytes, sizeof bytes};
        ng_taken taken = {0, 0, 0};
        if (ng_task_trigger(&sampling->task, &memory, 1, 0, &taken) != NG_OK) sampling->fault = true;
        for (unsigned l = 0; l < LISTS; l++) {
            sampling->due[l] += taken.due >> l & 1u;
            sampling->dropped[l] += taken.dropped >> l & 1u;
        }
        if (k % 64 == 0) sched_yield();
    }
    if (memory_calls() != calls) sampling->fault = true;
    if (ng_task_finish(&sampling->task) != NG_OK) sampling->fault = true;
    return NULL;
}

/* ---- the master */

static uint32_t newest[LISTS]; /* the number of the newest sample */
static uint64_t read_of[LISTS];

static void take(unsigned l, uint32_t number, bool marked) {
    (void)marked;
    want(number > newest[l], "a list's samples come in order");
    newest[l] = number;
    read_of[l]++;
}

/* Sends all that waits, while no list runs. */
static void drain(ng_slave *slave) {
    for (unsigned k = 0; k < LOOKS; k++)
        if (!send(slave)) return;
    want(false, "nothing more waits");
}

/* FREE_DAQ, and lists of other shapes, once what was sent of those before was read. */
static void set_up(ng_slave *slave) {
    ASK(slave, STOP, ALL, 0xD6);
    settle(slave);
    for (unsigned l = 0; l < LISTS; l++) {
        struct shape shape = {roll(CHANNELS), roll(2) + 1, roll(3) + 1};
        shapes[l] = shape;
        newest[l] = 0;
    }
    set_up_lists(slave);
}

static void connect(ng_slave *slave) {
    ASK(slave, OTHER, 0, 0xFF, 0);
    set_up(slave);
}

/* Selects some lists, one at least. */
static unsigned select_some(ng_slave *slave) {
    unsigned lists = 0;
    for (unsigned k = roll(4) + 1; k > 0; k--) {
        unsigned l = roll(LISTS);
        ASK(slave, OTHER, 0, 0xDE, 2, (uint8_t)l, 0);
        lists |= 1u << l;
    }
    return lists;
}

static unsigned long busy;

/* Starts some list, or some that it selects; once more as long as that is refused as busy. */
static void start(ng_slave *slave) {
    unsigned l = roll(LISTS), lists = roll(2) == 0 ? 0 : select_some(slave);
    for (unsigned k = 0; k < 1000000; k++) {
        if (lists == 0) ASK(slave, START, 1u << l, 0xDE, 1, (uint8_t)l, 0);
        else ASK(slave, START, lists, 0xDD, 1);
        settle(slave);
        if (!refused) return;
        busy++;
        sched_yield();
    }
    want(false, "a start is accepted in the end");
}

static void stop_some(ng_slave *slave) {
    unsigned lists = select_some(slave);
    ASK(slave, STOP, lists, 0xDD, 2);
}

/* What the master does in a measurement. */
static void turn(ng_slave *slave) {
    switch (roll(12)) {
    case 0: look(slave); break; /* the transport refuses what is shown */
    case 1:
        clock_now++;
        ASK(slave, GET_CLOCK, clock_now, 0xDC);
        break;
    case 2:
    case 3: start(slave); break;
    case 4: stop_one(slave, (uint8_t)roll(LISTS)); break;
    case 5: stop_some(slave); break;
    case 6:
        for (unsigned k = 0; k < 20; k++) sched_yield();
        break;
    default: send(slave);
    }
}

/* The end of a measurement: lists are stopped, are given up, or the master is lost. */
static void finish_measurement(ng_slave *slave) {
    switch (roll(10)) {
    case 0: set_up(slave); break;
    case 1:
        ASK(slave, STOP, ALL, 0xFE);
        connect(slave);
        break;
    case 2:
        lose(slave);
        connect(slave);
        break;
    case 3:
    case 4:
    case 5:
        for (uint8_t l = 0; l < LISTS; l++)
            if (running >> l & 1u) stop_one(slave, l);
        break;
    default: ASK(slave, STOP, ALL, 0xDD, 0);
    }
    settle(slave);
}

static void measure(ng_slave *slave) {
    start(slave);
    for (unsigned k = roll(24); k > 0 && running != 0; k--) turn(slave);
    finish_measurement(slave);
}

/* ---- the whole */

static void open_slave(size_t cap, size_t other, ng_slave *slave, struct sampling *samplings) {
    open_with(cap, other, slave);
    for (unsigned c = 0; c < CHANNELS; c++) {
        struct sampling none = {NG_TASK_INIT, {0}, {0}, false};
        samplings[c] = none;
        want(ng_slave_task(slave, (uint16_t)c, &samplings[c].task) == NG_OK, "task");
    }
    for (unsigned l = 0; l < LISTS; l++) read_of[l] = 0;
}

/* The account is that of the triggers and of the bytes. */
static void close_slave(ng_slave *slave, const struct sampling *samplings) {
    ng_line lines[NG_MAX_LISTS];
    bool whole = false;
    ng_measurements each;
    want(ng_slave_close(slave, lines, NG_MAX_LISTS, &whole, &each) == NG_OK && whole, "close");
    for (unsigned l = 0; l < LISTS; l++) {
        uint64_t due = samplings[0].due[l] + samplings[1].due[l];
        uint64_t dropped = samplings[0].dropped[l] + samplings[1].dropped[l];
        want(lines[l].list == l && lines[l].due == due, "due");
        want(lines[l].dropped == dropped, "dropped");
        want(lines[l].written == read_of[l], "what was written was read");
        want(lines[l].left == due - dropped - read_of[l], "it adds up");
    }
}

static void play(size_t cap, size_t other, unsigned by) {
    ng_slave slave = NG_SLAVE_INIT;
    struct sampling samplings[CHANNELS];
    pthread_t threads[CHANNELS];
    unsigned long held = memory_held;
    srand(seed = by);
    open_slave(cap, other, &slave, samplings);
    __atomic_store_n(&over, false, __ATOMIC_SEQ_CST);
    for (unsigned c = 0; c < CHANNELS; c++)
        want(pthread_create(&threads[c], NULL, sample, &samplings[c]) == 0, "thread");
    connect(&slave);
    thrown = 0;
    for (unsigned k = 0; k < MEASUREMENTS; k++) measure(&slave);
    want(thrown > 0, "some master was lost for whom something waited");
    drain(&slave);
    __atomic_store_n(&over, true, __ATOMIC_SEQ_CST);
    for (unsigned c = 0; c < CHANNELS; c++) {
        want(pthread_join(threads[c], NULL) == 0, "join");
        want(!samplings[c].fault, "triggers, which take and free no memory");
    }
    close_slave(&slave, samplings);
    want(memory_held == held, "all memory was given back");
    printf("%u measurements in three threads, over rings of %zu and %zu bytes, seed %u: ok\n",
           MEASUREMENTS, cap, other, seed);
}

/* In a ring of 640 bytes 16 samples of two packets find room, in one of 928 bytes 29 of one packet.
 * Two of these fill a ring of 64 bytes, and stops wait for room there. */
int main(void) {
    for (unsigned k = 1; k <= 3; k++) play(640, 64, k);
    for (unsigned k = 1; k <= 3; k++) play(928, 928, k);
    return 0;
}
