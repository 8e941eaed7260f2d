/* Two tasks in threads of their own, beside a slave in the first thread whose master starts and
 * stops their DAQ lists, many times over. Each thread finishes its task itself; the first one
 * closes the slave, in every other four runs before it joins the threads. Each task numbers its
 * triggers in a segment of its own, so that each frame tells what came before it. Prints one line;
 * ends with status 1 at the first thing that isn't as wanted. */
#include "memory.h"
#include "nerthogal.h"
#include <pthread.h>
#include <stdio.h>
#include <stdlib.h>
#include <string.h>

/* No segment is there to be read without a DAQ list; no A2L file. */
static const ng_memory not_there = NG_NOT_THERE;
#define NO_MEMORY &not_there, 0
#define NO_A2L (const uint8_t *)"", 0

#define CHANNELS 2
#define TRIGGERS 400u
#define TURNS 150
#define TIMES 1000

static void want(bool holds, const char *what) {
    if (holds) return;
    printf("FAILED: %s\n", what);
    exit(1);
}

/* A task in its thread, its segment of memory, and what its triggers did. */
struct sampling {
    ng_task task;
    unsigned channel;
    uint8_t bytes[4];
    uint64_t due, dropped;
    bool fault;
};

/* Takes triggers by a task, whose channel has the DAQ list of its number, and finishes it. */
static void *sample(void *argument) {
    struct sampling *sampling = argument;
    ng_memory memory[CHANNELS] = {NG_NOT_THERE, NG_NOT_THERE};
    memory[sampling->channel] = (ng_memory){sampling->bytes, sizeof sampling->bytes};
    for (uint32_t k = 1; k <= TRIGGERS; k++) {
        ng_taken taken;
        sampling->bytes[0] = (uint8_t)k;
        sampling->bytes[1] = (uint8_t)(k >> 8);
        if (ng_task_trigger(&sampling->task, memory, CHANNELS, k, &taken) != NG_OK)
            sampling->fault = true;
        if ((taken.accepted | taken.dropped) != taken.due) sampling->fault = true;
        sampling->due += taken.due != 0;
        sampling->dropped += taken.dropped != 0;
    }
    if (ng_task_finish(&sampling->task) != NG_OK) sampling->fault = true;
    return NULL;
}

/* What the master sent that wasn't answered yet: a list that it starts or stops, or neither. */
struct command {
    bool starts, stops;
    unsigned list;
};
static struct command asked[16];
static unsigned waiting;

/* What the frames so far told. */
static uint32_t counter, next[CHANNELS];
static uint64_t received[CHANNELS];
static bool running[CHANNELS];

static void hear(ng_slave *slave, const uint8_t *packet, uint8_t len, struct command command) {
    uint8_t frame[16] = {len, 0, 0, 0};
    size_t taken = 77;
    memcpy(frame + 4, packet, len);
    want(ng_slave_receive(slave, frame, 4u + len, 0, NO_MEMORY, &taken) == NG_OK, "receive");
    want(taken == 4u + len, "the whole frame is taken");
    asked[waiting++] = command;
}

static void look_at_reply(const uint8_t *packet) {
    struct command command = asked[0];
    want(waiting > 0, "a reply for each command");
    waiting--;
    memmove(asked, asked + 1, waiting * sizeof *asked);
    if (packet[0] == 0xFE) {
        want(command.starts && packet[1] == 0x10, "a start is refused where a task is busy");
        return;
    }
    if (command.starts) running[command.list] = true;
    if (command.stops) running[command.list] = false;
}

static void look_at_sample(const uint8_t *packet, unsigned len) {
    uint32_t list = packet[0] & 0x7Fu, number = packet[1] | (uint32_t)packet[2] << 8;
    want(list < CHANNELS && len == 5, "a sample of a list");
    want(running[list], "it stands behind its list's start, and before its stop");
    want(number > next[list], "a list's samples come in order");
    next[list] = number;
    received[list]++;
}

static uint8_t buffer[1400];

/* Sends what waits. Answers whether anything did. */
static bool send(ng_slave *slave) {
    size_t len = 0;
    want(ng_slave_peek(slave, buffer, sizeof buffer, &len) == NG_OK, "peek");
    for (size_t at = 0; at < len; at += 4u + buffer[at]) {
        const uint8_t *frame = buffer + at;
        want((frame[2] | (uint32_t)frame[3] << 8) == (counter & 0xFFFF), "CTR rises by one");
        counter++;
        if (frame[4] >= 0xFE) look_at_reply(frame + 4);
        else look_at_sample(frame + 4, frame[0]);
    }
    want(ng_slave_sent(slave) == NG_OK, "sent");
    return len > 0;
}

/* A DAQ list for each event channel, whose one entry is the whole segment of its task. */
static void set_up(ng_slave *slave) {
    static const struct {
        uint8_t bytes[8], len;
    } packets[] = {
        {{0xFF, 0}, 2},
        {{0xD5, 0, 2, 0}, 4},
        {{0xD4, 0, 0, 0, 1}, 5},
        {{0xD4, 0, 1, 0, 1}, 5},
        {{0xD3, 0, 0, 0, 0, 1}, 6},
        {{0xD3, 0, 1, 0, 0, 1}, 6},
        {{0xE2, 0, 0, 0, 0, 0}, 6},
        {{0xE1, 0xFF, 4, 0, 0, 0, 0, 0}, 8},
        {{0xE0, 0, 0, 0, 0, 0, 1, 0}, 8},
        {{0xE2, 0, 1, 0, 0, 0}, 6},
        {{0xE1, 0xFF, 4, 0, 4, 0, 0, 0}, 8},
        {{0xE0, 0, 1, 0, 1, 0, 1, 0}, 8},
    };
    struct command other = {false, false, 0};
    for (size_t k = 0; k < sizeof packets / sizeof packets[0]; k++)
        hear(slave, packets[k].bytes, packets[k].len, other);
    want(send(slave) && waiting == 0, "each is answered");
}

/* Starts a list that doesn't run, or stops one that does. */
static void turn(ng_slave *slave, unsigned list) {
    uint8_t packet[4] = {0xDE, !running[list], (uint8_t)list, 0};
    struct command command = {!running[list], running[list], list};
    hear(slave, packet, 4, command);
}

static void open_slave(size_t cap, ng_slave *slave, struct sampling *samplings) {
    ng_profile profile = {
        .id = NG_ABSOLUTE, .ticks = 1, .unit = 3, .stamp_size = 4, .max_cto = 64, .max_dto = 64,
        .name = "ng"};
    ng_segment segments[CHANNELS] = {{.len = 4, .events = 1}, {.base = 4, .len = 4, .events = 2}};
    ng_event events[CHANNELS] = {{.name = "e0"}, {.name = "e1"}};
    for (unsigned c = 0; c < CHANNELS; c++) events[c].capacity = cap;
    want(ng_slave_open(&profile, segments, CHANNELS, events, CHANNELS, NO_A2L, slave) == NG_OK,
         "open");
    /* a reply that waited when the slave before was closed was thrown away */
    counter = waiting = 0;
    for (unsigned c = 0; c < CHANNELS; c++) {
        struct sampling none = {NG_TASK_INIT, c, {0}, 0, 0, false};
        samplings[c] = none;
        received[c] = next[c] = 0;
        running[c] = false;
        want(ng_slave_task(slave, (uint16_t)c, &samplings[c].task) == NG_OK, "task");
    }
}

static void join(pthread_t *threads) {
    for (unsigned c = 0; c < CHANNELS; c++) want(pthread_join(threads[c], NULL) == 0, "a thread");
}

static ng_line lines[NG_MAX_LISTS];
static ng_measurements each;

/* Closes the slave, and sends while a task isn't finished. */
static void close_slave(ng_slave *slave) {
    bool whole = false;
    ng_status status = NG_UNFINISHED;
    while (status == NG_UNFINISHED) {
        send(slave);
        status = ng_slave_close(slave, lines, NG_MAX_LISTS, &whole, &each);
    }
    want(status == NG_OK && whole, "close");
}

static void run(size_t cap, bool joins) {
    ng_slave slave = NG_SLAVE_INIT;
    struct sampling samplings[CHANNELS];
    pthread_t threads[CHANNELS];
    unsigned long held = memory_held;
    open_slave(cap, &slave, samplings);
    set_up(&slave);
    for (unsigned c = 0; c < CHANNELS; c++) turn(&slave, c);
    for (unsigned c = 0; c < CHANNELS; c++)
        want(pthread_create(&threads[c], NULL, sample, &samplings[c]) == 0, "thread");
    for (unsigned k = 0; k < TURNS; k++) {
        send(&slave);
        if (rand() % 8 == 0) turn(&slave, (unsigned)rand() % CHANNELS);
    }
    if (joins) join(threads);
    close_slave(&slave);
    if (!joins) join(threads);
    for (unsigned l = 0; l < CHANNELS; l++) {
        want(!samplings[l].fault, "triggers");
        want(lines[l].list == l && lines[l].due == samplings[l].due, "due");
        want(lines[l].dropped == samplings[l].dropped, "dropped");
        want(lines[l].written == received[l], "what was written was received");
        want(lines[l].due == lines[l].written + lines[l].dropped + lines[l].left, "it adds up");
    }
    want(memory_held == held, "all memory was given back");
}

/* The bytes of the rings: each sample takes 32, so 4, 29, 1,024 and 3,640 find room. */
static const size_t caps[] = {128, 928, 32768, 116480};

int main(void) {
    for (int k = 0; k < TIMES; k++) run(caps[k % 4], k % 8 < 4);
    printf("two tasks in threads beside a slave: ok\n");
    return 0;
}
