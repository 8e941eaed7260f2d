/* 500 runs of a slave and of its two tasks, each in a thread of its own, whose accounts are those
 * that the tasks counted themselves. Memory has the number of the trigger. A task counts what
 * its triggers answer, and notes each sample that was accepted. The first thread is the master, and
 * notes each sample that was sent. In a run there are several measurements: some stop while a task
 * is in the middle of them, and some no task fetches, since all tasks stand still, don't run yet,
 * or run no more. Of a list's samples between a start and a stop, those that were sent are the
 * first that were accepted, and each is marked exactly if one was dropped just before it. In 200
 * more runs the tasks stand still where a measurement begins and ends, so that they know of which
 * measurement each trigger is: the accounts of the last four alone, and of those before, are what
 * they counted. Prints a line for the ones and one for the others; ends with status 1 at the first
 * thing that isn't as wanted. */
#define _POSIX_C_SOURCE 200809L
#define LISTS 4
#include "master.h"
#include "memory.h"
#include <pthread.h>
#include <sched.h>

#define CHANNELS 2
#define RUNS 125 /* over each of four rings */
#define KNOWN_RUNS 50 /* over each of four rings, in which each measurement is known */
#define MEASUREMENTS 10 /* in one of these, at most */
#define MOST 131072 /* more samples than a run has of a list */

/* Samples of a list, in their order: the number of the trigger; of one that was sent, behind how
 * many starts of its list it stands, and whether it is marked; and of one that was accepted,
 * whether one was dropped just before it. */
struct samples {
    struct {
        uint32_t number, starts;
        bool marked;
    } of[MOST];
    size_t count;
};
static struct samples accepted[LISTS], sent[LISTS];

static bool note(struct samples *samples, uint32_t number, uint32_t starts, bool marked) {
    if (samples->count == MOST) return false;
    samples->of[samples->count].number = number;
    samples->of[samples->count].starts = starts;
    samples->of[samples->count++].marked = marked;
    return true;
}

/* ---- the tasks */

/* A task, its thread, and what its triggers did. */
struct sampling {
    ng_task task;
    pthread_t thread;
    unsigned channel;
    uint32_t triggers;
    uint64_t due[LISTS], accepted[LISTS], dropped[LISTS];
    bool gap[LISTS]; /* the last one that was due was dropped */
    bool fault;
};
static struct sampling samplings[CHANNELS];

static bool over;         /* no trigger is taken any more */
static bool still;        /* none is taken for now */
static unsigned standing; /* so many tasks stand still */
static bool has_threads;      /* the tasks' threads are there */

/* Counts what trigger k did with a list. */
static bool count(struct sampling *sampling, unsigned l, ng_taken taken, uint32_t k) {
    bool due = taken.due >> l & 1u, drops = taken.dropped >> l & 1u;
    if (!due) return true;
    sampling->due[l]++;
    sampling->dropped[l] += drops;
    sampling->accepted[l] += !drops;
    bool gap = sampling->gap[l];
    sampling->gap[l] = drops;
    return drops || note(&accepted[l], k, 0, gap);
}

/* Takes trigger k. Answers whether all was as it should be. */
static bool trigger(struct sampling *sampling, uint32_t k) {
    uint8_t bytes[4] = {(uint8_t)k, (uint8_t)(k >> 8), (uint8_t)(k >> 16), (uint8_t)(k >> 24)};
    ng_memory memory = {bytes, sizeof bytes};
    ng_taken taken = {0, 0, 0};
    if (ng_task_trigger(&sampling->task, &memory, 1, 0, &taken) != NG_OK) return false;
    if ((taken.accepted | taken.dropped) != taken.due) return false;
    if ((taken.accepted & taken.dropped) != 0 || taken.due >> LISTS != 0) return false;
    for (unsigned l = 0; l < LISTS; l++) {
        if (taken.due >> l & 1u && shapes[l].channel != sampling->channel) return false;
        if (!count(sampling, l, taken, k)) return false;
    }
    return true;
}

static void stand_still(void) {
    __atomic_fetch_add(&standing, 1, __ATOMIC_SEQ_CST);
    while (__atomic_load_n(&still, __ATOMIC_SEQ_CST)) sched_yield();
    __atomic_fetch_sub(&standing, 1, __ATOMIC_SEQ_CST);
}

/* Takes triggers until all is over, and no memory. */
static void *sample(void *argument) {
    struct sampling *sampling = argument;
    unsigned long calls = memory_calls();
    for (uint32_t k = 1; !__atomic_load_n(&over, __ATOMIC_SEQ_CST); k++) {
        if (__atomic_load_n(&still, __ATOMIC_SEQ_CST)) stand_still();
        if (!trigger(sampling, k)) sampling->fault = true;
        __atomic_store_n(&sampling->triggers, k, __ATOMIC_SEQ_CST);
        if (k % 64 == 0) sched_yield();
    }
    if (memory_calls() != calls) sampling->fault = true;
    return NULL;
}

static void stand(void) {
    __atomic_store_n(&still, true, __ATOMIC_SEQ_CST);
    while (__atomic_load_n(&standing, __ATOMIC_SEQ_CST) < CHANNELS) sched_yield();
}

static void go_on(void) {
    __atomic_store_n(&still, false, __ATOMIC_SEQ_CST);
    while (__atomic_load_n(&standing, __ATOMIC_SEQ_CST) > 0) sched_yield();
}

static void start_threads(void) {
    __atomic_store_n(&over, false, __ATOMIC_SEQ_CST);
    for (unsigned c = 0; c < CHANNELS; c++)
        want(pthread_create(&samplings[c].thread, NULL, sample, &samplings[c]) == 0, "thread");
    has_threads = true;
}

static void stop_threads(void) {
    __atomic_store_n(&over, true, __ATOMIC_SEQ_CST);
    for (unsigned c = 0; c < CHANNELS; c++) {
        want(pthread_join(samplings[c].thread, NULL) == 0, "join");
        want(!samplings[c].fault, "triggers, which take and free no memory");
    }
    has_threads = false;
}

/* Waits until each task took so many triggers more. */
static void let_run(unsigned triggers) {
    for (unsigned c = 0; c < CHANNELS; c++) {
        uint32_t from = __atomic_load_n(&samplings[c].triggers, __ATOMIC_SEQ_CST);
        while (__atomic_load_n(&samplings[c].triggers, __ATOMIC_SEQ_CST) - from < triggers)
            sched_yield();
    }
}

/* ---- the master */

static void take(unsigned l, uint32_t number, bool marked) {
    size_t before = sent[l].count;
    want(before == 0 || number > sent[l].of[before - 1].number, "a list's samples come in order");
    want(note(&sent[l], number, starts[l], marked), "there is room for the notes");
}

/* FREE_DAQ, and the lists anew. */
static void set_up(ng_slave *slave) {
    ASK(slave, STOP, ALL, 0xD6);
    set_up_lists(slave);
}

static void connect(ng_slave *slave) {
    ASK(slave, OTHER, 0, 0xFF, 0);
    set_up_lists(slave);
}

/* Starts some list, or all; once more as long as that is refused as busy, which it isn't while the
 * tasks stand still. */
static void start(ng_slave *slave) {
    uint8_t l = (uint8_t)roll(LISTS);
    bool all = roll(2) == 0;
    for (uint8_t each = 0; all && each < LISTS; each++) ASK(slave, OTHER, 0, 0xDE, 2, each, 0);
    for (unsigned k = 0; k < 1000000; k++) {
        if (all) ASK(slave, START, (1u << LISTS) - 1, 0xDD, 1);
        else ASK(slave, START, 1u << l, 0xDE, 1, l, 0);
        settle(slave);
        if (!refused) return;
        want(has_threads && !still, "no start is refused while the tasks stand still");
        sched_yield();
    }
    want(false, "a start is accepted in the end");
}

/* The end of a measurement: lists are stopped, are given up, or the master goes. */
static void end(ng_slave *slave) {
    switch (roll(8)) {
    case 0: set_up(slave); break;
    case 1:
        ASK(slave, STOP, ALL, 0xFE);
        connect(slave);
        break;
    case 2:
        lose(slave);
        connect(slave);
        break;
    case 3:
    case 4:
        for (uint8_t l = 0; l < LISTS; l++) stop_one(slave, l);
        break;
    default: ASK(slave, STOP, ALL, 0xDD, 0);
    }
    settle(slave);
}

/* Measurements that no task fetches. */
static void measure_alone(ng_slave *slave) {
    for (unsigned k = roll(3) + 1; k > 0; k--) {
        start(slave);
        if (roll(2) == 0) send(slave);
        end(slave);
    }
}

/* What the master does in a measurement. */
static void turn(ng_slave *slave) {
    switch (roll(8)) {
    case 0: look(slave); break; /* the transport refuses what is shown */
    case 1: stop_one(slave, (uint8_t)roll(LISTS)); break;
    case 2: start(slave); break;
    case 3: let_run(roll(40) + 1); break;
    default: send(slave);
    }
}

/* A measurement that ends at some moment, perhaps before a task looks; or while all tasks stand
 * still in the middle of it, and then come others, beside it, that no task fetches. */
static void measure(ng_slave *slave) {
    start(slave);
    if (roll(4) > 0) let_run(roll(60) + 1);
    for (unsigned k = roll(16); k > 0; k--) turn(slave);
    bool stands = roll(2) == 0;
    if (stands) stand();
    end(slave);
    if (stands) {
        measure_alone(slave);
        go_on();
    }
}

/* ---- the whole */

static void open_slave(size_t cap, ng_slave *slave) {
    static const struct shape all[LISTS] = {{0, 1, 1}, {1, 1, 1}, {0, 2, 2}, {1, 2, 3}};
    memcpy(shapes, all, sizeof shapes);
    open_with(cap, cap, slave);
    memset(samplings, 0, sizeof samplings);
    for (unsigned c = 0; c < CHANNELS; c++) {
        ng_task none = NG_TASK_INIT;
        samplings[c].task = none;
        samplings[c].channel = c;
        want(ng_slave_task(slave, (uint16_t)c, &samplings[c].task) == NG_OK, "task");
    }
    for (unsigned l = 0; l < LISTS; l++) accepted[l].count = sent[l].count = starts[l] = 0;
}

static uint64_t marks, lefts;

/* Of a list's samples between a start and a stop, those that were sent are the first that were
 * accepted, and marked where one was dropped before them. Before the first one a drop may be of an
 * earlier measurement, which it tells nothing of. */
static void compare(unsigned l) {
    size_t at = 0;
    for (size_t k = 0; k < sent[l].count; k++) {
        bool goes_on = k > 0 && sent[l].of[k].starts == sent[l].of[k - 1].starts, gap;
        size_t from = at;
        while (at < accepted[l].count && accepted[l].of[at].number != sent[l].of[k].number) at++;
        want(at < accepted[l].count, "a sample that was sent was accepted");
        want(!goes_on || at == from, "none between two that were sent is lost");
        gap = accepted[l].of[at++].marked;
        want(sent[l].of[k].marked ? gap : !gap || !goes_on, "a mark where one was dropped");
        marks += sent[l].of[k].marked;
    }
}

/* What was due of a list, by the accounts of the last measurements and of those before. */
static uint64_t due_of_each(const ng_measurements *each, unsigned l) {
    uint64_t due = each->older.lines[l].due;
    for (size_t k = 0; k < each->count; k++) due += each->last[k].lines[l].due;
    return due;
}

/* Closes a slave, whose account is what its tasks and its master counted. */
static void close_slave(ng_slave *slave) {
    ng_line lines[NG_MAX_LISTS];
    ng_measurements each;
    bool whole = false;
    want(ng_slave_close(slave, lines, NG_MAX_LISTS, &whole, &each) == NG_OK && whole, "close");
    for (unsigned l = 0; l < NG_MAX_LISTS; l++) {
        const ng_line *line = &lines[l];
        want(line->due == due_of_each(&each, l), "the accounts of the measurements add up");
        want(line->list == l && line->due == line->written + line->dropped + line->left, "a line");
        if (l >= LISTS) {
            want(line->due == 0, "no other list was due");
            continue;
        }
        const struct sampling *sampling = &samplings[shapes[l].channel];
        want(line->due == sampling->due[l], "due is what the task counted");
        want(line->dropped == sampling->dropped[l], "dropped is what the task counted");
        want(line->written + line->left == sampling->accepted[l], "so is what was accepted");
        want(line->written == sent[l].count, "written is what the master received");
        compare(l);
        lefts += line->left;
    }
}

/* ---- measurements that are known to the tasks */

/* What the tasks and the master count of a measurement. */
struct counted {
    uint64_t due[LISTS], accepted[LISTS], dropped[LISTS], written[LISTS];
};

/* All that they counted so far, while the tasks stand still or don't run. */
static struct counted counted_so_far(void) {
    struct counted all;
    for (unsigned l = 0; l < LISTS; l++) {
        const struct sampling *sampling = &samplings[shapes[l].channel];
        all.due[l] = sampling->due[l];
        all.accepted[l] = sampling->accepted[l];
        all.dropped[l] = sampling->dropped[l];
        all.written[l] = sent[l].count;
    }
    return all;
}

/* Adds to what was counted what was counted between. */
static void add_between(struct counted *to, const struct counted *from, const struct counted *till) {
    for (unsigned l = 0; l < LISTS; l++) {
        to->due[l] += till->due[l] - from->due[l];
        to->accepted[l] += till->accepted[l] - from->accepted[l];
        to->dropped[l] += till->dropped[l] - from->dropped[l];
        to->written[l] += till->written[l] - from->written[l];
    }
}

/* Sends until the rings are empty, while the tasks stand still. */
static void drain(ng_slave *slave) {
    for (unsigned k = 0; k < 1000000; k++)
        if (!send(slave)) return;
    want(false, "nothing more waits");
}

/* A measurement that begins and ends while the tasks stand still; some no task fetches. */
static struct counted measure_known(ng_slave *slave) {
    struct counted from = counted_so_far(), till, one = {{0}, {0}, {0}, {0}};
    start(slave);
    if (roll(4) > 0) {
        go_on();
        let_run(roll(60) + 1);
        for (unsigned k = roll(8); k > 0; k--) {
            if (roll(3) == 0) stop_one(slave, (uint8_t)roll(LISTS));
            else send(slave);
        }
        stand();
    }
    if (roll(3) > 0) drain(slave);
    end(slave);
    drain(slave);
    till = counted_so_far();
    add_between(&one, &from, &till);
    return one;
}

/* An account has what was counted. */
static void compare_with(const ng_measurement *account, const struct counted *of, const char *what) {
    want(account->whole, what);
    for (unsigned l = 0; l < NG_MAX_LISTS; l++) {
        const ng_line *line = &account->lines[l];
        want(line->list == l && line->due == line->written + line->dropped + line->left, what);
        if (l >= LISTS) want(line->due == 0, what);
        else want(line->due == of->due[l] && line->dropped == of->dropped[l]
                      && line->written == of->written[l]
                      && line->written + line->left == of->accepted[l], what);
    }
}

static uint64_t olds;

static void close_known(ng_slave *slave, const struct counted *measured, unsigned count) {
    static const struct counted none;
    ng_line lines[NG_MAX_LISTS];
    ng_measurements each;
    bool whole = false;
    unsigned last = count < NG_LAST ? count : NG_LAST;
    struct counted older = none;
    want(ng_slave_close(slave, lines, NG_MAX_LISTS, &whole, &each) == NG_OK && whole, "close");
    want(each.count == last && each.older.number == count - last, "how many measurements");
    for (unsigned k = 0; k < last; k++) {
        want(each.last[k].number == count - last + k, "the number of a measurement");
        compare_with(&each.last[k], &measured[count - last + k], "the account of a measurement");
    }
    for (unsigned k = 0; k < count - last; k++) add_between(&older, &none, &measured[k]);
    compare_with(&each.older, &older, "the account of those before");
    for (unsigned l = 0; l < LISTS; l++) olds += older.due[l];
}

static void run_known(size_t cap) {
    ng_slave slave = NG_SLAVE_INIT;
    struct counted measured[MEASUREMENTS];
    unsigned long held = memory_held;
    srand(++seed);
    unsigned count = roll(MEASUREMENTS) + 1;
    open_slave(cap, &slave);
    connect(&slave);
    start_threads();
    stand();
    for (unsigned k = 0; k < count; k++) measured[k] = measure_known(&slave);
    go_on();
    stop_threads();
    for (unsigned c = 0; c < CHANNELS; c++)
        want(ng_task_finish(&samplings[c].task) == NG_OK, "finish");
    close_known(&slave, measured, count);
    want(memory_held == held, "all memory was given back");
}

static void run(size_t cap) {
    ng_slave slave = NG_SLAVE_INIT;
    unsigned long held = memory_held;
    srand(++seed);
    open_slave(cap, &slave);
    connect(&slave);
    if (roll(2) == 0) measure_alone(&slave);
    start_threads();
    for (unsigned k = roll(3) + 2; k > 0; k--) measure(&slave);
    start(&slave);
    if (roll(2) == 0) let_run(roll(20) + 1);
    stop_threads();
    if (roll(2) == 0) {
        end(&slave);
        measure_alone(&slave);
    }
    for (unsigned c = 0; c < CHANNELS; c++)
        want(ng_task_finish(&samplings[c].task) == NG_OK, "finish");
    close_slave(&slave);
    want(memory_held == held, "all memory was given back");
}

/* The bytes of the rings: so many that 4 samples of two packets find room, 29 of one packet, 1,024
 * of two, and 3,640 of one. */
static const size_t caps[] = {160, 928, 40960, 116480};

#define RINGS (sizeof caps / sizeof *caps)

int main(void) {
    for (unsigned k = 0; k < RUNS; k++)
        for (size_t ring = 0; ring < RINGS; ring++) run(caps[ring]);
    want(marks > 0 && lefts > 0 && thrown > 0, "samples were marked, left and thrown away");
    printf("%zu runs, with the accounts that the tasks counted: ok\n", RINGS * RUNS);
    for (unsigned k = 0; k < KNOWN_RUNS; k++)
        for (size_t ring = 0; ring < RINGS; ring++) run_known(caps[ring]);
    want(olds > 0, "there were more than the last four");
    printf("%zu runs, with the accounts of each measurement that the tasks counted: ok\n",
           RINGS * KNOWN_RUNS);
    return 0;
}
