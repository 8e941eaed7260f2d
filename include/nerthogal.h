/* nerthogal.h: the data acquisition half of an XCP slave (ASAM MCD-1 XCP), for C99.
 *
 * There are two ways to use it. A slave answers a master that is connected to it, and starts and
 * stops measurements as the master says: you pass it the master's bytes and send what it lays out,
 * while a task for each event channel takes the triggers. Or, without a connection, a store is set
 * up by command packets, and an engine is then opened over the store. It has a sampler for each
 * event channel, which takes the triggers, and a pump, which returns the frames of the samples. At
 * the end you finish the samplers, drain the rings, and close the engine, which returns its
 * account.
 *
 * Link with libnerthogal.a (-lnerthogal), which `make -C c install` installs. In the repository it
 * is two archives: libnerthogal_c.a, and liblibc_c.a of the Rattle toolchain, which connects it to
 * the C library's malloc, realloc and free.
 *
 * The comment on each call says what is proved of it, and what is only tested. The tests are the
 * programs NAME_test.c of tests/c, which tests/c/run runs. The proofs assume that the caller keeps
 * the rules below. The library can't check them.
 *
 * Bytes
 *   - A command packet and the packet that answers it are XCP packets, without a transport header.
 *     A frame is LEN and CTR, 2 bytes each, least significant first, then a packet of LEN bytes.
 *   - Lengths and buffer sizes are in bytes.
 *   - A set of DAQ lists is a uint16_t. Its bit l stands for list l.
 *   - A timestamp is a uint32_t in the caller's ticks. The library has no clock.
 *
 * Handles
 *   - A handle is a struct that the caller owns. Initialize it with NG_STORE_INIT, NG_ENGINE_INIT,
 *     NG_SAMPLER_INIT, NG_SLAVE_INIT or NG_TASK_INIT. Its fields belong to the library: don't read,
 *     write or copy them. You may move the struct while no call uses it. The old copy is no longer
 *     a handle.
 *   - A full handle leaks memory unless it is passed to ng_store_free, ng_engine_free,
 *     ng_sampler_free, ng_finish, ng_close, ng_task_finish or ng_slave_close. After that it is
 *     empty: it may be freed once more, or filled again.
 *   - A store may be used, or freed, after an engine was opened over it. An engine and its samplers
 *     may be freed in any order. If a sampler is freed without being finished, its engine can't be
 *     drained or closed, only freed.
 *
 * Pointers
 *   - A pointer is never null, even if its length is 0. It is aligned, and the stated number of
 *     elements may be read, and written if it isn't const. The memory behind two pointers of one
 *     call doesn't overlap, unless both are const. The library keeps no pointer after a call.
 *   - A length is below 2^63.
 *   - During a call, only the call itself changes the memory behind its pointers, and nobody else
 *     reads what isn't const.
 *
 * Segments
 *   - What a master may name of a slave's memory lies in segments, each a stretch of addresses. A
 *     segment says which event channels may read it: their triggers are handed it where it lies.
 *   - What is handed in isn't written during the call, not even bytes that no DAQ list names. So
 *     for a segment that its event channel may not read a trigger is handed NG_NOT_THERE, if
 *     another task or an interrupt may write it meanwhile. What ng_slave_receive and
 *     ng_slave_datagram are handed is to be read without a DAQ list: where somebody may write a
 *     segment meanwhile, pass a copy, or NG_NOT_THERE.
 *   - So variables are laid out by who writes them. Give those of each task a linker section of
 *     their own, which is a segment that the task's event channel alone may read. (GNU ld tells
 *     where section NAME lies: from __start_NAME to __stop_NAME.) What nobody writes may be read by
 *     all event channels.
 *
 * Threads
 *   - Only one call at a time may use a handle. A handle may move from one thread to another if the
 *     two uses are ordered: by a lock, by the start or the join of a thread, or by a sequentially
 *     consistent atomic.
 *   - Calls on different handles may run in different threads at the same time. So each sampler of
 *     an engine may have a thread of its own, while another thread pumps; and each task of a slave,
 *     while another thread hears the master and sends. This needs no lock.
 *   - Don't call from a signal handler, or from the forked child of a process with threads.
 *   - No call waits, takes a lock, starts a thread or calls back. The comment on each call says
 *     when it calls malloc, realloc and free. They must align a block to each power of two up to 16
 *     that divides its size; to 8, for example, if the size is 24 bytes.
 *
 * Memory
 *   - A slave with n event channels and their tasks, and with l DAQ lists that have o ODTs and e
 *     entries in all, has at most so many bytes of malloc's. Only tested, by session_test.c:
 *         the slave, from its opening on   30000 + 16000 n + a2l_len
 *         its lists, until they are freed  48 l + 24 o + 16 e
 *         its page, once it has measured   22000 + 18 p: p is the greater of 8192 and the bytes of
 *                                          the frames of the longest sample so far
 *         a measurement                    2500 n + 160 l + 100 o + 80 e, and for each event channel
 *                                          its capacity, and a sample of each of its lists, or the
 *                                          greater of its capacity and its longest sample, if that
 *                                          is less
 *   - A measurement that has ended, by DISCONNECT too, is freed where the next one begins, or by
 *     ng_slave_close. A task that took no trigger since, or whose stops found no room, keeps it
 *     longer; then it stands beside the next one. There are never more than two.
 *   - For example, two event channels of 32,768 bytes and 15 lists of 8 ODTs of 15 entries take some
 *     433 kB while they are measured. 16 event channels of 65,536 bytes and 16 lists of 8 ODTs of 32
 *     entries take at most 2.0 MB, and with two measurements 3.4 MB.
 *
 * No call aborts, and none reads or writes beyond the given lengths, whatever bytes and numbers it
 * is given. */
#ifndef NERTHOGAL_H
#define NERTHOGAL_H

#include <stdbool.h>
#include <stddef.h>
#include <stdint.h>

/* The version of this header and its library. */
#define NG_VERSION_MAJOR 0
#define NG_VERSION_MINOR 4
#define NG_VERSION_PATCH 0
#define NG_VERSION "0.4.0"

#ifdef __cplusplus
extern "C" {
#endif

#define NG_MAX_CHANNELS 8u      /* event channels of a store: 1 to 8 */
#define NG_MAX_EVENTS 16u       /* event channels of a slave: 1 to 16 */
#define NG_MAX_SEGMENTS 16u     /* segments of a slave's memory: 1 to 16 */
#define NG_MAX_IMAGE 4096u      /* bytes of a store's memory image: 1 to 4096 */
#define NG_MAX_RING 1024u       /* places of an engine's ring of items: 1 to 1024 */
#define NG_MIN_BYTE_RING 532u   /* bytes of an engine's ring of bytes: from 532 .. */
#define NG_MAX_BYTE_RING 65536u /* .. to 65536 */
#define NG_MIN_FRAME_RING 64u   /* bytes of the ring of a slave's event channel: from 64 .. */
#define NG_MAX_FRAME_RING 16777216u /* .. to 16777216, a multiple of 8 */
#define NG_MAX_LISTS 16u        /* DAQ lists, and so the lines of an account */
#define NG_LAST 4u              /* measurements whose own accounts a slave keeps: the last four */
#define NG_REPLY_BYTES 8u       /* room that the answer to a command needs */
#define NG_PUMP_BYTES 4352u     /* room that a pump needs: 8 samples of 8 frames of 4 + 64 bytes */
#define NG_PUMP_ALL_BYTES 544u  /* room that ng_pump_all needs: a sample of 8 frames */
#define NG_PEEK_BYTES 8196u     /* room that a peek never lacks: the longest frame, 4 + 8192 bytes */
#define NG_MAX_NAME 56u         /* bytes of a slave's and of an event channel's name: 0 to 56 */

/* What a call returns: one of the numbers below. */
typedef uint32_t ng_status;
enum {
    NG_OK = 0,              /* it was done */
    NG_EMPTY = 1,           /* the handle is empty */
    NG_IN_USE = 2,          /* the handle to be filled isn't empty */
    NG_BAD_LIMITS = 3,      /* a number is out of its limits: each call says which it can be */
    NG_SMALL_BUFFER = 4,    /* the buffer is too short */
    NG_MEMORY = 5,          /* out of memory */
    NG_BAD_CAPS = 6,        /* not one capacity per channel, or one out of its limits */
    NG_NOTHING_RUNNING = 7, /* no DAQ list of the store runs */
    NG_NO_SAMPLER = 8,      /* all samplers of the engine were handed out */
    NG_WRONG_IMAGE = 9,     /* the image does not have the length of the store's images */
    NG_SPENT = 10,          /* 2^59 triggers, or 2^62 items, were taken; or a slave is spent */
    NG_NOT_OF_CHANNEL = 11, /* the DAQ list isn't one of the sampler's */
    NG_RUNNING = 12,        /* the DAQ list runs already */
    NG_NOT_RUNNING = 13,    /* the DAQ list doesn't run */
    NG_NO_ROOM = 14,        /* the ring has no room for the stop marker; the list runs on */
    NG_UNFINISHED = 15,     /* a sampler of the engine, or a task of the slave, wasn't finished */
    NG_NO_ENGINE = 16,      /* the sampler's engine was freed */
    NG_NO_TASK = 17,        /* the task of the event channel was handed out before */
    NG_BAD_FRAME = 18,      /* a frame of the stream has LEN 0 or over MAX_CTO */
    NG_WRONG_MEMORY = 19    /* a segment that the event channel may read isn't there */
};

/* The identification field at the front of each DAQ packet of a store: one of the numbers below. */
typedef uint32_t ng_id_kind;
enum {
    NG_ABSOLUTE = 0,      /* the absolute ODT number, 1 byte */
    NG_RELATIVE_BYTE = 1, /* the relative ODT number and the number of the DAQ list, 1 byte each */
    NG_RELATIVE_WORD = 2  /* the same with 2 bytes for the list, least significant first: 3 bytes */
};

/* The kind of the rings of an engine, one ring per event channel: one of the numbers below. In a
 * ring of items each sample takes the same memory, enough for the longest one. In a ring of bytes a
 * sample takes 12 bytes, and for each packet its length and 1 byte more. A stop takes 3 bytes. */
typedef uint32_t ng_ring;
enum {
    NG_RING_ITEMS = 0, /* capacities are in samples and stops: 1 to NG_MAX_RING */
    NG_RING_BYTES = 1  /* capacities are in bytes: NG_MIN_BYTE_RING to NG_MAX_BYTE_RING */
};

/* A store, or none. */
typedef struct {
    void *at;
    bool full;
} ng_store;
#define NG_STORE_INIT { NULL, false }

/* An engine, or none. */
typedef struct {
    void *at;
    bool full;
} ng_engine;
#define NG_ENGINE_INIT { NULL, false }

/* The sampler of an event channel, or none. */
typedef struct {
    void *at;
    bool full;
} ng_sampler;
#define NG_SAMPLER_INIT { NULL, false }

/* A slave, or none. */
typedef struct {
    void *at;
    bool full;
} ng_slave;
#define NG_SLAVE_INIT { NULL, false }

/* The task of an event channel of a slave, or none. */
typedef struct {
    void *at;
    bool full;
} ng_task;
#define NG_TASK_INIT { NULL, false }

/* What a slave tells its master of an event channel, and the capacity of the channel's ring. A
 * sample takes 16 bytes there and its frames, which are 4 bytes and the packet for each packet, in
 * all filled up to a multiple of 8; a stop takes 8 bytes. A name ends before its first zero byte. */
typedef struct {
    size_t capacity;            /* in bytes: NG_MIN_FRAME_RING to NG_MAX_FRAME_RING, by eights */
    char name[NG_MAX_NAME + 1]; /* 0 to NG_MAX_NAME bytes of ASCII, 20 to 7E */
    uint8_t cycle, cycle_unit;  /* of its triggers, in its unit: 0 to 9, for 1 ns, 10 ns, .. 1 s */
    uint8_t priority;
} ng_event;

/* A segment of a slave's memory: bytes whose addresses follow one another. */
typedef struct {
    uint8_t extension; /* of their addresses */
    uint32_t base;     /* the address of the first */
    size_t len;        /* how many: 1 to 2^32, and base + len <= 2^32 */
    uint16_t events;   /* the event channels that may read it: bit c stands for event channel c */
} ng_segment;

/* The bytes of a segment, where they lie during a call; or none, if it isn't there. With length 0 a
 * null pointer does as well as that of NG_NOT_THERE, but that is only tested. */
typedef struct {
    const uint8_t *at;
    size_t len; /* that of the segment, or 0 */
} ng_memory;
#define NG_NOT_THERE { (const uint8_t *)"", 0 }

/* What a slave is opened with, beside its segments and event channels. */
typedef struct {
    ng_id_kind id;              /* the identification field of each DAQ packet */
    uint16_t ticks;             /* so many units are one tick of a timestamp: not 0 */
    uint16_t max_dto;           /* MAX_DTO, of DAQ packets: 8 to 8192 bytes */
    uint8_t unit;               /* of a timestamp: 0 to 9, for 1 ns, 10 ns, .. 1 s */
    uint8_t stamp_size;         /* bytes of a timestamp: 1, 2 or 4 */
    uint8_t max_cto;            /* MAX_CTO, of commands and replies: 8 to 255 bytes */
    char name[NG_MAX_NAME + 1]; /* as that of an event channel */
    char a2l_name[NG_MAX_NAME + 1]; /* of its A2L file, without path and extension; the same */
    char epk[NG_MAX_NAME + 1];  /* which program it is; the same */
} ng_profile;

/* What a trigger did: the lists that were due; of these, the lists whose sample went into the ring,
 * and the lists whose sample found no room and was dropped. */
typedef struct {
    uint16_t due, accepted, dropped;
} ng_taken;

/* How often a DAQ list was due since the opening, and what happened to its samples. */
typedef struct {
    uint64_t due, accepted, dropped;
} ng_counts;

/* What a pump did: the lists whose stop it took out of a ring, the number of samples and stops that
 * it took, and the number of frames that it wrote. */
typedef struct {
    uint16_t stopped;
    uint8_t taken, frames;
} ng_pumped;

/* What the pumps of one ng_pump_all did, one after another: how many samples and stops they took,
 * how many frames they wrote, and the lists of which they took a stop. */
typedef struct {
    uint64_t taken, frames;
    uint16_t stopped;
} ng_pumped_all;

/* What happened to the samples of a DAQ list since the opening: how many were due, and how many of
 * these were written, were dropped, or are left, in the ring or not written whole. due = written +
 * dropped + left. Written means that ng_pump, ng_pump_all or ng_drain returned all frames of the
 * sample; of a slave, that ng_slave_sent was told of them. The library doesn't know what a socket
 * then did with them. */
typedef struct {
    uint8_t list;
    uint64_t due, written, dropped, left;
} ng_line;

/* What a slave is about: whether a master is connected, whether some DAQ list runs, and how many
 * bytes of frames wait to be sent. */
typedef struct {
    bool connected, measuring;
    size_t waiting;
} ng_slave_state;

/* The account of one measurement of a slave, or of several together. A measurement begins at the
 * start of a DAQ list while none runs, and ends where none runs any more. */
typedef struct {
    uint64_t number;             /* measurements are counted from 0; of several, how many they are */
    bool whole;                  /* whether the lines have all event channels' parts */
    ng_line lines[NG_MAX_LISTS]; /* lines[l] is that of DAQ list l */
} ng_measurement;

/* The accounts of a slave's last measurements, each alone, and of all before them, together. */
typedef struct {
    size_t count;                 /* so many stand in last: all that there were, or NG_LAST */
    ng_measurement last[NG_LAST]; /* in the order of their numbers */
    ng_measurement older;
} ng_measurements;

/* The rest of an account: its number of lines, and whether a frame was not written whole. */
typedef struct {
    size_t lines;
    bool failed;
} ng_report;

/* ---- the store */

/* Makes a store without DAQ lists, as after FREE_DAQ. The parameters and their limits are:
 *
 *   channels    event channels: 1 to NG_MAX_CHANNELS
 *   image_len   bytes of a memory image: 1 to NG_MAX_IMAGE
 *   id          the identification field of each DAQ packet: NG_ABSOLUTE, NG_RELATIVE_BYTE or
 *               NG_RELATIVE_WORD
 *   stamp_size  bytes of a timestamp: 1, 2 or 4. A timestamp of 1 or 2 bytes is the trigger's,
 *               modulo 256 or 65536. It stands in the first packet of each sample of a DAQ list
 *               that was set up with timestamps, and nowhere else
 *
 * The last two apply to all lists of the store. With NG_ABSOLUTE, FIRST_PID of a list is the number
 * of the ODTs of the lists before it, and all lists together have at most 124 ODTs. With the other
 * two, FIRST_PID is 0, and all lists together have at most 128.
 *
 *   NG_IN_USE      *store isn't empty
 *   NG_BAD_LIMITS  channels, image_len, id or stamp_size is out of its limits
 *   NG_MEMORY      malloc failed
 *   NG_OK          *store holds the new store
 *
 * They are checked in this order. Except on NG_OK, *store is unchanged. Proved: all of this, except
 * that malloc failed if NG_MEMORY is returned. Calls malloc once; on NG_IN_USE and NG_BAD_LIMITS
 * not at all. */
ng_status ng_store_new(uint16_t channels, size_t image_len, ng_id_kind id, uint8_t stamp_size,
                       ng_store *store);

/* Carries out one command packet. It may have any bytes, or none. Writes the packet that replies to
 * it: FF (RES), followed by FIRST_PID if the command is START_STOP_DAQ_LIST; or FE (ERR) and the
 * byte of the error. A refused command changes nothing; the reply is ERR, and the status NG_OK.
 *
 *   NG_EMPTY         *store is empty
 *   NG_SMALL_BUFFER  reply_cap is below NG_REPLY_BYTES
 *   NG_MEMORY        the command is ALLOC_DAQ, ALLOC_ODT or ALLOC_ODT_ENTRY, it would be accepted,
 *                    and malloc or realloc failed
 *   NG_OK            the reply stands in reply[0] to reply[*reply_len - 1], and the command, if it
 *                    was accepted, is carried out
 *
 * They are checked in this order. Except on NG_OK, no command is carried out, and the store, reply
 * and *reply_len are unchanged. On NG_OK, the bytes of reply after the packet are unchanged.
 * Proved: all of this, and each byte of the reply, from the definitions of the commands and all
 * that the store accepted before; but not that malloc or realloc failed if NG_MEMORY is returned.
 * Calls malloc, realloc and free for the three commands above, and free for FREE_DAQ. */
ng_status ng_store_command(ng_store *store, const uint8_t *packet, size_t packet_len,
                           uint8_t *reply, size_t reply_cap, size_t *reply_len);

/* Frees the store, and leaves *store empty.
 *
 *   NG_EMPTY  *store was empty
 *   NG_OK     it held a store
 *
 * Proved: all of this, and that nothing of the store is used again. Calls free. */
ng_status ng_store_free(ng_store *store);

/* ---- opening an engine */

/* Opens an engine over a store. The store is only read. Each DAQ list that is ready is in the
 * sampler of its event channel, and runs there if it runs in the store. All rings are of the given
 * kind; the ring of event channel c has the capacity caps[c]. After this the store and the engine
 * are independent: a later command to the store gets its usual reply, and doesn't affect the
 * engine.
 *
 *   NG_IN_USE           *engine isn't empty
 *   NG_EMPTY            *store is empty
 *   NG_BAD_LIMITS       ring is neither NG_RING_ITEMS nor NG_RING_BYTES
 *   NG_BAD_CAPS         caps_len isn't the store's number of event channels, or a capacity is
 *                       out of the limits of this kind
 *   NG_NOTHING_RUNNING  no DAQ list of the store runs
 *   NG_MEMORY           malloc failed
 *   NG_OK               *engine holds the new engine
 *
 * They are checked in this order. Except on NG_OK, *engine is unchanged. Proved: all of this, but
 * not that malloc failed if NG_MEMORY is returned, nor that this is checked last, which the tests
 * show. Calls malloc and free. */
ng_status ng_open(ng_store *store, ng_ring ring, const size_t *caps, size_t caps_len,
                  ng_engine *engine);

/* Hands out a sampler: of event channel 0 at the first call, of channel 1 at the next, and so on.
 *
 *   NG_IN_USE      *sampler isn't empty
 *   NG_EMPTY       *engine is empty
 *   NG_NO_SAMPLER  all samplers were handed out
 *   NG_MEMORY      malloc failed; the next call hands out the same sampler
 *   NG_OK          *sampler holds the sampler
 *
 * They are checked in this order. Proved: all of this, except that malloc failed. Calls malloc
 * three times, but not on the first three statuses; and free on NG_MEMORY. */
ng_status ng_next_sampler(ng_engine *engine, ng_sampler *sampler);

/* ---- sampling */

/* Takes a trigger of the sampler's event channel. For each DAQ list that is due, a sample is made
 * from the image, and from the timestamp if the list has one, and goes into the ring. If there is
 * no room for it, the whole sample is dropped and counted; the next sample of the list that finds
 * room has the overload indication, the highest bit of its PID.
 *
 *   NG_EMPTY        *sampler is empty
 *   NG_WRONG_IMAGE  image_len isn't that of the store
 *   NG_SPENT        2^59 triggers were taken
 *   NG_OK           *taken says what it did
 *
 * They are checked in this order. Except on NG_OK, nothing changes. Proved: all of this. The tests
 * show that it calls neither malloc nor realloc. */
ng_status ng_trigger(ng_sampler *sampler, const uint8_t *image, size_t image_len, uint32_t stamp,
                     ng_taken *taken);

/* Starts a DAQ list: it is due at the next trigger, and then at each prescaler-th trigger.
 * NG_EMPTY, NG_NOT_OF_CHANNEL, NG_RUNNING, in this order; with these nothing changes. Proved: all
 * of this. */
ng_status ng_start(ng_sampler *sampler, uint8_t list);

/* Stops a DAQ list. A stop marker goes through the ring, behind the samples of the list.
 * NG_EMPTY, NG_NOT_OF_CHANNEL, NG_NOT_RUNNING, NG_NO_ROOM, in this order; with these the list runs,
 * or doesn't run, as before. Proved: all of this. */
ng_status ng_stop(ng_sampler *sampler, uint8_t list);

/* Returns the counts of a DAQ list. NG_EMPTY, NG_NOT_OF_CHANNEL, in this order; with these *counts
 * is unchanged. Proved: all of this. */
ng_status ng_counts_of(ng_sampler *sampler, uint8_t list, ng_counts *counts);

/* ---- transmitting */

/* Takes at most one sample or stop out of the ring of each event channel, in rising order of the
 * channels, and writes the frames of the samples to buffer[0] to buffer[*len - 1]. From frame to
 * frame of an engine the counter rises by one.
 *
 *   NG_EMPTY         *engine is empty
 *   NG_SMALL_BUFFER  buffer_cap is below NG_PUMP_BYTES; nothing is taken, and nothing lost
 *   NG_SPENT         2^62 items were taken; nothing is taken
 *   NG_OK            *pumped says what it did
 *
 * They are checked in this order. Except on NG_OK, nothing changes. On NG_OK, the first *len bytes
 * of the buffer are whole frames, and the bytes after them are unchanged. So the bytes of all
 * pumps, one after another, are all that the engine wrote. Proved: all of this, and what was taken
 * and written. The tests show that it calls neither malloc nor realloc. */
ng_status ng_pump(ng_engine *engine, uint8_t *buffer, size_t buffer_cap, size_t *len,
                  ng_pumped *pumped);

/* Pumps as ng_pump does, again and again, until a pump finds nothing or the frames of the next
 * sample don't fit, and writes the frames of all samples to buffer[0] to buffer[*len - 1]. A sample
 * that doesn't fit stays in its ring, and the next call goes on at this ring; after a call at which
 * all fitted, after ng_pump, and after an ng_drain that found something left, it begins at event
 * channel 0. A buffer of 1400 bytes fits a datagram.
 *
 *   NG_EMPTY         *engine is empty
 *   NG_SMALL_BUFFER  buffer_cap is below NG_PUMP_ALL_BYTES; nothing is taken, and nothing lost
 *   NG_SPENT         2^62 items were taken; nothing is taken
 *   NG_OK            *pumped says what the pumps did
 *
 * They are checked in this order. Except on NG_OK, nothing changes. On NG_OK, the first *len bytes
 * of the buffer are whole frames of whole samples, and the bytes after them are unchanged. While
 * samplers go on in other threads, a call goes on with what they send until the buffer is full; a
 * stop takes no bytes of it. Proved: all of this, and what was taken and written: the items that
 * such pumps take, in their order. The tests show that it calls neither malloc nor realloc, and
 * that its bytes are those of ng_pump. */
ng_status ng_pump_all(ng_engine *engine, uint8_t *buffer, size_t buffer_cap, size_t *len,
                      ng_pumped_all *pumped);

/* ---- the end */

/* Finishes a sampler. What it sent stays in its ring. What is left of it, its counts and its end of
 * the ring, goes back to its engine. *sampler is then empty.
 *
 *   NG_EMPTY      *sampler is empty
 *   NG_NO_ENGINE  the engine was freed, and with it what was in the ring
 *   NG_OK         what is left of the sampler went back
 *
 * Proved: NG_EMPTY exactly if there is no sampler, that *sampler is then empty, and that what is
 * left goes back by the function that this call asks. Only tested, by engine_test.c and
 * threads_test.c: that its engine finds it, and that NG_NO_ENGINE is returned only if the engine
 * was freed. Calls free. */
ng_status ng_finish(ng_sampler *sampler);

/* Looks at all that the finished samplers of an engine sent, and pumps once, as ng_pump does, if
 * anything is left. Call it until *left is false.
 *
 *   NG_EMPTY         *engine is empty
 *   NG_SMALL_BUFFER  buffer_cap is below NG_PUMP_BYTES
 *   NG_UNFINISHED    a sampler wasn't handed out yet, or isn't finished, in another thread perhaps;
 *                    call again later
 *   NG_SPENT         as for ng_pump, if something was left
 *   NG_OK            if something was left, *left is true and *pumped says what was taken;
 *                    otherwise *left is false, and *len and *pumped are 0
 *
 * They are checked in this order. On the first three nothing is taken, and buffer, *len, *pumped
 * and *left are unchanged. On the others *left says whether something was left before the pump.
 * Proved: all of this, and that nothing of all that was sent is left if *left is false; but not
 * that NG_UNFINISHED is returned only in those cases, which the tests show. They also show that it
 * calls neither malloc nor realloc. Calls free. */
ng_status ng_drain(ng_engine *engine, uint8_t *buffer, size_t buffer_cap, size_t *len,
                   ng_pumped *pumped, bool *left);

/* Closes an engine whose samplers are all finished, and returns its account: a line for each DAQ
 * list of the samplers, in rising order. It writes no frame: what is left in the rings is counted
 * as left, and is lost. *engine is then empty.
 *
 *   NG_EMPTY         *engine is empty
 *   NG_SMALL_BUFFER  lines_cap is below NG_MAX_LISTS
 *   NG_UNFINISHED    a sampler wasn't handed out yet, or isn't finished
 *   NG_OK            the lines stand in lines[0] to lines[report->lines - 1]
 *
 * They are checked in this order. Except on NG_OK, the engine keeps all that it has, and lines and
 * *report are unchanged. On NG_OK, the elements of lines after the account are unchanged. Proved:
 * all of this, and each number of the account, from what was written and from what came back: due =
 * written + dropped + left. What is left of each sampler that the engine was opened with came back,
 * by the name of its ring; the account is right for all triggers that can have led to it, and the
 * function that this call asks answers it. Only tested, by engine_test.c and threads_test.c: that
 * it is what ng_finish gave back, and so counts the triggers that ng_trigger took; and that
 * NG_UNFINISHED is returned only in those cases. Calls free. */
ng_status ng_close(ng_engine *engine, ng_line *lines, size_t lines_cap, ng_report *report);

/* Free an engine, with the samplers that weren't handed out; and free a sampler. What is left in
 * the rings is lost, and there is no account. NG_EMPTY if the handle was empty. Proved: all of
 * this. Call free. */
ng_status ng_engine_free(ng_engine *engine);
ng_status ng_sampler_free(ng_sampler *sampler);

/* ---- a slave that a master connects to
 *
 * The proofs speak of a log of what a slave did since it was opened: each call says by which acts
 * it goes on, and by how many at most; and one law holds of every log, docs/THEOREM.md. A slave
 * counts what it does, and once it counted 2^57 hears and takes nothing any more (NG_SPENT): a
 * packet counts as 128, a sample as 126. Once it is closed, its account is of all that its tasks gave
 * back, each once. Only tested, by session_test.c, tasks_test.c, accounts_test.c and
 * measurements_test.c of tests/c, and by tests/live: that what waits in a ring is taken, and that
 * what tasks gave back is found before. docs/PROVED.md says what is proved of the parts of a
 * slave. */

/* Opens a slave with a profile, with count segments of memory, and with so many event channels:
 * events[c] is event channel c. The segments stand in rising order of extension, then base, and
 * two of one extension share no address. a2l is its A2L file, a2l_len bytes, for a master that
 * fetches it; 0 bytes, there is none. All is copied. No master is connected, there is no DAQ list,
 * and nothing waits. Its CTR begins at 0.
 *
 *   NG_IN_USE      *slave isn't empty
 *   NG_BAD_LIMITS  channels is 0 or over NG_MAX_EVENTS, or count 0 or over NG_MAX_SEGMENTS; or
 *                  one of these is out of its limits: of the profile id, ticks, unit, stamp_size,
 *                  max_cto, max_dto, name (over max_cto - 8 bytes too), a2l_name or epk; of an
 *                  event channel capacity, name or cycle_unit; of a segment len, base with len, its
 *                  place behind the one before it, or events, where one isn't there; a2l_len is
 *                  2^32 or more. cycle, priority and extension have any value
 *   NG_MEMORY      malloc failed
 *   NG_OK          *slave holds the new slave
 *
 * NG_IN_USE is checked first; the next two come in either order. Except on NG_OK, *slave is
 * unchanged. Proved: all of this, but not that malloc failed if NG_MEMORY is returned, nor that the
 * rings have their capacities, which is only tested. Calls malloc, realloc and free. */
ng_status ng_slave_open(const ng_profile *profile, const ng_segment *segments, size_t count,
                        const ng_event *events, size_t channels, const uint8_t *a2l,
                        size_t a2l_len, ng_slave *slave);

/* Hands out the task of an event channel, once. It may then move to a thread of its own.
 *
 *   NG_IN_USE      *task isn't empty
 *   NG_EMPTY       *slave is empty
 *   NG_BAD_LIMITS  there is no such event channel
 *   NG_NO_TASK     its task was handed out before
 *   NG_MEMORY      malloc failed; the task may still be handed out
 *   NG_OK          *task holds the task
 *
 * They are checked in this order. Except on NG_OK, nothing changes. Proved: all of this, and that
 * the tasks are those of this slave, in the order of the event channels; but not that malloc
 * failed. Calls malloc three times, but not on the first four statuses; and free on NG_MEMORY. */
ng_status ng_slave_task(ng_slave *slave, uint16_t channel, ng_task *task);

/* Takes bytes of a master's stream, as TCP has it, in whatever pieces they come. Each packet that
 * is whole is answered: its reply waits to be sent. The clock is the one that GET_DAQ_CLOCK tells.
 * SHORT_UPLOAD, and UPLOAD behind SET_MTA, read variables without a DAQ list, off memory: memory[i]
 * is segment i as it is now, for each i below count. One that is left out, or that has another
 * length than its segment, isn't there, and what reads it is answered by ERR_ACCESS_DENIED.
 *
 *   NG_EMPTY      *slave is empty
 *   NG_SPENT      the slave is spent; nothing changes
 *   NG_BAD_FRAME  a frame has LEN 0 or over MAX_CTO, in these or in earlier bytes of this stream.
 *                 The packets before it were answered, and then all lists stopped and no master
 *                 is connected, as after DISCONNECT. What waits is still to be sent. No byte is
 *                 taken any more until ng_slave_hang_up
 *   NG_OK         the first *taken bytes were taken: all of them, or those up to the end of a frame
 *                 behind which no reply finds room. Pass the others again once replies were sent
 *
 * They are checked in this order. Except on NG_OK, *taken is unchanged. Proved: all of this, which
 * packets were answered, in whatever pieces the bytes come, and each reply, from the definitions
 * of the commands and all that the slave did before; but not that malloc or realloc failed if a
 * reply is ERR_MEMORY_OVERFLOW. Calls malloc, realloc and free, for allocations, and where
 * measurements begin and end. */
ng_status ng_slave_receive(ng_slave *slave, const uint8_t *bytes, size_t len, uint32_t clock,
                           const ng_memory *memory, size_t count, size_t *taken);

/* The same of one datagram, as UDP has it, which holds whole frames. A part of a frame at the end,
 * or a frame with LEN 0 or over MAX_CTO, drops what is left of the datagram, no more. *taken is
 * len, with what was dropped; or less, where no reply finds room behind a frame. Then the first
 * *taken bytes were heard, and the others are this datagram's: pass them, from bytes + *taken on,
 * to this call once replies were sent, before any later datagram. NG_EMPTY if *slave is empty,
 * NG_SPENT if the slave is spent; then *taken is unchanged. Proved and only tested: as for
 * ng_slave_receive. */
ng_status ng_slave_datagram(ng_slave *slave, const uint8_t *bytes, size_t len, uint32_t clock,
                            const ng_memory *memory, size_t count, size_t *taken);

/* The transport was lost: all DAQ lists stop and are freed, and no master is connected, as after
 * DISCONNECT; but nothing is replied. While no master is connected, the lists are as they are. What
 * is held of a frame is dropped: the next byte of a stream is the first of a frame. What waits to
 * be sent is thrown away, also what ng_slave_peek laid out, so that it never reaches another
 * master; its samples are left, also one of which only some frames were sent. The next frame that
 * is sent has the CTR behind that of the last one that was. NG_EMPTY if *slave is empty. Proved: all
 * of this. Calls free. */
ng_status ng_slave_hang_up(ng_slave *slave);

/* Takes samples off the rings, and lays frames that wait out in buffer[0] to buffer[*len - 1]: as
 * many as find room, whole, the oldest first; so a sample of several packets may go out in several
 * datagrams. They wait on until ng_slave_sent: the next peek lays out the same first. From frame to
 * frame of a slave the counter rises by one.
 *
 *   NG_EMPTY         *slave is empty
 *   NG_SMALL_BUFFER  buffer_cap is below 4 and the greater of max_cto and max_dto
 *   NG_OK            the frames stand in the buffer; *len is 0 if nothing waits
 *
 * They are checked in this order. Except on NG_OK, nothing changes. On NG_OK, the bytes after the
 * first *len are unchanged. A buffer of 1400 bytes fits a datagram. The rings are looked at by
 * turns, an item of each a round, until a sample finds no room among what waits, and then the next
 * peek begins at its ring; or until nothing is known to be there, or after 1,024 rounds. Proved:
 * all of this, and which frames they are, from the items that were taken. Only tested: that what a
 * ring holds is known to be there, and that it calls neither malloc nor realloc. */
ng_status ng_slave_peek(ng_slave *slave, uint8_t *buffer, size_t buffer_cap, size_t *len);

/* What the last ng_slave_peek laid out was sent, and waits no more. NG_EMPTY if *slave is empty.
 * Proved: all of this. Calls neither malloc nor realloc. */
ng_status ng_slave_sent(ng_slave *slave);

/* Tells what a slave is about; it is as it was. What waits is what was laid out and not sent: replies,
 * and the samples that ng_slave_peek took off the rings. NG_EMPTY if *slave is empty; then *state is
 * unchanged. Proved: all of this. Calls neither malloc nor realloc nor free. */
ng_status ng_slave_status(ng_slave *slave, ng_slave_state *state);

/* Does what the slave ordered of this task, and then takes a trigger of its event channel, as
 * ng_trigger does, but off memory as it lies there: memory[i] is segment i, for each i below count.
 * One that this event channel may not read isn't looked at, and may be NG_NOT_THERE. While there is
 * no measurement nothing is due. Orders are done in the order of the master's commands. A stop
 * needs room in the ring, 8 bytes: in a full one it waits, and the orders behind it with it, until
 * a trigger after ng_slave_peek took something off. Till then the list goes on being due, as *taken
 * says; but the master was answered, and gets nothing of it any more.
 *
 *   NG_EMPTY         *task is empty
 *   NG_WRONG_MEMORY  in a measurement: count isn't the slave's number of segments, or one that the
 *                    event channel may read has another length
 *   NG_SPENT         in a measurement: 2^59 triggers were taken
 *   NG_OK            *taken says what it did
 *
 * They are checked in this order. Except on NG_OK, *taken is unchanged, and no trigger is taken.
 * Proved: all of this, and that what is left of a measurement goes back, once and in order; but not
 * that it finds what the slave ordered. The tests show that, and that it calls neither malloc nor
 * realloc nor free. */
ng_status ng_task_trigger(ng_task *task, const ng_memory *memory, size_t count, uint32_t stamp,
                          ng_taken *taken);

/* Finishes a task. What is left of it goes back to its slave, which is still open. *task is then
 * empty. NG_EMPTY if *task is empty. Proved: all of this, that what is left goes back by the
 * function that this call asks; that the slave finds it is only tested. Calls free. */
ng_status ng_task_finish(ng_task *task);

/* Closes a slave, and returns the account of its session: lines[l] is the line of DAQ list l, over
 * all measurements, modulo 2^64. All lists stop, and what waits is thrown away, as by
 * ng_slave_hang_up. Written are the samples that ng_slave_sent was told of; left are those that
 * were thrown away, were from before a stop, or weren't taken. *each has the same of the last
 * measurements alone, up to the last one of which something came back, and of all before them
 * together: the five add up to lines. A start that is refused for lack of memory may have begun
 * a measurement, which then has zeros. *slave is then empty.
 *
 *   NG_EMPTY         *slave is empty
 *   NG_SMALL_BUFFER  lines_cap is below NG_MAX_LISTS
 *   NG_UNFINISHED    a task that was handed out isn't finished, in another thread perhaps; call
 *                    again later
 *   NG_OK            the lines stand in lines[0] to lines[NG_MAX_LISTS - 1], *whole says whether
 *                    the account has all of each measurement, and *each has its own accounts
 *
 * They are checked in this order. Except on NG_OK, the slave keeps all that it has, and lines,
 * *whole and *each are unchanged. On NG_OK, the elements of lines after the account are unchanged,
 * and the elements of each->last from each->count on have any values. Proved: all of this, and each
 * number of the account, of *each and *whole, from what was sent and from all that the tasks gave
 * back, each known by its slave as one of its own. Only tested: that what comes back of a task is
 * what its ng_task_finish gave, that *whole is true once all tasks are finished, and that
 * NG_UNFINISHED is returned only if a task isn't finished. Calls free. */
ng_status ng_slave_close(ng_slave *slave, ng_line *lines, size_t lines_cap, bool *whole,
                         ng_measurements *each);

#ifdef __cplusplus
}
#endif
#endif
