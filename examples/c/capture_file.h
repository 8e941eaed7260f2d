/* What xcp_master sends and hears, by UDP or by TCP, kept as a capture that Wireshark and tcpdump
 * read: libpcap 2.4 of nanoseconds in this machine's byte order, with raw IP (101).
 *
 *   record_to(&record, path, socket, by_stream)   once the socket is connected
 *   record_bytes(&record, sent, bytes, len)       what was sent just now, or else heard
 *   record_end(&record)                           answers whether all of it was written
 *
 * The master sees bytes alone, so their packets are made up: a datagram is one packet; each send
 * and each receive by TCP is one segment, or more if it is too long for one. How the connection
 * begins and ends is made up too. A write that fails is told once, and none follows it. */
#include <arpa/inet.h>
#include <errno.h>
#include <netinet/in.h>
#include <stdbool.h>
#include <stdint.h>
#include <stdio.h>
#include <string.h>
#include <sys/socket.h>
#include <time.h>

enum {
    RECORD_FIN = 0x01,
    RECORD_SYN = 0x02,
    RECORD_PUSH = 0x08,
    RECORD_ACK = 0x10,
    RECORD_IP = 20,             /* bytes of a header of IPv4 */
    RECORD_UDP = 8,
    RECORD_TCP = 20,
    RECORD_MOST = 65535,        /* bytes of a packet */
    RECORD_SEGMENT = RECORD_MOST - RECORD_IP - RECORD_TCP
};

struct record {
    FILE *file;                 /* NULL where nothing is kept, or nothing more */
    const char *path;
    bool by_stream, failed;
    struct sockaddr_in ends[2]; /* there and here */
    uint32_t next[2];           /* by TCP, the sequence number of the next byte of each end */
    uint16_t packets;
};

static void record_failed(struct record *r) {
    fprintf(stderr, "xcp_master: cannot write %s: %s\n", r->path, strerror(errno));
    if (r->file != NULL) fclose(r->file);
    r->file = NULL;
    r->failed = true;
}

static void record_write(struct record *r, const void *bytes, size_t len) {
    if (r->file == NULL || len == 0) return;
    if (fwrite(bytes, 1, len, r->file) != len) record_failed(r);
}

/* The sum of a checksum, over these bytes too. Only the last ones may be of an odd number. */
static uint32_t record_sum(uint32_t sum, const uint8_t *bytes, size_t len) {
    for (size_t i = 0; i < len; i++) sum += i % 2 == 0 ? (uint32_t)bytes[i] << 8 : bytes[i];
    return (sum & 0xFFFF) + (sum >> 16);
}

static void record_checksum(uint8_t *at, uint32_t sum) {
    sum = (sum & 0xFFFF) + (sum >> 16);
    sum = ~(sum + (sum >> 16));
    at[0] = (uint8_t)(sum >> 8);
    at[1] = (uint8_t)sum;
}

/* Numbers in headers have the most significant byte first. */
static void record_put(uint8_t *at, unsigned bytes, uint32_t value) {
    for (unsigned i = 0; i < bytes; i++) at[i] = (uint8_t)(value >> 8 * (bytes - 1 - i));
}

/* A packet of IPv4: who sends it, the header of UDP or TCP, and bytes. */
static void record_packet(struct record *r, bool sent, const uint8_t *header, size_t header_len,
                          const uint8_t *bytes, size_t len) {
    size_t whole = RECORD_IP + header_len + len;
    uint8_t ip[RECORD_IP] = {0x45, 0, 0, 0, 0, 0, 0x40, 0, 64};
    struct timespec now;
    clock_gettime(CLOCK_REALTIME, &now);
    uint32_t front[4] = {(uint32_t)now.tv_sec, (uint32_t)now.tv_nsec, (uint32_t)whole,
                         (uint32_t)whole};
    record_put(ip + 2, 2, (uint32_t)whole);
    record_put(ip + 4, 2, r->packets++);
    ip[9] = r->by_stream ? IPPROTO_TCP : IPPROTO_UDP;
    memcpy(ip + 12, &r->ends[sent].sin_addr, 4);
    memcpy(ip + 16, &r->ends[!sent].sin_addr, 4);
    record_checksum(ip + 10, record_sum(0, ip, sizeof ip));
    record_write(r, front, sizeof front);
    record_write(r, ip, sizeof ip);
    record_write(r, header, header_len);
    record_write(r, bytes, len);
}

/* A datagram. It needs no checksum, and has none. */
static void record_datagram(struct record *r, bool sent, const uint8_t *bytes, size_t len) {
    uint8_t udp[RECORD_UDP] = {0};
    memcpy(udp, &r->ends[sent].sin_port, 2);
    memcpy(udp + 2, &r->ends[!sent].sin_port, 2);
    record_put(udp + 4, 2, (uint32_t)(RECORD_UDP + len));
    record_packet(r, sent, udp, sizeof udp, bytes, len);
}

/* A segment: it acknowledges all that came from the other end. */
static void record_segment(struct record *r, bool sent, uint8_t flags, const uint8_t *bytes,
                           size_t len) {
    uint8_t tcp[RECORD_TCP] = {0}, length[4] = {0, IPPROTO_TCP};
    uint32_t sum;
    memcpy(tcp, &r->ends[sent].sin_port, 2);
    memcpy(tcp + 2, &r->ends[!sent].sin_port, 2);
    record_put(tcp + 4, 4, r->next[sent]);
    if (flags & RECORD_ACK) record_put(tcp + 8, 4, r->next[!sent]);
    tcp[12] = RECORD_TCP / 4 << 4;
    tcp[13] = flags;
    record_put(tcp + 14, 2, 0xFFFF); /* the window */
    record_put(length + 2, 2, (uint32_t)(RECORD_TCP + len));
    sum = record_sum(0, (const uint8_t *)&r->ends[sent].sin_addr, 4);
    sum = record_sum(sum, (const uint8_t *)&r->ends[!sent].sin_addr, 4);
    sum = record_sum(sum, length, sizeof length);
    sum = record_sum(sum, tcp, sizeof tcp);
    record_checksum(tcp + 16, record_sum(sum, bytes, len));
    record_packet(r, sent, tcp, sizeof tcp, bytes, len);
    r->next[sent] += (uint32_t)len + ((flags & (RECORD_SYN | RECORD_FIN)) != 0);
}

static void record_bytes(struct record *r, bool sent, const void *bytes, size_t len) {
    const uint8_t *at = bytes;
    if (r->file == NULL) return;
    if (!r->by_stream) record_datagram(r, sent, at, len);
    while (r->by_stream && len > 0) {
        size_t part = len < RECORD_SEGMENT ? len : RECORD_SEGMENT;
        record_segment(r, sent, RECORD_PUSH | RECORD_ACK, at, part);
        at += part;
        len -= part;
    }
}

static void record_to(struct record *r, const char *path, int socket, bool by_stream) {
    /* the mark of nanoseconds, the version, no zone, no digits, the longest packet, raw IP */
    uint32_t head[6] = {0xA1B23C4D, 0, 0, 0, RECORD_MOST, 101};
    uint16_t version[2] = {2, 4};
    socklen_t size[2] = {sizeof r->ends[0], sizeof r->ends[1]};
    *r = (struct record){.path = path, .by_stream = by_stream, .next = {0x20000000, 0x10000000}};
    r->file = fopen(path, "wb");
    if (r->file == NULL || getpeername(socket, (struct sockaddr *)&r->ends[0], &size[0]) < 0
        || getsockname(socket, (struct sockaddr *)&r->ends[1], &size[1]) < 0) {
        record_failed(r);
        return;
    }
    memcpy(&head[1], version, sizeof version);
    record_write(r, head, sizeof head);
    if (!by_stream) return;
    record_segment(r, true, RECORD_SYN, NULL, 0);
    record_segment(r, false, RECORD_SYN | RECORD_ACK, NULL, 0);
    record_segment(r, true, RECORD_ACK, NULL, 0);
}

static bool record_end(struct record *r) {
    if (r->file != NULL && r->by_stream) {
        record_segment(r, true, RECORD_FIN | RECORD_ACK, NULL, 0);
        record_segment(r, false, RECORD_FIN | RECORD_ACK, NULL, 0);
        record_segment(r, true, RECORD_ACK, NULL, 0);
    }
    FILE *file = r->file;
    r->file = NULL;
    if (file != NULL && fclose(file) != 0) record_failed(r);
    return !r->failed;
}
