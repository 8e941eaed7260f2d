/* Two runs of one DAQ list and their recordings, for measuring how fast they are read; and a plain copy
 * of a file's bytes.
 *
 *   recording make FOLDER     writes long.toml, long.frames, short.toml and short.frames: samples of
 *                             eight ODTs of 63 bytes, and samples of one ODT of 2 bytes
 *   recording copy FILE       reads a file as xcpread does, copies each piece, and prints milliseconds */
#define _POSIX_C_SOURCE 200809L
#include <stdio.h>
#include <stdlib.h>
#include <string.h>
#include <time.h>

#define BYTES 100000000u
#define PIECE 65536u

static unsigned sent; /* frames */

static FILE *open_in(const char *folder, const char *name, const char *mode) {
    char path[4096];
    snprintf(path, sizeof path, "%s/%s", folder, name);
    FILE *file = fopen(path, mode);
    if (!file) {
        perror(path);
        exit(1);
    }
    return file;
}

static size_t frame(FILE *frames, const unsigned char *packet, size_t len) {
    const unsigned char head[] = {(unsigned char)len, 0, (unsigned char)sent, (unsigned char)(sent >> 8)};
    fwrite(head, 1, sizeof head, frames);
    fwrite(packet, 1, len, frames);
    sent++;
    return len + sizeof head;
}

/* The run of a list of so many ODTs, each of one entry of `size` bytes, and the replies to its set-up. */
static void make_run(const char *folder, const char *name, unsigned odts, unsigned size, FILE *frames) {
    static const unsigned char done[] = {0xFF, 0x00};
    FILE *run = open_in(folder, name, "w");
    fprintf(run, "channels = 1\nimage_len = %u\ncaps = [4]\nsteps = []\nsetup = [\"d6\", \"d5000100\"", odts * size);
    fprintf(run, ", \"d4000000%02x\"", odts);
    for (unsigned k = 0; k < odts; k++) fprintf(run, ", \"d3000000%02x01\"", k);
    for (unsigned k = 0; k < odts; k++) {
        unsigned at = k * size;
        fprintf(run, ", \"e2000000%02x00\", \"e1ff%02x00%02x%02x0000\"", k, size, at & 0xFF, at >> 8);
    }
    fprintf(run, ", \"e000000000000100\", \"de010000\"]\n");
    fclose(run);
    sent = 0;
    for (unsigned k = 0; k < 4 + 3 * odts; k++) frame(frames, done, 1);
    frame(frames, done, 2);
}

static void make(const char *folder, const char *run, const char *recording, unsigned odts, unsigned size) {
    unsigned char packet[64] = {0};
    FILE *frames = open_in(folder, recording, "wb");
    make_run(folder, run, odts, size, frames);
    memset(packet + 1, 0x5A, size);
    for (size_t bytes = 0; bytes < BYTES;) {
        for (unsigned k = 0; k < odts; k++) {
            packet[0] = (unsigned char)k;
            bytes += frame(frames, packet, 1 + size);
        }
    }
    fclose(frames);
}

static double milliseconds(void) {
    struct timespec now;
    clock_gettime(CLOCK_MONOTONIC, &now);
    return 1e3 * (double)now.tv_sec + 1e-6 * (double)now.tv_nsec;
}

static void copy(const char *path) {
    static unsigned char from[PIECE], to[PIECE];
    double start = milliseconds();
    FILE *file = fopen(path, "rb");
    if (!file) {
        perror(path);
        exit(1);
    }
    setvbuf(file, NULL, _IONBF, 0);
    unsigned sum = 0;
    for (size_t len; (len = fread(from, 1, PIECE, file)) > 0;) {
        memcpy(to, from, len);
        sum += to[len - 1];
    }
    fclose(file);
    printf("a copy of %s: %.0f ms (%u)\n", path, milliseconds() - start, sum);
}

int main(int count, char **words) {
    if (count == 3 && strcmp(words[1], "make") == 0) {
        make(words[2], "long.toml", "long.frames", 8, 63);
        make(words[2], "short.toml", "short.frames", 1, 2);
    } else if (count == 3 && strcmp(words[1], "copy") == 0) {
        copy(words[2]);
    } else {
        return 2;
    }
    return 0;
}
