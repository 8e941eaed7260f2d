/* Stands between a program and the C library, and plays a system in which something fails. tests/examples builds it and has it loaded
 * first. The environment says what happens; numbers that aren't there are 0:
 *
 *   READ_ZEROS, READ_MOST    standard input is so many zeros, of which a read gives so many at most (0: all that it asks for)
 *   READ_INTERRUPTED         so many reads of standard input are interrupted before the first that isn't
 *   READ_ERROR               each read of standard input fails with this error
 *   OPEN_PATH, OPEN_ERROR    a file of this name can't be opened, for this error
 *   THREAD_ERROR             no thread can be made, for this error
 *   WRITE_MOST               a write to a file takes so many bytes at most, where it is there
 *   WRITE_GOOD, WRITES       writes to a file take so many bytes in all, or are so many, where it is there; each one behind them fails with
 *                            the error WRITE_ERROR, or takes nothing if that is 0
 *   WRITE_LOG                a file of this name has a line for each write to a file: how many bytes it was handed
 */
#define _GNU_SOURCE
#include <dlfcn.h>
#include <errno.h>
#include <fcntl.h>
#include <pthread.h>
#include <stdarg.h>
#include <stdio.h>
#include <stdlib.h>
#include <string.h>
#include <unistd.h>

static long number_in(const char *name) {
    const char *text = getenv(name);
    return text ? atol(text) : 0;
}

static ssize_t give_zeros(void *into, size_t room) {
    static long left = -1, most;
    if (left < 0) {
        left = number_in("READ_ZEROS");
        most = number_in("READ_MOST");
    }
    if (most > 0 && room > (size_t)most) room = (size_t)most;
    if (room > (size_t)left) room = (size_t)left;
    memset(into, 0, room);
    left -= (long)room;
    return (ssize_t)room;
}

ssize_t read(int file, void *into, size_t room) {
    static ssize_t (*next)(int, void *, size_t);
    static long interrupted;
    static int is_known, has_zeros;
    if (!is_known) {
        next = dlsym(RTLD_NEXT, "read");
        has_zeros = getenv("READ_ZEROS") != NULL;
        is_known = 1;
    }
    if (file == 0 && has_zeros) return give_zeros(into, room);
    if (file == 0 && number_in("READ_ERROR")) {
        errno = (int)number_in("READ_ERROR");
        return -1;
    }
    if (file == 0 && interrupted < number_in("READ_INTERRUPTED")) {
        interrupted += 1;
        errno = EINTR;
        return -1;
    }
    return next(file, into, room);
}

/* The number of a name, or the greatest one where it isn't there. */
static size_t most_of(const char *name) { return getenv(name) ? (size_t)number_in(name) : (size_t)-1; }

static void log_write(size_t bytes) {
    FILE *log = fopen(getenv("WRITE_LOG"), "a");
    if (!log) abort();
    fprintf(log, "%zu\n", bytes);
    fclose(log);
}

ssize_t write(int file, const void *from, size_t bytes) {
    static ssize_t (*next)(int, const void *, size_t);
    static size_t taken, writes;
    size_t most = most_of("WRITE_MOST"), left = most_of("WRITE_GOOD") - taken;
    if (!next) next = dlsym(RTLD_NEXT, "write");
    if (file <= STDERR_FILENO) return next(file, from, bytes);
    if (getenv("WRITE_LOG")) log_write(bytes);
    if (writes >= most_of("WRITES") || left == 0) {
        errno = (int)number_in("WRITE_ERROR");
        return errno ? -1 : 0;
    }
    writes++;
    if (most > bytes) most = bytes;
    if (most > left) most = left;
    taken += most;
    return most > 0 ? next(file, from, most) : 0;
}

int open(const char *path, int how, ...) {
    static int (*next)(const char *, int, ...);
    const char *refused = getenv("OPEN_PATH");
    mode_t mode = 0;
    if (how & O_CREAT) {
        va_list more;
        va_start(more, how);
        mode = va_arg(more, mode_t);
        va_end(more);
    }
    if (refused && !strcmp(path, refused)) {
        errno = (int)number_in("OPEN_ERROR");
        return -1;
    }
    if (!next) next = dlsym(RTLD_NEXT, "open");
    return next(path, how, mode);
}

int pthread_create(pthread_t *thread, const pthread_attr_t *kind, void *(*run)(void *), void *given) {
    static int (*next)(pthread_t *, const pthread_attr_t *, void *(*)(void *), void *);
    if (number_in("THREAD_ERROR")) return (int)number_in("THREAD_ERROR");
    if (!next) next = dlsym(RTLD_NEXT, "pthread_create");
    return next(thread, kind, run, given);
}
