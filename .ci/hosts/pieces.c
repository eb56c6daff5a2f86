/* Loaded before the C library: reads that give at most FIRST bytes the first time and MOST each other time, and, counted from 1, fail at
   the read READ_FAILS and after it, with the error of the number in READ_ERROR, give nothing from the read READ_ENDS on, and `]` for each
   byte at the read READ_OTHER. Standard output takes at most WRITE_MOST bytes a time and WRITE_ROOM in all; then a write fails, or takes
   nothing with WRITE_NOTHING. At the end the descriptor in TOLD_TO gets how many reads and writes there were. */
#define _GNU_SOURCE
#include <dlfcn.h>
#include <errno.h>
#include <stdio.h>
#include <stdlib.h>
#include <string.h>
#include <unistd.h>

static unsigned long reads, writes, taken;

static unsigned long number(const char *name, unsigned long otherwise) {
    const char *text = getenv(name);

    return text != NULL ? strtoul(text, NULL, 10) : otherwise;
}

static size_t least(size_t one, size_t other) {
    return one < other ? one : other;
}

ssize_t read(int from, void *piece, size_t count) {
    ssize_t (*next)(int, void *, size_t) = (ssize_t (*)(int, void *, size_t))dlsym(RTLD_NEXT, "read");
    unsigned long most = number("MOST", -1UL);
    ssize_t given;

    reads++;
    if (reads >= number("READ_FAILS", -1UL)) {
        errno = (int)number("READ_ERROR", EIO);
        return -1;
    }
    if (reads >= number("READ_ENDS", -1UL)) {
        return 0;
    }
    given = next(from, piece, least(count, reads == 1 ? number("FIRST", most) : most));
    if (given > 0 && reads == number("READ_OTHER", 0)) {
        memset(piece, ']', (size_t)given);
    }
    return given;
}

ssize_t write(int to, const void *piece, size_t count) {
    ssize_t (*next)(int, const void *, size_t) = (ssize_t (*)(int, const void *, size_t))dlsym(RTLD_NEXT, "write");
    size_t room;

    if (to != STDOUT_FILENO) {
        return next(to, piece, count);
    }
    writes++;
    room = least(number("WRITE_MOST", -1UL), number("WRITE_ROOM", -1UL) - taken);
    if (room == 0 && count > 0) {
        errno = ENOSPC;
        return getenv("WRITE_NOTHING") != NULL ? 0 : -1;
    }
    count = least(count, room);
    taken += count;
    return next(to, piece, count);
}

__attribute__((destructor)) static void tell(void) {
    const char *to = getenv("TOLD_TO");

    if (to != NULL) {
        dprintf(atoi(to), "%lu reads, %lu writes\n", reads, writes);
    }
}
