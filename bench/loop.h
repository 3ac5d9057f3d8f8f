/* What the plain loops share that transactions are timed beside: a file that is filled before, and the time of the rounds. */
#define _GNU_SOURCE
#include <fcntl.h>
#include <stdint.h>
#include <stdio.h>
#include <stdlib.h>
#include <string.h>
#include <time.h>
#include <unistd.h>

enum { UNIT = 4096 };

static int put(int fd, const unsigned char *bytes, size_t size, off_t at) {
    return pwrite(fd, bytes, size, at) == (ssize_t)size;
}

/* The file, with so many zero bytes, a number of units, that are stable; or -1. */
static int filled(const char *name, off_t size) {
    static const unsigned char zeros[UNIT];
    int fd = open(name, O_RDWR | O_CREAT, 0644);
    for (off_t at = 0; fd >= 0 && at < size; at += UNIT)
        if (!put(fd, zeros, UNIT, at))
            return -1;
    return fd >= 0 && fsync(fd) == 0 ? fd : -1;
}

static struct timespec now(void) {
    struct timespec it;
    clock_gettime(CLOCK_MONOTONIC, &it);
    return it;
}

/* Prints the nanoseconds since then. */
static void print_since(struct timespec start) {
    struct timespec end = now();
    printf("%lld\n", (end.tv_sec - start.tv_sec) * 1000000000LL + (end.tv_nsec - start.tv_nsec));
}
