/* The peer of bench/step.sh, bench/clients.sh and bench/omap.sh: a plain loop of write, fdatasync, write, fdatasync over one file: what a
   store does that puts data down, makes it stable, and then a record of it of 4096 bytes. Takes the file, the number of rounds, the bytes
   of a data write and how many of those come before the first fdatasync of a round (1, where that isn't said; with 0 there is the record
   alone, and one fdatasync), fills the file, and prints the nanoseconds that the rounds took. Data goes round in the space of twelve
   writes, or of a hundred pages, as a store's freed units do. */
#include "loop.h"

enum { PLACES = 12 };

int main(int argc, char **argv) {
    if (argc < 4)
        return 0;
    uint64_t rounds = strtoull(argv[2], NULL, 10);
    size_t size = strtoull(argv[3], NULL, 10);
    uint64_t writes = argc > 4 ? strtoull(argv[4], NULL, 10) : 1;
    uint64_t places = size > UNIT ? PLACES : 100;
    off_t data = (off_t)rounds * UNIT;
    int fd = filled(argv[1], data + (off_t)(places * size));
    unsigned char *bytes = calloc(1, size > UNIT ? size : UNIT);
    if (fd < 0 || bytes == NULL)
        return 1;
    struct timespec start = now();
    for (uint64_t round = 0; round < rounds; round++) {
        memset(bytes, (int)(round & 255), size);
        for (uint64_t it = round * writes; it < (round + 1) * writes; it++)
            if (!put(fd, bytes, size, data + (off_t)(it % places * size)))
                return 1;
        if ((writes > 0 && fdatasync(fd) != 0) || !put(fd, bytes, UNIT, (off_t)round * UNIT) || fdatasync(fd) != 0)
            return 1;
    }
    print_since(start);
    return close(fd);
}
