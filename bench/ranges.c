/* The peer of bench/ranges.sh: a plain loop of pread, pwrite, fdatasync, pwrite, fdatasync over one file: what a store does that changes
   512 bytes of a page, makes the page stable, and then a record of it of 4096 bytes. Takes the file, the number of rounds and how many pages
   there are, fills the file, and prints the nanoseconds that the rounds took. */
#include "loop.h"

enum { PIECE = 512 };

int main(int argc, char **argv) {
    if (argc < 4)
        return 0;
    uint64_t rounds = strtoull(argv[2], NULL, 10), pages = strtoull(argv[3], NULL, 10);
    int fd = filled(argv[1], (off_t)((rounds + pages) * UNIT));
    unsigned char page[UNIT], record[UNIT];
    if (fd < 0 || pages == 0)
        return 1;
    struct timespec start = now();
    for (uint64_t round = 0; round < rounds; round++) {
        off_t at = (off_t)((rounds + round * 7 % pages) * UNIT);
        if (pread(fd, page, UNIT, at) != UNIT)
            return 1;
        memset(page + round % 8 * PIECE, (int)(round & 255), PIECE);
        memset(record, (int)(round & 255), UNIT);
        if (!put(fd, page, UNIT, at) || fdatasync(fd) != 0 || !put(fd, record, UNIT, (off_t)(round * UNIT)) || fdatasync(fd) != 0)
            return 1;
    }
    print_since(start);
    return close(fd);
}
