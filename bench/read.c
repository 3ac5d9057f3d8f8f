/* The peer of bench/read.sh: reads so many bytes at a time from a file, one piece behind another from an offset on, around and around within a
   range, as often as is asked for. Takes the file, the offset, the bytes of the range, those of a piece and the number of pieces, and prints the
   nanoseconds that the reads took. */
#define _GNU_SOURCE
#include <fcntl.h>
#include <stdint.h>
#include <stdio.h>
#include <stdlib.h>
#include <time.h>
#include <unistd.h>

int main(int argc, char **argv) {
    if (argc < 6)
        return 0;
    int fd = open(argv[1], O_RDONLY);
    uint64_t first = strtoull(argv[2], NULL, 10), range = strtoull(argv[3], NULL, 10);
    uint64_t piece = strtoull(argv[4], NULL, 10), count = strtoull(argv[5], NULL, 10);
    unsigned char *bytes = malloc(piece);
    if (fd < 0 || bytes == NULL || piece == 0 || piece > range)
        return 1;
    struct timespec start, end;
    clock_gettime(CLOCK_MONOTONIC, &start);
    uint64_t at = 0;
    for (uint64_t i = 0; i < count; i++) {
        if (pread(fd, bytes, piece, (off_t)(first + at)) != (ssize_t)piece)
            return 1;
        at = at + 2 * piece > range ? 0 : at + piece;
    }
    clock_gettime(CLOCK_MONOTONIC, &end);
    printf("%lld\n", (end.tv_sec - start.tv_sec) * 1000000000LL + (end.tv_nsec - start.tv_nsec));
    free(bytes);
    return close(fd);
}
