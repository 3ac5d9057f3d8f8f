/* The peer of crates/bench_parts: memcpy of so many bytes, ten times. Prints the nanoseconds of the fastest one. */
#include <stdint.h>
#include <stdio.h>
#include <stdlib.h>
#include <string.h>
#include <time.h>

int main(int argc, char **argv) {
    if (argc < 2)
        return 0;
    size_t length = strtoull(argv[1], NULL, 10);
    uint8_t *from = malloc(length + 1), *to = malloc(length + 1);
    if (from == NULL || to == NULL)
        return 1;
    memset(from, 0x5a, length + 1);
    memset(to, 0, length + 1);
    long long best = 0;
    for (int turn = 0; turn < 10; turn++) {
        struct timespec start, end;
        from[0] = turn;
        clock_gettime(CLOCK_MONOTONIC, &start);
        memcpy(to, from, length);
        clock_gettime(CLOCK_MONOTONIC, &end);
        long long taken = (end.tv_sec - start.tv_sec) * 1000000000LL + (end.tv_nsec - start.tv_nsec);
        if (turn == 0 || taken < best)
            best = taken;
    }
    if (to[0] != 9)
        return 1;
    printf("%lld\n", best);
    return 0;
}
