/* The peers of crates/bench_parts: CRC-32C by sixteen tables, sixteen bytes a step (`tables`), and by the processor's own
   instruction, eight bytes a step (`instruction`). Takes the same two numbers, bytes a round and rounds, and the peer's
   name, and prints nanoseconds and the rounds' checksums together. */
#include <nmmintrin.h>
#include <stdint.h>
#include <stdio.h>
#include <stdlib.h>
#include <string.h>
#include <time.h>

static uint32_t table[16][256];

static void fill_tables(void) {
    for (uint32_t i = 0; i < 256; i++) {
        uint32_t r = i;
        for (int bit = 0; bit < 8; bit++)
            r = r & 1 ? r >> 1 ^ 0x82f63b78u : r >> 1;
        table[0][i] = r;
    }
    for (int k = 1; k < 16; k++)
        for (int i = 0; i < 256; i++)
            table[k][i] = table[k - 1][i] >> 8 ^ table[0][table[k - 1][i] & 0xff];
}

static uint32_t by_tables(const uint8_t *b, size_t length) {
    uint32_t r = 0xffffffffu;
    for (; length >= 16; b += 16, length -= 16) {
        uint32_t w;
        memcpy(&w, b, 4);
        w ^= r;
        r = table[15][w & 0xff] ^ table[14][w >> 8 & 0xff] ^ table[13][w >> 16 & 0xff] ^ table[12][w >> 24]
            ^ table[11][b[4]] ^ table[10][b[5]] ^ table[9][b[6]] ^ table[8][b[7]] ^ table[7][b[8]] ^ table[6][b[9]]
            ^ table[5][b[10]] ^ table[4][b[11]] ^ table[3][b[12]] ^ table[2][b[13]] ^ table[1][b[14]] ^ table[0][b[15]];
    }
    for (; length > 0; b++, length--)
        r = table[0][(r ^ *b) & 0xff] ^ r >> 8;
    return ~r;
}

__attribute__((target("sse4.2"))) static uint32_t by_instruction(const uint8_t *b, size_t length) {
    uint64_t r = 0xffffffffu;
    for (; length >= 8; b += 8, length -= 8) {
        uint64_t w;
        memcpy(&w, b, 8);
        r = _mm_crc32_u64(r, w);
    }
    for (; length > 0; b++, length--)
        r = _mm_crc32_u8((uint32_t)r, *b);
    return ~(uint32_t)r;
}

int main(int argc, char **argv) {
    if (argc < 4)
        return 0;
    size_t length = strtoull(argv[1], NULL, 10);
    uint64_t rounds = strtoull(argv[2], NULL, 10);
    uint32_t (*crc32c)(const uint8_t *, size_t) = strcmp(argv[3], "tables") == 0 ? by_tables : by_instruction;
    uint8_t *bytes = malloc(length + 1);
    if (bytes == NULL)
        return 1;
    for (size_t i = 0; i < length; i++)
        bytes[i] = i % 251;
    fill_tables();
    struct timespec start, end;
    uint32_t all = 0;
    clock_gettime(CLOCK_MONOTONIC, &start);
    for (uint64_t round = 0; round < rounds; round++) {
        bytes[0] = round;
        uint32_t sum = crc32c(bytes, length);
        all = (all << 1 | all >> 31) ^ sum;
    }
    clock_gettime(CLOCK_MONOTONIC, &end);
    long long taken = (end.tv_sec - start.tv_sec) * 1000000000LL + (end.tv_nsec - start.tv_nsec);
    printf("%lld %08x\n", taken, all);
    return 0;
}
