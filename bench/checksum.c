/* Nanoseconds of one checksum by the proved code and by a plain table loop in C, in turn, the best of many rounds each. */
#include <stdint.h>
#include <stdio.h>
#include <stdlib.h>
#include <string.h>
#include <time.h>

uint16_t bench_checksum(const uint8_t *bytes, size_t length);

static uint16_t table[256];

static void make_table(void) {
    for (unsigned byte = 0; byte < 256; byte++) {
        uint16_t seed = (uint16_t)byte;
        for (int k = 0; k < 8; k++) seed = (uint16_t)((seed >> 1) ^ ((seed & 1) ? 0x8408 : 0));
        table[byte] = seed;
    }
}

__attribute__((noinline)) uint16_t table_loop(const uint8_t *bytes, size_t length) {
    uint16_t seed = 0;
    for (size_t i = 0; i < length; i++) seed = (uint16_t)((seed >> 8) ^ table[(seed ^ bytes[i]) & 0xFF]);
    return seed;
}

typedef uint16_t checksum(const uint8_t *, size_t);

static double nanoseconds(checksum *sum, uint8_t *bytes, size_t length, int calls) {
    struct timespec from, to;
    volatile uint16_t sink = 0;
    clock_gettime(CLOCK_MONOTONIC, &from);
    for (int i = 0; i < calls; i++) {
        bytes[0] = (uint8_t)i; /* so that no call can be left out */
        sink = (uint16_t)(sink ^ sum(bytes, length));
    }
    clock_gettime(CLOCK_MONOTONIC, &to);
    return ((double)(to.tv_sec - from.tv_sec) * 1e9 + (double)(to.tv_nsec - from.tv_nsec)) / calls;
}

/* One call of each, between marks that a trace can be cut at. */
__attribute__((noinline)) void mark(void) { __asm__ volatile("nop"); }

static int once(uint8_t *bytes, size_t length) {
    mark();
    uint16_t ours = bench_checksum(bytes, length);
    mark();
    uint16_t theirs = table_loop(bytes, length);
    mark();
    return ours == theirs ? 0 : 1;
}

int main(int argc, char **argv) {
    size_t length = 275;
    uint8_t bytes[275];
    make_table();
    for (size_t i = 0; i < length; i++) bytes[i] = (uint8_t)(i * 37 + 11);
    if (argc > 1 && strcmp(argv[1], "once") == 0) return once(bytes, length);
    double ours = 1e18, theirs = 1e18;
    for (int round = 0; round < 200; round++) {
        double a = nanoseconds(bench_checksum, bytes, length, 2000);
        double b = nanoseconds(table_loop, bytes, length, 2000);
        if (a < ours) ours = a;
        if (b < theirs) theirs = b;
    }
    if (once(bytes, length) != 0) { puts("the two checksums differ"); return 1; }
    printf("proved %.0f ns, C %.0f ns, %.3f and %.3f ns a byte, ratio %.2f\n", ours, theirs, ours / (double)length, theirs / (double)length, ours / theirs);
    return 0;
}
