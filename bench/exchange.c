/* Nanoseconds of one packet of 272 bytes from desk to chip by all six calls of the proved link (bench_exchange), in both orders of FCS, in
   turn, the best of many rounds each. */
#include <stdint.h>
#include <stdio.h>
#include <stdlib.h>
#include <string.h>
#include <time.h>

enum { D = 277, PACKET = D - 5, SLOTS = 2 * PACKET };

uint8_t bench_exchange(uint8_t order, const uint8_t *packet, size_t packet_length, uint8_t *slots, size_t slots_length, uint8_t *frame,
                       size_t frame_length, uint8_t *back, size_t back_length);

static uint8_t packet[PACKET], slots[SLOTS], frame[D], back[D];

static uint8_t exchange(uint8_t order) { return bench_exchange(order, packet, PACKET, slots, SLOTS, frame, D, back, D); }

static double nanoseconds(uint8_t order, int times) {
    struct timespec from, to;
    unsigned waiting = 0;
    clock_gettime(CLOCK_MONOTONIC, &from);
    for (int i = 0; i < times; i++) {
        packet[1] = (uint8_t)i; /* so that no exchange can be left out */
        waiting += exchange(order);
    }
    clock_gettime(CLOCK_MONOTONIC, &to);
    if (waiting != 0) {
        puts("a packet was not acknowledged");
        exit(1);
    }
    return ((double)(to.tv_sec - from.tv_sec) * 1e9 + (double)(to.tv_nsec - from.tv_nsec)) / times;
}

/* One exchange, between marks that a trace can be cut at. */
__attribute__((noinline)) void mark(void) { __asm__ volatile("nop"); }

static int once(uint8_t order) {
    mark();
    uint8_t waiting = exchange(order);
    mark();
    return waiting;
}

int main(int argc, char **argv) {
    for (size_t i = 0; i < PACKET; i++) packet[i] = (uint8_t)(i * 37 + 11);
    if (argc > 2 && strcmp(argv[1], "once") == 0) return once((uint8_t)atoi(argv[2]));
    double low = 1e18, high = 1e18;
    for (int round = 0; round < 200; round++) {
        double a = nanoseconds(0, 500);
        double b = nanoseconds(1, 500);
        if (a < low) low = a;
        if (b < high) high = b;
    }
    /* an order that is none is refused, and so nothing waits; what is sent tells the two apart */
    exchange(1);
    if (back[3] != 0x0C || back[4] != 0xEC) { puts("the acknowledgement is not high byte first"); return 1; }
    exchange(0);
    if (back[3] != 0xEC || back[4] != 0x0C) { puts("the acknowledgement is not low byte first"); return 1; }
    printf("exchange: low byte first %.0f ns, high byte first %.0f ns, ratio %.2f\n", low, high, high / low);
    return 0;
}
