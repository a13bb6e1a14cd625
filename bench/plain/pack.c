/* pack N: reads a tile as the digits of 64 by 64 pixels, the top row first, packs it N times, and prints the packed bytes. */
#include "packer.h"
#include <stdio.h>
#include <stdlib.h>

static uint32_t pixels[SIDE * SIDE + 1];
static uint8_t packed[PACKED_ROOM];

/* Called through this, so that no call is taken for another's. */
static size_t (*volatile pack_once)(uint8_t *, const uint32_t *, size_t) = pack;

int main(int argc, char **argv) {
    long count = argc == 2 ? strtol(argv[1], NULL, 10) : 0;
    for (size_t i = 0; i < SIDE * SIDE; i++) {
        unsigned color;
        if (scanf("%6x", &color) != 1) return 2;
        pixels[(SIDE - 1 - i / SIDE) * SIDE + i % SIDE] = color;
    }
    size_t size = 0;
    for (long i = 0; i < count; i++) size = pack_once(packed, pixels, SIDE);
    for (size_t i = 0; i < size; i++) printf("%02x", packed[i]);
    printf("\n");
    return 0;
}
