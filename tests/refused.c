/* Asks the library for what it refuses, and writes the numbers: cc -Iinclude tests/refused.c -lmosaic -o refused; ./refused STORE
 * STORE is a store of tiles of side 3 that has N00E000 alone. */
#include "mosaic.h"
#include <stdio.h>
#include <stdlib.h>
#include <string.h>

static uint8_t image[1 << 20], zeros[1 << 16];
static mosaic_handle handle;

static void told(const char *what, uint8_t number) { printf("%s: %d\n", what, number); }

/* Opens the first bytes of what is there, and closes it. */
static uint8_t opened(const uint8_t *bytes, size_t count) {
    uint8_t number = mosaic_open(&handle, bytes, count);
    mosaic_close(&handle);
    return number;
}

/* Asks a line, and writes its number and, where it is answered, its reply. */
static void asked(const char *line, size_t room) {
    uint8_t reply[64];
    size_t bytes = 0;
    uint8_t number = mosaic_ask(&handle, (const uint8_t *)line, strlen(line), &bytes, reply, room);
    printf("%s: %d %zu", line, number, bytes);
    if (number == 0) printf(" %.*s", (int)bytes - 1, (const char *)reply);
    printf("\n");
}

/* Opens the image with each byte of its first sectors altered in turn, and asks each that opens. */
static void alter(size_t bytes) {
    int16_t level;
    for (size_t at = 0; at < 5 * 4096; at++) {
        image[at] ^= 0x55;
        if (mosaic_open(&handle, image, bytes) == 0) mosaic_fill(&handle, 1, 1, &level);
        image[at] ^= 0x55;
    }
    mosaic_close(&handle);
}

int main(int count, char **words) {
    FILE *file = count == 2 ? fopen(words[1], "rb") : NULL;
    if (file == NULL) return 2;
    size_t bytes = fread(image, 1, sizeof image, file);
    uint32_t side;
    int16_t into[9];
    uint32_t counts[9];
    told("a handle of zeros", mosaic_side(&handle, &side));
    told("no bytes", opened(image, 0));
    told("zeros", opened(zeros, sizeof zeros));
    told("half an image", opened(image, bytes / 2));
    told("an image without its last byte", opened(image, bytes - 1));
    alter(bytes);
    told("the image", mosaic_open(&handle, image, bytes));
    mosaic_window whole = {2, 0, 3, 3}, east = {2, 2, 3, 3}, beyond = {INT32_MIN, INT32_MAX, 3, 3}, vast = {0, 0, UINT32_MAX, UINT32_MAX};
    told("a window", mosaic_levels(&handle, &whole, into, 9));
    told("its middle", (uint8_t)into[4]);
    told("upstream counts", mosaic_upstream(&handle, 0, 0, counts, 9));
    told("at the outlet", (uint8_t)counts[8]);
    told("upstream counts of a window", mosaic_upstream_window(&handle, &east, counts, 9));
    told("at the outlet again", (uint8_t)counts[6]);
    told("outside", (uint8_t)counts[8]);
    told("upstream counts of a window in a shorter array", mosaic_upstream_window(&handle, &east, counts, 8));
    uint64_t points = 0;
    uint8_t marks[9];
    told("a watershed", mosaic_watershed(&handle, 0, 2, &whole, &points, marks, 9));
    told("its points", (uint8_t)points);
    told("the north-west in it", marks[0]);
    told("the middle in it", marks[4]);
    told("a watershed of a shorter array", mosaic_watershed(&handle, 0, 2, &whole, &points, marks, 8));
    told("a watershed of a point outside", mosaic_watershed(&handle, 9, 9, &whole, &points, marks, 9));
    asked("fill 1 1", 64);
    asked("fill 9 9", 64);
    asked("trace 1 1", 8);
    asked("levels N0", 64);
    asked("burn 1 1 1", 64);
    asked("step", 64);
    told("a shorter array", mosaic_levels(&handle, &whole, into, 8));
    told("a window beyond the lattice", mosaic_levels(&handle, &beyond, into, 9));
    told("a window beyond all numbers", mosaic_levels(&handle, &vast, into, 1));
    told("no such corner", mosaic_tile_levels(&handle, 95, 0, into, 9));
    told("a tile that isn't there", mosaic_tile_levels(&handle, 0, 1, into, 9));
    told("a point outside", mosaic_fill(&handle, 9, 9, into));
    mosaic_close(&handle);
    mosaic_close(&handle);
    told("a closed handle", mosaic_heights(&handle, &whole, into, 9));
    return 0;
}
