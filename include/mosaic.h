/* The store in a program's own process: heights, filled levels, directions, watersheds and upstream counts, read from the bytes of a
 * store's file.
 *
 * It only reads: nothing here changes a store. Each function but mosaic_close answers 0, or the number of a refusal (docs/messages.md), and then
 * its arrays may contain anything. A refused question leaves the store open, as it was; a refused mosaic_open leaves the handle
 * empty.
 *
 * Points: y grows northwards and x eastwards, in samples, from 0 N 0 E; a degree has side - 1 of them. Heights and levels are whole
 * metres, MOSAIC_VOID where there is none. A direction is 1 for east and each next one clockwise twice as much, 0 where water leaves
 * the mosaic, MOSAIC_NO_GROUND where the point isn't ground. Arrays go row by row from the north, west first.
 *
 * What the caller owes, which nothing checks:
 * - A handle is zeros before it is first opened, is never copied, and is one thread's at a time.
 * - The image is the whole file's bytes. They stay in place and unchanged until the handle is closed, so the caller keeps a
 *   shared lock, flock(LOCK_SH), of the file all that time, which `mosaic serve` respects.
 * - Each pointer leads to as many elements as its count says, and no two of one call overlap.
 * - The thread that calls has 256 KB of stack left, at every side.
 * - malloc, realloc and free are of one allocator. No function is called from a signal handler, or after fork from a child of a
 *   program with threads.
 *
 * Refusals. Each comes exactly where its row says. Any question of an open handle may also answer 23 Damaged (what the store keeps
 * isn't as the program wrote it) or 21 NoMemory.
 *   22 Failed     before all others, where the handle has no open store
 *   3 BadLength   a window's array hasn't rows * columns elements, a tile's not side * side; a reply is longer than its buffer
 *   12 BadBox     a window of a right length has points whose coordinates don't fit 32 bits
 *   2 BadName     there is no corner of a tile at these degrees; a line names no tile
 *   5 NoTile      the tile isn't there
 *   7 Outside     for a single point that no tile has, 8 Void for one without a height; in a window's array these have a value
 *   1 BadLine     a line is no question
 * From opening also 30 NotAStore, 31 Version, 34 TooSmall. */
#ifndef MOSAIC_H
#define MOSAIC_H

#include <stdbool.h>
#include <stddef.h>
#include <stdint.h>

#ifdef __cplusplus
extern "C" {
#endif

#define MOSAIC_VOID (-32768)
#define MOSAIC_NO_GROUND 255

typedef struct {
    void *at;
    bool held;
} mosaic_handle;

/* Its north-west point, how many rows, which go southwards, and how many columns. */
typedef struct {
    int32_t north, west;
    uint32_t rows, columns;
} mosaic_window;

/* Opens the store whose image this is, and closes the one that was open. */
uint8_t mosaic_open(mosaic_handle *handle, const uint8_t *image, size_t bytes);
/* Closes it, where one is open. */
void mosaic_close(mosaic_handle *handle);

/* Samples along an edge of a tile; accepted commands since the store was made. */
uint8_t mosaic_side(mosaic_handle *handle, uint32_t *into);
uint8_t mosaic_count(mosaic_handle *handle, uint64_t *into);

/* Of one point. Refused with Outside or Void where it isn't ground. */
uint8_t mosaic_fill(mosaic_handle *handle, int32_t y, int32_t x, int16_t *into);
uint8_t mosaic_direction(mosaic_handle *handle, int32_t y, int32_t x, uint8_t *into);

/* Which points of a window drain through this point, 1 or 0, and how many points do at all, in the window or not. */
uint8_t mosaic_watershed(mosaic_handle *handle, int32_t y, int32_t x, const mosaic_window *window, uint64_t *points, uint8_t *into,
                         size_t count);

/* Of all points of a window: count is rows * columns. */
uint8_t mosaic_heights(mosaic_handle *handle, const mosaic_window *window, int16_t *into, size_t count);
uint8_t mosaic_levels(mosaic_handle *handle, const mosaic_window *window, int16_t *into, size_t count);
uint8_t mosaic_directions(mosaic_handle *handle, const mosaic_window *window, uint8_t *into, size_t count);
/* .. how many points drain through each, itself among them, in the window or not; 0 where it isn't ground. Each tile that has points of
 * the window is asked once, so that a large window takes less time than its parts. */
uint8_t mosaic_upstream_window(mosaic_handle *handle, const mosaic_window *window, uint32_t *into, size_t count);

/* Of all samples of the tile whose south-west sample is at these degrees: count is side * side. */
uint8_t mosaic_tile_levels(mosaic_handle *handle, int16_t latitude, int16_t longitude, int16_t *into, size_t count);
uint8_t mosaic_tile_directions(mosaic_handle *handle, int16_t latitude, int16_t longitude, uint8_t *into, size_t count);
/* .. how many points drain through each, itself among them; 0 where its point isn't ground. */
uint8_t mosaic_upstream(mosaic_handle *handle, int16_t latitude, int16_t longitude, uint32_t *into, size_t count);

/* The reply to the line of a question, without its LF, in the language of `mosaic-tiles serve`: the bytes that it would write, a
 * refused question's `ERR` and all. `bytes` is how many they are, also where they don't fit and BadLength is answered. Commands and
 * `step` are no questions: they are refused before anything is asked. */
uint8_t mosaic_ask(mosaic_handle *handle, const uint8_t *line, size_t length, size_t *bytes, uint8_t *into, size_t count);

#ifdef __cplusplus
}
#endif

#endif
