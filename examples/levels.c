/* Writes the least and the greatest filled level of a tile: cc -Iinclude examples/levels.c -lmosaic -o levels; ./levels STORE LAT LON
 */
#include "mosaic.h"
#include <fcntl.h>
#include <stdio.h>
#include <stdlib.h>
#include <sys/file.h>
#include <sys/mman.h>
#include <sys/stat.h>

int main(int count, char **words) {
    if (count != 4) return 2;
    int file = open(words[1], O_RDONLY);
    struct stat about;
    if (file < 0 || flock(file, LOCK_SH | LOCK_NB) != 0 || fstat(file, &about) != 0) return 2;
    size_t bytes = (size_t)about.st_size;
    void *image = mmap(NULL, bytes, PROT_READ, MAP_SHARED, file, 0);
    if (image == MAP_FAILED) return 2;

    mosaic_handle store = {0};
    uint32_t side = 0;
    int refused = mosaic_open(&store, image, bytes);
    if (refused == 0) refused = mosaic_side(&store, &side);
    size_t samples = (size_t)side * side;
    int16_t *levels = calloc(samples + 1, sizeof *levels);
    if (levels == NULL) return 2;
    if (refused == 0) refused = mosaic_tile_levels(&store, (int16_t)atoi(words[2]), (int16_t)atoi(words[3]), levels, samples);
    mosaic_close(&store);
    if (refused != 0) return printf("refused: %d\n", refused), 1;

    int least = 32767, greatest = MOSAIC_VOID;
    for (size_t at = 0; at < samples; at++) {
        if (levels[at] == MOSAIC_VOID) continue;
        if (levels[at] < least) least = levels[at];
        if (levels[at] > greatest) greatest = levels[at];
    }
    printf("%d %d\n", least, greatest);
    free(levels);
    return 0;
}
