/* What R's `.C` calls, whose arguments are all pointers: the side of a store's tiles, and the filled levels of one of them.
 * cc -shared -fPIC -Iinclude examples/levels_for_r.c -lmosaic -o levels_for_r.so; examples/levels.R calls it. */
#include "mosaic.h"
#include <fcntl.h>
#include <stdlib.h>
#include <sys/file.h>
#include <sys/mman.h>
#include <sys/stat.h>
#include <unistd.h>

/* R's integers are 32 bits wide, and the least of them is its NA. */
static int tell(mosaic_handle *store, const int *corner, int samples, int *side, int *levels) {
    uint32_t found = 0;
    int16_t *into = calloc((size_t)samples + 1, sizeof *into);
    int refused = into == NULL ? 21 : mosaic_side(store, &found);
    *side = (int)found;
    if (refused == 0) refused = mosaic_tile_levels(store, (int16_t)corner[0], (int16_t)corner[1], into, (size_t)samples);
    for (int at = 0; refused == 0 && at < samples; at++) levels[at] = into[at] == MOSAIC_VOID ? INT32_MIN : into[at];
    free(into);
    return refused;
}

/* `refused` is 0, the number of a refusal (3 where `samples` isn't side * side), or -1 where the file can't be opened. */
void tile_levels(char **path, int *corner, int *samples, int *side, int *levels, int *refused) {
    int file = open(*path, O_RDONLY);
    struct stat about;
    *refused = -1;
    if (file < 0) return;
    if (flock(file, LOCK_SH | LOCK_NB) == 0 && fstat(file, &about) == 0) {
        size_t bytes = (size_t)about.st_size;
        void *image = mmap(NULL, bytes, PROT_READ, MAP_SHARED, file, 0);
        mosaic_handle store = {0};
        if (image != MAP_FAILED) {
            *refused = mosaic_open(&store, image, bytes);
            if (*refused == 0) *refused = tell(&store, corner, *samples, side, levels);
            mosaic_close(&store);
            munmap(image, bytes);
        }
    }
    close(file);
}
