/* unchanged IMAGE..: asks for leaves of each image, good ones and others, and sees that no call changes the image, nor
   anything of `out` but the leaf's bytes at its front. */
#include <stdio.h>
#include <string.h>

#include "gildreyk.h"

#define IMAGE_BYTES (4096u * 512u)
#define ROOM (GILDREYK_LEAF_BYTES + 16u)
#define OLD 0x77

static uint8_t image[IMAGE_BYTES];
static uint8_t before[IMAGE_BYTES];

static const char *const paths[] = { "", "alto", "mass/bass", "mass", "alto/bass", "tenor", "a//b" };
static const uint32_t leaves[] = { 0, 1, 2, 3, 65536, UINT32_MAX };

static size_t load(const char *name)
{
    FILE *file = fopen(name, "rb");
    if (file == NULL)
        return 0;
    size_t length = fread(image, 1, IMAGE_BYTES, file);
    return fclose(file) == 0 ? length : 0;
}

/* One call into `room` bytes: the bytes of `out` from the leaf's length on have to be as they were. */
static int stays(size_t length, const char *path, uint32_t leaf, size_t room)
{
    uint8_t out[ROOM];
    memset(out, OLD, sizeof out);
    uint32_t answer = gildreyk_leaf(image, length, (const uint8_t *)path, strlen(path), leaf, out, room);
    uint32_t filled = answer > GILDREYK_REFUSED ? 0 : answer;
    if (filled > GILDREYK_LEAF_BYTES)
        return 0;
    for (size_t at = filled; at < sizeof out; at++)
        if (out[at] != OLD)
            return 0;
    return memcmp(image, before, sizeof image) == 0;
}

int main(int argc, char **argv)
{
    for (int i = 1; i < argc; i++) {
        size_t length = load(argv[i]);
        if (length == 0) {
            fprintf(stderr, "unchanged: %s: cannot be read\n", argv[i]);
            return 2;
        }
        memcpy(before, image, sizeof image);
        for (size_t p = 0; p < sizeof paths / sizeof paths[0]; p++)
            for (size_t k = 0; k < sizeof leaves / sizeof leaves[0]; k++)
                if (!stays(length, paths[p], leaves[k], ROOM) || !stays(length, paths[p], leaves[k], ROOM - 17)) {
                    fprintf(stderr, "unchanged: %s: a call for leaf %lu of \"%s\" changed something\n", argv[i],
                            (unsigned long)leaves[k], paths[p]);
                    return 1;
                }
    }
    return 0;
}
