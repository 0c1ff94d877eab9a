/* One leaf of one file on a card image. docs/SCREEN.md says what it answers. */
#ifndef GILDREYK_H
#define GILDREYK_H

#include <stddef.h>
#include <stdint.h>

/* The most bytes of a leaf, and the fewest that `out` may have. */
#define GILDREYK_LEAF_BYTES 496
/* An answer above this is a refusal: its number is the answer less this. */
#define GILDREYK_REFUSED 1000

/* Puts leaf `leaf` (from 0) of the file at `path` to the front of `out` and answers its length, or 1,000 and the number
   of the refusal. The image is only read. A refusal leaves `out` as it was. No pointer may be null, and `out` may not
   overlap the image or the path. A path has no end mark: its names are parted by '/', with none at its start or end. */
uint32_t gildreyk_leaf(const uint8_t *image, size_t image_length,
                       const uint8_t *path, size_t path_length,
                       uint32_t leaf,
                       uint8_t *out, size_t out_length);

#endif
