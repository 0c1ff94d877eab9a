/* show IMAGE PATH LEAF: writes one leaf of one file on a card image, or says why it cannot. */
#include <stdio.h>
#include <stdlib.h>
#include <string.h>

#include "gildreyk.h"

/* The largest card has 4,096 blocks of 512 bytes; what an image has beyond is never looked at. */
#define IMAGE_BYTES (4096u * 512u)

static const char *refusal(uint32_t number)
{
    switch (number) {
    case 3: return "the card is bad: its cover or its root is not well formed";
    case 4: return "the image has fewer blocks than the card";
    case 6: return "a file where a folder is wanted, or the reverse";
    case 7: return "the file has no such leaf";
    case 8: return "the leaf is not good: its block does not name this file and leaf";
    case 9: return "no such name";
    case 11: return "not a name: empty, longer than 24 bytes, or with a zero byte";
    case 12: return "too little room";
    default: return "refused";
    }
}

static int fail(const char *what, const char *which)
{
    fprintf(stderr, "show: %s: %s\n", which, what);
    return 2;
}

/* A whole number in decimal digits, of at most 32 bits. */
static int parse_leaf(const char *text, uint32_t *leaf)
{
    uint64_t n = 0;
    if (*text == '\0')
        return 0;
    for (; *text != '\0'; text++) {
        if (*text < '0' || *text > '9')
            return 0;
        n = 10 * n + (uint64_t)(*text - '0');
        if (n > UINT32_MAX)
            return 0;
    }
    *leaf = (uint32_t)n;
    return 1;
}

/* Reads a file's first bytes, at most as many as a card can have. */
static int load(const char *name, uint8_t *image, size_t *length)
{
    FILE *file = fopen(name, "rb");
    if (file == NULL)
        return 0;
    *length = fread(image, 1, IMAGE_BYTES, file);
    int good = !ferror(file);
    return fclose(file) == 0 && good;
}

int main(int argc, char **argv)
{
    static uint8_t image[IMAGE_BYTES];
    uint8_t out[GILDREYK_LEAF_BYTES];
    size_t length;
    uint32_t leaf;

    if (argc != 4) {
        fprintf(stderr, "show IMAGE PATH LEAF: writes one leaf of one file on a card image\n");
        return 2;
    }
    if (!parse_leaf(argv[3], &leaf))
        return fail("not a leaf number", argv[3]);
    if (!load(argv[1], image, &length))
        return fail("cannot be read", argv[1]);

    uint32_t answer = gildreyk_leaf(image, length, (const uint8_t *)argv[2], strlen(argv[2]), leaf, out, sizeof out);
    if (answer > GILDREYK_REFUSED) {
        uint32_t number = answer - GILDREYK_REFUSED;
        fprintf(stderr, "show: refused (%u): %s\n", (unsigned)number, refusal(number));
        return 1;
    }
    return fwrite(out, 1, answer, stdout) == answer && fflush(stdout) == 0 ? 0 : 2;
}
