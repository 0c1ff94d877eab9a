/* leaves IMAGE: answers questions about one image, a line each on the standard input: PATH LEAF ROOM, the path in hex or
   `-`. For each it prints what the call answered and the bytes of the leaf in hex: NUMBER HEX, with `-` for no bytes.
   Where the call wrote past what it answered, or changed the image, it says so and ends with status 1. */
#include <inttypes.h>
#include <stdio.h>
#include <stdlib.h>
#include <string.h>

#include "gildreyk.h"

/* More than the largest card, so that what lies beyond is not looked at; and longer than any path that is asked for. */
#define IMAGE_BYTES (5000u * 512u)
#define PATH_BYTES 2048
#define LINE_BYTES (2 * PATH_BYTES + 64)

/* What stands in a buffer before a call, and behind it as a guard. */
#define FILLING 0xa5
#define GUARD 64

static void stop(const char *what)
{
    fprintf(stderr, "leaves: %s\n", what);
    exit(2);
}

static uint8_t *allocate(size_t length)
{
    uint8_t *bytes = malloc(length);
    if (bytes == NULL)
        stop("no memory");
    return bytes;
}

static size_t load(const char *name, uint8_t *image)
{
    FILE *file = fopen(name, "rb");
    if (file == NULL)
        stop("the image cannot be opened");
    size_t length = fread(image, 1, IMAGE_BYTES, file);
    if (ferror(file) || fclose(file) != 0)
        stop("the image cannot be read");
    return length;
}

static int digit(char c)
{
    if (c >= '0' && c <= '9')
        return c - '0';
    if (c >= 'a' && c <= 'f')
        return c - 'a' + 10;
    stop("not a hex digit");
    return 0;
}

/* The bytes of a word in hex; `-` has none. */
static size_t parse_path(const char *word, uint8_t *path)
{
    if (strcmp(word, "-") == 0)
        return 0;
    size_t length = strlen(word) / 2;
    for (size_t i = 0; i < length; i++)
        path[i] = (uint8_t)(16 * digit(word[2 * i]) + digit(word[2 * i + 1]));
    return length;
}

static int is_filling(const uint8_t *bytes, size_t length)
{
    for (size_t i = 0; i < length; i++)
        if (bytes[i] != FILLING)
            return 0;
    return 1;
}

static void print_answer(uint32_t answer, const uint8_t *out, size_t used)
{
    printf("%" PRIu32 " ", answer);
    for (size_t i = 0; i < used; i++)
        printf("%02x", out[i]);
    printf(used == 0 ? "-\n" : "\n");
}

/* Asks one question. True if nothing was written past the answer. */
static int ask(const uint8_t *image, size_t length, const uint8_t *path, size_t path_length, uint32_t leaf, size_t room)
{
    uint8_t *out = allocate(room + GUARD);
    memset(out, FILLING, room + GUARD);
    uint32_t answer = gildreyk_leaf(image, length, path, path_length, leaf, out, room);
    size_t used = answer > GILDREYK_REFUSED ? 0 : answer;
    int good = used <= room && is_filling(out + used, room + GUARD - used);
    if (good)
        print_answer(answer, out, used);
    else
        printf("%" PRIu32 " and wrote past it\n", answer);
    free(out);
    return good;
}

int main(int argc, char **argv)
{
    static char line[LINE_BYTES], word[LINE_BYTES];
    static uint8_t image[IMAGE_BYTES], path[PATH_BYTES];
    uint32_t leaf;
    size_t room;

    if (argc != 2)
        stop("name an image");
    size_t length = load(argv[1], image);
    uint8_t *before = allocate(length + 1);
    memcpy(before, image, length);
    int good = 1;
    while (fgets(line, sizeof line, stdin) != NULL) {
        if (sscanf(line, "%s %" SCNu32 " %zu", word, &leaf, &room) != 3)
            stop("not a question");
        size_t path_length = parse_path(word, path);
        good = ask(image, length, path, path_length, leaf, room) && good;
    }
    if (memcmp(before, image, length) != 0) {
        printf("the image was changed\n");
        good = 0;
    }
    free(before);
    return good && fflush(stdout) == 0 ? 0 : 1;
}
