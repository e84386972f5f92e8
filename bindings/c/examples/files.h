/* What the examples share: files that are read, and an answer that is printed. */
#ifndef FILES_H
#define FILES_H

#include <inttypes.h>
#include <stdio.h>
#include <stdlib.h>

#include "image_check.h"

/* As many bytes as a pack may have; of a longer file one more is read, so that it is refused. */
enum { PACK_LIMIT = 4194304 };

struct bytes {
    uint8_t *at;
    size_t len;
};

/* A pack and its two texts. */
struct image {
    struct bytes pack, batch, house;
};

static inline void die(const char *what)
{
    fprintf(stderr, "%s\n", what);
    exit(2);
}

static inline struct bytes read_file(const char *path)
{
    struct bytes bytes = {malloc(PACK_LIMIT + 1), 0};
    FILE *file = fopen(path, "rb");
    if (bytes.at == NULL || file == NULL)
        die(path);
    bytes.len = fread(bytes.at, 1, PACK_LIMIT + 1, file);
    if (ferror(file))
        die(path);
    fclose(file);
    return bytes;
}

static inline struct bytes read_in(const char *dir, const char *name)
{
    char path[4096];
    if (snprintf(path, sizeof path, "%s/%s", dir, name) >= (int)sizeof path)
        die("the path is too long");
    return read_file(path);
}

/* The three files of a directory; the pack's name is line.pack or station.pack. */
static inline struct image read_image(const char *dir, const char *pack)
{
    struct image image = {read_in(dir, pack), read_in(dir, "batch.txt"), read_in(dir, "house.txt")};
    return image;
}

static inline void free_image(struct image image)
{
    free(image.pack.at);
    free(image.batch.at);
    free(image.house.at);
}

/* A number of the command line. */
static inline uint32_t number(const char *word)
{
    char *end;
    unsigned long value = strtoul(word, &end, 10);
    if (end == word || *end != '\0' || value > UINT32_MAX)
        die("no number");
    return (uint32_t)value;
}

/* An answer as a line: `yes` and the numbers after the 0, or `refused` and all of them. */
static inline void print_answer(const char *yes, const uint64_t *numbers, uint32_t count)
{
    fputs(numbers[0] == 0 ? yes : "refused", stdout);
    for (uint32_t i = numbers[0] == 0 ? 1 : 0; i < count; i++)
        printf(" %" PRIu64, numbers[i]);
    putchar('\n');
}

#endif
