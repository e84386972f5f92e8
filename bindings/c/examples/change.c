/* A record of a line tried and changed: change DIR SLOTS, with line.pack, batch.txt and house.txt. It gives the first station so many state slots, in the
 * pack that was read: nothing is written to DIR. */
#define _POSIX_C_SOURCE 200809L
#include <pthread.h>
#include <string.h>

#include "files.h"

/* The number of the first station's record, and where its state slots stand in it, as four bytes, high byte first. */
enum { STATION = 1, STATE_SLOTS = 12 };

struct change {
    struct image line;
    uint32_t slots;
};

static size_t bytes_changed(struct bytes pack, const uint8_t *before)
{
    size_t count = 0;
    for (size_t at = 0; at < pack.len; at++)
        count += pack.at[at] != before[at];
    return count;
}

/* Runs on a thread of its own, for its stack. */
static void *change(void *given)
{
    const struct change *asked = given;
    struct bytes pack = asked->line.pack, batch = asked->line.batch, house = asked->line.house;
    uint8_t row[64] = {0}, *before = malloc(pack.len + 1);
    uint64_t numbers[8];
    uint32_t count;
    if (before == NULL)
        die("no memory");
    memcpy(before, pack.at, pack.len);
    if (pack.len >= (STATION + 1) * sizeof row)
        memcpy(row, pack.at + STATION * sizeof row, sizeof row);
    for (int i = 0; i < 4; i++)
        row[STATE_SLOTS + i] = (uint8_t)(asked->slots >> (24 - 8 * i));

    fputs("preview: ", stdout);
    count = preview_record_of_line(pack.at, pack.len, batch.at, batch.len, house.at, house.len, STATION, row, sizeof row, numbers);
    print_answer("accepted", numbers, count);
    fputs("change: ", stdout);
    count = change_record_of_line(pack.at, pack.len, batch.at, batch.len, house.at, house.len, STATION, row, sizeof row, numbers);
    print_answer("accepted", numbers, count);
    printf("bytes changed: %zu\n", bytes_changed(pack, before));
    free(before);
    return NULL;
}

int main(int argc, char **argv)
{
    struct change asked;
    pthread_attr_t stack;
    pthread_t thread;
    if (argc != 3)
        die("usage: change DIR SLOTS");
    asked.line = read_image(argv[1], "line.pack");
    asked.slots = number(argv[2]);
    if (pthread_attr_init(&stack) != 0 || pthread_attr_setstacksize(&stack, IMAGE_CHECK_CHANGE_STACK) != 0
        || pthread_create(&thread, &stack, change, &asked) != 0 || pthread_join(thread, NULL) != 0)
        die("no thread");
    pthread_attr_destroy(&stack);
    free_image(asked.line);
    return 0;
}
