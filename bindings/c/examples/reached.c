/* What a reaction of a station reaches, marked in bytes and in bits: reached DIR REACTION, with station.pack, batch.txt and house.txt. */
#include "files.h"

/* How many reactions the pack has. */
static size_t reactions_of(struct bytes pack)
{
    size_t count = 0;
    for (size_t at = 0; at < pack.len; at += 64)
        count += pack.at[at] == IMAGE_CHECK_TABLE_REACTIONS;
    return count;
}

/* Memory for the marks. */
static uint8_t *scratch_of(size_t len)
{
    uint8_t *scratch = calloc(len + 1, 1);
    if (scratch == NULL)
        die("no memory");
    return scratch;
}

static void print_reached(size_t reaction, int marked)
{
    if (marked)
        printf("  reactions[%zu]\n", reaction);
}

int main(int argc, char **argv)
{
    uint64_t numbers[8];
    struct image one;
    uint32_t reaction, count;
    size_t reactions, eighth;
    uint8_t *bytes, *bits;
    if (argc != 3)
        die("usage: reached DIR REACTION");
    one = read_image(argv[1], "station.pack");
    reaction = number(argv[2]);
    reactions = reactions_of(one.pack);
    eighth = (reactions + 7) / 8;
    bytes = scratch_of(reactions);
    bits = scratch_of(eighth);

    count = reached_in_bytes_of_image(one.pack.at, one.pack.len, one.batch.at, one.batch.len, one.house.at, one.house.len, reaction,
                                      bytes, reactions, numbers);
    fputs("in bytes: ", stdout);
    print_answer("reached", numbers, count);
    for (size_t at = 0; numbers[0] == 0 && at < reactions; at++)
        print_reached(at, bytes[at]);

    count = reached_in_bits_of_image(one.pack.at, one.pack.len, one.batch.at, one.batch.len, one.house.at, one.house.len, reaction,
                                     bits, eighth, numbers);
    fputs("in bits: ", stdout);
    print_answer("reached", numbers, count);
    for (size_t at = 0; numbers[0] == 0 && at < reactions; at++)
        print_reached(at, bits[at / 8] >> at % 8 & 1);

    free(bytes);
    free(bits);
    free_image(one);
    return 0;
}
