/* The reactor that a mode of a station belongs to: owner DIR MODE, with station.pack, batch.txt and house.txt. */
#include "files.h"

/* Whether the refusal says that the station has no such mode: table, index, field, target, referenced, rows. */
static int is_no_mode(const uint64_t *numbers)
{
    return numbers[0] == IMAGE_CHECK_REFUSAL_REFERENCE_OUT_OF_BOUNDS && numbers[1] == IMAGE_CHECK_TABLE_MODES
           && numbers[3] == IMAGE_CHECK_FIELD_MODE;
}

int main(int argc, char **argv)
{
    uint64_t numbers[8];
    struct image one;
    uint32_t mode, count;
    if (argc != 3)
        die("usage: owner DIR MODE");
    one = read_image(argv[1], "station.pack");
    mode = number(argv[2]);
    count = mode_owner_of_image(one.pack.at, one.pack.len, one.batch.at, one.batch.len, one.house.at, one.house.len, mode, numbers);
    if (numbers[0] == 0)
        printf("modes[%" PRIu32 "] is of reactors[%" PRIu64 "]\n", mode, numbers[1]);
    else if (is_no_mode(numbers))
        printf("no modes[%" PRIu32 "]: the station has %" PRIu64 "\n", mode, numbers[6]);
    else
        print_answer("owner", numbers, count);
    free_image(one);
    return 0;
}
