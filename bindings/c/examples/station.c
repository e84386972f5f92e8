/* Whether a station may be loaded, and whether its levels rise: station DIR, with its station.pack, batch.txt and house.txt. */
#include "files.h"

static void say(const char *check, const uint64_t *numbers, uint32_t count)
{
    printf("%s: ", check);
    print_answer("accepted", numbers, count);
    if (numbers[0] == IMAGE_CHECK_REFUSAL_LEVEL_NOT_RISING) /* reaction, target */
        printf("  Plan reaction %" PRIu64 " on a level above that of reaction %" PRIu64 ".\n", numbers[2], numbers[1]);
}

int main(int argc, char **argv)
{
    uint64_t numbers[8];
    struct image one;
    uint32_t count;
    if (argc != 2)
        die("usage: station DIR");
    one = read_image(argv[1], "station.pack");
    count = check_enclave_image(one.pack.at, one.pack.len, one.batch.at, one.batch.len, one.house.at, one.house.len, numbers);
    say("station", numbers, count);
    count = check_rising_image(one.pack.at, one.pack.len, one.batch.at, one.batch.len, one.house.at, one.house.len, numbers);
    say("rising", numbers, count);
    free_image(one);
    return 0;
}
