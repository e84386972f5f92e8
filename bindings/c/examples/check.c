/* Whether a line may be loaded, by day and at night: check DIR, with its line.pack, batch.txt and house.txt. */
#include "files.h"

static void say(const char *when, const uint64_t *numbers, uint32_t count)
{
    printf("%s: ", when);
    print_answer("accepted", numbers, count);
    switch (numbers[0]) {
    case IMAGE_CHECK_REFUSAL_STORAGE_BOUND_EXCEEDED: /* table, index, slot, bound */
        printf("  A machine with more than %" PRIu64 " slots may take it.\n", numbers[3]);
        break;
    case IMAGE_CHECK_REFUSAL_SCOPE_TOO_DEEP: /* enclave, scope */
        printf("  By day it may be loaded; for the night nest the scopes of station %" PRIu64 " less deep.\n", numbers[1]);
        break;
    }
}

int main(int argc, char **argv)
{
    uint64_t numbers[8];
    struct image line;
    uint32_t count;
    if (argc != 2)
        die("usage: check DIR");
    line = read_image(argv[1], "line.pack");
    count = check_federate_image(line.pack.at, line.pack.len, line.batch.at, line.batch.len, line.house.at, line.house.len, numbers);
    say("by day", numbers, count);
    count = check_federate_image_night(line.pack.at, line.pack.len, line.batch.at, line.batch.len, line.house.at, line.house.len,
                                       numbers);
    say("at night", numbers, count);
    free_image(line);
    return 0;
}
