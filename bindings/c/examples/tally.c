/* A tally of line answers: tally [DIR..] checks the line in each directory, and gives the share accepted and the mean links. */
#include "files.h"

static void add(struct line_tally *tally, const char *dir)
{
    uint64_t answer[8], numbers[8];
    struct image line = read_image(dir, "line.pack");
    check_federate_image(line.pack.at, line.pack.len, line.batch.at, line.batch.len, line.house.at, line.house.len, answer);
    if (answer[0] == 0)
        add_accepted_to_tally(tally, answer[2], numbers);
    else
        add_refused_to_tally(tally, numbers);
    if (numbers[0] == IMAGE_CHECK_REFUSAL_TALLY_FULL)
        die("a new month needs a new tally");
    if (numbers[0] != 0)
        die("the links are too many");
    free_image(line);
}

static void say(const char *what, const uint64_t *numbers)
{
    printf("%s: ", what);
    if (numbers[0] == 0)
        printf("%" PRIu64 "/%" PRIu64 "\n", numbers[1], numbers[2]);
    else
        printf("refused %" PRIu64 "\n", numbers[0]);
}

int main(int argc, char **argv)
{
    uint64_t numbers[8];
    struct line_tally tally = {0, 0, 0};
    for (int i = 1; i < argc; i++)
        add(&tally, argv[i]);
    printf("answers: %" PRIu64 "\n", tally.answers);
    share_of_tally(&tally, numbers);
    say("share accepted", numbers);
    mean_of_tally(&tally, numbers);
    say("mean links", numbers);
    return 0;
}
