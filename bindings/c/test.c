/* Answers a corpus on standard input as the program `replay` does (oracle/README.md has the format), through libimage_check.a.
 * Each part of a case lies in memory of exactly its size, so that valgrind sees a byte read outside it. (A sanitizer would not: it
 * watches only what it compiled.) A part of length 0 is lent as NULL in every other case. */
#include <inttypes.h>
#include <stdio.h>
#include <stdlib.h>
#include <string.h>

#include "image_check.h"

/* The kinds of question. */
enum {
    STATION = 0,
    LINE = 1,
    NIGHT = 2,
    RISING = 3,
    REACHED_BYTES = 4,
    REACHED_BITS = 5,
    OWNER = 6,
    CONVERT = 7,
    CHANGE = 8,
    PREVIEW = 9,
    FIRST_TREE = 10,
    NEXT_TREE = 11,
    TALLY = 12
};

/* The most bytes that a case lends. */
enum { MOST_LENT = 65536 };

static void die(const char *what)
{
    fprintf(stderr, "test: %s\n", what);
    exit(2);
}

static void *exactly(size_t n)
{
    void *p = malloc(n);
    if (p == NULL && n > 0)
        die("no memory");
    return p;
}

/* A number of four bytes, high byte first. */
static size_t length_at(const uint8_t *p)
{
    return (size_t)p[0] << 24 | (size_t)p[1] << 16 | (size_t)p[2] << 8 | p[3];
}

/* n bytes of the input in memory of just that size; *whole becomes 0 where the input ends before. */
static uint8_t *part(size_t n, int null_if_empty, int *whole)
{
    uint8_t *p;
    if (n == 0 && null_if_empty)
        return NULL;
    p = exactly(n);
    if (n > 0 && fread(p, 1, n, stdin) != n)
        *whole = 0;
    return p;
}

static void print_numbers(const uint64_t *numbers, uint32_t from, uint32_t count)
{
    for (uint32_t i = from; i < count; i++)
        printf(" %" PRIu64, numbers[i]);
}

/* An answer, whose first word is `yes` where nothing refuses. The numbers after it must be 0. */
static void print_words(const char *yes, const uint64_t *numbers, uint32_t count)
{
    if (count < 1 || count > 7)
        die("the result is not from 1 to 7");
    for (uint32_t i = count; i < 8; i++)
        if (numbers[i] != 0)
            die("a number after the answer is not 0");
    fputs(numbers[0] == 0 ? yes : "refused", stdout);
    print_numbers(numbers, numbers[0] == 0 ? 1 : 0, count);
}

static void print_answer(const char *yes, const uint64_t *numbers, uint32_t count)
{
    print_words(yes, numbers, count);
    putchar('\n');
}

/* Bytes as they are after a call, which end a line. */
static void print_bytes(const uint8_t *bytes, size_t n)
{
    fputs(n == 0 ? " | -" : " | ", stdout);
    for (size_t i = 0; i < n; i++)
        printf("%02x", bytes[i]);
    putchar('\n');
}

/* A number of four bytes of the input, high byte first. */
static uint32_t next_word(int *whole)
{
    uint8_t bytes[4] = {0};
    if (fread(bytes, 1, sizeof bytes, stdin) != sizeof bytes)
        *whole = 0;
    return (uint32_t)length_at(bytes);
}

/* Takes the bytes that a case lends, with their length before them; *known becomes 0 where they are more than a case lends. */
static uint8_t *next_lent(size_t *n, int null_if_empty, int *whole, int *known)
{
    *n = next_word(whole);
    if (*n > MOST_LENT)
        *known = 0;
    return *known ? part(*n, null_if_empty, whole) : NULL;
}

/* Says how the run ends with a case that is cut off or of no known kind; 0 where it is neither. */
static int ends(int whole, int known)
{
    if (!whole)
        puts("cut off");
    else if (!known)
        puts("unknown kind");
    return !whole || !known;
}

/* A number of eight bytes of the input, high byte first. */
static uint64_t next_number(int *whole)
{
    uint8_t bytes[8] = {0};
    if (fread(bytes, 1, sizeof bytes, stdin) != sizeof bytes)
        *whole = 0;
    return (uint64_t)length_at(bytes) << 32 | length_at(bytes + 4);
}

/* A step of a tally: its kind, and the links of an accepted answer. */
struct step {
    uint8_t kind;
    uint64_t links;
};

/* Takes the next step; *known becomes 0 where there is none of its kind. */
static struct step next_step(int *whole, int *known)
{
    struct step step = {0, 0};
    if (fread(&step.kind, 1, 1, stdin) != 1)
        *whole = 0;
    else if (step.kind > 3)
        *known = 0;
    else if (step.kind == 1)
        step.links = next_number(whole);
    return step;
}

/* What a step gives, as words of the line. A refusal has one number, a fraction two. */
static void print_step(struct line_tally *tally, struct step step, uint64_t *numbers)
{
    uint32_t count;
    memset(numbers, 0xA5, 8 * sizeof *numbers);
    if (step.kind == 0)
        count = add_refused_to_tally(tally, numbers);
    else if (step.kind == 1)
        count = add_accepted_to_tally(tally, step.links, numbers);
    else if (step.kind == 2)
        count = share_of_tally(tally, numbers);
    else
        count = mean_of_tally(tally, numbers);
    if (count != (numbers[0] != 0 || step.kind < 2 ? 1 : 3))
        die("the result is not that of a tally's answer");
    for (uint32_t i = count; i < 8; i++)
        if (numbers[i] != 0)
            die("a number after the answer is not 0");
    if (numbers[0] != 0)
        printf("refused %" PRIu64, numbers[0]);
    else if (count == 1)
        fputs("added", stdout);
    else
        printf("%" PRIu64 "/%" PRIu64, numbers[1], numbers[2]);
}

/* The line of a tally whose steps were all read. */
static void print_tally(struct line_tally *tally, const struct step *steps, size_t count)
{
    uint64_t *numbers = exactly(8 * sizeof *numbers);
    for (size_t i = 0; i < count; i++) {
        print_step(tally, steps[i], numbers);
        fputs(i + 1 < count ? " ; " : " ", stdout);
    }
    printf("| %" PRIu64 " %" PRIu64 " %" PRIu64 "\n", tally->answers, tally->accepted, tally->links);
    free(numbers);
}

/* Answers a tally, once all of its steps are read; 0 where the run ends with it. The steps are read into memory that grows with them. */
static int answer_tally(int whole)
{
    int known = 1;
    struct line_tally *tally = exactly(sizeof *tally);
    struct step *steps = NULL;
    size_t count, got = 0, room = 0;
    tally->answers = next_number(&whole);
    tally->accepted = next_number(&whole);
    tally->links = next_number(&whole);
    count = next_word(&whole);
    for (; whole && known && got < count; got++) {
        if (got == room && (steps = realloc(steps, (room = 2 * room + 16) * sizeof *steps)) == NULL)
            die("no memory");
        steps[got] = next_step(&whole, &known);
    }
    if (!ends(whole, known))
        print_tally(tally, steps, count);
    free(steps);
    free(tally);
    return whole && known;
}

/* Answers a record of a line that is changed or tried, by what follows its parts; 0 where the run ends with it. */
static int answer_change(const uint8_t *head, uint8_t *pack, const uint8_t *batch, const uint8_t *house, int null_if_empty, int whole)
{
    size_t p = length_at(head + 1), b = length_at(head + 5), h = length_at(head + 9);
    uint32_t number = next_word(&whole), count;
    int known = 1;
    size_t r;
    uint8_t *row = next_lent(&r, null_if_empty, &whole, &known);
    uint64_t *numbers = exactly(8 * sizeof *numbers);
    memset(numbers, 0xA5, 8 * sizeof *numbers);
    if (!ends(whole, known)) {
        if (head[0] == CHANGE)
            count = change_record_of_line(pack, p, batch, b, house, h, number, row, r, numbers);
        else
            count = preview_record_of_line(pack, p, batch, b, house, h, number, row, r, numbers);
        print_words("accepted", numbers, count);
        print_bytes(pack, p);
    }
    free(row);
    free(numbers);
    return whole && known;
}

/* Answers a conversion of this pack, by what follows its parts; 0 where the run ends with it. */
static int answer_conversion(const uint8_t *pack, size_t p, int null_if_empty, int whole)
{
    uint32_t kind = next_word(&whole), count;
    int known = kind <= 1;
    size_t n = 0;
    uint8_t *out = whole && known ? next_lent(&n, null_if_empty, &whole, &known) : NULL;
    uint64_t *numbers = exactly(8 * sizeof *numbers);
    memset(numbers, 0xA5, 8 * sizeof *numbers);
    if (!ends(whole, known)) {
        count = (kind == 0 ? convert_enclave_image : convert_federate_image)(pack, p, out, n, numbers);
        print_words("converted", numbers, count);
        print_bytes(out, n);
    }
    free(out);
    free(numbers);
    return whole && known;
}

/* Asks for the first tree or for the next, of so many scopes, and prints its line. */
static void print_tree(uint8_t kind, uint32_t scopes, uint8_t *table, size_t n)
{
    uint64_t *numbers = exactly(8 * sizeof *numbers);
    uint32_t count;
    memset(numbers, 0xA5, 8 * sizeof *numbers);
    count = kind == FIRST_TREE ? first_scope_tree(scopes, table, n, numbers) : next_scope_tree(scopes, table, n, numbers);
    if (count != (numbers[0] == 0 ? 2 : 1))
        die("the result is not that of a scope tree's answer");
    for (uint32_t i = count; i < 8; i++)
        if (numbers[i] != 0)
            die("a number after the answer is not 0");
    if (numbers[0] != 0)
        printf("refused %" PRIu64, numbers[0]);
    else
        fputs(numbers[1] != 0 ? "table" : "end", stdout);
    print_bytes(table, n);
    free(numbers);
}

/* Answers what is asked of scope trees, once its lent bytes are read; 0 where the run ends with it. */
static int answer_tree(uint8_t kind, int null_if_empty, int whole)
{
    uint32_t scopes = next_word(&whole);
    int known = 1;
    size_t n;
    uint8_t *table = next_lent(&n, null_if_empty, &whole, &known);
    if (!ends(whole, known))
        print_tree(kind, scopes, table, n);
    free(table);
    return whole && known;
}

/* Answers what a reaction reaches, by what follows the parts of its case; 0 where the run ends with it. */
static int answer_reached(const uint8_t *head, const uint8_t *pack, const uint8_t *batch, const uint8_t *house, int null_if_empty, int whole)
{
    size_t p = length_at(head + 1), b = length_at(head + 5), h = length_at(head + 9), n;
    uint32_t reaction = next_word(&whole), count;
    int known = 1;
    uint8_t *marks = next_lent(&n, null_if_empty, &whole, &known);
    uint64_t *numbers = exactly(8 * sizeof *numbers);
    memset(numbers, 0xA5, 8 * sizeof *numbers);
    if (!ends(whole, known)) {
        if (head[0] == REACHED_BYTES)
            count = reached_in_bytes_of_image(pack, p, batch, b, house, h, reaction, marks, n, numbers);
        else
            count = reached_in_bits_of_image(pack, p, batch, b, house, h, reaction, marks, n, numbers);
        print_words("reached", numbers, count);
        print_bytes(marks, n);
    }
    free(marks);
    free(numbers);
    return whole && known;
}

/* Answers one case whose first 13 bytes are `head`; 0 where the run ends with it. */
static int answer_case(const uint8_t *head, int null_if_empty)
{
    int whole = 1;
    size_t p = length_at(head + 1), b = length_at(head + 5), h = length_at(head + 9);
    uint8_t *pack = part(p, null_if_empty, &whole);
    uint8_t *batch = part(b, null_if_empty, &whole);
    uint8_t *house = part(h, null_if_empty, &whole);
    uint32_t mode = head[0] == OWNER ? next_word(&whole) : 0;
    uint64_t *numbers = exactly(8 * sizeof *numbers);
    memset(numbers, 0xA5, 8 * sizeof *numbers);
    if (head[0] == TALLY)
        whole = answer_tally(whole);
    else if (head[0] == CHANGE || head[0] == PREVIEW)
        whole = answer_change(head, pack, batch, house, null_if_empty, whole);
    else if (head[0] == CONVERT)
        whole = answer_conversion(pack, p, null_if_empty, whole);
    else if (head[0] == FIRST_TREE || head[0] == NEXT_TREE)
        whole = answer_tree(head[0], null_if_empty, whole);
    else if (head[0] == REACHED_BYTES || head[0] == REACHED_BITS)
        whole = answer_reached(head, pack, batch, house, null_if_empty, whole);
    else if (!whole)
        puts("cut off");
    else if (head[0] == STATION)
        print_answer("accepted", numbers, check_enclave_image(pack, p, batch, b, house, h, numbers));
    else if (head[0] == LINE)
        print_answer("accepted", numbers, check_federate_image(pack, p, batch, b, house, h, numbers));
    else if (head[0] == NIGHT)
        print_answer("accepted", numbers, check_federate_image_night(pack, p, batch, b, house, h, numbers));
    else if (head[0] == RISING)
        print_answer("accepted", numbers, check_rising_image(pack, p, batch, b, house, h, numbers));
    else if (head[0] == OWNER)
        print_answer("owner", numbers, mode_owner_of_image(pack, p, batch, b, house, h, mode, numbers));
    else {
        puts("unknown kind");
        whole = 0;
    }
    free(pack);
    free(batch);
    free(house);
    free(numbers);
    return whole;
}

int main(void)
{
    uint8_t head[13];
    size_t got;
    int odd = 0;
    while ((got = fread(head, 1, sizeof head, stdin)) == sizeof head) {
        if (!answer_case(head, odd))
            return 0;
        odd = !odd;
    }
    if (got > 0)
        puts("cut off");
    return 0;
}
