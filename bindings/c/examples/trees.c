/* All small scope trees: trees COUNT lists the legal tables of parents of so many scopes, of 1 to 4. */
#include "files.h"

/* A table in words: 0 is no parent, p + 1 parent p. */
static void say(const uint8_t *table, uint32_t count)
{
    fputs("parents:", stdout);
    for (uint32_t i = 0; i < count; i++) {
        if (table[i] == 0)
            fputs(" -", stdout);
        else
            printf(" %d", table[i] - 1);
    }
    putchar('\n');
}

int main(int argc, char **argv)
{
    uint64_t numbers[8];
    uint8_t *table;
    uint32_t count;
    int listed = 0;
    if (argc != 2)
        die("usage: trees COUNT");
    count = number(argv[1]);
    table = calloc((size_t)count + 1, 1);
    if (table == NULL)
        die("no memory");
    first_scope_tree(count, table, count, numbers);
    for (; numbers[0] == 0 && numbers[1] == 1; listed++) {
        say(table, count);
        next_scope_tree(count, table, count, numbers);
    }
    if (numbers[0] == 0)
        printf("tables: %d\n", listed);
    else
        printf("refused %" PRIu64 "\n", numbers[0]);
    free(table);
    return 0;
}
