/* A pack from the other make of machine: convert station|line FILE turns the pack in the file round, and back. */
#include <string.h>

#include "files.h"

static uint32_t convert(int is_line, struct bytes pack, uint8_t *out, uint64_t *numbers)
{
    return (is_line ? convert_federate_image : convert_enclave_image)(pack.at, pack.len, out, pack.len, numbers);
}

static void print_bytes(const char *what, const uint8_t *bytes)
{
    printf("%s:", what);
    for (int i = 0; i < 16; i++)
        printf(" %02x", bytes[i]);
    putchar('\n');
}

int main(int argc, char **argv)
{
    uint64_t numbers[8];
    struct bytes pack, turned;
    uint8_t *back;
    int is_line;
    uint32_t count;
    if (argc != 3 || (strcmp(argv[1], "station") != 0 && strcmp(argv[1], "line") != 0))
        die("usage: convert station|line FILE");
    is_line = argv[1][0] == 'l';
    pack = read_file(argv[2]);
    turned.at = malloc(pack.len + 1);
    turned.len = pack.len;
    back = malloc(pack.len + 1);
    if (turned.at == NULL || back == NULL)
        die("no memory");
    count = convert(is_line, pack, turned.at, numbers);
    if (numbers[0] != 0) {
        print_answer("converted", numbers, count);
    } else {
        print_bytes("its first bytes", pack.at);
        print_bytes("turned round", turned.at);
        convert(is_line, turned, back, numbers);
        printf("turned back: %s\n", numbers[0] == 0 && memcmp(pack.at, back, pack.len) == 0 ? "the first pack" : "another pack");
    }
    free(pack.at);
    free(turned.at);
    free(back);
    return 0;
}
