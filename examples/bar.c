/* Asks which of a pattern's links still say that there is no place around a node of a board, and prints them:
 *
 *     bar PATTERN.cir BOARD.cir CENTRE
 *
 * prints `kept K of M:` and each kept link as its start, a hyphen and its end; or `refused` and the number, 15 where there is a place. Each file
 * may be of the first edition or of the second.
 *
 * Build: cc -Iinclude examples/bar.c target/staticlib/libheronditch.a -o bar
 */
#include "common.h"

int main(int argc, char **argv)
{
    static circuit_file pattern, board;
    static circuit drawn;
    static uint8_t kept[HERONDITCH_PATTERN_LINKS];

    if (argc != 4) {
        fprintf(stderr, "usage: %s PATTERN.cir BOARD.cir CENTRE\n", argv[0]);
        return 2;
    }
    char *end;
    unsigned long centre = strtoul(argv[3], &end, 10);
    if (*argv[3] < '0' || *argv[3] > '9' || *end) {
        fprintf(stderr, "%s: the centre is the number of a node, from 0, and not %s\n", argv[0], argv[3]);
        return 2;
    }
    load(argv[1], &pattern);
    load(argv[2], &board);
    heronditch_reply r = heronditch_bar(FILE_OF(pattern), FILE_OF(board), centre, kept, sizeof kept);
    if (r.number != HERONDITCH_ACCEPTED)
        return refused(r.number, r.file);
    read_circuit(HERONDITCH_PATTERN, &pattern, &drawn);
    printf("kept %zu of %zu:", r.first, drawn.m);
    for (size_t i = 0; i < drawn.m; i++)
        if (kept[i])
            printf(" %u-%u", drawn.starts[i], drawn.ends[i]);
    printf("\n");
    return 0;
}
