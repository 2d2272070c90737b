/* Matches a pattern on a whole board, and prints the nodes of each part:
 *
 *     match PATTERN.cir BOARD.cir
 *
 * The pattern may be of any edition: the links of the third have bounds. The board may be of the first edition or of the second.
 *
 * Build: cc -Iinclude examples/match.c target/staticlib/libheronditch.a -o match
 */
#include "common.h"

int main(int argc, char **argv)
{
    static circuit_file pattern, board;
    static uint32_t table[HERONDITCH_NODES];

    if (argc != 3) {
        fprintf(stderr, "usage: %s PATTERN.cir BOARD.cir\n", argv[0]);
        return 2;
    }
    load(argv[1], &pattern);
    load(argv[2], &board);
    heronditch_counts c = heronditch_match(FILE_OF(pattern), FILE_OF(board), table, HERONDITCH_NODES);
    if (c.number != HERONDITCH_ACCEPTED)
        return refused(c.number, c.file);
    for (size_t u = 0; u < nodes_of(&pattern); u++) {
        printf("part %zu:", u);
        for (size_t v = 0; v < nodes_of(&board); v++)
            if (table[v] >> u & 1)
                printf(" %zu", v);
        printf("\n");
    }
    return 0;
}
