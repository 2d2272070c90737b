/* Prints the match table of a pattern on a whole board: a line for each node that some part matches, with those parts, and the four counts.
 * The pattern may be in several bits that no link joins. With -1 pairs need partners for what their part drives alone (one way), and the
 * pattern has no bounds.
 *
 *     table [-1] PATTERN.cir BOARD.cir
 *
 * Status: 0 the table is printed; 1 a file is refused; 2 a file cannot be read, or the output cannot be written.
 * Build: cc -Iinclude examples/table.c target/staticlib/libheronditch.a -o table
 */
#include "common.h"

int main(int argc, char **argv)
{
    static circuit_file pattern, board;
    static uint32_t table[HERONDITCH_NODES];

    int one_way = argc == 4 && strcmp(argv[1], "-1") == 0;
    if (argc != 3 && !one_way) {
        fprintf(stderr, "usage: %s [-1] PATTERN.cir BOARD.cir\n", argv[0]);
        return 2;
    }
    load(argv[argc - 2], &pattern);
    load(argv[argc - 1], &board);
    heronditch_counts c = one_way ? heronditch_match_one_way(FILE_OF(pattern), FILE_OF(board), table, HERONDITCH_NODES)
                                  : heronditch_match(FILE_OF(pattern), FILE_OF(board), table, HERONDITCH_NODES);
    if (c.number != HERONDITCH_ACCEPTED)
        return refused(c.number, c.file);
    for (size_t v = 0; v < nodes_of(&board); v++) {
        if (!table[v])
            continue;
        printf("node %zu:", v);
        for (int u = 0; u < HERONDITCH_PARTS; u++)
            if (table[v] >> u & 1)
                printf(" %d", u);
        printf("\n");
    }
    printf("started %u kept %u struck %u rounds %u\n", (unsigned)c.started, (unsigned)c.kept, (unsigned)c.struck, (unsigned)c.rounds);
    return fflush(stdout) ? 2 : 0;
}
