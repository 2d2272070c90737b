/* Asks for the pattern around each node of a board, and prints what was found. With -d the nodes of each place follow by their distance
 * from the centre, for one who probes outwards from it:
 *
 *     find [-d] PATTERN.cir BOARD.cir
 *
 * Each file may be of the first edition or of the second: packages count where both have them.
 *
 * Build: cc -Iinclude examples/find.c target/staticlib/libheronditch.a -o find
 */
#include "common.h"

/* What is lent for a place. */
static uint8_t nodes[HERONDITCH_NODES], links[HERONDITCH_BOARD_LINKS];
static uint32_t table[HERONDITCH_NODES];
static uint16_t distances[HERONDITCH_NODES];

static void print_place(size_t centre, const circuit *board)
{
    printf("place %zu:", centre);
    for (size_t v = 0; v < board->n; v++)
        if (nodes[v])
            printf(" %zu", v);
    printf(" /");
    for (size_t i = 0; i < board->m; i++)
        if (links[i])
            printf(" %u-%u", board->starts[i], board->ends[i]);
    printf("\n");
}

/* A line for each distance at which the place has nodes. */
static void print_distances(size_t n)
{
    for (unsigned d = 0; d < HERONDITCH_NODES; d++) {
        int begun = 0;
        for (size_t v = 0; v < n; v++)
            if (nodes[v] && distances[v] == d) {
                if (!begun)
                    printf("  at %u:", d);
                begun = 1;
                printf(" %zu", v);
            }
        if (begun)
            printf("\n");
    }
}

int main(int argc, char **argv)
{
    static circuit_file pattern, board;
    static circuit drawn;

    int probing = argc == 4 && strcmp(argv[1], "-d") == 0;
    if (argc != 3 && !probing) {
        fprintf(stderr, "usage: %s [-d] PATTERN.cir BOARD.cir\n", argv[0]);
        return 2;
    }
    load(argv[argc - 2], &pattern);
    load(argv[argc - 1], &board);

    /* The pattern and the board are looked at once, so that a refusal is told before anything else. */
    heronditch_reply r = heronditch_radius(FILE_OF(pattern));
    if (r.number == HERONDITCH_ACCEPTED)
        r = read_circuit(HERONDITCH_BOARD, &board, &drawn);
    if (r.number != HERONDITCH_ACCEPTED)
        return refused(r.number, r.file);
    size_t found = 0;
    for (size_t centre = 0; centre < drawn.n; centre++) {
        heronditch_counts c =
            heronditch_place_editions(FILE_OF(pattern), FILE_OF(board), centre, nodes, HERONDITCH_NODES, links, HERONDITCH_BOARD_LINKS, table,
                                      HERONDITCH_NODES, distances, HERONDITCH_NODES);
        if (c.number == HERONDITCH_NO_PLACE) /* that is a theorem: nobody needs to look again */
            continue;
        if (c.number != HERONDITCH_ACCEPTED) /* cannot be: both files are accepted, the centre is a node and the tables are long enough */
            return refused(c.number, c.file);
        print_place(centre, &drawn);
        if (probing)
            print_distances(drawn.n);
        found++;
    }
    printf("end %zu of %zu\n", found, drawn.n);
    return 0;
}
