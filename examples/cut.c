/* Cuts links of a board one after another, and says which parts of the pattern lose their last node:
 *
 *     cut PATTERN.cir BOARD.cir < PLACES
 *
 * PLACES are the places of links in the board's file, from 0, with white space between. For each a line: 'cut PLACE' or 'refused 14 PLACE', and then
 * the parts that had a node before the cut and have none after it. Where one part has lost its last node, all have: the table is all 0. Each
 * file may be of the first edition or of the second.
 *
 * Build: cc -Iinclude examples/cut.c target/staticlib/libheronditch.a -o cut
 */
#include "common.h"

/* The parts that have a node in the session's table. */
static uint32_t occurring(const heronditch_session *session)
{
    static uint32_t table[HERONDITCH_NODES];
    heronditch_reply reply = heronditch_table(session, table, HERONDITCH_NODES);
    uint32_t parts = 0;
    for (size_t v = 0; v < reply.first; v++)
        parts |= table[v];
    return parts;
}

int main(int argc, char **argv)
{
    static circuit_file pattern, board;
    static heronditch_session session;

    if (argc != 3) {
        fprintf(stderr, "usage: %s PATTERN.cir BOARD.cir < PLACES\n", argv[0]);
        return 2;
    }
    load(argv[1], &pattern);
    load(argv[2], &board);
    heronditch_reply r = heronditch_open(&session, FILE_OF(pattern), FILE_OF(board));
    if (r.number != HERONDITCH_ACCEPTED)
        return refused(r.number, r.file);
    uint32_t before = occurring(&session);
    unsigned long place;
    while (scanf("%lu", &place) == 1) {
        r = heronditch_cut(&session, place);
        if (r.number == HERONDITCH_NO_SUCH_LINK)
            printf("refused %u %lu", (unsigned)r.number, place);
        else
            printf("cut %lu", place);
        uint32_t after = occurring(&session);
        for (unsigned u = 0; u < HERONDITCH_PARTS; u++)
            if ((before & ~after) >> u & 1)
                printf(" part %u", u);
        printf("\n");
        before = after;
    }
    return 0;
}
