/* Cuts all links of a board one after another, in a fixed order that is not the file's: in a session, or by a fresh match table of what is left after
 * each cut. bench/run counts the instructions inside the calls.
 *
 *     cut FOLDER session|fresh EVERY
 *
 * Prints how many cuts there were, how many tables were made, and a sum over the tables after each EVERY-th cut, which is the same either way; the
 * fresh tables are made after those cuts only. */
#include "folder.h"

static uint8_t rest[HERONDITCH_BOARD_BYTES];
static uint32_t table[HERONDITCH_NODES];
static unsigned order[HERONDITCH_BOARD_LINKS];
static uint8_t out[HERONDITCH_BOARD_LINKS];
static heronditch_session session;

/* The board's file without the links that are out; its length. */
static size_t remaining(size_t n, size_t m)
{
    size_t left = 0, starts = 4 + 2 * n;
    for (size_t i = 0; i < m; i++)
        left += !out[i];
    memcpy(rest, board.bytes, starts);
    rest[2] = (uint8_t)(left % 256);
    rest[3] = (uint8_t)(left / 256);
    for (size_t i = 0, at = 0; i < m; i++) {
        if (out[i])
            continue;
        memcpy(rest + starts + 2 * at, board.bytes + starts + 2 * i, 2);
        memcpy(rest + starts + 2 * left + 2 * at, board.bytes + starts + 2 * m + 2 * i, 2);
        at++;
    }
    return starts + 4 * left;
}

int main(int argc, char **argv)
{
    if (argc != 4) {
        fprintf(stderr, "usage: %s FOLDER session|fresh EVERY\n", argv[0]);
        return 2;
    }
    load_folder(argv[1]);
    size_t n = nodes_of(&board), m = links_of(&board), every = strtoul(argv[3], NULL, 10);
    int fresh = !strcmp(argv[2], "fresh");
    for (size_t i = 0; i < m; i++)
        order[i] = (unsigned)i;
    uint64_t state = 1;
    for (size_t i = m; i > 1; i--) {
        state = state * 6364136223846793005u + 1442695040888963407u;
        size_t j = (size_t)(state >> 33) % i;
        unsigned x = order[i - 1];
        order[i - 1] = order[j];
        order[j] = x;
    }
    uint64_t sum = 0;
    size_t tables = 0;
    if (heronditch_open(&session, FILES).number)
        return 1;
    for (size_t i = 0; i < m; i++) {
        if (fresh)
            out[order[i]] = 1;
        else if (heronditch_cut(&session, order[i]).number)
            return 1;
        if ((i + 1) % every)
            continue;
        if (fresh) {
            size_t length = remaining(n, m);
            if (heronditch_match(FILE_OF(pattern), rest, length, HERONDITCH_FIRST, table, HERONDITCH_NODES).number)
                return 1;
        } else if (heronditch_table(&session, table, HERONDITCH_NODES).number)
            return 1;
        tables++;
        for (size_t v = 0; v < n; v++)
            sum = sum * 31 + table[v];
    }
    printf("%zu %zu %016llx\n", m, tables, (unsigned long long)sum);
    return 0;
}
