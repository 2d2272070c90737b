/* Matches the pattern of a folder on its board: as a second-edition file where the bound told is 0, and as a third-edition file with every bound as
 * told, 1 to 4. bench/run counts the instructions inside the call. Prints the counts, started, kept, rounds, and a sum over the table, so that
 * bound 0 and bound 1 print the same. */
#include "folder.h"

int main(int argc, char **argv)
{
    static uint8_t told[HERONDITCH_PATTERN_BYTES];
    static uint32_t table[HERONDITCH_NODES];
    int bound = argc == 3 ? atoi(argv[2]) : -1;
    if (bound < 0 || bound > HERONDITCH_BOUND) {
        fprintf(stderr, "usage: %s FOLDER BOUND\n", argv[0]);
        return 2;
    }
    load_folder(argv[1]);
    /* the second edition has as many zero packages after the kinds, the third a bound for each link after that; heronditch_convert would refuse
     * the patterns that are too wide for a place */
    size_t kinds = 2 * nodes_of(&pattern), len = pattern.len + kinds;
    memcpy(told, pattern.bytes, 4 + kinds);
    memcpy(told + 4 + 2 * kinds, pattern.bytes + 4 + kinds, pattern.len - 4 - kinds);
    for (size_t i = 0; bound && i < links_of(&pattern); i++, len += 2)
        told[len] = (uint8_t)bound;
    heronditch_counts c = heronditch_match(told, len, bound ? HERONDITCH_THIRD : HERONDITCH_SECOND, FILE_OF(board), table, HERONDITCH_NODES);
    if (c.number != HERONDITCH_ACCEPTED)
        return 1;
    uint64_t sum = 0;
    for (size_t v = 0; v < nodes_of(&board); v++)
        sum = sum * 31 + table[v];
    printf("%u %u %u %016llx\n", c.started, c.kept, c.rounds, (unsigned long long)sum);
    return 0;
}
