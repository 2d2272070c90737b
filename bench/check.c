/* Asks for the place around each of some centres that have one, and has it checked. bench/run counts the instructions inside the two calls: which
 * centres have a place is asked of heronditch_place_within. Prints how many have, and exits 1 where a place gets no yes. */
#include "folder.h"

static uint16_t distances[HERONDITCH_NODES];
static uint8_t nodes[HERONDITCH_NODES], links[HERONDITCH_BOARD_LINKS];
static uint32_t table[HERONDITCH_NODES];

#define TABLES nodes, HERONDITCH_NODES, links, HERONDITCH_BOARD_LINKS, table, HERONDITCH_NODES, distances, HERONDITCH_NODES

int main(int argc, char **argv)
{
    if (argc != 4) {
        fprintf(stderr, "usage: %s FOLDER FIRST-CENTRE LAST-CENTRE\n", argv[0]);
        return 2;
    }
    load_folder(argv[1]);
    uint16_t radius = (uint16_t)heronditch_radius(FILE_OF(pattern)).first;
    size_t found = 0, last = strtoul(argv[3], NULL, 10);
    for (size_t centre = strtoul(argv[2], NULL, 10); centre <= last; centre++) {
        if (heronditch_place_within(PLAIN_FILES, centre, radius, TABLES).number)
            continue;
        found++;
        heronditch_place(PLAIN_FILES, centre, TABLES);
        if (heronditch_check(FILES, centre, nodes, nodes_of(&board), links, links_of(&board)).first != 1)
            return 1;
    }
    printf("%zu\n", found);
    return 0;
}
