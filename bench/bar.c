/* Asks at each of some centres for the least of the pattern's links that still says that there is no place. bench/run counts the instructions
 * inside the call. Prints how many centres have no place, and how many links are kept around them in all. */
#include "folder.h"

static uint8_t out[HERONDITCH_PATTERN_LINKS];

int main(int argc, char **argv)
{
    if (argc != 4) {
        fprintf(stderr, "usage: %s FOLDER FIRST-CENTRE LAST-CENTRE\n", argv[0]);
        return 2;
    }
    load_folder(argv[1]);
    size_t none = 0, kept = 0, last = strtoul(argv[3], NULL, 10);
    for (size_t centre = strtoul(argv[2], NULL, 10); centre <= last; centre++) {
        heronditch_reply r = heronditch_bar(FILES, centre, out, sizeof out);
        none += r.number == HERONDITCH_ACCEPTED;
        kept += r.first;
    }
    printf("%zu %zu\n", none, kept);
    return 0;
}
