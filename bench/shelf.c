/* Compares the first two circuits of a shelf of 16 pattern files, and puts the shelf in order. bench/run counts the instructions inside the two
 * calls. Prints the length of a file, what the comparison says (1 less, 2 equal, 3 greater, 0 refused) and how many files are accepted. */
#include <stdio.h>
#include <string.h>

#include "heronditch.h"

static uint8_t bytes[HERONDITCH_SHELF * HERONDITCH_PATTERN_BYTES], order[HERONDITCH_SHELF];
static uint32_t lengths[HERONDITCH_SHELF];

static uint8_t *put(uint8_t *to, unsigned x)
{
    *to++ = x & 255;
    *to++ = x >> 8;
    return to;
}

/* One part, of this kind; or the largest pattern, 32 parts and 256 links, whose last link ends at this node. */
static size_t file(uint8_t *to, int large, unsigned x)
{
    unsigned n = large ? 32 : 1, each = large ? 8 : 0;
    uint8_t *at = put(put(to, n), n * each);
    for (unsigned i = 0; i < n; i++) at = put(at, large ? i : x);
    for (unsigned i = 0; i < n; i++) at = put(at, 7);
    for (unsigned i = 0; i < n * each; i++) at = put(at, i / each);
    for (unsigned i = 0; i < n * each; i++) at = put(at, i + 1 < n * each ? i % each : x);
    return at - to;
}

int main(int argc, char **argv)
{
    const char *shelf = argc == 2 ? argv[1] : "";
    int falling = !strcmp(shelf, "falling"), alike = !strcmp(shelf, "alike"), refused = !strcmp(shelf, "refused"), small = !strcmp(shelf, "small");
    if (!falling && !alike && !refused && !small && strcmp(shelf, "rising")) {
        fprintf(stderr, "usage: %s small|rising|falling|alike|refused\n", argv[0]);
        return 2;
    }
    size_t all = 0;
    for (unsigned i = 0; i < HERONDITCH_SHELF; i++) {
        lengths[i] = file(bytes + all, !small, refused ? 32 : alike ? 7 : falling ? 22 - i : 7 + i);
        all += lengths[i];
    }
    heronditch_comparison c = heronditch_compare(bytes, lengths[0], bytes + lengths[0], lengths[1]);
    heronditch_reply r = heronditch_shelf(bytes, all, lengths, HERONDITCH_SHELF, order, sizeof order);
    printf("%u %u %u\n", (unsigned)lengths[0], (unsigned)c.order, (unsigned)r.first);
    return 0;
}
