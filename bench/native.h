/* The same jobs in plain C, for the comparison of cost. It shares no code with the product and is no part of it. */
#ifndef NATIVE_H
#define NATIVE_H

#include <stdbool.h>
#include <stddef.h>
#include <stdint.h>

enum { NATIVE_NEITHER, NATIVE_PATTERN, NATIVE_BOARD };
enum { NATIVE_PARTS = 32, NATIVE_PATTERN_LINKS = 256, NATIVE_NODES = 512, NATIVE_LINKS = 4096, NATIVE_RADIUS = 12 };

/* number 0: accepted; else the refusal's number, and the file that it means. */
typedef struct {
    uint32_t number, file, started, kept, struck, rounds;
} native_counts;

/* The match table of a pattern file on a whole board file. */
native_counts native_match(const uint8_t *pattern, size_t pattern_size, const uint8_t *board, size_t board_size, uint32_t *table, size_t table_size);

/* The place of a pattern file around a centre of a board file: a byte for each node and each link, the table over the place, and the distances in
   the ball. */
native_counts native_place(const uint8_t *pattern, size_t pattern_size, const uint8_t *board, size_t board_size, size_t centre, uint8_t *nodes,
                           size_t nodes_size, uint8_t *links, size_t links_size, uint32_t *table, size_t table_size, uint16_t *distances,
                           size_t distances_size);

/* ---- the pieces of these calls, for who asks for one centre after another */

/* A circuit as its file has it. */
typedef struct {
    unsigned n, m;
    uint16_t kinds[NATIVE_NODES], starts[NATIVE_LINKS], ends[NATIVE_LINKS];
} native_circuit;

/* Both circuits, and what the search looks up in them. The parts that each part drives and those that drive it are bit sets. What node v
   drives is the board's link ends from forward_at[v] up to forward_at[v + 1], as links rise by start; what drives it stands in `backward`. */
typedef struct {
    native_circuit pattern, board;
    unsigned radius;
    uint32_t succ[NATIVE_PARTS], pred[NATIVE_PARTS];
    uint16_t forward_at[NATIVE_NODES + 1], backward_at[NATIVE_NODES + 1], backward[NATIVE_LINKS];
} native_finder;

/* Reads and checks both files: accepted, or the refusal. The pattern has to be connected and of radius 12 at most, and then its radius is
   kept, unless `any` pattern will do. */
native_counts native_read(const uint8_t *pattern, size_t pattern_size, const uint8_t *board, size_t board_size, bool any, native_finder *to);

/* Makes the board's neighbour tables. */
void native_neighbours(native_finder *f);

/* The pattern's radius. */
unsigned native_radius(const native_finder *f);

/* The match table on the whole board. */
void native_whole(const native_finder *f, uint32_t *table);

/* The components of the match graph of the whole board's table: the label of each node's, from 1 on, 0 where it has no part, and how many nodes each label has. */
void native_components(const native_finder *f, const uint32_t *whole, uint16_t *labels, uint16_t *sizes);

/* Whether there is a place around a centre at a radius: none, or the centre's whole component, or a part of that, which is left in `nodes`, a byte for
   each node, and `links`, one for each link that starts in the place. */
typedef enum { NATIVE_NONE, NATIVE_WHOLE, NATIVE_CUT } native_found;
native_found native_locate(const native_finder *f, const uint32_t *whole, const uint16_t *labels, const uint16_t *sizes, unsigned centre, unsigned radius,
                           uint8_t *nodes, uint8_t *links);

/* The centre's whole component, in the same form. */
void native_component(const native_finder *f, const uint32_t *whole, unsigned centre, uint8_t *nodes, uint8_t *links);

#endif
