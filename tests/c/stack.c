/* How much stack the calls need: each runs on a stack of its own that was painted before, on the largest circuits, in the first edition and in
 * the second. Prints the most bytes that a call touched, and exits 1 where that is above what the header promises. */
#include <pthread.h>
#include <stdio.h>
#include <stdlib.h>
#include <string.h>

#include "heronditch.h"

enum { STACK = 1 << 20 };

/* the largest pattern, the largest board, and one of another kind; and the largest pattern with every bound 4 */
static uint8_t pattern[HERONDITCH_PATTERN_BYTES], board[HERONDITCH_BOARD_BYTES], other[HERONDITCH_BOARD_BYTES];
static uint8_t bounded[HERONDITCH_PATTERN_BYTES];
static size_t pattern_len, board_len;
static uint32_t edition;

static uint16_t kinds[HERONDITCH_NODES], packages[HERONDITCH_NODES], starts[HERONDITCH_BOARD_LINKS], ends[HERONDITCH_BOARD_LINKS];
static uint8_t bytes[HERONDITCH_BOARD_BYTES], links[HERONDITCH_BOARD_LINKS];
static uint32_t table[HERONDITCH_NODES];
static uint8_t text[2 * HERONDITCH_LINE_BYTES];

/* sixteen copies of the largest pattern, in the second edition: every comparison goes to the end of both files */
enum { SHELVED = HERONDITCH_PATTERN_BYTES - 2 * HERONDITCH_PATTERN_LINKS };
static uint8_t shelved[HERONDITCH_SHELF * SHELVED];
static uint32_t lengths[HERONDITCH_SHELF];

static uint8_t *put(size_t number, uint8_t *to)
{
    to[0] = (uint8_t)(number & 255);
    to[1] = (uint8_t)(number >> 8);
    return to + 2;
}

/* Makes a circuit of n nodes of one kind, the links the first m of 0-0, 0-1, .. in an edition; returns its length. */
static size_t circuit(size_t n, size_t m, size_t kind, uint32_t in, uint8_t *file)
{
    uint8_t *at = put(m, put(n, file));
    for (size_t i = 0; i < n; i++)
        at = put(kind, at);
    for (size_t i = 0; in != HERONDITCH_FIRST && i < n; i++)
        at = put(0, at); /* packages */
    for (size_t i = 0; i < m; i++)
        at = put(i / n, at);
    for (size_t i = 0; i < m; i++)
        at = put(i % n, at);
    for (size_t i = 0; in == HERONDITCH_THIRD && i < m; i++)
        at = put(HERONDITCH_BOUND, at);
    return (size_t)(at - file);
}

static void make_files(uint32_t in)
{
    edition = in;
    pattern_len = circuit(HERONDITCH_PARTS, HERONDITCH_PATTERN_LINKS, 7, in, pattern);
    board_len = circuit(HERONDITCH_NODES, HERONDITCH_BOARD_LINKS, 7, in, board);
    circuit(HERONDITCH_NODES, HERONDITCH_BOARD_LINKS, 9, in, other);
    circuit(HERONDITCH_PARTS, HERONDITCH_PATTERN_LINKS, 7, HERONDITCH_THIRD, bounded);
    for (size_t i = 0; i < HERONDITCH_SHELF; i++)
        lengths[i] = (uint32_t)circuit(HERONDITCH_PARTS, HERONDITCH_PATTERN_LINKS, 7, HERONDITCH_SECOND, shelved + i * SHELVED);
}

#define PATTERN pattern, pattern_len, edition
#define BOARD board, board_len, edition
#define PLAIN pattern, pattern_len, board, board_len
#define NODE_TABLES bytes, HERONDITCH_NODES, links, HERONDITCH_BOARD_LINKS, table, HERONDITCH_NODES, kinds, HERONDITCH_NODES
static uint32_t refused;

static void *nothing(void *x) { return x; }
static void *read_board(void *x)
{
    refused |= heronditch_read(HERONDITCH_BOARD, BOARD, kinds, HERONDITCH_NODES, packages, HERONDITCH_NODES, starts,
                               HERONDITCH_BOARD_LINKS, ends, HERONDITCH_BOARD_LINKS).number;
    return x;
}
static void *write_board(void *x)
{
    refused |= heronditch_write(HERONDITCH_BOARD, edition, kinds, HERONDITCH_NODES, packages, HERONDITCH_NODES, starts,
                                HERONDITCH_BOARD_LINKS, ends, HERONDITCH_BOARD_LINKS, bytes, sizeof bytes).number;
    return x;
}
static void *radius(void *x)
{
    refused |= heronditch_radius(PATTERN).number;
    return x;
}
static void *ball(void *x)
{
    refused |= heronditch_ball(BOARD, 0, 65535, kinds, HERONDITCH_NODES).number;
    return x;
}
static void *match(void *x)
{
    refused |= heronditch_match(PATTERN, BOARD, table, HERONDITCH_NODES).number;
    return x;
}
static void *match_bounded(void *x)
{
    refused |= heronditch_match(bounded, sizeof bounded, HERONDITCH_THIRD, BOARD, table, HERONDITCH_NODES).number;
    return x;
}
static void *one_way(void *x)
{
    refused |= heronditch_match_one_way(PATTERN, BOARD, table, HERONDITCH_NODES).number;
    return x;
}
/* the calls that are not told editions, and beside them those that are */
static void *place(void *x)
{
    refused |= (edition == HERONDITCH_FIRST ? heronditch_place(PLAIN, 0, NODE_TABLES) : heronditch_place_editions(PATTERN, BOARD, 0, NODE_TABLES)).number;
    return x;
}
static void *within(void *x)
{
    refused |= (edition == HERONDITCH_FIRST ? heronditch_place_within(PLAIN, 0, 12, NODE_TABLES)
                                            : heronditch_place_within_editions(PATTERN, BOARD, 0, 12, NODE_TABLES))
                   .number;
    return x;
}
static void *report(void *x)
{
    refused |= (edition == HERONDITCH_FIRST ? heronditch_report(PLAIN, 0, 0, text, sizeof text)
                                            : heronditch_report_editions(PATTERN, BOARD, 0, 0, text, sizeof text))
                   .number;
    return x;
}
static void *check(void *x)
{
    memset(bytes, 1, HERONDITCH_NODES);
    memset(links, 1, sizeof links);
    heronditch_reply r = heronditch_check(PATTERN, BOARD, 0, bytes, HERONDITCH_NODES, links, HERONDITCH_BOARD_LINKS);
    refused |= r.number || r.first != 1; /* a yes, so that the whole check is gone through */
    return x;
}
static void *bar(void *x)
{
    /* the largest pattern's links and, on a board of another kind, no place */
    refused |= heronditch_bar(PATTERN, other, board_len, edition, 0, links, HERONDITCH_PATTERN_LINKS).number;
    return x;
}
/* opened by the first of these three, which go one after another */
static heronditch_session session;
static void *open_session(void *x)
{
    refused |= heronditch_open(&session, PATTERN, BOARD).number;
    return x;
}
static void *cut(void *x)
{
    refused |= heronditch_cut(&session, 0).number;
    return x;
}
static void *table_of(void *x)
{
    refused |= heronditch_table(&session, table, HERONDITCH_NODES).number;
    return x;
}
static void *merge(void *x)
{
    refused |= heronditch_merge(PATTERN, links, HERONDITCH_PARTS, bytes, sizeof bytes).number;
    return x;
}
static void *convert(void *x)
{
    refused |= heronditch_convert(HERONDITCH_BOARD, BOARD, HERONDITCH_SECOND, bytes, sizeof bytes).number;
    return x;
}
static void *test_board(void *x)
{
    refused |= heronditch_test_board(1, HERONDITCH_NODES, HERONDITCH_BOARD_LINKS, 65536, bytes, sizeof bytes).number;
    return x;
}
static void *neighbours(void *x)
{
    static const uint16_t offsets[] = {0, HERONDITCH_NODES};
    refused |= heronditch_neighbours(HERONDITCH_BACKWARD, offsets, 2, kinds, HERONDITCH_NODES, offsets, 2, starts, HERONDITCH_NODES, 0, ends,
                                     HERONDITCH_NODES).number;
    return x;
}
static void *compare(void *x)
{
    heronditch_comparison c = heronditch_compare(shelved, SHELVED, shelved + SHELVED, SHELVED);
    refused |= c.number || c.order != HERONDITCH_EQUAL;
    return x;
}
static void *shelf(void *x)
{
    heronditch_reply r = heronditch_shelf(shelved, sizeof shelved, lengths, HERONDITCH_SHELF, bytes, HERONDITCH_SHELF);
    refused |= r.number || r.first != HERONDITCH_SHELF;
    return x;
}

static size_t touched(void *(*call)(void *))
{
    unsigned char *stack;
    pthread_attr_t attr;
    pthread_t thread;
    if (posix_memalign((void **)&stack, 4096, STACK))
        exit(2);
    memset(stack, 0xA5, STACK);
    if (pthread_attr_init(&attr) || pthread_attr_setstack(&attr, stack, STACK) || pthread_create(&thread, &attr, call, NULL) || pthread_join(thread, NULL))
        exit(2);
    size_t low = 0;
    while (low < STACK && stack[low] == 0xA5)
        low++;
    free(stack);
    return STACK - low;
}

int main(void)
{
    static const struct {
        const char *name;
        void *(*call)(void *);
    } calls[] = {
        {"read", read_board}, {"write", write_board}, {"radius", radius}, {"ball", ball}, {"match", match},
        {"match one way", one_way}, {"match with bounds", match_bounded}, {"place", place}, {"place within", within},
        {"neighbours", neighbours}, {"check", check}, {"bar", bar}, {"open", open_session}, {"cut", cut},
        {"table", table_of}, {"merge", merge}, {"convert", convert}, {"report", report}, {"test board", test_board},
        {"compare", compare}, {"shelf", shelf}};
    size_t most = 0, idle = touched(nothing); /* what a thread needs by itself */
    for (uint32_t in = HERONDITCH_FIRST; in <= HERONDITCH_SECOND; in++) {
        make_files(in);
        for (size_t i = 0; i < sizeof calls / sizeof *calls; i++) {
            size_t used = touched(calls[i].call) - idle;
            printf("stack of %s, edition %u: %zu bytes\n", calls[i].name, (unsigned)in, used);
            if (used > most)
                most = used;
        }
    }
    printf("stack: %zu of %d bytes promised\n", most, HERONDITCH_STACK);
    return refused != 0 || most > HERONDITCH_STACK;
}
