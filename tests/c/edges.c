/* The edges of the interface, tried from C: no arrays, arrays of length 0, tables of exactly the needed length and of one entry less,
 * entries past those needed, and numbers that have no name. Prints 'edges: N checks' and exits 0, or says which check failed and exits 1. */
#include <stdio.h>
#include <string.h>

#include "heronditch.h"

/* T and B of the specification */
static const uint8_t T[] = {3, 0, 2, 0, 10, 0, 20, 0, 30, 0, 0, 0, 1, 0, 1, 0, 2, 0};
static const uint8_t B[] = {6, 0, 3, 0, 10, 0, 20, 0, 30, 0, 20, 0, 30, 0, 10, 0, 0, 0, 1, 0, 3, 0, 1, 0, 2, 0, 4, 0};

/* two parts of kinds 10 and 20, and no link */
static const uint8_t TWO_BITS[] = {2, 0, 0, 0, 10, 0, 20, 0};

/* a file and its edition, as the calls take them */
#define FIRST(file) file, sizeof file, HERONDITCH_FIRST
#define SECOND(file) file, sizeof file, HERONDITCH_SECOND
#define THIRD(file) file, sizeof file, HERONDITCH_THIRD
#define NOTHING(edition) NULL, 0, HERONDITCH_##edition

/* which file a refusal means, and roles */
enum { NEITHER = HERONDITCH_NEITHER, PATTERN = HERONDITCH_PATTERN, BOARD = HERONDITCH_BOARD };

static int checks, failed;

static void check(int ok, const char *what)
{
    checks++;
    if (!ok) {
        failed++;
        printf("failed: %s\n", what);
    }
}

static int is_reply(heronditch_reply r, uint32_t number, uint32_t file, size_t first, size_t second)
{
    return r.number == number && r.file == file && r.first == first && r.second == second;
}

static int is_counts(heronditch_counts c, uint32_t number, uint32_t file, uint32_t started, uint32_t kept, uint32_t struck,
                     uint32_t rounds)
{
    return c.number == number && c.file == file && c.started == started && c.kept == kept && c.struck == struck && c.rounds == rounds;
}

/* an accepted call and its values or counts; a refused one, all other slots 0 */
static int replies(heronditch_reply r, size_t first, size_t second) { return is_reply(r, 0, NEITHER, first, second); }
static int refuses(heronditch_reply r, uint32_t number, uint32_t file) { return is_reply(r, number, file, 0, 0); }
static int counts(heronditch_counts c, uint32_t started, uint32_t kept, uint32_t struck, uint32_t rounds)
{
    return is_counts(c, 0, NEITHER, started, kept, struck, rounds);
}
static int counts_refuse(heronditch_counts c, uint32_t number, uint32_t file) { return is_counts(c, number, file, 0, 0, 0, 0); }

static int is_piece(heronditch_piece r, uint32_t number, size_t next, size_t found, size_t size)
{
    return r.number == number && r.file == NEITHER && r.next == next && r.found == found && r.size == size;
}

/* every byte of a table still holds the filling */
static int untouched(const void *table, size_t from, size_t to)
{
    const unsigned char *b = table;
    for (size_t i = from; i < to; i++)
        if (b[i] != 0xA5)
            return 0;
    return 1;
}

static void no_arrays(void)
{
    check(refuses(heronditch_read(PATTERN, NOTHING(FIRST), NULL, 0, NULL, 0, NULL, 0, NULL, 0), 1, PATTERN), "read a pattern of nothing");
    check(refuses(heronditch_read(BOARD, NOTHING(FIRST), NULL, 0, NULL, 0, NULL, 0, NULL, 0), 1, BOARD), "read a board of nothing");
    check(refuses(heronditch_write(PATTERN, HERONDITCH_FIRST, NULL, 0, NULL, 0, NULL, 0, NULL, 0, NULL, 0), 2, PATTERN),
          "write a pattern of nothing");
    check(refuses(heronditch_write(BOARD, HERONDITCH_FIRST, NULL, 0, NULL, 0, NULL, 0, NULL, 0, NULL, 0), 8, NEITHER),
          "write a board of nothing");
    check(refuses(heronditch_radius(NOTHING(FIRST)), 1, PATTERN), "radius of nothing");
    check(refuses(heronditch_ball(NOTHING(FIRST), 0, 0, NULL, 0), 1, BOARD), "ball of nothing");
    check(counts_refuse(heronditch_match(NOTHING(FIRST), NOTHING(FIRST), NULL, 0), 1, PATTERN), "match of nothing");
    check(counts_refuse(heronditch_match(FIRST(TWO_BITS), NOTHING(FIRST), NULL, 0), 1, BOARD),
          "match of a pattern in two bits on nothing");
    check(counts_refuse(heronditch_match_one_way(NOTHING(FIRST), NOTHING(FIRST), NULL, 0), 1, PATTERN), "match_one_way of nothing");
    check(counts_refuse(heronditch_match_one_way(FIRST(TWO_BITS), NOTHING(FIRST), NULL, 0), 1, BOARD),
          "match_one_way of a pattern in two bits on nothing");
    check(counts_refuse(heronditch_match(FIRST(T), NOTHING(FIRST), NULL, 0), 1, BOARD), "match on nothing");
    check(counts_refuse(heronditch_place(NULL, 0, NULL, 0, 0, NULL, 0, NULL, 0, NULL, 0, NULL, 0), 1, PATTERN),
          "place of nothing");
    check(counts_refuse(heronditch_place(T, sizeof T, B, sizeof B, 0, NULL, 0, NULL, 0, NULL, 0, NULL, 0), 8, NEITHER),
          "place with nothing lent");
    check(counts_refuse(heronditch_place_within(T, sizeof T, NULL, 0, 0, 0, NULL, 0, NULL, 0, NULL, 0, NULL, 0), 1, BOARD),
          "place_within on nothing");
    check(refuses(heronditch_bar(NOTHING(FIRST), NOTHING(FIRST), 0, NULL, 0), 1, PATTERN), "bar of nothing");
    check(refuses(heronditch_bar(FIRST(T), NOTHING(FIRST), 0, NULL, 0), 1, BOARD), "bar on nothing");
    check(refuses(heronditch_bar(FIRST(T), FIRST(B), 3, NULL, 0), 8, NEITHER), "bar with nothing lent");
    check(refuses(heronditch_merge(NOTHING(FIRST), NULL, 0, NULL, 0), 1, PATTERN), "merge of nothing");
    static const uint8_t none[] = {0, 0, 0, 0};
    check(replies(heronditch_read(BOARD, none, 4, HERONDITCH_FIRST, NULL, 0, NULL, 0, NULL, 0, NULL, 0), 0, 0), "a board of no node");
    check(counts(heronditch_match(FIRST(T), none, 4, HERONDITCH_FIRST, NULL, 0), 0, 0, 0, 0), "match on no node");
    check(counts(heronditch_match_one_way(FIRST(T), none, 4, HERONDITCH_FIRST, NULL, 0), 0, 0, 0, 0), "match_one_way on no node");
    check(counts_refuse(heronditch_place(T, sizeof T, none, 4, 0, NULL, 0, NULL, 0, NULL, 0, NULL, 0), 7, NEITHER),
          "place on no node");
    check(refuses(heronditch_bar(FIRST(T), none, 4, HERONDITCH_FIRST, 0, NULL, 0), 7, NEITHER), "bar on no node");
}

/* the place call with tables of these lengths, at a centre; checks what is past the needed entries */
static void place_with(size_t nodes_len, size_t links_len, size_t table_len, size_t distances_len, size_t centre, uint32_t number,
                       const char *what)
{
    uint8_t nodes[8], links[8];
    uint32_t table[8];
    uint16_t distances[8];
    memset(distances, 0xA5, sizeof distances);
    memset(nodes, 0xA5, sizeof nodes);
    memset(links, 0xA5, sizeof links);
    memset(table, 0xA5, sizeof table);
    heronditch_counts c =
        heronditch_place(T, sizeof T, B, sizeof B, centre, nodes, nodes_len, links, links_len, table, table_len, distances, distances_len);
    check(c.number == number && c.file == NEITHER, what);
    size_t n = number == 0 ? 6 : 0, m = number == 0 ? 3 : 0;
    check(untouched(nodes, n, sizeof nodes) && untouched(links, m, sizeof links) && untouched(table, 4 * n, sizeof table), what);
    check(untouched(distances, 2 * n, sizeof distances), what);
    if (number == 0) {
        static const uint8_t in[] = {1, 1, 1, 0, 0, 0}, on[] = {1, 1, 0};
        static const uint32_t sets[] = {1, 2, 4, 0, 0, 0};
        check(!memcmp(nodes, in, 6) && !memcmp(links, on, 3) && !memcmp(table, sets, 24), what);
        for (size_t v = 0; v < 6; v++) /* nodes 0, 1, 2 are a path, and no path leads to the others */
            check(distances[v] == (v > 2 ? HERONDITCH_OUTSIDE : v > centre ? v - centre : centre - v), what);
    }
}

/* one way: the table of T on B, one entry short, as long as needed and longer; and T, which is connected, where its first part has no node */
static void one_way(void)
{
    uint32_t table[7];
    memset(table, 0xA5, sizeof table);
    check(counts_refuse(heronditch_match_one_way(FIRST(T), FIRST(B), table, 5), 8, NEITHER), "one way, one set less");
    check(untouched(table, 0, sizeof table), "nothing filled one way");
    for (size_t len = 6; len <= 7; len++) {
        static const uint32_t sets[] = {1, 2, 4, 2, 4, 0};
        memset(table, 0xA5, sizeof table);
        check(counts(heronditch_match_one_way(FIRST(T), FIRST(B), table, len), 6, 5, 1, 1), "T on B one way");
        check(!memcmp(table, sets, sizeof sets) && untouched(table, sizeof sets, sizeof table), "T's table on B one way");
    }
    static const uint8_t tail[] = {2, 0, 1, 0, 20, 0, 30, 0, 0, 0, 1, 0};
    check(counts(heronditch_match_one_way(FIRST(T), FIRST(tail), table, 2), 2, 0, 2, 0), "T's tail one way");
    check(table[0] == 0 && table[1] == 0 && table[2] == 4, "all 0 where T's first part has no node");
}

static void lengths(void)
{
    place_with(6, 3, 6, 6, 0, 0, "exactly the needed lengths");
    place_with(7, 4, 7, 7, 2, 0, "one entry more each");
    place_with(8, 8, 8, 8, 1, 0, "longer tables");
    place_with(5, 3, 6, 6, 0, 8, "one node byte less");
    place_with(6, 2, 6, 6, 0, 8, "one link byte less");
    place_with(6, 3, 5, 6, 0, 8, "one set less");
    place_with(6, 3, 6, 5, 0, 8, "one distance less");
    place_with(5, 2, 5, 6, 6, 7, "7 comes before 8");
    place_with(6, 3, 6, 6, 3, 9, "no place");
    place_with(6, 3, 6, 6, SIZE_MAX, 7, "the largest centre");
    uint32_t table[6];
    check(counts(heronditch_match(FIRST(T), FIRST(B), table, 6), 6, 3, 3, 2), "counts of T on B");
    check(counts_refuse(heronditch_match(FIRST(T), FIRST(B), table, 5), 8, NEITHER), "a short table");
    uint8_t nodes[6], links[3];
    uint16_t far[7] = {7, 7, 7, 7, 7, 7, 7};
    check(refuses(heronditch_ball(FIRST(B), 1, 1, far, 5), 8, NEITHER) && far[0] == 7, "one distance of a ball less");
    check(replies(heronditch_ball(FIRST(B), 0, 1, far, 7), 6, 0), "a ball");
    check(far[0] == 0 && far[1] == 1 && far[2] == HERONDITCH_OUTSIDE && far[5] == HERONDITCH_OUTSIDE && far[6] == 7, "distances in a ball");
    check(is_counts(heronditch_place(T, sizeof T, B, sizeof B, 3, nodes, 6, links, 3, table, 6, far, 6), 9, NEITHER, 2, 0, 2, 2),
          "9 carries the ball's counts");
    check(is_counts(heronditch_place_within(T, sizeof T, B, sizeof B, 0, 0, nodes, 6, links, 3, table, 6, far, 6), 9, NEITHER, 1, 0, 1, 1),
          "radius 0");
    check(counts(heronditch_place_within(T, sizeof T, B, sizeof B, 0, 65535, nodes, 6, links, 3, table, 6, far, 6), 3, 3, 0, 0),
          "the largest radius");
    uint8_t out[sizeof T + 1];
    memset(out, 0xA5, sizeof out);
    uint8_t classes[4] = {0xA5, 0xA5, 0xA5, 0xA5};
    check(refuses(heronditch_merge(FIRST(T), classes, 2, out, sizeof T), 8, NEITHER), "one class less");
    check(refuses(heronditch_merge(FIRST(T), classes, 3, out, sizeof T - 1), 8, NEITHER), "one byte less");
    check(untouched(out, 0, sizeof out) && untouched(classes, 0, 4), "merge refused changes nothing");
    check(replies(heronditch_merge(FIRST(T), classes, 4, out, sizeof out), 3, sizeof T), "T merged is T");
    check(!memcmp(out, T, sizeof T) && out[sizeof T] == 0xA5 && classes[3] == 0xA5, "later bytes stay");
}

/* T with packages 3, 0 and 4, and with none, in the second edition */
static const uint8_t T2[] = {3, 0, 2, 0, 10, 0, 20, 0, 30, 0, 3, 0, 0, 0, 4, 0, 0, 0, 1, 0, 1, 0, 2, 0};
static const uint8_t T0[] = {3, 0, 2, 0, 10, 0, 20, 0, 30, 0, 0, 0, 0, 0, 0, 0, 0, 0, 1, 0, 1, 0, 2, 0};

/* a conversion into as many bytes as are lent, of a buffer of 32: the reply, and what is past the new file */
static void convert_with(uint32_t role, const uint8_t *file, size_t size, uint32_t edition, uint32_t to, size_t lent, uint32_t number, uint32_t meant,
                         const uint8_t *want, size_t want_size, const char *what)
{
    uint8_t out[32];
    memset(out, 0xA5, sizeof out);
    check(is_reply(heronditch_convert(role, file, size, edition, to, out, lent), number, meant, number ? 0 : want_size, 0), what);
    size_t filled = number ? 0 : want_size;
    check(!memcmp(out, want, filled) && untouched(out, filled, sizeof out), what);
}

/* one file of the second edition, and nothing */
static void second_alone(void)
{
    check(refuses(heronditch_read(PATTERN, NOTHING(SECOND), NULL, 0, NULL, 0, NULL, 0, NULL, 0), 1, PATTERN),
          "read a second-edition pattern of nothing");
    check(refuses(heronditch_read(BOARD, NOTHING(SECOND), NULL, 0, NULL, 0, NULL, 0, NULL, 0), 1, BOARD),
          "read a second-edition board of nothing");
    check(refuses(heronditch_write(PATTERN, HERONDITCH_SECOND, NULL, 0, NULL, 0, NULL, 0, NULL, 0, NULL, 0), 2, PATTERN),
          "write a second-edition pattern of nothing");
    check(refuses(heronditch_write(BOARD, HERONDITCH_SECOND, NULL, 0, NULL, 0, NULL, 0, NULL, 0, NULL, 0), 8, NEITHER),
          "write a second-edition board of nothing");
    check(refuses(heronditch_radius(NOTHING(SECOND)), 1, PATTERN), "radius in the second edition of nothing");
    check(replies(heronditch_radius(SECOND(T2)), 2, 0), "radius in the second edition of T");
    check(refuses(heronditch_radius(SECOND(T)), 3, PATTERN), "a first-edition file read as the second");
    check(refuses(heronditch_radius(FIRST(T2)), 3, PATTERN), "a second-edition file read as the first");
    check(refuses(heronditch_merge(NOTHING(SECOND), NULL, 0, NULL, 0), 1, PATTERN), "merge in the second edition of nothing");
    check(refuses(heronditch_ball(NOTHING(SECOND), 0, 0, NULL, 0), 1, BOARD), "ball in the second edition of nothing");
    uint16_t far[4] = {7, 7, 7, 7};
    check(refuses(heronditch_ball(SECOND(T2), 0, 1, far, 2), 8, NEITHER) && far[0] == 7, "one distance of ball in the second edition less");
    check(refuses(heronditch_ball(SECOND(T2), 3, 1, far, 3), 7, NEITHER), "ball in the second edition around no node");
    check(replies(heronditch_ball(SECOND(T2), 0, 1, far, 4), 3, 0) && far[0] == 0 && far[1] == 1 &&
              far[2] == HERONDITCH_OUTSIDE && far[3] == 7,
          "ball in the second edition");
}

/* packages read, and written again */
static void packages_kept(void)
{
    uint16_t kinds[4], packages[4], starts[3], ends[3];
    for (size_t lent = 2; lent <= 4; lent++) {
        memset(kinds, 0xA5, sizeof kinds);
        memset(packages, 0xA5, sizeof packages);
        memset(starts, 0xA5, sizeof starts);
        memset(ends, 0xA5, sizeof ends);
        heronditch_reply r = heronditch_read(PATTERN, SECOND(T2), kinds, 4, packages, lent, starts, 2, ends, 2);
        if (lent < 3)
            check(refuses(r, 8, NEITHER) && untouched(kinds, 0, sizeof kinds) && untouched(packages, 0, sizeof packages) &&
                      untouched(starts, 0, sizeof starts) && untouched(ends, 0, sizeof ends),
                  "one package less");
        else
            check(replies(r, 3, 2) && packages[0] == 3 && packages[1] == 0 && packages[2] == 4 &&
                      untouched(packages, 6, sizeof packages) && untouched(kinds, 6, sizeof kinds),
                  "packages read");
    }
    uint8_t out[sizeof T2 + 1];
    memset(out, 0xA5, sizeof out);
    check(refuses(heronditch_write(PATTERN, HERONDITCH_SECOND, kinds, 3, packages, 2, starts, 2, ends, 2, out, sizeof out), 3, PATTERN),
          "one package less to write");
    check(refuses(heronditch_write(PATTERN, HERONDITCH_SECOND, kinds, 3, packages, 4, starts, 2, ends, 2, out, sizeof out), 3, PATTERN),
          "one package more to write");
    check(refuses(heronditch_write(PATTERN, HERONDITCH_SECOND, kinds, 3, packages, 3, starts, 2, ends, 2, out, sizeof T2 - 1), 8, NEITHER),
          "one byte less to write");
    check(untouched(out, 0, sizeof out), "nothing written");
    check(replies(heronditch_write(PATTERN, HERONDITCH_SECOND, kinds, 3, packages, 3, starts, 2, ends, 2, out, sizeof out), sizeof T2, 0) &&
              !memcmp(out, T2, sizeof T2) && out[sizeof T2] == 0xA5,
          "T written with packages");
    uint8_t classes[4] = {0xA5, 0xA5, 0xA5, 0xA5};
    memset(out, 0xA5, sizeof out);
    check(refuses(heronditch_merge(SECOND(T2), classes, 3, out, sizeof T2 - 1), 8, NEITHER),
          "merge in the second edition with one byte less");
    check(replies(heronditch_merge(SECOND(T2), classes, 4, out, sizeof out), 3, sizeof T2), "T with packages merged");
    check(!memcmp(out, T2, sizeof T2) && out[sizeof T2] == 0xA5 && classes[3] == 0xA5, "the merged file has the packages");
}

/* T with packages and without, matched and checked on each other */
static void second_pairs(void)
{
    uint32_t table[4];
    check(counts(heronditch_match(SECOND(T2), SECOND(T2), table, 3), 3, 3, 0, 0), "T with packages on itself");
    check(counts_refuse(heronditch_match(SECOND(T2), SECOND(T2), table, 2), 8, NEITHER), "match of editions 2 and 2 with a short table");
    check(counts(heronditch_match(FIRST(T), SECOND(T2), table, 3), 1, 0, 1, 1), "T without packages on T with some");
    check(counts(heronditch_match(SECOND(T2), FIRST(T), table, 3), 1, 0, 1, 1), "T with packages on T without");
    check(counts_refuse(heronditch_match(SECOND(T0), FIRST(B), table, 4), 8, NEITHER), "match of editions 2 and 1 with a short table");
    check(counts_refuse(heronditch_match(NOTHING(FIRST), NOTHING(SECOND), NULL, 0), 1, PATTERN), "match of editions 1 and 2 of nothing");
    check(counts(heronditch_match_one_way(SECOND(T2), SECOND(T2), table, 4), 3, 3, 0, 0), "T with packages on itself one way");
    check(counts_refuse(heronditch_match_one_way(SECOND(T2), SECOND(T2), table, 2), 8, NEITHER),
          "match_one_way of editions 2 and 2 with a short table");
    check(counts_refuse(heronditch_match_one_way(NOTHING(FIRST), NOTHING(SECOND), NULL, 0), 1, PATTERN),
          "match_one_way of editions 1 and 2 of nothing");
    check(counts_refuse(heronditch_match_one_way(SECOND(T0), FIRST(B), table, 4), 8, NEITHER),
          "match_one_way of editions 2 and 1 with a short table");
    uint32_t six[6];
    check(counts(heronditch_match_one_way(SECOND(T0), FIRST(B), six, 6), 6, 5, 1, 1), "T in the second edition on B one way");
    static const uint8_t all[] = {1, 1, 1, 1};
    check(replies(heronditch_check(SECOND(T2), SECOND(T2), 0, all, 3, all, 2), 1, 0), "T with packages is its own place");
    check(replies(heronditch_check(FIRST(T), SECOND(T2), 0, all, 3, all, 2), 0, 0), "and none of T without");
    check(replies(heronditch_check(SECOND(T2), FIRST(T), 0, all, 3, all, 2), 0, 0), "nor the other way round");
    check(replies(heronditch_check(FIRST(T), SECOND(T0), 0, all, 3, all, 2), 1, 0), "T without packages on T with package 0");
    check(replies(heronditch_check(SECOND(T0), FIRST(T), 0, all, 3, all, 2), 1, 0), "and the other way round");
    check(refuses(heronditch_check(SECOND(T2), SECOND(T2), 0, all, 4, all, 2), 3, NEITHER),
          "check of editions 2 and 2 with one node byte more");
    check(refuses(heronditch_check(SECOND(T2), SECOND(T2), 0, all, 3, all, 1), 3, NEITHER),
          "check of editions 2 and 2 with one link byte less");
    check(refuses(heronditch_check(SECOND(T2), SECOND(T), 0, all, 3, all, 2), 3, BOARD),
          "check of editions 2 and 2 on a first-edition board");
    check(refuses(heronditch_check(NOTHING(FIRST), NOTHING(SECOND), 0, NULL, 0, NULL, 0), 1, PATTERN),
          "check of editions 1 and 2 of nothing");
    check(refuses(heronditch_check(NOTHING(SECOND), NOTHING(FIRST), 0, NULL, 0, NULL, 0), 1, PATTERN),
          "check of editions 2 and 1 of nothing");
}

static void conversions(void)
{
    convert_with(PATTERN, FIRST(T), HERONDITCH_SECOND, sizeof T0, 0, NEITHER, T0, sizeof T0, "T to the second edition");
    convert_with(BOARD, FIRST(T), HERONDITCH_SECOND, 32, 0, NEITHER, T0, sizeof T0, "T to the second edition as a board");
    convert_with(PATTERN, FIRST(T), HERONDITCH_SECOND, sizeof T0 - 1, 8, NEITHER, T0, 0, "one byte less to convert");
    convert_with(PATTERN, SECOND(T0), HERONDITCH_FIRST, sizeof T, 0, NEITHER, T, sizeof T, "and back");
    convert_with(PATTERN, SECOND(T2), HERONDITCH_FIRST, 32, 12, PATTERN, T, 0, "a package that would be lost");
    convert_with(BOARD, SECOND(T2), HERONDITCH_FIRST, 0, 12, BOARD, T, 0, "12 comes before 8, and names the role's file");
    convert_with(BOARD, T2, sizeof T2 - 1, HERONDITCH_SECOND, HERONDITCH_FIRST, 32, 3, BOARD, T, 0, "3 comes before 12");
    convert_with(PATTERN, SECOND(T2), HERONDITCH_SECOND, sizeof T2, 0, NEITHER, T2, sizeof T2, "the same edition twice copies");
    convert_with(BOARD, FIRST(T), HERONDITCH_FIRST, 32, 0, NEITHER, T, sizeof T, "the first edition twice copies");
    check(refuses(heronditch_convert(PATTERN, NOTHING(FIRST), HERONDITCH_SECOND, NULL, 0), 1, PATTERN), "convert nothing");
}

/* the bytes of the kept links of T on a board around a centre, with so many bytes lent; those past the needed ones stay */
static void bar_with(const uint8_t *board, size_t board_len, size_t centre, size_t lent, uint32_t number, size_t kept, const char *bytes, const char *what)
{
    uint8_t out[4];
    memset(out, 0xA5, sizeof out);
    check(is_reply(heronditch_bar(FIRST(T), board, board_len, HERONDITCH_FIRST, centre, out, lent), number, NEITHER, kept, 0), what);
    size_t size = number == 0 ? 2 : 0;
    check(untouched(out, size, sizeof out) && !memcmp(out, bytes, size), what);
}

static void barred(void)
{
    static const uint8_t one_link[] = {2, 0, 1, 0, 10, 0, 20, 0, 0, 0, 1, 0}, stranger[] = {1, 0, 0, 0, 40, 0};
    bar_with(B, sizeof B, 3, 2, 0, 1, "\1\0", "T on B around 3, exactly the needed length");
    bar_with(B, sizeof B, 3, 3, 0, 1, "\1\0", "T on B around 3, one byte more");
    bar_with(B, sizeof B, 3, 1, 8, 0, "", "T on B around 3, one byte less");
    bar_with(B, sizeof B, 0, 2, 15, 0, "", "a centre that has a place");
    bar_with(B, sizeof B, 0, 1, 8, 0, "", "8 comes before 15");
    bar_with(B, sizeof B, 6, 1, 7, 0, "", "7 comes before 8");
    bar_with(B, sizeof B, SIZE_MAX, 2, 7, 0, "", "the largest centre, of bar");
    bar_with(one_link, sizeof one_link, 0, 2, 0, 2, "\1\1", "every link is needed");
    bar_with(stranger, sizeof stranger, 0, 2, 0, 0, "\0\0", "a centre of a kind that no part has");
    uint8_t out[3] = {0xA5, 0xA5, 0xA5};
    check(replies(heronditch_bar(FIRST(T), SECOND(T2), 1, out, 2), 1, 0) && out[0] == 0 && out[1] == 1 && out[2] == 0xA5,
          "T without packages on T with some, around the one node that has none: either link bars, and the first is dropped");
    check(replies(heronditch_bar(SECOND(T2), FIRST(T), 0, out, 2), 0, 0) && out[0] == 0 && out[1] == 0,
          "a centre of a package that no part of its kind has");
    check(refuses(heronditch_bar(SECOND(T2), SECOND(T2), 0, out, 2), 15, NEITHER), "T with packages has a place on itself");
    check(refuses(heronditch_bar(SECOND(T2), SECOND(T2), 0, out, 1), 8, NEITHER), "bar of editions 2 and 2 with one byte less");
    check(refuses(heronditch_bar(SECOND(T), SECOND(T2), 0, out, 2), 3, PATTERN),
          "a first-edition pattern read as the second by bar of editions 2 and 2");
    check(refuses(heronditch_bar(NOTHING(FIRST), NOTHING(SECOND), 0, NULL, 0), 1, PATTERN), "bar of editions 1 and 2 of nothing");
    check(refuses(heronditch_bar(SECOND(T2), NOTHING(FIRST), 0, NULL, 0), 1, BOARD), "bar of editions 2 and 1 on nothing");
    static const uint8_t part[] = {1, 0, 0, 0, 10, 0};
    check(replies(heronditch_bar(FIRST(part), FIRST(stranger), 0, NULL, 0), 0, 0), "a pattern without links");
}

static int is_comparison(heronditch_comparison c, uint32_t number, uint32_t file, uint32_t which, uint32_t order)
{
    return c.number == number && c.file == file && c.which == which && c.order == order;
}

/* second-edition patterns: one part of kind 10 and package 0, 1, 256 */
static const uint8_t ONE[] = {1, 0, 0, 0, 10, 0, 0, 0};
static const uint8_t ONE_1[] = {1, 0, 0, 0, 10, 0, 1, 0};
static const uint8_t ONE_256[] = {1, 0, 0, 0, 10, 0, 0, 1};

static void comparisons(void)
{
    check(is_comparison(heronditch_compare(ONE, 8, ONE, 8), 0, NEITHER, 0, HERONDITCH_EQUAL), "a file and itself");
    check(is_comparison(heronditch_compare(ONE_1, 8, ONE_256, 8), 0, NEITHER, 0, HERONDITCH_LESS), "by size of number, not by low byte");
    check(is_comparison(heronditch_compare(ONE_256, 8, ONE_1, 8), 0, NEITHER, 0, HERONDITCH_GREATER), "the other way round");
    check(is_comparison(heronditch_compare(ONE_256, 8, T0, sizeof T0), 0, NEITHER, 0, HERONDITCH_LESS), "by N first");
    check(is_comparison(heronditch_compare(T0, sizeof T0, T2, sizeof T2), 0, NEITHER, 0, HERONDITCH_LESS), "by packages");
    check(is_comparison(heronditch_compare(NULL, 0, ONE, 8), 1, PATTERN, 1, 0), "the first is nothing");
    check(is_comparison(heronditch_compare(ONE, 8, NULL, 0), 1, PATTERN, 2, 0), "the second is nothing");
    check(is_comparison(heronditch_compare(ONE, 7, NULL, 0), 3, PATTERN, 1, 0), "the first one's refusal comes first");
    check(is_comparison(heronditch_compare(ONE, 8, T, sizeof T), 3, PATTERN, 2, 0), "a first-edition file");
}

static void shelves(void)
{
    uint8_t bytes[17 * 8];
    uint32_t lengths[17];
    uint8_t order[17];
    for (size_t i = 0; i < 17; i++) {
        memcpy(bytes + 8 * i, i % 2 ? ONE : ONE_1, 8);
        lengths[i] = 8;
    }
    check(replies(heronditch_shelf(NULL, 0, NULL, 0, NULL, 0), 0, 0), "an empty shelf");
    for (size_t lent = 15; lent < 18; lent++) {
        memset(order, 0xA5, sizeof order);
        heronditch_reply r = heronditch_shelf(bytes, sizeof bytes, lengths, 17, order, lent);
        if (lent < 16) {
            check(refuses(r, 8, NEITHER) && untouched(order, 0, sizeof order), "one number less");
            continue;
        }
        int in_order = replies(r, 16, 0) && order[16] == 0xA5;
        for (size_t i = 0; i < 16; i++)
            in_order = in_order && order[i] == (i < 8 ? 2 * i + 1 : 2 * (i - 8));
        check(in_order, "sixteen of seventeen, equal ones by number");
    }
    lengths[0] = 0;
    lengths[1] = 7;
    lengths[2] = UINT32_MAX;
    memset(order, 0xA5, sizeof order);
    check(replies(heronditch_shelf(bytes, sizeof bytes, lengths, 17, NULL, 0), 0, 0), "lengths past the end: all refused");
    lengths[1] = 8;
    lengths[2] = 9;
    check(replies(heronditch_shelf(bytes, 17, lengths, 4, order, 1), 1, 0) && order[0] == 1, "one accepted between refused ones");
}

/* a small generator, the same on every machine */
static uint32_t state = 1;
static size_t draw(size_t below)
{
    state = state * 1664525u + 1013904223u;
    return (state >> 16) % below;
}

/* the stretch of one direction, by the specification's words */
static size_t stretch(const uint16_t *offsets, size_t n, const uint16_t *table, size_t size, size_t node, const uint16_t **at)
{
    *at = table;
    if (n == 0 || node >= n - 1 || offsets[node + 1] < offsets[node] || offsets[node + 1] > size)
        return 0;
    *at = table + offsets[node];
    return (size_t)(offsets[node + 1] - offsets[node]);
}

/* offsets and tables at random, sound or not, and an output that fits, or is one short */
static void lookups(void)
{
    int same = 1;
    for (int i = 0; i < 20000; i++) {
        uint16_t offsets[2][6], table[2][8], out[9], want[9];
        size_t n[2], m[2];
        for (size_t d = 0; d < 2; d++) {
            n[d] = draw(7), m[d] = draw(9);
            for (size_t k = 0; k < n[d]; k++)
                offsets[d][k] = (uint16_t)draw(10);
            for (size_t k = 0; k < m[d]; k++)
                table[d][k] = (uint16_t)draw(100);
        }
        size_t node = draw(7), d = draw(2);
        const uint16_t *at;
        size_t length = stretch(offsets[d], n[d], table[d], m[d], node, &at);
        size_t lent = length > 0 && draw(2) ? length - 1 : length;
        memset(out, 0xA5, sizeof out);
        memset(want, 0xA5, sizeof want);
        if (lent >= length)
            memcpy(want, at, 2 * length);
        uint32_t direction = d ? HERONDITCH_BACKWARD : HERONDITCH_FORWARD;
        heronditch_reply r = heronditch_neighbours(direction, offsets[0], n[0], table[0], m[0], offsets[1], n[1], table[1], m[1], node, out, lent);
        same = same && is_reply(r, lent < length ? 8 : 0, NEITHER, lent < length ? 0 : length, 0) && !memcmp(out, want, sizeof out);
    }
    check(same, "20,000 neighbour lookups");
    check(replies(heronditch_neighbours(HERONDITCH_FORWARD, NULL, 0, NULL, 0, NULL, 0, NULL, 0, SIZE_MAX, NULL, 0), 0, 0),
          "a lookup of nothing");
}

/* the report of T on B, as the specification has it */
static const char lines[] = "place 0: 0 1 2 / 0-1 1-2\nplace 1: 0 1 2 / 0-1 1-2\nplace 2: 0 1 2 / 0-1 1-2\nend 3 of 6\n";

/* room for a line and a little more */
static uint8_t room[HERONDITCH_LINE_BYTES + 64];

static heronditch_piece piece(const uint8_t *board, size_t board_len, size_t from, uint16_t found, size_t lent)
{
    memset(room, 0xA5, sizeof room);
    return heronditch_report(T, sizeof T, board, board_len, from, found, room, lent);
}

static void reports(void)
{
    size_t whole = sizeof lines - 1;
    check(is_piece(piece(B, sizeof B, 0, 0, HERONDITCH_LINE_BYTES - 1), 8, 0, 0, 0) && untouched(room, 0, sizeof room),
          "a report with one byte less");
    check(is_piece(piece(B, sizeof B, 0, 0, HERONDITCH_LINE_BYTES), 0, 1, 1, 25) && !memcmp(room, lines, 25) && untouched(room, 25, sizeof room),
          "a report with exactly the needed length");
    check(is_piece(piece(B, sizeof B, 0, 0, HERONDITCH_LINE_BYTES + 24), 0, 1, 1, 25), "24 bytes more: one line still");
    check(is_piece(piece(B, sizeof B, 0, 0, HERONDITCH_LINE_BYTES + 25), 0, 2, 2, 50) && untouched(room, 50, sizeof room),
          "25 bytes more: two lines");
    check(is_piece(piece(B, sizeof B, 7, 3, sizeof room), 0, 7, 3, 0) && untouched(room, 0, sizeof room), "past the end");
    check(is_piece(piece(B, sizeof B, SIZE_MAX, 65535, sizeof room), 0, SIZE_MAX, 65535, 0) && untouched(room, 0, sizeof room),
          "from the largest number");
    check(is_piece(piece(NULL, 0, 0, 0, 19), 8, 0, 0, 0) && untouched(room, 0, sizeof room), "one byte less for a refused file");
    check(is_piece(piece(NULL, 0, 0, 0, 20), 0, 1, 0, 16) && !memcmp(room, "refused 1 board\n", 16) && untouched(room, 16, sizeof room),
          "the line of a refused file");
    check(is_piece(piece(NULL, 0, 1, 0, 20), 0, 1, 0, 0) && untouched(room, 0, sizeof room), "nothing after it");
    check(is_piece(heronditch_report(NULL, 0, NULL, 0, 0, 0, NULL, 0), 8, 0, 0, 0), "a report of nothing into nothing");
    check(is_piece(heronditch_report(T, sizeof T, B, sizeof B, 0, 0, NULL, 0), 8, 0, 0, 0), "a report into nothing");
    static const char packed[] = "place 0: 0 1 2 / 0-1 1-2\nplace 1: 0 1 2 / 0-1 1-2\nplace 2: 0 1 2 / 0-1 1-2\nend 3 of 3\n";
    static uint8_t more[2 * HERONDITCH_LINE_BYTES];
    check(is_piece(heronditch_report_editions(SECOND(T2), SECOND(T2), 0, 0, more, sizeof more), 0, 4, 3, sizeof packed - 1) && !memcmp(more, packed, sizeof packed - 1),
          "the report of T with packages on itself");
    check(is_piece(heronditch_report_editions(FIRST(T), SECOND(T2), 0, 0, more, sizeof more), 0, 4, 0, 11) && !memcmp(more, "end 0 of 3\n", 11),
          "the report of T without packages on T with some");
    check(is_piece(heronditch_report_editions(FIRST(T2), SECOND(T2), 0, 0, more, 20), 0, 1, 0, 18) && !memcmp(more, "refused 3 pattern\n", 18),
          "a second-edition pattern reported as of the first");
    /* piece after piece, with buffers of different lengths */
    char text[sizeof lines];
    size_t from = 0, size = 0, calls = 0;
    uint16_t found = 0;
    for (heronditch_piece r; (r = piece(B, sizeof B, from, found, HERONDITCH_LINE_BYTES + 30 * (calls % 2))).number == 0 && r.size > 0; calls++) {
        if (size + r.size > whole)
            break;
        memcpy(text + size, room, r.size);
        size += r.size, from = r.next, found = (uint16_t)r.found;
    }
    check(size == whole && !memcmp(text, lines, whole) && from == 7 && found == 3, "the pieces are the report");
}

/* the test board of seed 7 with 3 nodes, 4 pairs and kinds below 10, and that of one node whose one link is drawn five times */
static const uint8_t board_of_7[] = {3, 0, 4, 0, 8, 0, 6, 0, 0, 0, 0, 0, 0, 0, 1, 0, 2, 0, 1, 0, 2, 0, 0, 0, 2, 0};
static const uint8_t board_of_one[] = {1, 0, 1, 0, 0, 0, 0, 0, 0, 0};
static uint8_t made[HERONDITCH_BOARD_BYTES + 1];

static int is_test_board(uint32_t seed, uint32_t n, uint32_t m, uint32_t k, size_t lent, uint32_t number, size_t size)
{
    memset(made, 0xA5, sizeof made);
    return is_reply(heronditch_test_board(seed, n, m, k, made, lent), number, NEITHER, size, 0) && untouched(made, size, sizeof made);
}

static void test_boards(void)
{
    size_t size = sizeof board_of_7, most = HERONDITCH_BOARD_BYTES;
    check(is_test_board(7, 3, 4, 10, size, 0, size) && !memcmp(made, board_of_7, size), "a test board into exactly the needed length");
    check(is_test_board(7, 3, 4, 10, size + 1, 0, size) && !memcmp(made, board_of_7, size), "a test board with one byte more");
    check(is_test_board(7, 3, 4, 10, size - 1, 8, 0), "a test board with one byte less");
    check(is_test_board(3, 1, 5, 1, 26, 0, 10) && !memcmp(made, board_of_one, 10), "a pair drawn five times");
    check(is_test_board(3, 1, 5, 1, 25, 8, 0), "a pair drawn five times, one byte less than for five links");
    check(is_test_board(0, 1, 0, 1, 6, 0, 6) && is_test_board(UINT32_MAX, 1, 0, 1, 6, 0, 6), "the first and the last seed");
    check(is_test_board(1, 512, 0, 65536, most, 0, 4 + 2 * 512), "the most nodes and kinds");
    check(is_test_board(1, 0, 0, 1, most, 10, 0) && is_test_board(1, 513, 0, 1, most, 10, 0), "no nodes, and one too many");
    check(is_test_board(1, 1, 4097, 1, most, 10, 0), "one pair too many");
    check(is_test_board(1, 1, 0, 0, most, 10, 0) && is_test_board(1, 1, 0, 65537, most, 10, 0), "no kinds, and one too many");
    check(is_test_board(1, UINT32_MAX, UINT32_MAX, UINT32_MAX, most, 10, 0), "the largest numbers");
    check(refuses(heronditch_test_board(1, 1, 0, 1, NULL, 0), 8, NEITHER), "a test board into nothing");
    check(refuses(heronditch_test_board(1, 0, 0, 1, NULL, 0), 10, NEITHER), "10 is ahead of 8");
    heronditch_reply r = heronditch_test_board(9, 512, 4096, 65536, made, most);
    uint16_t kinds[HERONDITCH_NODES], starts[HERONDITCH_BOARD_LINKS], ends[HERONDITCH_BOARD_LINKS];
    heronditch_reply back = heronditch_read(BOARD, made, r.first, HERONDITCH_FIRST, kinds, HERONDITCH_NODES, NULL, 0, starts, HERONDITCH_BOARD_LINKS, ends, HERONDITCH_BOARD_LINKS);
    check(r.number == 0 && back.number == 0 && back.first == 512 && 4 + 2 * 512 + 4 * back.second == r.first,
          "the largest test board is read");
}

/* what the check replies to T on B with these bytes at a centre; longer arrays are read no further than told */
static int is_check(const uint8_t *nodes, size_t nodes_len, const uint8_t *links, size_t links_len, size_t centre, uint32_t number, size_t yes)
{
    return is_reply(heronditch_check(FIRST(T), FIRST(B), centre, nodes, nodes_len, links, links_len), number, NEITHER, yes, 0);
}

static void proposals(void)
{
    static const uint8_t in[] = {1, 1, 1, 0, 0, 0, 0}, on[] = {1, 1, 0, 0}, two[] = {2, 1, 1, 0, 0, 0}, all[] = {1, 1, 1, 1, 1, 1};
    static const uint8_t less[] = {1, 0, 0}, more[] = {1, 1, 1}, none[] = {0, 0, 0, 0, 0, 0}, empty[] = {0, 0, 0, 0};
    check(is_check(in, 6, on, 3, 0, 0, 1) && is_check(in, 6, on, 3, 2, 0, 1), "the place around 0 and around 2");
    check(is_check(in, 6, on, 3, 3, 0, 0), "the place around 0 is none around 3");
    check(is_check(in, 6, less, 3, 0, 0, 0), "a link left out");
    check(is_check(in, 6, more, 3, 0, 0, 0), "a link whose ends are not marked");
    check(is_check(all, 6, more, 3, 0, 0, 0), "the whole board");
    check(is_check(two, 6, on, 3, 0, 0, 0), "a byte 2");
    check(is_check(none, 6, none, 3, 0, 0, 0), "nothing marked");
    check(is_check(in, 5, on, 3, 0, 3, 0) && is_check(in, 7, on, 3, 0, 3, 0), "one node byte less, and one more");
    check(is_check(in, 6, on, 2, 0, 3, 0) && is_check(in, 6, on, 4, 0, 3, 0), "one link byte less, and one more");
    check(is_check(in, 5, on, 2, 6, 7, 0) && is_check(in, 5, on, 2, SIZE_MAX, 7, 0), "7 comes before 3");
    check(is_check(NULL, 0, NULL, 0, 0, 3, 0), "no bytes");
    check(refuses(heronditch_check(NOTHING(FIRST), NOTHING(FIRST), 0, NULL, 0, NULL, 0), 1, PATTERN), "a check of nothing");
    check(refuses(heronditch_check(FIRST(T), NOTHING(FIRST), 0, in, 6, on, 3), 1, BOARD), "a check on nothing");
    check(refuses(heronditch_check(FIRST(T), empty, 4, HERONDITCH_FIRST, 0, NULL, 0, NULL, 0), 7, NEITHER), "a check on no node");
    static const uint8_t part[] = {1, 0, 0, 0, 10, 0};
    check(replies(heronditch_check(part, 6, HERONDITCH_FIRST, part, 6, HERONDITCH_FIRST, 0, more, 1, NULL, 0), 1, 0),
          "one part on itself, without links");
}

/* The file of a path of so many parts, whose radius is one less; returns its length. */
static size_t path_of(size_t parts, uint8_t *file)
{
    uint16_t fields[2 + 3 * HERONDITCH_PARTS];
    size_t k = 0;
    fields[k++] = (uint16_t)parts;
    fields[k++] = (uint16_t)(parts - 1);
    for (size_t v = 0; v < parts; v++)
        fields[k++] = 10;
    for (size_t v = 0; v + 1 < parts; v++)
        fields[k++] = (uint16_t)v;
    for (size_t v = 0; v + 1 < parts; v++)
        fields[k++] = (uint16_t)(v + 1);
    for (size_t i = 0; i < k; i++) {
        file[2 * i] = (uint8_t)(fields[i] & 255);
        file[2 * i + 1] = (uint8_t)(fields[i] >> 8);
    }
    return 2 * k;
}

static void widths(void)
{
    uint8_t twelve[256], thirteen[256], nodes[16], links[16];
    uint16_t far[16];
    uint32_t table[16];
    size_t len = path_of(13, twelve), wide = path_of(14, thirteen);
    check(replies(heronditch_radius(twelve, len, HERONDITCH_FIRST), HERONDITCH_RADIUS, 0), "radius 12");
    check(refuses(heronditch_radius(thirteen, wide, HERONDITCH_FIRST), 11, PATTERN), "radius 13");
    check(refuses(heronditch_read(PATTERN, thirteen, wide, HERONDITCH_FIRST, NULL, 0, NULL, 0, NULL, 0, NULL, 0), 11, PATTERN),
          "11 comes before 8 in reading");
    uint16_t kinds[14] = {0}, starts[13], ends[13];
    for (uint16_t v = 0; v < 13; v++)
        starts[v] = v, ends[v] = (uint16_t)(v + 1);
    check(refuses(heronditch_write(PATTERN, HERONDITCH_FIRST, kinds, 14, NULL, 0, starts, 13, ends, 13, NULL, 0), 11, PATTERN),
          "11 comes before 8 in writing");
    check(refuses(heronditch_write(PATTERN, HERONDITCH_FIRST, kinds, 13, NULL, 0, starts, 12, ends, 12, NULL, 0), 8, NEITHER),
          "radius 12 in writing");
    check(refuses(heronditch_write(BOARD, HERONDITCH_FIRST, kinds, 14, NULL, 0, starts, 13, ends, 13, NULL, 0), 8, NEITHER),
          "a board has no limit");
    check(refuses(heronditch_merge(thirteen, wide, HERONDITCH_FIRST, NULL, 0, NULL, 0), 11, PATTERN), "11 comes before 8 in merging");
    check(counts_refuse(heronditch_place(thirteen, wide, NULL, 0, 0, NULL, 0, NULL, 0, NULL, 0, NULL, 0), 11, PATTERN),
          "11 comes before the board's 1");
    check(counts_refuse(heronditch_place_within(thirteen, wide, thirteen, wide, 0, 2, nodes, 16, links, 16, table, 16, far, 16), 11, PATTERN),
          "11 whatever radius is given");
    check(counts(heronditch_place_within(twelve, len, thirteen, wide, 0, 13, nodes, 16, links, 16, table, 16, far, 16), 182, 26, 156, 12),
          "a radius of 13 given");
    memset(room, 0xA5, sizeof room);
    check(is_piece(heronditch_report(thirteen, wide, NULL, 0, 0, 0, room, 20), 0, 1, 0, 19) && !memcmp(room, "refused 11 pattern\n", 19) && untouched(room, 19, sizeof room),
          "the line of a pattern that is too wide");
}

/* a pattern of the third edition: kinds 10 and 20, packages 0, a link from the first to the second, and its bound, which is the last field */
static uint8_t P3[] = {2, 0, 1, 0, 10, 0, 20, 0, 0, 0, 0, 0, 0, 0, 1, 0, 2, 0};
#define BOUND_AT (sizeof P3 - 2)

static heronditch_counts bounded(uint8_t bound, const uint8_t *board, size_t board_len, uint32_t *table, size_t table_len)
{
    P3[BOUND_AT] = bound;
    return heronditch_match(THIRD(P3), board, board_len, HERONDITCH_FIRST, table, table_len);
}

static void bounds(void)
{
    /* 10, 99, 20, one driving the next; the same the other way round; the first again with the second edition's packages */
    static const uint8_t chain[] = {3, 0, 2, 0, 10, 0, 99, 0, 20, 0, 0, 0, 1, 0, 1, 0, 2, 0};
    static const uint8_t back[] = {3, 0, 2, 0, 10, 0, 99, 0, 20, 0, 1, 0, 2, 0, 0, 0, 1, 0};
    static const uint8_t chain2[] = {3, 0, 2, 0, 10, 0, 99, 0, 20, 0, 0, 0, 7, 0, 0, 0, 0, 0, 1, 0, 1, 0, 2, 0};
    uint32_t table[4];
    memset(table, 0xA5, sizeof table);
    check(counts_refuse(bounded(2, chain, sizeof chain, table, 2), 8, NEITHER) && untouched(table, 0, sizeof table),
          "match of editions 3 and 1 with a short table");
    check(counts(bounded(2, chain, sizeof chain, table, 3), 2, 2, 0, 0), "a link through one part");
    check(table[0] == 1 && table[1] == 0 && table[2] == 2 && untouched(table, 12, sizeof table), "its table, and no entry past it");
    check(counts(bounded(2, chain, sizeof chain, table, 4), 2, 2, 0, 0) && untouched(table, 12, sizeof table), "one entry more");
    check(counts(bounded(4, chain, sizeof chain, table, 3), 2, 2, 0, 0), "bound 4");
    check(counts(bounded(1, chain, sizeof chain, table, 3), 2, 0, 2, 1) && !table[0] && !table[2], "bound 1: no path");
    check(counts(bounded(4, back, sizeof back, table, 3), 2, 0, 2, 1), "a path follows its links' directions");
    P3[BOUND_AT] = 2;
    check(counts(heronditch_match(THIRD(P3), SECOND(chain2), table, 3), 2, 2, 0, 0) && table[0] == 1 && table[2] == 2,
          "a link through a part of another package");
    check(counts_refuse(heronditch_match(THIRD(P3), SECOND(chain2), table, 2), 8, NEITHER), "match of editions 3 and 2 with a short table");
    check(counts_refuse(heronditch_match(THIRD(P3), SECOND(chain), table, 3), 3, BOARD),
          "match of editions 3 and 2 on a first-edition board");
    check(counts_refuse(heronditch_match(THIRD(P3), FIRST(chain2), table, 3), 3, BOARD),
          "match of editions 3 and 1 on a second-edition board");
    check(counts_refuse(bounded(0, chain, sizeof chain, table, 3), 13, PATTERN), "bound 0");
    check(counts_refuse(bounded(5, chain, sizeof chain, table, 3), 13, PATTERN), "bound 5");
    check(counts_refuse(bounded(5, NULL, 0, NULL, 0), 13, PATTERN), "13 comes before the board's 1");
    check(counts_refuse(bounded(2, NULL, 0, NULL, 0), 1, BOARD), "match of editions 3 and 1 on nothing");
    check(counts_refuse(heronditch_match(NOTHING(THIRD), NOTHING(FIRST), NULL, 0), 1, PATTERN), "match of editions 3 and 1 of nothing");
    check(counts_refuse(heronditch_match(NOTHING(THIRD), NOTHING(SECOND), NULL, 0), 1, PATTERN), "match of editions 3 and 2 of nothing");
    check(counts_refuse(heronditch_match(P3, BOUND_AT, HERONDITCH_THIRD, FIRST(chain), table, 3), 3, PATTERN),
          "the second edition's length");
    static const uint8_t falling[] = {1, 0, 2, 0, 10, 0, 0, 0, 0, 0, 0, 0, 0, 0, 0, 0, 5, 0, 5, 0};
    check(counts_refuse(heronditch_match(THIRD(falling), FIRST(chain), table, 3), 5, PATTERN), "5 comes before 13");
    static const uint8_t apart[] = {2, 0, 0, 0, 10, 0, 20, 0, 0, 0, 0, 0};
    check(counts(heronditch_match(THIRD(apart), FIRST(chain), table, 3), 2, 2, 0, 0), "no link, and so no bound: 6 is not given");
    /* a part that has itself within two links, on a node that has itself by way of another */
    static const uint8_t itself[] = {1, 0, 1, 0, 10, 0, 0, 0, 0, 0, 0, 0, 2, 0};
    static const uint8_t ring[] = {2, 0, 2, 0, 10, 0, 99, 0, 0, 0, 1, 0, 1, 0, 0, 0};
    check(counts(heronditch_match(THIRD(itself), FIRST(ring), table, 2), 1, 1, 0, 0) && table[0] == 1,
          "a path that ends where it began");
}

/* a session on T and B, and on a struct of any content */
static void sessions(void)
{
    static heronditch_session s, before;
    uint32_t table[8];
    memset(&s, 0xA5, sizeof s);
    check(sizeof s == HERONDITCH_SESSION_BYTES, "the size of a session");
    check(refuses(heronditch_open(&s, NOTHING(FIRST), NOTHING(FIRST)), 1, PATTERN) && untouched(&s, 0, sizeof s), "open of nothing");
    check(refuses(heronditch_open(&s, FIRST(T), T, 17, HERONDITCH_FIRST), 3, BOARD) && untouched(&s, 0, sizeof s),
          "open on a damaged board");
    check(replies(heronditch_open(&s, FIRST(T), FIRST(B)), 0, 0), "open");
    check(refuses(heronditch_table(&s, table, 5), 8, NEITHER), "a session's table in 5 entries");
    memset(table, 0xA5, sizeof table);
    check(replies(heronditch_table(&s, table, 8), 6, 0) && table[0] == 1 && table[1] == 2 && table[2] == 4 && !table[3] && !table[4] &&
              !table[5] && untouched(table, 24, 32),
          "the table of a fresh session");
    before = s;
    check(refuses(heronditch_cut(&s, 3), 14, NEITHER) && !memcmp(&s, &before, sizeof s), "a cut of the place M");
    check(refuses(heronditch_cut(&s, (size_t)-1), 14, NEITHER) && !memcmp(&s, &before, sizeof s), "a cut of the last place of all");
    check(replies(heronditch_cut(&s, 2), 0, 0), "a cut that strikes nothing");
    check(heronditch_table(&s, table, 6).first == 6 && table[0] == 1 && table[1] == 2 && table[2] == 4, "the table after it");
    before = s;
    check(refuses(heronditch_cut(&s, 2), 14, NEITHER) && !memcmp(&s, &before, sizeof s), "the same cut again");
    check(replies(heronditch_cut(&s, 0), 0, 0), "a cut that strikes");
    check(heronditch_table(&s, table, 6).first == 6 && !table[0] && !table[1] && !table[2], "all 0 after it");
    check(replies(heronditch_open(&s, FIRST(TWO_BITS), FIRST(B)), 0, 0), "open with a pattern in two bits");
    static const uint8_t none[] = {0, 0, 0, 0};
    check(replies(heronditch_open(&s, FIRST(T), none, 4, HERONDITCH_FIRST), 0, 0), "open on no node");
    check(refuses(heronditch_cut(&s, 0), 14, NEITHER) && replies(heronditch_table(&s, NULL, 0), 0, 0), "a session on no node");
    /* contents that no opening leaves: each call ends; valgrind sees what it reads and writes */
    uint32_t random = 1;
    for (int round = 0; round < 200; round++) {
        uint8_t *bytes = (uint8_t *)&s;
        if (round % 3 == 0)
            heronditch_open(&s, FIRST(T), FIRST(B));
        for (size_t i = 0; i < sizeof s; i++) {
            random = random * 1664525u + 1013904223u;
            if (round % 3 || random >> 24 == 0)
                bytes[i] = (uint8_t)(random >> 16);
        }
        if (round % 2)
            s.fixed[65] = 512;
        for (size_t place = 0; place < 4096; place += 97)
            heronditch_cut(&s, place);
        uint32_t all[512];
        check(heronditch_table(&s, all, 512).number == 0, "a session of any content");
    }
}

/* every number of a refusal has a sentence of its own, and all others share one; none ends with a full stop */
static void messages(void)
{
    const char *other = heronditch_message(HERONDITCH_HAS_PLACE + 1);
    check(heronditch_version() == HERONDITCH_VERSION, "the version of the library");
    for (uint32_t number = 0; number <= HERONDITCH_HAS_PLACE; number++) {
        const char *told = heronditch_message(number);
        check(strlen(told) > 10 && told[strlen(told) - 1] != '.' && !strchr(told, '\n') && strcmp(told, other), "a sentence");
        for (uint32_t less = 0; less < number; less++)
            check(strcmp(told, heronditch_message(less)) != 0, "a sentence of its own");
    }
    check(strlen(other) > 10 && !strcmp(other, heronditch_message(UINT32_MAX)), "the sentence of a number that is never replied");
}

/* what a number counts as that is told for an edition, a role or a direction, of which so many have names */
static uint32_t counted(uint32_t number, uint32_t names)
{
    return number < 1 ? 1 : number > names ? names : number;
}

/* numbers without a name: as an edition, a role and a direction */
static void numbers(void)
{
    static const uint32_t tried[] = {0, 1, 2, 3, 4, UINT32_MAX};
    static const uint16_t from[] = {0, 1}, ahead[] = {11}, behind[] = {22};
    for (size_t i = 0; i < sizeof tried / sizeof *tried; i++) {
        uint32_t number = tried[i], two = counted(number, 2), three = counted(number, 3);
        uint16_t kinds[3], packages[3], starts[2], ends[2], to[1] = {0};
        uint32_t table[3];
        check(heronditch_radius(T, sizeof T, number).number == (two == 1 ? 0 : 3), "the edition of T");
        check(heronditch_radius(T2, sizeof T2, number).number == (two == 2 ? 0 : 3), "the edition of T with packages");
        check(heronditch_match(P3, sizeof P3, number, FIRST(T), table, 3).number == (three == 3 ? 0 : 3), "the third edition of a pattern");
        check(heronditch_match(FIRST(T), T2, sizeof T2, number, table, 3).number == (two == 2 ? 0 : 3), "the edition of a board");
        check(heronditch_match_one_way(P3, sizeof P3, number, FIRST(T), table, 3).number == 3, "no third edition one way");
        check(heronditch_read(number, FIRST(TWO_BITS), kinds, 3, packages, 3, starts, 2, ends, 2).number == (two == 1 ? 6 : 0), "a role");
        heronditch_reply r = heronditch_neighbours(number, from, 2, ahead, 1, from, 2, behind, 1, 0, to, 1);
        check(replies(r, 1, 0) && to[0] == (two == 1 ? 11 : 22), "a direction");
    }
}

/* places with packages: T with some on itself, on T without, and the other way round; and the first edition told twice */
static void packed_places(void)
{
    uint8_t nodes[4], links[4];
    uint32_t table[4];
    uint16_t far[4];
    memset(nodes, 0xA5, sizeof nodes);
    check(counts(heronditch_place_editions(SECOND(T2), SECOND(T2), 0, nodes, 3, links, 2, table, 3, far, 3), 3, 3, 0, 0) &&
              !memcmp(nodes, "\1\1\1\245", 4) && !memcmp(links, "\1\1", 2) && table[0] == 1 && table[1] == 2 && table[2] == 4 && far[2] == 2,
          "T with packages has a place on itself");
    check(is_counts(heronditch_place_editions(FIRST(T), SECOND(T2), 1, nodes, 3, links, 2, table, 3, far, 3), 9, NEITHER, 1, 0, 1, 1),
          "T without packages has none on T with some");
    check(is_counts(heronditch_place_editions(SECOND(T2), FIRST(T), 1, nodes, 3, links, 2, table, 3, far, 3), 9, NEITHER, 1, 0, 1, 1),
          "nor the other way round");
    check(is_counts(heronditch_place_within_editions(SECOND(T2), SECOND(T2), 0, 0, nodes, 3, links, 2, table, 3, far, 3), 9, NEITHER, 1, 0, 1, 1),
          "T with packages within radius 0");
    check(counts_refuse(heronditch_place_editions(SECOND(T2), SECOND(T2), 0, nodes, 3, links, 1, table, 3, far, 3), 8, NEITHER),
          "a place with packages, one link byte less");
    check(counts_refuse(heronditch_place_editions(NOTHING(SECOND), NOTHING(SECOND), 0, NULL, 0, NULL, 0, NULL, 0, NULL, 0), 1, PATTERN),
          "a place with packages, of nothing");
}

/* the calls that are told editions beside those that are not: the first edition told twice */
static void first_twice(void)
{
    for (size_t centre = 0; centre < 7; centre++) {
        struct {
            heronditch_counts counts;
            uint32_t table[8];
            uint16_t far[8];
            uint8_t nodes[8], links[8];
        } plain, told;
        memset(&plain, 0xA5, sizeof plain);
        memset(&told, 0xA5, sizeof told);
        plain.counts = heronditch_place(T, sizeof T, B, sizeof B, centre, plain.nodes, 8, plain.links, 8, plain.table, 8, plain.far, 8);
        told.counts = heronditch_place_editions(FIRST(T), FIRST(B), centre, told.nodes, 8, told.links, 8, told.table, 8, told.far, 8);
        check(!memcmp(&plain, &told, sizeof plain), "a place, the first edition told twice");
        plain.counts = heronditch_place_within(T, sizeof T, B, sizeof B, centre, 1, plain.nodes, 8, plain.links, 8, plain.table, 8, plain.far, 8);
        told.counts = heronditch_place_within_editions(FIRST(T), FIRST(B), centre, 1, told.nodes, 8, told.links, 8, told.table, 8, told.far, 8);
        check(!memcmp(&plain, &told, sizeof plain), "a place at a radius, the first edition told twice");
    }
}

int main(void)
{
    messages();
    numbers();
    packed_places();
    first_twice();
    sessions();
    no_arrays();
    one_way();
    lengths();
    barred();
    reports();
    test_boards();
    widths();
    second_alone();
    packages_kept();
    second_pairs();
    conversions();
    bounds();
    comparisons();
    shelves();
    lookups();
    proposals();
    printf("edges: %d checks, %d failed\n", checks, failed);
    return failed != 0;
}
