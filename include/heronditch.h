/* heronditch.h: finding a known circuit (the pattern) on a circuit board. Version 3.
 *
 *     #include <heronditch.h>
 *     #include <stdio.h>
 *
 *     int tell(const uint8_t *pattern, size_t pattern_len, const uint8_t *board, size_t board_len, size_t centre)
 *     {
 *         uint8_t nodes[HERONDITCH_NODES], links[HERONDITCH_BOARD_LINKS];
 *         uint32_t table[HERONDITCH_NODES];
 *         uint16_t distances[HERONDITCH_NODES];
 *         heronditch_counts r = heronditch_place(pattern, pattern_len, board, board_len, centre, nodes, HERONDITCH_NODES, links,
 *                                                HERONDITCH_BOARD_LINKS, table, HERONDITCH_NODES, distances, HERONDITCH_NODES);
 *         if (r.number != HERONDITCH_ACCEPTED) puts(heronditch_message(r.number));
 *         return r.number == HERONDITCH_ACCEPTED;
 *     }
 *
 * Link with libheronditch.a (made by `tools/library`), which needs nothing but memcpy and memset of the C library. The calls are proved:
 * what each replies and leaves in the lent tables is an equation from its inputs, for every input (docs/PROMISES.md). What is said here is
 * what those equations say. Not proved are heronditch_message, a table of sentences, and the three calls on a heronditch_session, which
 * hand the struct's arrays to proved calls (library/host.c).
 *
 * Every call:
 *   - takes each array as a pointer and a number of elements. A pointer may be NULL where that number is 0; else it must point to that
 *     many elements, aligned as their type asks for. Arrays lent for output overlap no other array of the call.
 *   - takes each circuit file as a pointer, a number of bytes and an edition, HERONDITCH_FIRST, HERONDITCH_SECOND or, of the pattern of
 *     heronditch_match alone, HERONDITCH_THIRD. heronditch_place, heronditch_place_within and heronditch_report are not told editions:
 *     they read the first.
 *   - answers every number that stands for a name. Of an edition, a role and a direction a number below 2 counts as 1, and one above 2 as
 *     2; of the edition of heronditch_match's pattern one above 3 counts as 3. So no number is refused for itself.
 *   - replies with number HERONDITCH_ACCEPTED when it accepts, else with the number of the refusal and the file it means. A refusal changes
 *     nothing that was lent, and all other slots of the reply are 0, except that HERONDITCH_NO_PLACE carries the counts of the ball.
 *   - when it accepts, writes only the first entries of what was lent, as many as are said below; later entries keep their content.
 *   - uses no heap and no global state: it may be used from several threads at once, and from a signal handler.
 *   - ends: its work is bounded for every input.
 *   - needs at most HERONDITCH_STACK bytes of stack.
 *
 * Kinds: a part of kind 0 matches a node of every kind; a node of kind 0, which is not identified, is matched by such a part only; any other
 * part matches the nodes of its own kind.
 *
 * Editions: every field of a file is 16 bits, low byte first. The first edition has N, M, N kinds, M link starts and M link ends: 4 + 2 N
 * + 4 M bytes. The second has N packages too, between kinds and starts: 4 + 4 N + 4 M bytes. A part then matches a node only where the
 * packages are the same number, kind 0 included; a file of the first edition counts as having all packages 0. The third, of patterns alone,
 * has M bounds too, after the ends: 4 + 4 N + 6 M bytes.
 */
#ifndef HERONDITCH_H
#define HERONDITCH_H

#include <stddef.h>
#include <stdint.h>

#ifdef __cplusplus
extern "C" {
#endif

/* The version of this interface; docs/CHANGES.md says what changed with each. */
#define HERONDITCH_VERSION 3

/* Replies with the version of the library that is linked. */
uint32_t heronditch_version(void);

/* ---- numbers with names */

/* which edition a circuit file is */
#define HERONDITCH_FIRST 1
#define HERONDITCH_SECOND 2
#define HERONDITCH_THIRD 3

/* which file a refusal means; and the role in which a file is read, written or converted, a pattern or a board */
#define HERONDITCH_NEITHER 0
#define HERONDITCH_PATTERN 1
#define HERONDITCH_BOARD 2

/* along which links the neighbours of a node are looked up: what it drives, or what drives it */
#define HERONDITCH_FORWARD 1
#define HERONDITCH_BACKWARD 2

/* how two circuits rank */
#define HERONDITCH_LESS 1
#define HERONDITCH_EQUAL 2
#define HERONDITCH_GREATER 3

/* The numbers of refusal. Where several hold, the pattern's 1 to 6 come first, then its 11, or its 13 (6 and 11 are not asked by the calls
 * on the whole board: heronditch_match, heronditch_match_one_way, heronditch_open), then the board's 1 to 5, then 7, the check's 3, 10, 12,
 * 8, and 9 or 15. 14 is a cut's alone. */
enum {
    HERONDITCH_ACCEPTED = 0,
    HERONDITCH_SHORT_FILE = 1,     /* a file of under 4 bytes */
    HERONDITCH_SIZE_RANGE = 2,     /* the number of nodes or links out of the role's range */
    HERONDITCH_WRONG_LENGTH = 3,   /* a length that is not the edition's; on writing, not as many ends as starts, or in the second edition
                                      not as many packages as kinds; on checking, not N node bytes or M link bytes */
    HERONDITCH_NO_SUCH_NODE = 4,   /* a link to or from a node that is not there */
    HERONDITCH_NOT_RISING = 5,     /* links that do not rise strictly, by start and then by end */
    HERONDITCH_NOT_CONNECTED = 6,  /* the pattern is not connected */
    HERONDITCH_NO_SUCH_CENTRE = 7, /* the centre is not a node of the board */
    HERONDITCH_SHORT_TABLE = 8,    /* a lent table is too short */
    HERONDITCH_NO_PLACE = 9,       /* no place around the centre */
    HERONDITCH_NUMBER_RANGE = 10,  /* a number of a test board out of its range */
    HERONDITCH_TOO_WIDE = 11,      /* the pattern's radius is above HERONDITCH_RADIUS, which is a mistake in its drawing */
    HERONDITCH_PACKAGE_LOST = 12,  /* converting to the first edition, a package other than 0 */
    HERONDITCH_BOUND_RANGE = 13,   /* a bound outside 1 to HERONDITCH_BOUND */
    HERONDITCH_NO_SUCH_LINK = 14,  /* a cut of a link that is out already, or of a place past the last */
    HERONDITCH_HAS_PLACE = 15      /* the centre has a place, where it is asked why it has none */
};

/* Gives a sentence for a number of refusal, in English, without a full stop; one for every number. It is never freed. */
const char *heronditch_message(uint32_t number);

/* the entry of a node outside the ball in a table of distances */
#define HERONDITCH_OUTSIDE 65535

/* the largest circuits: parts, links and radius of a pattern and the bound of a link, nodes and links of a board */
#define HERONDITCH_PARTS 32
#define HERONDITCH_PATTERN_LINKS 256
#define HERONDITCH_RADIUS 12
#define HERONDITCH_BOUND 4
#define HERONDITCH_NODES 512
#define HERONDITCH_BOARD_LINKS 4096

/* the largest file of a pattern, and of a board, in any edition */
#define HERONDITCH_PATTERN_BYTES (4 + 4 * HERONDITCH_PARTS + 6 * HERONDITCH_PATTERN_LINKS)
#define HERONDITCH_BOARD_BYTES (4 + 4 * HERONDITCH_NODES + 4 * HERONDITCH_BOARD_LINKS)

/* the files of a shelf */
#define HERONDITCH_SHELF 16

/* no line of a report is longer: what is lent for it has room for this many bytes */
#define HERONDITCH_LINE_BYTES 34829

/* what has room for this many bytes takes any report at once, in one piece: 512 lines and the last one, each with room for the longest (proved:
 * crates/call_report/proofs/Once, one-piece) */
#define HERONDITCH_REPORT_BYTES (513 * HERONDITCH_LINE_BYTES)

/* stack that a call needs, measured and rounded up (tests/c/stack.c) */
#define HERONDITCH_STACK 65536

/* ---- replies */

/* a reply with up to two values; a slot that a call does not use is 0 */
typedef struct {
    uint32_t number;
    uint32_t file;
    size_t first;
    size_t second;
} heronditch_reply;

/* a reply with the counts of matching: pairs (part, node) that agree in kind and package, those kept, those struck, and the rounds that
 * struck some */
typedef struct {
    uint32_t number;
    uint32_t file;
    uint32_t started;
    uint32_t kept;
    uint32_t struck;
    uint32_t rounds;
} heronditch_counts;

/* a reply with a piece of a report: where to go on after it, how many centres before that have a place, and how many bytes were put */
typedef struct {
    uint32_t number;
    uint32_t file;
    size_t next;
    size_t found;
    size_t size;
} heronditch_piece;

/* a reply of a comparison: which of the two files a refusal means, 1 the first or 2 the second; and how the circuit of the first ranks against
 * that of the second. 0 where there is none, so that no refusal looks like an order. */
typedef struct {
    uint32_t number;
    uint32_t file;
    uint32_t which;
    uint32_t order;
} heronditch_comparison;

/* ---- files */

/* Reads a file in a role: N kinds, in the second edition N packages, M link starts and M link ends. Replies with N and M. Lend 32, 32, 256, 256
 * entries for a pattern, 512, 512, 4096, 4096 for a board, to have room for every file. Packages are neither needed nor touched in the first
 * edition. */
heronditch_reply heronditch_read(uint32_t role, const uint8_t *file, size_t file_len, uint32_t edition, uint16_t *kinds, size_t kinds_len,
                                 uint16_t *packages, size_t packages_len, uint16_t *starts, size_t starts_len, uint16_t *ends,
                                 size_t ends_len);

/* Writes the file of a circuit in a role and an edition. Replies with its length. In the first edition packages are not looked at. */
heronditch_reply heronditch_write(uint32_t role, uint32_t edition, const uint16_t *kinds, size_t kinds_len, const uint16_t *packages,
                                  size_t packages_len, const uint16_t *starts, size_t starts_len, const uint16_t *ends, size_t ends_len,
                                  uint8_t *out, size_t out_len);

/* Converts a file from its edition to another, and keeps the circuit. Checks what reading in the role checks, then 12. Replies with the new
 * file's length. Told the same edition twice it copies. */
heronditch_reply heronditch_convert(uint32_t role, const uint8_t *file, size_t file_len, uint32_t edition, uint32_t to_edition, uint8_t *out,
                                    size_t out_len);

/* Makes a test board, a first-edition file: n nodes (1 to 512) with kinds below k (1 to 65,536), and the links that m pairs drawn (at most
 * 4,096) give, a pair drawn twice being one link. The same four numbers make the same file everywhere: docs/LOADS.md has some with their
 * SHA-256. Lend 4 + 2 n + 4 m bytes, whatever the file comes to. Replies with the file's length. */
heronditch_reply heronditch_test_board(uint32_t seed, uint32_t n, uint32_t m, uint32_t k, uint8_t *out, size_t out_len);

/* ---- distances */

/* Looks up what a node drives, or what drives it: the stretch of the forward table from forward_offsets[node] up to
 * forward_offsets[node + 1], or of the backward table likewise, copied to the front of out. Replies with its length. It is empty where the
 * node has no two offsets, or where they fall back or pass the table's end. */
heronditch_reply heronditch_neighbours(uint32_t direction, const uint16_t *forward_offsets, size_t forward_offsets_len,
                                       const uint16_t *forward, size_t forward_len, const uint16_t *backward_offsets,
                                       size_t backward_offsets_len, const uint16_t *backward, size_t backward_len, size_t node,
                                       uint16_t *out, size_t out_len);

/* Replies with the pattern's radius: the largest distance between two of its parts. */
heronditch_reply heronditch_radius(const uint8_t *pattern, size_t pattern_len, uint32_t pattern_edition);

/* Measures the ball around a node of the board: N entries, each node's distance from the centre, and HERONDITCH_OUTSIDE for a node outside
 * the ball. Replies with N. */
heronditch_reply heronditch_ball(const uint8_t *board, size_t board_len, uint32_t board_edition, size_t centre, uint16_t radius, uint16_t *out,
                                 size_t out_len);

/* ---- matching on the whole board */

/* Matches the pattern on the whole board: N numbers, in which bit u of entry v says that part u matches node v. The pattern need not be
 * connected, and may be of any radius (neither 6 nor 11 is given): where some part is left without a node, the table is all 0, kept is 0 and
 * struck is started.
 * Of a third-edition pattern a link with bound h, 1 to HERONDITCH_BOUND, is met by a directed path of 1 to h links of the board, end to end; it
 * may pass nodes of any kind, a node more than once, and may end where it began. With all bounds 1 the reply and the table are those of the
 * file without its bounds; a larger bound never takes a pair away. */
heronditch_counts heronditch_match(const uint8_t *pattern, size_t pattern_len, uint32_t pattern_edition, const uint8_t *board, size_t board_len,
                                   uint32_t board_edition, uint32_t *table, size_t table_len);

/* The same one way, without bounds: a pair needs partners for what its part drives, and none for what drives it. Each pair of the table above
 * is in this one. One way some parts of a connected pattern too may be left without a node while others have some: then the table is all 0. */
heronditch_counts heronditch_match_one_way(const uint8_t *pattern, size_t pattern_len, uint32_t pattern_edition, const uint8_t *board,
                                           size_t board_len, uint32_t board_edition, uint32_t *table, size_t table_len);

/* ---- places */

/* Finds the pattern around a node of the board, at the pattern's radius: N node bytes and M link bytes, 1 in the place, else 0, and N
 * numbers as above over the place's nodes, 0 elsewhere; and N distances as of heronditch_ball, whether a node is in the place or not. The
 * counts are those of the whole ball. Both files are of the first edition. */
heronditch_counts heronditch_place(const uint8_t *pattern, size_t pattern_len, const uint8_t *board, size_t board_len, size_t centre,
                                   uint8_t *nodes, size_t nodes_len, uint8_t *links, size_t links_len, uint32_t *table, size_t table_len,
                                   uint16_t *distances, size_t distances_len);

/* The same at a radius given, which may be any: HERONDITCH_RADIUS is about the pattern's own. */
heronditch_counts heronditch_place_within(const uint8_t *pattern, size_t pattern_len, const uint8_t *board, size_t board_len,
                                          size_t centre, uint16_t radius, uint8_t *nodes, size_t nodes_len, uint8_t *links,
                                          size_t links_len, uint32_t *table, size_t table_len, uint16_t *distances, size_t distances_len);

/* Both told editions, so that packages count. With HERONDITCH_FIRST twice they are the two above. */
heronditch_counts heronditch_place_editions(const uint8_t *pattern, size_t pattern_len, uint32_t pattern_edition, const uint8_t *board,
                                            size_t board_len, uint32_t board_edition, size_t centre, uint8_t *nodes, size_t nodes_len,
                                            uint8_t *links, size_t links_len, uint32_t *table, size_t table_len, uint16_t *distances,
                                            size_t distances_len);
heronditch_counts heronditch_place_within_editions(const uint8_t *pattern, size_t pattern_len, uint32_t pattern_edition,
                                                   const uint8_t *board, size_t board_len, uint32_t board_edition, size_t centre,
                                                   uint16_t radius, uint8_t *nodes, size_t nodes_len, uint8_t *links, size_t links_len,
                                                   uint32_t *table, size_t table_len, uint16_t *distances, size_t distances_len);

/* Checks a place from elsewhere: N node bytes and M link bytes, neither more nor fewer. Replies with 1 where they are a perfect subgraph around
 * the centre at the pattern's radius, largest or not, and with 0 where they are not; bytes other than 0 and 1, or a marked link whose ends are
 * not both marked, give 0. Whatever heronditch_place_editions marks gets a 1, and a 1 means that it finds a place there that has all that was
 * proposed. Nothing is written, so 8 and 9 are never replied. */
heronditch_reply heronditch_check(const uint8_t *pattern, size_t pattern_len, uint32_t pattern_edition, const uint8_t *board, size_t board_len,
                                  uint32_t board_edition, size_t centre, const uint8_t *nodes, size_t nodes_len, const uint8_t *links,
                                  size_t links_len);

/* Says why there is no place around a node of the board, at the pattern's radius, by few of the pattern's links: a byte for each of its M links,
 * 1 for kept. The kept links alone leave the centre without a match (in the ball, all parts kept and none required to occur), and with any one
 * or more of them taken away the rest does not. They are found from all links, in file order, by dropping each one without which the rest still
 * does. Replies with how many are 1; 0 where no part matches the centre's kind and package. Turned away with 15 where the centre has a place.
 * Lend HERONDITCH_PATTERN_LINKS bytes to have room for every pattern. */
heronditch_reply heronditch_bar(const uint8_t *pattern, size_t pattern_len, uint32_t pattern_edition, const uint8_t *board, size_t board_len,
                                uint32_t board_edition, size_t centre, uint8_t *out, size_t out_len);

/* Puts a piece of the report of a pattern on a board, both of the first edition: the lines of the centres from a node on, as long as there is
 * room for a line of HERONDITCH_LINE_BYTES, and the last line where the centres are done. The first piece is from 0 with 0 found, each further
 * one from next with the found of the reply before; they, one after another, are the report, whole. Nothing is put (size 0) exactly when the
 * report is at its end. Each call reads both files and matches the whole board anew: who lends HERONDITCH_REPORT_BYTES needs one call. A refused
 * file is no refusal of this call: its line, `refused 3 pattern`, is the whole report. Only 8 is replied: where the files are accepted and out
 * has not HERONDITCH_LINE_BYTES, or a file is refused and out has not 20. */
heronditch_piece heronditch_report(const uint8_t *pattern, size_t pattern_len, const uint8_t *board, size_t board_len, size_t from,
                                   uint16_t found, uint8_t *out, size_t out_len);

/* The same told editions, so that packages count. With HERONDITCH_FIRST twice it is the one above. */
heronditch_piece heronditch_report_editions(const uint8_t *pattern, size_t pattern_len, uint32_t pattern_edition, const uint8_t *board,
                                            size_t board_len, uint32_t board_edition, size_t from, uint16_t found, uint8_t *out,
                                            size_t out_len);

/* ---- patterns among themselves */

/* Merges the parts of a pattern that match each other: the class of each of its N parts, and the merged pattern's file, which has the pattern's
 * edition. Lend N bytes and as many bytes as the pattern's file has. Replies with the number of classes and the merged file's length. */
heronditch_reply heronditch_merge(const uint8_t *pattern, size_t pattern_len, uint32_t pattern_edition, uint8_t *classes, size_t classes_len,
                                  uint8_t *out, size_t out_len);

/* Compares the circuits of two patterns, both of the second edition: by N, then M, then kinds, packages, starts and ends, each by size of
 * number, the first difference deciding. They are equal exactly when the files are the same bytes. Both files are patterns, so that `which`
 * tells the one that is refused; the first one's refusal comes first. */
heronditch_comparison heronditch_compare(const uint8_t *first, size_t first_len, const uint8_t *second, size_t second_len);

/* Puts a shelf of patterns in order, all of the second edition. Their files lie one after another in `bytes`, each as long as its entry of
 * `lengths` says; where the bytes end, the last are shorter, or empty. Of more than HERONDITCH_SHELF lengths the first so many are the shelf.
 * Fills the numbers (from 0) of the files that are accepted, in the order of heronditch_compare, and of equal circuits the lower number first;
 * a file that is refused is passed over. Replies with how many are accepted. Lend HERONDITCH_SHELF bytes to have room for every shelf; only 8
 * is replied. */
heronditch_reply heronditch_shelf(const uint8_t *bytes, size_t bytes_len, const uint32_t *lengths, size_t lengths_len, uint8_t *order,
                                  size_t order_len);

/* ---- cutting links while searching */

/* A session lives in this struct, HERONDITCH_SESSION_BYTES of no meaning to the caller, who lends it to each call. It may be copied and moved,
 * and two copies are two sessions. It begins with opening. A call on a struct that no opening filled, or that was overwritten, ends and stays
 * within the struct and the table lent, whatever it replies. */
typedef struct {
    uint32_t fixed[66];
    uint32_t sets[HERONDITCH_NODES];
    uint16_t offsets[1026];
    uint16_t numbers[2 * HERONDITCH_BOARD_LINKS];
    uint16_t ends[2 * HERONDITCH_BOARD_LINKS];
} heronditch_session;

#define HERONDITCH_SESSION_BYTES 37132

/* Opens a session on a pattern and a board: all links are left. Refused as heronditch_match_one_way is, but for 8 (the pattern has no bounds); a
 * refusal leaves the struct as it was. */
heronditch_reply heronditch_open(heronditch_session *session, const uint8_t *pattern, size_t pattern_len, uint32_t pattern_edition,
                                 const uint8_t *board, size_t board_len, uint32_t board_edition);

/* Cuts a link, told by its place in the board's file, from 0: number 0 says that it was left and is out now. 14 where it was out before, or
 * where the file has no link at that place; then nothing changes. */
heronditch_reply heronditch_cut(heronditch_session *session, size_t link);

/* Reads the table out, N entries as heronditch_match fills them, on the links that are left; replies with N. */
heronditch_reply heronditch_table(const heronditch_session *session, uint32_t *table, size_t table_len);

#ifdef __cplusplus
}
#endif

#endif
