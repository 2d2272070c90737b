/* A shop's own search proposes, and the library judges:
 *
 *     propose PATTERN.cir BOARD.cir
 *
 * For each node of the board two quick guesses are made and checked. `copy` assigns a node to every part, step by step, such that kinds agree
 * and every pattern link has a board link; it proposes the nodes and links that it used. `kinds` takes every node in the ball whose kind some
 * part asks for, and all board links between those. Whoever proposed it, a yes means the same: a perfect subgraph around that node. Each file
 * may be of the first edition or of the second; in the second a kind is that and a package.
 *
 * Build: cc -Iinclude examples/propose.c target/staticlib/libheronditch.a -o propose
 */
#include "common.h"

static circuit_file pattern_file, board_file;
static circuit pattern, board;
static uint8_t ball[HERONDITCH_NODES], nodes[HERONDITCH_NODES], links[HERONDITCH_BOARD_LINKS];
static size_t node_of[HERONDITCH_PARTS];

/* loads and reads a file in a role, or ends the program */
static void take(const char *name, uint32_t role, circuit_file *file, circuit *to)
{
    load(name, file);
    heronditch_reply r = read_circuit(role, file, to);
    if (r.number != HERONDITCH_ACCEPTED)
        exit(refused(r.number, r.file));
}

/* marks the nodes at distance at most radius from the centre */
static void reach(size_t centre, size_t radius)
{
    static uint8_t next[HERONDITCH_NODES];
    memset(next, 0, sizeof next);
    next[centre] = 1;
    memcpy(ball, next, sizeof ball);
    for (size_t k = 0; k < radius; k++, memcpy(ball, next, sizeof ball))
        for (size_t i = 0; i < board.m; i++)
            if (ball[board.starts[i]] || ball[board.ends[i]])
                next[board.starts[i]] = next[board.ends[i]] = 1;
}

/* a part of kind 0 matches nodes of every kind; packages are the same */
static int agree(size_t u, size_t v)
{
    return pattern.packages[u] == board.packages[v] && (pattern.kinds[u] == 0 || pattern.kinds[u] == board.kinds[v]);
}

/* the board's link from v to w, or the number of links */
static size_t link_of(size_t v, size_t w)
{
    size_t i = 0;
    while (i < board.m && (board.starts[i] != v || board.ends[i] != w))
        i++;
    return i;
}

/* Assigns nodes to the parts from u on, some part the centre; the first few thousand tries are enough for a guess. */
static int assign(size_t u, size_t centre, int met, unsigned *tries)
{
    if (u == pattern.n)
        return met;
    for (size_t v = 0; v < board.n; v++) {
        if (!ball[v] || !agree(u, v) || ++*tries > 20000)
            continue;
        node_of[u] = v;
        int fits = 1;
        for (size_t i = 0; i < pattern.m && fits; i++) {
            size_t s = pattern.starts[i], e = pattern.ends[i];
            if ((s == u && e <= u) || (e == u && s <= u))
                fits = link_of(node_of[s], node_of[e]) < board.m;
        }
        if (fits && assign(u + 1, centre, met || v == centre, tries))
            return 1;
    }
    return 0;
}

/* marks what the assignment used */
static int propose_copy(size_t centre)
{
    unsigned tries = 0;
    if (!assign(0, centre, 0, &tries))
        return 0;
    for (size_t u = 0; u < pattern.n; u++)
        nodes[node_of[u]] = 1;
    for (size_t i = 0; i < pattern.m; i++)
        links[link_of(node_of[pattern.starts[i]], node_of[pattern.ends[i]])] = 1;
    return 1;
}

/* marks every node in the ball whose kind some part asks for, and the links between */
static int propose_kinds(size_t centre)
{
    (void)centre;
    for (size_t v = 0; v < board.n; v++)
        for (size_t u = 0; u < pattern.n; u++)
            nodes[v] = nodes[v] || (ball[v] && agree(u, v));
    for (size_t i = 0; i < board.m; i++)
        links[i] = nodes[board.starts[i]] && nodes[board.ends[i]];
    return 1;
}

static const char *judged(int (*propose)(size_t), size_t centre)
{
    memset(nodes, 0, sizeof nodes);
    memset(links, 0, sizeof links);
    if (!propose(centre))
        return "nothing";
    heronditch_reply r = heronditch_check(FILE_OF(pattern_file), FILE_OF(board_file), centre, nodes, board.n, links, board.m);
    return r.first ? "yes" : "no";
}

int main(int argc, char **argv)
{
    if (argc != 3) {
        fprintf(stderr, "usage: %s PATTERN.cir BOARD.cir\n", argv[0]);
        return 2;
    }
    take(argv[1], HERONDITCH_PATTERN, &pattern_file, &pattern);
    take(argv[2], HERONDITCH_BOARD, &board_file, &board);
    size_t radius = heronditch_radius(FILE_OF(pattern_file)).first;
    for (size_t centre = 0; centre < board.n; centre++) {
        reach(centre, radius);
        const char *copy = judged(propose_copy, centre);
        printf("%zu: copy %s, kinds %s\n", centre, copy, judged(propose_kinds, centre));
    }
    return 0;
}
