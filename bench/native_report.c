/* The report in plain C, tuned, for the comparison of cost: `native_report [FOLDER]` reads pattern.cir and board.cir once, makes the whole
 * board's match table, the components of its match graph and the text of each once, passes over the centres and pairs that are not in it, searches small
 * components along their matching links, stops a search where it has the centre's component, strikes in ball and component alone, and prints through a large buffer. It is no part of the product. */
#include <errno.h>
#include <stdio.h>
#include <stdlib.h>
#include <string.h>
#include <unistd.h>

#include "native.h"

enum {
    FILE_BYTES = 4 + 2 * NATIVE_NODES + 4 * NATIVE_LINKS,
    LINE_BYTES = 16 + 4 * NATIVE_NODES + 8 * NATIVE_LINKS, /* more than any line has */
    BUFFER_BYTES = 1 << 20
};

/* A file's bytes, and one more where it is too long for any circuit. */
struct file {
    uint8_t bytes[FILE_BYTES + 1];
    size_t size;
};

/* The text that is not written yet. */
static char buffer[BUFFER_BYTES];
static size_t used;

/* The decimal digits of each node. */
static struct {
    char digits[4];
    uint32_t length;
} names[NATIVE_NODES];

static void fail(const char *what)
{
    perror(what);
    exit(1);
}

/* Reads a file; one that is not there counts as empty. */
static void load(const char *name, struct file *to)
{
    FILE *f = fopen(name, "rb");
    to->size = 0;
    if (!f && errno != ENOENT)
        fail(name);
    if (!f)
        return;
    to->size = fread(to->bytes, 1, sizeof to->bytes, f);
    if (ferror(f))
        fail(name);
    fclose(f);
}

static void flush(void)
{
    for (size_t done = 0; done < used;) {
        ssize_t written = write(STDOUT_FILENO, buffer + done, used - done);
        if (written < 0 && errno != EINTR)
            fail("standard output");
        done += written < 0 ? 0 : (size_t)written;
    }
    used = 0;
}

static void make_names(unsigned n)
{
    for (unsigned v = 0; v < n; v++) {
        char text[16];
        names[v].length = (uint32_t)snprintf(text, sizeof text, "%u", v);
        memcpy(names[v].digits, text, sizeof names[v].digits);
    }
}

/* Four bytes are copied at once; those after the digits are written over. */
static inline char *put_node(char mark, unsigned v, char *at)
{
    *at++ = mark;
    memcpy(at, names[v].digits, sizeof names[v].digits);
    return at + names[v].length;
}

/* What a line has after its colon; returns its end. */
static char *put_body(const native_finder *f, const uint8_t *nodes, const uint8_t *links, char *at)
{
    for (unsigned v = 0; v < f->board.n; v++)
        if (nodes[v])
            at = put_node(' ', v, at);
    *at++ = ' ';
    *at++ = '/';
    for (unsigned v = 0; v < f->board.n; v++)
        for (unsigned i = f->forward_at[v]; nodes[v] && i < f->forward_at[v + 1]; i++)
            if (links[i])
                at = put_node('-', f->board.ends[i], put_node(' ', v, at));
    *at++ = '\n';
    return at;
}

/* A line up to its colon; returns its end. */
static char *put_head(unsigned centre)
{
    if (sizeof buffer - used < LINE_BYTES)
        flush();
    char *at = buffer + used;
    memcpy(at, "place", 5);
    at = put_node(' ', centre, at + 5);
    *at++ = ':';
    return at;
}

/* The lines of all centres, and the last line. The text of each component is made once: all together have no more nodes and links than the board. */
static void put_report(native_finder *f)
{
    static char texts[16 * NATIVE_NODES + LINE_BYTES];
    static struct {
        const char *text;
        size_t length;
    } known[NATIVE_NODES + 1];
    uint32_t whole[NATIVE_NODES];
    uint16_t labels[NATIVE_NODES], sizes[NATIVE_NODES + 1];
    uint8_t nodes[NATIVE_NODES], links[NATIVE_LINKS];
    char *room = texts;
    unsigned found = 0, radius = native_radius(f);
    native_neighbours(f);
    native_whole(f, whole);
    native_components(f, whole, labels, sizes);
    make_names(f->board.n);
    for (unsigned centre = 0; centre < f->board.n; centre++) {
        native_found place = native_locate(f, whole, labels, sizes, centre, radius, nodes, links);
        if (place == NATIVE_NONE)
            continue;
        char *at = put_head(centre);
        if (place == NATIVE_CUT) {
            at = put_body(f, nodes, links, at);
        } else {
            unsigned name = labels[centre];
            if (!known[name].text) {
                native_component(f, whole, centre, nodes, links);
                known[name].text = room;
                room = put_body(f, nodes, links, room);
                known[name].length = (size_t)(room - known[name].text);
            }
            memcpy(at, known[name].text, known[name].length);
            at += known[name].length;
        }
        used = (size_t)(at - buffer);
        found++;
    }
    if (sizeof buffer - used < LINE_BYTES)
        flush();
    used += (size_t)snprintf(buffer + used, LINE_BYTES, "end %u of %u\n", found, f->board.n);
}

int main(int argc, char **argv)
{
    static struct file pattern, board;
    static native_finder f;
    if (argc > 2) {
        fprintf(stderr, "usage: %s [FOLDER]\n", argv[0]);
        return 2;
    }
    if (argc == 2 && chdir(argv[1]))
        fail(argv[1]);
    load("pattern.cir", &pattern);
    load("board.cir", &board);
    native_counts said = native_read(pattern.bytes, pattern.size, board.bytes, board.size, false, &f);
    if (said.number)
        used = (size_t)snprintf(buffer, sizeof buffer, "refused %u %s\n", said.number, said.file == NATIVE_PATTERN ? "pattern" : "board");
    else
        put_report(&f);
    flush();
    return 0;
}
