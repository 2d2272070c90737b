/* What the sample programs share: loading a circuit file and telling its edition, reading it, and telling a refusal. */
#ifndef COMMON_H
#define COMMON_H

#include <errno.h>
#include <stdio.h>
#include <stdlib.h>
#include <string.h>

#include "heronditch.h"

/* A circuit file, with room for one byte more than the longest has, so that the library refuses a longer one. */
typedef struct {
    uint8_t bytes[HERONDITCH_BOARD_BYTES + 1];
    size_t len;
    uint32_t edition;
} circuit_file;

/* The three things that a call is told of a circuit file. */
#define FILE_OF(file) (file).bytes, (file).len, (file).edition

/* A circuit as it is read. In the first edition all packages are 0. */
typedef struct {
    size_t n, m;
    uint16_t kinds[HERONDITCH_NODES], packages[HERONDITCH_NODES], starts[HERONDITCH_BOARD_LINKS], ends[HERONDITCH_BOARD_LINKS];
} circuit;

/* The number of nodes, and that of links: 16 bits each, low byte first. */
static inline size_t nodes_of(const circuit_file *file) { return file->bytes[0] + 256u * file->bytes[1]; }
static inline size_t links_of(const circuit_file *file) { return file->bytes[2] + 256u * file->bytes[3]; }

/* The edition that a file's length is of. One that is of none is told as the first, so that the library refuses it. */
static inline uint32_t edition_of(const circuit_file *file)
{
    size_t n = nodes_of(file), m = links_of(file);
    if (file->len == 4 + 2 * n + 4 * m)
        return HERONDITCH_FIRST;
    if (file->len == 4 + 4 * n + 4 * m)
        return HERONDITCH_SECOND;
    return file->len == 4 + 4 * n + 6 * m ? HERONDITCH_THIRD : HERONDITCH_FIRST;
}

/* Loads a file, which counts as empty where it is absent; then 0 is returned, else 1. A file that cannot be read ends the program. */
static inline int load_or_empty(const char *name, circuit_file *file)
{
    FILE *f = fopen(name, "rb");
    int there = f != NULL || errno != ENOENT;
    file->len = f ? fread(file->bytes, 1, sizeof file->bytes, f) : 0;
    if (there && (!f || ferror(f))) {
        fprintf(stderr, "cannot read %s\n", name);
        exit(2);
    }
    if (f)
        fclose(f);
    file->edition = edition_of(file);
    return there;
}

/* Loads a file, or ends the program. */
static inline void load(const char *name, circuit_file *file)
{
    if (!load_or_empty(name, file)) {
        fprintf(stderr, "%s is not there\n", name);
        exit(2);
    }
}

/* Reads a file in a role. */
static inline heronditch_reply read_circuit(uint32_t role, const circuit_file *file, circuit *to)
{
    heronditch_reply r = heronditch_read(role, FILE_OF(*file), to->kinds, HERONDITCH_NODES, to->packages, HERONDITCH_NODES, to->starts,
                                         HERONDITCH_BOARD_LINKS, to->ends, HERONDITCH_BOARD_LINKS);
    to->n = r.first;
    to->m = r.second;
    return r;
}

/* Prints the line of a refusal, and its sentence on standard error; returns the status to end with, 1. */
static inline int refused(uint32_t number, uint32_t file)
{
    printf("refused %u%s\n", (unsigned)number, file == HERONDITCH_PATTERN ? " pattern" : file == HERONDITCH_BOARD ? " board" : "");
    fprintf(stderr, "%s\n", heronditch_message(number));
    return 1;
}

#endif
