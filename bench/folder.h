/* The two files of a folder, for the programs whose calls bench/run counts. */
#ifndef FOLDER_H
#define FOLDER_H

#include "../examples/common.h"

static circuit_file pattern, board;

/* both files, as most calls take them */
#define FILES FILE_OF(pattern), FILE_OF(board)

/* both files without their editions, as the calls take them that read the first */
#define PLAIN_FILES pattern.bytes, pattern.len, board.bytes, board.len

static inline void load_folder(const char *folder)
{
    char path[4096];
    snprintf(path, sizeof path, "%s/pattern.cir", folder);
    load(path, &pattern);
    snprintf(path, sizeof path, "%s/board.cir", folder);
    load(path, &board);
}

#endif
