/* Prints the report of a pattern on a board:
 *
 *     report PATTERN.cir BOARD.cir [BYTES]
 *
 * Each file may be of the first edition or of the second: packages count where both have them. An absent file counts as empty. BYTES is how much
 * is lent for the report at a time, at least HERONDITCH_LINE_BYTES; without it there is room for any report at once, so that the files are read
 * and the board is matched once. Its status: 0 the report is printed whole; 1 so is the one line of a refused file; 2 a file cannot be read, or
 * the report could not be written whole: a line on standard error says why, and what was printed is a front of the report.
 *
 * Build: cc -Iinclude examples/report.c target/staticlib/libheronditch.a -o report
 */
#include <poll.h>
#include <signal.h>
#include <unistd.h>

#include "common.h"

/* Writes all of the bytes, or says that it failed. An output that does not block is waited for, five seconds at a time. */
static int put(const uint8_t *bytes, size_t size)
{
    while (size > 0) {
        ssize_t n = write(STDOUT_FILENO, bytes, size);
        if (n > 0) {
            bytes += n;
            size -= (size_t)n;
        } else if (n < 0 && errno == EAGAIN) {
            struct pollfd out = {STDOUT_FILENO, POLLOUT, 0};
            if (poll(&out, 1, 5000) <= 0)
                return 0;
        } else if (n == 0 || errno != EINTR) {
            return 0;
        }
    }
    return 1;
}

int main(int argc, char **argv)
{
    static circuit_file pattern, board;
    static uint8_t out[HERONDITCH_REPORT_BYTES];
    size_t lent = argc == 4 ? strtoul(argv[3], NULL, 10) : sizeof out;

    if (argc < 3 || argc > 4 || lent < HERONDITCH_LINE_BYTES || lent > sizeof out) {
        fprintf(stderr, "usage: %s PATTERN.cir BOARD.cir [BYTES]\n", argv[0]);
        return 2;
    }
    signal(SIGPIPE, SIG_IGN); /* a reader that goes away is an error of write */
    load_or_empty(argv[1], &pattern);
    load_or_empty(argv[2], &board);
    int status = 0;
    size_t from = 0;
    uint16_t found = 0;
    for (;;) {
        heronditch_piece p = heronditch_report_editions(FILE_OF(pattern), FILE_OF(board), from, found, out, lent);
        if (p.number != HERONDITCH_ACCEPTED) /* cannot be: the buffer has room for the longest line */
            return refused(p.number, p.file);
        if (p.size == 0)
            return status;
        if (out[0] == 'r') /* no other line begins so */
            status = 1;
        if (!put(out, p.size)) {
            fprintf(stderr, "the report is not whole: %s\n", strerror(errno));
            return 2;
        }
        if (lent == sizeof out) /* that was all */
            return status;
        from = p.next;
        found = (uint16_t)p.found;
    }
}
