/* The host side of the library, which is not proved: a sentence for each number, and the three calls on a session, which hand the arrays of its
 * struct to proved calls. Everything else of include/heronditch.h is proved. library/combine makes one archive of both. */
#include "heronditch.h"

/* The size that hosts in other languages are told. */
typedef char session_bytes_is_the_size[sizeof(heronditch_session) == HERONDITCH_SESSION_BYTES ? 1 : -1];

/* The proved calls on a session's arrays. */
extern heronditch_reply heronditch_session_open(const uint8_t *pattern, size_t pattern_len, uint32_t pattern_edition, const uint8_t *board,
                                                size_t board_len, uint32_t board_edition, uint32_t *fixed, uint16_t *offsets,
                                                uint16_t *numbers, uint16_t *ends, uint32_t *sets);
extern heronditch_reply heronditch_session_cut(const uint32_t *fixed, const uint16_t *offsets, const uint16_t *numbers, uint16_t *ends,
                                               uint32_t *sets, size_t link);
extern heronditch_reply heronditch_session_table(const uint32_t *fixed, const uint32_t *sets, uint32_t *table, size_t table_len);

heronditch_reply heronditch_open(heronditch_session *session, const uint8_t *pattern, size_t pattern_len, uint32_t pattern_edition,
                                 const uint8_t *board, size_t board_len, uint32_t board_edition)
{
    return heronditch_session_open(pattern, pattern_len, pattern_edition, board, board_len, board_edition, session->fixed, session->offsets,
                                   session->numbers, session->ends, session->sets);
}

heronditch_reply heronditch_cut(heronditch_session *session, size_t link)
{
    return heronditch_session_cut(session->fixed, session->offsets, session->numbers, session->ends, session->sets, link);
}

heronditch_reply heronditch_table(const heronditch_session *session, uint32_t *table, size_t table_len)
{
    return heronditch_session_table(session->fixed, session->sets, table, table_len);
}

static const char *const sentences[] = {
    [HERONDITCH_ACCEPTED] = "The call was accepted",
    [HERONDITCH_SHORT_FILE] = "The file has fewer than 4 bytes, so that it lacks its numbers of nodes and links: it is empty or cut off",
    [HERONDITCH_SIZE_RANGE] = "The number of nodes or links is out of range: a pattern has 1 to 32 parts and up to 256 links, a board up to"
                              " 512 nodes and 4096 links",
    [HERONDITCH_WRONG_LENGTH] = "A length is wrong: the file is not as long as its edition says, or tables that belong together are not"
                                " equally long",
    [HERONDITCH_NO_SUCH_NODE] = "A link starts or ends at a node that is not there: N nodes have the numbers 0 to N - 1",
    [HERONDITCH_NOT_RISING] = "The links are not in order: sort them by start and then by end, and put each down once",
    [HERONDITCH_NOT_CONNECTED] = "The pattern is not connected: join its parts by links, or match it on the whole board",
    [HERONDITCH_NO_SUCH_CENTRE] = "The centre is not a node of the board: N nodes have the numbers 0 to N - 1",
    [HERONDITCH_SHORT_TABLE] = "A lent table is too short: lend as many entries as the call's description says",
    [HERONDITCH_NO_PLACE] = "There is no place around this centre",
    [HERONDITCH_NUMBER_RANGE] = "A number of the test board is out of range: 1 to 512 nodes, up to 4096 pairs drawn, and 1 to 65536 kinds",
    [HERONDITCH_TOO_WIDE] = "The pattern is too wide: two of its parts are more than 12 links apart, so look for a mistake in its drawing",
    [HERONDITCH_PACKAGE_LOST] = "The first edition has no packages, and a node has one other than 0: keep the file in the second edition",
    [HERONDITCH_BOUND_RANGE] = "A bound of the pattern is out of range: each is 1 to 4",
    [HERONDITCH_NO_SUCH_LINK] = "The link cannot be cut: it is out already, or the board's file has no link at that place",
    [HERONDITCH_HAS_PLACE] = "The centre has a place, so that there is no reason why it has none",
};

const char *heronditch_message(uint32_t number)
{
    return number < sizeof sentences / sizeof *sentences ? sentences[number] : "The library gives no such number";
}
