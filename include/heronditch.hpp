// heronditch.hpp: the calls of heronditch.h that most programs need, with vectors in and structs out, for C++17. A refusal is thrown; all else is as
// heronditch.h says of the calls. Whoever must not allocate or throw calls those.
#ifndef HERONDITCH_HPP
#define HERONDITCH_HPP

#include <memory>
#include <optional>
#include <stdexcept>
#include <string>
#include <vector>

#include "heronditch.h"

namespace heronditch {

// A circuit file: its bytes, and which edition they are.
struct file {
    std::vector<uint8_t> bytes;
    uint32_t edition = HERONDITCH_FIRST;
};

// A circuit: a kind for each node, a package for each in the second edition, and the links by start, then by end.
struct circuit {
    std::vector<uint16_t> kinds, packages, starts, ends;
};

// A place: a byte for each node and each link of the board, 1 in the place; its parts by node, and each node's distance from the centre.
struct place {
    std::vector<uint8_t> nodes, links;
    std::vector<uint32_t> table;
    std::vector<uint16_t> distances;
    heronditch_counts counts;
};

// What a call is refused by: the number, the file that it means, and the sentence of heronditch_message.
class refusal : public std::runtime_error {
public:
    refusal(uint32_t by, uint32_t of) : std::runtime_error(heronditch_message(by)), number(by), meant(of) {}
    const uint32_t number, meant;
};

// The reply of a call that was accepted.
template <typename reply> reply accepted(const reply &r)
{
    if (r.number != HERONDITCH_ACCEPTED)
        throw refusal(r.number, r.file);
    return r;
}

// Reads the circuit of a file in a role, HERONDITCH_PATTERN or HERONDITCH_BOARD.
inline circuit read(uint32_t role, const file &f)
{
    circuit c;
    c.kinds.resize(HERONDITCH_NODES);
    c.packages.resize(HERONDITCH_NODES);
    c.starts.resize(HERONDITCH_BOARD_LINKS);
    c.ends.resize(HERONDITCH_BOARD_LINKS);
    const auto r = accepted(heronditch_read(role, f.bytes.data(), f.bytes.size(), f.edition, c.kinds.data(), c.kinds.size(), c.packages.data(),
                                            c.packages.size(), c.starts.data(), c.starts.size(), c.ends.data(), c.ends.size()));
    c.kinds.resize(r.first);
    c.packages.resize(f.edition == HERONDITCH_FIRST ? 0 : r.first);
    c.starts.resize(r.second);
    c.ends.resize(r.second);
    return c;
}

// Writes the file of a circuit in a role: of the second edition where it has packages, else of the first.
inline file write(uint32_t role, const circuit &c)
{
    file f{std::vector<uint8_t>(HERONDITCH_BOARD_BYTES), uint32_t(c.packages.empty() ? HERONDITCH_FIRST : HERONDITCH_SECOND)};
    const auto r = accepted(heronditch_write(role, f.edition, c.kinds.data(), c.kinds.size(), c.packages.data(), c.packages.size(),
                                             c.starts.data(), c.starts.size(), c.ends.data(), c.ends.size(), f.bytes.data(), f.bytes.size()));
    f.bytes.resize(r.first);
    return f;
}

// Finds the pattern around a node of the board, at the pattern's radius; nothing where there is no place.
inline std::optional<place> find(const file &pattern, const file &board, size_t centre)
{
    std::optional<place> found{place{}};
    place &p = *found;
    p.nodes.resize(HERONDITCH_NODES);
    p.links.resize(HERONDITCH_BOARD_LINKS);
    p.table.resize(HERONDITCH_NODES);
    p.distances.resize(HERONDITCH_NODES);
    p.counts = heronditch_place_editions(pattern.bytes.data(), pattern.bytes.size(), pattern.edition, board.bytes.data(), board.bytes.size(),
                                         board.edition, centre, p.nodes.data(), p.nodes.size(), p.links.data(), p.links.size(), p.table.data(),
                                         p.table.size(), p.distances.data(), p.distances.size());
    if (p.counts.number == HERONDITCH_NO_PLACE)
        return std::nullopt;
    accepted(p.counts);
    const size_t n = board.bytes[0] + 256u * board.bytes[1], m = board.bytes[2] + 256u * board.bytes[3];
    p.nodes.resize(n);
    p.links.resize(m);
    p.table.resize(n);
    p.distances.resize(n);
    return found;
}

// The report of a pattern on a board, whole.
inline std::string report(const file &pattern, const file &board)
{
    std::string whole, piece(HERONDITCH_LINE_BYTES, '\0');
    heronditch_piece p{};
    do {
        p = accepted(heronditch_report_editions(pattern.bytes.data(), pattern.bytes.size(), pattern.edition, board.bytes.data(),
                                                board.bytes.size(), board.edition, p.next, uint16_t(p.found),
                                                reinterpret_cast<uint8_t *>(&piece[0]), piece.size()));
        whole.append(piece, 0, p.size);
    } while (p.size != 0);
    return whole;
}

// A session: the match table of a pattern on a board, while links are cut. Copies are sessions of their own.
class session {
public:
    session(const file &pattern, const file &board) : state(std::make_unique<heronditch_session>())
    {
        accepted(heronditch_open(state.get(), pattern.bytes.data(), pattern.bytes.size(), pattern.edition, board.bytes.data(), board.bytes.size(),
                                 board.edition));
    }
    session(const session &other) : state(std::make_unique<heronditch_session>(*other.state)) {}
    session(session &&) = default;
    session &operator=(session other)
    {
        state.swap(other.state);
        return *this;
    }

    // Cuts the link at a place of the board's file; false where it is out already or there is none.
    bool cut(size_t link) { return heronditch_cut(state.get(), link).number == HERONDITCH_ACCEPTED; }

    // The match table on the links that are left: bit u of entry v says that part u matches node v.
    std::vector<uint32_t> table() const
    {
        std::vector<uint32_t> t(HERONDITCH_NODES);
        t.resize(accepted(heronditch_table(state.get(), t.data(), t.size())).first);
        return t;
    }

private:
    std::unique_ptr<heronditch_session> state;
};

} // namespace heronditch

#endif
