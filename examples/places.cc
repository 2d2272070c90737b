// Prints the places of a pattern on a board, as the report has them, and then which links of the board can be cut while every part still has a node:
//
//     places PATTERN.cir BOARD.cir
//
// Each file may be of the first edition or of the second. Status: 0 printed; 1 a file is refused; 2 a file cannot be read.
//
// Build: c++ -std=c++17 places.cc $(pkg-config --cflags --libs heronditch) -o places
#include <fstream>
#include <iostream>
#include <iterator>

#include <heronditch.hpp>

// Loads a file; its length says which edition it is of.
static heronditch::file load(const char *name)
{
    std::ifstream in(name, std::ios::binary);
    heronditch::file f{{std::istreambuf_iterator<char>(in), {}}, HERONDITCH_FIRST};
    if (!in)
        throw std::ios_base::failure(std::string("cannot read ") + name);
    const auto &b = f.bytes;
    if (b.size() >= 4 && b.size() == 4 + 4u * (b[0] + 256u * b[1]) + 4u * (b[2] + 256u * b[3]))
        f.edition = HERONDITCH_SECOND;
    return f;
}

// Prints the place around a node, as a line of the report.
static void print(size_t centre, const heronditch::place &p, const heronditch::circuit &board)
{
    std::cout << "place " << centre << ":";
    for (size_t v = 0; v < p.nodes.size(); v++)
        if (p.nodes[v])
            std::cout << " " << v;
    std::cout << " /";
    for (size_t i = 0; i < p.links.size(); i++)
        if (p.links[i])
            std::cout << " " << board.starts[i] << "-" << board.ends[i];
    std::cout << "\n";
}

// Prints the places of the links that can be cut, each from the whole board. A table that is not all 0 has a node for every part.
static void print_spare_links(const heronditch::file &pattern, const heronditch::file &board, size_t links)
{
    const heronditch::session whole(pattern, board);
    std::cout << "spare:";
    for (size_t link = 0; link < links; link++) {
        heronditch::session cut = whole;
        cut.cut(link);
        for (uint32_t parts : cut.table())
            if (parts != 0) {
                std::cout << " " << link;
                break;
            }
    }
    std::cout << "\n";
}

int main(int argc, char **argv)
{
    if (argc != 3) {
        std::cerr << "usage: " << argv[0] << " PATTERN.cir BOARD.cir\n";
        return 2;
    }
    try {
        const heronditch::file pattern = load(argv[1]), board = load(argv[2]);
        heronditch::read(HERONDITCH_PATTERN, pattern);
        const heronditch::circuit drawn = heronditch::read(HERONDITCH_BOARD, board);
        size_t found = 0;
        for (size_t centre = 0; centre < drawn.kinds.size(); centre++)
            if (const auto p = heronditch::find(pattern, board, centre)) {
                print(centre, *p, drawn);
                found++;
            }
        std::cout << "end " << found << " of " << drawn.kinds.size() << "\n";
        print_spare_links(pattern, board, drawn.starts.size());
        return 0;
    } catch (const heronditch::refusal &r) {
        std::cout << "refused " << r.number << (r.meant == HERONDITCH_PATTERN ? " pattern" : r.meant == HERONDITCH_BOARD ? " board" : "") << "\n";
        std::cerr << r.what() << "\n";
        return 1;
    } catch (const std::ios_base::failure &f) {
        std::cerr << f.what() << "\n";
        return 2;
    }
}
