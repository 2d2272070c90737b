// What examples/places.cc leaves out of heronditch.hpp: a circuit written and read back, the report, copies of a session, and refusals.
#include <cstdio>
#include <cstdlib>

#include <heronditch.hpp>

static void demand(bool holds, const char *what)
{
    if (!holds) {
        std::fprintf(stderr, "failed: %s\n", what);
        std::exit(1);
    }
}

// The number that a call is refused by, or 0.
template <typename call> static uint32_t number_of(call made)
{
    try {
        made();
        return 0;
    } catch (const heronditch::refusal &r) {
        demand(r.what()[0] != '\0', "a refusal has a sentence");
        return r.number;
    }
}

int main()
{
    const heronditch::circuit pattern{{10, 20, 30}, {}, {0, 1}, {1, 2}}, board{{10, 20, 30, 10}, {}, {0, 1}, {1, 2}};
    const heronditch::file t = heronditch::write(HERONDITCH_PATTERN, pattern), b = heronditch::write(HERONDITCH_BOARD, board);
    const heronditch::circuit again = heronditch::read(HERONDITCH_BOARD, b);
    demand(again.kinds == board.kinds && again.starts == board.starts && again.ends == board.ends && again.packages.empty(), "read what was written");
    demand(heronditch::report(t, b) == "place 0: 0 1 2 / 0-1 1-2\nplace 1: 0 1 2 / 0-1 1-2\nplace 2: 0 1 2 / 0-1 1-2\nend 3 of 4\n", "the report");
    demand(!heronditch::find(t, b, 3), "no place around node 3");

    const heronditch::circuit packed{{10}, {7}, {}, {}};
    const heronditch::file second = heronditch::write(HERONDITCH_PATTERN, packed);
    demand(second.edition == HERONDITCH_SECOND && heronditch::read(HERONDITCH_PATTERN, second).packages == packed.packages, "packages");

    heronditch::session whole(t, b), cut = whole;
    demand(cut.cut(0) && !cut.cut(0) && !cut.cut(2), "a link is cut once");
    demand(whole.table() == std::vector<uint32_t>({1, 2, 4, 0}), "a copy is a session of its own");
    demand(cut.table() == std::vector<uint32_t>(4), "without its link no part has a node");
    cut = whole;
    demand(cut.table() == whole.table(), "assigned");

    demand(number_of([&] { heronditch::read(HERONDITCH_PATTERN, {}); }) == HERONDITCH_SHORT_FILE, "an empty file is refused");
    demand(number_of([&] { heronditch::find(t, b, 4); }) == HERONDITCH_NO_SUCH_CENTRE, "a centre that is not there is refused");
    demand(number_of([&] { heronditch::session(t, {}); }) == HERONDITCH_SHORT_FILE, "a session on an empty file is refused");
    std::puts("passed: the calls of heronditch.hpp");
}
