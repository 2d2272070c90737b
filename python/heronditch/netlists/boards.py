"""The circuit of a netlist: parts and nets are nodes, and each pin is a link, or two."""

from __future__ import annotations

from collections import Counter
from typing import Iterable, NamedTuple, Sequence

from ..circuits import LIMITS, Circuit, Link
from ..errors import BOARD, Faults
from ..taking import used_names
from ..text import good_name
from .netlist import BOTH, IN, OUT, Netlist, Part, Pin
from .rules import Rules, fits, names

MOST_PINS = 12  # a net with more pins than that is told, since it may be a rail by another name


class Imported(NamedTuple):
    """A board, and sentences on what was left out and what is to be looked over."""

    board: Circuit
    told: tuple[str, ...]


class Kept(NamedTuple):
    """What of a netlist goes onto the board: parts, nets, and the pins between them."""

    parts: tuple[Part, ...]
    nets: tuple[str, ...]
    pins: tuple[Pin, ...]


def plain(name: str) -> str:
    """A name that can stand in a text."""
    word = "".join("_" if one.isspace() or one in "#<>" else one for one in name) or "_"
    return word if good_name(word) else f"{word}_"


def unique(wanted: Iterable[str]) -> list[str]:
    """Names that can stand in a text, each once: what comes later under the same name gets a number."""
    have: set[str] = set()
    found = []
    for name in map(plain, wanted):
        number, other = 2, name
        while other in have:
            number, other = number + 1, f"{name}.{number}"
        have.add(other)
        found.append(other)
    return found


def merged(parts: Iterable[Part]) -> list[Part]:
    """Each part once, though a netlist may list a reference twice."""
    return list({part.reference: part for part in parts}.values())


def sift(netlist: Netlist, rules: Rules, left_out: Sequence[str]) -> tuple[Kept, list[str]]:
    """What goes onto the board, and what does not: rails, what is asked to be left out, nets of one part, and parts on none of the rest."""
    by_net: dict[str, list[Pin]] = {}
    dropped = {part.reference for part in netlist.parts if any(fits(part.reference, glob) for glob in left_out)}
    for pin in netlist.pins:
        if pin.part not in dropped:
            by_net.setdefault(pin.net, []).append(pin)
    asked = sorted(net for net in by_net if any(fits(net, glob) for glob in left_out))
    rails = sorted(net for net in by_net if rules.is_rail(net) and net not in asked)
    single = sorted(net for net, pins in by_net.items() if len({pin.part for pin in pins}) < 2 and net not in {*rails, *asked})
    nets = [net for net in by_net if net not in {*rails, *single, *asked}]
    pins = [pin for net in nets for pin in by_net[net]]
    joined = {pin.part for pin in pins}
    parts = [part for part in merged(netlist.parts) if part.reference in joined]
    loose = [part.reference for part in merged(netlist.parts) if part.reference not in joined | dropped]
    counts = Counter(part.reference for part in netlist.parts)
    told = [
        ("references that stand more than once, each taken for one part", [name for name, count in counts.items() if count > 1]),
        ("rails left out", rails),
        ("left out as asked", [*sorted(dropped), *asked]),
        ("nets of a single part left out", single),
        ("parts that are on no other net left out", loose),
    ]
    return Kept(tuple(parts), tuple(nets), tuple(pins)), [f"{what} ({len(some)}): {names(some)}" for what, some in told if some]


def links_of(kept: Kept) -> list[Link]:
    """The links of pins: from net to part, from part to net, or both."""
    parts = {part.reference: number for number, part in enumerate(kept.parts)}
    nets = {net: len(parts) + number for number, net in enumerate(kept.nets)}
    links = set()
    for pin in kept.pins:
        part, net = parts[pin.part], nets[pin.net]
        if pin.way in (IN, BOTH):
            links.add((net, part))
        if pin.way in (OUT, BOTH):
            links.add((part, net))
    return sorted(links)


def to_look_over(kept: Kept, rules: Rules, packages: bool) -> list[str]:
    """Sentences on what a person has to look over: what was not identified, what has no package, and nets that join much."""
    unknown = [part.reference for part in kept.parts if not rules.kind_of(part)]
    unpacked = [part.reference for part in kept.parts if not rules.package_of(part)] if packages else []
    sizes = Counter(pin.net for pin in kept.pins)
    large = [
        f"{net} ({count} pins)" for net, count in sorted(sizes.items(), key=lambda pair: (-pair[1], pair[0])) if count > MOST_PINS
    ]
    told = [
        ("parts that no rule identifies", unknown),
        ("parts whose footprint no rule knows, with package 0", unpacked),
        ("large nets that are kept, maybe rails by another name", large),
    ]
    return [f"{what} ({len(some)}): {names(some)}" for what, some in told if some]


def board_of(netlist: Netlist, rules: Rules, left_out: Sequence[str] = (), packages: bool = True) -> Imported:
    """The board of a netlist; too large a one is told with its size."""
    strange = sorted({pin.part for pin in netlist.pins} - {part.reference for part in netlist.parts})
    if strange:
        raise Faults([f"pins of parts that the netlist does not list: {names(strange)}"])
    kept, told = sift(netlist, rules, left_out)
    links = links_of(kept)
    _, most, most_links = LIMITS[BOARD]
    size = len(kept.parts) + len(kept.nets)
    if size > most or len(links) > most_links:
        sizes = f"{len(kept.parts)} parts and {len(kept.nets)} nets are {size} nodes, with {len(links)} links"
        mend = "leave out what is not needed (--leave-out GLOB, for parts and nets)"
        raise Faults([f"too large a board: {sizes}, and a board has at most {most} and {most_links}: {mend}"])
    packed = packages and any(rules.package_of(part) for part in kept.parts)
    board = Circuit.of(
        unique([*(part.reference for part in kept.parts), *kept.nets]),
        [*(rules.kind_of(part) for part in kept.parts), *(rules.net_kind(net) for net in kept.nets)],
        links,
        [*(rules.package_of(part) for part in kept.parts), *(0 for _ in kept.nets)] if packed else None,
        rules.register,
    )
    return Imported(used_names(board), (*netlist.told, *told, *to_look_over(kept, rules, packed)))
