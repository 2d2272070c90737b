//! The fixed edges: the specification's examples, the largest circuits and
//! those one larger, self-links, circuits without nodes or links, several
//! refusals at once, long rows of sets and long distances.

use super::call::{Call, Lent};
use super::case::{Case, Lists, Tables};
use super::finder::Finder;
use super::numbers::NUMBERS;
use super::proposals::{proposals, Proposal};
use super::tally::Tally;
use super::{agree, laws, Difference};
use crate::bounded::Bounded;
use crate::circuit::{Circuit, Edition, Files, Given, Role, Told};
use crate::graph;
use crate::load::Numbers;
use crate::random::Random;

/// A circuit of these kinds and links.
fn circuit(kinds: &[u16], links: &[(usize, usize)]) -> Circuit {
    Circuit {
        kinds: kinds.to_vec(),
        packages: Vec::new(),
        links: links.to_vec(),
    }
}

/// A path of so many nodes whose kinds go round.
fn path(nodes: usize, kinds: usize) -> Circuit {
    Circuit {
        kinds: (0..nodes).map(|v| (v % kinds) as u16).collect(),
        packages: Vec::new(),
        links: (1..nodes).map(|v| (v - 1, v)).collect(),
    }
}

/// So many nodes of one kind, with the first so many of all links there are.
fn dense(nodes: usize, links: usize) -> Circuit {
    Circuit {
        kinds: vec![10; nodes],
        packages: Vec::new(),
        links: (0..links).map(|at| (at / nodes, at % nodes)).collect(),
    }
}

/// A pattern whose row of sets on the board of `chain_board` is long: a ring
/// of parts, the first of which also drives a part of its own kind.
pub fn chain_pattern(ring: usize) -> Circuit {
    let mut links: Vec<_> = (0..ring).map(|u| (u, (u + 1) % ring)).collect();
    links.push((0, ring));
    links.sort_unstable();
    let mut kinds = vec![1; ring];
    kinds.push(2);
    Circuit {
        kinds,
        packages: Vec::new(),
        links,
    }
}

/// A ring of nodes, a node that drives all of them and itself, and a node
/// that all of those drive but one node of the ring. From that one on a single
/// pair is struck in each round, all round the ring as often as the pattern
/// has parts there, if the two rings' lengths have no common divisor.
pub fn chain_board(ring: usize) -> Circuit {
    let (hub, driven) = (ring, ring + 1);
    let mut links: Vec<_> = (0..ring).map(|v| (v, (v + 1) % ring)).collect();
    links.extend((1..ring).map(|v| (v, driven)));
    links.extend((0..=driven).map(|v| (hub, v)));
    links.sort_unstable();
    let mut kinds = vec![1; ring + 1];
    kinds.push(2);
    Circuit {
        kinds,
        packages: Vec::new(),
        links,
    }
}

/// A pattern and a board, by name.
type Pair = (&'static str, Circuit, Circuit);

/// The specification's examples, and two copies that no match link joins.
fn examples() -> Vec<Pair> {
    let t = circuit(&[10, 20, 30], &[(0, 1), (1, 2)]);
    let b = circuit(&[10, 20, 30, 20, 30, 10], &[(0, 1), (1, 2), (3, 4)]);
    let y = circuit(&[10, 20, 20], &[(0, 1), (0, 2)]);
    let e8 = circuit(&[10, 20, 20, 30], &[(0, 1), (0, 2), (2, 3)]);
    let one_way = circuit(&[10, 20], &[(0, 1)]);
    let two_way = circuit(&[10, 20], &[(0, 1), (1, 0)]);
    let ring = circuit(&[10, 20, 10, 20], &[(0, 1), (1, 2), (2, 3), (3, 0)]);
    let copies = circuit(
        &[10, 20, 30, 30, 20, 10],
        &[(0, 1), (1, 2), (2, 3), (4, 3), (5, 4)],
    );
    vec![
        ("T on B", t.clone(), b),
        ("T on itself", t.clone(), t.clone()),
        ("two copies that no match link joins", t, copies),
        ("E5, a ring", two_way.clone(), ring),
        ("Y on itself", y.clone(), y),
        ("E8 on itself", e8.clone(), e8),
        ("E9, a link back", one_way, two_way),
    ]
}

/// Self-links, and circuits without nodes or links.
fn small_pairs() -> Vec<Pair> {
    let t = circuit(&[10, 20, 30], &[(0, 1), (1, 2)]);
    let more = circuit(&[10, 20, 30], &[(0, 0), (0, 1), (1, 1), (1, 2)]);
    let none = circuit(&[], &[]);
    let one = circuit(&[10], &[]);
    let two = circuit(&[10, 10], &[]);
    let own = circuit(&[10], &[(0, 0)]);
    let owns = circuit(&[10, 20], &[(0, 0), (0, 1)]);
    let ring = circuit(&[10, 10], &[(0, 1), (1, 0)]);
    vec![
        ("one part, one node", one.clone(), one.clone()),
        ("one part on T", one.clone(), t.clone()),
        ("a board without nodes", t.clone(), none.clone()),
        ("a board without links", one.clone(), two.clone()),
        (
            "a board without nodes, with a link",
            one.clone(),
            circuit(&[], &[(0, 0)]),
        ),
        ("a pattern without parts", none.clone(), none),
        ("a pattern without links", two, t.clone()),
        ("a self-link with its partner", own.clone(), own.clone()),
        ("a self-link without its partner", own.clone(), one),
        ("a self-link on a ring of two", own, ring),
        ("a self-link among others", owns.clone(), owns),
        ("self-links without a part's", t, more),
    ]
}

/// A ring of so many nodes of one kind.
fn ring(nodes: usize) -> Circuit {
    let mut links: Vec<_> = (0..nodes).map(|v| (v, (v + 1) % nodes)).collect();
    links.sort_unstable();
    circuit(&vec![10; nodes], &links)
}

/// Patterns of a radius around the limit.
fn wide_pairs() -> Vec<Pair> {
    let star = |arms: usize, length: usize| {
        let before = |v: usize| if v % length == 1 { 0 } else { v - 1 };
        let mut links: Vec<_> = (1..=arms * length).map(|v| (before(v), v)).collect();
        links.sort_unstable();
        circuit(&vec![10; arms * length + 1], &links)
    };
    vec![
        ("radius 11, a path", path(12, 12), path(40, 12)),
        ("radius 12, a path", path(13, 13), path(40, 13)),
        ("radius 13, a path", path(14, 14), path(40, 14)),
        ("radius 12, a ring of 24", ring(24), ring(48)),
        ("radius 12, a ring of 25", ring(25), ring(50)),
        ("radius 13, a ring of 26", ring(26), ring(52)),
        ("radius 12, a star of five arms", star(5, 6), star(5, 6)),
        ("radius 14, a star of four arms", star(4, 7), star(4, 7)),
    ]
}

/// The pairs of large circuits.
fn large_pairs() -> Vec<Pair> {
    vec![
        ("32 parts on 512 nodes", path(32, 32), path(512, 32)),
        (
            "32 parts of one kind on 512 nodes",
            path(32, 1),
            path(512, 1),
        ),
        ("33 parts", path(33, 33), path(512, 33)),
        ("513 nodes", path(32, 32), path(513, 32)),
        ("256 links on 4,096", dense(16, 256), dense(64, 4096)),
        ("257 links", dense(17, 257), dense(64, 4096)),
        ("4,097 links", dense(17, 256), dense(65, 4097)),
        ("a long row of sets", chain_pattern(7), chain_board(60)),
        ("far nodes", circuit(&[0], &[]), path(512, 512)),
    ]
}

/// A case of an edge: centres inside and outside.
fn case(pattern: Vec<u8>, board: Vec<u8>, nodes: usize, radius: u16, tables: Tables) -> Case {
    let last = nodes.saturating_sub(1);
    let far = [nodes, nodes + (1 << 16), last + (1 << 32), usize::MAX];
    let mut centres = vec![0, 1, nodes / 2, last];
    centres.extend(far);
    centres.sort_unstable();
    centres.dedup();
    let proposals = offered(&pattern, &board, &centres);
    Case {
        pattern,
        board,
        editions: [1; 2],
        direction: 2,
        lists: lists(),
        centres,
        radius,
        tables,
        numbers: numbers(1, 3, 4, 10),
        proposals,
    }
}

/// Offsets of three nodes, the last of which fall back, and pass the end.
fn lists() -> Lists {
    Lists {
        offsets: [vec![0, 2, 3, 1], vec![1, 1, 2, 9]],
        links: [vec![7, 8, 9], vec![4, 5, 6]],
    }
}

/// Proposals around each centre where both files are accepted, and else one of
/// no bytes.
fn offered(pattern: &[u8], board: &[u8], centres: &[usize]) -> Vec<Proposal> {
    let mut random = Random::of_case(5, 1);
    let Ok((pattern, board)) = Files::first(pattern, board).read() else {
        let (nodes, links) = (vec![], vec![]);
        return vec![Proposal {
            centre: 0,
            nodes,
            links,
        }];
    };
    let around = |&centre| proposals(&mut random, &pattern, &board, centre);
    centres.iter().flat_map(around).collect()
}

/// The numbers of a load.
fn numbers(seed: u32, nodes: u32, pairs: u32, kinds: u32) -> Numbers {
    Numbers {
        seed,
        nodes,
        pairs,
        kinds,
    }
}

/// The tables of a circuit that are to be written in a role.
fn tables(role: Role, circuit: &Circuit) -> Tables {
    let field = |number: usize| u16::try_from(number).expect("a 16-bit field");
    Tables {
        role,
        kinds: circuit.kinds.clone(),
        packages: vec![],
        starts: circuit.links.iter().map(|link| field(link.0)).collect(),
        ends: circuit.links.iter().map(|link| field(link.1)).collect(),
    }
}

/// The cases of a pair of circuits: at radii 0, 1, the pattern's own, and the
/// largest.
fn of_pair(pattern: &Circuit, board: &Circuit) -> Vec<Case> {
    let own = u16::try_from(graph::radius(pattern)).expect("a small radius");
    let written = [(Role::Pattern, pattern), (Role::Board, board)];
    let at = |(number, radius): (usize, u16)| {
        let (role, circuit) = written[number % 2];
        let (pattern, file) = (pattern.bytes(), board.bytes());
        case(
            pattern,
            file,
            board.kinds.len(),
            radius,
            tables(role, circuit),
        )
    };
    [0, 1, own, 65535].into_iter().enumerate().map(at).collect()
}

/// Files with several faults at once, and with the specification's faults.
fn files() -> Vec<Vec<u8>> {
    let sized = |n: u16, m: u16, length: usize| {
        let mut file = [n.to_le_bytes(), m.to_le_bytes()].concat();
        file.resize(length, 0);
        file
    };
    let late = circuit(&[1, 1, 1], &[(1, 0), (0, 1), (0, 9)]);
    let unjoined = circuit(&[1, 1, 1], &[(1, 0), (0, 1)]);
    vec![
        vec![],
        vec![2],
        vec![2, 0, 1],
        vec![0, 0, 0, 0],
        vec![1, 0, 0, 0],
        vec![1, 0, 1, 0, 0x0A, 0, 0, 0, 1, 0],
        vec![1, 0, 1, 0, 0x0A, 0, 1, 0, 0, 0],
        vec![1, 0, 2, 0, 0x0A, 0, 0, 0, 0, 0, 0, 0, 0, 0],
        vec![2, 0, 0, 0, 0x0A, 0, 0x14, 0],
        late.bytes(),
        unjoined.bytes(),
        sized(65535, 65535, 4 + 6 * 65535),
        sized(65535, 0, 4),
        sized(0, 65535, 4),
        sized(1, 4097, 4),
        sized(513, 0, 1030),
        sized(33, 0, 70),
        sized(1, 257, 4 + 2 + 4 * 257),
    ]
}

/// Tables that are not to be written, among them some whose numbers would be
/// small again if cut to 16 bits.
fn written() -> Vec<Tables> {
    let of = |role, n: usize, starts: usize, ends: usize| Tables {
        role,
        kinds: vec![3; n],
        packages: vec![3; ends.min(2)],
        starts: vec![0; starts],
        ends: vec![0; ends],
    };
    let mut all = Vec::new();
    for role in [Role::Pattern, Role::Board] {
        for (n, starts, ends) in [
            (0, 0, 0),
            (0, 1, 1),
            (1, 1, 0),
            (1, 0, 1),
            (1, 2, 1),
            (33, 0, 0),
            (513, 0, 0),
            (1, 257, 0),
            (1, 4097, 0),
            (65536, 0, 0),
            (65537, 1, 1),
            (1, 65536, 0),
            (1, 65537, 1),
            (1, 65537, 65537),
            (1, 1, 65537),
        ] {
            all.push(of(role, n, starts, ends));
        }
    }
    all
}

/// All edges by name, each with its cases.
fn cases() -> Vec<(String, Vec<Case>)> {
    let t = circuit(&[10, 20, 30], &[(0, 1), (1, 2)]);
    let all = [examples(), small_pairs(), wide_pairs(), large_pairs()].concat();
    let mut cases: Vec<_> = all
        .into_iter()
        .map(|(name, pattern, board)| (name.to_string(), of_pair(&pattern, &board)))
        .collect();
    for (number, file) in files().into_iter().enumerate() {
        let of = |pattern: &[u8], board: &[u8]| {
            let spare = tables(Role::Pattern, &t);
            case(pattern.to_vec(), board.to_vec(), 3, 1, spare)
        };
        let (good, short) = (t.bytes(), [0; 3]);
        let both = vec![of(&file, &good), of(&good, &file), of(&file, &short)];
        cases.push((format!("faulty file {number}"), both));
    }
    for (number, tables) in written().into_iter().enumerate() {
        let one = case(t.bytes(), t.bytes(), 3, 1, tables);
        cases.push((format!("tables to write {number}"), vec![one]));
    }
    cases
}

/// The ways to lend: as long as needed, longer, nothing, and each table one
/// too short with the others longer.
fn lendings(call: &Call) -> Vec<Lent> {
    let needed = call.needed();
    let longer: Vec<usize> = needed.iter().map(|n| n + 3).collect();
    let mut all = vec![needed.clone(), longer.clone(), vec![0; needed.len()]];
    for (at, length) in needed.iter().enumerate().filter(|(_, &n)| n > 0) {
        let mut short = longer.clone();
        short[at] = length - 1;
        all.push(short);
    }
    let lent = |(filling, lengths)| Lent { lengths, filling };
    (7..).zip(all).map(lent).collect()
}

/// Runs all edges.
pub fn check(finder: &dyn Finder, tally: &mut Tally) -> Result<(), Difference> {
    for (name, cases) in cases() {
        for case in cases {
            of_case(finder, &case, tally).map_err(|difference| Difference {
                text: format!("edge: {name}\n{difference}"),
            })?;
        }
    }
    loads(finder, tally)?;
    bounds(finder, tally)?;
    names(finder, tally)?;
    longest(finder, tally)
}

/// Every call of an edge's case, lent in every way, and the laws.
fn of_case(finder: &dyn Finder, case: &Case, tally: &mut Tally) -> Result<(), Difference> {
    let small = case.board.len() < 400;
    let reports = if small { case.reports() } else { vec![] };
    for call in case.calls().into_iter().chain(reports) {
        in_every_way(finder, &call, tally)?;
    }
    laws::check(finder, case, tally)
}

/// A call, lent in every way.
fn in_every_way(finder: &dyn Finder, call: &Call, tally: &mut Tally) -> Result<(), Difference> {
    for lent in lendings(call) {
        agree(finder, call, &lent, tally)?;
    }
    Ok(())
}

/// Every call with every number for an edition, a role and a direction, on
/// files of every edition.
fn names(finder: &dyn Finder, tally: &mut Tally) -> Result<(), Difference> {
    let mut t = circuit(&[10, 20, 30], &[(0, 1), (1, 2)]);
    t.packages = vec![3, 0, 4];
    let bounds = vec![2; t.links.len()];
    let third = Bounded {
        circuit: t.clone(),
        bounds,
    };
    let files = [
        t.bytes(),
        t.bytes_in(Edition::Second),
        third.bytes(),
        circuit(&[10, 20], &[]).bytes(),
    ];
    for pattern in &files {
        for board in &files {
            for one in NUMBERS {
                for two in NUMBERS {
                    let files = Files::told([one, two], pattern, board);
                    for call in named(files, &lists()) {
                        in_every_way(finder, &call, tally)?;
                    }
                }
            }
        }
    }
    Ok(())
}

/// T's tables, to be written.
const WRITTEN: Given = Given {
    kinds: &[10, 20, 30],
    packages: &[3, 0, 4],
    starts: &[0, 1],
    ends: &[1, 2],
};

/// The calls that are told numbers, with those of two files.
fn named<'a>(files: Files<'a>, lists: &'a Lists) -> Vec<Call<'a>> {
    let Files { pattern, board } = files;
    let (one, two) = (pattern.edition, board.edition);
    let (plain, centre, radius) = (false, 0, 2);
    let place = |radius| Call::Place {
        files,
        plain,
        centre,
        radius,
    };
    vec![
        Call::Read {
            role: two,
            file: pattern,
        },
        Call::Convert {
            role: 2,
            file: pattern,
            to: two,
        },
        Call::Convert {
            role: two,
            file: pattern,
            to: 1,
        },
        Call::Write {
            role: one,
            edition: two,
            given: WRITTEN,
        },
        Call::Neighbours {
            direction: one,
            lookup: lists.of(0),
        },
        Call::Radius { pattern },
        Call::Merge { pattern },
        Call::Ball {
            board,
            centre,
            radius,
        },
        Call::Match { files },
        Call::MatchOneWay { files },
        place(None),
        place(Some(1)),
        Call::Check {
            files,
            centre,
            nodes: &[1; 3],
            links: &[1; 2],
        },
        Call::Bar { files, centre },
        Call::Report {
            files,
            plain,
            from: 0,
            found: 0,
        },
        Call::Session {
            files,
            places: &[1, 0, 1, 2],
        },
    ]
}

/// Loads at the edges of their numbers' ranges and one further, alone and
/// together, and those of seeds at the edges of 32 bits.
fn loads(finder: &dyn Finder, tally: &mut Tally) -> Result<(), Difference> {
    const LAST: u32 = u32::MAX;
    let mut all = Vec::new();
    for nodes in [0, 1, 2, 511, 512, 513, 65536, LAST] {
        for pairs in [0, 1, 7, 4095, 4096, 4097, 65536, LAST] {
            for kinds in [0, 1, 2, 65535, 65536, 65537, LAST] {
                all.push(numbers(1, nodes, pairs, kinds));
            }
        }
    }
    for seed in [
        0,
        1,
        2,
        65535,
        65536,
        LAST / 2,
        LAST / 2 + 1,
        LAST - 1,
        LAST,
    ] {
        all.push(numbers(seed, 40, 60, 5));
    }
    for numbers in all {
        in_every_way(finder, &Call::Load { numbers }, tally)?;
    }
    Ok(())
}

/// Patterns with bounds: every bound and those one too small and too large, on
/// paths of every length about it; the largest patterns and boards; what is
/// cut off or added, byte by byte.
fn bounds(finder: &dyn Finder, tally: &mut Tally) -> Result<(), Difference> {
    let bounded = |circuit: &Circuit, bound: u16| {
        Bounded {
            circuit: circuit.clone(),
            bounds: vec![bound; circuit.links.len()],
        }
        .bytes()
    };
    let two = circuit(&[10, 20], &[(0, 1)]);
    let loop_back = circuit(&[10], &[(0, 0)]);
    let mut pairs = vec![];
    for bound in 0..=5 {
        for nodes in 1..=7 {
            let mut board = path(nodes, 1);
            board.kinds.fill(99);
            board.kinds[nodes - 1] = 20;
            board.kinds[0] = 10;
            pairs.push((bounded(&two, bound), board.clone()));
            board.links.push((nodes - 1, 0));
            board.links.sort_unstable();
            pairs.push((bounded(&loop_back, bound), board));
        }
        pairs.push((bounded(&path(32, 3), bound), path(512, 3)));
        pairs.push((bounded(&dense(32, 256), bound), dense(64, 256)));
    }
    pairs.push((bounded(&dense(32, 256), 4), path(512, 1)));
    pairs.push((bounded(&dense(33, 256), 4), dense(64, 256)));
    pairs.push((bounded(&dense(32, 257), 4), dense(64, 256)));
    pairs.push((bounded(&two, 4), dense(512, 4096)));
    let whole = bounded(&two, 2);
    for length in 0..whole.len() + 3 {
        let mut file = whole.clone();
        file.resize(length, 0);
        pairs.push((file, path(6, 3)));
    }
    for (pattern, board) in &pairs {
        for edition in [Edition::First, Edition::Second] {
            let board = &board.bytes_in(edition)[..];
            let call = Call::Match {
                files: Files {
                    pattern: Told::third(pattern),
                    board: Told::of(edition, board),
                },
            };
            in_every_way(finder, &call, tally)?;
        }
    }
    Ok(())
}

/// The longest rows of sets known: 15,810 rounds on a whole board, and the
/// longest with a pattern of radius 12 around a centre.
fn longest(finder: &dyn Finder, tally: &mut Tally) -> Result<(), Difference> {
    let (pattern, board) = (chain_pattern(31).bytes(), chain_board(510).bytes());
    let narrow = chain_pattern(23).bytes();
    let board = &board[..];
    for call in [
        Call::Match {
            files: Files::first(&pattern, board),
        },
        Call::Place {
            files: Files::first(&narrow, board),
            plain: true,
            centre: 510,
            radius: None,
        },
    ] {
        let lent = Lent {
            lengths: call.needed(),
            filling: 7,
        };
        agree(finder, &call, &lent, tally)?;
    }
    Ok(())
}
