//! The check of a proposed place: its examples, and wrong checkers that the
//! proposals near the truth tell apart from it.

use second::calls::check;
use second::check::{marked, perfect};
use second::circuit::{Circuit, Files, Role, Told};
use second::compare::boards::{board, pattern, Size};
use second::compare::proposals::{proposals, Proposal};
use second::graph::{ball, connected, radius, Subgraph};
use second::place::place;
use second::random::Random;
use second::simulation::{largest, match_graph};

/// A way to check wrongly.
#[derive(Clone, Copy, Debug, PartialEq, Eq)]
enum Wrong {
    None,
    LargestOnly,
    BallsPairs,
    Unconnected,
    BoardConnected,
    NoCentre,
    LinkMissing,
    LinkUnmatched,
    OutsideBall,
    ByteTwo,
    OpenLink,
    Longer,
    ThreeFirst,
    NamesBoard,
}

const ALL: [Wrong; 13] = [
    Wrong::LargestOnly,
    Wrong::BallsPairs,
    Wrong::Unconnected,
    Wrong::BoardConnected,
    Wrong::NoCentre,
    Wrong::LinkMissing,
    Wrong::LinkUnmatched,
    Wrong::OutsideBall,
    Wrong::ByteTwo,
    Wrong::OpenLink,
    Wrong::Longer,
    Wrong::ThreeFirst,
    Wrong::NamesBoard,
];

/// Number, file and answer of a checker.
type Answer = (u32, u32, bool);

/// Whether links join all the nodes taken.
fn joined(graph: &Subgraph, links: &[(usize, usize)]) -> bool {
    let taken: Vec<usize> = (0..graph.nodes.len()).filter(|&v| graph.nodes[v]).collect();
    let place = |v: usize| taken.iter().position(|&t| t == v);
    let inside = |&(v, w): &(usize, usize)| Some((place(v)?, place(w)?));
    connected(
        taken.len(),
        &links.iter().filter_map(inside).collect::<Vec<_>>(),
    )
}

/// The checker, wrong in one way.
fn judge(wrong: Wrong, pattern: &Circuit, board: &Circuit, proposal: &Proposal) -> Answer {
    let (n, m, centre) = (board.kinds.len(), board.links.len(), proposal.centre);
    let (nodes, links) = (&proposal.nodes, &proposal.links);
    let lengths = match wrong {
        Wrong::Longer => nodes.len() < n || links.len() < m,
        _ => nodes.len() != n || links.len() != m,
    };
    let three = (3, if wrong == Wrong::NamesBoard { 2 } else { 0 }, false);
    if lengths && (wrong == Wrong::ThreeFirst || centre < n) {
        return three;
    }
    if centre >= n {
        return (7, 0, false);
    }
    let bytes = nodes.iter().chain(links);
    if wrong != Wrong::ByteTwo && bytes.clone().any(|&byte| byte > 1) {
        return (0, 0, false);
    }
    let taken = |bytes: &[u8], n: usize| bytes[..n].iter().map(|&b| b > 0).collect::<Vec<_>>();
    let mut graph = Subgraph {
        nodes: taken(nodes, n),
        links: taken(links, m),
    };
    for (at, &(v, w)) in board.links.iter().enumerate() {
        let open = graph.links[at] && !(graph.nodes[v] && graph.nodes[w]);
        if open && wrong != Wrong::OpenLink {
            return (0, 0, false);
        }
        graph.links[at] &= !open;
    }
    (0, 0, accepts(wrong, pattern, board, centre, &graph))
}

/// Whether a subgraph is accepted by a checker that is wrong in one way.
fn accepts(wrong: Wrong, pattern: &Circuit, board: &Circuit, w: usize, graph: &Subgraph) -> bool {
    let around = ball(board, w, radius(pattern));
    let mut all = graph.nodes.iter().zip(&around.nodes);
    let within = all.all(|(&is, &may)| may || !is);
    if (!within && wrong != Wrong::OutsideBall) || (!graph.nodes[w] && wrong != Wrong::NoCentre) {
        return false;
    }
    if wrong == Wrong::LargestOnly {
        return place(pattern, board, w, radius(pattern))
            .0
            .is_some_and(|place| place.graph == *graph);
    }
    let own = graph.pairs(board);
    let joins = match wrong {
        Wrong::Unconnected => true,
        Wrong::BoardConnected => joined(graph, &board.links),
        _ => joined(graph, &own),
    };
    let between = |&(v, w): &(usize, usize)| graph.nodes[v] && graph.nodes[w];
    let host = match wrong {
        Wrong::BallsPairs => around,
        Wrong::LinkMissing => Subgraph {
            nodes: graph.nodes.clone(),
            links: board.links.iter().map(between).collect(),
        },
        _ => graph.clone(),
    };
    let (pairs, counts) = largest(pattern, board, &host);
    let matches = match_graph(pattern, board, &host, &pairs);
    let occur = (0..graph.nodes.len()).all(|v| !graph.nodes[v] || pairs.occurs(v));
    let match_all = (0..graph.links.len()).all(|k| !graph.links[k] || matches.links[k]);
    joins && counts.kept > 0 && occur && (match_all || wrong == Wrong::LinkUnmatched)
}

/// A random pattern that is accepted: in one piece, and not too wide.
fn accepted(random: &mut Random, size: Size) -> Circuit {
    loop {
        let drawn = pattern(random, size);
        if Told::first(&drawn.bytes()).read(Role::Pattern).is_ok() {
            return drawn;
        }
    }
}

/// A random pattern and board with proposals around a centre, now and then
/// outside.
fn case(number: u64) -> (Circuit, Circuit, Vec<Proposal>) {
    let mut random = Random::of_case(9, number);
    let size = random.pick(&[Size::Tiny, Size::Tiny, Size::Small]);
    let pattern = accepted(&mut random, size);
    let board = board(&mut random, size, &pattern);
    let centre = random.below(board.kinds.len() + 1);
    let mut all = proposals(&mut random, &pattern, &board, centre);
    if random.once_in(4) {
        all.extend(all.clone().into_iter().map(|mut p| {
            p.centre = board.kinds.len();
            p.nodes.push(1);
            p
        }));
    }
    (pattern, board, all)
}

/// The second finder's answer.
fn answered(pattern: &Circuit, board: &Circuit, proposal: &Proposal) -> Answer {
    let (nodes, links) = (&proposal.nodes, &proposal.links);
    let files = [pattern, board].map(Circuit::bytes);
    let files = Files::first(&files[0], &files[1]);
    let reply = check(files, proposal.centre, nodes, links);
    (reply.number, reply.file.code(), reply.first == 1)
}

/// Whether a checker differs from the second finder on a case.
fn differs(wrong: Wrong, number: u64) -> bool {
    let (pattern, board, all) = case(number);
    let other =
        |one: &Proposal| answered(&pattern, &board, one) != judge(wrong, &pattern, &board, one);
    all.iter().any(other)
}

#[test]
fn the_right_checker_agrees() {
    assert!((0..4000).all(|number| !differs(Wrong::None, number)));
}

#[test]
fn every_wrong_checker_is_found() {
    for wrong in ALL {
        let first = (0..20_000).find(|&number| differs(wrong, number));
        println!("{wrong:?}: case {first:?}");
        assert!(first.is_some(), "{wrong:?} is not found");
    }
}

#[test]
fn the_proposals_have_both_answers() {
    let (mut yes, mut no, mut smaller) = (0, 0, 0);
    for number in 0..2000 {
        let (pattern, board, all) = case(number);
        for one in all.iter().filter(|one| one.centre < board.kinds.len()) {
            let (number, _, is) = answered(&pattern, &board, one);
            if number != 0 {
                continue;
            }
            yes += u32::from(is);
            no += u32::from(!is);
            let largest = place(&pattern, &board, one.centre, radius(&pattern)).0;
            let graph = marked(&board, &one.nodes, &one.links);
            smaller += u32::from(is && largest.map(|place| place.graph) != graph);
        }
    }
    println!("yes {yes}, of them not the largest {smaller}, no {no}");
    assert!(yes > 1000 && no > 1000 && smaller > 100);
}

fn circuit(kinds: &[u16], links: &[(usize, usize)]) -> Circuit {
    Circuit {
        kinds: kinds.to_vec(),
        packages: Vec::new(),
        links: links.to_vec(),
    }
}

/// Whether the bytes are perfect at the pattern's radius.
fn yes(pattern: &Circuit, board: &Circuit, w: usize, nodes: &[u8], links: &[u8]) -> bool {
    let graph = marked(board, nodes, links);
    graph.is_some_and(|graph| perfect(pattern, board, w, radius(pattern), &graph))
}

#[test]
fn examples() {
    let one = circuit(&[10, 20], &[(0, 1)]);
    let two_way = circuit(&[10, 20], &[(0, 1), (1, 0)]);
    let fork = circuit(&[10, 20, 20], &[(0, 1), (0, 2)]);
    assert!(yes(&one, &fork, 0, &[1, 1, 0], &[1, 0]));
    assert!(yes(&one, &fork, 0, &[1, 0, 1], &[0, 1]));
    assert!(yes(&one, &fork, 0, &[1, 1, 1], &[1, 1]));
    assert!(!yes(&one, &fork, 0, &[1, 1, 1], &[1, 0]));
    assert!(!yes(&one, &fork, 0, &[1, 1, 0], &[1, 1]));
    assert!(!yes(&one, &fork, 2, &[1, 1, 0], &[1, 0]));
    assert!(!yes(&one, &two_way, 0, &[1, 1], &[1, 1]));
    let ring = circuit(&[10, 20, 10, 20], &[(0, 1), (1, 2), (2, 3), (3, 0)]);
    for w in 0..4 {
        assert!(!yes(&two_way, &ring, w, &[1; 4], &[1; 4]));
    }
}
