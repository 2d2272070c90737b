//! Patterns with bounds, by their definition: every directed path of a small
//! board is followed, and of every set of pairs it is asked whether each link
//! is met; the table is the largest such set.

mod common;

use common::circuit;
use second::bounded::{on_board, Bounded};
use second::calls;
use second::circuit::{Circuit, Files, Told};
use second::random::Random;
use second::simulation::{self, equal};

/// Whether a directed path of exactly so many links leads from v to w.
fn path(board: &Circuit, v: usize, w: usize, links: u16) -> bool {
    if links == 0 {
        return v == w;
    }
    let mut first = board.links.iter().filter(|link| link.0 == v);
    first.any(|link| path(board, link.1, w, links - 1))
}

/// Whether a set of pairs, (part, node), meets kinds, packages, every link of
/// the pattern from every pair, and has all parts or is empty.
fn holds(pattern: &Bounded, board: &Circuit, set: &[(usize, usize)]) -> bool {
    let paired = |u: usize, v: usize| set.contains(&(u, v));
    let joined = |v, w, bound| (1..=bound).any(|links| path(board, v, w, links));
    let nodes = || 0..board.kinds.len();
    let met = |&(u, v): &(usize, usize)| {
        let mut links = pattern.circuit.links.iter().zip(&pattern.bounds);
        links.all(|(&(s, e), &bound)| {
            (s != u || nodes().any(|w| paired(e, w) && joined(v, w, bound)))
                && (e != u || nodes().any(|w| paired(s, w) && joined(w, v, bound)))
        })
    };
    let occurs = |u| set.iter().any(|pair| pair.0 == u);
    let all = (0..pattern.circuit.kinds.len()).all(occurs);
    let alike = |&(u, v): &(usize, usize)| equal(&pattern.circuit, u, board, v);
    set.is_empty() || all && set.iter().all(alike) && set.iter().all(met)
}

/// Holds the table to its definition, and says how many pairs it has.
fn held(pattern: &Bounded, board: &Circuit) -> usize {
    let parts = pattern.circuit.kinds.len();
    let pairs = (0..parts).flat_map(|u| (0..board.kinds.len()).map(move |v| (u, v)));
    let alike = |&(u, v): &(usize, usize)| equal(&pattern.circuit, u, board, v);
    let pairs: Vec<(usize, usize)> = pairs.filter(alike).collect();
    let mut largest = vec![false; pairs.len()];
    for bits in 0..1usize << pairs.len() {
        let chosen = |i: &usize| bits >> i & 1 == 1;
        let set: Vec<_> = (0..pairs.len()).filter(chosen).map(|i| pairs[i]).collect();
        if holds(pattern, board, &set) {
            (0..pairs.len())
                .filter(chosen)
                .for_each(|i| largest[i] = true);
        }
    }
    let (table, counts) = on_board(pattern, board);
    for (&(u, v), &is) in pairs.iter().zip(&largest) {
        assert_eq!(table.rows[u][v], is);
    }
    let kept = largest.iter().filter(|&&is| is).count();
    assert_eq!((counts.started, counts.kept), (pairs.len(), kept));
    assert_eq!(counts.struck, counts.started - counts.kept);
    kept
}

/// A pattern of these kinds and links, each link with its bound.
fn bounded(kinds: &[u16], links: &[(usize, usize)], bounds: &[u16]) -> Bounded {
    Bounded {
        circuit: circuit(kinds, links),
        bounds: bounds.to_vec(),
    }
}

#[test]
fn examples() {
    let two = |bound| bounded(&[10, 20], &[(0, 1)], &[bound]);
    let chain = circuit(&[10, 99, 20], &[(0, 1), (1, 2)]);
    assert_eq!(held(&two(1), &chain), 0);
    assert_eq!(held(&two(2), &chain), 2);
    assert_eq!(held(&two(4), &chain), 2);
    let back = circuit(&[10, 99, 20], &[(1, 0), (2, 1)]);
    assert_eq!(held(&two(4), &back), 0);
    let itself = |bound| bounded(&[10], &[(0, 0)], &[bound]);
    let ring = circuit(&[10, 99], &[(0, 1), (1, 0)]);
    assert_eq!(held(&itself(1), &ring), 0);
    assert_eq!(held(&itself(2), &ring), 1);
    let alone = circuit(&[10], &[]);
    assert_eq!(held(&itself(4), &alone), 0);
    let spin = circuit(&[10, 20], &[(0, 0), (0, 1)]);
    assert_eq!(held(&two(4), &spin), 2);
}

#[test]
fn every_set_of_pairs() {
    let (mut some, mut none) = (0, 0);
    for number in 0..1500 {
        let mut random = Random::of_case(12, number);
        let parts = random.between(1, 3);
        let kinds = |random: &mut Random, n: usize| -> Vec<u16> {
            (0..n).map(|_| random.pick(&[0, 10, 20, 30])).collect()
        };
        let links = |random: &mut Random, n: usize, most: usize| {
            let count = random.below(most);
            let mut links: Vec<_> = (0..count)
                .map(|_| (random.below(n), random.below(n)))
                .collect();
            links.sort_unstable();
            links.dedup();
            links
        };
        let drawn = links(&mut random, parts, 4);
        let bounds: Vec<u16> = drawn.iter().map(|_| random.between(1, 4) as u16).collect();
        let mut pattern = bounded(&kinds(&mut random, parts), &drawn, &bounds);
        let nodes = random.between(1, 5);
        let given = links(&mut random, nodes, 8);
        let mut board = circuit(&kinds(&mut random, nodes), &given);
        if random.once_in(3) {
            let mut pack = |n| (0..n).map(|_| random.pick(&[0, 0, 3])).collect();
            pattern.circuit.packages = pack(parts);
            board.packages = pack(nodes);
        }
        let kept = held(&pattern, &board);
        some += usize::from(kept > 0);
        none += usize::from(kept == 0);
        pattern.bounds.fill(1);
        let plain = simulation::on_board(simulation::Ways::Both, &pattern.circuit, &board);
        assert_eq!(on_board(&pattern, &board), plain);
    }
    assert!(some > 300 && none > 300);
}

#[test]
fn refusals() {
    let board = circuit(&[10, 20], &[(0, 1)]).bytes();
    let pattern = bounded(&[10, 20], &[(0, 1)], &[2]);
    let asked = |file: &[u8], board: &[u8], lent: usize| {
        let mut table = vec![7; lent];
        let reply = calls::match_table(
            Files {
                pattern: Told::third(file),
                board: Told::first(board),
            },
            &mut table,
        );
        assert!(reply.number == 0 || table.iter().all(|&entry| entry == 7));
        (reply.number, reply.file.code())
    };
    let bytes = pattern.bytes();
    assert_eq!(bytes.len(), 4 + 4 * 2 + 6);
    assert_eq!(asked(&bytes, &board, 3), (0, 0));
    assert_eq!(asked(&bytes, &board, 1), (8, 0));
    assert_eq!(asked(&bytes, &[], 3), (1, 2));
    assert_eq!(asked(&bytes[..3], &board, 3), (1, 1));
    assert_eq!(asked(&bytes[..bytes.len() - 2], &board, 3), (3, 1));
    for bound in [0, 5, 257, 65535] {
        let wrong = bounded(&[10, 20], &[(0, 1)], &[bound]);
        assert_eq!(asked(&wrong.bytes(), &board, 3), (13, 1));
        assert_eq!(asked(&wrong.bytes(), &[], 0), (13, 1));
    }
    let falling = bounded(&[10], &[(0, 0), (0, 0)], &[5, 5]);
    assert_eq!(asked(&falling.bytes(), &board, 3), (5, 1));
    let apart = bounded(&[10, 20], &[], &[]);
    assert_eq!(asked(&apart.bytes(), &board, 3), (0, 0));
}
