//! The test load: a small one worked out by hand, ranges, lent bytes, and
//! that every load is a board.

use second::calls;
use second::circuit::{File, Role, Told};
use second::load::{load, Numbers};
use second::random::Random;

fn numbers(seed: u32, nodes: u32, pairs: u32, kinds: u32) -> Numbers {
    Numbers {
        seed,
        nodes,
        pairs,
        kinds,
    }
}

/// From seed 0 the states are 1013904223, 1196435762, 3519870697, 2868466484,
/// 1649599747, 2670642822, .., whose top 16 bits are 15470, 18256, 53708, 43769,
/// 25170, 40750, ..
#[test]
fn a_small_load() {
    let circuit = load(numbers(0, 2, 2, 100));
    assert_eq!(circuit.kinds, [70, 56]);
    assert_eq!(circuit.links, [(0, 0), (0, 1)]);
    assert_eq!(
        circuit.bytes(),
        [2, 0, 2, 0, 70, 0, 56, 0, 0, 0, 0, 0, 0, 0, 1, 0]
    );
}

#[test]
fn ranges() {
    let of = |n, m, k, lent: usize| {
        let reply = calls::load(numbers(7, n, m, k), &mut vec![0; lent]);
        (reply.number, reply.file)
    };
    let most = 4 + 2 * 512 + 4 * 4096;
    assert_eq!(of(512, 4096, 65536, most), (0, File::Neither));
    assert_eq!(of(1, 0, 1, 6), (0, File::Neither));
    assert_eq!(of(512, 4096, 65536, most - 1), (8, File::Neither));
    for (n, m, k) in [
        (0, 1, 1),
        (513, 1, 1),
        (1, 4097, 1),
        (1, 1, 0),
        (1, 1, 65537),
    ] {
        assert_eq!(of(n, m, k, 0), (10, File::Neither));
        assert_eq!(of(n, m, k, most), (10, File::Neither));
    }
}

/// One node has one link, however often it is drawn; the bytes are asked for as
/// if it were not.
#[test]
fn drawn_twice() {
    let mut out = [9; 27];
    let reply = calls::load(numbers(3, 1, 5, 1), &mut out[..26]);
    assert_eq!((reply.number, reply.first), (0, 10));
    assert_eq!(out[..10], [1, 0, 1, 0, 0, 0, 0, 0, 0, 0]);
    assert_eq!(out[10..], [9; 17]);
    let mut short = [9; 25];
    assert_eq!(calls::load(numbers(3, 1, 5, 1), &mut short).number, 8);
    assert_eq!(short, [9; 25]);
}

#[test]
fn every_load_is_a_board() {
    let mut random = Random::of_case(1, 1);
    for _ in 0..200 {
        let (n, m) = (1 + random.below(512) as u32, random.below(4097) as u32);
        let k = 1 + random.below(65536) as u32;
        let circuit = load(numbers(random.draw() as u32, n, m, k));
        assert_eq!(circuit.kinds.len(), n as usize);
        assert!(circuit.links.len() <= m as usize);
        assert_eq!(Told::first(&circuit.bytes()).read(Role::Board), Ok(circuit));
    }
}
