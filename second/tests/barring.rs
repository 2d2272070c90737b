//! The least that still says none, by its definition: every set of links of
//! every small pattern, tried at every centre without a place. The kept links
//! bar, and no set that has fewer of them does; 15 exactly where there is a
//! place.

mod common;

use common::circuit;
use second::barring::{bars, least};
use second::calls;
use second::circuit::{Circuit, Edition, Files};
use second::graph::radius;
use second::place::place;
use second::random::Random;

/// Every choice of so many links.
fn choices(links: usize) -> impl Iterator<Item = Vec<bool>> {
    (0..1usize << links).map(move |bits| (0..links).map(|i| bits >> i & 1 == 1).collect())
}

/// Whether all of one choice is in another.
fn within(one: &[bool], other: &[bool]) -> bool {
    one.iter().zip(other).all(|(&a, &b)| !a || b)
}

/// Holds the kept links at a centre to their definition, and says how many
/// there are; none where the centre has a place.
fn held(pattern: &Circuit, board: &Circuit, centre: usize) -> Option<usize> {
    let mut out = vec![7; pattern.links.len() + 2];
    let files = [pattern, board].map(|c| c.bytes_in(Edition::Second));
    let files = Files::of([Edition::Second; 2], &files[0], &files[1]);
    let reply = calls::bar(files, centre, &mut out);
    let all = vec![true; pattern.links.len()];
    let found = place(pattern, board, centre, radius(pattern)).0.is_some();
    assert_eq!(found, !bars(pattern, board, centre, &all));
    if found {
        assert_eq!((reply.number, reply.first), (15, 0));
        assert!(out.iter().all(|&byte| byte == 7));
        return None;
    }
    let kept = least(pattern, board, centre);
    assert!(bars(pattern, board, centre, &kept));
    for fewer in choices(kept.len()) {
        if within(&fewer, &kept) && fewer != kept {
            assert!(!bars(pattern, board, centre, &fewer));
        }
    }
    let count = kept.iter().filter(|&&is| is).count();
    assert_eq!((reply.number, reply.first), (0, count));
    let bytes: Vec<u8> = kept.iter().map(|&is| is.into()).collect();
    assert_eq!(out[..kept.len()], bytes);
    assert_eq!(out[kept.len()..], [7, 7]);
    Some(count)
}

#[test]
fn examples() {
    let t = circuit(&[10, 20, 30], &[(0, 1), (1, 2)]);
    let b = circuit(&[10, 20, 30, 20, 30, 10], &[(0, 1), (1, 2), (3, 4)]);
    assert_eq!(least(&t, &b, 3), [true, false]);
    assert_eq!(held(&t, &b, 3), Some(1));
    assert_eq!(held(&t, &b, 0), None);
    let one_link = circuit(&[10, 20], &[(0, 1)]);
    assert_eq!(least(&t, &one_link, 0), [true, true]);
    let stranger = circuit(&[40], &[]);
    assert_eq!(held(&t, &stranger, 0), Some(0));
    let packed = Circuit {
        packages: vec![3],
        ..circuit(&[10], &[])
    };
    assert_eq!(held(&t, &packed, 0), Some(0));
}

#[test]
fn every_set_of_links() {
    let (mut barred, mut placed, mut more) = (0, 0, 0);
    for number in 0..4000 {
        let mut random = Random::of_case(14, number);
        let parts = random.between(1, 4);
        let kinds = |random: &mut Random, n: usize| -> Vec<u16> {
            (0..n).map(|_| random.pick(&[0, 10, 10, 20, 20])).collect()
        };
        let mut links: Vec<_> = (1..parts).map(|v| (random.below(v), v)).collect();
        for _ in 0..random.below(4) {
            links.push((random.below(parts), random.below(parts)));
        }
        links.sort_unstable();
        links.dedup();
        let mut pattern = circuit(&kinds(&mut random, parts), &links);
        let nodes = random.between(1, 6);
        let mut links: Vec<_> = (0..random.below(12))
            .map(|_| (random.below(nodes), random.below(nodes)))
            .collect();
        links.sort_unstable();
        links.dedup();
        let mut board = circuit(&kinds(&mut random, nodes), &links);
        if random.once_in(2) {
            let mut pack = |n| (0..n).map(|_| random.pick(&[0, 0, 0, 3])).collect();
            pattern.packages = pack(parts);
            board.packages = pack(nodes);
        }
        for centre in 0..nodes {
            match held(&pattern, &board, centre) {
                None => placed += 1,
                Some(count) => {
                    barred += 1;
                    more += usize::from(count > 1);
                }
            }
        }
    }
    assert!(barred > 1000 && placed > 1000 && more > 200);
}
