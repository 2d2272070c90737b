//! Merged as far as it goes: every grouping of a small pattern's parts, members
//! of a group having the same kind, made into a pattern as merging does. Where
//! on every board tried a node matches each group exactly when it matches each
//! single member of it, there are at least as many groups as classes; and the
//! classes are such a grouping.

mod common;

use common::circuit;
use second::calls;
use second::circuit::{Circuit, Files, Told};
use second::graph;
use second::random::Random;

/// The group of each part.
type Grouping = Vec<usize>;

/// Every grouping of so many parts, groups numbered by their first part.
fn groupings(parts: usize) -> Vec<Grouping> {
    let mut all = vec![Vec::new()];
    for _ in 0..parts {
        let longer = |grouping: Grouping| {
            let next = (0..=count(&grouping)).map(move |group| (grouping.clone(), group));
            next.map(|(mut grouping, group)| {
                grouping.push(group);
                grouping
            })
        };
        all = all.into_iter().flat_map(longer).collect();
    }
    all
}

/// How many groups there are.
fn count(grouping: &[usize]) -> usize {
    grouping.iter().max().map_or(0, |&last| last + 1)
}

/// Whether the parts of every group have a thing in common.
fn in_common(grouping: &[usize], same: impl Fn(usize, usize) -> bool) -> bool {
    let parts = 0..grouping.len();
    let together = |u: usize, t: usize| grouping[u] == grouping[t];
    parts
        .clone()
        .all(|u| parts.clone().all(|t| !together(u, t) || same(u, t)))
}

/// The pattern that a grouping makes.
fn made(pattern: &Circuit, grouping: &[usize]) -> Circuit {
    let group = |a: usize| grouping.iter().position(|&g| g == a);
    let kind = |a: usize| pattern.kinds[group(a).expect("a member")];
    let links = pattern.links.iter();
    let mut links: Vec<_> = links.map(|&(u, t)| (grouping[u], grouping[t])).collect();
    links.sort();
    links.dedup();
    Circuit {
        kinds: (0..count(grouping)).map(kind).collect(),
        packages: Vec::new(),
        links,
    }
}

/// What the table call leaves.
fn table(pattern: &Circuit, board: &Circuit) -> Vec<u32> {
    let mut table = vec![0; board.kinds.len()];
    let files = [pattern, board].map(Circuit::bytes);
    let reply = calls::match_table(Files::first(&files[0], &files[1]), &mut table);
    assert_eq!(reply.number, 0, "{pattern:?} {board:?}");
    table
}

/// Whether on a board a node matches each group exactly when it matches each
/// single member of it.
fn supposed(first: &[u32], second: &[u32], grouping: &[usize]) -> bool {
    let member = |(u, &a): (usize, &usize)| {
        let mut both = first.iter().zip(second);
        both.all(|(first, second)| second >> a & 1 == first >> u & 1)
    };
    grouping.iter().enumerate().all(member)
}

/// The classes that the merging call gives, as many as it replies.
fn classes(pattern: &Circuit) -> Grouping {
    let file = pattern.bytes();
    let mut classes = vec![0; pattern.kinds.len()];
    let reply = calls::merge(Told::first(&file), &mut classes, &mut vec![0; file.len()]);
    let classes = classes.into_iter().map(usize::from).collect::<Grouping>();
    assert_eq!((reply.number, reply.first), (0, count(&classes)));
    classes
}

/// What became of the groupings of some patterns.
#[derive(Default)]
struct Seen {
    supposed: usize,
    more: usize,
    not: usize,
}

/// Every grouping of a pattern: it matches as its members do, on the boards and
/// on the pattern itself, exactly when it joins nothing that merging does not.
fn try_groupings(pattern: &Circuit, boards: &[Circuit], seen: &mut Seen) {
    let ours = classes(pattern);
    let boards = || boards.iter().chain([pattern]);
    let first: Vec<_> = boards().map(|board| table(pattern, board)).collect();
    for grouping in groupings(pattern.kinds.len()) {
        if !in_common(&grouping, |u, t| pattern.kinds[u] == pattern.kinds[t]) {
            assert_ne!(grouping, ours);
            continue;
        }
        let second = made(pattern, &grouping);
        let each = |(board, first): (&Circuit, &Vec<u32>)| {
            supposed(first, &table(&second, board), &grouping)
        };
        let holds = boards().zip(&first).all(each);
        let finer = in_common(&grouping, |u, t| ours[u] == ours[t]);
        assert_eq!(holds, finer, "{pattern:?} {grouping:?}");
        assert!(!holds || count(&grouping) >= count(&ours));
        seen.supposed += usize::from(holds);
        seen.more += usize::from(holds && count(&grouping) > count(&ours));
        seen.not += usize::from(!holds);
    }
}

/// Every circuit of so many nodes, of kinds below another number.
fn circuits(nodes: usize, kinds: u32) -> impl Iterator<Item = Circuit> {
    let drawn = move |number: u32| {
        (0..nodes as u32)
            .map(|v| (number / kinds.pow(v) % kinds) as u16)
            .collect()
    };
    let pair = move |bit: usize| (bit / nodes, bit % nodes);
    let linked = move |number: u32| {
        let bits = (0..nodes * nodes).filter(move |bit| number >> bit & 1 == 1);
        bits.map(pair).collect()
    };
    (0..kinds.pow(nodes as u32)).flat_map(move |kinds| {
        (0..1 << (nodes * nodes)).map(move |links| Circuit {
            kinds: drawn(kinds),
            packages: Vec::new(),
            links: linked(links),
        })
    })
}

#[test]
fn all_small_patterns_on_all_small_boards() {
    let boards: Vec<_> = (0..3).flat_map(|nodes| circuits(nodes, 2)).collect();
    let mut seen = Seen::default();
    for pattern in (1..4).flat_map(|parts| circuits(parts, 2)) {
        if graph::connected(pattern.kinds.len(), &pattern.links) {
            try_groupings(&pattern, &boards, &mut seen);
        }
    }
    println!("{} {} {}", seen.supposed, seen.more, seen.not);
    assert!(seen.supposed > 1000 && seen.more > 100 && seen.not > 1000);
}

#[test]
fn random_patterns_on_random_boards() {
    let drawn = |random: &mut Random, nodes: usize, links: usize| {
        let mut links: Vec<_> = (0..random.below(links + 1))
            .map(|_| (random.below(nodes), random.below(nodes)))
            .collect();
        links.sort();
        links.dedup();
        Circuit {
            kinds: (0..nodes).map(|_| random.below(2) as u16).collect(),
            packages: Vec::new(),
            links,
        }
    };
    let mut seen = Seen::default();
    for case in 0..2_000 {
        let mut random = Random::of_case(4, case);
        let parts = random.between(4, 6);
        let pattern = drawn(&mut random, parts, 8);
        if graph::connected(parts, &pattern.links) {
            let boards: Vec<_> = (0..4).map(|_| drawn(&mut random, 8, 14)).collect();
            try_groupings(&pattern, &boards, &mut seen);
        }
    }
    println!("{} {} {}", seen.supposed, seen.more, seen.not);
    assert!(seen.supposed > 500 && seen.more > 50 && seen.not > 5000);
}

#[test]
fn two_groupings() {
    let y = circuit(&[10, 20, 20], &[(0, 1), (0, 2)]);
    assert_eq!(made(&y, &[0, 1, 2]), y);
    assert_eq!(classes(&y), [0, 1, 1]);
    let e8 = circuit(&[10, 20, 20, 30], &[(0, 1), (0, 2), (2, 3)]);
    let t = circuit(&[10, 20, 30], &[(0, 1), (1, 2)]);
    assert_eq!(made(&e8, &[0, 1, 1, 2]), t);
    assert_eq!(table(&e8, &e8), [1, 2, 6, 8]);
    assert_eq!(table(&t, &e8), [1, 0, 2, 4]);
}
