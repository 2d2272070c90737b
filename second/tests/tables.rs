//! Lent tables: too short by one, exact, and longer. A refusal changes no
//! table, and an accepted call leaves the entries past those needed.

mod common;

use common::circuit;
use second::calls::{self, Columns, PlaceTables, Reply};
use second::circuit::{Edition, File, Files, Given, Told};

/// A pattern of 3 parts and 3 links, the last two to be merged.
fn pattern() -> Vec<u8> {
    circuit(&[5, 6, 6], &[(0, 0), (0, 1), (0, 2)]).bytes()
}

/// The lengths around those needed, each with the one table too short, if any.
fn lengths<const T: usize>(needed: [usize; T]) -> Vec<([usize; T], bool)> {
    let shorter = (0..T).map(|at| {
        let mut lent = needed.map(|n| n + 1);
        lent[at] = needed[at] - 1;
        (lent, false)
    });
    let longer = (0..T).map(|at| {
        let mut lent = needed;
        lent[at] += 3;
        (lent, true)
    });
    shorter.chain([(needed, true)]).chain(longer).collect()
}

/// A table of a known filling.
fn filled<T: From<u8> + Clone>(length: usize) -> Vec<T> {
    vec![T::from(0xA5); length]
}

/// The values first, and then the filling up to the table's length.
fn starting<T: From<u8> + Clone>(values: &[T], length: usize) -> Vec<T> {
    let mut table = values.to_vec();
    table.resize(length, T::from(0xA5));
    table
}

/// Refused with 8 of neither file, and no values.
fn too_short(reply: &Reply) {
    assert_eq!((reply.number, reply.file), (8, File::Neither));
    assert_eq!((reply.first, reply.second), (0, 0));
}

/// The roles' numbers.
const ROLES: [u32; 2] = [1, 2];

#[test]
fn reading() {
    let file = pattern();
    for (role, ([a, b, c], enough)) in each_role(lengths([3, 3, 3])) {
        let (mut kinds, mut starts, mut ends) = (filled(a), filled(b), filled(c));
        let mut packages = filled(2);
        let out = Columns {
            kinds: &mut kinds,
            packages: &mut packages,
            starts: &mut starts,
            ends: &mut ends,
        };
        let reply = calls::read(role, Told::first(&file), out);
        let tables = (kinds, starts, ends);
        assert_eq!(packages, filled(2));
        if enough {
            assert_eq!((reply.number, reply.first, reply.second), (0, 3, 3));
            let read = (
                starting(&[5, 6, 6], a),
                starting(&[0, 0, 0], b),
                starting(&[0, 1, 2], c),
            );
            assert_eq!(tables, read);
        } else {
            too_short(&reply);
            assert_eq!(tables, (filled(a), filled(b), filled(c)));
        }
    }
}

/// Each with either role.
fn each_role<T: Clone>(all: Vec<T>) -> impl Iterator<Item = (u32, T)> {
    ROLES
        .into_iter()
        .flat_map(move |role| all.clone().into_iter().map(move |one| (role, one)))
}

#[test]
fn reading_packages() {
    let mut packed = circuit(&[5, 6, 6], &[(0, 0), (0, 1), (0, 2)]);
    packed.packages = vec![7, 8, 9];
    let file = packed.bytes_in(Edition::Second);
    for (role, ([length], enough)) in each_role(lengths([3])) {
        let (mut kinds, mut starts, mut ends) = ([0; 3], [0; 3], [0; 3]);
        let mut packages = filled(length);
        let out = Columns {
            kinds: &mut kinds,
            packages: &mut packages,
            starts: &mut starts,
            ends: &mut ends,
        };
        let reply = calls::read(role, Told::of(Edition::Second, &file), out);
        if enough {
            assert_eq!((reply.number, kinds), (0, [5, 6, 6]));
            assert_eq!(packages, starting(&[7, 8, 9], length));
        } else {
            too_short(&reply);
            assert_eq!((packages, kinds), (filled(length), [0; 3]));
        }
    }
}

#[test]
fn writing() {
    let given = Given {
        kinds: &[5, 6, 6],
        packages: &[1],
        starts: &[0, 0, 0],
        ends: &[0, 1, 2],
    };
    for (role, ([length], enough)) in each_role(lengths([22])) {
        let mut out = filled(length);
        let reply = calls::write(role, 1, given, &mut out);
        if enough {
            assert_eq!((reply.number, reply.first, reply.second), (0, 22, 0));
            assert_eq!(out, starting(&pattern(), length));
        } else {
            too_short(&reply);
            assert_eq!(out, filled(length));
        }
        let reply = calls::write(role, 2, given, &mut out);
        assert_eq!((reply.number, reply.first), (3, 0));
    }
}

#[test]
fn ball() {
    for ([length], enough) in lengths([3]) {
        let mut out = filled(length);
        let reply = calls::ball(Told::first(&pattern()), 1, 1, &mut out);
        if enough {
            assert_eq!((reply.number, reply.first), (0, 3));
            assert_eq!(out, starting(&[1, 0, 65535], length));
        } else {
            too_short(&reply);
            assert_eq!(out, filled(length));
        }
    }
}

#[test]
fn match_table() {
    for ([length], enough) in lengths([3]) {
        let mut table = filled(length);
        let file = pattern();
        let reply = calls::match_table(Files::first(&file, &file), &mut table);
        if enough {
            assert_eq!((reply.number, reply.counts.kept), (0, 5));
            assert_eq!(table, starting(&[1, 6, 6], length));
        } else {
            assert_eq!((reply.number, reply.file), (8, File::Neither));
            assert_eq!(reply.counts, Default::default());
            assert_eq!(table, filled(length));
        }
    }
}

#[test]
fn place() {
    for radius in [None, Some(1)] {
        for ([a, b, c, d], enough) in lengths([3, 3, 3, 3]) {
            let (mut nodes, mut links, mut table) = (filled(a), filled(b), filled(c));
            let mut distances = filled(d);
            let out = PlaceTables {
                nodes: &mut nodes,
                links: &mut links,
                table: &mut table,
                distances: &mut distances,
            };
            let file = pattern();
            let reply = calls::place(Files::first(&file, &file), 1, radius, out);
            let last = u8::from(radius.is_none());
            let words = [1, 6, 6 * u32::from(last)];
            let far = [1, 0, if radius.is_none() { 2 } else { 65535 }];
            let tables = (nodes, links, table, distances);
            if enough {
                assert_eq!(reply.number, 0);
                let (ones, words) = (starting(&[1, 1, last], a), starting(&words, c));
                let links = starting(&[1, 1, last], b);
                assert_eq!(tables, (ones, links, words, starting(&far, d)));
            } else {
                assert_eq!((reply.number, reply.file), (8, File::Neither));
                assert_eq!(reply.counts, Default::default());
                let kept = (filled(a), filled(b), filled(c), filled(d));
                assert_eq!(tables, kept);
            }
        }
    }
}

#[test]
fn merging() {
    let merged = circuit(&[5, 6], &[(0, 0), (0, 1)]).bytes();
    for ([a, b], enough) in lengths([3, 22]) {
        let (mut classes, mut out) = (filled(a), filled(b));
        let reply = calls::merge(Told::first(&pattern()), &mut classes, &mut out);
        if enough {
            assert_eq!((reply.number, reply.first, reply.second), (0, 2, 16));
            assert_eq!(classes, starting(&[0, 1, 1], a));
            assert_eq!(out, starting(&merged, b));
        } else {
            too_short(&reply);
            assert_eq!((classes, out), (filled(a), filled(b)));
        }
    }
}
