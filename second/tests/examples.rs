//! The specification's examples E1 to E9, its examples of refusals and its
//! report, with the values written there.

mod common;

use common::circuit;
use second::calls::{self, Columns, Counted, PlaceTables, Reply};
use second::circuit::{Circuit, Edition, File, Files, Given, Role, Told};
use second::report;
use second::simulation::Counts;

/// T of the specification.
fn t() -> Vec<u8> {
    circuit(&[10, 20, 30], &[(0, 1), (1, 2)]).bytes()
}

/// B of the specification.
fn b() -> Vec<u8> {
    circuit(&[10, 20, 30, 20, 30, 10], &[(0, 1), (1, 2), (3, 4)]).bytes()
}

/// Y of the specification.
fn y() -> Circuit {
    circuit(&[10, 20, 20], &[(0, 1), (0, 2)])
}

fn counts(started: usize, kept: usize, struck: usize, rounds: usize) -> Counts {
    Counts {
        started,
        kept,
        struck,
        rounds,
    }
}

/// A place call's reply, with its node bytes, link bytes and table.
type Found = (Counted, Vec<u8>, Vec<u8>, Vec<u32>);

/// The place at a radius, or at the pattern's own.
fn place(pattern: &[u8], board: &[u8], centre: usize, radius: Option<u16>) -> Found {
    let field = |at: usize| usize::from(u16::from_le_bytes([board[at], board[at + 1]]));
    let (n, m) = (field(0), field(2));
    let (mut nodes, mut links, mut table) = (vec![7; n], vec![7; m], vec![7; n]);
    let mut distances = vec![7; n];
    let out = PlaceTables {
        nodes: &mut nodes,
        links: &mut links,
        table: &mut table,
        distances: &mut distances,
    };
    let reply = calls::place(Files::first(pattern, board), centre, radius, out);
    (reply, nodes, links, table)
}

fn merge(pattern: &[u8]) -> (Reply, Vec<u8>, Vec<u8>) {
    let (mut classes, mut out) = (vec![7; 32], vec![7; pattern.len()]);
    let reply = calls::merge(Told::first(pattern), &mut classes, &mut out);
    (reply, classes, out)
}

fn radius(pattern: &[u8]) -> Reply {
    calls::radius(Told::first(pattern))
}

fn match_table(pattern: &[u8], board: &[u8], table: &mut [u32]) -> Counted {
    calls::match_table(Files::first(pattern, board), table)
}

fn match_one_way(pattern: &[u8], board: &[u8], table: &mut [u32]) -> Counted {
    calls::match_one_way(Files::first(pattern, board), table)
}

fn report(pattern: &[u8], board: &[u8]) -> String {
    report::report(Files::first(pattern, board))
}

/// Reads a file in a role into tables of so many entries each.
fn read(role: Role, file: &[u8], lent: usize) -> Reply {
    let [mut kinds, mut packages, mut starts, mut ends] = [(); 4].map(|()| vec![0; lent]);
    let out = Columns {
        kinds: &mut kinds,
        packages: &mut packages,
        starts: &mut starts,
        ends: &mut ends,
    };
    calls::read(role.number(), Told::first(file), out)
}

#[test]
fn e1_radius() {
    assert_eq!(radius(&t()).first, 2);
    assert_eq!(radius(&circuit(&[10], &[]).bytes()).first, 0);
    assert_eq!(radius(&circuit(&[10], &[(0, 0)]).bytes()).first, 0);
}

#[test]
fn e2_table() {
    let mut table = [9; 7];
    let reply = match_table(&t(), &b(), &mut table);
    assert_eq!(reply.number, 0);
    assert_eq!(reply.counts, counts(6, 3, 3, 2));
    assert_eq!(table, [1, 2, 4, 0, 0, 0, 9]);
}

#[test]
fn e3_places() {
    for centre in 0..3 {
        let (reply, nodes, links, table) = place(&t(), &b(), centre, None);
        assert_eq!(reply.number, 0);
        assert_eq!(nodes, [1, 1, 1, 0, 0, 0]);
        assert_eq!(links, [1, 1, 0]);
        assert_eq!(table, [1, 2, 4, 0, 0, 0]);
    }
}

#[test]
fn e4_no_place() {
    let (reply, nodes, links, table) = place(&t(), &b(), 3, None);
    assert_eq!((reply.number, reply.file), (9, File::Neither));
    assert_eq!(reply.counts, counts(2, 0, 2, 2));
    assert_eq!((nodes, links, table), (vec![7; 6], vec![7; 3], vec![7; 6]));
}

#[test]
fn e5_ring() {
    let pattern = circuit(&[10, 20], &[(0, 1), (1, 0)]).bytes();
    let ring = circuit(&[10, 20, 10, 20], &[(0, 1), (1, 2), (2, 3), (3, 0)]).bytes();
    let mut table = [9; 4];
    assert_eq!(match_table(&pattern, &ring, &mut table).number, 0);
    assert_eq!(table, [1, 2, 1, 2]);
    for centre in 0..4 {
        assert_eq!(place(&pattern, &ring, centre, None).0.number, 9);
    }
}

#[test]
fn e6_merging() {
    let (reply, classes, out) = merge(&y().bytes());
    assert_eq!((reply.number, reply.first, reply.second), (0, 2, 12));
    assert_eq!(classes[..4], [0, 1, 1, 7]);
    assert_eq!(out[..12], circuit(&[10, 20], &[(0, 1)]).bytes());
    assert_eq!(out[12..], [7; 6]);
    assert_eq!(radius(&out[..12]).first, 1);
    assert_eq!(radius(&y().bytes()).first, 2);
}

#[test]
fn e7_merged_radius() {
    let (y, merged) = (y().bytes(), merge(&y().bytes()).2[..12].to_vec());
    assert_eq!(place(&y, &y, 1, Some(2)).1, [1, 1, 1]);
    assert_eq!(place(&merged, &y, 1, Some(2)).1, [1, 1, 1]);
    assert_eq!(place(&merged, &y, 1, None).1, [1, 1, 0]);
}

#[test]
fn e8_no_merging() {
    let pattern = circuit(&[10, 20, 20, 30], &[(0, 1), (0, 2), (2, 3)]).bytes();
    let (reply, classes, out) = merge(&pattern);
    assert_eq!((reply.first, reply.second), (4, pattern.len()));
    assert_eq!(classes[..4], [0, 1, 2, 3]);
    assert_eq!(out, pattern);
}

#[test]
fn e9_links_of_the_match_graph() {
    let pattern = circuit(&[10, 20], &[(0, 1)]).bytes();
    let board = circuit(&[10, 20], &[(0, 1), (1, 0)]).bytes();
    let (reply, nodes, links, _) = place(&pattern, &board, 0, None);
    assert_eq!(reply.number, 0);
    assert_eq!((nodes, links), (vec![1, 1], vec![1, 0]));
}

#[test]
fn refusals_about_one_file() {
    let examples: [(Role, u32, &[u8]); 6] = [
        (Role::Pattern, 1, &[2, 0, 1]),
        (Role::Pattern, 2, &[0, 0, 0, 0]),
        (Role::Pattern, 3, &[1, 0, 0, 0]),
        (Role::Pattern, 4, &[1, 0, 1, 0, 10, 0, 0, 0, 1, 0]),
        (
            Role::Pattern,
            5,
            &[1, 0, 2, 0, 10, 0, 0, 0, 0, 0, 0, 0, 0, 0],
        ),
        (Role::Pattern, 6, &[2, 0, 0, 0, 10, 0, 20, 0]),
    ];
    for (role, number, file) in examples {
        let reply = read(role, file, 0);
        assert_eq!((reply.number, reply.file), (number, File::Pattern));
        let reply = read(Role::Board, file, 9);
        let expected = if [2, 6].contains(&number) { 0 } else { number };
        assert_eq!(reply.number, expected);
        let board_line = match expected {
            0 => format!("end 0 of {}\n", reply.first),
            number => format!("refused {number} board\n"),
        };
        assert_eq!(report(&t(), file), board_line);
        assert_eq!(report(file, b"\xff"), format!("refused {number} pattern\n"));
    }
}

#[test]
fn refusals_about_no_one_file() {
    assert_eq!(place(&t(), &b(), 6, None).0.number, 7);
    assert_eq!(place(&t(), &b(), usize::MAX, Some(3)).0.number, 7);
    let reply = read(Role::Pattern, &t(), 2);
    assert_eq!((reply.number, reply.file), (8, File::Neither));
    let given = Given {
        kinds: &[1],
        packages: &[],
        starts: &[0],
        ends: &[],
    };
    let reply = calls::write(2, 1, given, &mut []);
    assert_eq!((reply.number, reply.file), (3, File::Board));
}

#[test]
fn report_of_the_specification() {
    let text = "place 0: 0 1 2 / 0-1 1-2\n\
                place 1: 0 1 2 / 0-1 1-2\n\
                place 2: 0 1 2 / 0-1 1-2\n\
                end 3 of 6\n";
    assert_eq!(report(&t(), &b()), text);
}

#[test]
fn a_report_in_pieces() {
    let (t, b) = (t(), b());
    let files = Files::first(&t, &b);
    let whole = report(&t, &b);
    for more in [0, 24, 25, 26, 60] {
        let (mut text, mut from, mut found) = (String::new(), 0, 0);
        while from < 7 {
            let piece = report::piece(files, from, found, report::LONGEST_LINE + more);
            assert!(piece.next > from);
            text += &piece.text;
            (from, found) = (piece.next, piece.found);
        }
        assert_eq!((&text, from, found), (&whole, 7, 3));
    }
    assert_eq!(report::piece(files, 0, 0, report::LONGEST_LINE).next, 1);
    let past = report::piece(files, 9, 3, report::LONGEST_LINE);
    assert_eq!((past.text.len(), past.next, past.found), (0, 9, 3));
}

/// T with packages, on itself and on T without.
#[test]
fn places_with_packages() {
    let mut packed = circuit(&[10, 20, 30], &[(0, 1), (1, 2)]);
    packed.packages = vec![3, 0, 4];
    let (plain, packed) = (t(), packed.bytes_in(Edition::Second));
    let (first, second) = (Edition::First, Edition::Second);
    let of = |editions, pattern, board| report::report(Files::of(editions, pattern, board));
    let own = of([second; 2], &packed, &packed);
    assert_eq!(own, report(&plain, &plain));
    assert_eq!(of([first, second], &plain, &packed), "end 0 of 3\n");
    assert_eq!(of([second, first], &packed, &plain), "end 0 of 3\n");
    assert_eq!(of([first; 2], &packed, &plain), "refused 3 pattern\n");
}

#[test]
fn numbers_count() {
    let counted = [0, 1, 2, 3, 4, u32::MAX].map(Edition::counted);
    let (first, second) = (Edition::First, Edition::Second);
    assert_eq!(counted, [first, first, second, second, second, second]);
    let third = |edition| {
        Told {
            bytes: &[],
            edition,
        }
        .is_third()
    };
    assert_eq!(
        [1, 2, 3, 4, u32::MAX].map(third),
        [false, false, true, true, true]
    );
    assert_eq!(
        [0, 1, 2, 3].map(Role::counted),
        [Role::Pattern, Role::Pattern, Role::Board, Role::Board]
    );
}

#[test]
fn report_at_the_edges() {
    let one = circuit(&[10], &[]).bytes();
    let none = circuit(&[], &[]).bytes();
    assert_eq!(report(&one, &one), "place 0: 0 /\nend 1 of 1\n");
    assert_eq!(report(&one, &none), "end 0 of 0\n");
    assert_eq!(report(&[], &[]), "refused 1 pattern\n");
    assert_eq!(report(&one, &[]), "refused 1 board\n");
}

#[test]
fn a_part_of_kind_0_matches_every_kind() {
    let any_to_20 = circuit(&[0, 20], &[(0, 1)]).bytes();
    let mut table = [9; 6];
    let reply = match_table(&any_to_20, &b(), &mut table);
    assert_eq!((reply.number, reply.counts), (0, counts(8, 2, 6, 1)));
    assert_eq!(table, [1, 2, 0, 0, 0, 0]);
    let any = circuit(&[0], &[]).bytes();
    for centre in 0..6 {
        let (reply, nodes, ..) = place(&any, &b(), centre, None);
        let only = (0..6).map(|v| u8::from(v == centre)).collect::<Vec<_>>();
        assert_eq!((reply.number, nodes), (0, only));
    }
}

#[test]
fn a_node_of_kind_0_is_matched_by_such_a_part_only() {
    let board = circuit(&[0, 20], &[(0, 1)]).bytes();
    let ten = circuit(&[10, 20], &[(0, 1)]).bytes();
    let any = circuit(&[0, 20], &[(0, 1)]).bytes();
    for centre in 0..2 {
        assert_eq!(place(&ten, &board, centre, None).0.number, 9);
        assert_eq!(place(&any, &board, centre, None).1, [1, 1]);
    }
}

#[test]
fn parts_of_kind_0_and_10_do_not_merge() {
    let (reply, classes, _) = merge(&circuit(&[20, 0, 10], &[(0, 1), (0, 2)]).bytes());
    assert_eq!((reply.first, &classes[..3]), (3, &[0, 1, 2][..]));
    let (reply, classes, out) = merge(&circuit(&[20, 0, 0], &[(0, 1), (0, 2)]).bytes());
    assert_eq!((reply.first, &classes[..3]), (2, &[0, 1, 1][..]));
    assert_eq!(out[..12], circuit(&[20, 0], &[(0, 1)]).bytes());
}

#[test]
fn patterns_in_several_bits() {
    let stereo = circuit(&[10, 20, 30, 11, 21, 31], &[(0, 1), (1, 2), (3, 4), (4, 5)]).bytes();
    let both = circuit(
        &[10, 20, 30, 11, 21, 31, 20],
        &[(0, 1), (1, 2), (3, 4), (4, 5)],
    )
    .bytes();
    let mut table = [9; 8];
    let reply = match_table(&stereo, &both, &mut table);
    assert_eq!((reply.number, reply.counts), (0, counts(7, 6, 1, 1)));
    assert_eq!(table, [1, 2, 4, 8, 16, 32, 0, 9]);
    let reply = match_table(&stereo, &b(), &mut table);
    assert_eq!((reply.number, reply.counts), (0, counts(6, 0, 6, 2)));
    assert_eq!(table, [0, 0, 0, 0, 0, 0, 0, 9]);
    assert_eq!(radius(&stereo).number, 6);
    assert_eq!(place(&stereo, &both, 0, None).0.number, 6);
    assert_eq!(report(&stereo, &both), "refused 6 pattern\n");
}

#[test]
fn one_way() {
    // On B part 1 of T is matched one way by node 3 as well, which nothing drives.
    let mut table = [9; 7];
    let reply = match_one_way(&t(), &b(), &mut table);
    assert_eq!((reply.number, reply.counts), (0, counts(6, 5, 1, 1)));
    assert_eq!(table, [1, 2, 4, 2, 4, 0, 9]);
    // A connected pattern of which some parts have nodes and one has none.
    let pattern = circuit(&[10, 20], &[(0, 1)]).bytes();
    let board = circuit(&[20, 10], &[(0, 1)]).bytes();
    let reply = match_one_way(&pattern, &board, &mut table);
    assert_eq!((reply.number, reply.counts), (0, counts(2, 0, 2, 1)));
    assert_eq!(table[..3], [0, 0, 4]);
}
