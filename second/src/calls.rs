//! The calls with their replies and lent tables. Every call first works out
//! its whole result or a refusal, and only then fills what was lent; entries
//! past those needed keep their content.

use std::cmp::Ordering;

use crate::barring::least;
use crate::bounded;
use crate::check::{marked, perfect};
use crate::circuit::{
    counted, read_bounded, Circuit, Edition, File, Files, Given, Refusal, Role, Told,
};
use crate::graph::{radius as radius_of, within};
use crate::load::{load as load_of, Numbers};
use crate::merged::merged;
use crate::place::{place as place_of, Place};
use crate::report::{piece, LONGEST_LINE, LONGEST_REFUSAL};
use crate::shelf;
use crate::simulation::{on_board, Counts, Pairs, Ways};

/// The reply of a call without counts: number 0 when accepted, and up to two
/// values, 0 where there is none.
#[derive(Clone, Copy, Debug, PartialEq, Eq)]
pub struct Reply {
    pub number: u32,
    pub file: File,
    pub first: usize,
    pub second: usize,
}

impl Reply {
    /// An accepted call's reply.
    fn accepted(first: usize, second: usize) -> Reply {
        Reply {
            number: 0,
            file: File::Neither,
            first,
            second,
        }
    }
}

impl From<Refusal> for Reply {
    fn from(refusal: Refusal) -> Reply {
        Reply {
            number: refusal.number,
            file: refusal.file,
            first: 0,
            second: 0,
        }
    }
}

/// The reply of a call with counts: number 0 when accepted.
#[derive(Clone, Copy, Debug, PartialEq, Eq)]
pub struct Counted {
    pub number: u32,
    pub file: File,
    pub counts: Counts,
}

impl Counted {
    /// An accepted call's reply.
    fn accepted(counts: Counts) -> Counted {
        Counted {
            number: 0,
            file: File::Neither,
            counts,
        }
    }
}

impl From<Refusal> for Counted {
    fn from(refusal: Refusal) -> Counted {
        Counted {
            number: refusal.number,
            file: refusal.file,
            counts: Counts::default(),
        }
    }
}

/// The reply of a comparison: which of the two files a refusal means, 1 or 2,
/// and how the circuits rank, 1 less, 2 equal, 3 greater; 0 where there is none.
#[derive(Clone, Copy, Debug, PartialEq, Eq)]
pub struct Comparison {
    pub number: u32,
    pub file: File,
    pub which: u32,
    pub order: u32,
}

impl Comparison {
    /// A refusal of one of the files.
    fn refused(refusal: Refusal, which: u32) -> Comparison {
        Comparison {
            number: refusal.number,
            file: refusal.file,
            which,
            order: 0,
        }
    }
}

/// The reply of a call that puts a piece of a report: where to go on, how many
/// centres before that have a place, and how many bytes were put.
#[derive(Clone, Copy, Debug, PartialEq, Eq)]
pub struct Put {
    pub number: u32,
    pub file: File,
    pub next: usize,
    pub found: usize,
    pub size: usize,
}

impl From<Refusal> for Put {
    fn from(refusal: Refusal) -> Put {
        Put {
            number: refusal.number,
            file: refusal.file,
            next: 0,
            found: 0,
            size: 0,
        }
    }
}

/// The one of two replies that the call came to.
fn either<R: From<Refusal>>(result: Result<R, Refusal>) -> R {
    result.unwrap_or_else(R::from)
}

/// Refusal 8 unless every lent table is as long as needed.
fn long_enough(lent_and_needed: &[(usize, usize)]) -> Result<(), Refusal> {
    if lent_and_needed.iter().any(|(lent, needed)| lent < needed) {
        return Err(Refusal::neither(8));
    }
    Ok(())
}

/// Fills the first entries of a lent table.
fn fill<T>(table: &mut [T], values: impl IntoIterator<Item = T>) {
    for (entry, value) in table.iter_mut().zip(values) {
        *entry = value;
    }
}

/// A number that its definition keeps below 2^16, as a 16-bit field.
fn field(number: usize) -> u16 {
    u16::try_from(number).expect("a 16-bit number")
}

/// What reading fills.
pub struct Columns<'a> {
    pub kinds: &'a mut [u16],
    pub packages: &'a mut [u16],
    pub starts: &'a mut [u16],
    pub ends: &'a mut [u16],
}

/// Reads a file in a role; replies with N and M. In the first edition packages
/// are neither needed nor touched.
pub fn read(role: u32, file: Told, out: Columns) -> Reply {
    either(file.read(Role::counted(role)).and_then(|circuit| {
        let (n, m) = (circuit.kinds.len(), circuit.links.len());
        let packages = match Edition::counted(file.edition) {
            Edition::First => vec![],
            Edition::Second => circuit.all_packages(),
        };
        let nodes = [(out.kinds.len(), n), (out.packages.len(), packages.len())];
        long_enough(&nodes)?;
        long_enough(&[(out.starts.len(), m), (out.ends.len(), m)])?;
        fill(out.kinds, circuit.kinds.iter().copied());
        fill(out.packages, packages);
        fill(out.starts, circuit.links.iter().map(|link| field(link.0)));
        fill(out.ends, circuit.links.iter().map(|link| field(link.1)));
        Ok(Reply::accepted(n, m))
    }))
}

/// Fills a file into bytes lent; replies with its length.
fn put_file(bytes: Vec<u8>, out: &mut [u8]) -> Result<Reply, Refusal> {
    let length = bytes.len();
    long_enough(&[(out.len(), length)])?;
    fill(out, bytes);
    Ok(Reply::accepted(length, 0))
}

/// Writes a file in a role and an edition; replies with its length.
pub fn write(role: u32, edition: u32, given: Given, out: &mut [u8]) -> Reply {
    let edition = Edition::counted(edition);
    let circuit = given.circuit(Role::counted(role), edition);
    either(circuit.and_then(|circuit| put_file(circuit.bytes_in(edition), out)))
}

/// Converts a file from its edition to another in a role; replies with the new
/// file's length. The first edition has no place for a package other than 0.
pub fn convert(role: u32, file: Told, to: u32, out: &mut [u8]) -> Reply {
    let (role, to) = (Role::counted(role), Edition::counted(to));
    either(file.read(role).and_then(|circuit| {
        let packed = circuit.packages.iter().any(|&package| package != 0);
        if to == Edition::First && packed {
            return Err(role.refuses(12));
        }
        put_file(circuit.bytes_in(to), out)
    }))
}

/// Offsets and links, forward and backward, and a node to look up in them.
#[derive(Clone, Copy, Debug, PartialEq, Eq)]
pub struct Lookup<'a> {
    pub forward_offsets: &'a [u16],
    pub forward: &'a [u16],
    pub backward_offsets: &'a [u16],
    pub backward: &'a [u16],
    pub node: usize,
}

impl<'a> Lookup<'a> {
    /// The stretch of a direction's links that the node's two offsets are about:
    /// empty where it has no two, or where they fall back or pass the end.
    pub fn stretch(self, direction: u32) -> &'a [u16] {
        let forward = (self.forward_offsets, self.forward);
        let (offsets, links) =
            counted(direction, [forward, (self.backward_offsets, self.backward)]);
        let two = offsets.get(self.node..).and_then(|rest| rest.get(..2));
        let range = two.map(|two| usize::from(two[0])..usize::from(two[1]));
        range.and_then(|range| links.get(range)).unwrap_or(&[])
    }
}

/// Fills the neighbours of a node; replies with how many they are.
pub fn neighbours(direction: u32, lookup: Lookup, out: &mut [u16]) -> Reply {
    let stretch = lookup.stretch(direction);
    either(long_enough(&[(out.len(), stretch.len())]).map(|()| {
        fill(out, stretch.iter().copied());
        Reply::accepted(stretch.len(), 0)
    }))
}

/// Replies with a pattern's radius.
pub fn radius(pattern: Told) -> Reply {
    let circuit = pattern.read(Role::Pattern);
    either(circuit.map(|circuit| Reply::accepted(radius_of(&circuit), 0)))
}

/// The distances in a ball as a lent table has them, 65,535 outside it.
fn entries(board: &Circuit, centre: usize, radius: usize) -> Vec<u16> {
    let far = within(board, centre, radius).into_iter();
    far.map(|d| d.map_or(65535, field)).collect()
}

/// Fills the distance of each board node from the centre, 65,535 outside the
/// ball; replies with N.
pub fn ball(board: Told, centre: usize, radius: u16, out: &mut [u16]) -> Reply {
    either(board.read(Role::Board).and_then(|board| {
        let n = board.kinds.len();
        inside(centre, &board)?;
        long_enough(&[(out.len(), n)])?;
        fill(out, entries(&board, centre, radius.into()));
        Ok(Reply::accepted(n, 0))
    }))
}

/// Refusal 7 unless the centre is a node of the board.
fn inside(centre: usize, board: &Circuit) -> Result<(), Refusal> {
    if centre >= board.kinds.len() {
        return Err(Refusal::neither(7));
    }
    Ok(())
}

/// Fills the match table on the whole board; replies with the counts. The
/// pattern may be in several bits; of a third-edition pattern a link with bound
/// h is met by a directed path of 1 to h board links.
pub fn match_table(files: Files, table: &mut [u32]) -> Counted {
    if !files.pattern.is_third() {
        return match_by(Ways::Both, files, table);
    }
    either(read_bounded(files.pattern.bytes).and_then(|pattern| {
        let board = files.board.read(Role::Board)?;
        matched(&board, table, || bounded::on_board(&pattern, &board))
    }))
}

/// The same one way, without bounds: a pair needs partners for what its part
/// drives alone.
pub fn match_one_way(files: Files, table: &mut [u32]) -> Counted {
    match_by(Ways::Forward, files, table)
}

/// The whole-board table by some ways.
fn match_by(ways: Ways, files: Files, table: &mut [u32]) -> Counted {
    either(
        files.read_in_bits().and_then(|(pattern, board)| {
            matched(&board, table, || on_board(ways, &pattern, &board))
        }),
    )
}

/// Fills the table of the pairs that a search comes to; replies with its counts.
fn matched(
    board: &Circuit,
    table: &mut [u32],
    search: impl Fn() -> (Pairs, Counts),
) -> Result<Counted, Refusal> {
    let n = board.kinds.len();
    long_enough(&[(table.len(), n)])?;
    let (pairs, counts) = search();
    fill(table, (0..n).map(|v| pairs.word(v)));
    Ok(Counted::accepted(counts))
}

/// What the place calls fill: a byte per board node, a byte per board
/// link, the table over the place's nodes, and the distances in the ball.
pub struct PlaceTables<'a> {
    pub nodes: &'a mut [u8],
    pub links: &'a mut [u8],
    pub table: &'a mut [u32],
    pub distances: &'a mut [u16],
}

impl PlaceTables<'_> {
    /// Refusal 8 unless all four are long enough for the board.
    fn long_enough(&self, board: &Circuit) -> Result<(), Refusal> {
        let (n, m) = (board.kinds.len(), board.links.len());
        let (nodes, links, table) = (self.nodes.len(), self.links.len(), self.table.len());
        long_enough(&[
            (nodes, n),
            (links, m),
            (table, n),
            (self.distances.len(), n),
        ])
    }

    /// Fills all four.
    fn fill(self, place: Place, distances: Vec<u16>) {
        fill(self.distances, distances);
        fill(self.nodes, place.graph.nodes.into_iter().map(u8::from));
        fill(self.links, place.graph.links.into_iter().map(u8::from));
        fill(self.table, place.table);
    }
}

/// The place around a centre, at a radius given or at the pattern's.
pub fn place(files: Files, centre: usize, radius: Option<u16>, out: PlaceTables) -> Counted {
    either(files.read().and_then(|(pattern, board)| {
        let radius = radius.map_or_else(|| radius_of(&pattern), usize::from);
        found(&pattern, &board, centre, radius, out)
    }))
}

/// Refusals 7 and 8, then the place, or 9 with the ball's counts.
fn found(
    pattern: &Circuit,
    board: &Circuit,
    centre: usize,
    radius: usize,
    out: PlaceTables,
) -> Result<Counted, Refusal> {
    inside(centre, board)?;
    out.long_enough(board)?;
    let (place, counts) = place_of(pattern, board, centre, radius);
    let Some(place) = place else {
        return Ok(Counted {
            number: 9,
            file: File::Neither,
            counts,
        });
    };
    out.fill(place, entries(board, centre, radius));
    Ok(Counted::accepted(counts))
}

/// Replies with 1 where the bytes are a perfect subgraph around the centre at
/// the pattern's radius, largest or not, and with 0 where they are not.
pub fn check(files: Files, centre: usize, nodes: &[u8], links: &[u8]) -> Reply {
    either(files.read().and_then(|(pattern, board)| {
        inside(centre, &board)?;
        if nodes.len() != board.kinds.len() || links.len() != board.links.len() {
            return Err(Refusal::neither(3));
        }
        let graph = marked(&board, nodes, links);
        let yes = |graph| perfect(&pattern, &board, centre, radius_of(&pattern), &graph);
        Ok(Reply::accepted(usize::from(graph.is_some_and(yes)), 0))
    }))
}

/// Fills a byte per pattern link, 1 for those of the least that still says
/// none; replies with how many are 1. Refusal 15 where the centre has a place.
pub fn bar(files: Files, centre: usize, out: &mut [u8]) -> Reply {
    either(files.read().and_then(|(pattern, board)| {
        inside(centre, &board)?;
        long_enough(&[(out.len(), pattern.links.len())])?;
        let (place, _) = place_of(&pattern, &board, centre, radius_of(&pattern));
        if place.is_some() {
            return Err(Refusal::neither(15));
        }
        let kept = least(&pattern, &board, centre);
        let count = kept.iter().filter(|&&is| is).count();
        fill(out, kept.into_iter().map(u8::from));
        Ok(Reply::accepted(count, 0))
    }))
}

/// Puts a piece of the report from a centre on. The room needed is that of the
/// longest line, or of the one line of a refused file.
pub fn report(files: Files, from: usize, found: u16, out: &mut [u8]) -> Put {
    let needed = files.read().map_or(LONGEST_REFUSAL, |_| LONGEST_LINE);
    either(long_enough(&[(out.len(), needed)]).map(|()| {
        let piece = piece(files, from, found.into(), out.len());
        let size = piece.text.len();
        fill(out, piece.text.into_bytes());
        Put {
            number: 0,
            file: File::Neither,
            next: piece.next,
            found: piece.found,
            size,
        }
    }))
}

/// Fills the class of each part and the merged file, which has the pattern's
/// edition; replies with the number of classes and that file's length.
pub fn merge(pattern: Told, classes: &mut [u8], out: &mut [u8]) -> Reply {
    either(pattern.read(Role::Pattern).and_then(|circuit| {
        let (parts, length) = (circuit.kinds.len(), pattern.bytes.len());
        long_enough(&[(classes.len(), parts), (out.len(), length)])?;
        let (class, merged) = merged(&circuit);
        let bytes = merged.bytes_in(Edition::counted(pattern.edition));
        let (count, length) = (merged.kinds.len(), bytes.len());
        let byte = |class| u8::try_from(class).expect("a byte");
        fill(classes, class.into_iter().map(byte));
        fill(out, bytes);
        Ok(Reply::accepted(count, length))
    }))
}

/// Makes the test load of four numbers; replies with its file's length. The
/// bytes lent must do for all pairs drawn, as if none were drawn twice.
pub fn load(numbers: Numbers, out: &mut [u8]) -> Reply {
    either(numbers.in_range().and_then(|numbers| {
        long_enough(&[(out.len(), numbers.needed())])?;
        put_file(load_of(numbers).bytes(), out)
    }))
}

/// Compares the circuits of two second-edition pattern files.
pub fn compare(first: &[u8], second: &[u8]) -> Comparison {
    let one = match shelf::pattern(first) {
        Ok(circuit) => circuit,
        Err(refusal) => return Comparison::refused(refusal, 1),
    };
    let other = match shelf::pattern(second) {
        Ok(circuit) => circuit,
        Err(refusal) => return Comparison::refused(refusal, 2),
    };
    let order = match shelf::compare(&one, &other) {
        Ordering::Less => 1,
        Ordering::Equal => 2,
        Ordering::Greater => 3,
    };
    Comparison {
        number: 0,
        file: File::Neither,
        which: 0,
        order,
    }
}

/// Fills the numbers of a shelf's accepted files in order; replies with how
/// many they are.
pub fn shelve(bytes: &[u8], lengths: &[u32], order: &mut [u8]) -> Reply {
    let numbers = shelf::shelf(&shelf::strings(bytes, lengths));
    either(long_enough(&[(order.len(), numbers.len())]).map(|()| {
        let count = numbers.len();
        let bytes = numbers.into_iter();
        fill(order, bytes.map(|n| u8::try_from(n).expect("a byte")));
        Reply::accepted(count, 0)
    }))
}
