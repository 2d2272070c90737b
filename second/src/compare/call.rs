//! A call as a value: what is handed over, how long the lent tables are, and
//! what the call came to.

use std::fmt;

use super::finder::{Finder, Words};
use crate::calls::{Columns, Lookup, PlaceTables};
use crate::circuit::{counted, Circuit, Edition, Files, Given, Role, Told};
use crate::load::Numbers;
use crate::random::Random;
use crate::report::{LONGEST_LINE, LONGEST_REFUSAL};
use crate::shelf::{shelf, strings};

/// One call with all it is given but the lent tables. A plain one is not told
/// editions: both files are of the first.
#[derive(Clone, Copy)]
pub enum Call<'a> {
    Read {
        role: u32,
        file: Told<'a>,
    },
    Write {
        role: u32,
        edition: u32,
        given: Given<'a>,
    },
    Convert {
        role: u32,
        file: Told<'a>,
        to: u32,
    },
    Load {
        numbers: Numbers,
    },
    Neighbours {
        direction: u32,
        lookup: Lookup<'a>,
    },
    Radius {
        pattern: Told<'a>,
    },
    Ball {
        board: Told<'a>,
        centre: usize,
        radius: u16,
    },
    Match {
        files: Files<'a>,
    },
    MatchOneWay {
        files: Files<'a>,
    },
    Place {
        files: Files<'a>,
        plain: bool,
        centre: usize,
        radius: Option<u16>,
    },
    Check {
        files: Files<'a>,
        centre: usize,
        nodes: &'a [u8],
        links: &'a [u8],
    },
    Bar {
        files: Files<'a>,
        centre: usize,
    },
    Report {
        files: Files<'a>,
        plain: bool,
        from: usize,
        found: u16,
    },
    Merge {
        pattern: Told<'a>,
    },
    Compare {
        first: &'a [u8],
        second: &'a [u8],
    },
    Shelf {
        bytes: &'a [u8],
        lengths: &'a [u32],
    },
    Session {
        files: Files<'a>,
        places: &'a [usize],
    },
}

/// N and M as a file's first four bytes have them, 0 where it is shorter, and
/// cut down where no accepted file has so many.
fn sizes(file: &[u8]) -> (usize, usize) {
    let [n_low, n_high, m_low, m_high, ..] = *file else {
        return (0, 0);
    };
    let n = u16::from_le_bytes([n_low, n_high]);
    let m = u16::from_le_bytes([m_low, m_high]);
    (usize::from(n).min(520), usize::from(m).min(4100))
}

/// What a number for an edition counts as, 1 or 2.
fn edition(number: u32) -> u32 {
    Edition::counted(number).number()
}

/// What a number for a role counts as, in words.
fn role(number: u32) -> &'static str {
    match Role::counted(number) {
        Role::Pattern => "pattern",
        Role::Board => "board",
    }
}

/// What the numbers for the editions of two files count as.
fn editions(files: Files) -> String {
    let [pattern, board] = [files.pattern, files.board].map(|file| edition(file.edition));
    format!("{pattern}{board}")
}

impl Call<'_> {
    /// The call's name in the host library, without its first word.
    pub fn name(&self) -> &'static str {
        match *self {
            Call::Read { .. } => "read",
            Call::Write { .. } => "write",
            Call::Convert { .. } => "convert",
            Call::Load { .. } => "test_board",
            Call::Neighbours { .. } => "neighbours",
            Call::Radius { .. } => "radius",
            Call::Ball { .. } => "ball",
            Call::Match { .. } => "match",
            Call::MatchOneWay { .. } => "match_one_way",
            Call::Place { plain, radius, .. } => match (plain, radius) {
                (true, None) => "place",
                (true, Some(_)) => "place_within",
                (false, None) => "place_editions",
                (false, Some(_)) => "place_within_editions",
            },
            Call::Check { .. } => "check",
            Call::Bar { .. } => "bar",
            Call::Report { plain: true, .. } => "report",
            Call::Report { .. } => "report_editions",
            Call::Merge { .. } => "merge",
            Call::Compare { .. } => "compare",
            Call::Shelf { .. } => "shelf",
            Call::Session { .. } => "open",
        }
    }

    /// What its numbers for roles, editions and directions count as.
    fn told(&self) -> String {
        match *self {
            Call::Read { role: r, file } => format!(" {} {}", role(r), edition(file.edition)),
            Call::Write {
                role: r,
                edition: e,
                ..
            } => format!(" {} {}", role(r), edition(e)),
            Call::Convert { role: r, file, to } => {
                format!(" {} {}{}", role(r), edition(file.edition), edition(to))
            }
            Call::Neighbours { direction, .. } => {
                format!(" {}", counted(direction, ["forward", "backward"]))
            }
            Call::Radius { pattern } | Call::Merge { pattern } => {
                format!(" {}", edition(pattern.edition))
            }
            Call::Ball { board, .. } => format!(" {}", edition(board.edition)),
            Call::Match { files } if files.pattern.is_third() => {
                format!(" 3{}", edition(files.board.edition))
            }
            Call::Match { files }
            | Call::MatchOneWay { files }
            | Call::Place {
                files,
                plain: false,
                ..
            }
            | Call::Check { files, .. }
            | Call::Bar { files, .. }
            | Call::Report {
                files,
                plain: false,
                ..
            }
            | Call::Session { files, .. } => format!(" {}", editions(files)),
            _ => String::new(),
        }
    }

    /// The call's name and what it is told.
    pub fn label(&self) -> String {
        format!("{}{}", self.name(), self.told())
    }

    /// How long each lent table has to be, as far as the sizes tell.
    pub fn needed(&self) -> Vec<usize> {
        match *self {
            Call::Read { file, .. } => {
                let (n, m) = sizes(file.bytes);
                vec![n, counted(file.edition, [0, n]), m, m]
            }
            Call::Write { edition, given, .. } => {
                let (n, m) = (given.kinds.len().min(520), given.starts.len().min(4100));
                vec![Circuit::length_in(Edition::counted(edition), n, m)]
            }
            Call::Convert { file, to, .. } => {
                let (n, m) = sizes(file.bytes);
                vec![Circuit::length_in(Edition::counted(to), n, m)]
            }
            Call::Load { numbers } => {
                let (n, m) = (numbers.nodes.min(520), numbers.pairs.min(4100));
                vec![Circuit::length(n as usize, m as usize)]
            }
            Call::Neighbours { direction, lookup } => vec![lookup.stretch(direction).len()],
            Call::Ball { board, .. } => vec![sizes(board.bytes).0],
            Call::Match { files } | Call::MatchOneWay { files } => {
                vec![sizes(files.board.bytes).0]
            }
            Call::Place { files, .. } => {
                let (n, m) = sizes(files.board.bytes);
                vec![n, m, n, n]
            }
            Call::Bar { files, .. } => vec![sizes(files.pattern.bytes).1],
            Call::Report { files, .. } => {
                vec![files.read().map_or(LONGEST_REFUSAL, |_| LONGEST_LINE)]
            }
            Call::Merge { pattern } => {
                let (n, m) = sizes(pattern.bytes);
                let edition = Edition::counted(pattern.edition);
                vec![n, Circuit::length_in(edition, n, m)]
            }
            Call::Shelf { bytes, lengths } => vec![shelf(&strings(bytes, lengths)).len()],
            Call::Radius { .. }
            | Call::Check { .. }
            | Call::Compare { .. }
            | Call::Session { .. } => vec![],
        }
    }

    /// How much longer a lent table may be than needed: of a report by whole
    /// lines.
    pub fn longer(&self) -> [usize; 6] {
        match self {
            Call::Report { .. } => [0, 1, 24, 25, 100, 3000],
            _ => [0, 0, 0, 1, 2, 7],
        }
    }
}

/// Bytes in hexadecimal.
struct Hex<'a>(&'a [u8]);

impl fmt::Display for Hex<'_> {
    fn fmt(&self, f: &mut fmt::Formatter) -> fmt::Result {
        self.0.iter().try_for_each(|byte| write!(f, "{byte:02x}"))
    }
}

impl fmt::Display for Told<'_> {
    fn fmt(&self, f: &mut fmt::Formatter) -> fmt::Result {
        write!(f, "told as {}: {}", self.edition, Hex(self.bytes))
    }
}

impl fmt::Display for Files<'_> {
    fn fmt(&self, f: &mut fmt::Formatter) -> fmt::Result {
        write!(f, "\npattern {}\nboard {}", self.pattern, self.board)
    }
}

impl fmt::Display for Call<'_> {
    fn fmt(&self, f: &mut fmt::Formatter) -> fmt::Result {
        write!(f, "call {}", self.label())?;
        match *self {
            Call::Read { role, file } => write!(f, " role {role}\nfile {file}"),
            Call::Write {
                role,
                edition,
                given,
            } => write!(f, " role {role} edition {edition}\n{given:?}"),
            Call::Convert { role, file, to } => {
                write!(f, " role {role} to {to}\nfile {file}")
            }
            Call::Load { numbers } => write!(f, " {numbers:?}"),
            Call::Neighbours { direction, lookup } => {
                write!(f, " direction {direction}\n{lookup:?}")
            }
            Call::Radius { pattern } | Call::Merge { pattern } => {
                write!(f, "\npattern {pattern}")
            }
            Call::Ball {
                board,
                centre,
                radius,
            } => write!(f, " centre {centre} radius {radius}\nboard {board}"),
            Call::Match { files } | Call::MatchOneWay { files } => write!(f, "{files}"),
            Call::Place {
                files,
                centre,
                radius,
                ..
            } => write!(f, " centre {centre} radius {radius:?}{files}"),
            Call::Check {
                files,
                centre,
                nodes,
                links,
            } => {
                write!(
                    f,
                    " centre {centre}\nnodes {nodes:?}\nlinks {links:?}{files}"
                )
            }
            Call::Bar { files, centre } => write!(f, " centre {centre}{files}"),
            Call::Report {
                files, from, found, ..
            } => write!(f, " from {from} found {found}{files}"),
            Call::Compare { first, second } => {
                write!(f, "\nfirst {}\nsecond {}", Hex(first), Hex(second))
            }
            Call::Shelf { bytes, lengths } => {
                write!(f, "\nbytes {}\nlengths {lengths:?}", Hex(bytes))
            }
            Call::Session { files, places } => write!(f, " places {places:?}{files}"),
        }
    }
}

/// How long each lent table is, and what they are filled with: entry by entry
/// the draws of a generator.
#[derive(Clone)]
pub struct Lent {
    pub lengths: Vec<usize>,
    pub filling: u64,
}

impl fmt::Display for Lent {
    fn fmt(&self, f: &mut fmt::Formatter) -> fmt::Result {
        write!(f, "{:?}, filling {}", self.lengths, self.filling)
    }
}

impl Lent {
    /// A table as it is lent: its length and filling, cut to the entry's type.
    fn table<T>(&self, number: usize, cut: fn(u64) -> T) -> Vec<T> {
        let mut random = Random::of_case(self.filling, number as u64);
        let entries = 0..self.lengths[number];
        entries.map(|_| cut(random.draw())).collect()
    }

    fn bytes(&self, number: usize) -> Vec<u8> {
        self.table(number, |bits| bits as u8)
    }

    fn fields(&self, number: usize) -> Vec<u16> {
        self.table(number, |bits| bits as u16)
    }

    fn words(&self, number: usize) -> Vec<u32> {
        self.table(number, |bits| bits as u32)
    }
}

/// What a call came to: its reply and the later content of each lent table.
#[derive(Clone, PartialEq, Eq)]
pub struct Outcome {
    pub reply: Words,
    pub tables: Vec<Vec<u32>>,
}

impl Outcome {
    /// The reply in words.
    pub fn told(&self) -> String {
        let [number, file, a, b, c, d] = self.reply;
        let file = ["neither", "pattern", "board"].get(file as usize);
        let file = file.unwrap_or(&"a file of no such number");
        format!("number {number}, {file}, values {a} {b} {c} {d}")
    }

    /// The first entry of a table that differs, in words.
    pub fn first_difference(&self, other: &Outcome) -> String {
        let tables = self.tables.iter().zip(&other.tables).enumerate();
        for (number, (one, two)) in tables {
            if let Some(at) = one.iter().zip(two).position(|(a, b)| a != b) {
                let (a, b) = (one[at], two[at]);
                return format!("\ntable {number}, entry {at}: finder {a}, second {b}");
            }
        }
        String::new()
    }
}

/// A table's entries as 32-bit numbers.
fn wide<T: Into<u32>>(table: Vec<T>) -> Vec<u32> {
    table.into_iter().map(Into::into).collect()
}

/// Runs a call with freshly filled tables.
pub fn run(finder: &dyn Finder, call: &Call, lent: &Lent) -> Outcome {
    let (reply, tables) = match *call {
        Call::Read { role, file } => read(finder, role, file, lent),
        Call::Place {
            files,
            plain,
            centre,
            radius,
        } => place(lent, |out: PlaceTables| {
            finder.place(files, plain, centre, radius, out)
        }),
        Call::Write { .. }
        | Call::Convert { .. }
        | Call::Load { .. }
        | Call::Bar { .. }
        | Call::Report { .. }
        | Call::Shelf { .. } => into_bytes(finder, call, lent),
        Call::Neighbours { direction, lookup } => {
            let mut out = lent.fields(0);
            let reply = finder.neighbours(direction, lookup, &mut out);
            (reply, vec![wide(out)])
        }
        Call::Ball {
            board,
            centre,
            radius,
        } => {
            let mut out = lent.fields(0);
            let reply = finder.ball(board, centre, radius, &mut out);
            (reply, vec![wide(out)])
        }
        Call::Match { files } => {
            let mut table = lent.words(0);
            (finder.match_table(files, &mut table), vec![table])
        }
        Call::MatchOneWay { files } => {
            let mut table = lent.words(0);
            (finder.match_one_way(files, &mut table), vec![table])
        }
        Call::Merge { pattern } => {
            let (mut classes, mut out) = (lent.bytes(0), lent.bytes(1));
            let reply = finder.merge(pattern, &mut classes, &mut out);
            (reply, vec![wide(classes), wide(out)])
        }
        Call::Radius { pattern } => (finder.radius(pattern), vec![]),
        Call::Check {
            files,
            centre,
            nodes,
            links,
        } => (finder.check(files, centre, nodes, links), vec![]),
        Call::Compare { first, second } => (finder.compare(first, second), vec![]),
        Call::Session { files, places } => {
            let run = finder.session(files, places);
            let refused = run.refused.map(|x| [x.number, x.file.code(), 0, 0, 0, 0]);
            (refused.unwrap_or_default(), vec![run.numbers, run.tables])
        }
    };
    Outcome { reply, tables }
}

/// A reply, and the later content of each lent table.
type Ran = (Words, Vec<Vec<u32>>);

/// Runs a call that is lent bytes alone.
fn into_bytes(finder: &dyn Finder, call: &Call, lent: &Lent) -> Ran {
    let mut out = lent.bytes(0);
    let reply = match *call {
        Call::Write {
            role,
            edition,
            given,
        } => finder.write(role, edition, given, &mut out),
        Call::Convert { role, file, to } => finder.convert(role, file, to, &mut out),
        Call::Load { numbers } => finder.load(numbers, &mut out),
        Call::Bar { files, centre } => finder.bar(files, centre, &mut out),
        Call::Report {
            files,
            plain,
            from,
            found,
        } => finder.report(files, plain, from, found, &mut out),
        Call::Shelf { bytes, lengths } => finder.shelf(bytes, lengths, &mut out),
        _ => unreachable!("not lent bytes alone"),
    };
    (reply, vec![wide(out)])
}

/// Runs a read.
fn read(finder: &dyn Finder, role: u32, file: Told, lent: &Lent) -> Ran {
    let [mut a, mut b, mut c, mut d] = [0, 1, 2, 3].map(|at| lent.fields(at));
    let out = Columns {
        kinds: &mut a,
        packages: &mut b,
        starts: &mut c,
        ends: &mut d,
    };
    let reply = finder.read(role, file, out);
    (reply, [a, b, c, d].map(wide).to_vec())
}

/// Runs one of the place calls.
fn place(lent: &Lent, asked: impl Fn(PlaceTables) -> Words) -> Ran {
    let (mut a, mut b, mut c) = (lent.bytes(0), lent.bytes(1), lent.words(2));
    let mut d = lent.fields(3);
    let out = PlaceTables {
        nodes: &mut a,
        links: &mut b,
        table: &mut c,
        distances: &mut d,
    };
    let reply = asked(out);
    (reply, vec![wide(a), wide(b), c, wide(d)])
}
