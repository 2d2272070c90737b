//! What both finders offer: every call, with lent tables and one form of reply.

use crate::calls::{self, Columns, Comparison, Counted, Lookup, PlaceTables, Put, Reply};
use crate::circuit::{Files, Given, Told};
use crate::load::Numbers;
use crate::session::{self, Run};

/// A reply in one form for all calls: the number, the file, and the values or
/// counts, 0 where there is none.
pub type Words = [u32; 6];

/// Every call of a finder. Places and reports are also asked for by calls that
/// are not told editions, the plain ones: both files are then of the first.
pub trait Finder {
    fn read(&self, role: u32, file: Told, out: Columns) -> Words;
    fn write(&self, role: u32, edition: u32, given: Given, out: &mut [u8]) -> Words;
    fn convert(&self, role: u32, file: Told, to: u32, out: &mut [u8]) -> Words;
    fn load(&self, numbers: Numbers, out: &mut [u8]) -> Words;
    fn neighbours(&self, direction: u32, lookup: Lookup, out: &mut [u16]) -> Words;
    fn radius(&self, pattern: Told) -> Words;
    fn ball(&self, board: Told, centre: usize, radius: u16, out: &mut [u16]) -> Words;
    fn match_table(&self, files: Files, table: &mut [u32]) -> Words;
    fn match_one_way(&self, files: Files, table: &mut [u32]) -> Words;
    fn place(
        &self,
        files: Files,
        plain: bool,
        centre: usize,
        radius: Option<u16>,
        out: PlaceTables,
    ) -> Words;
    fn check(&self, files: Files, centre: usize, nodes: &[u8], links: &[u8]) -> Words;
    fn bar(&self, files: Files, centre: usize, out: &mut [u8]) -> Words;
    fn report(&self, files: Files, plain: bool, from: usize, found: u16, out: &mut [u8]) -> Words;
    fn merge(&self, pattern: Told, classes: &mut [u8], out: &mut [u8]) -> Words;
    fn compare(&self, first: &[u8], second: &[u8]) -> Words;
    fn shelf(&self, bytes: &[u8], lengths: &[u32], order: &mut [u8]) -> Words;
    fn session(&self, files: Files, places: &[usize]) -> Run;
}

/// A number of a reply; none passes 32 bits.
pub fn word(number: usize) -> u32 {
    u32::try_from(number).expect("a 32-bit number")
}

impl From<Reply> for Words {
    fn from(reply: Reply) -> Words {
        let (first, second) = (word(reply.first), word(reply.second));
        [reply.number, reply.file.code(), first, second, 0, 0]
    }
}

impl From<Counted> for Words {
    fn from(reply: Counted) -> Words {
        let counts = reply.counts;
        [
            reply.number,
            reply.file.code(),
            word(counts.started),
            word(counts.kept),
            word(counts.struck),
            word(counts.rounds),
        ]
    }
}

impl From<Comparison> for Words {
    fn from(reply: Comparison) -> Words {
        let (file, which) = (reply.file.code(), reply.which);
        [reply.number, file, which, reply.order, 0, 0]
    }
}

impl From<Put> for Words {
    fn from(reply: Put) -> Words {
        let values = [reply.next, reply.found, reply.size].map(word);
        let [next, found, size] = values;
        [reply.number, reply.file.code(), next, found, size, 0]
    }
}

/// The second finder.
pub struct Second;

impl Finder for Second {
    fn read(&self, role: u32, file: Told, out: Columns) -> Words {
        calls::read(role, file, out).into()
    }

    fn write(&self, role: u32, edition: u32, given: Given, out: &mut [u8]) -> Words {
        calls::write(role, edition, given, out).into()
    }

    fn convert(&self, role: u32, file: Told, to: u32, out: &mut [u8]) -> Words {
        calls::convert(role, file, to, out).into()
    }

    fn load(&self, numbers: Numbers, out: &mut [u8]) -> Words {
        calls::load(numbers, out).into()
    }

    fn neighbours(&self, direction: u32, lookup: Lookup, out: &mut [u16]) -> Words {
        calls::neighbours(direction, lookup, out).into()
    }

    fn radius(&self, pattern: Told) -> Words {
        calls::radius(pattern).into()
    }

    fn ball(&self, board: Told, centre: usize, radius: u16, out: &mut [u16]) -> Words {
        calls::ball(board, centre, radius, out).into()
    }

    fn match_table(&self, files: Files, table: &mut [u32]) -> Words {
        calls::match_table(files, table).into()
    }

    fn match_one_way(&self, files: Files, table: &mut [u32]) -> Words {
        calls::match_one_way(files, table).into()
    }

    fn place(
        &self,
        files: Files,
        _plain: bool,
        centre: usize,
        radius: Option<u16>,
        out: PlaceTables,
    ) -> Words {
        calls::place(files, centre, radius, out).into()
    }

    fn check(&self, files: Files, centre: usize, nodes: &[u8], links: &[u8]) -> Words {
        calls::check(files, centre, nodes, links).into()
    }

    fn bar(&self, files: Files, centre: usize, out: &mut [u8]) -> Words {
        calls::bar(files, centre, out).into()
    }

    fn report(&self, files: Files, _plain: bool, from: usize, found: u16, out: &mut [u8]) -> Words {
        calls::report(files, from, found, out).into()
    }

    fn merge(&self, pattern: Told, classes: &mut [u8], out: &mut [u8]) -> Words {
        calls::merge(pattern, classes, out).into()
    }

    fn compare(&self, first: &[u8], second: &[u8]) -> Words {
        calls::compare(first, second).into()
    }

    fn shelf(&self, bytes: &[u8], lengths: &[u32], order: &mut [u8]) -> Words {
        calls::shelve(bytes, lengths, order).into()
    }

    fn session(&self, files: Files, places: &[usize]) -> Run {
        session::session(files, places)
    }
}
