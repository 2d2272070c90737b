//! The host library as a finder.

use std::ptr::{null, null_mut};

use second::calls::{Columns, Lookup, PlaceTables};
use second::circuit::{File, Files, Given, Refusal, Told};
use second::compare::finder::{word, Finder, Words};
use second::load::Numbers;
use second::session::Run;

/// The reply of the calls without counts.
#[repr(C)]
struct Reply {
    number: u32,
    file: u32,
    first: usize,
    second: usize,
}

/// The reply of the calls with counts.
#[repr(C)]
struct Counts {
    number: u32,
    file: u32,
    started: u32,
    kept: u32,
    struck: u32,
    rounds: u32,
}

/// The reply with a piece of a report.
#[repr(C)]
struct Piece {
    number: u32,
    file: u32,
    next: usize,
    found: usize,
    size: usize,
}

/// The reply of a comparison.
#[repr(C)]
struct Comparison {
    number: u32,
    file: u32,
    which: u32,
    order: u32,
}

/// The memory that a session lives in, as the header's struct has it.
#[repr(C)]
#[derive(Clone, PartialEq)]
struct Session {
    fixed: [u32; 66],
    sets: [u32; 512],
    offsets: [u16; 1026],
    numbers: [u16; 8192],
    ends: [u16; 8192],
}

/// Declares C functions by the types of their arguments: `file` is a circuit
/// file, a pointer, a length and an edition; `bytes`, `fields` and `words` are
/// tables of 8, 16 and 32 bits, each a pointer and a length.
macro_rules! functions {
    (@ $name:ident -> $reply:ty [$($done:ty,)*]) => {
        extern "C" { fn $name($(_: $done),*) -> $reply; }
    };
    (@ $name:ident -> $reply:ty [$($done:ty,)*] file $($rest:tt)*) => {
        functions!(@ $name -> $reply [$($done,)* *const u8, usize, u32,] $($rest)*);
    };
    (@ $name:ident -> $reply:ty [$($done:ty,)*] given $entry:ident $($rest:tt)*) => {
        functions!(@ $name -> $reply [$($done,)* *const $entry, usize,] $($rest)*);
    };
    (@ $name:ident -> $reply:ty [$($done:ty,)*] lent $entry:ident $($rest:tt)*) => {
        functions!(@ $name -> $reply [$($done,)* *mut $entry, usize,] $($rest)*);
    };
    (@ $name:ident -> $reply:ty [$($done:ty,)*] session $($rest:tt)*) => {
        functions!(@ $name -> $reply [$($done,)* *mut Session,] $($rest)*);
    };
    (@ $name:ident -> $reply:ty [$($done:ty,)*] $one:ident $($rest:tt)*) => {
        functions!(@ $name -> $reply [$($done,)* $one,] $($rest)*);
    };
    ($($name:ident($($argument:tt)*) -> $reply:ty;)+) => {
        $(functions!(@ $name -> $reply [] $($argument)*);)+
    };
}

functions! {
    heronditch_read(u32 file lent u16 lent u16 lent u16 lent u16) -> Reply;
    heronditch_write(u32 u32 given u16 given u16 given u16 given u16 lent u8) -> Reply;
    heronditch_convert(u32 file u32 lent u8) -> Reply;
    heronditch_test_board(u32 u32 u32 u32 lent u8) -> Reply;
    heronditch_neighbours(u32 given u16 given u16 given u16 given u16 usize lent u16) -> Reply;
    heronditch_radius(file) -> Reply;
    heronditch_ball(file usize u16 lent u16) -> Reply;
    heronditch_match(file file lent u32) -> Counts;
    heronditch_match_one_way(file file lent u32) -> Counts;
    heronditch_place(given u8 given u8 usize lent u8 lent u8 lent u32 lent u16) -> Counts;
    heronditch_place_within(given u8 given u8 usize u16 lent u8 lent u8 lent u32 lent u16) -> Counts;
    heronditch_place_editions(file file usize lent u8 lent u8 lent u32 lent u16) -> Counts;
    heronditch_place_within_editions(file file usize u16 lent u8 lent u8 lent u32 lent u16) -> Counts;
    heronditch_check(file file usize given u8 given u8) -> Reply;
    heronditch_bar(file file usize lent u8) -> Reply;
    heronditch_report(given u8 given u8 usize u16 lent u8) -> Piece;
    heronditch_report_editions(file file usize u16 lent u8) -> Piece;
    heronditch_merge(file lent u8 lent u8) -> Reply;
    heronditch_compare(given u8 given u8) -> Comparison;
    heronditch_shelf(given u8 given u32 lent u8) -> Reply;
    heronditch_open(session file file) -> Reply;
    heronditch_cut(session usize) -> Reply;
    heronditch_table(session lent u32) -> Reply;
}

/// Calls one of them: each table crosses as its own pointer and length, which is
/// all that makes the calls sound. The arguments are told like the types above.
macro_rules! call {
    (@ $name:ident [$($done:expr,)*]) => { unsafe { $name($($done),*) } };
    (@ $name:ident [$($done:expr,)*] file $x:expr; $($rest:tt)*) => {
        call!(@ $name [$($done,)* given($x.bytes), $x.bytes.len(), $x.edition,] $($rest)*)
    };
    (@ $name:ident [$($done:expr,)*] given $x:expr; $($rest:tt)*) => {
        call!(@ $name [$($done,)* given($x), $x.len(),] $($rest)*)
    };
    (@ $name:ident [$($done:expr,)*] lent $x:expr; $($rest:tt)*) => {
        call!(@ $name [$($done,)* lent($x), $x.len(),] $($rest)*)
    };
    (@ $name:ident [$($done:expr,)*] $x:expr; $($rest:tt)*) => {
        call!(@ $name [$($done,)* $x,] $($rest)*)
    };
    ($name:ident: $($argument:tt)*) => { call!(@ $name [] $($argument)*) };
}

impl From<Reply> for Words {
    fn from(reply: Reply) -> Words {
        let (first, second) = (word(reply.first), word(reply.second));
        [reply.number, reply.file, first, second, 0, 0]
    }
}

impl From<Counts> for Words {
    fn from(c: Counts) -> Words {
        [c.number, c.file, c.started, c.kept, c.struck, c.rounds]
    }
}

impl From<Piece> for Words {
    fn from(piece: Piece) -> Words {
        let [next, found, size] = [piece.next, piece.found, piece.size].map(word);
        [piece.number, piece.file, next, found, size, 0]
    }
}

/// A slice's pointer. An empty one crosses as a null pointer, as a C program
/// may well hand it over.
fn given<T>(slice: &[T]) -> *const T {
    if slice.is_empty() {
        null()
    } else {
        slice.as_ptr()
    }
}

/// A lent slice's pointer, null like the one above when it is empty.
fn lent<T>(slice: &mut [T]) -> *mut T {
    if slice.is_empty() {
        null_mut()
    } else {
        slice.as_mut_ptr()
    }
}

impl Session {
    /// Memory of any content, as opening may find it.
    fn filled(byte: u8) -> Box<Session> {
        let (word, half) = (u32::from(byte) * 0x0101_0101, u16::from(byte) * 0x0101);
        Box::new(Session {
            fixed: [word; 66],
            sets: [word; 512],
            offsets: [half; 1026],
            numbers: [half; 8192],
            ends: [half; 8192],
        })
    }

    /// Opens a session; replies with the refusal, if it has one. A refusal
    /// leaves the memory as it was.
    fn open(&mut self, files: Files) -> Option<Refusal> {
        let before = self.clone();
        let reply = call!(heronditch_open: self; file files.pattern; file files.board;);
        if reply.number == 0 {
            return None;
        }
        assert!(*self == before, "a refusal changed the session");
        let file = [File::Neither, File::Pattern, File::Board][reply.file as usize];
        let number = reply.number;
        Some(Refusal { number, file })
    }

    /// Cuts at a place; replies with the number. A refusal names neither file,
    /// and leaves the memory as it was.
    fn cut(&mut self, place: usize) -> u32 {
        let before = self.clone();
        let reply = call!(heronditch_cut: self; place;);
        assert!(
            reply.number == 0 || *self == before,
            "14 changed the session"
        );
        assert!([reply.file as usize, reply.first, reply.second] == [0; 3]);
        reply.number
    }

    /// The table, by N entries that it replies with; one entry less is 8. The
    /// session stays as it was.
    fn table(&mut self) -> Vec<u32> {
        let before = self.clone();
        let mut table = vec![0x5A5A_5A5A; 513];
        let reply = call!(heronditch_table: self; lent &mut table[..];);
        assert!(reply.number == 0 && table[reply.first..].iter().all(|&x| x == 0x5A5A_5A5A));
        table.truncate(reply.first);
        if let Some((_, shorter)) = table.clone().split_last_mut() {
            let kept = shorter.to_vec();
            let reply = call!(heronditch_table: self; lent shorter;);
            assert!(reply.number == 8 && shorter == kept);
        }
        assert!(*self == before, "reading the table changed the session");
        table
    }
}

/// The host library.
pub struct Host;

impl Finder for Host {
    fn read(&self, role: u32, file: Told, out: Columns) -> Words {
        call!(heronditch_read: role; file file; lent out.kinds; lent out.packages; lent out.starts;
            lent out.ends;)
        .into()
    }

    fn write(&self, role: u32, edition: u32, tables: Given, out: &mut [u8]) -> Words {
        call!(heronditch_write: role; edition; given tables.kinds; given tables.packages;
            given tables.starts; given tables.ends; lent out;)
        .into()
    }

    fn convert(&self, role: u32, file: Told, to: u32, out: &mut [u8]) -> Words {
        call!(heronditch_convert: role; file file; to; lent out;).into()
    }

    fn load(&self, n: Numbers, out: &mut [u8]) -> Words {
        call!(heronditch_test_board: n.seed; n.nodes; n.pairs; n.kinds; lent out;).into()
    }

    fn neighbours(&self, direction: u32, lookup: Lookup, out: &mut [u16]) -> Words {
        call!(heronditch_neighbours: direction; given lookup.forward_offsets; given lookup.forward;
            given lookup.backward_offsets; given lookup.backward; lookup.node; lent out;)
        .into()
    }

    fn radius(&self, pattern: Told) -> Words {
        call!(heronditch_radius: file pattern;).into()
    }

    fn ball(&self, board: Told, centre: usize, radius: u16, out: &mut [u16]) -> Words {
        call!(heronditch_ball: file board; centre; radius; lent out;).into()
    }

    fn match_table(&self, files: Files, table: &mut [u32]) -> Words {
        call!(heronditch_match: file files.pattern; file files.board; lent table;).into()
    }

    fn match_one_way(&self, files: Files, table: &mut [u32]) -> Words {
        call!(heronditch_match_one_way: file files.pattern; file files.board; lent table;).into()
    }

    fn place(
        &self,
        files: Files,
        plain: bool,
        centre: usize,
        radius: Option<u16>,
        out: PlaceTables,
    ) -> Words {
        let Files { pattern, board } = files;
        match (plain, radius) {
            (true, None) => call!(heronditch_place: given pattern.bytes; given board.bytes; centre;
                lent out.nodes; lent out.links; lent out.table; lent out.distances;),
            (true, Some(radius)) => call!(heronditch_place_within: given pattern.bytes;
                given board.bytes; centre; radius; lent out.nodes; lent out.links; lent out.table;
                lent out.distances;),
            (false, None) => call!(heronditch_place_editions: file pattern; file board; centre;
                lent out.nodes; lent out.links; lent out.table; lent out.distances;),
            (false, Some(radius)) => call!(heronditch_place_within_editions: file pattern;
                file board; centre; radius; lent out.nodes; lent out.links; lent out.table;
                lent out.distances;),
        }
        .into()
    }

    fn check(&self, files: Files, centre: usize, nodes: &[u8], links: &[u8]) -> Words {
        call!(heronditch_check: file files.pattern; file files.board; centre; given nodes;
            given links;)
        .into()
    }

    fn bar(&self, files: Files, centre: usize, out: &mut [u8]) -> Words {
        call!(heronditch_bar: file files.pattern; file files.board; centre; lent out;).into()
    }

    fn report(&self, files: Files, plain: bool, from: usize, found: u16, out: &mut [u8]) -> Words {
        let Files { pattern, board } = files;
        match plain {
            true => call!(heronditch_report: given pattern.bytes; given board.bytes; from; found;
                lent out;),
            false => call!(heronditch_report_editions: file pattern; file board; from; found;
                lent out;),
        }
        .into()
    }

    fn merge(&self, pattern: Told, classes: &mut [u8], out: &mut [u8]) -> Words {
        call!(heronditch_merge: file pattern; lent classes; lent out;).into()
    }

    fn compare(&self, first: &[u8], second: &[u8]) -> Words {
        let reply = call!(heronditch_compare: given first; given second;);
        [reply.number, reply.file, reply.which, reply.order, 0, 0]
    }

    fn shelf(&self, bytes: &[u8], lengths: &[u32], order: &mut [u8]) -> Words {
        call!(heronditch_shelf: given bytes; given lengths; lent order;).into()
    }

    fn session(&self, files: Files, places: &[usize]) -> Run {
        let mut session = Session::filled(places.len() as u8 ^ 0xA5);
        if let Some(refusal) = session.open(files) {
            return Run::refused(refusal);
        }
        let mut run = Run::opened(session.table());
        for &place in places {
            let number = session.cut(place);
            run.push(number, session.table());
        }
        run
    }
}
