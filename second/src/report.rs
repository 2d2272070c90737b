//! The report's text, whole and in pieces.

use crate::circuit::{Circuit, File, Files, Refusal};
use crate::graph::{radius, Subgraph};
use crate::place::place;

/// No line of a report is longer.
pub const LONGEST_LINE: usize = 34829;

/// No line of a refused file is longer.
pub const LONGEST_REFUSAL: usize = 20;

/// A piece of a report: its text, where to go on after it, and how many centres
/// before that have a place.
#[derive(Clone, Debug, PartialEq, Eq)]
pub struct Piece {
    pub text: String,
    pub next: usize,
    pub found: usize,
}

/// The whole report of two files.
pub fn report(files: Files) -> String {
    piece(files, 0, 0, usize::MAX).text
}

/// The piece of a report from a centre on, before which some centres have a
/// place, into so much room: a line is put where there is room for the longest.
pub fn piece(files: Files, from: usize, found: usize, room: usize) -> Piece {
    let mut piece = Piece {
        text: String::new(),
        next: from,
        found,
    };
    match files.read() {
        Ok((pattern, board)) => piece.lines(&pattern, &board, room),
        Err(refusal) if from == 0 => piece.add(refused(refusal)),
        Err(_) => {}
    }
    piece
}

impl Piece {
    /// Puts an item of the report: the text of a centre, or the last line.
    fn add(&mut self, text: String) {
        self.text += &text;
        self.next += 1;
    }

    /// Puts the lines of the centres that are left and the last line, as long
    /// as there is room.
    fn lines(&mut self, pattern: &Circuit, board: &Circuit, room: usize) {
        let (radius, nodes) = (radius(pattern), board.kinds.len());
        while self.next <= nodes && room - self.text.len() >= LONGEST_LINE {
            if self.next == nodes {
                self.add(format!("end {} of {nodes}\n", self.found));
                return;
            }
            let place = place(pattern, board, self.next, radius).0;
            self.found += usize::from(place.is_some());
            let text = place.map(|place| line(board, self.next, &place.graph));
            self.add(text.unwrap_or_default());
        }
    }
}

/// The line of a refused file.
fn refused(refusal: Refusal) -> String {
    let file = match refusal.file {
        File::Neither => "neither",
        File::Pattern => "pattern",
        File::Board => "board",
    };
    format!("refused {} {file}\n", refusal.number)
}

/// The line of one centre.
fn line(board: &Circuit, centre: usize, place: &Subgraph) -> String {
    let nodes = (0..board.kinds.len()).filter(|&v| place.nodes[v]);
    let nodes: String = nodes.map(|v| format!(" {v}")).collect();
    let links = place.pairs(board);
    let links: String = links.iter().map(|(v, w)| format!(" {v}-{w}")).collect();
    format!("place {centre}:{nodes} /{links}\n")
}
