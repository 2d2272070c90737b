//! The plain machine that defines a session: the pattern, the nodes and the
//! set of board links left. Its table is made by a fresh search each time.

use crate::circuit::{Circuit, Files, Refusal};
use crate::simulation::{on_board, Ways};

/// The machine's state: a truth value for each link of the board's file.
#[derive(Clone)]
pub struct Machine {
    pub pattern: Circuit,
    pub board: Circuit,
    pub left: Vec<bool>,
}

impl Machine {
    /// A fresh machine has all links.
    pub fn fresh(pattern: Circuit, board: Circuit) -> Machine {
        let left = vec![true; board.links.len()];
        Machine {
            pattern,
            board,
            left,
        }
    }

    /// Takes the link at a place out of the set, or gives 14 where it is out
    /// already or the file has no such link.
    pub fn cut(&mut self, place: usize) -> Result<(), Refusal> {
        match self.left.get_mut(place) {
            Some(left) if *left => {
                *left = false;
                Ok(())
            }
            _ => Err(Refusal::neither(14)),
        }
    }

    /// The nodes with the links left.
    pub fn rest(&self) -> Circuit {
        let links = self.board.links.iter().zip(&self.left);
        Circuit {
            links: links.filter(|(_, &is)| is).map(|(&link, _)| link).collect(),
            ..self.board.clone()
        }
    }

    /// The largest dual simulation there, a word per node.
    pub fn table(&self) -> Vec<u32> {
        let (pairs, _) = on_board(Ways::Both, &self.pattern, &self.rest());
        let nodes = 0..self.board.kinds.len();
        nodes.map(|node| pairs.word(node)).collect()
    }
}

/// What a session came to: opening's refusal, if it has one; the number that
/// each cut replied with, 0 for 'cut'; and the tables after opening and after
/// each cut, one after another.
#[derive(Clone, PartialEq, Eq)]
pub struct Run {
    pub refused: Option<Refusal>,
    pub numbers: Vec<u32>,
    pub tables: Vec<u32>,
}

impl Run {
    /// A session that was not opened.
    pub fn refused(refusal: Refusal) -> Run {
        Run {
            refused: Some(refusal),
            numbers: vec![],
            tables: vec![],
        }
    }

    /// A session that was opened, with its first table.
    pub fn opened(table: Vec<u32>) -> Run {
        Run {
            refused: None,
            numbers: vec![],
            tables: table,
        }
    }

    /// One cut more.
    pub fn push(&mut self, number: u32, table: Vec<u32>) {
        self.numbers.push(number);
        self.tables.extend(table);
    }
}

/// Opens a session on two files, and cuts at each place.
pub fn session(files: Files, places: &[usize]) -> Run {
    let (pattern, board) = match files.read_in_bits() {
        Ok(both) => both,
        Err(refusal) => return Run::refused(refusal),
    };
    let mut machine = Machine::fresh(pattern, board);
    let mut run = Run::opened(machine.table());
    for &place in places {
        let number = machine.cut(place).map_or_else(|x| x.number, |()| 0);
        run.push(number, machine.table());
    }
    run
}
