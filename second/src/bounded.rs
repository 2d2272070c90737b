//! A pattern whose links have bounds: a link with bound h is met by a directed
//! path of 1 to h board links, end to end, which may pass a node more than
//! once and may end where it began.

use crate::circuit::Circuit;
use crate::graph::Subgraph;
use crate::simulation::{none_left_out, Counts, Pairs};

/// A pattern, and a bound for each of its links.
#[derive(Clone, Debug, PartialEq, Eq)]
pub struct Bounded {
    pub circuit: Circuit,
    pub bounds: Vec<u16>,
}

impl Bounded {
    /// The third-edition file.
    pub fn bytes(&self) -> Vec<u8> {
        let mut bytes = self.circuit.bytes_in(crate::circuit::Edition::Second);
        bytes.extend(self.bounds.iter().flat_map(|bound| bound.to_le_bytes()));
        bytes
    }
}

/// The nodes at the end of the paths of 1 to so many links that begin at a
/// node: all paths are followed, link by link; those that are at the same node
/// after as many links go on alike, and are followed once.
fn ends(board: &Circuit, from: usize, bound: u16) -> Vec<bool> {
    let mut ends = vec![false; board.kinds.len()];
    let mut here = vec![from];
    for _ in 0..bound {
        let mut after = vec![false; board.kinds.len()];
        for &v in &here {
            for &(start, end) in &board.links {
                after[end] |= start == v;
            }
        }
        here = (0..after.len()).filter(|&v| after[v]).collect();
        here.iter().for_each(|&v| ends[v] = true);
    }
    ends
}

/// For each bound from 1 to 4 the pairs of nodes that a path of 1 to so many
/// links joins, and none for a bound that no link has.
fn joined(pattern: &Bounded, board: &Circuit) -> Vec<Vec<(usize, usize)>> {
    let pairs = |bound: u16| {
        if !pattern.bounds.contains(&bound) {
            return Vec::new();
        }
        let from = |v: usize| {
            let ends = ends(board, v, bound).into_iter().enumerate();
            ends.filter(|&(_, is)| is).map(move |(w, _)| (v, w))
        };
        (0..board.kinds.len()).flat_map(from).collect()
    };
    (1..=4).map(pairs).collect()
}

/// The match table on a whole board and its counts. If some part is left
/// without a node, nothing is kept; the rounds stay those of the row.
pub fn on_board(pattern: &Bounded, board: &Circuit) -> (Pairs, Counts) {
    let joined = joined(pattern, board);
    let first = Pairs::first(&pattern.circuit, board, &Subgraph::whole(board));
    let mut last = first.clone();
    let mut rounds = 0;
    loop {
        let links = pattern.circuit.links.iter().zip(&pattern.bounds);
        let met = links.map(|(&link, &bound)| (link, &joined[usize::from(bound) - 1][..]));
        let next = last.next_by(met);
        if next == last {
            break;
        }
        last = next;
        rounds += 1;
    }
    none_left_out(&first, last, rounds)
}
