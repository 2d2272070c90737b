//! The row of sets of pairs, the largest dual simulation, and the counts.

use crate::circuit::Circuit;
use crate::graph::Subgraph;

/// Whether a part of one kind matches a node of another: a part of kind 0
/// matches a node of every kind, and a node of kind 0 is matched by such a
/// part only.
pub fn agree(part: u16, node: u16) -> bool {
    match (part, node) {
        (0, _) => true,
        (_, 0) => false,
        (part, node) => part == node,
    }
}

/// Whether a part and a node are equal: their kinds agree and their packages
/// are the same number, kind 0 included.
pub fn equal(pattern: &Circuit, part: usize, board: &Circuit, node: usize) -> bool {
    agree(pattern.kinds[part], board.kinds[node]) && pattern.package(part) == board.package(node)
}

/// A set of pairs: `rows[u][v]` says whether it has (part u, node v).
#[derive(Clone, Debug, PartialEq, Eq)]
pub struct Pairs {
    pub rows: Vec<Vec<bool>>,
}

impl Pairs {
    /// R0: the pairs that agree, over the nodes of a subgraph of the board.
    pub fn first(pattern: &Circuit, board: &Circuit, graph: &Subgraph) -> Pairs {
        let row = |u: usize| {
            let meant = |v: usize| graph.nodes[v] && equal(pattern, u, board, v);
            (0..board.kinds.len()).map(meant).collect()
        };
        Pairs {
            rows: (0..pattern.kinds.len()).map(row).collect(),
        }
    }

    /// How many pairs the set has.
    pub fn count(&self) -> usize {
        self.rows.iter().flatten().filter(|&&is| is).count()
    }

    /// Whether the node occurs in a pair.
    pub fn occurs(&self, node: usize) -> bool {
        self.rows.iter().any(|row| row[node])
    }

    /// The sum of 2^u over the parts u of a node.
    pub fn word(&self, node: usize) -> u32 {
        let parts = self.rows.iter().enumerate();
        parts.map(|(u, row)| u32::from(row[node]) << u).sum()
    }

    /// The next set of the row: the pairs whose links all have partners here.
    fn next(&self, pattern: &Circuit, links: &[(usize, usize)]) -> Pairs {
        self.next_by(pattern.links.iter().map(|&link| (link, links)))
    }

    /// The same where each pattern link comes with the pairs of nodes that may
    /// meet it.
    pub fn next_by<'a>(
        &self,
        met: impl Iterator<Item = ((usize, usize), &'a [(usize, usize)])>,
    ) -> Pairs {
        let mut next = self.clone();
        for ((u, t), links) in met {
            let (drives, driven) = self.partners(u, t, links);
            keep(&mut next.rows[u], &drives);
            keep(&mut next.rows[t], &driven);
        }
        next
    }

    /// The same one way: only what a part drives has to have partners.
    fn next_one_way(&self, pattern: &Circuit, links: &[(usize, usize)]) -> Pairs {
        let stays = |u: usize, v: usize| {
            let driven = pattern.links.iter().filter(|link| link.0 == u);
            let answered = |t: usize| links.iter().any(|&(x, w)| x == v && self.rows[t][w]);
            driven.into_iter().all(|&(_, t)| answered(t))
        };
        let row = |(u, row): (usize, &Vec<bool>)| {
            let nodes = row.iter().enumerate();
            nodes.map(|(v, &is)| is && stays(u, v)).collect()
        };
        Pairs {
            rows: self.rows.iter().enumerate().map(row).collect(),
        }
    }

    /// For a pattern link from u to t: the nodes with a link to a node paired
    /// with t, and the nodes with a link from a node paired with u.
    fn partners(&self, u: usize, t: usize, links: &[(usize, usize)]) -> (Vec<bool>, Vec<bool>) {
        let (from, to) = (&self.rows[u], &self.rows[t]);
        let mut drives = vec![false; from.len()];
        let mut driven = vec![false; from.len()];
        for &(v, w) in links {
            drives[v] |= to[w];
            driven[w] |= from[v];
        }
        (drives, driven)
    }
}

/// Strikes from a row what is not in another.
fn keep(row: &mut [bool], other: &[bool]) {
    for (is, &also) in row.iter_mut().zip(other) {
        *is &= also;
    }
}

/// The four counts of a row.
#[derive(Clone, Copy, Debug, Default, PartialEq, Eq)]
pub struct Counts {
    pub started: usize,
    pub kept: usize,
    pub struck: usize,
    pub rounds: usize,
}

/// Which partners a pair needs: for what the part drives and for what drives
/// it (dual simulation), or for what it drives alone (graph simulation).
#[derive(Clone, Copy, Debug, PartialEq, Eq)]
pub enum Ways {
    Both,
    Forward,
}

/// The last set of the row for a pattern in a subgraph of a board, which is
/// the largest dual simulation, and the counts of the row.
pub fn largest(pattern: &Circuit, board: &Circuit, graph: &Subgraph) -> (Pairs, Counts) {
    last_of_row(Ways::Both, pattern, board, graph)
}

/// The last set of the row by some ways, and the counts of the row.
fn last_of_row(
    ways: Ways,
    pattern: &Circuit,
    board: &Circuit,
    graph: &Subgraph,
) -> (Pairs, Counts) {
    let links = graph.pairs(board);
    let first = Pairs::first(pattern, board, graph);
    let mut last = first.clone();
    let mut rounds = 0;
    loop {
        let next = match ways {
            Ways::Both => last.next(pattern, &links),
            Ways::Forward => last.next_one_way(pattern, &links),
        };
        if next == last {
            break;
        }
        last = next;
        rounds += 1;
    }
    let counts = counts(&first, &last, rounds);
    (last, counts)
}

/// The counts of a row by its first and last set.
fn counts(first: &Pairs, last: &Pairs, rounds: usize) -> Counts {
    let (started, kept) = (first.count(), last.count());
    Counts {
        started,
        kept,
        struck: started - kept,
        rounds,
    }
}

/// The match table on a whole board and its counts. If some part is left
/// without a node, nothing is kept; the rounds stay those of the row.
pub fn on_board(ways: Ways, pattern: &Circuit, board: &Circuit) -> (Pairs, Counts) {
    let graph = Subgraph::whole(board);
    let (last, counts) = last_of_row(ways, pattern, board, &graph);
    none_left_out(&Pairs::first(pattern, board, &graph), last, counts.rounds)
}

/// The last set of a row and its counts, or nothing kept where some part is
/// left without a node.
pub fn none_left_out(first: &Pairs, mut last: Pairs, rounds: usize) -> (Pairs, Counts) {
    let left_out = |row: &Vec<bool>| row.iter().all(|&is| !is);
    if last.rows.iter().any(left_out) {
        last.rows.iter_mut().for_each(|row| row.fill(false));
    }
    let counts = counts(first, &last, rounds);
    (last, counts)
}

/// The match graph of a set of pairs in a subgraph of a board.
pub fn match_graph(
    pattern: &Circuit,
    board: &Circuit,
    graph: &Subgraph,
    pairs: &Pairs,
) -> Subgraph {
    let meant = |&(v, w): &(usize, usize)| {
        let ends = |&(u, t): &(usize, usize)| pairs.rows[u][v] && pairs.rows[t][w];
        pattern.links.iter().any(ends)
    };
    let links = board.links.iter().zip(&graph.links);
    Subgraph {
        nodes: (0..board.kinds.len()).map(|v| pairs.occurs(v)).collect(),
        links: links.map(|(link, &taken)| taken && meant(link)).collect(),
    }
}
