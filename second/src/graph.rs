//! Distances, balls and connectedness, directions ignored.

use crate::circuit::Circuit;

/// A subgraph of a circuit: which of its nodes and which of its links are taken.
#[derive(Clone, Debug, PartialEq, Eq)]
pub struct Subgraph {
    pub nodes: Vec<bool>,
    pub links: Vec<bool>,
}

impl Subgraph {
    /// The whole circuit.
    pub fn whole(circuit: &Circuit) -> Subgraph {
        Subgraph {
            nodes: vec![true; circuit.kinds.len()],
            links: vec![true; circuit.links.len()],
        }
    }

    /// The links taken, as pairs.
    pub fn pairs(&self, circuit: &Circuit) -> Vec<(usize, usize)> {
        let taken = circuit.links.iter().zip(&self.links);
        taken.filter(|(_, &is)| is).map(|(&link, _)| link).collect()
    }
}

/// The distance of each node from the centre, none where no path leads. Every
/// link is tried both ways, over and over, until no distance gets smaller.
pub fn distances(nodes: usize, links: &[(usize, usize)], centre: usize) -> Vec<Option<usize>> {
    let mut far = vec![None; nodes];
    far[centre] = Some(0);
    let mut shorter = true;
    while shorter {
        shorter = false;
        for &(v, w) in links {
            shorter |= shorten(&mut far, v, w);
            shorter |= shorten(&mut far, w, v);
        }
    }
    far
}

/// Reaches w by a step from v if that is shorter, and says whether it was.
fn shorten(far: &mut [Option<usize>], v: usize, w: usize) -> bool {
    let Some(step) = far[v].map(|d| d + 1) else {
        return false;
    };
    let shorter = far[w].is_none_or(|d| step < d);
    if shorter {
        far[w] = Some(step);
    }
    shorter
}

/// Whether the links join all nodes.
pub fn connected(nodes: usize, links: &[(usize, usize)]) -> bool {
    nodes == 0 || distances(nodes, links, 0).iter().all(Option::is_some)
}

/// The largest distance between two nodes of a connected circuit, from the
/// distances of all pairs by the method of Floyd and Warshall.
pub fn radius(circuit: &Circuit) -> usize {
    let n = circuit.kinds.len();
    let mut far = vec![vec![n; n]; n];
    for (v, row) in far.iter_mut().enumerate() {
        row[v] = 0;
    }
    for &(v, w) in circuit.links.iter().filter(|link| link.0 != link.1) {
        far[v][w] = 1;
        far[w][v] = 1;
    }
    for over in 0..n {
        for v in 0..n {
            for w in 0..n {
                far[v][w] = far[v][w].min(far[v][over] + far[over][w]);
            }
        }
    }
    far.into_iter().flatten().max().unwrap_or(0)
}

/// The distance of each node of the ball around a centre, none outside it.
pub fn within(board: &Circuit, centre: usize, radius: usize) -> Vec<Option<usize>> {
    let far = distances(board.kinds.len(), &board.links, centre);
    far.iter().map(|d| d.filter(|&d| d <= radius)).collect()
}

/// The ball around a centre: the nodes at most so far from it, and all links
/// between them.
pub fn ball(board: &Circuit, centre: usize, radius: usize) -> Subgraph {
    let nodes = within(board, centre, radius);
    let nodes: Vec<bool> = nodes.iter().map(Option::is_some).collect();
    let inside = |&(v, w): &(usize, usize)| nodes[v] && nodes[w];
    let links = board.links.iter().map(inside).collect();
    Subgraph { nodes, links }
}
