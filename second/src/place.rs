//! The place around a centre.

use crate::circuit::Circuit;
use crate::graph::{ball, distances, Subgraph};
use crate::simulation::{largest, match_graph, Counts};

/// A place: its nodes and links, and for each board node the sum of 2^u over
/// its parts u, 0 outside the place.
#[derive(Clone, Debug, PartialEq, Eq)]
pub struct Place {
    pub graph: Subgraph,
    pub table: Vec<u32>,
}

/// The place around a centre at a radius, if there is one, and the counts for
/// the whole ball. It is the part of the ball's match graph that its own links
/// join to the centre.
pub fn place(
    pattern: &Circuit,
    board: &Circuit,
    centre: usize,
    radius: usize,
) -> (Option<Place>, Counts) {
    let ball = ball(board, centre, radius);
    let (pairs, counts) = largest(pattern, board, &ball);
    if !pairs.occurs(centre) {
        return (None, counts);
    }
    let whole = match_graph(pattern, board, &ball, &pairs);
    let graph = joined(board, &whole, centre);
    let word = |(v, &is): (usize, &bool)| if is { pairs.word(v) } else { 0 };
    let table = graph.nodes.iter().enumerate().map(word).collect();
    (Some(Place { graph, table }), counts)
}

/// The nodes of a subgraph that its own links join to the centre, and the
/// links of the subgraph between them.
fn joined(board: &Circuit, graph: &Subgraph, centre: usize) -> Subgraph {
    let far = distances(board.kinds.len(), &graph.pairs(board), centre);
    let nodes: Vec<bool> = far.iter().map(Option::is_some).collect();
    let links = board.links.iter().zip(&graph.links);
    let links = links.map(|(&(v, w), &is)| is && nodes[v] && nodes[w]);
    Subgraph {
        links: links.collect(),
        nodes,
    }
}
