//! Whether proposed bytes are a perfect subgraph, by the definition's words.

use crate::circuit::Circuit;
use crate::graph::{ball, connected, Subgraph};
use crate::simulation::{largest, match_graph};

/// The subgraph that bytes mark, if every byte is 0 or 1 and every marked link
/// has both its ends marked.
pub fn marked(board: &Circuit, nodes: &[u8], links: &[u8]) -> Option<Subgraph> {
    if nodes.iter().chain(links).any(|&byte| byte > 1) {
        return None;
    }
    let taken = |bytes: &[u8]| bytes.iter().map(|&byte| byte == 1).collect::<Vec<_>>();
    let (nodes, links) = (taken(nodes), taken(links));
    let open = |(&(v, w), &is): (&(usize, usize), &bool)| is && !(nodes[v] && nodes[w]);
    if board.links.iter().zip(&links).any(open) {
        return None;
    }
    Some(Subgraph { nodes, links })
}

/// Whether one subgraph takes only what another has.
fn within(one: &Subgraph, other: &Subgraph) -> bool {
    let less = |a: &[bool], b: &[bool]| a.iter().zip(b).all(|(&is, &may)| may || !is);
    less(&one.nodes, &other.nodes) && less(&one.links, &other.links)
}

/// Whether a subgraph's own links, directions ignored, join all its nodes.
fn joins_all(board: &Circuit, graph: &Subgraph) -> bool {
    let mut place = vec![0; graph.nodes.len()];
    let mut count = 0;
    for (v, _) in graph.nodes.iter().enumerate().filter(|(_, &is)| is) {
        place[v] = count;
        count += 1;
    }
    let links = graph.pairs(board);
    let links: Vec<_> = links.iter().map(|&(v, w)| (place[v], place[w])).collect();
    connected(count, &links)
}

/// "A perfect subgraph around w at radius r is a connected subgraph of the
/// ball around w at radius r, with w among its nodes, in which the pattern has
/// a non-empty dual simulation, and which is the match graph, in itself, of its
/// largest one."
pub fn perfect(
    pattern: &Circuit,
    board: &Circuit,
    centre: usize,
    radius: usize,
    graph: &Subgraph,
) -> bool {
    if !within(graph, &ball(board, centre, radius)) || !graph.nodes[centre] {
        return false;
    }
    let (pairs, counts) = largest(pattern, board, graph);
    joins_all(board, graph)
        && counts.kept > 0
        && match_graph(pattern, board, graph, &pairs) == *graph
}
