//! Proposals near the truth: a place, a smaller perfect subgraph inside it, two
//! of them together, and each of these with a byte changed or a length.

use crate::circuit::Circuit;
use crate::graph::{distances, radius, Subgraph};
use crate::place::place;
use crate::random::Random;
use crate::simulation::{largest, match_graph};

/// Bytes that are proposed for a centre.
#[derive(Clone)]
pub struct Proposal {
    pub centre: usize,
    pub nodes: Vec<u8>,
    pub links: Vec<u8>,
}

/// The bytes of a subgraph.
fn proposed(centre: usize, graph: &Subgraph) -> Proposal {
    let bytes = |taken: &[bool]| taken.iter().map(|&is| u8::from(is)).collect();
    Proposal {
        centre,
        nodes: bytes(&graph.nodes),
        links: bytes(&graph.links),
    }
}

/// What is left around the centre when a link of a perfect subgraph is taken
/// away: the largest perfect subgraph in the rest, if there is one.
fn smaller(
    random: &mut Random,
    pattern: &Circuit,
    board: &Circuit,
    centre: usize,
    graph: &Subgraph,
) -> Option<Subgraph> {
    let taken: Vec<usize> = (0..graph.links.len()).filter(|&k| graph.links[k]).collect();
    let mut rest = graph.clone();
    rest.links[*taken.get(random.below(taken.len().max(1)))?] = false;
    let (pairs, _) = largest(pattern, board, &rest);
    if !pairs.occurs(centre) {
        return None;
    }
    let whole = match_graph(pattern, board, &rest, &pairs);
    let far = distances(board.kinds.len(), &whole.pairs(board), centre);
    let nodes: Vec<bool> = far.iter().map(Option::is_some).collect();
    let links = board.links.iter().zip(&whole.links);
    let links = links.map(|(&(v, w), &is)| is && nodes[v] && nodes[w]);
    Some(Subgraph {
        links: links.collect(),
        nodes,
    })
}

/// Two subgraphs together.
fn union(one: &Subgraph, two: &Subgraph) -> Subgraph {
    let both = |a: &[bool], b: &[bool]| a.iter().zip(b).map(|(&a, &b)| a || b).collect();
    Subgraph {
        nodes: both(&one.nodes, &two.nodes),
        links: both(&one.links, &two.links),
    }
}

/// A change of one byte: a mark set or taken away, or a byte other than 0 and 1.
fn changed(random: &mut Random, bytes: &mut [u8]) {
    if bytes.is_empty() {
        return;
    }
    let at = random.below(bytes.len());
    bytes[at] = random.pick(&[bytes[at] ^ 1, bytes[at] ^ 1, bytes[at] ^ 1, 2, 255]);
}

/// The same with a byte changed, or one byte more or less.
fn upset(random: &mut Random, mut proposal: Proposal) -> Proposal {
    let bytes = if random.once_in(2) {
        &mut proposal.nodes
    } else {
        &mut proposal.links
    };
    match random.below(8) {
        0 => bytes.push(0),
        1 => drop(bytes.pop()),
        _ => changed(random, bytes),
    }
    proposal
}

/// Proposals around a centre of an accepted pattern and board.
pub fn proposals(
    random: &mut Random,
    pattern: &Circuit,
    board: &Circuit,
    centre: usize,
) -> Vec<Proposal> {
    let none = Subgraph {
        nodes: vec![false; board.kinds.len()],
        links: vec![false; board.links.len()],
    };
    if centre >= board.kinds.len() {
        return vec![proposed(centre, &none)];
    }
    let mut graphs = vec![none, Subgraph::whole(board)];
    let own = radius(pattern) + random.pick(&[0, 0, 0, 1]);
    if let (Some(found), _) = place(pattern, board, centre, own) {
        let less = smaller(random, pattern, board, centre, &found.graph);
        let other = smaller(random, pattern, board, centre, &found.graph);
        if let (Some(one), Some(two)) = (&less, &other) {
            graphs.push(union(one, two));
        }
        graphs.extend(less);
        graphs.push(found.graph);
    }
    let elsewhere = random.below(board.kinds.len());
    if let (Some(found), _) = place(pattern, board, elsewhere, own) {
        graphs.push(found.graph);
    }
    let mut all: Vec<Proposal> = graphs.iter().map(|graph| proposed(centre, graph)).collect();
    for at in 0..all.len() {
        let copy = all[at].clone();
        all.push(upset(random, copy));
    }
    all
}
