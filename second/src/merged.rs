//! The merged pattern.

use std::collections::BTreeSet;

use crate::circuit::Circuit;
use crate::graph::Subgraph;
use crate::simulation::largest;

/// The class of each part, and the merged pattern.
pub fn merged(pattern: &Circuit) -> (Vec<usize>, Circuit) {
    let (pairs, _) = largest(pattern, pattern, &Subgraph::whole(pattern));
    let n = pattern.kinds.len();
    let share = |u: usize, t: usize| pairs.rows[u][t] && pairs.rows[t][u];
    let smallest = |u: usize| (0..n).find(|&t| share(u, t));
    let heads: Vec<usize> = (0..n).filter(|&u| smallest(u) == Some(u)).collect();
    let class = |u: usize| heads.iter().position(|&head| smallest(u) == Some(head));
    let classes: Vec<usize> = (0..n).map(|u| class(u).expect("a class")).collect();
    let links = pattern.links.iter();
    let links: BTreeSet<_> = links.map(|&(u, t)| (classes[u], classes[t])).collect();
    let circuit = Circuit {
        kinds: heads.iter().map(|&head| pattern.kinds[head]).collect(),
        packages: heads.iter().map(|&head| pattern.package(head)).collect(),
        links: links.into_iter().collect(),
    };
    (classes, circuit)
}
