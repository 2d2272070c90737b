//! Random patterns, and boards on which such patterns have places: planted
//! copies that share nodes, coverings of the pattern, links of the pattern's
//! make between other nodes, and noise.

use std::collections::BTreeSet;

use crate::circuit::Circuit;
use crate::random::Random;

/// How large the circuits of a case are.
#[derive(Clone, Copy, Debug, PartialEq, Eq)]
pub enum Size {
    Tiny,
    Small,
    Medium,
    Full,
}

impl Size {
    /// A random number of parts.
    fn parts(self, random: &mut Random) -> usize {
        match self {
            Size::Tiny => random.between(1, 4),
            Size::Small => random.between(1, 9),
            Size::Medium => random.between(2, 20),
            Size::Full => 32 - random.below(4) * random.below(8),
        }
    }

    /// A random bound for a board's nodes and one for its links.
    fn bounds(self, random: &mut Random) -> (usize, usize) {
        match self {
            Size::Tiny => (random.between(0, 8), random.between(0, 24)),
            Size::Small => (random.between(4, 48), random.between(4, 200)),
            Size::Medium => (random.between(40, 160), random.between(40, 800)),
            Size::Full => (512 - random.below(2), random.pick(&[700, 1500, 4096])),
        }
    }
}

/// The kinds, so chosen that some agree in one of their two bytes.
fn kind(number: usize) -> u16 {
    const FIRST: [u16; 6] = [10, 266, 0, 65535, 2560, 255];
    let other = || 300 + u16::try_from(number).expect("few kinds");
    FIRST.get(number).copied().unwrap_or_else(other)
}

/// A circuit in the making, which stops growing at its bounds.
struct Draft {
    kinds: Vec<u16>,
    links: BTreeSet<(usize, usize)>,
    most_nodes: usize,
    most_links: usize,
}

impl Draft {
    fn new(most_nodes: usize, most_links: usize) -> Draft {
        Draft {
            kinds: Vec::new(),
            links: BTreeSet::new(),
            most_nodes,
            most_links,
        }
    }

    /// A further node, unless the draft is full.
    fn node(&mut self, kind: u16) -> Option<usize> {
        let free = self.kinds.len() < self.most_nodes;
        free.then(|| {
            self.kinds.push(kind);
            self.kinds.len() - 1
        })
    }

    /// A further link, unless the draft is full.
    fn link(&mut self, start: usize, end: usize) {
        if self.links.len() < self.most_links {
            self.links.insert((start, end));
        }
    }

    /// A random node, of a kind if that is told.
    fn any(&self, random: &mut Random, kind: Option<u16>) -> Option<usize> {
        let meant = |&v: &usize| kind.is_none_or(|kind| self.kinds[v] == kind);
        let nodes: Vec<usize> = (0..self.kinds.len()).filter(meant).collect();
        (!nodes.is_empty()).then(|| random.pick(&nodes))
    }

    /// The circuit, its nodes numbered in a random order.
    fn finish(self, random: &mut Random) -> Circuit {
        let mut order: Vec<usize> = (0..self.kinds.len()).collect();
        random.shuffle(&mut order);
        let mut kinds = self.kinds.clone();
        for (v, &number) in order.iter().enumerate() {
            kinds[number] = self.kinds[v];
        }
        let links = self.links.iter();
        let mut links: Vec<_> = links.map(|&(v, w)| (order[v], order[w])).collect();
        links.sort_unstable();
        Circuit {
            kinds,
            packages: Vec::new(),
            links,
        }
    }
}

/// Which way the links of a pattern's frame go.
#[derive(Clone, Copy)]
enum Way {
    Forward,
    Backward,
    Both,
    Mixed,
}

impl Draft {
    /// Links two nodes one way, the other, or both.
    fn join(&mut self, random: &mut Random, way: Way, v: usize, w: usize) {
        let ways = [Way::Forward, Way::Backward, Way::Both];
        match way {
            Way::Forward => self.link(v, w),
            Way::Backward => self.link(w, v),
            Way::Both => {
                self.link(v, w);
                self.link(w, v);
            }
            Way::Mixed => {
                let one = random.pick(&ways);
                self.join(random, one, v, w);
            }
        }
    }
}

impl Draft {
    /// A path that no link joins to the rest, as far as there is room.
    fn further_bit(&mut self, random: &mut Random, kinds: usize) {
        let mut last = None;
        for _ in 0..random.between(1, 4) {
            let Some(node) = self.node(kind(random.below(kinds))) else {
                return;
            };
            if let Some(last) = last {
                self.link(last, node);
            }
            last = Some(node);
        }
    }
}

/// A random pattern: a path, a star or a tree, at times closed to a ring, with
/// further links, and now and then a bit that is not joined to it.
pub fn pattern(random: &mut Random, size: Size) -> Circuit {
    let parts = size.parts(random);
    let kinds = if random.once_in(6) {
        parts
    } else {
        random.between(1, 4)
    };
    let mut draft = Draft::new(32, 256);
    for _ in 0..parts {
        draft.node(kind(random.below(kinds)));
    }
    let way = random.pick(&[
        Way::Forward,
        Way::Backward,
        Way::Both,
        Way::Mixed,
        Way::Mixed,
    ]);
    let shape = random.below(4);
    for v in 1..parts {
        // A long path is broken off now and then, so that most patterns have a radius of at most 12.
        let last = if random.once_in(8) { v / 2 } else { v - 1 };
        let to = [last, 0, random.below(v), random.below(v)][shape];
        draft.join(random, way, to, v);
    }
    if random.once_in(3) {
        draft.join(random, way, parts - 1, 0);
    }
    let further = match random.below(8) {
        0 => 8 * parts,
        1..=3 => random.below(parts + 1),
        _ => 0,
    };
    for _ in 0..further {
        draft.link(random.below(parts), random.below(parts));
    }
    if random.once_in(8) {
        draft.further_bit(random, kinds);
    }
    draft.finish(random)
}

impl Draft {
    /// A copy of the pattern. Some of its nodes are those of earlier copies,
    /// and now and then a link is left out.
    fn copy(&mut self, random: &mut Random, pattern: &Circuit, shared: usize, lost: usize) {
        let mut at = Vec::new();
        for &kind in &pattern.kinds {
            let old = random.once_in(shared).then(|| self.any(random, Some(kind)));
            let Some(node) = old.flatten().or_else(|| self.node(kind)) else {
                return;
            };
            at.push(node);
        }
        for &(u, t) in &pattern.links {
            if !random.once_in(lost) {
                self.link(at[u], at[t]);
            }
        }
    }

    /// A row of copies of the pattern, each joined to the one before by links
    /// as the pattern has them. What matches hangs together along the row, so
    /// that a ball holds it, or cuts it at one end, at both or inside a copy.
    fn row(&mut self, random: &mut Random, pattern: &Circuit, copies: usize, lost: usize) {
        let mut last: Option<usize> = None;
        for _ in 0..copies {
            let base = self.kinds.len();
            for &kind in &pattern.kinds {
                if self.node(kind).is_none() {
                    return;
                }
            }
            for &(u, t) in &pattern.links {
                if !random.once_in(lost) {
                    self.link(base + u, base + t);
                }
            }
            for _ in 0..random.between(1, 3).min(pattern.links.len()) {
                let (u, t) = random.pick(&pattern.links);
                let other = last.unwrap_or(base);
                if random.once_in(2) {
                    self.link(other + u, base + t);
                } else {
                    self.link(base + u, other + t);
                }
            }
            last = Some(base);
        }
    }

    /// A covering of the pattern: so many nodes for each part, joined as the
    /// parts are, each link's two layers shifted by some number.
    fn cover(&mut self, random: &mut Random, pattern: &Circuit, layers: usize) {
        let base = self.kinds.len();
        for &kind in &pattern.kinds {
            for _ in 0..layers {
                if self.node(kind).is_none() {
                    return;
                }
            }
        }
        let one = random.below(layers);
        for &(u, t) in &pattern.links {
            let shift = if random.once_in(3) { one } else { 0 };
            for layer in 0..layers {
                let other = (layer + shift) % layers;
                self.link(base + u * layers + layer, base + t * layers + other);
            }
        }
    }

    /// Links between any nodes of the kinds that a pattern link joins.
    fn alike(&mut self, random: &mut Random, pattern: &Circuit, times: usize) {
        for _ in 0..times.min(40 * pattern.links.len()) {
            let (u, t) = random.pick(&pattern.links);
            let start = self.any(random, Some(pattern.kinds[u]));
            let end = self.any(random, Some(pattern.kinds[t]));
            if let (Some(start), Some(end)) = (start, end) {
                self.link(start, end);
            }
        }
    }

    /// Nodes of the pattern's kinds and of others, and links between any nodes.
    fn noise(&mut self, random: &mut Random, pattern: &Circuit, nodes: usize, links: usize) {
        for _ in 0..nodes {
            let other = random.once_in(10).then_some(777);
            self.node(other.unwrap_or_else(|| random.pick(&pattern.kinds)));
        }
        for _ in 0..links {
            let (start, end) = (self.any(random, None), self.any(random, None));
            if let (Some(start), Some(end)) = (start, end) {
                self.link(start, end);
            }
        }
    }

    /// Takes out a few links.
    fn lose(&mut self, random: &mut Random, times: usize) {
        let all: Vec<_> = self.links.iter().copied().collect();
        for _ in 0..times.min(all.len()) {
            self.links.remove(&random.pick(&all));
        }
    }
}

/// A random board for a pattern.
pub fn board(random: &mut Random, size: Size, pattern: &Circuit) -> Circuit {
    let (nodes, links) = size.bounds(random);
    let mut draft = Draft::new(nodes, links);
    let style = random.below(9);
    if style < 5 {
        let shared = random.pick(&[3, 6, 1000]);
        let lost = random.pick(&[8, 40, 1000, 1000]);
        for _ in 0..random.between(1, 1 + nodes / pattern.kinds.len()) {
            draft.copy(random, pattern, shared, lost);
        }
    }
    if style == 8 {
        let lost = random.pick(&[20, 100, 1000]);
        draft.row(random, pattern, nodes / pattern.kinds.len(), lost);
    }
    if [3, 4, 5, 6].contains(&style) {
        let most = nodes.saturating_sub(draft.kinds.len()) / pattern.kinds.len();
        let layers = layers(random, most);
        draft.cover(random, pattern, layers);
        let lost = random.below(3);
        draft.lose(random, lost);
    }
    if random.once_in(2) {
        draft.alike(random, pattern, nodes / 4);
    }
    if style == 7 || random.once_in(3) {
        let further = random.below(1 + links * if style == 7 { 1 } else { 0 } + links / 8);
        draft.noise(random, pattern, nodes, further);
    }
    draft.finish(random)
}

/// How many layers a covering has: mostly few, at times as many as there is
/// room for.
fn layers(random: &mut Random, most: usize) -> usize {
    let few = random.between(1, 4);
    if random.once_in(3) {
        most.max(1)
    } else {
        few
    }
}
