//! The finder against the definitions taken by enumeration: on tiny circuits
//! every set of pairs and every subgraph is tried, and the largest dual
//! simulation and the place are those that contain every other.

use second::circuit::Circuit;
use second::graph::{self, Subgraph};
use second::merged::merged;
use second::place::{place, Place};
use second::random::Random;
use second::simulation::{largest, Counts};

/// Every set of pairs, and every set of links, is a number whose bits say what
/// it has; the pair (u, v) has bit u * nodes + v.
type Set = u32;

/// The number of bits of a truth table, first entry lowest.
fn set(table: &[bool]) -> Set {
    let bits = table.iter().enumerate();
    bits.map(|(bit, &is)| Set::from(is) << bit).sum()
}

/// Every set within a set.
fn within(whole: Set) -> impl Iterator<Item = Set> {
    (0..=whole).filter(move |set| set & !whole == 0)
}

/// The graph H of the definitions: taken nodes and taken links of a board.
struct Graph<'a> {
    board: &'a Circuit,
    nodes: Set,
    links: Set,
}

impl Graph<'_> {
    fn has_node(&self, v: usize) -> bool {
        self.nodes >> v & 1 == 1
    }

    fn links(&self) -> impl Iterator<Item = (usize, usize)> + '_ {
        let all = self.board.links.iter().enumerate();
        all.filter(|(bit, _)| self.links >> bit & 1 == 1)
            .map(|(_, &link)| link)
    }

    /// Whether the links taken run between nodes taken.
    fn is_subgraph(&self) -> bool {
        self.links()
            .all(|(v, w)| self.has_node(v) && self.has_node(w))
    }

    /// Whether its own links join all its nodes: no part of the nodes, some
    /// but not all, is without a link to the rest.
    fn is_connected(&self) -> bool {
        let cut = |part: Set| {
            let apart = |v: usize, w: usize| part >> v & 1 != part >> w & 1;
            part != 0 && part != self.nodes && !self.links().any(|(v, w)| apart(v, w))
        };
        self.nodes != 0 && !within(self.nodes).any(cut)
    }
}

/// Whether a part matches a node by their kinds alone.
fn agree(part: u16, node: u16) -> bool {
    part == 0 || part == node
}

/// Whether a pair agrees and has partners in a set of pairs for each of
/// its part's links.
fn is_good(pattern: &Circuit, graph: &Graph, pairs: Set, u: usize, v: usize) -> bool {
    let nodes = graph.board.kinds.len();
    let has = |u: usize, v: usize| pairs >> (u * nodes + v) & 1 == 1;
    let forward = |t: usize| graph.links().any(|(from, to)| from == v && has(t, to));
    let backward = |t: usize| graph.links().any(|(from, to)| to == v && has(t, from));
    let mut links = pattern.links.iter();
    agree(pattern.kinds[u], graph.board.kinds[v])
        && graph.has_node(v)
        && links.all(|&(from, to)| (from != u || forward(to)) && (to != u || backward(from)))
}

/// Whether a set of pairs is a dual simulation of the pattern in a graph.
fn is_dual_simulation(pattern: &Circuit, graph: &Graph, pairs: Set) -> bool {
    let nodes = graph.board.kinds.len();
    let has = |u: usize, v: usize| pairs >> (u * nodes + v) & 1 == 1;
    let good = |u: usize, v: usize| is_good(pattern, graph, pairs, u, v);
    let mut parts = 0..pattern.kinds.len();
    parts
        .clone()
        .all(|u| (0..nodes).all(|v| !has(u, v) || good(u, v)))
        && (pairs == 0 || parts.all(|u| (0..nodes).any(|v| has(u, v))))
}

/// R0 in a graph.
fn first_tried(pattern: &Circuit, graph: &Graph) -> Set {
    let nodes = graph.board.kinds.len();
    let (part, node) = (|pair| pair / nodes, |pair| pair % nodes);
    let equal = |pair: usize| agree(pattern.kinds[part(pair)], graph.board.kinds[node(pair)]);
    let all = 0..pattern.kinds.len() * nodes;
    all.filter(|&pair| equal(pair) && graph.has_node(node(pair)))
        .map(|pair| 1 << pair)
        .sum()
}

/// The counts of the row of sets, each worked out pair by pair.
fn counts_tried(pattern: &Circuit, graph: &Graph) -> Counts {
    let nodes = graph.board.kinds.len();
    let first = first_tried(pattern, graph);
    let (mut last, mut rounds) = (first, 0);
    loop {
        let good = |&pair: &usize| is_good(pattern, graph, last, pair / nodes, pair % nodes);
        let all = 0..pattern.kinds.len() * nodes;
        let kept: Set = all.filter(good).map(|pair| 1 << pair).sum();
        if last & kept == last {
            break;
        }
        last &= kept;
        rounds += 1;
    }
    let (started, kept) = (first.count_ones() as usize, last.count_ones() as usize);
    Counts {
        started,
        kept,
        struck: started - kept,
        rounds,
    }
}

/// The dual simulation that contains every other, by trying every set.
fn largest_tried(pattern: &Circuit, graph: &Graph) -> Set {
    let all: Vec<Set> = within(first_tried(pattern, graph))
        .filter(|&pairs| is_dual_simulation(pattern, graph, pairs))
        .collect();
    let largest = all
        .iter()
        .find(|&&one| all.iter().all(|other| other & !one == 0));
    *largest.expect("one dual simulation contains every other")
}

/// The match graph of a set of pairs in a graph: its nodes and its links.
fn match_graph_of(pattern: &Circuit, graph: &Graph, pairs: Set) -> (Set, Set) {
    let board = graph.board;
    let nodes = board.kinds.len();
    let has = |u: usize, v: usize| pairs >> (u * nodes + v) & 1 == 1;
    let meant = |(v, w): (usize, usize)| pattern.links.iter().any(|&(u, t)| has(u, v) && has(t, w));
    let occurs = |v: usize| (0..pattern.kinds.len()).any(|u| has(u, v));
    let occurring = (0..nodes).filter(|&v| occurs(v)).map(|v| 1 << v).sum();
    let taken = (0..board.links.len()).filter(|&k| graph.links >> k & 1 == 1);
    let links = taken
        .filter(|&k| meant(board.links[k]))
        .map(|k| 1 << k)
        .sum();
    (occurring, links)
}

/// Whether a subgraph of the ball is a perfect subgraph around the centre.
fn is_perfect(pattern: &Circuit, graph: &Graph, centre: usize) -> bool {
    if !graph.has_node(centre) || !graph.is_subgraph() || !graph.is_connected() {
        return false;
    }
    let pairs = largest_tried(pattern, graph);
    pairs != 0 && match_graph_of(pattern, graph, pairs) == (graph.nodes, graph.links)
}

/// The nodes and links of the place, by trying every subgraph of the ball.
fn place_tried(
    pattern: &Circuit,
    board: &Circuit,
    ball: &Subgraph,
    w: usize,
) -> Option<(Set, Set)> {
    let mut perfect = Vec::new();
    for nodes in within(set(&ball.nodes)) {
        for links in within(set(&ball.links)) {
            let graph = Graph {
                board,
                nodes,
                links,
            };
            if is_perfect(pattern, &graph, w) {
                perfect.push((nodes, links));
            }
        }
    }
    let contains =
        |one: (Set, Set), other: (Set, Set)| other.0 & !one.0 == 0 && other.1 & !one.1 == 0;
    let found = perfect
        .iter()
        .find(|&&one| perfect.iter().all(|&other| contains(one, other)));
    assert_eq!(found.is_some(), !perfect.is_empty());
    found.copied()
}

/// The distance between two nodes: the least number of steps of any walk.
fn distance_tried(board: &Circuit, from: usize, to: usize) -> Option<usize> {
    let step = |v: usize, w: usize| board.links.contains(&(v, w)) || board.links.contains(&(w, v));
    let n = board.kinds.len();
    let mut reached = vec![from];
    for steps in 0..n {
        if reached.contains(&to) {
            return Some(steps);
        }
        reached = (0..n)
            .filter(|&w| reached.iter().any(|&v| step(v, w)))
            .collect();
    }
    None
}

/// A tiny circuit: few nodes, few links, one or two kinds.
fn tiny(random: &mut Random, least: usize, most: usize, most_links: usize) -> Circuit {
    let n = random.between(least, most);
    let kinds = random.between(1, 2);
    let mut links: Vec<(usize, usize)> = (0..random.below(most_links + 1))
        .filter(|_| n > 0)
        .map(|_| (random.below(n), random.below(n)))
        .collect();
    links.sort();
    links.dedup();
    Circuit {
        kinds: (0..n).map(|_| random.below(kinds) as u16).collect(),
        packages: Vec::new(),
        links,
    }
}

/// A tiny pattern, which is connected.
fn tiny_pattern(random: &mut Random) -> Circuit {
    loop {
        let pattern = tiny(random, 1, 3, 4);
        if graph::connected(pattern.kinds.len(), &pattern.links) {
            return pattern;
        }
    }
}

/// The finder's place agrees with the one tried, and its table is the largest
/// dual simulation in the place itself.
fn check_place(pattern: &Circuit, board: &Circuit, centre: usize, radius: usize) -> bool {
    let ball = graph::ball(board, centre, radius);
    for v in 0..board.kinds.len() {
        let near = distance_tried(board, centre, v).is_some_and(|d| d <= radius);
        assert_eq!(ball.nodes[v], near);
    }
    let tried = place_tried(pattern, board, &ball, centre);
    let (found, counts) = place(pattern, board, centre, radius);
    let (nodes, links) = (set(&ball.nodes), set(&ball.links));
    let whole = Graph {
        board,
        nodes,
        links,
    };
    assert_eq!(counts, counts_tried(pattern, &whole));
    let sets = |place: &Place| (set(&place.graph.nodes), set(&place.graph.links));
    assert_eq!(
        found.as_ref().map(sets),
        tried,
        "{pattern:?} {board:?} {centre} {radius}"
    );
    let Some(found) = found else { return false };
    let (pairs, _) = largest(pattern, board, &found.graph);
    let words: Vec<u32> = (0..board.kinds.len()).map(|v| pairs.word(v)).collect();
    assert_eq!(found.table, words);
    true
}

#[test]
fn tables_and_places() {
    let (mut places, mut none, mut empty) = (0, 0, 0);
    for case in 0..10_000 {
        let mut random = Random::of_case(1, case);
        let pattern = tiny_pattern(&mut random);
        let board = tiny(&mut random, 0, 5, 7);
        let whole = Subgraph::whole(&board);
        let (nodes, links) = (set(&whole.nodes), set(&whole.links));
        let graph = Graph {
            board: &board,
            nodes,
            links,
        };
        let (pairs, counts) = largest(&pattern, &board, &whole);
        assert_eq!(set(&pairs.rows.concat()), largest_tried(&pattern, &graph));
        assert_eq!(counts, counts_tried(&pattern, &graph));
        empty += usize::from(pairs.count() == 0);
        for centre in 0..board.kinds.len() {
            for radius in 0..3 {
                let found = check_place(&pattern, &board, centre, radius);
                places += usize::from(found);
                none += usize::from(!found);
            }
        }
    }
    println!("{places} places, {none} centres without, {empty} empty tables");
    assert!(places > 1000 && none > 1000 && empty > 100);
}

#[test]
fn radii() {
    for case in 0..10_000 {
        let pattern = tiny_pattern(&mut Random::of_case(2, case));
        let n = pattern.kinds.len();
        let far = |v: usize, w: usize| distance_tried(&pattern, v, w).expect("connected");
        let all = (0..n).flat_map(|v| (0..n).map(move |w| (v, w)));
        let radius = graph::radius(&pattern);
        assert_eq!(all.map(|(v, w)| far(v, w)).max(), Some(radius));
    }
}

/// The merged pattern has the classes' kinds and exactly the links it should.
fn check_merged(pattern: &Circuit, classes: &[usize], merged: &Circuit) {
    let count = merged.kinds.len();
    let kinds = classes.iter().map(|&class| merged.kinds[class]);
    assert!(kinds.eq(pattern.kinds.iter().copied()));
    let smallest = |c: usize| classes.iter().position(|&class| class == c);
    assert!((1..count).all(|c| smallest(c - 1) < smallest(c)));
    for a in 0..count {
        for b in 0..count {
            let linked = |&(u, t): &(usize, usize)| classes[u] == a && classes[t] == b;
            let meant = pattern.links.iter().any(linked);
            assert_eq!(merged.links.contains(&(a, b)), meant);
        }
    }
    assert!(merged.links.is_sorted_by(|one, next| one < next));
}

#[test]
fn merging() {
    let mut merging = 0;
    for case in 0..10_000 {
        let pattern = tiny_pattern(&mut Random::of_case(3, case));
        let n = pattern.kinds.len();
        let whole = Subgraph::whole(&pattern);
        let graph = Graph {
            board: &pattern,
            nodes: set(&whole.nodes),
            links: set(&whole.links),
        };
        let pairs = largest_tried(&pattern, &graph);
        let has = |u: usize, v: usize| pairs >> (u * n + v) & 1 == 1;
        let (classes, circuit) = merged(&pattern);
        merging += usize::from(circuit.kinds.len() < n);
        for u in 0..n {
            for t in 0..n {
                assert_eq!(classes[u] == classes[t], has(u, t) && has(t, u));
            }
        }
        check_merged(&pattern, &classes, &circuit);
    }
    println!("{merging} patterns with parts to merge");
    assert!(merging > 1000);
}
