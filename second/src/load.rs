//! The test load: a board invented from four numbers, the same everywhere.

use std::collections::BTreeSet;

use crate::circuit::{Circuit, Refusal};

/// The four numbers that fix a load: a seed, so many nodes, so many pairs to
/// draw, and the bound of the kinds.
#[derive(Clone, Copy, Debug, PartialEq, Eq)]
pub struct Numbers {
    pub seed: u32,
    pub nodes: u32,
    pub pairs: u32,
    pub kinds: u32,
}

impl Numbers {
    /// The four in their order, if each is in its range; else refusal 10.
    pub fn in_range(self) -> Result<Numbers, Refusal> {
        let nodes = (1..=512).contains(&self.nodes);
        let pairs = self.pairs <= 4096;
        let kinds = (1..=65536).contains(&self.kinds);
        if nodes && pairs && kinds {
            return Ok(self);
        }
        Err(Refusal::neither(10))
    }

    /// How many bytes have to be lent: a file's length if no pair is drawn
    /// twice.
    pub fn needed(self) -> usize {
        4 + 2 * self.nodes as usize + 4 * self.pairs as usize
    }
}

/// The state that the draws go on from.
struct State(u32);

impl State {
    /// A step, and then the top 16 bits of the new state, mod the bound.
    fn draw(&mut self, bound: u32) -> u32 {
        let new = (1_664_525 * u64::from(self.0) + 1_013_904_223) % (1 << 32);
        self.0 = u32::try_from(new).expect("32 bits");
        (self.0 >> 16) % bound
    }
}

/// The circuit of a load whose numbers are in their ranges.
pub fn load(numbers: Numbers) -> Circuit {
    let mut state = State(numbers.seed);
    let mut kinds = Vec::new();
    for _ in 0..numbers.nodes {
        kinds.push(u16::try_from(state.draw(numbers.kinds)).expect("16 bits"));
    }
    let mut links = BTreeSet::new();
    for _ in 0..numbers.pairs {
        let start = state.draw(numbers.nodes) as usize;
        let end = state.draw(numbers.nodes) as usize;
        links.insert((start, end));
    }
    Circuit {
        kinds,
        packages: Vec::new(),
        links: links.into_iter().collect(),
    }
}
