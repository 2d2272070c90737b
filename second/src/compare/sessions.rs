//! Sessions: lists of cuts with repeats and places past the last link, on
//! files of both editions.

use super::boards::{board, pattern, Size};
use super::call::Call;
use super::case::lend;
use super::damage::spoil;
use super::finder::Finder;
use super::numbers::told;
use super::tally::Tally;
use super::{agree, Difference};
use crate::circuit::{Edition, Files};
use crate::random::Random;

/// A list of places: most of them links, some again, some past the last one.
fn places(random: &mut Random, links: usize, count: usize) -> Vec<usize> {
    let mut all: Vec<usize> = Vec::new();
    for _ in 0..count {
        let place = match random.below(12) {
            0 if !all.is_empty() => all[random.below(all.len())],
            1 => links + random.below(3),
            2 => random.pick(&[4095, 4096, 8191, 65535, 65536, usize::MAX]),
            _ => random.below(links.max(1)),
        };
        all.push(place);
    }
    all
}

/// Runs one numbered case: a session, and now and then every link of a board
/// cut in a random order.
pub fn check(
    finder: &dyn Finder,
    seed: u64,
    number: u64,
    tally: &mut Tally,
) -> Result<(), Difference> {
    let mut random = Random::of_case(seed ^ 0x6375_7473, number);
    let random = &mut random;
    let size = random.pick(&[Size::Tiny, Size::Tiny, Size::Tiny, Size::Small]);
    let (mut pattern, mut board) = {
        let pattern = pattern(random, size);
        let board = board(random, size, &pattern);
        (pattern, board)
    };
    if random.once_in(4) {
        pattern.links.truncate(pattern.links.len() / 2);
    }
    if random.once_in(2) {
        pattern.packages = pattern.kinds.iter().map(|kind| kind % 2).collect();
        board.packages = board.kinds.iter().map(|kind| kind % 2).collect();
    }
    let either = [Edition::First, Edition::Second];
    let editions = [random.pick(&either), random.pick(&either)];
    let mut pattern = pattern.bytes_in(editions[0]);
    let mut bytes = board.bytes_in(editions[1]);
    if random.once_in(12) {
        spoil(random, &mut pattern);
    }
    if random.once_in(12) {
        spoil(random, &mut bytes);
    }
    let m = board.links.len();
    let places = if m > 0 && random.once_in(5) {
        let mut every: Vec<usize> = (0..m).collect();
        random.shuffle(&mut every);
        every
    } else {
        let count = random.below(12);
        places(random, m, count)
    };
    let files = Files {
        pattern: told(random, editions[0], &pattern),
        board: told(random, editions[1], &bytes),
    };
    let call = Call::Session {
        files,
        places: &places,
    };
    let lent = lend(random, &call);
    agree(finder, &call, &lent, tally)
}
