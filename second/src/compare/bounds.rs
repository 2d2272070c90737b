//! Patterns with bounds on boards of both editions; and what a finder owes by
//! itself: all bounds 1 give what the second edition gives, and raising a
//! bound takes no pair away.

use super::boards::{board, pattern, Size};
use super::call::{run, Call, Lent, Outcome};
use super::case::{lend, size};
use super::damage::{spoil, upset};
use super::finder::Finder;
use super::numbers::{told, told_third};
use super::tally::Tally;
use super::{agree, Difference};
use crate::bounded::Bounded;
use crate::circuit::{Circuit, Edition, Files, Role, Told};
use crate::random::Random;

/// A bound for each link: all the same, or each of its own.
fn bounds(random: &mut Random, links: usize) -> Vec<u16> {
    let same = random.between(1, 5) as u16;
    (0..links)
        .map(|_| match same {
            5 => random.between(1, 4) as u16,
            same => same,
        })
        .collect()
}

/// A pattern's third-edition file, now and then damaged: the circuit, the
/// bytes, a bound, or the bounds left out.
fn file(random: &mut Random, pattern: &Bounded) -> Vec<u8> {
    let mut drawn = pattern.clone();
    match random.below(20) {
        0 => {
            upset(random, Role::Pattern, &mut drawn.circuit);
            drawn.bounds.resize(drawn.circuit.links.len(), 2);
        }
        1 | 2 if !drawn.bounds.is_empty() => {
            let at = random.below(drawn.bounds.len());
            drawn.bounds[at] = random.pick(&[0, 5, 256, 257, 65535]);
            if random.once_in(4) {
                upset(random, Role::Pattern, &mut drawn.circuit);
                drawn.bounds.resize(drawn.circuit.links.len(), 0);
            }
        }
        3 => return drawn.circuit.bytes_in(Edition::Second),
        4 => {
            let mut bytes = drawn.bytes();
            spoil(random, &mut bytes);
            return bytes;
        }
        _ => {}
    }
    drawn.bytes()
}

/// A board's file in an edition, now and then damaged.
fn board_file(random: &mut Random, edition: Edition, board: &Circuit) -> Vec<u8> {
    let mut bytes = board.bytes_in(edition);
    if random.once_in(10) {
        spoil(random, &mut bytes);
    }
    bytes
}

/// What a call comes to with a table as long as needed.
fn outcome(finder: &dyn Finder, call: &Call) -> Outcome {
    let lent = Lent {
        lengths: call.needed(),
        filling: 1,
    };
    run(finder, call, &lent)
}

/// With all bounds 1 the reply and the table are those of the pattern without
/// its bounds.
fn ones(
    finder: &dyn Finder,
    pattern: &Bounded,
    board: Told,
    tally: &mut Tally,
) -> Result<(), Difference> {
    let plain = pattern.circuit.bytes_in(Edition::Second);
    let one = Bounded {
        circuit: pattern.circuit.clone(),
        bounds: vec![1; pattern.bounds.len()],
    }
    .bytes();
    let call = |pattern| Call::Match {
        files: Files { pattern, board },
    };
    let with = call(Told::third(&one));
    let without = call(Told::of(Edition::Second, &plain));
    tally.law("all bounds 1 beside the second edition");
    let (with_is, without_is) = (outcome(finder, &with), outcome(finder, &without));
    if with_is == without_is {
        return Ok(());
    }
    let text = format!(
        "all bounds 1 are not the second edition\n{with}\n{}\n{}",
        with_is.told(),
        without_is.told()
    );
    Err(Difference { text })
}

/// A pattern with some bounds raised has every pair that it had.
fn raised(
    finder: &dyn Finder,
    random: &mut Random,
    pattern: &Bounded,
    board: Told,
    tally: &mut Tally,
) -> Result<(), Difference> {
    let mut more = pattern.clone();
    for bound in &mut more.bounds {
        *bound = random.between(usize::from(*bound), 4) as u16;
    }
    let [few, many] = [pattern, &more].map(Bounded::bytes);
    let call = |pattern| Call::Match {
        files: Files {
            pattern: Told::third(pattern),
            board,
        },
    };
    let [one, two] = [&few[..], &many[..]].map(|pattern| outcome(finder, &call(pattern)));
    if one.reply[0] != 0 {
        return Ok(());
    }
    tally.law("bounds raised");
    let kept = |(a, b): (&u32, &u32)| a & !b == 0;
    if two.reply[0] == 0 && one.tables[0].iter().zip(&two.tables[0]).all(kept) {
        return Ok(());
    }
    let text = format!("a raised bound takes a pair away\n{}", call(&many));
    Err(Difference { text })
}

/// Runs one numbered case: a pattern with bounds on a board of each edition
/// against the second finder, and the two laws.
pub fn check(
    finder: &dyn Finder,
    seed: u64,
    number: u64,
    tally: &mut Tally,
) -> Result<(), Difference> {
    let mut random = Random::of_case(seed ^ 0x626f_756e, number);
    let random = &mut random;
    let size = match size(random) {
        Size::Full if !random.once_in(8) => Size::Medium,
        size => size,
    };
    let circuit = pattern(random, size);
    let board = board(random, size, &circuit);
    let bounds = bounds(random, circuit.links.len());
    let pattern = Bounded { circuit, bounds };
    let drawn = file(random, &pattern);
    let editions = [Edition::First, Edition::Second];
    let boards = editions.map(|edition| board_file(random, edition, &board));
    for (edition, board) in editions.into_iter().zip(&boards) {
        let files = Files {
            pattern: told_third(random, &drawn),
            board: told(random, edition, board),
        };
        let call = Call::Match { files };
        let lent = lend(random, &call);
        agree(finder, &call, &lent, tally)?;
        ones(finder, &pattern, files.board, tally)?;
        raised(finder, random, &pattern, files.board, tally)?;
    }
    Ok(())
}
