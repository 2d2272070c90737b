//! The comparison of a finder with the second finder: fixed edges first, then
//! numbered random cases, each with every call.

pub mod boards;
pub mod bounds;
pub mod call;
pub mod case;
pub mod damage;
pub mod edges;
pub mod editions;
pub mod finder;
pub mod laws;
pub mod numbers;
pub mod proposals;
pub mod sessions;
pub mod shelves;
pub mod tally;

use std::fmt;
use std::ops::Range;

use call::{run, Call, Lent};
use finder::{Finder, Second};
use tally::Tally;

/// A difference between the two finders, or a law that the first one breaks,
/// told in full.
#[derive(Debug)]
pub struct Difference {
    pub text: String,
}

impl fmt::Display for Difference {
    fn fmt(&self, f: &mut fmt::Formatter) -> fmt::Result {
        f.write_str(&self.text)
    }
}

/// Runs a call with both finders, counts it, and demands the same reply and
/// the same content of every lent table.
pub fn agree(
    finder: &dyn Finder,
    call: &Call,
    lent: &Lent,
    tally: &mut Tally,
) -> Result<(), Difference> {
    let one = run(finder, call, lent);
    let two = run(&Second, call, lent);
    tally.count(call, &two);
    if one == two {
        return Ok(());
    }
    let text = format!(
        "{call}\ntables lent {lent}\nfinder: {}\nsecond: {}{}",
        one.told(),
        two.told(),
        one.first_difference(&two),
    );
    Err(Difference { text })
}

/// How many random cases a comparison has if no number is told; some three
/// minutes' work.
pub const CASES: u64 = 250_000;

/// Runs the random cases of these numbers.
pub fn cases(
    finder: &dyn Finder,
    seed: u64,
    numbers: Range<u64>,
    tally: &mut Tally,
) -> Result<(), Difference> {
    for number in numbers {
        case::check(finder, seed, number, tally).map_err(|difference| Difference {
            text: format!(
                "seed {seed}, case {number} (again: compare 1 {seed} {number})\n{difference}"
            ),
        })?;
    }
    Ok(())
}
