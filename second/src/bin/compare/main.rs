//! `compare [CASES] [SEED] [FIRST]`: compares every call of the host library
//! with the second finder, on the fixed edges and then on so many numbered
//! random cases of a seed. Told a FIRST number, it begins there and leaves out
//! the edges. On a difference it tells the seed, the case's number and the
//! case, and ends with status 1.

#![deny(warnings)]

#[cfg(host)]
mod host;

use std::process::ExitCode;

#[cfg(not(host))]
fn main() -> ExitCode {
    eprintln!("compare: built without the host library");
    eprintln!("set HOST_LIB_DIR to the folder of libheronditch.a and build again");
    ExitCode::from(2)
}

/// The numbers of the command line, none if it is wrong.
#[cfg(host)]
fn numbers() -> Option<(u64, u64, Option<u64>)> {
    let words = std::env::args().skip(1).map(|word| word.parse().ok());
    let numbers = words.collect::<Option<Vec<u64>>>()?;
    let at = |place: usize| numbers.get(place).copied();
    let cases = at(0).unwrap_or(second::compare::CASES);
    (numbers.len() <= 3).then(|| (cases, at(1).unwrap_or(1), at(2)))
}

/// Runs the edges, unless a first case is told, and the cases, and tells after
/// each tenth of them how far it is.
#[cfg(host)]
fn run(cases: u64, seed: u64, first: Option<u64>) -> Result<String, second::compare::Difference> {
    use second::compare;

    let mut tally = compare::tally::Tally::default();
    if first.is_none() {
        compare::edges::check(&host::Host, &mut tally)?;
        eprintln!("compare: edges done");
    }
    let first = first.unwrap_or(0);
    let step = cases.div_ceil(10).max(1);
    for done in (0..cases).step_by(usize::try_from(step).unwrap_or(usize::MAX)) {
        let last = cases.min(done + step);
        compare::cases(&host::Host, seed, first + done..first + last, &mut tally)?;
        eprintln!("compare: {last} of {cases} cases done");
    }
    Ok(tally.to_string())
}

#[cfg(host)]
fn main() -> ExitCode {
    let Some((cases, seed, first)) = numbers() else {
        eprintln!("usage: compare [CASES] [SEED] [FIRST]");
        return ExitCode::from(2);
    };
    match run(cases, seed, first) {
        Ok(table) => {
            println!("{table}\nno difference in {cases} cases of seed {seed}");
            ExitCode::SUCCESS
        }
        Err(difference) => {
            println!("{difference}");
            ExitCode::FAILURE
        }
    }
}
