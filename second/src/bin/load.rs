//! The second finder's test load: `load SEED N M K` writes the board's file to
//! standard output.

#![deny(warnings)]
#![forbid(unsafe_code)]

use std::io::Write;
use std::process::ExitCode;
use std::{env, io};

use second::load::{load, Numbers};

/// The four numbers, if there are four words and each is a 32-bit number.
fn numbers() -> Option<Numbers> {
    let words: Vec<u32> = env::args()
        .skip(1)
        .map(|word| word.parse().ok())
        .collect::<Option<_>>()?;
    let [seed, nodes, pairs, kinds] = words[..] else {
        return None;
    };
    Some(Numbers {
        seed,
        nodes,
        pairs,
        kinds,
    })
}

fn main() -> ExitCode {
    let Some(numbers) = numbers() else {
        eprintln!("usage: load SEED N M K");
        return ExitCode::from(2);
    };
    let Ok(numbers) = numbers.in_range() else {
        eprintln!("load: a number out of its range");
        return ExitCode::FAILURE;
    };
    match io::stdout().write_all(&load(numbers).bytes()) {
        Ok(()) => ExitCode::SUCCESS,
        Err(error) => {
            eprintln!("load: standard output: {error}");
            ExitCode::FAILURE
        }
    }
}
