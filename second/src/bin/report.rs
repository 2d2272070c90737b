//! The second finder's report: reads `pattern.cir` and `board.cir` in the
//! folder given, or in the current one, and prints the report. A file that is
//! not there counts as empty; one that is there and can't be read ends the
//! program with a message and status 1.

#![deny(warnings)]
#![forbid(unsafe_code)]

use std::io::{ErrorKind, Write};
use std::path::Path;
use std::process::ExitCode;
use std::{env, fs, io};

use second::circuit::Files;

/// The content of a file, empty when there is none of that name.
fn content(folder: &Path, name: &str) -> Result<Vec<u8>, String> {
    let path = folder.join(name);
    match fs::read(&path) {
        Ok(bytes) => Ok(bytes),
        Err(error) if error.kind() == ErrorKind::NotFound => Ok(Vec::new()),
        Err(error) => Err(format!("{}: {error}", path.display())),
    }
}

/// Reads both files and prints the report.
fn run(folder: &Path) -> Result<(), String> {
    if !folder.is_dir() {
        return Err(format!("{}: not a folder", folder.display()));
    }
    let pattern = content(folder, "pattern.cir")?;
    let board = content(folder, "board.cir")?;
    let text = second::report::report(Files::first(&pattern, &board));
    io::stdout()
        .write_all(text.as_bytes())
        .map_err(|error| format!("standard output: {error}"))
}

fn main() -> ExitCode {
    let mut arguments = env::args_os().skip(1);
    let folder = arguments.next().unwrap_or_else(|| ".".into());
    if arguments.next().is_some() {
        eprintln!("usage: report [FOLDER]");
        return ExitCode::from(2);
    }
    match run(Path::new(&folder)) {
        Ok(()) => ExitCode::SUCCESS,
        Err(message) => {
            eprintln!("report: {message}");
            ExitCode::FAILURE
        }
    }
}
