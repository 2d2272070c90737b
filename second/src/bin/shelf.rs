//! The second finder's shelf: `shelf [FOLDER]` prints the numbers of
//! `p00.cir` to `p15.cir` in the order of their circuits.

#![deny(warnings)]
#![forbid(unsafe_code)]

use std::io::{ErrorKind, Write};
use std::path::PathBuf;
use std::process::ExitCode;
use std::{env, fs, io};

use second::shelf::{shelf, text};

fn main() -> ExitCode {
    let folder = PathBuf::from(env::args().nth(1).unwrap_or_else(|| ".".into()));
    let mut files = Vec::new();
    for number in 0..16 {
        let name = folder.join(format!("p{number:02}.cir"));
        match fs::read(&name) {
            Ok(bytes) => files.push(bytes),
            Err(error) if error.kind() == ErrorKind::NotFound => break,
            Err(error) => {
                eprintln!("shelf: {}: {error}", name.display());
                return ExitCode::FAILURE;
            }
        }
    }
    let files: Vec<&[u8]> = files.iter().map(|file| &file[..]).collect();
    match io::stdout().write_all(text(&shelf(&files)).as_bytes()) {
        Ok(()) => ExitCode::SUCCESS,
        Err(error) => {
            eprintln!("shelf: standard output: {error}");
            ExitCode::FAILURE
        }
    }
}
