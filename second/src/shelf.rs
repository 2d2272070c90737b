//! The order on whole circuits, and a shelf of second-edition pattern files.

use std::cmp::Ordering;

use crate::circuit::{Circuit, Edition, Refusal, Role, Told};

/// How two circuits rank: by N, then M, then kinds, packages, starts, ends.
pub fn compare(one: &Circuit, other: &Circuit) -> Ordering {
    key(one).cmp(&key(other))
}

type Key = (usize, usize, Vec<u16>, Vec<u16>, Vec<usize>, Vec<usize>);

fn key(circuit: &Circuit) -> Key {
    (
        circuit.kinds.len(),
        circuit.links.len(),
        circuit.kinds.clone(),
        circuit.all_packages(),
        circuit.links.iter().map(|link| link.0).collect(),
        circuit.links.iter().map(|link| link.1).collect(),
    )
}

/// The circuit of a file of the shelf.
pub fn pattern(file: &[u8]) -> Result<Circuit, Refusal> {
    Told::of(Edition::Second, file).read(Role::Pattern)
}

/// The numbers of the accepted files in order, of equal circuits the lower
/// number first.
pub fn shelf(files: &[&[u8]]) -> Vec<usize> {
    let mut accepted: Vec<(Circuit, usize)> = Vec::new();
    for (number, file) in files.iter().enumerate() {
        if let Ok(circuit) = pattern(file) {
            accepted.push((circuit, number));
        }
    }
    accepted.sort_by(|one, other| compare(&one.0, &other.0).then(one.1.cmp(&other.1)));
    accepted.into_iter().map(|(_, number)| number).collect()
}

/// What the shelf program prints.
pub fn text(numbers: &[usize]) -> String {
    numbers
        .iter()
        .map(|number| format!("{number:02}\n"))
        .collect()
}

/// Byte strings that lie one after another, the first 16 of them; where the
/// bytes end, the last are shorter or empty.
pub fn strings<'a>(bytes: &'a [u8], lengths: &[u32]) -> Vec<&'a [u8]> {
    let mut rest = bytes;
    let mut files = Vec::new();
    for &length in lengths.iter().take(16) {
        let length = usize::try_from(length).expect("32 bits").min(rest.len());
        let (file, after) = rest.split_at(length);
        files.push(file);
        rest = after;
    }
    files
}
