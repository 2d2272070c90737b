//! Comparisons of two second-edition pattern files, and shelves of them:
//! copies, circuits that differ in one field, damaged files, lengths that run
//! past the bytes' end, and more files than a shelf has.

use super::boards::{pattern, Size};
use super::call::Call;
use super::case::lend;
use super::damage::{spoil, upset};
use super::finder::Finder;
use super::tally::Tally;
use super::{agree, Difference};
use crate::circuit::{Circuit, Edition, Role};
use crate::random::Random;

/// Numbers so chosen that their order is not that of their low bytes.
const NUMBERS: [u16; 6] = [0, 1, 255, 256, 511, 65535];

/// A circuit that differs from another in one field, or in nothing.
fn near(random: &mut Random, circuit: &Circuit) -> Circuit {
    let mut circuit = circuit.clone();
    let nodes = circuit.kinds.len();
    let links = circuit.links.len();
    match random.below(7) {
        0 => circuit.kinds[random.below(nodes)] = random.pick(&NUMBERS),
        1 | 2 => circuit.packages[random.below(nodes)] = random.pick(&NUMBERS),
        3 if links > 0 => {
            circuit.links.remove(random.below(links));
        }
        4 if links > 0 => {
            let at = random.below(links);
            circuit.links[at] = (random.below(nodes), random.below(nodes));
            circuit.links.sort_unstable();
            circuit.links.dedup();
        }
        5 if nodes < 32 && links < 256 => {
            circuit.kinds.push(random.pick(&NUMBERS));
            circuit.packages.push(random.pick(&NUMBERS));
            circuit.links.push((nodes, random.below(nodes + 1)));
        }
        _ => {}
    }
    circuit
}

/// The file of a circuit like another one, now and then damaged.
fn file(random: &mut Random, circuit: &Circuit) -> Vec<u8> {
    let mut circuit = near(random, circuit);
    if random.once_in(12) {
        upset(random, Role::Pattern, &mut circuit);
    }
    let mut bytes = circuit.bytes_in(Edition::Second);
    if random.once_in(12) {
        spoil(random, &mut bytes);
    }
    bytes
}

/// A pattern with a package for each part.
fn packed(random: &mut Random) -> Circuit {
    let size = if random.once_in(200) {
        Size::Full
    } else {
        random.pick(&[Size::Tiny, Size::Tiny, Size::Small])
    };
    let mut circuit = pattern(random, size);
    let package = random.pick(&NUMBERS);
    circuit.packages = circuit.kinds.iter().map(|_| package).collect();
    circuit
}

/// Runs one numbered case: a shelf, and comparisons of its files.
pub fn check(
    finder: &dyn Finder,
    seed: u64,
    number: u64,
    tally: &mut Tally,
) -> Result<(), Difference> {
    let mut random = Random::of_case(seed ^ 0x7368_656c, number);
    let random = &mut random;
    let circuits = [packed(random), packed(random)];
    let most = random.pick(&[3, 5, 18]);
    let count = random.between(0, most);
    let mut files: Vec<Vec<u8>> = Vec::new();
    for _ in 0..count {
        let made = if !files.is_empty() && random.once_in(5) {
            files[random.below(files.len())].clone()
        } else {
            let like = random.below(circuits.len());
            file(random, &circuits[like])
        };
        files.push(made);
    }
    let bytes = files.concat();
    let length = |file: &Vec<u8>| u32::try_from(file.len()).expect("32 bits");
    let mut lengths: Vec<u32> = files.iter().map(length).collect();
    if count > 0 && random.once_in(10) {
        let at = random.below(count);
        lengths[at] = random.pick(&[0, lengths[at] + 1, u32::MAX]);
    }
    let shelf = Call::Shelf {
        bytes: &bytes,
        lengths: &lengths,
    };
    let lent = lend(random, &shelf);
    agree(finder, &shelf, &lent, tally)?;
    for pair in files.windows(2) {
        let compare = Call::Compare {
            first: &pair[0],
            second: &pair[1],
        };
        let lent = lend(random, &compare);
        agree(finder, &compare, &lent, tally)?;
    }
    Ok(())
}
