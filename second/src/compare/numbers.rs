//! Numbers that stand for editions, roles and directions: those with a name,
//! and others, which count as one of these.

use crate::circuit::{counted, Edition, Role, Told};
use crate::random::Random;

/// The numbers that are tried: each name's, and some on either side.
pub const NUMBERS: [u32; 6] = [0, 1, 2, 3, 4, u32::MAX];

/// A number that counts as one of two, mostly its own, and now and then any.
fn number(random: &mut Random, own: u32) -> u32 {
    let any = random.pick(&NUMBERS);
    match random.below(12) {
        0 => any,
        1..=3 if counted(any, [1, 2]) == own => any,
        _ => own,
    }
}

/// A number for a role.
pub fn role(random: &mut Random, role: Role) -> u32 {
    number(random, role.number())
}

/// A number for an edition.
pub fn edition(random: &mut Random, edition: Edition) -> u32 {
    number(random, edition.number())
}

/// A file and a number for its edition.
pub fn told<'a>(random: &mut Random, of: Edition, bytes: &'a [u8]) -> Told<'a> {
    let edition = edition(random, of);
    Told { bytes, edition }
}

/// A pattern file of the third edition and a number for that.
pub fn told_third<'a>(random: &mut Random, bytes: &'a [u8]) -> Told<'a> {
    let edition = random.pick(&[3, 3, 3, 4, u32::MAX]);
    Told { bytes, edition }
}
