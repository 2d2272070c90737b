//! Damage to circuits and to files, so that every refusal comes up.

use crate::circuit::{Circuit, Role};
use crate::random::Random;

/// Damages a circuit in one way: its links, or its size.
pub fn upset(random: &mut Random, role: Role, circuit: &mut Circuit) {
    let (n, m) = (circuit.kinds.len(), circuit.links.len());
    match random.below(8) {
        0 if m > 1 => circuit.links.swap(random.below(m), random.below(m)),
        1 if m > 0 => {
            let at = random.below(m);
            circuit.links.insert(at, circuit.links[at]);
        }
        2 if m > 1 => {
            let at = random.below(m - 1);
            circuit.links[at + 1] = circuit.links[at];
        }
        3 if m > 0 => {
            let at = random.below(m);
            circuit.links[at].0 = random.pick(&[n, n + 1, 65535]);
        }
        4 if m > 0 => {
            let at = random.below(m);
            circuit.links[at].1 = random.pick(&[n, n + 1, 65535]);
        }
        5 => circuit.kinds.push(10),
        6 => resize(random, role, circuit),
        _ => circuit.links.retain(|_| !random.once_in(3)),
    }
}

/// Gives a circuit a number of nodes or links at an edge of its role.
fn resize(random: &mut Random, role: Role, circuit: &mut Circuit) {
    let (nodes, links) = match role {
        Role::Pattern => ([0, 1, 32, 33], [256, 257]),
        Role::Board => ([0, 1, 512, 513], [4096, 4097]),
    };
    if random.once_in(2) {
        circuit.kinds.resize(random.pick(&nodes), 10);
        return;
    }
    let links = random.pick(&links);
    let nodes = match role {
        Role::Pattern => 17,
        Role::Board => 65,
    };
    circuit.kinds.resize(nodes, 10);
    circuit.links = (0..links).map(|at| (at / nodes, at % nodes)).collect();
}

/// Damages a file's bytes in one way.
pub fn spoil(random: &mut Random, file: &mut Vec<u8>) {
    let length = file.len();
    match random.below(7) {
        0 => file.truncate(length.saturating_sub(random.pick(&[1, 2, 4]))),
        1 => file.truncate(random.below(length + 1)),
        2 => file.truncate(random.below(4)),
        3 => file.resize(length + random.pick(&[1, 2, 4]), 0),
        4 if length > 0 => {
            let at = random.below(length);
            file[at] ^= 1 << random.below(8);
        }
        5 if length >= 4 => {
            let at = random.pick(&[0, 2]);
            let field = u16::from_le_bytes([file[at], file[at + 1]]);
            let other = field.wrapping_add(random.pick(&[1, 65535, 256]));
            file[at..at + 2].copy_from_slice(&other.to_le_bytes());
        }
        _ => {
            let length = random.below(24);
            *file = (0..length)
                .map(|_| random.pick(&[0, 0, 1, 2, 255]))
                .collect();
        }
    }
}
