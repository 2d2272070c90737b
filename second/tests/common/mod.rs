//! Circuits for the tests.

use second::circuit::Circuit;

/// A circuit of these kinds and links.
pub fn circuit(kinds: &[u16], links: &[(usize, usize)]) -> Circuit {
    Circuit {
        kinds: kinds.to_vec(),
        packages: Vec::new(),
        links: links.to_vec(),
    }
}
