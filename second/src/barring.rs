//! The least of a pattern's links that still says that a centre has no place.

use crate::circuit::Circuit;
use crate::graph::{ball, radius};
use crate::simulation::largest;

/// Whether some of the pattern's links bar the centre: in the ball at the full
/// pattern's radius the largest set of pairs that meets kinds, packages and
/// those links alone, all parts kept and none required to occur, has no pair
/// with it.
pub fn bars(pattern: &Circuit, board: &Circuit, centre: usize, chosen: &[bool]) -> bool {
    let links = pattern.links.iter().zip(chosen);
    let rest = Circuit {
        links: links.filter(|(_, &is)| is).map(|(&link, _)| link).collect(),
        ..pattern.clone()
    };
    let ball = ball(board, centre, radius(pattern));
    !largest(&rest, board, &ball).0.occurs(centre)
}

/// From all links, in file order, each one dropped without which the rest
/// still bars: which are kept.
pub fn least(pattern: &Circuit, board: &Circuit, centre: usize) -> Vec<bool> {
    let mut kept = vec![true; pattern.links.len()];
    for at in 0..kept.len() {
        kept[at] = false;
        kept[at] = !bars(pattern, board, centre, &kept);
    }
    kept
}
