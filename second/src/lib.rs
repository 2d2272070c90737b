//! A second circuit finder. It is written from the definitions alone and by
//! plain means: sets of pairs are tables of truth values, every step is a loop
//! over whole link lists, and nothing is indexed, packed or kept between calls.
//! It exists to be compared with the proved finder.

#![deny(warnings)]
#![forbid(unsafe_code)]

pub mod barring;
pub mod bounded;
pub mod calls;
pub mod check;
pub mod circuit;
pub mod compare;
pub mod graph;
pub mod load;
pub mod merged;
pub mod place;
pub mod random;
pub mod report;
pub mod session;
pub mod shelf;
pub mod simulation;
