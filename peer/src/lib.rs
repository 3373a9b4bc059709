//! A second reading of the rules, apart from the library, to judge it by.
//!
//! `frame`, `sae`, `supplement`, `report` and `stream` hold the rules; `vectors`
//! and `compare` hold the cases that the two programs of the same names make
//! from them.

pub mod case;
pub mod compare;
mod counts;
pub mod frame;
pub mod random;
pub mod report;
pub mod sae;
pub mod stream;
pub mod supplement;
pub mod text;
pub mod vectors;
