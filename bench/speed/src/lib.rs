//! What the differential run and the speed table share: sheets, fours of levels, lists of cars, lorries, and a fast evaluation in
//! Rust.

pub mod cars;
pub mod changes;
pub mod fours;
pub mod lorries;
pub mod random;
pub mod sessions;
pub mod sheets;
pub mod straight;
