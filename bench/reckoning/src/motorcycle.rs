//! Motorcycles (document 02, wish 14; document 003, annex 3, 1.5).

use crate::sheet::{is_level, tenths};
use crate::{rounded, Refusal};

/// The most that the two levels of a side may differ, and what is taken from each, in whole dB.
const WIDEST_DIFFERENCE: u16 = 2;
const TAKEN_OFF: u16 = 1;

/// The mean of the four levels in quarters of a dB, and whether it passes.
#[derive(Clone, Copy, Debug, PartialEq, Eq)]
pub struct Mean {
    pub quarters: u16,
    pub passes: bool,
}

/// Judges four levels, 1 and 2 left, 3 and 4 right, against a limit in whole dB.
pub fn motorcycle(levels: [f32; 4], limit: u16) -> Result<Mean, Refusal> {
    if let Some(at) = levels.iter().position(|&level| !is_level(level)) {
        return Err((22, at as u32 + 1));
    }
    let levels = levels.map(whole_decibels);
    for (two, side) in levels.chunks_exact(2).zip(1..) {
        if two[0].abs_diff(two[1]) > WIDEST_DIFFERENCE {
            return Err((23, side));
        }
    }
    // A quarter of the sum, in quarters, is the sum.
    let quarters = levels.iter().map(|level| level - TAKEN_OFF).sum();
    let passes = u32::from(quarters) <= 4 * u32::from(limit);
    Ok(Mean { quarters, passes })
}

/// A level to tenths and then to whole dB, a half going up each time.
fn whole_decibels(level: f32) -> u16 {
    rounded(tenths(level) as u32, 10) as u16
}
