//! The limit: written, or looked up by class and phase (document 02, wish 1).

use crate::sheet::{are_zero, number, number_within, read_flag};
use crate::Refusal;

const CATEGORY_N1: u8 = 2;

/// Limits in dB(A) for the phases 1 to 3.
type Row = [u32; 3];

const UP_TO_120: Row = [72, 70, 68];
const UP_TO_160: Row = [73, 71, 69];
const ABOVE_160: Row = [75, 73, 71];
const LOW_ABOVE_200: Row = [75, 74, 72];

/// A limit that is looked up has the place of its phase in a row, and whether the car is of the class of low cars with at
/// most four seats.
#[derive(Clone, Copy)]
pub enum Limit {
    Written(u32),
    LookedUp { phase: usize, is_low: bool },
}

/// A limit of 0 has a phase and a class beside it, which are any bytes here; beside a written one both are zero.
pub fn has_limit_layout(record: &[u8]) -> bool {
    number(record, 14) == 0 || number_within(record, 14, 50, 100).is_some() && are_zero(&record[16..18])
}

impl Limit {
    /// Refusals 11 and 12, or the limit of a vehicle record that has the layout.
    pub fn read(record: &[u8]) -> Result<Limit, Refusal> {
        match number(record, 14) {
            0 if record[1] == CATEGORY_N1 => Err((11, 0)),
            0 => Limit::looked_up(record[16], record[17]).ok_or((12, 0)),
            written => Ok(Limit::Written(written.into())),
        }
    }

    fn looked_up(phase: u8, class: u8) -> Option<Limit> {
        let phase = (1..=3).position(|known| known == phase)?;
        Some(Limit::LookedUp { phase, is_low: read_flag(class)? })
    }

    /// The limit found, by the rounded PMR in tenths.
    pub fn found(self, pmr: u32) -> u32 {
        match self {
            Limit::Written(limit) => limit,
            Limit::LookedUp { phase, is_low } => row(pmr, is_low)[phase],
        }
    }
}

fn row(pmr: u32, is_low: bool) -> Row {
    match pmr {
        0..=1200 => UP_TO_120,
        1201..=1600 => UP_TO_160,
        2001.. if is_low => LOW_ABOVE_200,
        _ => ABOVE_160,
    }
}
