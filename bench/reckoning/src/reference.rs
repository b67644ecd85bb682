//! a_urban and a_ref of a PMR (document 01, "Gears").

include!(concat!(env!("OUT_DIR"), "/starts.rs"));

/// PMR 25.0 in tenths.
pub const CONSTANT_SPEED_PMR: u32 = 250;

/// The hundredth of q: one below the first tabled one, and one more for each start that is not above q.
fn hundredth(starts: &[u16], below_first: u32, q: u32) -> u32 {
    below_first + starts.partition_point(|&start| u32::from(start) <= q) as u32
}

pub fn a_urban(q: u32) -> u32 {
    hundredth(&A_URBAN_STARTS, 35, q)
}

pub fn a_ref(q: u32) -> u32 {
    if q < CONSTANT_SPEED_PMR {
        a_urban(q)
    } else {
        hundredth(&A_REF_STARTS, 81, q)
    }
}
