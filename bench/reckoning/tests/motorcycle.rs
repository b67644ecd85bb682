//! The evaluation of motorcycles against the examples and against the fours of `crates/four_levels` with their lines.

use reckoning::{motorcycle, Mean, Refusal};

const FOURS: &[u8] = include_bytes!("../../../crates/four_levels/data/levels.bin");
const LINES: &str = include_str!("../../../crates/four_levels/stdout");
const FOUR_BYTES: usize = 18;

fn line(answer: Result<Mean, Refusal>) -> String {
    match answer {
        Ok(mean) => format!("OK {} {}", mean.quarters, u8::from(mean.passes)),
        Err((number, place)) => format!("REFUSED {number} {place}"),
    }
}

/// The line of 18 bytes: the floats and the limit, low byte first.
fn line_of(four: &[u8]) -> String {
    let float = |at: usize| f32::from_le_bytes([four[at], four[at + 1], four[at + 2], four[at + 3]]);
    line(motorcycle([float(0), float(4), float(8), float(12)], u16::from_le_bytes([four[16], four[17]])))
}

#[test]
fn every_stored_line_agrees() {
    assert!(!FOURS.is_empty() && FOURS.len().is_multiple_of(FOUR_BYTES));
    assert_eq!(FOURS.len() / FOUR_BYTES, LINES.lines().count());
    for ((four, stored), at) in FOURS.chunks_exact(FOUR_BYTES).zip(LINES.lines()).zip(0..) {
        assert_eq!(line_of(four), stored, "four {at}");
    }
}

#[test]
fn the_mean_is_in_quarters() {
    assert_eq!(line(motorcycle([80.0, 81.0, 80.0, 80.0], 80)), "OK 317 1");
    assert_eq!(line(motorcycle([20.0; 4], 19)), "OK 76 1");
    assert_eq!(line(motorcycle([140.0; 4], 138)), "OK 556 0");
    assert_eq!(line(motorcycle([73.5, 73.4, 72.4, 72.5], 72)), "OK 288 1");
}

#[test]
fn a_level_is_rounded_twice() {
    assert_eq!(line(motorcycle([72.46, 72.0, 72.0, 72.0], 71)), "OK 285 0");
    // As a float it is below 72.45.
    assert_eq!(line(motorcycle([72.45, 72.0, 72.0, 72.0], 71)), "OK 284 1");
}

#[test]
fn every_float_is_asked_before_a_side() {
    let above = 140.0_f32.next_up();
    assert_eq!(line(motorcycle([80.0, 80.0, 20.0_f32.next_down(), 80.0], 80)), "REFUSED 22 3");
    assert_eq!(line(motorcycle([above, 140.0, 140.0, 140.0], 80)), "REFUSED 22 1");
    assert_eq!(line(motorcycle([80.0, f32::INFINITY, 80.0, f32::NAN], 80)), "REFUSED 22 2");
    assert_eq!(line(motorcycle([80.0, 80.0, 80.0, f32::NAN], 80)), "REFUSED 22 4");
    assert_eq!(line(motorcycle([20.0, 140.0, 20.0_f32.next_down(), 80.0], 80)), "REFUSED 22 3");
}

#[test]
fn the_levels_of_a_side_may_differ_by_2() {
    assert_eq!(line(motorcycle([80.0, 83.0, 80.0, 83.0], 80)), "REFUSED 23 1");
    assert_eq!(line(motorcycle([80.4, 82.5, 80.0, 80.0], 80)), "REFUSED 23 1");
    assert_eq!(line(motorcycle([80.4, 82.4, 80.0, 80.0], 80)), "OK 318 1");
    assert_eq!(line(motorcycle([80.0, 82.4, 80.0, 82.5], 80)), "REFUSED 23 2");
}

#[test]
fn any_limit_is_taken() {
    let levels = [80.0, 81.0, 80.0, 80.0];
    for (limit, passes) in [(0, false), (79, false), (80, true), (16_384, true), (16_463, true), (65_535, true)] {
        assert_eq!(motorcycle(levels, limit), Ok(Mean { quarters: 317, passes }), "limit {limit}");
    }
}
