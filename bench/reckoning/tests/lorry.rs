//! Test masses of lorries against the examples and against the lorries of `crates/test_masses` with their lines.

use reckoning::{more_axles, two_axles, Masses, Refusal, TwoAxles};

const LORRIES: &[u8] = include_bytes!("../../../crates/test_masses/data/lorries.bin");
const LINES: &str = include_str!("../../../crates/test_masses/stdout");
const LORRY_BYTES: usize = 12;

fn line(answer: Result<Masses, Refusal>) -> String {
    match answer {
        Ok(Masses { mass, load, lowest, highest }) => format!("OK {mass} {load} {lowest} {highest}"),
        Err((number, place)) => format!("REFUSED {number} {place}"),
    }
}

fn two(power: u16, front: u16, rear: u16, rear_max: u16) -> String {
    line(two_axles(TwoAxles { power, front, rear, rear_max }))
}

fn more(power: u16, front: u16, rear: u16, rear_max: u16, own: u16) -> String {
    line(more_axles(TwoAxles { power, front, rear, rear_max }, own))
}

/// The line of 12 bytes: 2 for two axles or 3 for more, and the five numbers of the lorry, low byte first.
fn line_of(lorry: &[u8; LORRY_BYTES]) -> String {
    let number = |at: usize| u16::from_le_bytes([lorry[2 * at], lorry[2 * at + 1]]);
    match (number(0), number(5)) {
        (2, 0) => two(number(1), number(2), number(3), number(4)),
        (3, own) => more(number(1), number(2), number(3), number(4), own),
        other => panic!("axles and own mass are {other:?}"),
    }
}

#[test]
fn every_stored_line_agrees() {
    let (lorries, rest) = LORRIES.as_chunks();
    assert!(!lorries.is_empty() && rest.is_empty());
    assert_eq!(lorries.len(), LINES.lines().count());
    for ((lorry, stored), at) in lorries.iter().zip(LINES.lines()).zip(0..) {
        assert_eq!(line_of(lorry), stored, "lorry {at}");
    }
}

#[test]
fn the_target_is_reached_if_the_rear_axle_bears_it() {
    assert_eq!(two(2000, 4000, 3000, 11_500), "OK 100000000 29250000 95000000 105000000");
    assert_eq!(two(2540, 4000, 3000, 11_500), "OK 127000000 56250000 120650000 133350000");
    assert_eq!(two(2541, 4000, 3000, 11_500), "OK 127000000 56250000 120650000 133350000");
}

#[test]
fn the_rear_axle_bears_75_percent() {
    assert_eq!(two(3000, 4000, 3000, 11_500), "OK 127000000 56250000 120650000 133350000");
    assert_eq!(two(3000, 4000, 3000, 11_501), "OK 127007500 56257500 120657125 133357875");
    assert_eq!(two(3000, 4000, 3000, 11_502), "OK 127015000 56265000 120664250 133365750");
    assert_eq!(two(3000, 4000, 3000, 11_503), "OK 127022500 56272500 120671375 133373625");
}

#[test]
fn a_negative_extra_is_not_loaded() {
    assert_eq!(two(1416, 4000, 3000, 11_500), "OK 70800000 50000 67260000 74340000");
    for power in [1415, 1414, 1000, 0] {
        assert_eq!(two(power, 4000, 3000, 11_500), "OK 70750000 0 67212500 74287500", "power {power}");
    }
}

#[test]
fn a_rear_axle_over_75_percent_is_refused_before_all_else() {
    for power in [0, 1000, 3000, 65_535] {
        assert_eq!(two(power, 4000, 8626, 11_500), "REFUSED 21 0", "power {power}");
        for own in [0, 9000, 65_535] {
            assert_eq!(more(power, 4000, 8626, 11_500, own), "REFUSED 21 0", "power {power}, own mass {own}");
        }
    }
    for rear_max in 0..=65_535 {
        let most = (3 * u32::from(rear_max) / 4) as u16;
        assert_ne!(two(0, 0, most, rear_max), "REFUSED 21 0", "maximum {rear_max}");
        assert_eq!(two(0, 0, most + 1, rear_max), "REFUSED 21 0", "maximum {rear_max}");
    }
}

#[test]
fn more_axles_have_the_mass_of_the_stand_in() {
    assert_eq!(more(3000, 4000, 3000, 11_500, 9000), "OK 127000000 36250000 120650000 133350000");
    assert_eq!(more(3000, 4000, 3000, 11_500, 12_625), "OK 127000000 0 120650000 133350000");
    assert_eq!(more(3000, 4000, 3000, 11_500, 12_626), "OK 127010000 0 120659500 133360500");
    assert_eq!(more(3000, 4000, 3000, 11_501, 12_625), "OK 127007500 7500 120657125 133357875");
    assert_eq!(more(3000, 4000, 3000, 11_501, 12_626), "OK 127010000 0 120659500 133360500");
}

#[test]
fn any_numbers_are_taken() {
    assert_eq!(two(0, 0, 0, 0), "OK 750000 0 712500 787500");
    assert_eq!(two(65_535, 0, 0, 0), "OK 750000 0 712500 787500");
    assert_eq!(two(0, 65_535, 49_151, 65_535), "OK 1147610000 0 1090229500 1204990500");
    assert_eq!(two(65_535, 65_535, 0, 65_535), "OK 1147612500 491512500 1090231875 1204993125");
    assert_eq!(two(65_535, 65_535, 65_535, 65_535), "REFUSED 21 0");
    assert_eq!(more(65_535, 0, 0, 0, 65_535), "OK 656100000 0 623295000 688905000");
}
