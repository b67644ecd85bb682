//! Production checks against the examples and against the lists of `crates/car_lists` with their lines.

use reckoning::{production, Standing, Status};

const LISTS: &[u8] = include_bytes!("../../../crates/car_lists/data/lists.bin");
const LINES: &str = include_str!("../../../crates/car_lists/stdout");

fn line(limit: u16, cars: &[u16]) -> String {
    let Standing { status, wanted, answer } = production(limit, cars);
    let status = match status {
        Status::Open => "OPEN",
        Status::Conforms => "CONFORMS",
        Status::DoesNotConform => "DOES-NOT-CONFORM",
    };
    match answer {
        Ok(()) => format!("{status} {wanted}"),
        Err((number, place)) => format!("{status} {wanted} REFUSED {number} {place}"),
    }
}

/// The limits and the cars of the stored lists: limit, number of cars and cars in two bytes each, low byte first.
fn stored_lists() -> Vec<(u16, Vec<u16>)> {
    let (twos, rest) = LISTS.as_chunks();
    assert!(rest.is_empty());
    let mut numbers = twos.iter().map(|&two| u16::from_le_bytes(two));
    let mut lists = Vec::new();
    while let Some(limit) = numbers.next() {
        let count = numbers.next().expect("a limit has a number of cars after it").into();
        let cars: Vec<u16> = numbers.by_ref().take(count).collect();
        assert_eq!(cars.len(), count, "the last list is cut");
        lists.push((limit, cars));
    }
    lists
}

#[test]
fn every_stored_line_agrees() {
    let lists = stored_lists();
    assert!(!lists.is_empty());
    assert_eq!(lists.len(), LINES.lines().count());
    for ((limit, cars), stored) in lists.iter().zip(LINES.lines()) {
        assert_eq!(line(*limit, cars), stored, "limit {limit}, cars {cars:?}");
    }
}

#[test]
fn one_car_that_meets_it_is_enough() {
    assert_eq!(line(72, &[]), "OPEN 1");
    assert_eq!(line(72, &[73]), "CONFORMS 0");
    assert_eq!(line(72, &[74]), "OPEN 2");
}

#[test]
fn two_more_are_always_measured_and_both_must_meet_it() {
    assert_eq!(line(72, &[74, 80]), "OPEN 1");
    assert_eq!(line(72, &[74, 73]), "OPEN 1");
    assert_eq!(line(72, &[74, 80, 70]), "DOES-NOT-CONFORM 0");
    assert_eq!(line(72, &[74, 73, 74]), "DOES-NOT-CONFORM 0");
    assert_eq!(line(72, &[74, 73, 73]), "CONFORMS 0");
}

#[test]
fn a_late_car_changes_nothing() {
    for late in [0, 73, 74, 65_535] {
        assert_eq!(line(72, &[73, late]), "CONFORMS 0 REFUSED 20 1");
        assert_eq!(line(72, &[73, late, late, late]), "CONFORMS 0 REFUSED 20 1");
        assert_eq!(line(72, &[74, 73, 73, late]), "CONFORMS 0 REFUSED 20 3");
        assert_eq!(line(72, &[74, 80, 70, late, late]), "DOES-NOT-CONFORM 0 REFUSED 20 3");
    }
}

#[test]
fn the_limit_plus_1_does_not_wrap() {
    assert_eq!(line(0, &[1]), "CONFORMS 0");
    assert_eq!(line(0, &[2]), "OPEN 2");
    assert_eq!(line(65_533, &[65_535]), "OPEN 2");
    for limit in [65_534, 65_535] {
        for car in 0..=65_535 {
            assert_eq!(line(limit, &[car]), "CONFORMS 0", "limit {limit}, car {car}");
        }
    }
}
