//! Limits by class (document 02, wish 1).

use reckoning::{evaluate, line};

const RECORD_BYTES: usize = 32;
const M1: u8 = 1;
const N1: u8 = 2;

fn put(record: &mut [u8], at: usize, value: u16) {
    record[at..at + 2].copy_from_slice(&value.to_le_bytes());
}

/// The fields of a vehicle record that a limit depends on.
#[derive(Clone, Copy)]
struct Car {
    category: u8,
    power: u16,
    mass: u16,
    limit: u16,
    phase: u8,
    low_car: u8,
}

/// The car of document 01's whole sheet, with a look-up for phase 1: PMR 66.7.
const WORKED: Car = Car { category: M1, power: 1000, mass: 1500, limit: 0, phase: 1, low_car: 0 };

fn car(power: u16, mass: u16, phase: u8, low_car: u8) -> Car {
    Car { power, mass, phase, low_car, ..WORKED }
}

fn vehicle(car: Car) -> [u8; RECORD_BYTES] {
    let mut record = [0; RECORD_BYTES];
    record[..2].copy_from_slice(&[1, car.category]);
    for (at, value) in [(4, car.power), (6, car.mass), (8, 450), (10, 6000), (12, 400), (14, car.limit)] {
        put(&mut record, at, value);
    }
    record[16..18].copy_from_slice(&[car.phase, car.low_car]);
    record
}

/// Four runs of a gear with these lefts and this right.
fn runs(kind: u8, gear: u8, speeds: [u16; 2], lefts: [f32; 4], right: f32) -> [[u8; RECORD_BYTES]; 4] {
    lefts.map(|left| {
        let mut record = [0; RECORD_BYTES];
        record[..5].copy_from_slice(&[kind, gear, 0, 1, 1]);
        record[8..12].copy_from_slice(&left.to_le_bytes());
        record[12..16].copy_from_slice(&right.to_le_bytes());
        for (at, value) in [(16, speeds[0]), (18, speeds[1]), (20, 4000)] {
            put(&mut record, at, value);
        }
        record
    })
}

fn sheet(car: Car, runs: &[[u8; RECORD_BYTES]]) -> Vec<u8> {
    let mut closing = [0; RECORD_BYTES];
    closing[0] = 9;
    put(&mut closing, 2, runs.len() as u16);
    put(&mut closing, 4, 400);
    [&[vehicle(car)], runs, &[closing]].concat().concat()
}

/// Document 01's whole sheet for a car.
fn worked(car: Car) -> Vec<u8> {
    let lines = [
        runs(2, 2, [430, 570], [74.0; 4], 74.0),
        runs(2, 3, [442, 545], [72.5, 72.5, 72.25, 72.25], 71.5),
        runs(2, 4, [470, 539], [70.125; 4], 70.0),
        runs(3, 3, [500, 500], [66.0; 4], 65.5),
        runs(3, 4, [500, 500], [65.0; 4], 65.1875),
    ];
    sheet(car, &lines.concat())
}

/// One gear whose W and C are both this level, so that it is rounded to L_urban.
fn at_level(car: Car, level: f32) -> Vec<u8> {
    sheet(car, &[runs(2, 3, [442, 545], [level; 4], level), runs(3, 3, [500, 500], [level; 4], level)].concat())
}

fn passes(car: Car, level: f32) -> bool {
    let line = line(&at_level(car, level));
    assert!(line.starts_with("OK"), "{line}");
    line.ends_with(" 1")
}

/// The limit that the verdicts tell: every L_urban up to it passes, and none above it.
fn limit_told(car: Car) -> u16 {
    let verdicts: Vec<bool> = (60..90u8).map(|level| passes(car, level.into())).collect();
    let count = verdicts.iter().filter(|&&verdict| verdict).count();
    assert!(verdicts[..count].iter().all(|&verdict| verdict));
    59 + count as u16
}

fn limits_told(power: u16, mass: u16, low_car: u8) -> [u16; 3] {
    [1, 2, 3].map(|phase| limit_told(car(power, mass, phase, low_car)))
}

#[test]
fn each_class_has_its_limits_at_its_edges() {
    for low_car in [0, 1] {
        for (power, limits) in [
            (50, [72, 70, 68]),
            (1199, [72, 70, 68]),
            (1200, [72, 70, 68]),
            (1201, [73, 71, 69]),
            (1600, [73, 71, 69]),
            (1601, [75, 73, 71]),
            (2000, [75, 73, 71]),
        ] {
            assert_eq!(limits_told(power, 1000, low_car), limits, "power {power}, byte 17 {low_car}");
        }
    }
    for power in [2001, 6000] {
        assert_eq!(limits_told(power, 1000, 0), [75, 73, 71], "power {power}");
        assert_eq!(limits_told(power, 1000, 1), [75, 74, 72], "power {power}");
    }
}

#[test]
fn the_rounded_pmr_decides() {
    // 120.02 and 160.04, and 120.05, which goes up
    assert_eq!(limits_told(965, 804, 0), [72, 70, 68]);
    assert_eq!(limits_told(8002, 5000, 0), [73, 71, 69]);
    assert_eq!(limits_told(2401, 2000, 0), [73, 71, 69]);
    // 200.02 and 200.05
    assert_eq!(limits_told(10_001, 5000, 1), [75, 73, 71]);
    assert_eq!(limits_told(4001, 2000, 1), [75, 74, 72]);
}

#[test]
fn l_urban_is_rounded_before_it_is_asked() {
    assert!(passes(WORKED, 72.4));
    assert!(!passes(WORKED, 72.5));
}

#[test]
fn the_worked_sheet_tells_its_phase_by_its_verdict_alone() {
    for (phase, verdict) in [(1, 1), (2, 1), (3, 0)] {
        let expected = format!("OK 3 3 4 78 29 719 658 70 106 149 667 149 {verdict}");
        assert_eq!(line(&worked(Car { phase, ..WORKED })), expected, "phase {phase}");
    }
    let [mut first, mut third] = [[0xA5; 40]; 2];
    assert_eq!(evaluate(&worked(WORKED), &mut first), Ok(()));
    assert_eq!(evaluate(&worked(Car { phase: 3, ..WORKED }), &mut third), Ok(()));
    assert_eq!((first[5], third[5]), (1, 0));
    third[5] = 1;
    assert_eq!(first, third);
}

#[test]
fn a_written_limit_is_the_limit_found() {
    for category in [M1, N1] {
        for limit in [61, 72, 80] {
            let car = Car { category, limit, phase: 0, ..WORKED };
            assert_eq!(limit_told(car), limit, "category {category}");
        }
    }
}

#[test]
fn n1_is_refused_whatever_the_phase_and_the_class() {
    for phase in [0, 1, 2, 3, 4, 9, 255] {
        for low_car in [0, 1, 2, 7, 255] {
            for (power, mass) in [(1000, 1500), (49, 1000), (6001, 1000)] {
                let car = Car { category: N1, ..car(power, mass, phase, low_car) };
                assert_eq!(line(&worked(car)), "REFUSED 11 0", "phase {phase}, byte 17 {low_car}");
                assert_eq!(line(&sheet(car, &[])), "REFUSED 11 0", "phase {phase}, byte 17 {low_car}");
            }
        }
    }
}

#[test]
fn a_phase_or_a_class_that_is_none_is_refused() {
    for (phase, low_car) in [(0, 0), (4, 0), (255, 1), (1, 2), (3, 255), (0, 2), (129, 0), (1, 129)] {
        for (power, mass) in [(1000, 1500), (49, 1000), (6001, 1000)] {
            let car = car(power, mass, phase, low_car);
            assert_eq!(line(&worked(car)), "REFUSED 12 0", "phase {phase}, byte 17 {low_car}");
            assert_eq!(line(&sheet(car, &[])), "REFUSED 12 0", "phase {phase}, byte 17 {low_car}");
        }
    }
    assert_eq!(line(&worked(car(49, 1000, 1, 0))), "REFUSED 6 0");
    assert_eq!(line(&sheet(WORKED, &[])), "REFUSED 7 0");
}

#[test]
fn the_layout_of_every_record_comes_first() {
    for car in [WORKED, Car { phase: 0, ..WORKED }, Car { category: N1, ..WORKED }] {
        for record in [0, 1, 7, 20, 21] {
            let mut whole = worked(car);
            whole[RECORD_BYTES * record + 31] = 1;
            assert_eq!(line(&whole), format!("REFUSED 5 {record}"));
        }
    }
}

#[test]
fn beside_a_written_limit_both_bytes_are_zero() {
    for limit in [50, 72, 100] {
        for (phase, low_car) in [(1, 0), (3, 1), (0, 1), (255, 0), (0, 255)] {
            for category in [M1, N1] {
                let car = Car { category, limit, phase, low_car, ..WORKED };
                assert_eq!(line(&worked(car)), "REFUSED 5 0", "limit {limit}, phase {phase}, byte 17 {low_car}");
            }
        }
    }
}

#[test]
fn a_limit_is_0_or_50_to_100() {
    for limit in [1, 49, 101, 255, 256, 257, 328, 512, 584, 0x4800, 0x8000, 0x8048, 65_535] {
        for phase in [0, 1] {
            assert_eq!(line(&worked(Car { limit, phase, ..WORKED })), "REFUSED 5 0", "limit {limit}, phase {phase}");
        }
    }
    for (limit, verdict) in [(50, 0), (69, 0), (70, 1), (100, 1)] {
        let expected = format!("OK 3 3 4 78 29 719 658 70 106 149 667 149 {verdict}");
        assert_eq!(line(&worked(Car { limit, phase: 0, ..WORKED })), expected, "limit {limit}");
    }
}
