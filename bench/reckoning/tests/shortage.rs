//! Which kind of shortage leaves a gear without a window (document 02, wish 5).

use reckoning::{evaluate, line};

const RECORD_BYTES: usize = 32;
const ACCELERATION: u8 = 2;
const CONSTANT: u8 = 3;
const LEFT: usize = 8;
const RIGHT: usize = 12;

type Record = [u8; RECORD_BYTES];

fn put(record: &mut [u8], at: usize, value: u16) {
    record[at..at + 2].copy_from_slice(&value.to_le_bytes());
}

fn put_level(record: &mut [u8], at: usize, level: f32) {
    record[at..at + 4].copy_from_slice(&level.to_le_bytes());
}

/// The first run of document 01's whole sheet of this kind and gear, or of the nearest gear that has one there.
fn run(kind: u8, gear: u8) -> Record {
    let (speeds, left, right) = match (kind, gear) {
        (ACCELERATION, ..=2) => ([430, 570], 74.0, 74.0),
        (ACCELERATION, 3) => ([442, 545], 72.5, 71.5),
        (ACCELERATION, _) => ([470, 539], 70.125, 70.0),
        (_, ..=3) => ([500, 500], 66.0, 65.5),
        _ => ([500, 500], 65.0, 65.1875),
    };
    let mut record = [0; RECORD_BYTES];
    record[..5].copy_from_slice(&[kind, gear, 0, 1, 1]);
    put_level(&mut record, LEFT, left);
    put_level(&mut record, RIGHT, right);
    for (at, value) in [(16, speeds[0]), (18, speeds[1]), (20, 4000)] {
        put(&mut record, at, value);
    }
    record
}

fn close(kind: u8, gear: u8, count: usize) -> Vec<Record> {
    vec![run(kind, gear); count]
}

/// The same runs with these levels on one side, over and over.
fn with_levels(side: usize, levels: &[f32], mut runs: Vec<Record>) -> Vec<Record> {
    for (run, &level) in runs.iter_mut().zip(levels.iter().cycle()) {
        put_level(run, side, level);
    }
    runs
}

/// So many runs, of which every second is 2.1 dB louder on one side.
fn wide_on(side: usize, kind: u8, gear: u8, count: usize) -> Vec<Record> {
    with_levels(side, &[66.0, 68.1], close(kind, gear, count))
}

fn wide(kind: u8, gear: u8, count: usize) -> Vec<Record> {
    wide_on(LEFT, kind, gear, count)
}

/// The same runs, all struck.
fn struck(mut runs: Vec<Record>) -> Vec<Record> {
    runs.iter_mut().for_each(|run| run[2] = 1);
    runs
}

/// A sheet of document 01's vehicle with these groups of runs.
fn sheet(groups: &[Vec<Record>]) -> Vec<u8> {
    let (mut vehicle, mut closing) = ([0; RECORD_BYTES], [0; RECORD_BYTES]);
    vehicle[..2].copy_from_slice(&[1, 1]);
    for (at, value) in [(4, 1000), (6, 1500), (8, 450), (10, 6000), (12, 400), (14, 72)] {
        put(&mut vehicle, at, value);
    }
    let runs = groups.concat();
    closing[0] = 9;
    put(&mut closing, 2, runs.len() as u16);
    put(&mut closing, 4, 400);
    [&[vehicle], &runs[..], &[closing]].concat().concat()
}

fn line_of(groups: &[Vec<Record>]) -> String {
    line(&sheet(groups))
}

/// The acceleration runs of document 01's whole sheet.
fn accelerations() -> Vec<Record> {
    let gear_3 = with_levels(LEFT, &[72.5, 72.5, 72.25, 72.25], close(ACCELERATION, 3, 4));
    [close(ACCELERATION, 2, 4), gear_3, close(ACCELERATION, 4, 4)].concat()
}

/// Its constant-speed runs.
fn constants() -> Vec<Record> {
    [3, 4].map(|gear| close(CONSTANT, gear, 4)).concat()
}

fn is_accepted(groups: &[Vec<Record>]) -> bool {
    line_of(groups).starts_with("OK")
}

#[test]
fn the_worked_sheet_is_accepted() {
    assert_eq!(line_of(&[accelerations(), constants()]), "OK 3 3 4 78 29 719 658 70 106 149 667 149 1");
}

#[test]
fn the_count_of_valid_runs_decides() {
    for count in [1, 2, 3] {
        assert_eq!(line_of(&[close(ACCELERATION, 3, count)]), "REFUSED 7 3", "{count} runs");
        assert_eq!(line_of(&[wide(ACCELERATION, 3, count)]), "REFUSED 7 3", "{count} runs");
    }
    for count in 0..=3 {
        assert_eq!(line_of(&[accelerations(), wide(CONSTANT, 3, count)]), "REFUSED 10 3", "{count} runs");
        assert_eq!(line_of(&[accelerations(), close(CONSTANT, 3, count)]), "REFUSED 10 3", "{count} runs");
    }
    for side in [LEFT, RIGHT] {
        for count in (4..=40).chain([300]) {
            assert_eq!(line_of(&[wide_on(side, ACCELERATION, 3, count)]), "REFUSED 14 3", "{count} runs");
            assert_eq!(line_of(&[accelerations(), wide_on(side, CONSTANT, 3, count)]), "REFUSED 15 3", "{count} runs");
        }
        assert_eq!(line_of(&[wide_on(side, ACCELERATION, 3, 1022)]), "REFUSED 14 3");
        assert_eq!(line_of(&[accelerations(), wide_on(side, CONSTANT, 3, 1010)]), "REFUSED 15 3");
    }
}

#[test]
fn a_window_after_many_runs_counts() {
    for count in [0, 4, 12, 13, 16, 17, 19, 20, 300] {
        let found = |kind| [wide(kind, 3, count), close(kind, 3, 4)].concat();
        assert!(is_accepted(&[found(ACCELERATION), found(CONSTANT)]), "{count} runs before it");
    }
}

#[test]
fn a_span_of_2_is_within() {
    for (louder, answer) in [(68.0, "OK 1 3"), (68.04, "OK 1 3"), (68.06, "REFUSED 15 3")] {
        let runs = with_levels(LEFT, &[66.0, louder], close(CONSTANT, 3, 4));
        assert!(line_of(&[close(ACCELERATION, 3, 4), runs]).starts_with(answer), "{louder}");
    }
    // Neighbours are 0.7 dB apart, so a run and the third after it are 2.1.
    let rising = with_levels(RIGHT, &[70.0, 70.7, 71.4, 72.1, 72.8, 73.5], close(ACCELERATION, 3, 6));
    assert_eq!(line_of(&[rising]), "REFUSED 14 3");
}

/// The same run in each way that is not valid.
fn not_valid(run: Record) -> [Record; 7] {
    let mut runs = [run; 7];
    runs[0][2] = 1;
    runs[1][3] = 2;
    runs[2][4] = 2;
    runs[3][3] = 0;
    runs[3][LEFT..LEFT + 4].fill(0);
    runs[4][4] = 0;
    runs[4][RIGHT..RIGHT + 4].fill(0);
    put_level(&mut runs[5], LEFT, 49.9);
    put_level(&mut runs[6], RIGHT, 49.9);
    runs
}

#[test]
fn only_valid_runs_count() {
    for one in not_valid(run(ACCELERATION, 3)) {
        for at in 0..4 {
            let mut four = wide(ACCELERATION, 3, 4);
            four[at] = one;
            assert_eq!(line_of(&[four.clone()]), "REFUSED 7 3");
            four.push(run(ACCELERATION, 3));
            assert_eq!(line_of(&[four]), "REFUSED 14 3");
        }
        assert_eq!(line_of(&[vec![one; 20]]), "REFUSED 7 3");
        assert_eq!(line_of(&[vec![one; 20], wide(ACCELERATION, 3, 3)]), "REFUSED 7 3");
        assert_eq!(line_of(&[vec![one; 20], wide(ACCELERATION, 3, 4)]), "REFUSED 14 3");
    }
    for one in not_valid(run(CONSTANT, 3)) {
        let with = |runs| line_of(&[accelerations(), vec![one; 20], runs]);
        assert_eq!(with(vec![]), "REFUSED 10 3");
        assert_eq!(with(wide(CONSTANT, 3, 3)), "REFUSED 10 3");
        assert_eq!(with(wide(CONSTANT, 3, 4)), "REFUSED 15 3");
    }
    let gear_5 = struck(close(ACCELERATION, 5, 6));
    assert_eq!(line_of(&[accelerations(), constants(), gear_5]), "REFUSED 7 5");
}

#[test]
fn no_acceleration_run_at_all_is_7_at_0() {
    for runs in [vec![], close(CONSTANT, 3, 4), wide(CONSTANT, 3, 20), struck(wide(CONSTANT, 3, 4))] {
        assert_eq!(line_of(&[runs]), "REFUSED 7 0");
    }
}

#[test]
fn the_lowest_gear_without_a_window_decides() {
    let (wide_2, short_2) = (wide(ACCELERATION, 2, 4), close(ACCELERATION, 2, 3));
    let (wide_3, short_3) = (wide(ACCELERATION, 3, 4), close(ACCELERATION, 3, 3));
    for (first, second, answer) in [
        (&wide_2, &short_3, "REFUSED 14 2"),
        (&wide_2, &wide_3, "REFUSED 14 2"),
        (&short_2, &wide_3, "REFUSED 7 2"),
        (&short_2, &short_3, "REFUSED 7 2"),
    ] {
        for good in [vec![], close(ACCELERATION, 1, 4), close(ACCELERATION, 4, 4)] {
            assert_eq!(line_of(&[first.clone(), second.clone(), good.clone()]), answer);
            assert_eq!(line_of(&[good, second.clone(), first.clone()]), answer);
        }
    }
    assert_eq!(line_of(&[close(ACCELERATION, 2, 4), wide_3]), "REFUSED 14 3");
    assert_eq!(line_of(&[close(ACCELERATION, 2, 4), short_3]), "REFUSED 7 3");
}

#[test]
fn the_lowest_chosen_gear_without_a_constant_speed_window_decides() {
    let (wide_3, short_3, good_3) = (wide(CONSTANT, 3, 4), close(CONSTANT, 3, 3), close(CONSTANT, 3, 4));
    let (wide_4, short_4, good_4) = (wide(CONSTANT, 4, 4), close(CONSTANT, 4, 3), close(CONSTANT, 4, 4));
    for (first, second, answer) in [
        (&wide_3, &good_4, "REFUSED 15 3"),
        (&wide_3, &short_4, "REFUSED 15 3"),
        (&wide_3, &wide_4, "REFUSED 15 3"),
        (&short_3, &good_4, "REFUSED 10 3"),
        (&short_3, &wide_4, "REFUSED 10 3"),
        (&short_3, &short_4, "REFUSED 10 3"),
        (&good_3, &wide_4, "REFUSED 15 4"),
        (&good_3, &short_4, "REFUSED 10 4"),
    ] {
        assert_eq!(line_of(&[accelerations(), first.clone(), second.clone()]), answer);
        assert_eq!(line_of(&[second.clone(), first.clone(), accelerations()]), answer);
    }
    // A gear that is not chosen needs no window at constant speed.
    assert!(is_accepted(&[accelerations(), constants(), wide(CONSTANT, 2, 4), close(CONSTANT, 5, 3)]));
}

#[test]
fn both_numbers_have_one_place_in_the_order() {
    let mut weak = sheet(&[wide(ACCELERATION, 3, 4)]);
    put(&mut weak, 4, 49);
    assert_eq!(line(&weak), "REFUSED 6 0");
    // Gears 1 and 2 have the same acceleration.
    let equal = [close(ACCELERATION, 1, 4), close(ACCELERATION, 2, 4)].concat();
    assert_eq!(line_of(&[equal.clone(), wide(ACCELERATION, 4, 4)]), "REFUSED 14 4");
    assert_eq!(line_of(&[equal, wide(CONSTANT, 1, 4), wide(CONSTANT, 2, 4)]), "REFUSED 8 1");
    // Every gear turns above the rated engine speed.
    for (kind, answer) in [(ACCELERATION, "REFUSED 14 4"), (CONSTANT, "REFUSED 9 0")] {
        let mut slow = sheet(&[close(ACCELERATION, 3, 4), wide(kind, 4, 4)]);
        put(&mut slow, 10, 3999);
        assert_eq!(line(&slow), answer);
    }
    assert_eq!(line_of(&[accelerations(), wide(CONSTANT, 3, 4), wide(ACCELERATION, 5, 4)]), "REFUSED 14 5");
    assert_eq!(line_of(&[accelerations(), wide(CONSTANT, 3, 4), close(ACCELERATION, 5, 3)]), "REFUSED 7 5");
}

#[test]
fn both_leave_the_buffer() {
    for (groups, refusal) in [
        (vec![wide(ACCELERATION, 3, 20)], (14, 3)),
        (vec![close(ACCELERATION, 3, 3)], (7, 3)),
        (vec![accelerations(), wide(CONSTANT, 3, 20)], (15, 3)),
        (vec![accelerations(), close(CONSTANT, 3, 3)], (10, 3)),
    ] {
        let mut result = [0xA5; 40];
        assert_eq!(evaluate(&sheet(&groups), &mut result), Err(refusal));
        assert_eq!(result, [0xA5; 40]);
    }
}
