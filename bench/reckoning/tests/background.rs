//! A background for each side (document 02, wish 8).

use reckoning::line;

const RECORD_BYTES: usize = 32;

fn put(record: &mut [u8], at: usize, value: u16) {
    record[at..at + 2].copy_from_slice(&value.to_le_bytes());
}

fn run(kind: u8, left: f32, right: f32, start: u16, end: u16) -> [u8; RECORD_BYTES] {
    let mut record = [0; RECORD_BYTES];
    record[..5].copy_from_slice(&[kind, 3, 0, 1, 1]);
    record[8..12].copy_from_slice(&left.to_le_bytes());
    record[12..16].copy_from_slice(&right.to_le_bytes());
    for (at, value) in [(16, start), (18, end), (20, 4000)] {
        put(&mut record, at, value);
    }
    record
}

/// The backgrounds of a sheet in tenths, before and after.
#[derive(Clone, Copy)]
struct Fields {
    left: [u16; 2],
    right: [u16; 2],
}

const NO_RIGHT: Fields = Fields { left: [400, 400], right: [0, 0] };

/// One gear of document 01's whole sheet, with the levels of its acceleration and of its constant-speed runs, left and
/// right; 10 records.
fn sheet_of(accelerating: [f32; 2], constant: [f32; 2], fields: Fields) -> Vec<u8> {
    let (mut vehicle, mut closing) = ([0; RECORD_BYTES], [0; RECORD_BYTES]);
    vehicle[..2].copy_from_slice(&[1, 1]);
    for (at, value) in [(4, 1000), (6, 1500), (8, 450), (10, 6000), (14, 72)] {
        put(&mut vehicle, at, value);
    }
    put(&mut vehicle, 12, fields.left[0]);
    put(&mut vehicle, 18, fields.right[0]);
    closing[0] = 9;
    for (at, value) in [(2, 8), (4, fields.left[1]), (6, fields.right[1])] {
        put(&mut closing, at, value);
    }
    let mut records = vec![vehicle];
    records.extend([run(2, accelerating[0], accelerating[1], 442, 545); 4]);
    records.extend([run(3, constant[0], constant[1], 500, 500); 4]);
    records.push(closing);
    records.concat()
}

fn sheet(fields: Fields) -> Vec<u8> {
    sheet_of([70.0, 72.0], [65.0, 66.0], fields)
}

/// The line of that sheet with this C. a' is 1.60, kp 1 - 106/160, W 72.0; L_urban is 72.0 - 0.34 × (72.0 - C).
fn with_c(c: u16) -> String {
    format!("OK 1 3 0 100 34 720 {c} 70 106 149 667 160 1")
}

#[test]
fn a_sheet_without_one_has_the_lefts() {
    assert_eq!(line(&sheet(NO_RIGHT)), with_c(660));
    // d is 10.0 and 11.0 at constant speed
    assert_eq!(line(&sheet(Fields { left: [550, 400], ..NO_RIGHT })), with_c(656));
    assert_eq!(line(&sheet(Fields { left: [400, 551], ..NO_RIGHT })), "REFUSED 10 3");
}

#[test]
fn the_right_has_its_own() {
    for right in [[560, 0], [0, 560], [560, 560], [560, 1], [1, 560]] {
        assert_eq!(line(&sheet(Fields { right, ..NO_RIGHT })), with_c(655), "right {right:?}");
    }
    for right in [[561, 0], [0, 561], [561, 561]] {
        assert_eq!(line(&sheet(Fields { right, ..NO_RIGHT })), "REFUSED 10 3", "right {right:?}");
    }
    // The left stays valid at 55.0 whatever the right's is.
    for right in [[1, 1], [1, 500], [500, 1]] {
        assert_eq!(line(&sheet(Fields { left: [550, 550], right })), with_c(660), "right {right:?}");
        assert_eq!(line(&sheet(Fields { left: [551, 551], right })), "REFUSED 10 3", "right {right:?}");
    }
}

#[test]
fn zero_is_the_left_in_that_record() {
    let left = [400, 540];
    assert_eq!(line(&sheet(Fields { left, right: [1, 0] })), with_c(657));
    assert_eq!(line(&sheet(Fields { left, right: [1, 1] })), with_c(660));
    assert_eq!(line(&sheet(Fields { left, right: [0, 1] })), with_c(660));
    assert_eq!(line(&sheet(Fields { left, right: [0, 0] })), with_c(657));
    assert_eq!(line(&sheet(Fields { left: [540, 400], right: [0, 1] })), with_c(657));
    assert_eq!(line(&sheet(Fields { left: [540, 400], right: [1, 0] })), with_c(660));
    // Zero on the left is 0.0.
    assert_eq!(line(&sheet(Fields { left: [0, 0], right: [555, 0] })), with_c(656));
}

#[test]
fn it_is_at_most_100() {
    for right in [1000, 768] {
        assert_eq!(line(&sheet(Fields { right: [right, 0], ..NO_RIGHT })), "REFUSED 7 3", "right {right}");
        assert_eq!(line(&sheet(Fields { right: [0, right], ..NO_RIGHT })), "REFUSED 7 3", "right {right}");
    }
    for right in [1001, 1024, 32_768, 59_395, 65_535] {
        assert_eq!(line(&sheet(Fields { right: [right, 0], ..NO_RIGHT })), "REFUSED 5 0", "right {right}");
        assert_eq!(line(&sheet(Fields { right: [0, right], ..NO_RIGHT })), "REFUSED 5 9", "right {right}");
        assert_eq!(line(&sheet(Fields { right: [right, right], ..NO_RIGHT })), "REFUSED 5 0", "right {right}");
    }
}

#[test]
fn the_bytes_beside_it_stay_zero() {
    let whole = sheet(Fields { right: [410, 420], ..NO_RIGHT });
    assert!(line(&whole).starts_with("OK"));
    let closing = whole.len() - RECORD_BYTES;
    let unnamed = [3, 16, 17].into_iter().chain(20..32).map(|at| (at, 0));
    for (at, place) in unnamed.chain([1].into_iter().chain(8..32).map(|at| (closing + at, 9))) {
        let mut other = whole.clone();
        other[at] = 1;
        assert_eq!(line(&other), format!("REFUSED 5 {place}"), "byte {at}");
    }
}

#[test]
fn exchanged_sides_have_the_same_line() {
    for left in [480, 500, 545, 556] {
        for right in [1, 481, 501, 546, 557] {
            let one = sheet_of([70.0, 72.0], [65.0, 66.0], Fields { left: [left, 1], right: [1, right] });
            let other = sheet_of([72.0, 70.0], [66.0, 65.0], Fields { left: [1, right], right: [left, 1] });
            assert_eq!(line(&one), line(&other), "left {left}, right {right}");
        }
    }
}

#[test]
fn each_side_alone_is_corrected_and_valid_by_its_own() {
    let lines = |d: u16| {
        let (near, far) = (660 - d, 300);
        let on_left = Fields { left: [near, 1], right: [1, far] };
        let on_right = Fields { left: [far, 1], right: [1, near] };
        [sheet_of([72.0; 2], [66.0, 62.0], on_left), sheet_of([72.0; 2], [62.0, 66.0], on_right)]
            .map(|sheet| line(&sheet))
    };
    // d from and to, and what is taken off, in tenths
    for (first, last, off) in
        [(100, 104, 5), (105, 114, 4), (115, 124, 3), (125, 134, 2), (135, 144, 1), (145, 154, 0), (155, 300, 0)]
    {
        for d in [first, last] {
            assert_eq!(lines(d), [with_c(660 - off), with_c(660 - off)], "d {d}");
        }
    }
    assert_eq!(lines(99), ["REFUSED 10 3", "REFUSED 10 3"]);
}
