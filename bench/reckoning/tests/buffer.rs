//! What the evaluation leaves in the result buffer (document 01, "Refusals and what remains").

use reckoning::evaluate;

fn number(record: &mut [u8], at: usize, value: u16) {
    record[at..at + 2].copy_from_slice(&value.to_le_bytes());
}

fn vehicle() -> [u8; 32] {
    let mut record = [0; 32];
    record[..2].copy_from_slice(&[1, 1]);
    for (at, value) in [(4, 1000), (6, 1500), (8, 450), (10, 6000), (12, 400), (14, 72)] {
        number(&mut record, at, value);
    }
    record
}

fn run(kind: u8, level: f32, start: u16, end: u16) -> [u8; 32] {
    let mut record = [0; 32];
    record[..5].copy_from_slice(&[kind, 3, 0, 1, 1]);
    record[8..12].copy_from_slice(&level.to_le_bytes());
    record[12..16].copy_from_slice(&level.to_le_bytes());
    number(&mut record, 16, start);
    number(&mut record, 18, end);
    number(&mut record, 20, 4000);
    record
}

/// One gear with an acceleration of 1.89, W 72.3 and C 65.0.
fn sheet() -> Vec<u8> {
    let mut closing = [0; 32];
    closing[0] = 9;
    number(&mut closing, 2, 8);
    number(&mut closing, 4, 400);
    let mut records = vec![vehicle()];
    records.extend([run(2, 72.25, 440, 560); 4]);
    records.extend([run(3, 65.0, 500, 500); 4]);
    records.push(closing);
    records.concat()
}

#[test]
fn a_short_buffer_is_refusal_1_before_all_others() {
    for length in 0..32 {
        let mut result = vec![0xA5; length];
        assert_eq!(evaluate(&[], &mut result), Err((1, 0)));
        assert_eq!(evaluate(&sheet(), &mut result), Err((1, 0)));
        assert!(result.iter().all(|&byte| byte == 0xA5));
    }
}

#[test]
fn a_refusal_leaves_the_buffer() {
    for cut in [0, 1, 32, 64, 319] {
        let mut result = [0xA5; 40];
        assert!(evaluate(&sheet()[..cut], &mut result).is_err());
        assert_eq!(result, [0xA5; 40]);
    }
}

#[test]
fn success_writes_32_bytes() {
    let mut result = [0xA5; 40];
    assert_eq!(evaluate(&sheet(), &mut result), Ok(()));
    // kp: 1 − 106/189 is 0.439; L_urban: 72.3 − 0.44 × 7.3 is 69.088.
    let expected = [1, 3, 0, 100, 44, 1, 0xD3, 2, 0x8A, 2, 69, 0, 106, 0, 149, 0, 0x9B, 2, 189, 0];
    assert_eq!(result[..20], expected);
    assert_eq!(result[20..32], [0; 12]);
    assert_eq!(result[32..], [0xA5; 8]);
}
