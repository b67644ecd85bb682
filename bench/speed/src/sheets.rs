//! Sheets by named fields (document 01, "The sheet"; document 02, wishes 1 and 8).

pub const RECORD: usize = 32;
pub const M1: u8 = 1;
pub const N1: u8 = 2;
pub const ACCELERATION: u8 = 2;
pub const CONSTANT: u8 = 3;

pub type Record = [u8; RECORD];

pub fn put(record: &mut [u8], at: usize, value: u16) {
    record[at..at + 2].copy_from_slice(&value.to_le_bytes());
}

/// The background fields of a record, in tenths. A zero on the right stands for the left.
#[derive(Clone, Copy)]
pub struct Backgrounds {
    pub left: u16,
    pub right: u16,
}

/// The limit in whole dB(A), or 0 if it is looked up by the two bytes, which are zero otherwise.
#[derive(Clone, Copy)]
pub struct Limit {
    pub written: u16,
    pub phase: u8,
    pub low_car: u8,
}

pub struct Vehicle {
    pub category: u8,
    pub start_line: u8,
    pub power: u16,
    pub mass: u16,
    pub length: u16,
    pub rated_speed: u16,
    pub before: Backgrounds,
    pub limit: Limit,
}

/// The vehicle of document 01's whole sheet.
pub const WORKED: Vehicle = Vehicle {
    category: M1,
    start_line: 0,
    power: 1000,
    mass: 1500,
    length: 450,
    rated_speed: 6000,
    before: Backgrounds { left: 400, right: 0 },
    limit: Limit { written: 72, phase: 0, low_car: 0 },
};

impl Vehicle {
    pub fn record(&self) -> Record {
        let mut record = [0; RECORD];
        record[..3].copy_from_slice(&[1, self.category, self.start_line]);
        let numbers = [self.power, self.mass, self.length, self.rated_speed, self.before.left, self.limit.written];
        for (place, number) in record[4..16].chunks_exact_mut(2).zip(numbers) {
            put(place, 0, number);
        }
        record[16..18].copy_from_slice(&[self.limit.phase, self.limit.low_car]);
        put(&mut record, 18, self.before.right);
        record
    }

    /// c + length.
    pub fn path(&self) -> u32 {
        u32::from(self.length) + if self.start_line == 0 { 2000 } else { 1000 }
    }
}

/// A run that is not struck and has a level on both sides.
pub fn run(kind: u8, gear: u8, levels: [f32; 2], speeds: [u16; 2]) -> Record {
    let mut record = [0; RECORD];
    record[..5].copy_from_slice(&[kind, gear, 0, 1, 1]);
    record[8..12].copy_from_slice(&levels[0].to_le_bytes());
    record[12..16].copy_from_slice(&levels[1].to_le_bytes());
    put(&mut record, 16, speeds[0]);
    put(&mut record, 18, speeds[1]);
    put(&mut record, 20, 4000);
    record
}

pub fn sheet(vehicle: &Vehicle, runs: &[Record], after: Backgrounds) -> Vec<u8> {
    let mut closing = [0; RECORD];
    closing[0] = 9;
    put(&mut closing, 2, runs.len() as u16);
    put(&mut closing, 4, after.left);
    put(&mut closing, 6, after.right);
    [&[vehicle.record()], runs, &[closing]].concat().concat()
}

/// Speeds at the start line and at BB' whose acceleration is `a` hundredths; no change of speed if there are none.
pub fn speeds_for(a: u32, path: u32) -> [u16; 2] {
    let hundredths = |start: u32, end: u32| (1250 * (end * end - start * start) + 162 * path) / (324 * path);
    let gained = a * 162 * path / 625;
    for end in (500_u32..=1500).chain(10..500) {
        let near = (end * end).saturating_sub(gained).isqrt();
        let mut starts = near.saturating_sub(1).max(10)..=(near + 1).min(end);
        if let Some(start) = starts.find(|&start| hundredths(start, end) == a) {
            return [start as u16, end as u16];
        }
    }
    [500, 500]
}
