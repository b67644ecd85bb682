//! The sheet: its layout and refusals 2 to 5, 11 and 12 (document 01, "The sheet"; document 02, wishes 1 and 8).

use crate::limit::{has_limit_layout, Limit};
use crate::{rounded, Refusal};

pub const RECORD_BYTES: usize = 32;
const MOST_BYTES: usize = 32_768;

pub struct Vehicle {
    pub from_pp: bool,
    pub power: u32,
    pub mass: u32,
    pub length: u32,
    pub rated_speed: u16,
}

#[derive(Clone, Copy, PartialEq, Eq)]
pub enum RunKind {
    Acceleration,
    Constant,
}

/// A reading; a level in tenths of dB(A) (step 1).
#[derive(Clone, Copy)]
pub enum Reading {
    Absent,
    Overload,
    Level(i32),
}

pub struct Run {
    pub kind: RunKind,
    pub gear: u8,
    pub struck: bool,
    pub left: Reading,
    pub right: Reading,
    pub start_speed: u16,
    pub end_speed: u16,
    pub engine_speed: u16,
}

/// The background on each side, in tenths of dB(A).
#[derive(Clone, Copy)]
pub struct Background {
    pub left: i32,
    pub right: i32,
}

pub struct Session {
    pub vehicle: Vehicle,
    pub limit: Limit,
    pub background: Background,
    pub runs: Vec<Run>,
}

impl Session {
    pub fn read(sheet: &[u8]) -> Result<Session, Refusal> {
        if sheet.is_empty() || sheet.len() > MOST_BYTES || !sheet.len().is_multiple_of(RECORD_BYTES) {
            return Err((2, 0));
        }
        let last = sheet.len() / RECORD_BYTES - 1;
        let (first, rest) = sheet.split_at(RECORD_BYTES);
        if first[0] != 1 {
            return Err((3, 0));
        }
        let closing = &sheet[last * RECORD_BYTES..];
        if closing[0] != 9 || usize::from(number(closing, 2)) + 1 != last {
            return Err((4, last as u32));
        }
        let (vehicle, before) = read_vehicle(first).ok_or((5, 0))?;
        let runs = rest[..(last - 1) * RECORD_BYTES]
            .chunks_exact(RECORD_BYTES)
            .zip(1..)
            .map(|(record, place)| read_run(record).ok_or((5, place)))
            .collect::<Result<_, _>>()?;
        let after = read_closing(closing).ok_or((5, last as u32))?;
        let limit = Limit::read(first)?;
        Ok(Session { vehicle, limit, background: before.larger(after), runs })
    }
}

impl Background {
    /// The two fields of a record. A zero on the right stands for the left's.
    fn read(record: &[u8], left_at: usize, right_at: usize) -> Option<Background> {
        let left = number_within(record, left_at, 0, 1_000)?.into();
        let right = number_within(record, right_at, 0, 1_000)?.into();
        Some(Background { left, right: if right == 0 { left } else { right } })
    }

    /// The larger background of each side.
    fn larger(self, other: Background) -> Background {
        Background { left: self.left.max(other.left), right: self.right.max(other.right) }
    }
}

pub fn number(record: &[u8], at: usize) -> u16 {
    u16::from_le_bytes([record[at], record[at + 1]])
}

pub fn number_within(record: &[u8], at: usize, lowest: u16, highest: u16) -> Option<u16> {
    Some(number(record, at)).filter(|number| (lowest..=highest).contains(number))
}

pub fn are_zero(bytes: &[u8]) -> bool {
    bytes.iter().all(|&byte| byte == 0)
}

/// The vehicle and the background before.
fn read_vehicle(record: &[u8]) -> Option<(Vehicle, Background)> {
    let vehicle = Vehicle {
        from_pp: read_flag(record[2])?,
        power: number_within(record, 4, 10, 20_000)?.into(),
        mass: number_within(record, 6, 300, 5_000)?.into(),
        length: number_within(record, 8, 100, 2_000)?.into(),
        rated_speed: number_within(record, 10, 500, 20_000)?,
    };
    let before = Background::read(record, 12, 18)?;
    let unnamed_are_zero = record[3] == 0 && are_zero(&record[20..]);
    (matches!(record[1], 1 | 2) && has_limit_layout(record) && unnamed_are_zero).then_some((vehicle, before))
}

fn read_run(record: &[u8]) -> Option<Run> {
    let run = Run {
        kind: match record[0] {
            2 => RunKind::Acceleration,
            3 => RunKind::Constant,
            _ => return None,
        },
        gear: Some(record[1]).filter(|gear| (1..=16).contains(gear))?,
        struck: read_flag(record[2])?,
        left: read_reading(record[3], &record[8..12])?,
        right: read_reading(record[4], &record[12..16])?,
        start_speed: number_within(record, 16, 10, 1_500)?,
        end_speed: number_within(record, 18, 10, 1_500)?,
        engine_speed: number_within(record, 20, 0, 20_000)?,
    };
    let slows = run.kind == RunKind::Acceleration && run.end_speed < run.start_speed;
    (!slows && are_zero(&record[5..8]) && are_zero(&record[22..])).then_some(run)
}

/// The background after.
fn read_closing(record: &[u8]) -> Option<Background> {
    Background::read(record, 4, 6).filter(|_| record[1] == 0 && are_zero(&record[8..]))
}

pub fn read_flag(byte: u8) -> Option<bool> {
    match byte {
        0 => Some(false),
        1 => Some(true),
        _ => None,
    }
}

fn read_reading(kind: u8, float: &[u8]) -> Option<Reading> {
    let level = f32::from_le_bytes([float[0], float[1], float[2], float[3]]);
    match kind {
        0 => are_zero(float).then_some(Reading::Absent),
        1 | 2 if !is_level(level) => None,
        1 => Some(Reading::Level(tenths(level))),
        2 => Some(Reading::Overload),
        _ => None,
    }
}

/// Whether a float is from 20.0 to 140.0, which no NaN is.
pub fn is_level(float: f32) -> bool {
    (20.0..=140.0).contains(&float)
}

/// Step 1. A float from 20 to 140 is a whole number of 2^-19, so the product below is exact.
pub fn tenths(level: f32) -> i32 {
    let units = (f64::from(level) * f64::from(1 << 19)) as u32;
    rounded(10 * units, 1 << 19) as i32
}
