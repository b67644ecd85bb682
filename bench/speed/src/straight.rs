//! The evaluation of a pass-by sheet in plain Rust, written for speed: one pass over the records and no allocation.
//! Each gear and run kind keeps its last four valid runs until they are a window.

use reckoning::reference::{a_ref, a_urban};
use reckoning::Refusal;

const RECORD: usize = 32;
const MOST_RECORDS: usize = 1024;
const CEILING: u32 = 300;
/// Tenths taken off, by the whole decibels from 10 on.
const CORRECTIONS: [u32; 6] = [5, 4, 3, 2, 1, 0];

type Record = [u8; RECORD];

/// Evaluates a sheet. The result record goes to the first 32 bytes of `result`; a refusal leaves every byte as it was.
pub fn evaluate(sheet: &[u8], result: &mut [u8]) -> Result<(), Refusal> {
    let record = result.first_chunk_mut::<RECORD>().ok_or((1, 0))?;
    let (records, rest) = sheet.as_chunks::<RECORD>();
    if !rest.is_empty() || !(1..=MOST_RECORDS).contains(&records.len()) {
        return Err((2, 0));
    }
    let last = records.len() - 1;
    let (vehicle, closing) = (&records[0], &records[last]);
    if vehicle[0] != 1 {
        return Err((3, 0));
    }
    if closing[0] != 9 || usize::from(number(closing, 2)) + 1 != last {
        return Err((4, last as u32));
    }
    if !is_vehicle(vehicle) {
        return Err((5, 0));
    }
    let groups = Groups::of(&records[1..last], Backgrounds::of(vehicle, closing))?;
    if !is_closing(closing) {
        return Err((5, last as u32));
    }
    let limit = Limit::of(vehicle)?;
    *record = groups.evaluate(vehicle, limit)?;
    Ok(())
}

fn number(record: &Record, at: usize) -> u16 {
    u16::from_le_bytes([record[at], record[at + 1]])
}

fn pattern(record: &Record, at: usize) -> u32 {
    u32::from_le_bytes([record[at], record[at + 1], record[at + 2], record[at + 3]])
}

fn is_vehicle(record: &Record) -> bool {
    matches!(record[1], 1 | 2)
        && record[2] <= 1
        && record[3] == 0
        && (10..=20_000).contains(&number(record, 4))
        && (300..=5_000).contains(&number(record, 6))
        && (100..=2_000).contains(&number(record, 8))
        && (500..=20_000).contains(&number(record, 10))
        && number(record, 12) <= 1_000
        && match number(record, 14) {
            0 => true,
            50..=100 => record[16..18] == [0; 2],
            _ => false,
        }
        && number(record, 18) <= 1_000
        && record[20..] == [0; 12]
}

fn is_closing(record: &Record) -> bool {
    record[1] == 0 && number(record, 4) <= 1_000 && number(record, 6) <= 1_000 && record[8..] == [0; 24]
}

fn is_reading(kind: u8, pattern: u32) -> bool {
    match kind {
        0 => pattern == 0,
        1 | 2 => (20.0..=140.0).contains(&f32::from_bits(pattern)),
        _ => false,
    }
}

fn is_run(record: &Record) -> bool {
    let (start, end) = (number(record, 16), number(record, 18));
    matches!(record[0], 2 | 3)
        && (1..=16).contains(&record[1])
        && record[2] <= 1
        && record[5..8] == [0; 3]
        && (10..=1_500).contains(&start)
        && (10..=1_500).contains(&end)
        && number(record, 20) <= 20_000
        && (record[0] == 3 || start <= end)
        && record[22..] == [0; 10]
        && is_reading(record[3], pattern(record, 8))
        && is_reading(record[4], pattern(record, 12))
}

/// The background of each side in tenths, the larger of before and after.
#[derive(Clone, Copy)]
struct Backgrounds {
    left: u32,
    right: u32,
}

impl Backgrounds {
    fn of(vehicle: &Record, closing: &Record) -> Backgrounds {
        let (before, after) = (Backgrounds::in_record(vehicle, 12, 18), Backgrounds::in_record(closing, 4, 6));
        Backgrounds { left: before.left.max(after.left), right: before.right.max(after.right) }
    }

    /// A zero on the right is the left of the same record, whatever the other record has.
    fn in_record(record: &Record, left: usize, right: usize) -> Backgrounds {
        let [left, right] = [left, right].map(|at| number(record, at).into());
        Backgrounds { left, right: if right == 0 { left } else { right } }
    }
}

/// The limit that is written, or what it is looked up by, beside the PMR.
enum Limit {
    Written(u32),
    LookedUp { phase: u8, is_low_car: bool },
}

impl Limit {
    /// Refusals 11 and 12, or the limit of a vehicle record without a fault.
    fn of(vehicle: &Record) -> Result<Limit, Refusal> {
        match (number(vehicle, 14), vehicle[1], vehicle[16], vehicle[17]) {
            (0, 2, _, _) => Err((11, 0)),
            (0, _, phase @ 1..=3, low_car @ 0..=1) => Ok(Limit::LookedUp { phase, is_low_car: low_car == 1 }),
            (0, _, _, _) => Err((12, 0)),
            (written, _, _, _) => Ok(Limit::Written(written.into())),
        }
    }

    /// The limit in whole dB(A), by the PMR in tenths.
    fn found(&self, pmr: u32) -> u32 {
        match *self {
            Limit::Written(limit) => limit,
            Limit::LookedUp { phase, is_low_car } => {
                let by_phase = match pmr {
                    0..=1200 => [72, 70, 68],
                    1201..=1600 => [73, 71, 69],
                    2001.. if is_low_car => [75, 74, 72],
                    _ => [75, 73, 71],
                };
                by_phase[usize::from(phase) - 1]
            }
        }
    }
}

fn rounded(numerator: u32, denominator: u32) -> u32 {
    (numerator + denominator / 2) / denominator
}

/// The corrected level in tenths, if d is at least 10.0: less the correction of the whole decibel nearest to d.
/// Product and sum are exact: a float has 24 bits, and an f64 53.
fn corrected(pattern: u32, background: u32) -> Option<u32> {
    let level = (f64::from(f32::from_bits(pattern)) * 10.0 + 0.5) as u32;
    let nearest = rounded(level.checked_sub(background + 100)?, 10);
    Some(level - CORRECTIONS.get(nearest as usize).unwrap_or(&0))
}

#[derive(Clone, Copy, Default)]
struct Valid {
    left: u32,
    right: u32,
    start: u16,
    end: u16,
    engine: u16,
}

impl Valid {
    fn of(record: &Record, backgrounds: Backgrounds) -> Option<Valid> {
        if record[2..5] != [0, 1, 1] {
            return None;
        }
        Some(Valid {
            left: corrected(pattern(record, 8), backgrounds.left)?,
            right: corrected(pattern(record, 12), backgrounds.right)?,
            start: number(record, 16),
            end: number(record, 18),
            engine: number(record, 20),
        })
    }

    fn acceleration(&self, path: u32) -> u32 {
        let square = |speed: u16| u32::from(speed) * u32::from(speed);
        rounded(625 * (square(self.end) - square(self.start)), 162 * path)
    }
}

fn spans(levels: [u32; 4]) -> bool {
    let [a, b, c, d] = levels;
    a.max(b).max(c.max(d)) - a.min(b).min(c.min(d)) <= 20
}

type Window = [Valid; 4];

fn level(window: &Window) -> u32 {
    let left: u32 = window.iter().map(|run| run.left).sum();
    let right: u32 = window.iter().map(|run| run.right).sum();
    rounded(left.max(right), 4)
}

/// The last valid runs of a gear and run kind, up to its first window.
#[derive(Clone, Copy, Default)]
struct Group {
    last: Window,
    seen: u32,
    is_window: bool,
}

impl Group {
    fn push(&mut self, run: Valid) {
        self.last = [self.last[1], self.last[2], self.last[3], run];
        self.seen += 1;
        self.is_window =
            self.seen >= 4 && spans(self.last.map(|run| run.left)) && spans(self.last.map(|run| run.right));
    }

    /// The window, or the number of the refusal: `few` below four valid runs, `wide` from four on.
    fn window(&self, few: u32, wide: u32) -> Result<&Window, u32> {
        if self.is_window {
            Ok(&self.last)
        } else {
            Err(if self.seen < 4 { few } else { wide })
        }
    }
}

#[derive(Clone, Copy, Default)]
struct Gear {
    number: u8,
    a: u32,
    level: u32,
}

struct Groups {
    acceleration: [Group; 16],
    constant: [Group; 16],
    driven: [bool; 16],
}

impl Groups {
    fn of(runs: &[Record], backgrounds: Backgrounds) -> Result<Groups, Refusal> {
        let mut groups = Groups { acceleration: Default::default(), constant: Default::default(), driven: [false; 16] };
        for (record, at) in runs.iter().zip(1..) {
            if !is_run(record) {
                return Err((5, at));
            }
            let gear = usize::from(record[1]) - 1;
            let group = if record[0] == 2 {
                groups.driven[gear] = true;
                &mut groups.acceleration[gear]
            } else {
                &mut groups.constant[gear]
            };
            if !group.is_window {
                if let Some(run) = Valid::of(record, backgrounds) {
                    group.push(run);
                }
            }
        }
        Ok(groups)
    }

    fn evaluate(&self, vehicle: &Record, limit: Limit) -> Result<Record, Refusal> {
        let pmr = rounded(1000 * u32::from(number(vehicle, 4)), u32::from(number(vehicle, 6)));
        if !(50..=6000).contains(&pmr) {
            return Err((6, 0));
        }
        let (urban, reference) = (a_urban(pmr), a_ref(pmr));
        let (gears, count) = self.remaining(vehicle)?;
        let gears = &gears[..count];
        if let Some(pair) = gears.windows(2).find(|pair| pair[0].a <= pair[1].a) {
            return Err((8, pair[0].number.into()));
        }
        let (rule, i, j) = choose(gears, reference, urban).ok_or((9, 0))?;
        let c_i = self.constant_level(i)?;
        let (k, a, w, c) = match j {
            None => (100, i.a, i.level, c_i),
            Some(j) => {
                let c_j = self.constant_level(j)?;
                let k = rounded(100 * (reference - j.a), i.a - j.a);
                let weighed = |i: u32, j: u32| rounded((100 - k) * j + k * i, 100);
                (k, reference, weighed(i.level, j.level), weighed(c_i, c_j))
            }
        };
        let (kp, l_urban) = l_urban(pmr, w, c, urban, a);
        let passes = l_urban <= limit.found(pmr);
        let mut record = [0; RECORD];
        let j = j.map_or(0, |gear| gear.number);
        record[..6].copy_from_slice(&[rule, i.number, j, k as u8, kp as u8, passes.into()]);
        for (place, number) in record[6..20].chunks_exact_mut(2).zip([w, c, l_urban, urban, reference, pmr, a]) {
            place.copy_from_slice(&(number as u16).to_le_bytes());
        }
        Ok(record)
    }

    /// Refusal 7 or 14, or the gears that remain.
    fn remaining(&self, vehicle: &Record) -> Result<([Gear; 16], usize), Refusal> {
        if !self.driven.contains(&true) {
            return Err((7, 0));
        }
        let path = u32::from(number(vehicle, 8)) + if vehicle[2] == 0 { 2000 } else { 1000 };
        let (mut gears, mut count) = ([Gear::default(); 16], 0);
        for (at, group) in self.acceleration.iter().enumerate().filter(|&(at, _)| self.driven[at]) {
            let window = group.window(7, 14).map_err(|number| (number, at as u32 + 1))?;
            if window.iter().all(|run| run.engine <= number(vehicle, 10)) {
                let a = rounded(window.iter().map(|run| run.acceleration(path)).sum(), 4);
                gears[count] = Gear { number: at as u8 + 1, a, level: level(window) };
                count += 1;
            }
        }
        Ok((gears, count))
    }

    /// Refusal 10 or 15, or the level.
    fn constant_level(&self, gear: Gear) -> Result<u32, Refusal> {
        let group = &self.constant[usize::from(gear.number) - 1];
        group.window(10, 15).map(level).map_err(|number| (number, gear.number.into()))
    }
}

/// The rule, gear i and gear j; None is refusal 9.
fn choose(gears: &[Gear], reference: u32, urban: u32) -> Option<(u8, Gear, Option<Gear>)> {
    if let [only] = gears {
        return Some((1, *only, None));
    }
    let near = |gear: &&Gear| 20 * gear.a.abs_diff(reference) <= reference && gear.a <= CEILING;
    if let Some(nearest) = gears.iter().filter(near).min_by_key(|gear| gear.a.abs_diff(reference)) {
        return Some((2, *nearest, None));
    }
    let at = gears.iter().rposition(|gear| gear.a >= reference)?;
    let (i, j) = (gears[at], *gears.get(at + 1)?);
    if i.a <= CEILING {
        Some((3, i, Some(j)))
    } else if j.a >= urban {
        Some((4, *gears.iter().find(|gear| gear.a < CEILING)?, None))
    } else {
        Some((5, i, Some(j)))
    }
}

/// kp in hundredths, and L_urban.
fn l_urban(pmr: u32, w: u32, c: u32, urban: u32, a: u32) -> (u32, u32) {
    if pmr < 250 {
        (0, rounded(w, 10))
    } else if w < c {
        (100, rounded(c, 10))
    } else {
        let kp = if a < urban { 0 } else { rounded(100 * (a - urban), a) };
        (kp, rounded(100 * w - kp * (w - c), 1000))
    }
}
