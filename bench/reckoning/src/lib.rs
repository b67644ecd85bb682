//! Pass-by sheets, motorcycles, production checks and test masses of lorries in plain Rust, written from documents 001,
//! 003, 004, 01 and 02.

mod gears;
mod limit;
mod lorry;
mod motorcycle;
mod production;
pub mod reference;
mod sheet;
mod window;

pub use lorry::{more_axles, two_axles, Masses, TwoAxles};
pub use motorcycle::{motorcycle, Mean};
pub use production::{production, Standing, Status};

use gears::{check_falling, choose, Choice, Gear};
use reference::{a_ref, a_urban, CONSTANT_SPEED_PMR};
use sheet::{Session, Vehicle};
use window::{RunsByGear, Window};

pub const RESULT_BYTES: usize = 32;

/// A refusal's number and place.
pub type Refusal = (u32, u32);

/// Evaluates a sheet. The result record goes to the first 32 bytes of `result`; a refusal leaves every byte as it was.
pub fn evaluate(sheet: &[u8], result: &mut [u8]) -> Result<(), Refusal> {
    let record = result.get_mut(..RESULT_BYTES).ok_or((1, 0))?;
    record.copy_from_slice(&evaluation(&Session::read(sheet)?)?.to_record());
    Ok(())
}

/// The line of the evaluation program, without its line feed.
pub fn line(sheet: &[u8]) -> String {
    let mut record = [0; RESULT_BYTES];
    match evaluate(sheet, &mut record) {
        Ok(()) => record_line(&record),
        Err((number, place)) => format!("REFUSED {number} {place}"),
    }
}

fn record_line(record: &[u8; RESULT_BYTES]) -> String {
    let bytes = record[..5].iter().map(|&byte| u16::from(byte));
    let numbers = record[6..20].chunks_exact(2).map(|two| u16::from_le_bytes([two[0], two[1]]));
    let fields = bytes.chain(numbers).chain([record[5].into()]);
    fields.fold("OK".to_string(), |line, field| format!("{line} {field}"))
}

/// Numerator over denominator to the nearest whole number, a half going up.
fn rounded(numerator: u32, denominator: u32) -> u32 {
    (numerator + denominator / 2) / denominator
}

/// The result record by name (document 01, "L_urban").
struct Evaluation {
    rule: u8,
    i: u8,
    j: u8,
    k: u32,
    kp: u32,
    passes: bool,
    w: u32,
    c: u32,
    l_urban: u32,
    a_urban: u32,
    a_ref: u32,
    pmr: u32,
    a_test: u32,
}

impl Evaluation {
    fn to_record(&self) -> [u8; RESULT_BYTES] {
        let mut record = [0; RESULT_BYTES];
        record[..6].copy_from_slice(&[self.rule, self.i, self.j, self.k as u8, self.kp as u8, self.passes.into()]);
        let numbers = [self.w, self.c, self.l_urban, self.a_urban, self.a_ref, self.pmr, self.a_test];
        for (place, number) in record[6..20].chunks_exact_mut(2).zip(numbers) {
            place.copy_from_slice(&(number as u16).to_le_bytes());
        }
        record
    }
}

/// Refusals 6 to 10, 14 and 15, or the evaluation.
fn evaluation(session: &Session) -> Result<Evaluation, Refusal> {
    let vehicle = &session.vehicle;
    let pmr = rounded(1000 * vehicle.power, vehicle.mass);
    if !(50..=6000).contains(&pmr) {
        return Err((6, 0));
    }
    let (a_urban, a_ref) = (a_urban(pmr), a_ref(pmr));

    let runs = RunsByGear::of(session);
    let gears = remaining_gears(&runs, vehicle)?;
    check_falling(&gears)?;
    let Choice { rule, i, j } = choose(&gears, a_ref, a_urban).ok_or((9, 0))?;
    let constant = |gear: Gear| runs.constant_window(gear.gear).map(|window| window.level());
    let c_i = constant(i)?;

    let (k, a_test, w, c) = match j {
        None => (100, i.a, i.level, c_i),
        Some(j) => {
            let c_j = constant(j)?;
            let k = rounded(100 * (a_ref - j.a), i.a - j.a);
            (k, a_ref, weighed(k, i.level, j.level), weighed(k, c_i, c_j))
        }
    };
    let (kp, l_urban) = decide_l_urban(pmr, w, c, a_urban, a_test);
    let passes = l_urban <= session.limit.found(pmr);
    let j = j.map_or(0, |gear| gear.gear);
    Ok(Evaluation { rule, i: i.gear, j, k, kp, passes, w, c, l_urban, a_urban, a_ref, pmr, a_test })
}

/// Refusal 7 or 14, or the gears left after dropping those above the rated engine speed.
fn remaining_gears(runs: &RunsByGear, vehicle: &Vehicle) -> Result<Vec<Gear>, Refusal> {
    let windows = runs
        .driven()
        .map(|gear| Ok((gear, runs.acceleration_window(gear)?)))
        .collect::<Result<Vec<(u8, Window)>, Refusal>>()?;
    if windows.is_empty() {
        return Err((7, 0));
    }
    let distance = vehicle.length + if vehicle.from_pp { 1000 } else { 2000 };
    let kept = windows.into_iter().filter(|(_, window)| !window.exceeds(vehicle.rated_speed));
    Ok(kept.map(|(gear, window)| Gear { gear, a: window.acceleration(distance), level: window.level() }).collect())
}

/// L(j) + k × (L(i) − L(j)), as a sum without a negative part.
fn weighed(k: u32, level_i: u32, level_j: u32) -> u32 {
    rounded((100 - k) * level_j + k * level_i, 100)
}

/// kp in hundredths and L_urban in whole decibels.
fn decide_l_urban(pmr: u32, w: u32, c: u32, a_urban: u32, a_test: u32) -> (u32, u32) {
    if pmr < CONSTANT_SPEED_PMR {
        (0, rounded(w, 10))
    } else if w < c {
        (100, rounded(c, 10))
    } else {
        let kp = if a_test < a_urban { 0 } else { rounded(100 * (a_test - a_urban), a_test) };
        (kp, rounded(100 * w - kp * (w - c), 1000))
    }
}
