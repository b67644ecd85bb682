//! The proved evaluation of pass-by sheets, verdict on motorcycles, production checks and test masses of lorries, for Rust programs
//! on x86-64 Linux: safe functions over the static library of the crate `embed`, which `rt lib` writes in `crates/embed`. The library has
//! no state, so any number of threads may call it at once.

use std::fmt;

/// The bytes of a result record.
pub const RESULT_BYTES: usize = 32;

/// The room that `ruthimpo_line` asks for, more than any line takes.
const LINE_BYTES: usize = 276;

extern "C" {
    /// The evaluation as C has it: 0 or the number of the refusal, and its place.
    pub fn ruthimpo_evaluate(
        sheet: *const u8,
        sheet_bytes: usize,
        result: *mut u8,
        result_bytes: usize,
        place: *mut usize,
    ) -> u32;
    fn ruthimpo_line(sheet: *const u8, sheet_bytes: usize, out: *mut u8, out_bytes: usize) -> usize;
    /// The verdict on a motorcycle as C has it: of four patterns of floats, 0 or the number of the refusal, and its place.
    pub fn ruthimpo_motorcycle(levels: *const u32, limit: u16, mean: *mut u16, pass: *mut u8, place: *mut usize)
        -> u32;
    /// The start of a production check as C has it.
    pub fn ruthimpo_production_start(limit: u16, check: *mut ProductionCheck);
    /// A car offered to a production check as C has it: 0 or the number of the refusal, and its place.
    pub fn ruthimpo_production_offer(check: *mut ProductionCheck, l_urban: u16, place: *mut usize) -> u32;
    /// The status of a production check as C has it: 0 or the number of the refusal.
    pub fn ruthimpo_production_status(check: *const ProductionCheck, status: *mut u8, wanted: *mut u8) -> u32;
    /// The four masses of a lorry of two axles as C has them: 0 or the number of the refusal, and its place.
    pub fn ruthimpo_lorry_two_axles(
        power: u16,
        front: u16,
        rear: u16,
        rear_max: u16,
        masses: *mut u64,
        place: *mut usize,
    ) -> u32;
    /// Those of a lorry of more axles, by its two-axle stand-in and its own unladen mass.
    pub fn ruthimpo_lorry_more_axles(
        power: u16,
        front: u16,
        rear: u16,
        rear_max: u16,
        own: u16,
        masses: *mut u64,
        place: *mut usize,
    ) -> u32;
}

/// A refusal of document 01 or of document 02, wishes 1, 5, 11, 13 and 14, or that of a stage that no production check has: its
/// number, and the record (from 0), the gear, the level (from 1), the side (1 left, 2 right) or the number of cars counted that it
/// names, or 0 if it names none.
#[derive(Clone, Copy, Debug, PartialEq, Eq)]
pub struct Refusal {
    pub number: u32,
    pub place: usize,
}

/// The numbers by their names, which `c/ruthimpo.h` explains.
impl Refusal {
    pub const SHORT_BUFFER: u32 = 1;
    pub const WRONG_SIZE: u32 = 2;
    pub const NO_VEHICLE: u32 = 3;
    pub const NO_CLOSING: u32 = 4;
    pub const BROKEN_RECORD: u32 = 5;
    pub const PMR_OUT_OF_RANGE: u32 = 6;
    pub const TOO_FEW: u32 = 7;
    pub const NOT_FALLING: u32 = 8;
    pub const NO_RULE: u32 = 9;
    pub const CONSTANT_SPEED_TOO_FEW: u32 = 10;
    pub const NO_LIMIT_FOR_N1: u32 = 11;
    pub const NO_LIMIT_ENTRY: u32 = 12;
    pub const TOO_WIDE: u32 = 14;
    pub const CONSTANT_SPEED_TOO_WIDE: u32 = 15;
    pub const CAR_AFTER_VERDICT: u32 = 20;
    pub const REAR_OVERLOADED: u32 = 21;
    pub const LEVEL_OUT_OF_RANGE: u32 = 22;
    pub const SIDE_FAR_APART: u32 = 23;
    pub const NO_SUCH_STAGE: u32 = 255;
}

impl fmt::Display for Refusal {
    fn fmt(&self, f: &mut fmt::Formatter) -> fmt::Result {
        write!(f, "refusal {} at {}", self.number, self.place)
    }
}

impl std::error::Error for Refusal {}

/// Evaluates a sheet, laid out as `c/ruthimpo.h` says. The result record goes to the first 32 bytes of `result`; a refusal leaves
/// every byte as it was.
pub fn evaluate(sheet: &[u8], result: &mut [u8]) -> Result<(), Refusal> {
    let mut place = 0;
    // SAFETY: the pointers and lengths are those of live slices, and the borrow checker keeps the three places apart.
    let number =
        unsafe { ruthimpo_evaluate(sheet.as_ptr(), sheet.len(), result.as_mut_ptr(), result.len(), &mut place) };
    match number {
        0 => Ok(()),
        _ => Err(Refusal { number, place }),
    }
}

/// The line of the evaluation program, with its line feed.
pub fn line(sheet: &[u8]) -> String {
    let mut out = [0; LINE_BYTES];
    // SAFETY: as in `evaluate`.
    let length = unsafe { ruthimpo_line(sheet.as_ptr(), sheet.len(), out.as_mut_ptr(), out.len()) };
    out[..length].iter().map(|&byte| char::from(byte)).collect()
}

/// The mean of a motorcycle's four levels in quarters of a dB, and whether it passes.
#[derive(Clone, Copy, Debug, PartialEq, Eq)]
pub struct MotorcycleMean {
    pub quarters: u16,
    pub passes: bool,
}

/// Judges the four levels of a motorcycle, 1 and 2 of the left side, 3 and 4 of the right, against a limit in whole dB.
pub fn motorcycle(levels: [f32; 4], limit: u16) -> Result<MotorcycleMean, Refusal> {
    let levels = levels.map(f32::to_bits);
    let (mut quarters, mut pass, mut place) = (0, 0, 0);
    // SAFETY: the pointers are those of live places of their own, aligned by their types.
    let number = unsafe { ruthimpo_motorcycle(levels.as_ptr(), limit, &mut quarters, &mut pass, &mut place) };
    match number {
        0 => Ok(MotorcycleMean { quarters, passes: pass == 1 }),
        _ => Err(Refusal { number, place }),
    }
}

/// A production check as a program keeps it between cars: the limit in whole dB, and the number of the stage that it has reached,
/// as `c/ruthimpo.h` lists them.
#[repr(C)]
#[derive(Clone, Copy, Debug, PartialEq, Eq)]
pub struct ProductionCheck {
    pub limit: u16,
    pub stage: u16,
}

/// The status of a production check.
#[derive(Clone, Copy, Debug, PartialEq, Eq)]
pub enum Status {
    Open = 0,
    Conforms = 1,
    DoesNotConform = 2,
}

impl ProductionCheck {
    /// A check against a limit, without a car.
    pub fn start(limit: u16) -> ProductionCheck {
        let mut check = ProductionCheck { limit: 0, stage: 0 };
        // SAFETY: the pointer is that of a live place, aligned by its type.
        unsafe { ruthimpo_production_start(limit, &mut check) };
        check
    }

    /// Offers the next car. A refusal leaves the check as it was.
    pub fn offer(&mut self, l_urban: u16) -> Result<(), Refusal> {
        let mut place = 0;
        // SAFETY: the pointers are those of live places of their own, aligned by their types.
        let number = unsafe { ruthimpo_production_offer(self, l_urban, &mut place) };
        match number {
            0 => Ok(()),
            _ => Err(Refusal { number, place }),
        }
    }

    /// The status and the number of cars still wanted.
    pub fn status(&self) -> Result<(Status, u8), Refusal> {
        let (mut status, mut wanted) = (0, 0);
        // SAFETY: as in `offer`.
        let number = unsafe { ruthimpo_production_status(self, &mut status, &mut wanted) };
        match (number, status) {
            (0, 0) => Ok((Status::Open, wanted)),
            (0, 1) => Ok((Status::Conforms, wanted)),
            (0, 2) => Ok((Status::DoesNotConform, wanted)),
            (0, other) => unreachable!("no status is {other}"),
            _ => Err(Refusal { number, place: 0 }),
        }
    }
}

/// A lorry of two axles: its power in tenths of kW, and in whole kg the unladen loads of its axles and the rear axle's maximum.
#[derive(Clone, Copy, Debug, PartialEq, Eq)]
pub struct TwoAxles {
    pub power: u16,
    pub front: u16,
    pub rear: u16,
    pub rear_max: u16,
}

/// The test mass of a lorry, its load, and 95% and 105% of the test mass, each exact, in ten-thousandths of a kg.
#[derive(Clone, Copy, Debug, PartialEq, Eq)]
pub struct Masses {
    pub mass: u64,
    pub load: u64,
    pub lowest: u64,
    pub highest: u64,
}

/// The masses of a lorry (N2, N3) of two axles, as `c/ruthimpo.h` explains them.
pub fn lorry_two_axles(lorry: TwoAxles) -> Result<Masses, Refusal> {
    let TwoAxles { power, front, rear, rear_max } = lorry;
    // SAFETY: the pointers are those that `masses_by` hands to the call.
    masses_by(|masses, place| unsafe { ruthimpo_lorry_two_axles(power, front, rear, rear_max, masses, place) })
}

/// The masses of a lorry (N2, N3) of more axles, by its two-axle stand-in and its own unladen mass in whole kg.
pub fn lorry_more_axles(stand_in: TwoAxles, own: u16) -> Result<Masses, Refusal> {
    let TwoAxles { power, front, rear, rear_max } = stand_in;
    // SAFETY: as in `lorry_two_axles`.
    masses_by(|masses, place| unsafe { ruthimpo_lorry_more_axles(power, front, rear, rear_max, own, masses, place) })
}

/// What a call on a lorry gives. It is handed pointers to four masses and to a place, live, apart and aligned by their types.
fn masses_by(call: impl FnOnce(*mut u64, *mut usize) -> u32) -> Result<Masses, Refusal> {
    let (mut masses, mut place) = ([0; 4], 0);
    let number = call(masses.as_mut_ptr(), &mut place);
    let [mass, load, lowest, highest] = masses;
    match number {
        0 => Ok(Masses { mass, load, lowest, highest }),
        _ => Err(Refusal { number, place }),
    }
}

#[cfg(test)]
mod tests {
    use super::*;

    const NAMES: [(&str, u32); 22] = [
        ("SHORT_BUFFER", Refusal::SHORT_BUFFER),
        ("WRONG_SIZE", Refusal::WRONG_SIZE),
        ("NO_VEHICLE", Refusal::NO_VEHICLE),
        ("NO_CLOSING", Refusal::NO_CLOSING),
        ("BROKEN_RECORD", Refusal::BROKEN_RECORD),
        ("PMR_OUT_OF_RANGE", Refusal::PMR_OUT_OF_RANGE),
        ("TOO_FEW", Refusal::TOO_FEW),
        ("NOT_FALLING", Refusal::NOT_FALLING),
        ("NO_RULE", Refusal::NO_RULE),
        ("CONSTANT_SPEED_TOO_FEW", Refusal::CONSTANT_SPEED_TOO_FEW),
        ("NO_LIMIT_FOR_N1", Refusal::NO_LIMIT_FOR_N1),
        ("NO_LIMIT_ENTRY", Refusal::NO_LIMIT_ENTRY),
        ("TOO_WIDE", Refusal::TOO_WIDE),
        ("CONSTANT_SPEED_TOO_WIDE", Refusal::CONSTANT_SPEED_TOO_WIDE),
        ("CAR_AFTER_VERDICT", Refusal::CAR_AFTER_VERDICT),
        ("REAR_OVERLOADED", Refusal::REAR_OVERLOADED),
        ("LEVEL_OUT_OF_RANGE", Refusal::LEVEL_OUT_OF_RANGE),
        ("SIDE_FAR_APART", Refusal::SIDE_FAR_APART),
        ("NO_SUCH_STAGE", Refusal::NO_SUCH_STAGE),
        ("OPEN", Status::Open as u32),
        ("CONFORMS", Status::Conforms as u32),
        ("DOES_NOT_CONFORM", Status::DoesNotConform as u32),
    ];

    #[test]
    fn the_header_has_the_same_names() {
        let header = include_str!("../c/ruthimpo.h");
        for (name, number) in NAMES {
            let expected = [format!("RUTHIMPO_{name}"), "=".into(), number.to_string()];
            let has = |line: &str| line.trim().split([' ', ',']).take(3).eq(&expected);
            assert!(header.lines().any(has), "{name} is not {number} in c/ruthimpo.h");
        }
    }

    #[test]
    fn empty_slices_are_refused() {
        let refused = |number| Err(Refusal { number, place: 0 });
        assert_eq!(evaluate(&[], &mut []), refused(Refusal::SHORT_BUFFER));
        assert_eq!(evaluate(&[], &mut [0; RESULT_BYTES]), refused(Refusal::WRONG_SIZE));
        assert_eq!(line(&[]), "REFUSED 2 0\n");
    }

    #[test]
    fn a_motorcycle_has_a_mean_or_a_refusal() {
        let mean = |quarters, passes| Ok(MotorcycleMean { quarters, passes });
        let refused = |number, place| Err(Refusal { number, place });
        assert_eq!(motorcycle([80.0, 81.0, 80.0, 80.0], 80), mean(317, true));
        assert_eq!(motorcycle([80.0, 81.0, 80.0, 80.0], 79), mean(317, false));
        // 72.46 is 72.5, then 73; 72.45 as a float is below it.
        assert_eq!(motorcycle([72.46, 72.0, 72.0, 72.0], 71), mean(285, false));
        assert_eq!(motorcycle([72.45, 72.0, 72.0, 72.0], 71), mean(284, true));
        assert_eq!(motorcycle([80.0, f32::INFINITY, 80.0, f32::NAN], 80), refused(Refusal::LEVEL_OUT_OF_RANGE, 2));
        assert_eq!(motorcycle([20.0, 140.0, 20.0_f32.next_down(), 80.0], 80), refused(Refusal::LEVEL_OUT_OF_RANGE, 3));
        assert_eq!(motorcycle([80.0, 83.0, 80.0, 83.0], 80), refused(Refusal::SIDE_FAR_APART, 1));
        assert_eq!(motorcycle([80.0, 82.4, 80.0, 82.5], 80), refused(Refusal::SIDE_FAR_APART, 2));
    }

    /// The status and the cars wanted after each car of a check, or the refusal.
    fn answers(limit: u16, cars: &[u16]) -> Vec<Result<(Status, u8), Refusal>> {
        let mut check = ProductionCheck::start(limit);
        cars.iter().map(|&car| check.offer(car).and_then(|()| check.status())).collect()
    }

    #[test]
    fn a_production_check_ends_after_one_car_or_three() {
        let late = |place| Err(Refusal { number: Refusal::CAR_AFTER_VERDICT, place });
        let (open, conforms, does_not) =
            (|wanted| Ok((Status::Open, wanted)), Ok((Status::Conforms, 0)), Ok((Status::DoesNotConform, 0)));
        assert_eq!(ProductionCheck::start(72).status(), open(1));
        assert_eq!(answers(72, &[73, 73, 74]), [conforms, late(1), late(1)]);
        assert_eq!(answers(72, &[74, 80, 70, 71, 74]), [open(2), open(1), does_not, late(3), late(3)]);
        assert_eq!(answers(72, &[74, 73, 74]), [open(2), open(1), does_not]);
        assert_eq!(answers(72, &[74, 73, 73, 80]), [open(2), open(1), conforms, late(3)]);
        assert_eq!(answers(0, &[2, 1, 1]), [open(2), open(1), conforms]);
        assert_eq!(answers(65_533, &[65_535]), [open(2)]);
        assert_eq!(answers(65_534, &[65_535]), [conforms]);
        assert_eq!(answers(65_535, &[65_535, 0]), [conforms, late(1)]);
    }

    #[test]
    fn a_refusal_leaves_the_check() {
        let late = |place| Refusal { number: Refusal::CAR_AFTER_VERDICT, place };
        let none = Refusal { number: Refusal::NO_SUCH_STAGE, place: 0 };
        for (stage, refusal) in [(1, late(1)), (5, late(3)), (6, late(3)), (7, none), (256, none), (u16::MAX, none)] {
            let before = ProductionCheck { limit: 72, stage };
            for car in [73, 74] {
                let mut check = before;
                assert_eq!(check.offer(car), Err(refusal));
                assert_eq!(check, before);
                assert_eq!(check.status() == Err(none), stage > 6);
            }
        }
    }

    const OVERLOADED: Result<Masses, Refusal> = Err(Refusal { number: Refusal::REAR_OVERLOADED, place: 0 });

    fn masses(mass: u64, load: u64, lowest: u64, highest: u64) -> Result<Masses, Refusal> {
        Ok(Masses { mass, load, lowest, highest })
    }

    #[test]
    fn a_lorry_of_two_axles_has_masses_or_a_refusal() {
        let lorry = |power, front, rear, rear_max| lorry_two_axles(TwoAxles { power, front, rear, rear_max });
        assert_eq!(lorry(2_000, 4_000, 3_000, 11_500), masses(100_000_000, 29_250_000, 95_000_000, 105_000_000));
        assert_eq!(lorry(3_000, 4_000, 3_000, 11_500), masses(127_000_000, 56_250_000, 120_650_000, 133_350_000));
        assert_eq!(lorry(3_000, 4_000, 3_000, 11_501), masses(127_007_500, 56_257_500, 120_657_125, 133_357_875));
        assert_eq!(lorry(1_000, 4_000, 3_000, 11_500), masses(70_750_000, 0, 67_212_500, 74_287_500));
        assert_eq!(lorry(3_000, 4_000, 8_625, 11_500), masses(127_000_000, 0, 120_650_000, 133_350_000));
        assert_eq!(lorry(3_000, 4_000, 8_626, 11_500), OVERLOADED);
        assert_eq!(lorry(0, 4_000, 8_626, 11_500), OVERLOADED);
        assert_eq!(lorry(0, 0, 0, 0), masses(750_000, 0, 712_500, 787_500));
        assert_eq!(lorry(65_535, 65_535, 49_151, 65_535), masses(1_147_612_500, 2_500, 1_090_231_875, 1_204_993_125));
        assert_eq!(lorry(65_535, 65_535, 65_535, 65_535), OVERLOADED);
    }

    #[test]
    fn a_lorry_of_more_axles_has_the_mass_of_its_stand_in_or_its_own() {
        let stand_in = TwoAxles { power: 3_000, front: 4_000, rear: 3_000, rear_max: 11_500 };
        let of_stand_in = |load| masses(127_000_000, load, 120_650_000, 133_350_000);
        assert_eq!(lorry_more_axles(stand_in, 0), of_stand_in(126_250_000));
        assert_eq!(lorry_more_axles(stand_in, 9_000), of_stand_in(36_250_000));
        assert_eq!(lorry_more_axles(stand_in, 12_625), of_stand_in(0));
        assert_eq!(lorry_more_axles(stand_in, 12_626), masses(127_010_000, 0, 120_659_500, 133_360_500));
        assert_eq!(lorry_more_axles(stand_in, 65_535), masses(656_100_000, 0, 623_295_000, 688_905_000));
        for own in [0, 9_000, 65_535] {
            assert_eq!(lorry_more_axles(TwoAxles { rear: 8_626, ..stand_in }, own), OVERLOADED);
        }
    }
}
