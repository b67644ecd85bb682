//! Test masses of lorries (document 02, wish 13; document 004, 2.2.1 and 2.2.7.4).

use crate::Refusal;

/// Masses are in quarters of a kg: three for each kg of a maximum are 75% of it.
const QUARTERS: i64 = 4;
const DRIVER: i64 = 75 * QUARTERS;
/// The target of a tenth of a kW: a tenth of 50 kg.
const TARGET: i64 = 5 * QUARTERS;

/// A two-axle lorry, or the stand-in of one with more axles: its power in tenths of a kW, and in whole kg the unladen
/// loads of its axles and the maximum of the rear one.
#[derive(Clone, Copy, Debug, PartialEq, Eq)]
pub struct TwoAxles {
    pub power: u16,
    pub front: u16,
    pub rear: u16,
    pub rear_max: u16,
}

/// The test mass, the load, and the two ends of the test mass's band, in ten-thousandths of a kg.
#[derive(Clone, Copy, Debug, PartialEq, Eq)]
pub struct Masses {
    pub mass: u64,
    pub load: u64,
    pub lowest: u64,
    pub highest: u64,
}

/// The test mass of a lorry with two axles.
pub fn two_axles(lorry: TwoAxles) -> Result<Masses, Refusal> {
    Ok(masses(lorry.unladen(), lorry.load()?))
}

/// The test mass of a lorry with more axles: that of its two-axle stand-in, unless its own unladen mass, in whole kg,
/// is too high for it.
pub fn more_axles(stand_in: TwoAxles, own: u16) -> Result<Masses, Refusal> {
    let own = QUARTERS * i64::from(own);
    // The driver is in both masses.
    let load = stand_in.unladen() + stand_in.load()? - own;
    Ok(masses(own, load.max(0)))
}

impl TwoAxles {
    fn unladen(self) -> i64 {
        QUARTERS * (i64::from(self.front) + i64::from(self.rear))
    }

    /// Refusal 21, or the load that comes nearest to the extra: not negative, and no more than the rear axle bears.
    fn load(self) -> Result<i64, Refusal> {
        let room = 3 * i64::from(self.rear_max) - QUARTERS * i64::from(self.rear);
        if room < 0 {
            return Err((21, 0));
        }
        let extra = TARGET * i64::from(self.power) - DRIVER - self.unladen();
        Ok(extra.clamp(0, room))
    }
}

/// The results for an unladen mass and a load, neither of them negative.
fn masses(unladen: i64, load: i64) -> Masses {
    let mass = unladen + DRIVER + load;
    // A quarter of a kg is 2,500 ten-thousandths; 95% and 105% of it are whole, too.
    let times = |mass: i64, units: u64| mass as u64 * units;
    Masses { mass: times(mass, 2500), load: times(load, 2500), lowest: times(mass, 2375), highest: times(mass, 2625) }
}
