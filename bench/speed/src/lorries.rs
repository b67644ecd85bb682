//! Random lorries for the differential run of test masses, many of them beside an edge.

use crate::random::Random;

/// The driver in kg.
const DRIVER: i64 = 75;

/// From where to where each number of a lorry usually is, in the order of `Lorry`.
const SIZES: [(i64, i64); 5] = [(400, 6_000), (1_000, 9_000), (500, 5_000), (6_000, 13_000), (4_000, 30_000)];
const ANY_SIZES: [(i64, i64); 5] = [(0, 65_535); 5];

/// The ends of 16 bits and of a number with a sign, and where five, four and three times a number leave 16 bits.
const ENDS: [u16; 17] =
    [0, 1, 2, 3, 4, 13_107, 13_108, 16_383, 16_384, 21_845, 21_846, 32_767, 32_768, 65_532, 65_533, 65_534, 65_535];

/// The numbers of a lorry of two axles, its power in tenths of kW and the others in kg, and the unladen mass of one of more axles
/// that has it for its stand-in.
#[derive(Debug)]
pub struct Lorry {
    pub power: u16,
    pub front: u16,
    pub rear: u16,
    pub rear_max: u16,
    pub own: u16,
}

impl Lorry {
    /// 50 kg per kW.
    fn target(&self) -> i64 {
        5 * i64::from(self.power)
    }

    /// The whole kg of 75% of the rear axle's maximum.
    fn rear_limit(&self) -> i64 {
        3 * i64::from(self.rear_max) / 4
    }

    fn unladen(&self) -> i64 {
        i64::from(self.front) + i64::from(self.rear)
    }
}

/// A lorry to try. In three of four an axle is beside an edge, and in most the own mass is.
pub fn any_lorry(random: &mut Random) -> Lorry {
    let sizes = if random.chance(80) { SIZES } else { ANY_SIZES };
    let [power, front, rear, rear_max, own] = sizes.map(|(lowest, highest)| number(random, lowest, highest));
    let mut lorry = Lorry { power, front, rear, rear_max, own };
    match random.below(4) {
        0 => lorry.rear = beside(random, lorry.rear_limit()),
        // The extra is beside 0.
        1 => lorry.front = beside(random, lorry.target() - DRIVER - i64::from(lorry.rear)),
        // The extra and the rear axle are beside 75% of its maximum.
        2 => lorry.front = beside(random, lorry.target() - DRIVER - lorry.rear_limit()),
        _ => {}
    }
    if random.chance(75) {
        lorry.own = own_beside_stand_in(random, &lorry);
    }
    lorry
}

/// An own mass beside one of the three masses that the stand-in may have, each less the driver.
fn own_beside_stand_in(random: &mut Random, stand_in: &Lorry) -> u16 {
    let limited = stand_in.rear_limit() + i64::from(stand_in.front);
    let mass = random.pick(&[stand_in.unladen(), stand_in.target() - DRIVER, limited]);
    beside(random, mass)
}

/// A number of that size, any, or one at an end.
fn number(random: &mut Random, lowest: i64, highest: i64) -> u16 {
    match random.below(20) {
        0 => random.next() as u16,
        1 => random.pick(&ENDS),
        _ => random.between(lowest, highest) as u16,
    }
}

fn beside(random: &mut Random, number: i64) -> u16 {
    (number + random.between(-2, 2)).clamp(0, 65_535) as u16
}
