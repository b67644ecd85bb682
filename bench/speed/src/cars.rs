//! Random lists of cars for the differential run of production checks, most of them near the limit plus 1 dB.

use crate::random::Random;

/// A limit in whole dB, and the L_urban of each car offered, in order.
#[derive(Debug)]
pub struct CarList {
    pub limit: u16,
    pub cars: Vec<u16>,
}

/// A list to try. Its first car fails more often than not, so that many lists come to a third one.
pub fn any_list(random: &mut Random) -> CarList {
    let limit = limit(random);
    let mut cars: Vec<u16> = (0..random.below(9)).map(|_| car(random, limit)).collect();
    if let Some(first) = cars.first_mut() {
        if random.chance(50) {
            *first = clamped(i64::from(limit) + random.between(2, 4));
        }
    }
    CarList { limit, cars }
}

/// A limit of the regulation's size, any, or one at the ends of 16 bits, of a byte and of a number with a sign.
fn limit(random: &mut Random) -> u16 {
    match random.below(10) {
        0..5 => random.between(66, 80) as u16,
        5..8 => random.next() as u16,
        _ => random.pick(&[0, 1, 2, 253, 254, 255, 256, 32_766, 32_767, 32_768, 65_532, 65_533, 65_534, 65_535]),
    }
}

/// A car beside the limit plus 1 dB, beside it once a high bit is lost, at an end of 16 bits, or anywhere.
fn car(random: &mut Random, limit: u16) -> u16 {
    let near = i64::from(limit) + 1 + random.between(-2, 2);
    match random.below(20) {
        0 => random.next() as u16,
        1 => random.pick(&[0, 65_535]),
        2 => clamped(near + random.pick(&[-32_768, -256, 256, 32_768])),
        _ => clamped(near),
    }
}

fn clamped(number: i64) -> u16 {
    number.clamp(0, 65_535) as u16
}
