//! Random fours of levels for the differential run of motorcycles, many of them beside an edge.

use crate::random::Random;

/// The patterns of 20.0 and 140.0.
const LOWEST: u32 = 0x41A0_0000;
const HIGHEST: u32 = 0x430C_0000;

/// Patterns that are no level: beside the range, infinities, NaNs, zeros, subnormals, levels with a minus.
const NO_LEVELS: [u32; 20] = [
    LOWEST - 1,
    HIGHEST + 1,
    0x419F_9999,
    0x430C_0CCC,
    0x7F80_0000,
    0xFF80_0000,
    0x7FC0_0000,
    0xFFC0_0000,
    0x7F80_0001,
    0xFF80_0001,
    0x7FFF_FFFF,
    0xFFFF_FFFF,
    0x0000_0000,
    0x8000_0000,
    0x0000_0001,
    0x807F_FFFF,
    0x0080_0000,
    0xC2A0_0000,
    LOWEST | 1 << 31,
    HIGHEST | 1 << 31,
];

/// The patterns of four floats, 1 and 2 left, 3 and 4 right, and a limit in whole dB.
#[derive(Debug)]
pub struct Four {
    pub levels: [u32; 4],
    pub limit: u16,
}

/// A four to try. In most of them each side is within 2 or 3 dB, so that it comes to a mean.
pub fn any_four(random: &mut Random) -> Four {
    let mut levels = match random.below(20) {
        0 => [0; 4].map(|_| random.next() as u32),
        1 => [0; 4].map(|_| random.between(LOWEST.into(), HIGHEST.into()) as u32),
        _ => sides(random),
    };
    if random.chance(15) {
        for _ in 0..random.between(1, 3) {
            levels[random.below(4)] = no_level(random);
        }
    }
    Four { levels, limit: limit(random, levels) }
}

/// Two sides near one another or not, of levels beside an edge or in hundredths of a dB.
fn sides(random: &mut Random) -> [u32; 4] {
    let left = random.between(20, 140);
    let right = if random.chance(70) { left } else { random.between(20, 140) };
    let spread = if random.chance(80) { 1 } else { 3 };
    [left, left, right, right].map(|near| {
        let decibels = near + random.between(-spread, spread);
        level(random, decibels)
    })
}

/// A level of about so many dB: beside x.45 or x.5, where whole dB part, on a tenth, or in hundredths.
fn level(random: &mut Random, decibels: i64) -> u32 {
    let hundredths = match random.below(4) {
        0 => random.pick(&[45, 50]),
        1 => 10 * random.between(0, 9),
        _ => random.between(0, 99),
    };
    let nearest = (decibels * 100 + hundredths) as f32 / 100.0;
    let moved = i64::from(nearest.to_bits()) + random.between(-2, 2);
    moved.clamp(LOWEST.into(), HIGHEST.into()) as u32
}

fn no_level(random: &mut Random) -> u32 {
    if random.chance(60) {
        random.pick(&NO_LEVELS)
    } else {
        random.next() as u32
    }
}

/// A limit beside the mean, beside it once 16 bits of four times the limit are lost, a round number of bits, or any.
fn limit(random: &mut Random, levels: [u32; 4]) -> u16 {
    let sum: f32 = levels.map(f32::from_bits).iter().sum();
    let mean = (sum / 4.0 - 1.0).clamp(0.0, 200.0) as i64;
    let near = mean + random.between(-2, 2);
    let limit = match random.below(20) {
        0 => random.between(0, 65_535),
        1 => near + random.pick(&[16_384, 32_768, 49_152]),
        2 => random.pick(&[0, 1, 255, 256, 16_383, 16_384, 16_385, 32_767, 32_768, 49_152, 65_534, 65_535]),
        _ => near,
    };
    limit.clamp(0, 65_535) as u16
}
