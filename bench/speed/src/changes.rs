//! Random sessions and damaged sheets for the differential run.

use crate::random::Random;
use crate::sheets::{
    put, run, sheet, speeds_for, Backgrounds, Limit, Record, Vehicle, ACCELERATION, CONSTANT, M1, N1, RECORD,
};

/// The patterns of 20.0 and 140.0.
const LOWEST: u32 = 0x41A0_0000;
const HIGHEST: u32 = 0x430C_0000;

/// Tenths, from one that no level is near to one that makes some levels not valid.
const BACKGROUNDS: [u16; 5] = [300, 400, 500, 550, 580];

/// How many runs a gear has if they are too far apart for a window.
const WIDE_COUNTS: [usize; 12] = [4, 4, 4, 5, 6, 8, 16, 17, 18, 19, 20, 40];

/// The PMR, in tenths, up to which a row of the limits reaches.
const CLASS_EDGES: [i64; 3] = [1200, 1600, 2000];

/// A sheet to try: a session, a damaged sheet of the corpus, a damaged session, or arbitrary bytes.
pub fn any_sheet(random: &mut Random, corpus: &[Vec<u8>]) -> Vec<u8> {
    match random.below(100) {
        0..3 => (0..random.below(200)).map(|_| random.next() as u8).collect(),
        3..40 => session(random),
        40..55 => {
            let base = session(random);
            damaged(random, base)
        }
        _ => {
            let base = corpus[random.below(corpus.len())].clone();
            damaged(random, base)
        }
    }
}

fn number_near(random: &mut Random, lowest: u16, highest: u16) -> u16 {
    match random.below(12) {
        0 => lowest,
        1 => highest,
        _ => random.between(lowest.into(), highest.into()) as u16,
    }
}

/// Backgrounds of a record, the right one missing, chosen by itself, near the left, or next to nothing.
fn backgrounds(random: &mut Random) -> Backgrounds {
    let left = random.pick(&BACKGROUNDS);
    let right = match random.below(8) {
        0..3 => 0,
        3 | 4 => random.pick(&BACKGROUNDS),
        5 | 6 => (i64::from(left) + random.between(-40, 20)) as u16,
        _ => 1,
    };
    Backgrounds { left, right }
}

/// A limit that is written, or 0 with a phase and a class of which most have a limit.
fn limit(random: &mut Random) -> Limit {
    if random.chance(50) {
        return Limit { written: random.between(60, 80) as u16, phase: 0, low_car: 0 };
    }
    let phase = if random.chance(90) { random.between(1, 3) as u8 } else { random.pick(&[0, 4, 255]) };
    let low_car = if random.chance(95) { random.below(2) as u8 } else { random.pick(&[2, 255]) };
    Limit { written: 0, phase, low_car }
}

/// Power and mass: common ones, beside a PMR at which the limits change, or any.
fn power_and_mass(random: &mut Random) -> (u16, u16) {
    match random.below(10) {
        0..4 => (random.between(300, 3000) as u16, random.between(800, 2500) as u16),
        4..8 => {
            let (mass, edge) = (random.between(800, 2500), random.pick(&CLASS_EDGES));
            // The least power whose rounded PMR is above the edge, or the power before it.
            let least = (mass * (2 * edge + 1) + 1999) / 2000;
            ((least - random.between(0, 1)) as u16, mass as u16)
        }
        _ => (number_near(random, 10, 20_000), number_near(random, 300, 5_000)),
    }
}

fn vehicle(random: &mut Random) -> Vehicle {
    let (power, mass) = power_and_mass(random);
    Vehicle {
        category: if random.chance(90) { M1 } else { N1 },
        start_line: random.below(2) as u8,
        power,
        mass,
        length: number_near(random, 100, 2_000),
        rated_speed: random.between(3900, 6000) as u16,
        before: backgrounds(random),
        limit: limit(random),
    }
}

/// A gear's runs of one kind: their level, about which they lie, and their speeds.
#[derive(Clone, Copy)]
struct Group {
    kind: u8,
    gear: u8,
    level: f32,
    speeds: [u16; 2],
}

/// A session of a few gears with falling accelerations, whose runs mostly lie close together. In some sessions gears lack windows of
/// acceleration runs, of runs at constant speed, or of both, and a few have no acceleration run.
fn session(random: &mut Random) -> Vec<u8> {
    let vehicle = vehicle(random);
    let pmr = u32::from(vehicle.power) * 1000 / u32::from(vehicle.mass);
    // Gears about a_ref, so that each rule comes up; a PMR out of range has none.
    let reference = if (50..=6000).contains(&pmr) { reckoning::reference::a_ref(pmr) } else { 100 };
    let gears = random.pick(&[1, 1, 2, 2, 3, 4, 6, 16]);
    let step = random.pick(&[3, 10, 20, 40, 90]);
    let mut a = i64::from(reference) + random.between(-20, step * i64::from(gears));
    let lacking: &[u8] = match random.below(20) {
        0..3 => &[ACCELERATION],
        3..8 => &[CONSTANT],
        8 => &[ACCELERATION, CONSTANT],
        _ => &[],
    };
    let mut runs: Vec<Record> = Vec::new();
    for gear in 1..=gears {
        let level = random.between(6200, 7800) as f32 / 100.0;
        let speeds = speeds_for(a.clamp(0, 600) as u32, vehicle.path());
        runs.extend(runs_of(random, Group { kind: ACCELERATION, gear, level, speeds }, lacking));
        if random.chance(95) {
            let level = level - random.between(-20, 90) as f32 / 10.0;
            runs.extend(runs_of(random, Group { kind: CONSTANT, gear, level, speeds: [500, 500] }, lacking));
        }
        let least = if random.chance(5) { 0 } else { 1 };
        a -= random.between(least, step);
    }
    if random.chance(1) {
        runs.retain(|record| record[0] == CONSTANT);
    }
    if random.chance(30) {
        shuffle(random, &mut runs);
    }
    let after = if random.chance(40) { vehicle.before } else { backgrounds(random) };
    sheet(&vehicle, &runs, after)
}

/// The runs of a group: mostly too few or too far apart, if windows of its kind are lacking.
fn runs_of(random: &mut Random, group: Group, lacking: &[u8]) -> Vec<Record> {
    match random.below(10) {
        0..2 if lacking.contains(&group.kind) => too_few(random, group),
        2..6 if lacking.contains(&group.kind) => too_wide(random, group),
        _ => {
            let count = if random.chance(3) { 3 } else { random.pick(&[4, 4, 4, 5, 6, 8]) };
            some_runs(random, group, count)
        }
    }
}

/// At most three valid runs, with others among them in most groups.
fn too_few(random: &mut Random, group: Group) -> Vec<Record> {
    let (valid, others) = (random.below(4), random.pick(&[0, 1, 1, 3, 6, 20]));
    let mut runs = some_runs(random, group, valid + others);
    runs[valid..].iter_mut().for_each(|record| set_aside(random, record));
    shuffle(random, &mut runs);
    runs
}

/// Four runs or more, of which any four neighbours span 2.0 dB, the most that a window may, or more on one side. One of them may be
/// not valid, and a window may follow.
fn too_wide(random: &mut Random, group: Group) -> Vec<Record> {
    let Group { kind, gear, level, speeds } = group;
    let count = if random.chance(1) { 300 } else { random.pick(&WIDE_COUNTS) };
    let (side, every) = (random.below(2), random.pick(&[2, 3, 4]));
    let apart = random.pick(&[20, 21, 21, 22, 60]) as f32 / 10.0;
    let mut runs: Vec<Record> = (0..count)
        .map(|at| {
            let mut levels = [level; 2];
            levels[side] += if at % every == 0 { apart } else { 0.0 };
            run(kind, gear, levels, speeds)
        })
        .collect();
    if random.chance(20) {
        let at = random.below(count);
        set_aside(random, &mut runs[at]);
    }
    if random.chance(10) {
        runs.extend([run(kind, gear, [level; 2], speeds); 4]);
    }
    runs
}

fn some_runs(random: &mut Random, group: Group, count: usize) -> Vec<Record> {
    (0..count).map(|_| some_run(random, group)).collect()
}

fn some_run(random: &mut Random, group: Group) -> Record {
    let Group { kind, gear, level, speeds } = group;
    let spread = if random.chance(2) { 25 } else { 9 };
    let mut near = || {
        let step = random.between(-spread, spread) as f32 / 10.0;
        let eighths = random.pick(&[0.0, 0.0, 0.025, 0.05, 0.125]);
        level + step + eighths
    };
    let mut record = run(kind, gear, [near(), near()], speeds);
    match random.below(150) {
        0..3 => set_aside(random, &mut record),
        3 => put(&mut record, 20, random.between(0, 20_000) as u16),
        _ => {}
    }
    record
}

/// A run made one that is not valid: struck, overloaded, or without a reading.
fn set_aside(random: &mut Random, record: &mut Record) {
    match random.below(3) {
        0 => record[2] = 1,
        1 => record[3] = 2,
        _ => {
            record[4] = 0;
            record[12..16].fill(0);
        }
    }
}

fn shuffle(random: &mut Random, runs: &mut [Record]) {
    for at in (1..runs.len()).rev() {
        runs.swap(at, random.below(at + 1));
    }
}

/// A sheet with one to three changes.
fn damaged(random: &mut Random, mut sheet: Vec<u8>) -> Vec<u8> {
    for _ in 0..random.between(1, 3) {
        sheet = changed(random, sheet);
    }
    sheet
}

fn changed(random: &mut Random, mut sheet: Vec<u8>) -> Vec<u8> {
    if sheet.is_empty() {
        return vec![1];
    }
    let at = random.below(sheet.len());
    let record = at / RECORD * RECORD;
    let is_whole = record + RECORD <= sheet.len();
    match random.below(18) {
        0 => sheet[at] = random.next() as u8,
        1 => sheet[at] ^= 1 << random.below(8),
        2 => sheet.truncate(at),
        3 => sheet.truncate(record),
        4 if is_whole => moved_float(random, &mut sheet[record..], 8),
        5 | 6 if is_whole => moved_float(random, &mut sheet[record..], 12),
        7 if is_whole => {
            let other = random.below(sheet.len() / RECORD) * RECORD;
            for byte in 0..RECORD {
                sheet.swap(record + byte, other + byte);
            }
        }
        8 if is_whole => {
            let copy = sheet[record..record + RECORD].to_vec();
            sheet.splice(record..record, copy);
            recount(&mut sheet);
        }
        9 if is_whole && sheet.len() > 96 => {
            sheet.drain(record..record + RECORD);
            recount(&mut sheet);
        }
        10 if is_whole => sheet[record + 1] = random.below(18) as u8,
        11 if is_whole => sheet[record + 2 + random.below(3)] = random.below(4) as u8,
        12 | 13 if is_whole => {
            let place = record + random.pick(&[4, 6, 8, 10, 12, 14, 16, 18, 20]);
            let value = u16::from_le_bytes([sheet[place], sheet[place + 1]]);
            put(&mut sheet, place, value.wrapping_add(random.between(-40, 40) as u16));
        }
        14 if is_whole => sheet[record..record + RECORD].fill(0),
        15 if is_whole => other_background(random, &mut sheet),
        16 if is_whole => other_limit(random, &mut sheet),
        _ => sheet.extend((0..random.below(40)).map(|_| 0)),
    }
    sheet
}

/// A float of a run moved by some places, or set to one at an end of the range or outside of it.
fn moved_float(random: &mut Random, record: &mut [u8], at: usize) {
    let pattern = u32::from_le_bytes([record[at], record[at + 1], record[at + 2], record[at + 3]]);
    let moved = match random.below(8) {
        0 => random.pick(&[LOWEST - 1, LOWEST, HIGHEST, HIGHEST + 1, 0x7F80_0000, 0x7FC0_0000, 0x8000_0000, 1]),
        1 => random.between(LOWEST.into(), HIGHEST.into()) as u32,
        _ => pattern.wrapping_add(random.between(-200_000, 200_000) as u32),
    };
    record[at..at + 4].copy_from_slice(&moved.to_le_bytes());
}

/// A background of the first or the last record at an end of its range, outside of it, as it comes, or with its bytes swapped.
fn other_background(random: &mut Random, sheet: &mut [u8]) {
    let last = (sheet.len() / RECORD - 1) * RECORD;
    let place = random.pick(&[12, 18, last + 4, last + 6]);
    match random.below(8) {
        0..3 => sheet.swap(place, place + 1),
        3 => put(sheet, place, random.between(0, 1_000) as u16),
        _ => put(sheet, place, random.pick(&[0, 1, 999, 1_000, 1_001, u16::MAX])),
    }
}

/// The limit of the first record at an end of its range, outside of it or looked up, the two bytes after it small or as they come,
/// and at times the other category.
fn other_limit(random: &mut Random, sheet: &mut [u8]) {
    if random.chance(10) {
        sheet[1] = random.pick(&[M1, N1]);
    }
    if random.chance(80) {
        put(sheet, 14, random.pick(&[0, 0, 0, 0, 1, 49, 50, 100, 101, 256]));
    }
    match random.below(8) {
        0 => sheet[16] = random.next() as u8,
        1 => sheet[17] = random.next() as u8,
        2 => {}
        _ => sheet[16..18].copy_from_slice(&[random.below(5) as u8, random.below(3) as u8]),
    }
}

/// The closing record's number of runs set right.
fn recount(sheet: &mut [u8]) {
    let records = sheet.len() / RECORD;
    put(sheet, (records - 1) * RECORD + 2, records.saturating_sub(2) as u16);
}
