//! Sheets of a given number of records and gears, for the speed table.

use crate::sheets::{run, sheet, speeds_for, Record, ACCELERATION, CONSTANT, WORKED};

/// Where the first window of each gear and run kind stands among its runs.
#[derive(Clone, Copy)]
pub enum Place {
    First,
    Last,
}

/// A sheet of so many records and gears, whose rules choose a pair. The runs of all gears and both kinds are interleaved.
pub fn session(records: usize, gears: usize, place: Place) -> Vec<u8> {
    // a_ref is 1.49: the pair is 1.60 and 1.40, each too far from it to be chosen alone.
    let highest = 160 + 20 * (gears as u32 / 2 - 1);
    let pair = [gears as u8 / 2, gears as u8 / 2 + 1];
    let mut groups: Vec<(u8, u8, [u16; 2])> = (0..gears as u32)
        .map(|at| (ACCELERATION, at as u8 + 1, speeds_for(highest - 20 * at, WORKED.path())))
        .collect();
    groups.extend(pair.map(|gear| (CONSTANT, gear, [500, 500])));
    let runs = records - 2;
    let turns = runs.div_ceil(groups.len());
    let record = |at: usize| -> Record {
        let ((kind, gear, speeds), turn) = (groups[at % groups.len()], at / groups.len());
        let of_group = turns - usize::from(runs % groups.len() != 0 && at % groups.len() >= runs % groups.len());
        let is_loud = match place {
            Place::First => false,
            Place::Last => turn + 4 < of_group && turn % 2 == 0,
        };
        let level = if is_loud { 75.0 } else { 71.3 };
        run(kind, gear, [level, level - 0.6], speeds)
    };
    sheet(&WORKED, &(0..runs).map(record).collect::<Vec<Record>>(), WORKED.before)
}
