//! The gear rules (document 01, "Gears").

use crate::Refusal;

/// 3.00 m/s² in hundredths.
const CEILING: u32 = 300;

/// A remaining gear, its acceleration and its level in the acceleration window.
#[derive(Clone, Copy)]
pub struct Gear {
    pub gear: u8,
    pub a: u32,
    pub level: u32,
}

pub struct Choice {
    pub rule: u8,
    pub i: Gear,
    pub j: Option<Gear>,
}

/// Refusal 8.
pub fn check_falling(gears: &[Gear]) -> Result<(), Refusal> {
    match gears.windows(2).find(|pair| pair[0].a <= pair[1].a) {
        Some(pair) => Err((8, pair[0].gear.into())),
        None => Ok(()),
    }
}

/// Rules 1 to 5 over gears whose accelerations fall; None is refusal 9.
pub fn choose(gears: &[Gear], a_ref: u32, a_urban: u32) -> Option<Choice> {
    let alone = |rule, gear: &Gear| Some(Choice { rule, i: *gear, j: None });
    if let [only] = gears {
        return alone(1, only);
    }
    let near = |gear: &&Gear| 20 * gear.a.abs_diff(a_ref) <= a_ref && gear.a <= CEILING;
    if let Some(nearest) = gears.iter().filter(near).min_by_key(|gear| gear.a.abs_diff(a_ref)) {
        return alone(2, nearest);
    }
    let at = gears.iter().rposition(|gear| gear.a >= a_ref)?;
    let (i, j) = (gears[at], *gears.get(at + 1)?);
    if i.a <= CEILING {
        Some(Choice { rule: 3, i, j: Some(j) })
    } else if j.a >= a_urban {
        alone(4, gears.iter().find(|gear| gear.a < CEILING)?)
    } else {
        Some(Choice { rule: 5, i, j: Some(j) })
    }
}
