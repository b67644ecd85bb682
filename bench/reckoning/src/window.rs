//! Valid runs and windows (document 01, "From levels to windows"; document 02, wishes 2, 5 and 8).

use crate::sheet::{Background, Reading, Run, RunKind, Session};
use crate::{rounded, Refusal};

/// Tenths taken off, by the whole decibels from 10 on.
const CORRECTIONS: [i32; 6] = [5, 4, 3, 2, 1, 0];
const LOWEST_DIFFERENCE: i32 = 100;
const WIDEST_SPAN: i32 = 20;

/// A valid run: corrected levels in tenths, speeds and engine speed.
#[derive(Clone, Copy)]
pub struct ValidRun {
    left: i32,
    right: i32,
    start_speed: u16,
    end_speed: u16,
    engine_speed: u16,
}

impl ValidRun {
    /// Step 3, each side by its own background.
    fn of(run: &Run, background: Background) -> Option<ValidRun> {
        match (run.struck, run.left, run.right) {
            (false, Reading::Level(left), Reading::Level(right)) => Some(ValidRun {
                left: corrected(left, background.left)?,
                right: corrected(right, background.right)?,
                start_speed: run.start_speed,
                end_speed: run.end_speed,
                engine_speed: run.engine_speed,
            }),
            _ => None,
        }
    }

    /// Step 6, in hundredths; `distance` is c + length.
    fn acceleration(&self, distance: u32) -> u32 {
        let square = |speed: u16| u32::from(speed).pow(2);
        rounded(625 * (square(self.end_speed) - square(self.start_speed)), 162 * distance)
    }
}

/// Step 2: the corrected level, if d is at least 10.0. Its correction is that of the whole decibel nearest to d.
fn corrected(level: i32, background: i32) -> Option<i32> {
    let d = level - background;
    if d < LOWEST_DIFFERENCE {
        return None;
    }
    let nearest = rounded(d as u32, 10) as usize;
    let off = CORRECTIONS.get(nearest - 10).unwrap_or(&0);
    Some(level - off)
}

fn span(four: &[ValidRun], side: impl Fn(&ValidRun) -> i32) -> i32 {
    let (lowest, highest) =
        four.iter().map(side).fold((i32::MAX, i32::MIN), |(low, high), level| (low.min(level), high.max(level)));
    highest - lowest
}

/// Why there is no window: fewer than four valid runs, or no four neighbours within the span.
enum Shortage {
    TooFew,
    TooWide,
}

/// Four neighbouring valid runs of one gear and run kind.
#[derive(Clone, Copy)]
pub struct Window<'a>(&'a [ValidRun]);

impl<'a> Window<'a> {
    /// Step 4: the first window.
    fn first(runs: &'a [ValidRun]) -> Result<Window<'a>, Shortage> {
        if runs.len() < 4 {
            return Err(Shortage::TooFew);
        }
        let is_window = |four: &&[ValidRun]| {
            span(four, |run| run.left) <= WIDEST_SPAN && span(four, |run| run.right) <= WIDEST_SPAN
        };
        runs.windows(4).find(is_window).map(Window).ok_or(Shortage::TooWide)
    }

    /// Step 5, in tenths.
    pub fn level(&self) -> u32 {
        let left: i32 = self.0.iter().map(|run| run.left).sum();
        let right: i32 = self.0.iter().map(|run| run.right).sum();
        rounded(left.max(right) as u32, 4)
    }

    /// Step 6, last sentence.
    pub fn acceleration(&self, distance: u32) -> u32 {
        rounded(self.0.iter().map(|run| run.acceleration(distance)).sum(), 4)
    }

    pub fn exceeds(&self, rated_speed: u16) -> bool {
        self.0.iter().any(|run| run.engine_speed > rated_speed)
    }
}

/// The valid runs of each gear and run kind, in the sheet's order.
#[derive(Default)]
pub struct RunsByGear {
    acceleration: [Vec<ValidRun>; 16],
    constant: [Vec<ValidRun>; 16],
    driven: [bool; 16],
}

impl RunsByGear {
    pub fn of(session: &Session) -> RunsByGear {
        let mut grouped = RunsByGear::default();
        for run in &session.runs {
            let gear = usize::from(run.gear) - 1;
            let group = match run.kind {
                RunKind::Acceleration => {
                    grouped.driven[gear] = true;
                    &mut grouped.acceleration[gear]
                }
                RunKind::Constant => &mut grouped.constant[gear],
            };
            group.extend(ValidRun::of(run, session.background));
        }
        grouped
    }

    /// The gears with an acceleration run, valid or not, in rising number.
    pub fn driven(&self) -> impl Iterator<Item = u8> + '_ {
        (1..=16).filter(|&gear| self.driven[usize::from(gear) - 1])
    }

    /// Refusal 7 or 14, or the window.
    pub fn acceleration_window(&self, gear: u8) -> Result<Window<'_>, Refusal> {
        Window::first(&self.acceleration[usize::from(gear) - 1]).map_err(|shortage| match shortage {
            Shortage::TooFew => (7, gear.into()),
            Shortage::TooWide => (14, gear.into()),
        })
    }

    /// Refusal 10 or 15, or the window.
    pub fn constant_window(&self, gear: u8) -> Result<Window<'_>, Refusal> {
        Window::first(&self.constant[usize::from(gear) - 1]).map_err(|shortage| match shortage {
            Shortage::TooFew => (10, gear.into()),
            Shortage::TooWide => (15, gear.into()),
        })
    }
}
