//! Production checks (document 02, wish 11; document 001, annex 7, 3, and 8.1).

use crate::Refusal;

/// By how much a car may exceed the limit, in whole dB.
const TOLERANCE: u32 = 1;

#[derive(Clone, Copy, Debug, PartialEq, Eq)]
pub enum Status {
    Open,
    Conforms,
    DoesNotConform,
}

/// Where a check stands: its status, the cars still wanted, and the answer to the last car.
#[derive(Clone, Copy, Debug, PartialEq, Eq)]
pub struct Standing {
    pub status: Status,
    pub wanted: u8,
    pub answer: Result<(), Refusal>,
}

/// The check against a limit once all these cars were offered, each by its L_urban.
pub fn production(limit: u16, cars: &[u16]) -> Standing {
    let meets = |car: u16| u32::from(car) <= u32::from(limit) + TOLERANCE;
    match *cars {
        [] => open(1),
        [first, ref late @ ..] if meets(first) => verdict(Status::Conforms, 1, late),
        [_] => open(2),
        [_, _] => open(1),
        [_, second, third, ref late @ ..] if meets(second) && meets(third) => verdict(Status::Conforms, 3, late),
        [_, _, _, ref late @ ..] => verdict(Status::DoesNotConform, 3, late),
    }
}

fn open(wanted: u8) -> Standing {
    Standing { status: Status::Open, wanted, answer: Ok(()) }
}

/// A verdict on so many cars. It stays as it is, and any later car is refused.
fn verdict(status: Status, counted: u32, late: &[u16]) -> Standing {
    let answer = if late.is_empty() { Ok(()) } else { Err((20, counted)) };
    Standing { status, wanted: 0, answer }
}
