//! Follows a production check. The arguments are the limit and the L_urban of each car, in whole dB; prints the status after each
//! car, or the refusal.

use ruthimpo::{ProductionCheck, Status};
use std::{env, error::Error};

fn main() -> Result<(), Box<dyn Error>> {
    let numbers = env::args().skip(1).map(|word| word.parse()).collect::<Result<Vec<u16>, _>>()?;
    let [limit, cars @ ..] = &numbers[..] else {
        return Err("usage: production LIMIT [L_URBAN ...]".into());
    };
    let mut check = ProductionCheck::start(*limit);
    for &l_urban in cars {
        match check.offer(l_urban).and_then(|()| check.status()) {
            Ok((Status::Open, wanted)) => println!("{l_urban} dB: open, {wanted} more wanted"),
            Ok((Status::Conforms, _)) => println!("{l_urban} dB: conforms"),
            Ok((Status::DoesNotConform, _)) => println!("{l_urban} dB: does not conform"),
            Err(refusal) => println!("{l_urban} dB: {refusal}"),
        }
    }
    Ok(())
}
