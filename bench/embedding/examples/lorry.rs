//! Prints the test mass of a lorry with its band and the load, or the refusal. The arguments are the power in kW, with one decimal
//! or none, and in whole kg the unladen loads of the front and the rear axle and the rear axle's maximum; for a lorry of more than
//! two axles these are its two-axle stand-in's, and its own unladen mass comes after them.

use ruthimpo::{lorry_more_axles, lorry_two_axles, Masses, Refusal, TwoAxles};
use std::{env, error::Error};

/// A 16-bit number in digits; `parse` alone would take a plus too.
fn number(word: &str) -> Option<u16> {
    word.parse().ok().filter(|_| !word.starts_with('+'))
}

/// kW with one decimal or none, in tenths.
fn tenths(word: &str) -> Option<u16> {
    let (whole, decimal) = word.split_once('.').unwrap_or((word, "0"));
    let tenth = number(decimal).filter(|_| decimal.len() == 1)?;
    number(whole)?.checked_mul(10)?.checked_add(tenth)
}

/// What the library answers, or nothing if these are no arguments for it.
fn answer(words: &[String]) -> Option<Result<Masses, Refusal>> {
    let (power, masses) = words.split_first()?;
    let power = tenths(power)?;
    let masses = masses.iter().map(|word| number(word)).collect::<Option<Vec<u16>>>()?;
    match masses[..] {
        [front, rear, rear_max] => Some(lorry_two_axles(TwoAxles { power, front, rear, rear_max })),
        [front, rear, rear_max, own] => Some(lorry_more_axles(TwoAxles { power, front, rear, rear_max }, own)),
        _ => None,
    }
}

/// Ten-thousandths of a kg in kg, with the decimals that they need.
fn kg(mass: u64) -> String {
    let digits = format!("{}.{:04}", mass / 10_000, mass % 10_000);
    digits.trim_end_matches('0').trim_end_matches('.').into()
}

fn main() -> Result<(), Box<dyn Error>> {
    let words: Vec<String> = env::args().skip(1).collect();
    match answer(&words).ok_or("usage: lorry POWER FRONT REAR REAR_MAX [OWN]")? {
        Ok(Masses { mass, load, lowest, highest }) => {
            println!("test mass {} kg ({} to {}), load {} kg", kg(mass), kg(lowest), kg(highest), kg(load));
        }
        Err(refusal) => println!("{refusal}"),
    }
    Ok(())
}
