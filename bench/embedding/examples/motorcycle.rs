//! Prints the mean of the four levels that its arguments are, 1 and 2 left, 3 and 4 right, with its verdict against the limit
//! after them in whole dB, or the refusal.

use std::{env, error::Error};

fn main() -> Result<(), Box<dyn Error>> {
    let words: Vec<String> = env::args().skip(1).collect();
    let [one, two, three, four, limit] = &words[..] else {
        return Err("usage: motorcycle LEVEL LEVEL LEVEL LEVEL LIMIT".into());
    };
    let levels = [one.parse()?, two.parse()?, three.parse()?, four.parse()?];
    match ruthimpo::motorcycle(levels, limit.parse()?) {
        Ok(mean) => {
            let decibels = f32::from(mean.quarters) / 4.0;
            println!("mean {decibels:.2} dB: {}", if mean.passes { "pass" } else { "fail" });
        }
        Err(refusal) => println!("{refusal}"),
    }
    Ok(())
}
