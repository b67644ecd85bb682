//! Reads a sheet on standard input and prints its line.

use std::io::{self, Read};

fn main() -> io::Result<()> {
    let mut sheet = Vec::new();
    io::stdin().read_to_end(&mut sheet)?;
    println!("{}", reckoning::line(&sheet));
    Ok(())
}
