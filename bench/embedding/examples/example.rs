//! Reads the sheet that its argument names, and prints L_urban with its verdict, or the refusal, and the line of the
//! evaluation program.

use ruthimpo::RESULT_BYTES;
use std::{env, fs, io};

fn main() -> io::Result<()> {
    let path = env::args().nth(1).ok_or_else(|| io::Error::other("usage: example SHEET"))?;
    let sheet = fs::read(path)?;
    let mut result = [0; RESULT_BYTES];
    match ruthimpo::evaluate(&sheet, &mut result) {
        Ok(()) => {
            let l_urban = u16::from_le_bytes([result[10], result[11]]);
            println!("L_urban {l_urban} dB(A): {}", if result[5] == 1 { "pass" } else { "fail" });
        }
        Err(refusal) => println!("{refusal}"),
    }
    print!("{}", ruthimpo::line(&sheet));
    Ok(())
}
