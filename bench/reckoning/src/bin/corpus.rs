//! Reads a file of sheets, each after its length in four bytes, and prints the line of each.

use std::io::{self, BufWriter, Write};
use std::{env, fs};

const END: u32 = u32::MAX;

fn main() -> io::Result<()> {
    let path = env::args().nth(1).ok_or_else(|| io::Error::other("usage: corpus sheets.bin"))?;
    let content = fs::read(path)?;
    let mut output = BufWriter::new(io::stdout().lock());
    let mut rest = &content[..];
    while let Some((sheet, after)) = next_sheet(rest)? {
        writeln!(output, "{}", reckoning::line(sheet))?;
        rest = after;
    }
    output.flush()
}

/// The next sheet and what follows it; None at the end mark.
fn next_sheet(content: &[u8]) -> io::Result<Option<(&[u8], &[u8])>> {
    let (length, rest) = content.split_first_chunk().ok_or(io::ErrorKind::UnexpectedEof)?;
    match u32::from_le_bytes(*length) {
        END => Ok(None),
        length => match rest.split_at_checked(length as usize) {
            Some(parts) => Ok(Some(parts)),
            None => Err(io::ErrorKind::UnexpectedEof.into()),
        },
    }
}
