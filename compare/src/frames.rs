//! Flows in one file, each after a line of 48 bytes: its name in 40
//! characters, a space, its length in six digits and LF. LF follows the flow.
//! Those of calls with numbers stand after a line of 153 bytes, with five
//! numbers in 20 digits between name and length, each after a space.

use std::fs;
use std::io::{self, Write};

pub const HEADER: usize = 48;

pub fn write(out: &mut impl Write, name: &str, flow: &[u8]) -> io::Result<()> {
    writeln!(out, "{name:<40} {:06}", flow.len())?;
    out.write_all(flow)?;
    out.write_all(b"\n")
}

/// The same of a call with these numbers, on a flow or on a sheet.
pub fn write_call(out: &mut impl Write, name: &str, numbers: [u64; 5], bytes: &[u8]) -> io::Result<()> {
    let numbers = numbers.map(|number| format!("{number:020}")).join(" ");
    writeln!(out, "{name:<40} {numbers} {:06}", bytes.len())?;
    out.write_all(bytes)?;
    out.write_all(b"\n")
}

/// The same of a call with one number, and behind it the bytes that the flow or the
/// room has after the call, and LF.
pub fn write_changed(out: &mut impl Write, name: &str, number: u64, bytes: &[u8], after: &[u8]) -> io::Result<()> {
    write_call(out, name, [number, 0, 0, 0, 0], bytes)?;
    out.write_all(after)?;
    out.write_all(b"\n")
}

/// A list of numbers, each in 20 digits with a space behind it, and LF.
pub fn write_list(out: &mut impl Write, numbers: &[u64]) -> io::Result<()> {
    for number in numbers {
        write!(out, "{number:020} ")?;
    }
    out.write_all(b"\n")
}

/// Writes the frames of so many flows, sheets or calls to one file and the lines that
/// are printed for them to another, and says how long they are.
pub fn save([data_to, stdout_to]: [&str; 2], data: &[u8], lines: &[u8], written: u64, what: &str) -> io::Result<()> {
    fs::write(data_to, data)?;
    fs::write(stdout_to, lines)?;
    println!("{written} {what}, {} bytes; {} bytes of answers", data.len(), lines.len());
    Ok(())
}

/// An error where the frames of so many flows, sheets or calls have become too long.
pub fn within(most: usize, frames: &[u8], written: u64, what: &str) -> io::Result<()> {
    if frames.len() <= most {
        return Ok(());
    }
    let message = format!("{written} {what} are more than {most} bytes: ask for fewer");
    Err(io::Error::new(io::ErrorKind::InvalidInput, message))
}

/// The name and the bytes of each flow.
pub fn read(mut frames: &[u8]) -> Option<Vec<(String, &[u8])>> {
    let mut all = Vec::new();
    while !frames.is_empty() {
        let header = std::str::from_utf8(frames.get(..HEADER)?).ok()?;
        let (name, length) = header.strip_suffix('\n')?.rsplit_once(' ')?;
        let end = HEADER + length.parse::<usize>().ok()?;
        all.push((name.trim_end().to_string(), frames.get(HEADER..end)?));
        frames = frames.get(end..)?.strip_prefix(b"\n")?;
    }
    Some(all)
}
