//! The F24 EP form on the command line, and framed cases of it.

use super::broken;
use super::f24::{judge_ep, EpSummary, Refusal};
use std::io::{self, Write};

/// Prints the judgement of some records.
pub fn one(out: &mut impl Write, records: &[u8]) -> io::Result<()> {
    print(out, judge_ep(records))
}

fn print(out: &mut impl Write, answer: Result<EpSummary, Refusal>) -> io::Result<()> {
    match answer {
        Ok(EpSummary { payments, total }) => writeln!(out, "ACCEPTED {payments} {total}"),
        Err(refusal) => writeln!(out, "{refusal}"),
    }
}

/// Judges framed records, each printed after a line with its name.
pub fn answer(out: &mut impl Write, mut frames: &[u8]) -> io::Result<()> {
    while !frames.is_empty() {
        let (name, records, rest) = split(frames).ok_or_else(|| broken(frames))?;
        writeln!(out, "{name}")?;
        one(out, records)?;
        frames = rest;
    }
    Ok(())
}

/// Splits a line of 48 bytes, with the name in 40 characters, a space and the length
/// in six digits; that many bytes and LF; and what comes after.
fn split(frames: &[u8]) -> Option<(&str, &[u8], &[u8])> {
    let (header, rest) = (frames.get(..48)?, frames.get(48..)?);
    let header = std::str::from_utf8(header).ok()?.strip_suffix('\n')?;
    let length = header.get(40..)?.strip_prefix(' ')?;
    let digits = length.bytes().all(|byte| byte.is_ascii_digit());
    let length: usize = length.parse().ok().filter(|_| digits)?;
    let records = rest.get(..length)?;
    let rest = rest[length..].strip_prefix(b"\n")?;
    Some((header.get(..40)?.trim_end(), records, rest))
}

#[cfg(test)]
mod tests {
    use super::*;

    fn answered(text: &[u8]) -> String {
        let mut out = Vec::new();
        answer(&mut out, text).unwrap();
        String::from_utf8(out).unwrap()
    }

    /// An M with a V of no rows and a balance of zero.
    fn nothing_due() -> String {
        let payment = format!("{:<1872}0,00", "M");
        let form = format!("{:<1787}{:015}", "V", 0);
        format!("{payment:<1900}{form:<1900}")
    }

    #[test]
    fn framed_cases_print_name_and_answer() {
        let sound = nothing_due();
        let frames = format!("{:<40} 003800\n{sound}\n{:<40} 000000\n\n", "sound", "none");
        assert_eq!(
            answered(frames.as_bytes()),
            "sound\nACCEPTED 1 0\nnone\nREFUSED 30 0 0\n"
        );
        let alone = format!("{:<40} 001900\n{}\n", "m-alone", &sound[..1900]);
        assert_eq!(answered(alone.as_bytes()), "m-alone\nREFUSED 31 2 0\n");
        for length in 1..alone.len() {
            assert!(answer(&mut Vec::new(), &alone.as_bytes()[..length]).is_err());
        }
    }

    #[test]
    fn a_length_is_six_digits() {
        for length in ["    00", "+00000", "-00000", "00000x", "000001"] {
            let frame = format!("{:<40} {length}\n\n", "case");
            assert!(
                answer(&mut Vec::new(), frame.as_bytes()).is_err(),
                "{length}"
            );
        }
        let moved = format!("{:<41}000000\n\n", "case");
        assert_eq!(answered(moved.as_bytes()), "case\nREFUSED 30 0 0\n");
        let long = format!("{:<41}000000\n\n", "c".repeat(41));
        assert!(answer(&mut Vec::new(), long.as_bytes()).is_err());
    }
}
