//! The command line of the reference judge.

mod drop_cases;
mod ep_cases;
#[path = "lib.rs"]
mod f24;
mod keep_cases;
mod portion_cases;
mod rebalance_cases;

use f24::{DelegaSummary, Refusal, Summary};
use std::ffi::OsString;
use std::fs::{self, File};
use std::io::{self, BufWriter, Read, Write};
use std::process::ExitCode;

const USAGE: &str = "usage:
  reference judge [FILE|-]
  reference portion FILE PORTION
  reference delega FILE NUMBER
  reference find FILE DELEGA SUBTYPE PLACE
  reference correct FILE DELEGA SUBTYPE PLACE DEBIT CREDIT [OUT]
  reference write SHEET [OUT]
  reference rebalance FILE [OUT]
  reference drop FILE OUT NUMBER..
  reference ep [FILE|-]
  reference batch FILE
  reference sheets FILE
  reference portions FILE
  reference rebalances FILE
  reference drops FILE
  reference keeps FILE
  reference eps FILE";

/// "reads standard input, up to 65,521 bytes": one more than a flow may have.
const MOST_READ: u64 = 65_521;

/// One byte more than the records of an F24 EP form may have.
const MOST_READ_EP: u64 = f24::MOST_EP_BYTES as u64 + 1;

/// The room that is lent for a flow, the longest there is.
const ROOM: usize = 65_520;

/// Ends with 0 when the answer is printed, a refusal included, else with 2.
fn main() -> ExitCode {
    let arguments: Result<Vec<String>, _> = std::env::args_os()
        .skip(1)
        .map(OsString::into_string)
        .collect();
    let words: Vec<&str> = match &arguments {
        Ok(words) => words.iter().map(String::as_str).collect(),
        Err(_) => Vec::new(),
    };
    let mut out = BufWriter::new(io::stdout());
    match run(&words, &mut out).and_then(|()| out.flush()) {
        Ok(()) => ExitCode::SUCCESS,
        Err(error) => {
            eprintln!("{error}");
            ExitCode::from(2)
        }
    }
}

fn run(words: &[&str], out: &mut impl Write) -> io::Result<()> {
    match *words {
        ["judge"] => print_judgement(out, f24::judge(&read_flow("-")?)),
        ["judge", file] => print_judgement(out, f24::judge(&read_flow(file)?)),
        ["portion", file, portion] => {
            let portion = number(portion)?;
            portion_cases::series(out, &read_flow(file)?, portion)
        }
        ["delega", file, delega] => {
            let delega = number(delega)?;
            print_delega(out, delega, f24::delega(&read_flow(file)?, delega))
        }
        ["find", file, delega, subtype, place] => {
            let (delega, subtype, place) = (number(delega)?, number(subtype)?, number(place)?);
            match f24::find(&read_flow(file)?, delega, subtype, place) {
                Ok(record) => writeln!(out, "LINE {record}"),
                Err(refusal) => writeln!(out, "{refusal}"),
            }
        }
        ["correct", file, delega, subtype, place, debit, credit] => {
            correct(out, file, [delega, subtype, place, debit, credit], "-")
        }
        ["correct", file, delega, subtype, place, debit, credit, to] => {
            correct(out, file, [delega, subtype, place, debit, credit], to)
        }
        ["write", sheet] => write(out, sheet, "-"),
        ["write", sheet, to] => write(out, sheet, to),
        ["rebalance", file] => rebalance_cases::one(out, &mut read_flow(file)?).map(drop),
        ["rebalance", file, to] => {
            let mut flow = read_flow(file)?;
            match rebalance_cases::one(out, &mut flow)? {
                true => fs::write(to, &flow),
                false => Ok(()),
            }
        }
        ["drop", file, to, ref numbers @ ..] if !numbers.is_empty() => {
            drop_cases::one(out, file, to, numbers)
        }
        ["ep"] => ep_cases::one(out, &read("-", MOST_READ_EP)?),
        ["ep", file] => ep_cases::one(out, &read(file, MOST_READ_EP)?),
        ["batch", file] => batch(out, &read(file, u64::MAX)?),
        ["sheets", file] => sheets(out, &read(file, u64::MAX)?),
        ["portions", file] => portion_cases::answer(out, &read(file, u64::MAX)?),
        ["rebalances", file] => rebalance_cases::answer(out, &read(file, u64::MAX)?),
        ["drops", file] => drop_cases::answer(out, &read(file, u64::MAX)?),
        ["keeps", file] => keep_cases::answer(out, &read(file, u64::MAX)?),
        ["eps", file] => ep_cases::answer(out, &read(file, u64::MAX)?),
        _ => Err(io::Error::new(io::ErrorKind::InvalidInput, USAGE)),
    }
}

/// Writes the corrected flow to the file `to`, or a refusal to `out`.
fn correct(out: &mut impl Write, file: &str, words: [&str; 5], to: &str) -> io::Result<()> {
    let mut numbers = [0; 5];
    for (value, word) in numbers.iter_mut().zip(words) {
        *value = number(word)?;
    }
    let [delega, subtype, place, debit, credit] = numbers;

    let mut flow = read_flow(file)?;
    match f24::correct(&mut flow, delega, subtype, place, debit, credit) {
        Ok(()) if to == "-" => out.write_all(&flow),
        Ok(()) => fs::write(to, &flow),
        Err(refusal) => writeln!(out, "{refusal}"),
    }
}

/// Writes the flow of a sheet to the file `to`, or a refusal to `out`.
fn write(out: &mut impl Write, sheet: &str, to: &str) -> io::Result<()> {
    let mut room = vec![0; ROOM];
    match f24::write(&read(sheet, u64::MAX)?, &mut room) {
        Ok(length) if to == "-" => out.write_all(&room[..length]),
        Ok(length) => fs::write(to, &room[..length]),
        Err(refusal) => writeln!(out, "{refusal}"),
    }
}

fn broken(frames: &[u8]) -> io::Error {
    let message = format!("broken frame {} bytes before the end", frames.len());
    io::Error::new(io::ErrorKind::InvalidData, message)
}

/// Writes the flows of framed sheets: after a line with the name, the length
/// or the refusal, whether the room is as expected, and the judgement.
fn sheets(out: &mut impl Write, mut frames: &[u8]) -> io::Result<()> {
    while !frames.is_empty() {
        let (name, sheet, expected, rest) = split_sheet(frames).ok_or_else(|| broken(frames))?;
        let mut room: Vec<u8> = (0..expected.len()).map(|at| 33 + (at % 90) as u8).collect();
        let answer = f24::write(sheet, &mut room);
        writeln!(out, "{name}")?;
        match &answer {
            Ok(length) => writeln!(out, "WRITTEN {length}")?,
            Err(refusal) => writeln!(out, "{refusal}")?,
        }
        let same = room == expected;
        writeln!(out, "{}", if same { "SAME" } else { "DIFFERENT" })?;
        if let Ok(length) = answer {
            print_judgement(out, f24::judge(&room[..length]))?;
        }
        frames = rest;
    }
    Ok(())
}

/// Splits a line of 153 bytes, with the name in 40 characters, the room's
/// length in 20 digits, four other numbers and the sheet's length in six; the
/// sheet, LF, the bytes expected in the room, LF; and what comes after.
fn split_sheet(frames: &[u8]) -> Option<(&str, &[u8], &[u8], &[u8])> {
    let (header, rest) = (frames.get(..153)?, frames.get(153..)?);
    let header = std::str::from_utf8(header).ok()?.strip_suffix('\n')?;
    let room: usize = header.get(41..61)?.parse().ok()?;
    let length: usize = header.get(146..152)?.parse().ok()?;
    let sheet = rest.get(..length)?;
    let rest = rest[length..].strip_prefix(b"\n")?;
    let expected = rest.get(..room)?;
    let rest = rest[room..].strip_prefix(b"\n")?;
    Some((header.get(..40)?.trim_end(), sheet, expected, rest))
}

/// Judges framed flows, each printed after a line with its name.
fn batch(out: &mut impl Write, mut frames: &[u8]) -> io::Result<()> {
    while !frames.is_empty() {
        let (name, flow, rest) = split_frame(frames).ok_or_else(|| broken(frames))?;
        out.write_all(name)?;
        out.write_all(b"\n")?;
        print_judgement(out, f24::judge(flow))?;
        frames = rest;
    }
    Ok(())
}

/// Splits `name length\n`, that many bytes and `\n` from what comes after.
fn split_frame(frames: &[u8]) -> Option<(&[u8], &[u8], &[u8])> {
    let end = frames.iter().position(|&byte| byte == b'\n')?;
    let (header, rest) = (&frames[..end], &frames[end + 1..]);
    let space = header.iter().position(|&byte| byte == b' ')?;
    let (name, length) = (&header[..space], &header[space + 1..]);
    let length = std::str::from_utf8(length)
        .ok()?
        .trim_start()
        .parse()
        .ok()?;
    let flow = rest.get(..length)?;
    let rest = rest[length..].strip_prefix(b"\n")?;
    Some((name, flow, rest))
}

fn print_judgement(out: &mut impl Write, answer: Result<Summary, Refusal>) -> io::Result<()> {
    match answer {
        Ok(summary) => {
            let Summary {
                deleghe,
                records,
                total,
                lines,
                sums,
            } = summary;
            writeln!(out, "ACCEPTED {deleghe} {records} {total} {lines}")?;
            print_sections(out, &sums)
        }
        Err(refusal) => writeln!(out, "{refusal}"),
    }
}

fn print_delega(
    out: &mut impl Write,
    number: u64,
    answer: Result<DelegaSummary, Refusal>,
) -> io::Result<()> {
    match answer {
        Ok(summary) => {
            let DelegaSummary {
                final_balance,
                lines,
                set,
                size,
                sums,
            } = summary;
            writeln!(out, "DELEGA {number} {final_balance} {lines} {set} {size}")?;
            print_sections(out, &sums)
        }
        Err(refusal) => writeln!(out, "{refusal}"),
    }
}

/// "per section, the line's subtype in two digits, debit sum, credit sum"
fn print_sections(out: &mut impl Write, sums: &[(u64, u64); 5]) -> io::Result<()> {
    for (subtype, (debit, credit)) in ["01", "03", "05", "07", "17"].iter().zip(sums) {
        writeln!(out, "{subtype} {debit} {credit}")?;
    }
    Ok(())
}

fn read_flow(file: &str) -> io::Result<Vec<u8>> {
    read(file, MOST_READ)
}

/// Reads at most `most` bytes of a file, or of standard input for `-`.
fn read(file: &str, most: u64) -> io::Result<Vec<u8>> {
    let mut bytes = Vec::new();
    if file == "-" {
        io::stdin().lock().take(most).read_to_end(&mut bytes)?;
    } else {
        File::open(file)?.take(most).read_to_end(&mut bytes)?;
    }
    Ok(bytes)
}

fn number(word: &str) -> io::Result<u64> {
    word.parse()
        .map_err(|error| io::Error::new(io::ErrorKind::InvalidInput, format!("{word}: {error}")))
}

#[cfg(test)]
mod tests {
    use super::*;

    fn printed(answer: Result<Summary, Refusal>) -> String {
        let mut out = Vec::new();
        print_judgement(&mut out, answer).unwrap();
        String::from_utf8(out).unwrap()
    }

    #[test]
    fn an_accepted_flow_prints_six_lines() {
        let summary = Summary {
            deleghe: 1,
            records: 8,
            total: 7500,
            lines: 2,
            sums: [(0, 0), (0, 0), (10000, 2500), (0, 0), (0, 0)],
        };
        assert_eq!(
            printed(Ok(summary)),
            "ACCEPTED 1 8 7500 2\n01 0 0\n03 0 0\n05 10000 2500\n07 0 0\n17 0 0\n"
        );
    }

    #[test]
    fn empty_input_prints_one_line() {
        assert_eq!(printed(f24::judge(b"")), "REFUSED 2 0 0\n");
    }

    #[test]
    fn a_delega_prints_six_lines() {
        let sums = [(1, 2), (3, 4), (5, 6), (7, 8), (9, 0)];
        let mut out = Vec::new();
        print_delega(
            &mut out,
            12,
            Ok(DelegaSummary {
                final_balance: 5,
                lines: 7,
                set: 9,
                size: 2,
                sums,
            }),
        )
        .unwrap();
        assert_eq!(
            out,
            b"DELEGA 12 5 7 9 2\n01 1 2\n03 3 4\n05 5 6\n07 7 8\n17 9 0\n"
        );
    }

    #[test]
    fn a_batch_prints_each_name_and_answer() {
        let mut out = Vec::new();
        batch(&mut out, b"empty 0\n\nends 2\n\n\n\n").unwrap();
        assert_eq!(out, b"empty\nREFUSED 2 0 0\nends\nREFUSED 2 0 0\n");
    }

    #[test]
    fn framed_sheets_print_answer_and_room() {
        let frame = |expected: &str| {
            let numbers = format!("{:020} {:020} {:020} {:020} {:020}", 3, 0, 0, 0, 0);
            format!("{:<40} {numbers} {:06}\nab\n{expected}\n", "short", 2)
        };
        let mut out = Vec::new();
        sheets(&mut out, frame("!\"#").as_bytes()).unwrap();
        sheets(&mut out, frame("!\"!").as_bytes()).unwrap();
        let printed = "short\nREFUSED 24 0 0\nSAME\nshort\nREFUSED 24 0 0\nDIFFERENT\n";
        assert_eq!(String::from_utf8(out).unwrap(), printed);
        for length in 1..frame("!\"#").len() {
            assert!(sheets(&mut Vec::new(), &frame("!\"#").as_bytes()[..length]).is_err());
        }
    }

    #[test]
    fn a_broken_frame_is_an_error() {
        let broken: [&[u8]; 7] = [
            b"\n",
            b"name\n",
            b"name x\n\n",
            b"name 1\n\n",
            b"name 1\nab",
            b"name 18446744073709551615\n\n",
            b"name 99999999999999999999\n\n",
        ];
        for frames in broken {
            assert!(batch(&mut Vec::new(), frames).is_err());
        }
    }
}
