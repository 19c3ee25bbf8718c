//! Dropping on the command line, and framed cases of it: a flow, the bytes
//! expected afterwards and a list of numbers.

use super::f24::{drop_deleghe, judge};
use super::{broken, number, print_judgement, read_flow};
use std::fs;
use std::io::{self, Write};

/// Drops the deleghe of a file's flow that the words name, and writes the rest to
/// the file `to`, or to `out` for `-`; or a refusal to `out`.
pub fn one(out: &mut impl Write, file: &str, to: &str, words: &[&str]) -> io::Result<()> {
    let numbers: io::Result<Vec<u64>> = words.iter().map(|word| number(word)).collect();
    let numbers = numbers?;
    let mut flow = read_flow(file)?;
    match drop_deleghe(&mut flow, &numbers) {
        Ok(length) if to == "-" => out.write_all(&flow[..length]),
        Ok(length) => fs::write(to, &flow[..length]),
        Err(refusal) => writeln!(out, "{refusal}"),
    }
}

/// One case.
struct Case<'a> {
    name: &'a str,
    flow: &'a [u8],
    expected: &'a [u8],
    numbers: Vec<u64>,
}

/// Drops deleghe of framed flows: after a line with the name, the length of what
/// is left, or the refusal; whether the whole flow is as expected; and the
/// judgement of what is left.
pub fn answer(out: &mut impl Write, mut frames: &[u8]) -> io::Result<()> {
    while !frames.is_empty() {
        let (case, rest) = split(frames).ok_or_else(|| broken(frames))?;
        let mut flow = case.flow.to_vec();
        writeln!(out, "{}", case.name)?;
        let answer = drop_deleghe(&mut flow, &case.numbers);
        match &answer {
            Ok(length) => writeln!(out, "DROPPED {length}")?,
            Err(refusal) => writeln!(out, "{refusal}")?,
        }
        let same = flow == case.expected;
        writeln!(out, "{}", if same { "SAME" } else { "DIFFERENT" })?;
        if let Ok(length) = answer {
            print_judgement(out, judge(&flow[..length]))?;
        }
        frames = rest;
    }
    Ok(())
}

/// Splits a line of 153 bytes, with the name in 40 characters, how many numbers
/// the list has in 20 digits, four other numbers and the flow's length in six; the
/// flow, LF, the bytes expected, LF; each number of the list in 20 digits with a
/// space behind it, LF; and what comes after.
fn split(frames: &[u8]) -> Option<(Case<'_>, &[u8])> {
    let (header, rest) = (frames.get(..153)?, frames.get(153..)?);
    let header = std::str::from_utf8(header).ok()?.strip_suffix('\n')?;
    let count: usize = header.get(41..61)?.parse().ok()?;
    let length: usize = header.get(146..152)?.parse().ok()?;
    let flow = rest.get(..length)?;
    let rest = rest[length..].strip_prefix(b"\n")?;
    let expected = rest.get(..length)?;
    let mut rest = rest[length..].strip_prefix(b"\n")?;
    let mut numbers = Vec::new();
    for _ in 0..count {
        let word = std::str::from_utf8(rest.get(..21)?).ok()?;
        numbers.push(word.strip_suffix(' ')?.parse().ok()?);
        rest = &rest[21..];
    }
    let case = Case {
        name: header.get(..40)?.trim_end(),
        flow,
        expected,
        numbers,
    };
    Some((case, rest.strip_prefix(b"\n")?))
}

#[cfg(test)]
pub mod tests {
    use super::*;

    /// Two deleghe of one line of section 17 each, or one of them with the number
    /// 1 in the other's place.
    pub fn flow(amounts: &[u64]) -> String {
        const NAME: &str = "SUPPORT-NAME 0000001";
        let head = format!("{:<120}", format!(" F4          311299{NAME}"));
        let mut records = vec![head];
        for (number, amount) in (1..).zip(amounts) {
            let code = format!(" 10{number:07}RSSMRA85T10A562S");
            let line = format!(" 40{number:07}17{:28}{amount:015}{:015}", "", 0);
            let balance = format!(" 40{number:07}18{:30}P{amount:015}", "");
            let payment = format!(" 50{number:07}01{:23}{amount:015}", "");
            for text in [code, format!(" 20{number:07}"), line, balance, payment] {
                records.push(format!("{text:<120}"));
            }
        }
        let (count, sum): (usize, u64) = (amounts.len(), amounts.iter().sum());
        let places = format!(" EF{:16}{NAME}{:6}{count:07}{sum:015}{:15}", "", "", "");
        let tail = format!("{places}{:07}", records.len() + 1);
        records.push(format!("{tail:<120}"));
        records.concat()
    }

    fn frame(flow: &str, expected: &str, numbers: &[u64]) -> String {
        let zeros = [format!("{:020}", 0), format!("{:020}", 0)].join(" ");
        let (count, length) = (numbers.len(), flow.len());
        let header = format!("{:<40} {count:020} {zeros} {zeros} {length:06}\n", "case");
        let list: String = numbers.iter().map(|n| format!("{n:020} ")).collect();
        format!("{header}{flow}\n{expected}\n{list}\n")
    }

    fn answered(text: &str) -> String {
        let mut out = Vec::new();
        answer(&mut out, text.as_bytes()).unwrap();
        String::from_utf8(out).unwrap()
    }

    #[test]
    fn framed_cases_print_answer_flow_and_judgement() {
        let both = flow(&[5, 7]);
        let second = flow(&[7]) + &" ".repeat(600);
        let sums = "ACCEPTED 1 7 7 1\n01 0 0\n03 0 0\n05 0 0\n07 0 0\n17 7 0\n";
        let printed = |same: &str| format!("case\nDROPPED 840\n{same}\n{sums}");
        assert_eq!(answered(&frame(&both, &second, &[1])), printed("SAME"));
        assert_eq!(answered(&frame(&both, &both, &[1])), printed("DIFFERENT"));

        let sums = "ACCEPTED 2 12 12 2\n01 0 0\n03 0 0\n05 0 0\n07 0 0\n17 12 0\n";
        let untouched = format!("case\nDROPPED 1440\nSAME\n{sums}");
        assert_eq!(answered(&frame(&both, &both, &[])), untouched);

        let refused = |number| format!("case\nREFUSED {number} 0 0\nSAME\n");
        assert_eq!(answered(&frame(&both, &both, &[1, 2])), refused(28));
        assert_eq!(answered(&frame(&both, &both, &[2, 2])), refused(21));
        assert_eq!(answered(&frame(&both, &both, &[u64::MAX])), refused(21));
        let text = frame("ab", "ab", &[3]);
        assert_eq!(answered(&text), refused(2));
        for length in 1..text.len() {
            assert!(answer(&mut Vec::new(), &text.as_bytes()[..length]).is_err());
        }
    }
}
