//! Rebalancing on the command line, and framed cases of it: a list of so many
//! numbers, a flow and the bytes expected afterwards.

use super::f24::{judge, rebalance};
use super::{broken, print_judgement};
use std::io::{self, Write};

/// Enough for every flow: four fields for each of 546 records.
const LONGEST_LIST: usize = 4368;

/// Rebalances a flow and prints a line for each field that changed, then the
/// judgement; or the refusal. Tells whether it was rebalanced.
pub fn one(out: &mut impl Write, flow: &mut [u8]) -> io::Result<bool> {
    let mut list = [0; LONGEST_LIST];
    match rebalance(flow, &mut list) {
        Ok(listed) => {
            print_changed(out, &list[..2 * listed])?;
            print_judgement(out, judge(flow))?;
            Ok(true)
        }
        Err(refusal) => {
            writeln!(out, "{refusal}")?;
            Ok(false)
        }
    }
}

pub fn print_changed(out: &mut impl Write, list: &[u64]) -> io::Result<()> {
    for pair in list.chunks_exact(2) {
        writeln!(out, "CHANGED {} {}", pair[0], pair[1])?;
    }
    Ok(())
}

/// One case.
struct Case<'a> {
    name: &'a str,
    /// How many numbers the list has.
    list: usize,
    flow: &'a [u8],
    expected: &'a [u8],
}

/// Number `at` of the list before a call.
pub fn canary(at: usize) -> u64 {
    9_000_000_000 + at as u64
}

/// Rebalances framed flows: after a line with the name, how many fields changed
/// and which, or the refusal; whether the rest of the list is as it came and the
/// flow as expected; and the judgement.
pub fn answer(out: &mut impl Write, mut frames: &[u8]) -> io::Result<()> {
    while !frames.is_empty() {
        let (case, rest) = split(frames).ok_or_else(|| broken(frames))?;
        let mut flow = case.flow.to_vec();
        let mut list: Vec<u64> = (0..case.list).map(canary).collect();
        writeln!(out, "{}", case.name)?;
        let answer = rebalance(&mut flow, &mut list);
        let listed = match answer {
            Ok(listed) => {
                writeln!(out, "REBALANCED {listed}")?;
                2 * listed
            }
            Err(refusal) => {
                writeln!(out, "{refusal}")?;
                0
            }
        };
        print_changed(out, &list[..listed])?;
        let kept = (listed..list.len()).all(|at| list[at] == canary(at));
        writeln!(out, "{}", if kept { "KEPT" } else { "ALTERED" })?;
        let same = flow == case.expected;
        writeln!(out, "{}", if same { "SAME" } else { "DIFFERENT" })?;
        if answer.is_ok() {
            print_judgement(out, judge(&flow))?;
        }
        frames = rest;
    }
    Ok(())
}

/// Splits a line of 153 bytes, with the name in 40 characters, the list's length
/// in 20 digits, four other numbers and the flow's length in six; the flow, LF,
/// the bytes expected, LF; and what comes after.
fn split(frames: &[u8]) -> Option<(Case<'_>, &[u8])> {
    let (header, rest) = (frames.get(..153)?, frames.get(153..)?);
    let header = std::str::from_utf8(header).ok()?.strip_suffix('\n')?;
    let list: usize = header.get(41..61)?.parse().ok()?;
    let length: usize = header.get(146..152)?.parse().ok()?;
    let flow = rest.get(..length)?;
    let rest = rest[length..].strip_prefix(b"\n")?;
    let expected = rest.get(..length)?;
    let rest = rest[length..].strip_prefix(b"\n")?;
    let case = Case {
        name: header.get(..40)?.trim_end(),
        list,
        flow,
        expected,
    };
    Some((case, rest))
}

#[cfg(test)]
mod tests {
    use super::*;

    /// One line of section 17.
    fn sound() -> String {
        const NAME: &str = "SUPPORT-NAME 0000001";
        let record = |parts: &[(usize, &str)]| {
            let mut text = String::new();
            for &(position, part) in parts {
                text += &" ".repeat(position - 1 - text.len());
                text += part;
            }
            format!("{text:<120}")
        };
        [
            record(&[(2, "F4"), (14, "311299"), (20, NAME)]),
            record(&[(2, "100000001RSSMRA85T10A562S")]),
            record(&[(2, "200000001")]),
            record(&[(2, "40000000117"), (41, "000000000000005000000000000000")]),
            record(&[(2, "40000000118"), (43, "P000000000000005")]),
            record(&[(2, "50000000101"), (36, "000000000000005")]),
            record(&[
                (2, "EF"),
                (20, NAME),
                (46, "0000001000000000000005"),
                (83, "0000007"),
            ]),
        ]
        .concat()
    }

    fn frame(list: usize, flow: &str, expected: &str) -> String {
        let numbers = format!("{list:020} {:020} {:020} {:020} {:020}", 0, 0, 0, 0);
        format!(
            "{:<40} {numbers} {:06}\n{flow}\n{expected}\n",
            "case",
            flow.len()
        )
    }

    fn answered(text: &str) -> String {
        let mut out = Vec::new();
        answer(&mut out, text.as_bytes()).unwrap();
        String::from_utf8(out).unwrap()
    }

    /// What stands in section 17's sign and in the tail's two counts is wrong.
    fn wrong() -> String {
        sound()
            .replace("P0000", "N0000")
            .replace("0000007", "0000008")
            .replace("00000010000000000", "00000020000000000")
    }

    const SUMS: &str = "ACCEPTED 1 7 5 1\n01 0 0\n03 0 0\n05 0 0\n07 0 0\n17 5 0\n";
    const CHANGED: &str = "CHANGED 5 43\nCHANGED 7 46\nCHANGED 7 83\n";

    #[test]
    fn framed_cases_print_answer_list_and_flow() {
        let sound = sound();
        assert_eq!(sound.len(), 7 * 120);
        let mended = |same: &str| format!("case\nREBALANCED 3\n{CHANGED}KEPT\n{same}\n{SUMS}");
        for list in [6, 7, 8, 5000] {
            assert_eq!(answered(&frame(list, &wrong(), &sound)), mended("SAME"));
        }
        let flow = wrong();
        assert_eq!(answered(&frame(6, &flow, &flow)), mended("DIFFERENT"));
        let untouched = format!("case\nREBALANCED 0\nKEPT\nSAME\n{SUMS}");
        assert_eq!(answered(&frame(0, &sound, &sound)), untouched);
        for list in 0..6 {
            let text = frame(list, &flow, &flow);
            assert_eq!(answered(&text), "case\nREFUSED 27 0 0\nKEPT\nSAME\n");
        }
        let text = frame(2, "ab", "ab");
        assert_eq!(answered(&text), "case\nREFUSED 2 0 0\nKEPT\nSAME\n");
        for length in 1..text.len() {
            assert!(answer(&mut Vec::new(), &text.as_bytes()[..length]).is_err());
        }
    }

    #[test]
    fn one_flow_prints_what_changed_and_the_judgement() {
        let mut flow = wrong().into_bytes();
        let mut out = Vec::new();
        assert!(one(&mut out, &mut flow).unwrap());
        assert_eq!(String::from_utf8(out).unwrap(), format!("{CHANGED}{SUMS}"));
        assert_eq!(flow, sound().as_bytes());

        let mut flow = sound().replace("RSSMRA", "RSSMRB").into_bytes();
        let mut out = Vec::new();
        assert!(!one(&mut out, &mut flow).unwrap());
        assert_eq!(out, b"REFUSED 26 2 11\n");
    }
}
