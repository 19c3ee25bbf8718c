//! Framed cases of calls that take a record: a flow, and a series of steps on it,
//! each with the bytes expected afterwards, a record and a list.

use super::f24::{judge, Kept, KEPT_NUMBERS};
use super::rebalance_cases::{canary, print_changed};
use super::{broken, print_judgement};
use std::io::{self, Write};

type Numbers = [u64; KEPT_NUMBERS];

/// The most steps of a case, and the most numbers of a list.
const MOST_STEPS: u64 = 40;
const MOST_LENT: u64 = 5000;
const MOST_NAMED: u64 = 600;

/// A line of 153 bytes: a word of 40 characters, five numbers of 20 digits and a
/// length of six, each after a space.
struct Header<'a> {
    word: &'a str,
    numbers: [u64; 5],
    length: usize,
}

/// One step.
struct Step<'a> {
    header: Header<'a>,
    expected: &'a [u8],
    /// The record that is lent, where it is not the one handed back before.
    record: Option<Numbers>,
    list: Vec<u64>,
}

/// The steps of a case are made one after another on its flow. Printed are, after a
/// line with the name, the record made from the flow or its refusal, and for each
/// step the answer, the record handed back, whether the flow is as expected, and the
/// judgement where the step is no refusal.
pub fn answer(out: &mut impl Write, mut frames: &[u8]) -> io::Result<()> {
    while !frames.is_empty() {
        let start = frames;
        let error = || broken(start);
        let (case, flow) = split_case(&mut frames).ok_or_else(error)?;
        writeln!(out, "{}", case.word)?;
        let mut record = [0; KEPT_NUMBERS];
        match Kept::made(flow) {
            Ok(kept) => {
                record = kept.numbers();
                print_sums(out, &record)?;
            }
            Err(refusal) => writeln!(out, "{refusal}")?,
        }
        let mut flow = flow.to_vec();
        for _ in 0..case.numbers[0] {
            let step = split_step(&mut frames).ok_or_else(error)?;
            // What is lent is what the step before left.
            if step.header.length != flow.len() {
                return Err(error());
            }
            record = make(out, &step, &mut flow, record)?;
        }
    }
    Ok(())
}

/// Makes a step on the flow, which a dropping cuts, and gives the record that it
/// hands back.
fn make(
    out: &mut impl Write,
    step: &Step,
    flow: &mut Vec<u8>,
    record: Numbers,
) -> io::Result<Numbers> {
    let mut kept = Kept::of(&step.record.unwrap_or(record));
    let (mut list, mut listed, mut length) = (Vec::new(), 0, flow.len());
    let [first, subtype, place, debit, credit] = step.header.numbers;
    let answer = match step.header.word {
        "correct" => kept
            .correct(flow, first, subtype, place, debit, credit)
            .map(|()| "MADE".to_string()),
        "rebalance" => {
            list.extend((0..first as usize).map(canary));
            kept.rebalance(flow, &mut list).map(|fields| {
                listed = 2 * fields;
                format!("REBALANCED {fields}")
            })
        }
        _ => kept.drop_deleghe(flow, &step.list).map(|left| {
            length = left;
            format!("DROPPED {left}")
        }),
    };
    match &answer {
        Ok(line) => writeln!(out, "{line}")?,
        Err(refusal) => writeln!(out, "{refusal}")?,
    }
    print_changed(out, &list[..listed])?;
    print_sums(out, &kept.numbers())?;
    let same = *flow == step.expected;
    writeln!(out, "{}", if same { "SAME" } else { "DIFFERENT" })?;
    flow.truncate(length);
    if answer.is_ok() {
        print_judgement(out, judge(flow))?;
    }
    Ok(kept.numbers())
}

fn print_sums(out: &mut impl Write, record: &Numbers) -> io::Result<()> {
    let sums = record.map(|sum| sum.to_string()).join(" ");
    writeln!(out, "SUMS {sums}")
}

/// Takes the line of a case and its flow.
fn split_case<'a>(frames: &mut &'a [u8]) -> Option<(Header<'a>, &'a [u8])> {
    let header = split_header(frames).filter(|header| header.numbers[0] <= MOST_STEPS)?;
    let flow = split_bytes(frames, header.length)?;
    Some((header, flow))
}

/// Takes the line of a step, the bytes expected, eleven numbers, of which the first
/// says whether the others are the record, and the list of a `drop`.
fn split_step<'a>(frames: &mut &'a [u8]) -> Option<Step<'a>> {
    let header = split_header(frames)?;
    let expected = split_bytes(frames, header.length)?;
    let record = split_numbers(frames, 1 + KEPT_NUMBERS)?;
    let own: Numbers = record[1..].try_into().ok()?;
    let record = match record[0] {
        0 => None,
        1 => Some(own),
        _ => return None,
    };
    let count = match (header.word, header.numbers[0]) {
        ("correct", _) | ("rebalance", 0..=MOST_LENT) => 0,
        ("drop", count @ 0..=MOST_NAMED) => count as usize,
        _ => return None,
    };
    let list = split_numbers(frames, count)?;
    Some(Step {
        header,
        expected,
        record,
        list,
    })
}

fn split_header<'a>(frames: &mut &'a [u8]) -> Option<Header<'a>> {
    let line = std::str::from_utf8(split_bytes(frames, 152)?).ok()?;
    let mut numbers = [0; 5];
    for (at, number) in numbers.iter_mut().enumerate() {
        *number = line.get(41 + 21 * at..61 + 21 * at)?.parse().ok()?;
    }
    Some(Header {
        word: line.get(..40)?.trim_end(),
        numbers,
        length: line.get(146..)?.parse().ok()?,
    })
}

/// Takes so many bytes and LF.
fn split_bytes<'a>(frames: &mut &'a [u8], length: usize) -> Option<&'a [u8]> {
    let bytes = frames.get(..length)?;
    *frames = frames[length..].strip_prefix(b"\n")?;
    Some(bytes)
}

/// Takes so many numbers, each in 20 digits with a space behind it, and LF.
fn split_numbers(frames: &mut &[u8], count: usize) -> Option<Vec<u64>> {
    let text = std::str::from_utf8(split_bytes(frames, 21 * count)?).ok()?;
    let word = |at: usize| text.get(21 * at..21 * at + 21)?.strip_suffix(' ');
    (0..count).map(|at| word(at)?.parse().ok()).collect()
}

#[cfg(test)]
mod tests {
    use super::super::drop_cases::tests::flow;
    use super::*;

    fn header(word: &str, numbers: [u64; 5], length: usize) -> String {
        let numbers = numbers.map(|number| format!("{number:020}")).join(" ");
        format!("{word:<40} {numbers} {length:06}\n")
    }

    fn case(flow: &str, steps: &[String]) -> String {
        let numbers = [steps.len() as u64, 0, 0, 0, 0];
        header("case", numbers, flow.len()) + flow + "\n" + &steps.concat()
    }

    fn listed(numbers: &[u64]) -> String {
        let text: String = numbers.iter().map(|n| format!("{n:020} ")).collect();
        text + "\n"
    }

    /// A step with the record handed back before, or with this one.
    fn step(
        word: &str,
        numbers: [u64; 5],
        expected: &str,
        record: Option<Numbers>,
        list: &[u64],
    ) -> String {
        let own = u64::from(record.is_some());
        let record = [vec![own], record.unwrap_or_default().to_vec()].concat();
        let header = header(word, numbers, expected.len());
        header + expected + "\n" + &listed(&record) + &listed(list)
    }

    fn answered(text: &str) -> String {
        let mut out = Vec::new();
        answer(&mut out, text.as_bytes()).unwrap();
        String::from_utf8(out).unwrap()
    }

    /// The record of a flow of section 17 alone.
    fn only(sum: u64) -> Numbers {
        [0, 0, 0, 0, 0, 0, 0, 0, sum, 0]
    }

    fn sums(sum: u64) -> String {
        format!("SUMS 0 0 0 0 0 0 0 0 {sum} 0\n")
    }

    fn judgement(first: &str, sum: u64) -> String {
        format!("ACCEPTED {first}\n01 0 0\n03 0 0\n05 0 0\n07 0 0\n17 {sum} 0\n")
    }

    #[test]
    fn each_step_goes_on_from_the_one_before() {
        let left = flow(&[7]) + &" ".repeat(600);
        let correct = |delega, debit| [delega, 17, 1, debit, 0];
        let text = case(
            &flow(&[5, 7]),
            &[
                step("correct", correct(1, 9), &flow(&[9, 7]), None, &[]),
                // The record that the step before handed back is right, its own is not,
                // and comes back as it was, to the next step as well.
                step("correct", correct(3, 1), &flow(&[9, 7]), None, &[]),
                step(
                    "drop",
                    [1, 0, 0, 0, 0],
                    &flow(&[9, 7]),
                    Some(only(12)),
                    &[1],
                ),
                step("drop", [0; 5], &flow(&[9, 7]), None, &[]),
                step("drop", [1, 0, 0, 0, 0], &left, Some(only(16)), &[1]),
                step("rebalance", [0; 5], &flow(&[7]), None, &[]),
                step("correct", correct(1, 8), &flow(&[7]), None, &[]),
            ],
        );
        let printed = [
            "case\n".to_string() + &sums(12),
            "MADE\n".to_string() + &sums(16) + "SAME\n" + &judgement("2 12 16 2", 16),
            "REFUSED 21 0 0\n".to_string() + &sums(16) + "SAME\n",
            "REFUSED 29 0 0\n".to_string() + &sums(12) + "SAME\n",
            "REFUSED 29 0 0\n".to_string() + &sums(12) + "SAME\n",
            "DROPPED 840\n".to_string() + &sums(7) + "SAME\n" + &judgement("1 7 7 1", 7),
            "REBALANCED 0\n".to_string() + &sums(7) + "SAME\n" + &judgement("1 7 7 1", 7),
            "MADE\n".to_string() + &sums(8) + "DIFFERENT\n" + &judgement("1 7 8 1", 8),
        ];
        assert_eq!(answered(&text), printed.concat());
    }

    #[test]
    fn a_refused_flow_starts_with_zeros() {
        let wrong = flow(&[5, 7]).replace("P000000000000005", "N000000000000006");
        let sound = flow(&[5, 7]);
        let text = case(
            &wrong,
            &[
                step("rebalance", [3, 0, 0, 0, 0], &wrong, None, &[]),
                step("rebalance", [3, 0, 0, 0, 0], &wrong, Some(only(12)), &[]),
                step("rebalance", [5, 0, 0, 0, 0], &sound, None, &[]),
            ],
        );
        let printed = [
            "case\nREFUSED 12 5 43\nREFUSED 29 0 0\n".to_string() + &sums(0) + "SAME\n",
            "REFUSED 27 0 0\n".to_string() + &sums(12) + "SAME\n",
            "REBALANCED 2\nCHANGED 5 43\nCHANGED 5 44\n".to_string() + &sums(12) + "SAME\n",
            judgement("2 12 12 2", 12),
        ];
        assert_eq!(answered(&text), printed.concat());
        assert_eq!(answered(&case("ab", &[])), "case\nREFUSED 2 0 0\n");
    }

    #[test]
    fn a_broken_case_is_an_error() {
        let sound = flow(&[5, 7]);
        let steps = [step("drop", [1, 0, 0, 0, 0], &sound, Some(only(3)), &[1])];
        let text = case(&sound, &steps);
        assert!(answer(&mut Vec::new(), text.as_bytes()).is_ok());
        for length in 1..text.len() {
            assert!(answer(&mut Vec::new(), &text.as_bytes()[..length]).is_err());
        }
        let other = [
            step("find", [1, 17, 1, 0, 0], &sound, None, &[]),
            // Not the length that is lent.
            step("drop", [0; 5], &flow(&[5]), None, &[]),
            step("drop", [601, 0, 0, 0, 0], &sound, None, &[1; 601]),
            step("rebalance", [5001, 0, 0, 0, 0], &sound, None, &[]),
            step("drop", [0; 5], &sound, None, &[]).replacen("\n00", "\n02", 1),
        ];
        for step in other {
            let text = case(&sound, &[step]);
            assert!(answer(&mut Vec::new(), text.as_bytes()).is_err());
        }
        let one = step("drop", [0; 5], &sound, None, &[]);
        assert!(answer(
            &mut Vec::new(),
            case(&sound, &vec![one.clone(); 40]).as_bytes()
        )
        .is_ok());
        assert!(answer(&mut Vec::new(), case(&sound, &vec![one; 41]).as_bytes()).is_err());
    }
}
