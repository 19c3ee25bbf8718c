//! Judgements by portions on the command line, and framed cases of them: a
//! state, a flow and five portions, hence five calls in a row.

use super::broken;
use super::f24::{judge_portion, Answer, Answered, Refusal, State, Summary, STATE_NUMBERS};
use std::io::{self, Write};

/// One case: five calls, the first from the state, each next from the one handed
/// back.
struct Case<'a> {
    name: &'a str,
    portions: Vec<u64>,
    flow: &'a [u8],
    state: State,
}

/// Judges a flow by equal portions, a line for each call. A portion of zero ends
/// nothing: one call is made.
pub fn series(out: &mut impl Write, flow: &[u8], portion: u64) -> io::Result<()> {
    let mut state = State::start();
    loop {
        let answered = judge_portion(flow, portion, &state);
        writeln!(out, "{}", spaced(&call(&answered)))?;
        if portion == 0 || answered.answer != Answer::NotEnded {
            return Ok(());
        }
        state = answered.state;
    }
}

/// Answers framed cases, each after a line with its name: a line for each call,
/// then the numbers of the state.
pub fn answer(out: &mut impl Write, mut frames: &[u8]) -> io::Result<()> {
    while !frames.is_empty() {
        let (case, rest) = split(frames).ok_or_else(|| broken(frames))?;
        writeln!(out, "{}", case.name)?;
        let mut state = case.state;
        for &portion in &case.portions {
            let answered = judge_portion(case.flow, portion, &state);
            writeln!(out, "{}", spaced(&call(&answered)))?;
            state = answered.state;
        }
        writeln!(out, "STATE {}", spaced(&state.numbers()))?;
        frames = rest;
    }
    Ok(())
}

/// The returned number of a call and what is written behind it.
fn call(answered: &Answered) -> Vec<u64> {
    let examined = answered.examined;
    match answered.answer {
        Answer::NotEnded => vec![101, examined],
        Answer::Foreign => vec![102, 0],
        Answer::Ended(Err(refusal)) => {
            let Refusal {
                number,
                record,
                position,
            } = refusal;
            vec![u64::from(number), examined, record as u64, position as u64]
        }
        Answer::Ended(Ok(summary)) => {
            let Summary {
                deleghe,
                records,
                total,
                lines,
                sums,
            } = summary;
            let mut numbers = vec![0, examined, deleghe, records as u64, total, lines];
            numbers.extend(sums.iter().flat_map(|&(debit, credit)| [debit, credit]));
            numbers
        }
    }
}

fn spaced(numbers: &[u64]) -> String {
    let words: Vec<String> = numbers.iter().map(u64::to_string).collect();
    words.join(" ")
}

/// Splits a line of 153 bytes, with the name in 40 characters, five portions in
/// 20 digits and the flow's length in six; the flow, LF, the state's numbers in
/// 20 digits, LF; and what comes after.
fn split(frames: &[u8]) -> Option<(Case<'_>, &[u8])> {
    let (header, rest) = (frames.get(..153)?, frames.get(153..)?);
    let header = std::str::from_utf8(header).ok()?.strip_suffix('\n')?;
    let portions = numbers(header.get(41..145)?)?;
    let length: usize = header.get(146..152)?.parse().ok()?;
    let flow = rest.get(..length)?;
    let rest = rest[length..].strip_prefix(b"\n")?;
    let width = 21 * STATE_NUMBERS - 1;
    let state = numbers(std::str::from_utf8(rest.get(..width)?).ok()?)?;
    let case = Case {
        name: header.get(..40)?.trim_end(),
        portions,
        flow,
        state: State::of(&state.try_into().ok()?),
    };
    Some((case, rest[width..].strip_prefix(b"\n")?))
}

fn numbers(text: &str) -> Option<Vec<u64>> {
    text.split(' ').map(|word| word.parse().ok()).collect()
}

#[cfg(test)]
mod tests {
    use super::*;

    fn frame(portions: [u64; 5], state: &State) -> String {
        let twenty = |number: &u64| format!("{number:020}");
        let portions = portions.iter().map(twenty).collect::<Vec<_>>().join(" ");
        let state = state.numbers().iter().map(twenty).collect::<Vec<_>>();
        format!(
            "{:<40} {portions} {:06}\nab\n{}\n",
            "short",
            2,
            state.join(" ")
        )
    }

    #[test]
    fn framed_cases_print_calls_and_state() {
        let mut out = Vec::new();
        let text = frame([0, 1, 2, 3, u64::MAX], &State::start());
        answer(&mut out, text.as_bytes()).unwrap();
        let printed = String::from_utf8(out).unwrap();
        let zeros = " 0".repeat(49);
        let lines = "2 0 0 0\n".repeat(5);
        assert_eq!(printed, format!("short\n{lines}STATE 3 2 0 0{zeros}\n"));
        for length in 1..text.len() {
            assert!(answer(&mut Vec::new(), &text.as_bytes()[..length]).is_err());
        }
    }

    #[test]
    fn a_series_prints_each_call() {
        let printed = |portion| {
            let mut out = Vec::new();
            series(&mut out, &[b' '; 240], portion).unwrap();
            String::from_utf8(out).unwrap()
        };
        assert_eq!(printed(0), "101 0\n");
        assert_eq!(printed(1), "4 1 1 2\n");
    }

    #[test]
    fn a_foreign_state_is_printed_as_it_was() {
        let numbers = [u64::MAX; STATE_NUMBERS];
        let mut out = Vec::new();
        let text = frame([7; 5], &State::of(&numbers));
        answer(&mut out, text.as_bytes()).unwrap();
        let lines = "102 0\n".repeat(5);
        let state = spaced(&numbers);
        assert_eq!(
            String::from_utf8(out).unwrap(),
            format!("short\n{lines}STATE {state}\n")
        );
    }
}
