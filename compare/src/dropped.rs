//! What the generator says of any dropping, whatever the flow is. It asks the fast
//! judge for the flow, marks each number in a row with a place for each delega, and
//! goes by the number that each record has: those that are not marked are kept. What
//! is dropped is taken off the tail's values.

use crate::columns::{Kind::*, *};
use crate::sound::{get, put};

/// What a dropping comes to.
pub struct Account {
    /// The number of the refusal, 0 where there is none, its record and position.
    pub says: [u64; 3],
    /// The whole lent flow afterwards.
    pub after: Vec<u8>,
    /// The length of what is left.
    pub length: usize,
}

impl Account {
    pub fn of(flow: &[u8], numbers: &[u64]) -> Self {
        let refused = |says| Account { says, after: flow.to_vec(), length: flow.len() };
        match fast::judge(flow) {
            Err(fast::Refusal { number, record, position }) => {
                refused([u64::from(number), record as u64, position as u64])
            }
            Ok(summary) => match marked(numbers, summary.deleghe) {
                None => refused([21, 0, 0]),
                Some(marks) if !marks.contains(&false) => refused([28, 0, 0]),
                Some(marks) => kept(flow, &marks),
            },
        }
    }
}

/// Which of so many deleghe are named; none where one is named twice or a number is
/// no delega's.
fn marked(numbers: &[u64], deleghe: u64) -> Option<Vec<bool>> {
    let mut marks = vec![false; deleghe as usize];
    for &number in numbers {
        let place = usize::try_from(number.checked_sub(1)?).ok()?;
        let mark = marks.get_mut(place)?;
        if std::mem::replace(mark, true) {
            return None;
        }
    }
    Some(marks)
}

/// The flow without the records of the deleghe that are marked.
fn kept(flow: &[u8], marks: &[bool]) -> Account {
    let mut after = Vec::with_capacity(flow.len());
    let (mut deleghe, mut due, mut records) = (0, 0, 0);
    for record in flow.chunks_exact(RECORD) {
        let kind = Kind::of(record).expect("an accepted flow has records of a kind");
        let start = after.len();
        after.extend_from_slice(record);
        if matches!(kind, Head | Tail) {
            continue;
        }
        let number = get(record, DELEGA, COUNT);
        if !marks[number as usize - 1] {
            let before = marks[..number as usize].iter().filter(|&&mark| mark).count();
            put(&mut after[start..], DELEGA, COUNT, number - before as u64);
            continue;
        }
        after.truncate(start);
        records += 1;
        deleghe += u64::from(kind == Payer);
        if kind == Payment {
            due += get(record, FINAL_BALANCE, AMOUNT);
        }
    }
    let length = after.len();
    let tail = &mut after[length - RECORD..];
    for (start, width, dropped) in
        [(TAIL_DELEGHE, COUNT, deleghe), (TAIL_SUM, AMOUNT, due), (TAIL_RECORDS, COUNT, records)]
    {
        let value = get(tail, start, width) - dropped;
        put(tail, start, width, value);
    }
    after.resize(flow.len(), b' ');
    Account { says: [0; 3], after, length }
}
