//! Rebalancing, after document 02. Words in quotation marks without another
//! source are its own.
//!
//! "We want a tool that rewrites every total, sign, balance, final balance and
//! tail value from the lines and lists each field changed, with record and
//! start, in the order of the flow."

use super::judgement::{characters, count, name, next, Fault, Judgement, Step};
use super::layout::*;
use super::{ended, length, Refusal};

/// Digits of an amount, a balance or a sum, and of the tail's two counts.
const AMOUNT: usize = 15;
const COUNT: usize = 7;

/// What a field is to hold.
struct Text {
    bytes: [u8; AMOUNT],
    width: usize,
}

impl Text {
    fn sign(sign: u8) -> Self {
        let mut bytes = [b' '; AMOUNT];
        bytes[0] = sign;
        Text { bytes, width: 1 }
    }

    /// A number with leading zeros; `None` where it "has more digits than its
    /// field", in 01's words.
    fn number(number: u64, width: usize) -> Option<Self> {
        let mut bytes = [b'0'; AMOUNT];
        let mut left = number;
        for byte in bytes[..width].iter_mut().rev() {
            *byte = b'0' + (left % 10) as u8;
            left /= 10;
        }
        (left == 0).then_some(Text { bytes, width })
    }
}

/// A field that is rewritten: its record and its first position, both counted
/// from 1.
struct Field {
    record: usize,
    start: usize,
    /// `None` where the number does not fit.
    text: Option<Text>,
}

/// Rewrites the stored fields of a flow from its lines, in place, and lists those
/// that changed as pairs of record and start; the answer is how many they are.
/// The list has room for half as many as it has numbers. A refusal leaves flow
/// and list as they came, and a success every number past those listed.
pub fn rebalance(flow: &mut [u8], changed: &mut [u64]) -> Result<usize, Refusal> {
    let fields = stored(flow)?;

    // "then 23": no field has been written yet.
    if fields.iter().any(|field| field.text.is_none()) {
        return Err(Refusal::nowhere(23));
    }

    // "a field is listed exactly when its bytes differ"
    let mut differing = Vec::new();
    for field in &fields {
        if let Some(text) = &field.text {
            let first = (field.record - 1) * RECORD + field.start - 1;
            let place = first..first + text.width;
            if flow[place.clone()] != text.bytes[..text.width] {
                differing.push((field, place, text));
            }
        }
    }

    // "then 27 when the lent list is too short"
    if differing.len() > changed.len() / 2 {
        return Err(Refusal::nowhere(27));
    }
    for (pair, (field, place, text)) in changed.chunks_exact_mut(2).zip(&differing) {
        pair[0] = field.record as u64;
        pair[1] = field.start as u64;
        flow[place.clone()].copy_from_slice(&text.bytes[..text.width]);
    }
    Ok(differing.len())
}

/// The refusals that stop a rebalancing before anything is worked out.
pub fn judge_remaining(flow: &[u8]) -> Result<(), Refusal> {
    stored(flow).map(drop)
}

/// Every stored field of the flow, in the order of its bytes, with what it is to
/// hold; or "the first remaining fault of 01's checks", 1, 2 and 5 included.
fn stored(flow: &[u8]) -> Result<Vec<Field>, Refusal> {
    length(flow)?;
    let mut judgement = Judgement::new();
    let mut fields = Vec::new();
    for record in flow.chunks_exact(RECORD) {
        let record: &Record = record.try_into().expect("a chunk is a record long");
        judgement.records += 1;
        remaining(&mut judgement, record, &mut fields)
            .map_err(|fault| Refusal::of(fault, judgement.records, record))?;
    }
    ended(&judgement)?;
    Ok(fields)
}

/// The checks of the next record that remain. "Faults 10 to 13, 15, 18 to 20, and
/// 7 or 12 in those fields, don't stop it." So of a record that holds such fields
/// only the characters, its place among the others, its number, 14 and the tail's
/// name are looked at; of any other, all that 01 says.
fn remaining(
    judgement: &mut Judgement,
    record: &Record,
    fields: &mut Vec<Field>,
) -> Result<(), Fault> {
    characters(record)?;
    judgement.step = next(judgement.step, record)?;
    let number = judgement.records;
    let mut store = |start, text| {
        fields.push(Field {
            record: number,
            start,
            text,
        })
    };
    match judgement.step {
        Step::Start => (), // follows no record
        Step::Head => {
            judgement.name = name(record);
            judgement.head(record)?;
        }
        Step::Taxpayer => judgement.taxpayer(record)?,
        Step::Line(index) => judgement.line(index, record)?,
        Step::Domicile | Step::Receipt | Step::Addressee => {
            judgement.open_delega(count(record, DELEGA)?)?;
        }
        Step::Balance(index) => {
            judgement.open_delega(count(record, DELEGA)?)?;
            let section = &SECTIONS[index];
            let (debits, credits) = judgement.delega[index];
            // 01: "40-18: sign 43, balance 44-58; it has no totals."
            if let Some((debit_at, credit_at)) = section.totals_at {
                store(debit_at, Text::number(debits, AMOUNT));
                store(credit_at, Text::number(credits, AMOUNT));
            }
            store(section.sign_at, Some(Text::sign(sign(debits, credits))));
            let balance = debits.abs_diff(credits);
            store(section.balance_at, Text::number(balance, AMOUNT));
            judgement.close_section();
        }
        Step::Payment => {
            judgement.open_delega(count(record, DELEGA)?)?;
            let due = judgement.due()?;
            store(FINAL_BALANCE, Text::number(due, AMOUNT));
            judgement.close_delega(due);
        }
        Step::Tail => {
            // The name is no tail value that the lines give: it stays as it is.
            if name(record) != judgement.name {
                return Err(Fault {
                    number: 16,
                    position: NAME,
                });
            }
            store(TAIL_DELEGHE, Text::number(judgement.deleghe, COUNT));
            store(TAIL_SUM, Text::number(judgement.total, AMOUNT));
            store(TAIL_RECORDS, Text::number(number as u64, COUNT));
        }
    }
    Ok(())
}
