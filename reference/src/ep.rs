//! The F24 EP form of public bodies, after document 02 with the columns of source
//! document 001, attachment B. Words in quotation marks are 02's.
//!
//! Every input is taken, of every length and value. Sums are of 128 bits: no
//! input of 10,000 records, with 28 debits of fifteen digits each, comes near.

use super::ep_total::{cents, number, TEXT};
use super::Refusal;

/// "its records M and V of 1,900 characters, at most 10,000"
const RECORD: usize = 1900;
const MOST_RECORDS: usize = 10_000;
pub const MOST_EP_BYTES: usize = MOST_RECORDS * RECORD;

/// "row k starts at 100 + 56(k - 1): type 1, code 6, code 5, identifiers 17,
/// references 6 and 6, debit 15. The number of rows is the one 001 prints".
const FIRST_ROW: usize = 100;
const ROW: usize = 56;
const ROWS: usize = 28;
const BEFORE_DEBIT: usize = 1 + 6 + 5 + 17 + 6 + 6;
const DEBIT: usize = 15;

/// 001, record V, field 213: "Saldo finale modello F24 EP".
const FINAL_BALANCE: usize = 1788;

/// "M's total at 1873": 001, record M, field 28, "Saldo totale a debito".
const TOTAL: usize = 1873;

/// "Acceptance answers the count of M and the sum of their totals."
#[derive(Clone, Copy, PartialEq, Eq, Debug)]
pub struct EpSummary {
    pub payments: u64,
    /// In cents.
    pub total: u64,
}

/// A fault and how many records before it, from some M on, have passed.
struct Fault {
    number: u8,
    behind: usize,
}

/// Judges the records M and V of a form, without its head and closing record.
pub fn judge_ep(bytes: &[u8]) -> Result<EpSummary, Refusal> {
    // "30 length, none or too many records, at 0, 0"
    if bytes.is_empty() || bytes.len() % RECORD != 0 || bytes.len() > MOST_EP_BYTES {
        return Err(Refusal::nowhere(30));
    }
    let records: Vec<&[u8]> = bytes.chunks_exact(RECORD).collect();
    let mut rest = &records[..];
    let (mut payments, mut total) = (0, 0);
    while !rest.is_empty() {
        let (taken, sum) = payment(rest).map_err(|Fault { number, behind }| Refusal {
            number,
            record: records.len() - rest.len() + behind + 1,
            position: 0,
        })?;
        payments += 1;
        total += sum;
        rest = &rest[taken..];
    }
    let total = u64::try_from(total).expect("10,000 totals of fourteen digits are below 2^64");
    Ok(EpSummary { payments, total })
}

/// "each M followed by one or more V": how many records the first M and its V's
/// are, and the sum of these.
fn payment(records: &[&[u8]]) -> Result<(usize, u128), Fault> {
    if kind(records[0]) != b'M' {
        let (number, behind) = (31, 0);
        return Err(Fault { number, behind });
    }
    let forms = records[1..]
        .iter()
        .take_while(|record| kind(record) == b'V');
    let forms: Vec<&[u8]> = forms.copied().collect();
    if forms.is_empty() {
        // "an M without a V gives 31 at the record after it"
        let (number, behind) = (31, 1);
        return Err(Fault { number, behind });
    }
    let mut sum = 0;
    for (behind, form) in (1..).zip(&forms) {
        sum += rows_of(form).map_err(|number| Fault { number, behind })?;
    }
    // "It equals the sum over the V records that follow, and is judged right
    // after the last of them, under the M's number."
    if cents(field::<TEXT>(records[0], TOTAL)) != Some(sum) {
        let (number, behind) = (33, 0);
        return Err(Fault { number, behind });
    }
    Ok((1 + forms.len(), sum))
}

fn kind(record: &[u8]) -> u8 {
    record[0]
}

/// The sum of a V's rows, or the number of its refusal: "32 digits of a used debit
/// or the final balance, 33 sums".
fn rows_of(form: &[u8]) -> Result<u128, u8> {
    let mut debits = Vec::new();
    for row in 1..=ROWS {
        debits.extend(debit(form, row).map_err(|()| 32)?);
    }
    let balance = number(field::<DEBIT>(form, FINAL_BALANCE)).ok_or(32)?;
    // "Row sums must equal the final balance that 001 places in V."
    let sum: u128 = debits.iter().sum();
    if sum == balance {
        Ok(sum)
    } else {
        Err(33)
    }
}

/// The debit of this row, counted from 1, or `None`: "a row with a blank type is
/// unused, and its debit isn't read".
fn debit(form: &[u8], row: usize) -> Result<Option<u128>, ()> {
    let row = field::<ROW>(form, FIRST_ROW + ROW * (row - 1));
    if row[0] == b' ' {
        return Ok(None);
    }
    number(&row[BEFORE_DEBIT..]).map(Some).ok_or(())
}

/// So many characters from a position on, which counts from 1.
fn field<const LENGTH: usize>(record: &[u8], position: usize) -> &[u8; LENGTH] {
    let bytes = &record[position - 1..position - 1 + LENGTH];
    bytes.try_into().expect("a field is as long as it is")
}
