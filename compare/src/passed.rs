//! What the generator says of the state of a judgement by portions after so many
//! records have passed. It looks at them all at once, and the other way round
//! than the reference, which goes from record to record: sums are those of the
//! lines behind the last record 10, final balances are read where they are
//! stored, and lines are counted back from the last. Where the library and the
//! reference share a mistake, neither differs from the other, but both differ
//! from this.

use crate::calls::STATE_ROOM;
use crate::columns::{Kind::*, *};
use crate::portion::Numbers;
use crate::sound::get;

/// Debit and credit of each section over these records.
fn sums(records: &[(Kind, &[u8])]) -> [u64; 10] {
    let mut sums = [0; 10];
    for (kind, record) in records {
        if let Line(section) = *kind {
            sums[2 * section] += get(record, SECTIONS[section].debit, AMOUNT);
            sums[2 * section + 1] += get(record, SECTIONS[section].credit, AMOUNT);
        }
    }
    sums
}

/// The number of a kind, and that of its section.
fn numbered(kind: Kind) -> [u64; 2] {
    let number = match kind {
        Head => 1,
        Payer => 2,
        Domicile => 3,
        Line(_) => 4,
        Balance(_) => 5,
        Payment => 6,
        Receipt => 7,
        Addressee => 8,
        Tail => 9,
    };
    [number, kind.section().unwrap_or(0) as u64]
}

/// The state that goes on after the first records of a flow, which have all
/// passed. `seen` says whether record 1 has been examined.
pub fn says(flow: &[u8], passed: usize, seen: bool) -> Numbers {
    let records: Vec<(Kind, &[u8])> = flow
        .chunks_exact(RECORD)
        .take(passed)
        .map(|record| (Kind::of(record).expect("a record that has passed is of some kind"), record))
        .collect();
    let of_kind = |wanted: &dyn Fn(Kind) -> bool| records.iter().filter(|(kind, _)| wanted(*kind)).count() as u64;
    let mut state = [0; STATE_ROOM];
    state[0] = 1;
    state[4] = passed as u64;
    state[5] = of_kind(&|kind| !matches!(kind, Line(_)));
    state[6] = of_kind(&|kind| kind == Payer);
    if let Some(&(last, _)) = records.last() {
        state[7..9].copy_from_slice(&numbered(last));
        if matches!(last, Line(_)) {
            state[9] = records.iter().rev().take_while(|(kind, _)| *kind == last).count() as u64;
        }
    }
    let paid = records.iter().filter(|(kind, _)| *kind == Payment);
    state[10] = paid.map(|(_, record)| get(record, FINAL_BALANCE, AMOUNT)).sum();
    let opened = records.iter().rposition(|(kind, _)| *kind == Payer);
    let open = opened.map(|at| &records[at..]).filter(|open| open.iter().all(|(kind, _)| *kind != Payment));
    let delega = sums(open.unwrap_or(&[]));
    state[11] = delega.iter().step_by(2).sum();
    state[12] = delega.iter().skip(1).step_by(2).sum();
    state[13..23].copy_from_slice(&delega);
    state[23..33].copy_from_slice(&sums(&records));
    if seen {
        let name = &flow[NAME - 1..NAME - 1 + NAME_WIDTH];
        state[33..].iter_mut().zip(name).for_each(|(number, &byte)| *number = u64::from(byte));
    }
    state
}
