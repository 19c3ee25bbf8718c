//! What the generator says of any call with a record, whatever the flow and the
//! record are. It goes by its accounts of the calls without one, and adds up the
//! lines in another manner than the reference, digit by digit: all digits of one
//! column first, then the columns.

use crate::calls::{Record, SUMS_ROOM, WRONG_RECORD};
use crate::columns::{Kind::*, *};
use crate::keep_calls::Ask;
use crate::sound::get;
use crate::{corrected, dropped, mended};

/// What a call comes to.
pub struct Account {
    /// What is told where the record is right: the number of the refusal, 0 where
    /// there is none, its record and position.
    pub plain: [u64; 3],
    /// Whether that is a refusal of the judgement's own, which comes before 29.
    pub own: bool,
    /// The answer's number, if it has one, and the list's first numbers.
    pub number: Option<usize>,
    pub list: Vec<u64>,
    /// The whole lent flow afterwards, and the length of what is left.
    pub after: Vec<u8>,
    pub length: usize,
    /// The sums of the lines before the call, and of what is left.
    pub before: Record,
    pub sums: Record,
}

impl Account {
    pub fn of(flow: &[u8], ask: &Ask) -> Self {
        let mut account = Account {
            plain: [0; 3],
            own: false,
            number: None,
            list: Vec::new(),
            after: flow.to_vec(),
            length: flow.len(),
            before: sums(flow),
            sums: [0; SUMS_ROOM],
        };
        match ask {
            Ask::Keep => account.judged(flow),
            Ask::Correct(numbers) => {
                account.judged(flow);
                if !account.own {
                    let corrected = corrected::Account::of(flow, *numbers);
                    account.plain = [corrected.number, 0, 0];
                    account.after = corrected.after;
                }
            }
            Ask::Rebalance(list) => {
                let mended = mended::Account::of(flow);
                let fields = mended.changed.len();
                account.own = !matches!(mended.says[0], 0 | 23);
                account.plain = if mended.says[0] == 0 && fields > list / 2 { [27, 0, 0] } else { mended.says };
                account.number = Some(fields);
                account.list = mended.changed.concat();
                account.after = mended.after;
            }
            Ask::Drop(numbers) => {
                let dropped = dropped::Account::of(flow, numbers);
                account.own = !matches!(dropped.says[0], 0 | 21 | 28);
                account.plain = dropped.says;
                account.number = Some(dropped.length);
                account.after = dropped.after;
                account.length = dropped.length;
            }
        }
        account.sums = sums(&account.after[..account.length]);
        account
    }

    /// Sets the refusal of the judgement, where there is one.
    fn judged(&mut self, flow: &[u8]) {
        if let Err(fast::Refusal { number, record, position }) = fast::judge(flow) {
            self.plain = [u64::from(number), record as u64, position as u64];
            self.own = true;
        }
    }

    /// What is told with this record; `f24_kept` reads none.
    pub fn told(&self, ask: &Ask, record: &[u64]) -> [u64; 3] {
        match ask {
            Ask::Keep => self.plain,
            _ if self.own || record == self.before => self.plain,
            _ => [WRONG_RECORD, 0, 0],
        }
    }
}

/// The ten sums of the lines of a flow, as they stand.
pub fn sums(flow: &[u8]) -> Record {
    sums_of(flow.chunks_exact(RECORD))
}

/// The ten sums of those lines that are among these records.
pub fn sums_of<'a>(records: impl Iterator<Item = &'a [u8]>) -> Record {
    let mut columns = [[0; AMOUNT]; SUMS_ROOM];
    for record in records {
        if let Some(Line(section)) = Kind::of(record) {
            let Section { debit, credit, .. } = SECTIONS[section];
            for (sum, start) in [(2 * section, debit), (2 * section + 1, credit)] {
                for (column, digits) in columns[sum].iter_mut().enumerate() {
                    *digits += get(record, start + column, 1);
                }
            }
        }
    }
    columns.map(|digits| digits.iter().fold(0, |sum, digit| 10 * sum + digit))
}

/// What the stored totals of a flow come to, or the balances of section 17.
pub fn stored(flow: &[u8]) -> Record {
    let mut sums = [0; SUMS_ROOM];
    for record in flow.chunks_exact(RECORD) {
        if let Some(Balance(section)) = Kind::of(record) {
            let columns = &SECTIONS[section];
            let (debit, credit) = match columns.totals {
                Some((debit, credit)) => (get(record, debit, AMOUNT), get(record, credit, AMOUNT)),
                None => (get(record, columns.balance, AMOUNT), 0),
            };
            sums[2 * section] += debit;
            sums[2 * section + 1] += credit;
        }
    }
    sums
}
