//! One section: "one or more lines and then its balance record".

use crate::faults::{ensure, fault, seven, unexpected, Fault, Kind};
use crate::layout::*;
use crate::number::FORTY;
use crate::walk::Walk;
use crate::words::{amount, Amounts, Columns};

impl Walk<'_> {
    /// A section's lines and its balance record. A function of its own for
    /// each section, so that the loop has the machine's registers to itself.
    #[inline(never)]
    pub fn section<const INDEX: usize>(&mut self) -> Result<(), Fault> {
        let section = &SECTIONS[INDEX];
        let mut columns = Columns::ZERO;
        let mut room = section.most_lines;
        let mut record = self.front()?;
        while self.number.is_in_part(record, FORTY, section.line) {
            room = room.checked_sub(1).ok_or(fault(6, SUBTYPE))?;
            columns = columns.plus(line::<INDEX>(record)?);
            self.pass();
            record = self.front()?;
        }
        if !self.number.is_in_part(record, FORTY, section.balance) {
            return Err(unexpected(record, Some(Kind::Line(INDEX)), room == 0));
        }
        let (debits, credits) = columns.sums();
        let credits = if section.credit_allowed { credits } else { 0 };
        judge_balance::<INDEX>(record, debits, credits)?;
        self.pass();
        self.others += 1;
        self.debits += debits;
        self.credits += credits;
        self.sums[INDEX].0 += debits;
        self.sums[INDEX].1 += credits;
        Ok(())
    }
}

/// The amounts of a line.
#[inline(always)]
fn line<const INDEX: usize>(record: &Record) -> Result<Amounts, Fault> {
    let section = &SECTIONS[INDEX];
    let amounts = match Amounts::read(record, section.debit_at) {
        Some(amounts) => amounts,
        None => return Err(seven(record, Kind::Line(INDEX))),
    };
    ensure(!amounts.both_zero(), 9, section.debit_at)?;
    ensure(section.credit_allowed || amounts.credit_zero(), 9, section.debit_at + AMOUNT)?;
    Ok(amounts)
}

/// A balance record against the sums of its section's lines.
#[inline(always)]
fn judge_balance<const INDEX: usize>(record: &Record, debits: u64, credits: u64) -> Result<(), Fault> {
    let section = &SECTIONS[INDEX];
    let balance_at = section.sign_at + 1;
    let totals = match section.totals_at {
        Some(totals_at) => Amounts::read(record, totals_at).map(Amounts::values),
        None => Some((0, 0)),
    };
    let ((total_debit, total_credit), balance) = match (totals, amount(record, balance_at)) {
        (Some(totals), Some(balance)) => (totals, balance),
        _ => return Err(seven(record, Kind::Balance(INDEX))),
    };
    if let Some(totals_at) = section.totals_at {
        ensure(total_debit == debits, 10, totals_at)?;
        ensure(total_credit == credits, 11, totals_at + AMOUNT)?;
    }
    // "N when debits are below credits, P in all other cases, zero included"
    let (sign, difference) = if debits < credits { (b'N', credits - debits) } else { (b'P', debits - credits) };
    ensure(record[section.sign_at - 1] == sign, 12, section.sign_at)?;
    ensure(balance == difference, 13, balance_at)
}
