//! What a run tries before its first case of the F24 EP form: rooms of every length,
//! types in every order, every row and every place, every byte of a type and a text.

use crate::calls::EP_ROOM;
use crate::ep_account;
use crate::ep_columns::*;
use crate::ep_judging::{Compared, Sides, MORE};
use crate::ep_sound::{self, text_of, Form};
use crate::rng::Rng;

/// How many calls were made.
pub fn compare(sides: &mut Sides) -> Compared<u64> {
    let mut every = Every { sides, rng: Rng::new(24, 40, 0), calls: 0 };
    every.rooms()?;
    every.orders()?;
    every.places()?;
    every.row_types()?;
    every.characters()?;
    Ok(every.calls)
}

struct Every<'a> {
    sides: &'a mut Sides,
    rng: Rng,
    calls: u64,
}

/// A V with a debit in one row.
fn form_of(row: usize, debit: u64) -> Form {
    let mut rows = [None; ROWS];
    rows[row] = Some(debit);
    Form { rows }
}

impl Every<'_> {
    fn call(&mut self, records: &[u8]) -> Compared<u64> {
        self.calls += 1;
        let says = ep_account::told(records);
        self.sides.compare(&mut self.rng, records, EP_ROOM + MORE, says).map(|left| left.code)
    }

    /// The answer must be this.
    fn must(&mut self, records: &[u8], code: u64) -> Compared<()> {
        let answered = self.call(records)?;
        assert!(answered == code, "before the first case {answered} is answered, the generator says {code}");
        Ok(())
    }

    /// An M of this sum and a V with a debit in one row.
    fn pair(&mut self, sum: u64, row: usize, debit: u64) -> Vec<u8> {
        let rng = &mut self.rng;
        [ep_sound::m(rng, sum), ep_sound::v(rng, &form_of(row, debit))].concat()
    }

    fn rooms(&mut self) -> Compared<()> {
        let accepted = self.pair(1230, 27, 1230);
        let wrong = self.pair(1230, 27, 1231);
        let mut letters = accepted.clone();
        letters[RECORD + FINAL_BALANCE] = b'x';
        let alone = accepted[..RECORD].to_vec();
        for records in [accepted, wrong, letters, alone, Vec::new(), vec![b'M'; 7]] {
            let says = ep_account::told(&records);
            for room in 0..=EP_ROOM + MORE {
                self.calls += 1;
                self.sides.compare(&mut self.rng, &records, room, says)?;
            }
        }
        Ok(())
    }

    /// M, V and another type in every order of up to six records, with right totals, with
    /// wrong ones, and with V's that are wrong.
    fn orders(&mut self) -> Compared<()> {
        for length in 0..=6_u32 {
            for number in 0..3_usize.pow(length) {
                let kinds: Vec<u8> = (0..length).map(|place| b"MVX"[number / 3_usize.pow(place) % 3]).collect();
                for wrong in [b' ', b'M', b'V'] {
                    let records = self.of_kinds(&kinds, wrong);
                    self.call(&records)?;
                }
            }
        }
        Ok(())
    }

    fn of_kinds(&mut self, kinds: &[u8], wrong: u8) -> Vec<u8> {
        let mut records = Vec::new();
        for (at, &kind) in kinds.iter().enumerate() {
            let behind = kinds[at + 1..].iter().take_while(|&&kind| kind == b'V').count() as u64;
            let mut record = match kind {
                b'M' => ep_sound::m(&mut self.rng, 5 * behind),
                b'V' => ep_sound::v(&mut self.rng, &form_of(at % ROWS, 5)),
                kind => ep_sound::record(&mut self.rng, kind),
            };
            match kind {
                kind if kind != wrong => (),
                b'M' => put(&mut record, TOTAL, b"0,01 "),
                _ => put(&mut record, FINAL_BALANCE + 14, if at % 2 == 0 { b"6" } else { b"x" }),
            }
            records.extend(record);
        }
        records
    }

    /// A non-digit at every place of every row and of the balance, with the row used and
    /// unused.
    fn places(&mut self) -> Compared<()> {
        for row in 0..ROWS {
            for place in 0..WIDTH {
                for byte in [b' ', b'/', b':', 0xB0] {
                    let mut records = self.pair(0, row, 0);
                    records[RECORD + DEBIT_AT[row] - 1 + place] = byte;
                    self.must(&records, 32)?;
                    records[RECORD + TYPE_AT[row] - 1] = b' ';
                    self.must(&records, 0)?;
                    records[RECORD + FINAL_BALANCE - 1 + place] = byte;
                    self.must(&records, 32)?;
                }
                // Each digit counts for what its place says.
                let digit = 10_u64.pow((WIDTH - 1 - place) as u32);
                let mut records = self.pair(digit.min(MOST_TOTAL), row, digit);
                self.must(&records, if digit > MOST_TOTAL { 33 } else { 0 })?;
                put_amount(&mut records[RECORD..], FINAL_BALANCE, 0);
                self.must(&records, 33)?;
            }
        }
        Ok(())
    }

    /// Every byte as the type of every row, with a debit that is counted, and one that is no
    /// number.
    fn row_types(&mut self) -> Compared<()> {
        for row in 0..ROWS {
            let mut records = self.pair(7, row, 7);
            let mut letters = self.pair(0, row, 0);
            letters[RECORD + DEBIT_AT[row] - 1] = b'x';
            for kind in 0..=255 {
                records[RECORD + TYPE_AT[row] - 1] = kind;
                self.must(&records, if kind == b' ' { 33 } else { 0 })?;
                letters[RECORD + TYPE_AT[row] - 1] = kind;
                self.must(&letters, if kind == b' ' { 0 } else { 32 })?;
            }
        }
        Ok(())
    }

    /// Every byte at every place of texts of every length, and as the type of a record.
    fn characters(&mut self) -> Compared<()> {
        let sums = [0, 5, 1230, 99_999, 100_000, 99_999_999, 100_000_000, 99_999_999_999, 100_000_000_000, MOST_TOTAL];
        for sum in sums {
            let mut records = self.pair(sum, 3, sum);
            let right = text_of(sum).expect("none of them is too large");
            for place in 0..WIDTH {
                for byte in 0..=255 {
                    records[TOTAL - 1 + place] = byte;
                    self.must(&records, if byte == right[place] { 0 } else { 33 })?;
                }
                records[TOTAL - 1 + place] = right[place];
            }
        }
        let sound = self.pair(5, 0, 5);
        for at in [0, 1, 2, 3] {
            let mut records = sound.repeat(2);
            for kind in (0..=255).filter(|kind| !b"MV".contains(kind)) {
                records[at * RECORD] = kind;
                self.must(&records, 31)?;
            }
        }
        Ok(())
    }
}
