//! Every six digits as the date of one flow, and of the sheet from which that
//! flow is written: a million judgements by the library, the reference and the
//! fast judge, and a million writings by the first two, all of which the
//! generator knows.

use crate::calendar::{Date, DATES};
use crate::columns::Kind;
use crate::comparer::Comparer;
use crate::rng::Rng;
use crate::sheet::{self, Part};
use crate::sheet_damage::Case;
use crate::sound::{self, Pool};
use crate::writing::Writings;
use crate::{dates, ffi, trap, Failure};

/// All that six digits can be.
const SIX_DIGITS: u64 = 1_000_000;

pub fn compare() -> Result<(), Failure> {
    println!("every date from 000000 to 999999, the {} with the reference", ffi::NAME);
    trap::set();
    let taken = every(flows())?;
    println!("flows: {taken} accepted, {} refused", SIX_DIGITS - taken);
    let taken = every(sheets())?;
    println!("sheets: {taken} written, {} refused", SIX_DIGITS - taken);
    println!("no difference");
    Ok(())
}

/// Asks for the answer to each date, which must be the one that the generator
/// says. Gives the number of those that were taken.
fn every(mut ask: impl FnMut(Date, &str) -> Result<u64, Failure>) -> Result<u64, Failure> {
    let mut taken = 0;
    for number in 0..SIX_DIGITS {
        trap::at(trap::DATE, 0, number);
        let date = Date { day: number / 10_000, month: number / 100 % 100, year: number % 100 };
        let name = format!("date {number:06}");
        let code = ask(date, &name)?;
        let says = answer(date);
        assert!(code == says, "{name} is answered {code}, the generator says {says}");
        taken += u64::from(code == 0);
    }
    // What the century has is known without any calendar.
    assert!(taken == DATES, "{taken} dates were taken, the century has {DATES}");
    Ok(taken)
}

/// What a flow or a sheet that is sound but for its date is answered.
fn answer(date: Date) -> u64 {
    if date.exists() {
        0
    } else {
        17
    }
}

fn flows() -> impl FnMut(Date, &str) -> Result<u64, Failure> {
    let mut rng = Rng::new(24, 12, 0);
    let mut flow = sound::write(&mut rng, &Pool::new(24), &sound::printed()).bytes;
    let mut comparer = Comparer::new();
    move |date: Date, name: &str| {
        dates::set(&mut flow, date);
        let differs = |difference| Failure::Differs(name.to_string(), difference);
        comparer.compare_untallied(&mut rng, &flow).map_err(differs)
    }
}

fn sheets() -> impl FnMut(Date, &str) -> Result<u64, Failure> {
    let mut rng = Rng::new(24, 12, 1);
    let mut made = sheet::write(&mut rng, &Pool::new(24), &sound::printed());
    let mut writings = Writings::new();
    move |date: Date, name: &str| {
        if let Part::Record(Kind::Head, head) = &mut made.parts[0] {
            dates::set(head, date);
        }
        dates::set(&mut made.flow, date);
        let (sheet, flow) = (made.bytes(), made.flow.clone());
        let case = Case { sheet, room: flow.len(), known: Some(answer(date)), flow };
        let differs = |difference| Failure::SheetDiffers(name.to_string(), difference);
        writings.compare(&mut rng, &case).map_err(differs)
    }
}
