//! The entry that a fuzzer calls. Its input is a flow; the calls that are made
//! on it come from the flow's own bytes. The program ends at a difference.

#![allow(dead_code, unknown_lints, unexpected_cfgs)]

mod calendar;
mod calls;
mod codes;
mod columns;
mod comparer;
mod correction;
mod dates;
mod ffi;
mod heads;
mod lent;
mod lines;
mod payers;
mod quick;
mod report;
mod rival;
mod rng;
mod sorts;
mod sound;
mod taxcodes;

use calls::Call;
use comparer::{Compared, Comparer};
use rng::Rng;
use std::cell::RefCell;
use std::path::Path;

/// Longer input shows nothing that refusal 1 has not shown.
const LONGEST: usize = 66_000;

thread_local! {
    static COMPARER: RefCell<Comparer> = RefCell::new(Comparer::new());
}

/// # Safety
/// `bytes` points to `length` bytes.
#[no_mangle]
pub unsafe extern "C" fn LLVMFuzzerTestOneInput(bytes: *const u8, length: usize) -> i32 {
    if length > LONGEST {
        return 0;
    }
    let flow: &[u8] = if length == 0 { &[] } else { std::slice::from_raw_parts(bytes, length) };
    COMPARER.with(|comparer| {
        if let Err(difference) = every(&mut comparer.borrow_mut(), flow) {
            let folder = std::env::var("COMPARE_FOLDER").unwrap_or_else(|_| "difference".to_string());
            match report::write(Path::new(&folder), "found by the fuzzer", &difference) {
                Ok(text) => eprintln!("\nDIFFERENCE\n{text}files: {folder}"),
                Err(error) => eprintln!("\nDIFFERENCE, and {folder}: {error}"),
            }
            std::process::abort();
        }
    });
    0
}

fn every(comparer: &mut Comparer, flow: &[u8]) -> Compared<()> {
    let from = flow.iter().fold(24, |hash: u64, &byte| (hash ^ u64::from(byte)).wrapping_mul(0x0100_0000_01B3));
    let mut rng = Rng::new(from, 7, 0);
    let accepted = comparer.compare(&mut rng, Call::Judge, flow)? == 0;
    for _ in 0..if accepted { 12 } else { 2 } {
        let call = correction::anything(&mut rng);
        comparer.compare(&mut rng, call, flow)?;
    }
    Ok(())
}
