//! What judging costs: the library, the reference, the fast judge, and two
//! plain passes over the same bytes; and what the other calls cost the library
//! and the reference. `count` and `call` make one thing a number of times, for
//! a counter of instructions; `clock` takes the time of all, in turns; `memory`
//! measures the stack and the heap of one call.

#![allow(dead_code, unknown_lints, unexpected_cfgs)]

mod bench_kept;
mod calendar;
mod calls;
mod codes;
mod columns;
mod dates;
mod ffi;
mod flows;
mod memory;
mod quick;
mod rival;
mod rng;
mod sound;
mod taxcodes;

use calls::{Call, CHANGED_MOST, DROP_ROOM, MOST_NUMBERS, REBALANCE_ROOM};
use columns::RECORD;
use flows::{Spot, CASES};
use std::io::Write;
use std::process::ExitCode;
use std::time::Instant;

const USAGE: &str = "usage:
  bench cases                     names the cases: name, records, answer, record and position of a refusal
  bench flow CASE                 writes the flow of a case to standard output
  bench count WHO CASE TIMES      judges; WHO is library, reference, fast, characters or sum
  bench call WHO CALL TIMES       on the flow of 546 records; WHO is library or reference, CALL delega, find, correct,
                                  rebalance, blanked for a rebalancing with every stored field blanked before it, drop
                                  for one delega in the middle that is dropped, or halved for every other one; or, with
                                  a record of sums, kept, correct-kept, rebalance-kept or drop-kept; WHO may be nobody
                                  with blanked, drop, halved and drop-kept, which then copies the flow alone
  bench clock ROUNDS              times them all, in turns: nanoseconds per flow, the median of the rounds
  bench memory                    bytes of stack and of heap that one call takes on each case";

const WHO: [&str; 5] = ["library", "reference", "fast", "characters", "sum"];

pub type Work = fn(&mut [u8], &mut [u64]) -> u64;

#[inline(never)]
fn library(flow: &mut [u8], room: &mut [u64]) -> u64 {
    ffi::call(&Call::Judge, flow, room)
}

#[inline(never)]
fn reference_judge(flow: &mut [u8], room: &mut [u64]) -> u64 {
    rival::call(&Call::Judge, flow, room)
}

#[inline(never)]
fn fast_judge(flow: &mut [u8], room: &mut [u64]) -> u64 {
    quick::judge(flow, room)
}

/// The character test alone.
#[inline(never)]
fn characters(flow: &mut [u8], _: &mut [u64]) -> u64 {
    let farthest = flow.iter().map(|byte| byte.wrapping_sub(32)).fold(0, u8::max);
    u64::from(farthest > 126 - 32)
}

/// A sum of all bytes.
#[inline(never)]
fn sum(flow: &mut [u8], _: &mut [u64]) -> u64 {
    u64::from(flow.iter().map(|&byte| u32::from(byte)).sum::<u32>())
}

fn work(who: &str) -> Option<Work> {
    match who {
        "library" => Some(library),
        "reference" => Some(reference_judge),
        "fast" => Some(fast_judge),
        "characters" => Some(characters),
        "sum" => Some(sum),
        _ => None,
    }
}

/// Hides from the compiler what a value is.
fn opaque<T: Copy>(value: T) -> T {
    // SAFETY: reads a value that is there.
    unsafe { std::ptr::read_volatile(&value) }
}

fn repeat(work: Work, flow: &mut [u8], times: u64) -> u64 {
    let mut room = [0; MOST_NUMBERS];
    let mut all = 0_u64;
    for _ in 0..times {
        let work = opaque(work);
        all = all.wrapping_add(work(flow, &mut room)).wrapping_add(room[0]);
    }
    opaque(all)
}

fn main() -> ExitCode {
    let words: Vec<String> = std::env::args().skip(1).collect();
    let words: Vec<&str> = words.iter().map(String::as_str).collect();
    match run(&words) {
        Some(()) => ExitCode::SUCCESS,
        None => {
            eprintln!("{USAGE}");
            ExitCode::from(2)
        }
    }
}

fn run(words: &[&str]) -> Option<()> {
    match *words {
        ["cases"] => cases(),
        ["flow", case] => std::io::stdout().write_all(&flows::flow(case)?).ok(),
        ["count", who, case, times] => {
            repeat(work(who)?, &mut flows::flow(case)?, times.parse().ok()?);
            Some(())
        }
        ["call", who, call, times] => calls(who, call, times.parse().ok()?),
        ["clock", rounds] => clock(rounds.parse().ok()?),
        ["memory"] => memory_of_all(),
        _ => None,
    }
}

/// Prints a line for each case, on which all three judges must agree.
fn cases() -> Option<()> {
    for case in CASES {
        let mut flow = flows::flow(case)?;
        let records = flow.len() / RECORD;
        let mut room = [0; MOST_NUMBERS];
        let code = library(&mut flow, &mut room);
        for (name, judge) in [("reference", reference_judge as Work), ("fast judge", fast_judge)] {
            let mut again = [0; MOST_NUMBERS];
            let same = judge(&mut flow, &mut again) == code && room == again;
            assert!(same, "the library and the {name} differ on case {case}");
        }
        if code == 0 {
            println!("{case} {records} accepted");
        } else {
            println!("{case} {records} refused {code} {} {}", room[0], room[1]);
        }
    }
    Some(())
}

/// Makes a call so many times on the flow of 546 records. A correction goes to
/// other amounts and back, in turns.
fn calls(who: &str, call: &str, times: u64) -> Option<()> {
    match call {
        "rebalance" => return rebalance(who, &flows::middle().0, false, times),
        "blanked" => return rebalance(who, &flows::blanked(), true, times),
        "kept" | "correct-kept" | "rebalance-kept" | "drop-kept" => return bench_kept::calls(who, call, times),
        _ => (),
    }
    let (mut flow, spot) = flows::middle();
    match call {
        "drop" => return drop_deleghe(who, &flow, &[spot.delega], times),
        "halved" => return drop_deleghe(who, &flow, &flows::every_other(&flow), times),
        _ => (),
    }
    let Spot { delega, subtype, place, amounts: (debit, credit) } = spot;
    let correct = |debit| Call::Correct { delega, subtype, place, debit, credit };
    let turns = match call {
        "delega" => [Call::Delega { number: delega }; 2],
        "find" => [Call::Find { delega, subtype, place }; 2],
        "correct" => [correct(debit + 12_345), correct(debit)],
        _ => return None,
    };
    let side: fn(&Call, &mut [u8], &mut [u64]) -> u64 = match who {
        "library" => ffi::call,
        "reference" => rival::call,
        _ => return None,
    };
    let mut room = [0; MOST_NUMBERS];
    for turn in 0..times {
        let code = opaque(side)(&opaque(turns[turn as usize % 2]), &mut flow, &mut room);
        assert!(code == 0, "{call} by the {who} is refused {code}");
    }
    Some(())
}

/// Rebalances a flow so many times with a list that is long enough. One that is
/// changed by it is copied anew each time; nobody copies it and does no more.
fn rebalance(who: &str, flow: &[u8], anew: bool, times: u64) -> Option<()> {
    let side: fn(&mut [u8], &mut [u64], &mut [u64]) -> u64 = match who {
        "library" => ffi::rebalance,
        "reference" => rival::rebalance,
        "nobody" if anew => |_, _, answer| {
            answer[0] = 1;
            0
        },
        _ => return None,
    };
    let mut lent = flow.to_vec();
    let (mut list, mut answer) = ([0; CHANGED_MOST], [0; REBALANCE_ROOM]);
    for _ in 0..times {
        if anew {
            lent.copy_from_slice(flow);
        }
        let code = opaque(side)(&mut lent, &mut list, &mut answer);
        assert!(code == 0 && (answer[0] > 0) == anew, "a rebalancing by the {who} is answered {code} {answer:?}");
    }
    Some(())
}

/// Drops deleghe from a flow so many times, which is copied anew each time; nobody
/// copies it and does no more.
fn drop_deleghe(who: &str, flow: &[u8], numbers: &[u64], times: u64) -> Option<()> {
    let side: fn(&mut [u8], &[u64], &mut [u64]) -> u64 = match who {
        "library" => ffi::drop_deleghe,
        "reference" => rival::drop_deleghe,
        "nobody" => |_, _, answer| {
            answer[0] = 0;
            0
        },
        _ => return None,
    };
    let mut lent = flow.to_vec();
    let mut answer = [0; DROP_ROOM];
    for _ in 0..times {
        lent.copy_from_slice(flow);
        let code = opaque(side)(&mut lent, numbers, &mut answer);
        let done = code == 0 && answer[0] < flow.len() as u64;
        assert!(done, "a dropping by the {who} is answered {code} {answer:?}");
    }
    Some(())
}

/// Prints a line for each case: its name, then the medians.
fn clock(rounds: usize) -> Option<()> {
    for case in CASES {
        let mut flow = flows::flow(case)?;
        // About the same number of records in each turn.
        let times = 40_000 * RECORD as u64 / flow.len() as u64;
        let mut taken: [Vec<f64>; WHO.len()] = Default::default();
        for _ in 0..rounds.max(1) {
            for (who, taken) in WHO.iter().zip(taken.iter_mut()) {
                let work = work(who)?;
                let start = Instant::now();
                repeat(work, &mut flow, times);
                taken.push(start.elapsed().as_nanos() as f64 / times as f64);
            }
        }
        print!("{case}");
        for all in taken.iter_mut() {
            all.sort_by(f64::total_cmp);
            print!(" {:.1}", all[all.len() / 2]);
        }
        println!();
    }
    Some(())
}

/// Prints a line for each case: its name, then stack and heap of each judge.
fn memory_of_all() -> Option<()> {
    for case in CASES {
        let mut flow = flows::flow(case)?;
        print!("{case}");
        for who in &WHO[..3] {
            let work = work(who)?;
            print!(" {} {}", memory::stack(work, &mut flow), memory::heap(work, &mut flow));
        }
        println!();
    }
    Some(())
}
