//! The reference, answering as include/f24.h says that the library does.

use crate::calls::*;
use reference::{Answer, EpSummary, Kept, Refusal, State, Summary};

/// Makes a call on a flow and writes its answer into the room.
pub fn call(call: &Call, flow: &mut [u8], room: &mut [u64]) -> u64 {
    if room.len() < call.needs() {
        return NO_ROOM;
    }
    let refusal = match *call {
        Call::Judge => match reference::judge(flow) {
            Ok(summary) => {
                put_summary(room, &summary);
                return 0;
            }
            Err(refusal) => refusal,
        },
        Call::Delega { number } => match reference::delega(flow, number) {
            Ok(delega) => {
                room[0] = delega.final_balance;
                room[1] = delega.lines;
                room[2] = delega.set;
                room[3] = delega.size;
                put_sums(&mut room[SUMS..], &delega.sums);
                return 0;
            }
            Err(refusal) => refusal,
        },
        Call::Find { delega, subtype, place } => match reference::find(flow, delega, subtype, place) {
            Ok(record) => {
                room[0] = record as u64;
                return 0;
            }
            Err(refusal) => refusal,
        },
        Call::Correct { delega, subtype, place, debit, credit } => {
            match reference::correct(flow, delega, subtype, place, debit, credit) {
                Ok(()) => return 0,
                Err(refusal) => refusal,
            }
        }
    };
    put_refusal(room, &refusal)
}

/// How many numbers the answer of a writing needs room for.
pub const WRITE_NEEDS: usize = 2;

/// Writes the flow of a sheet into the room, and the answer.
pub fn write(sheet: &[u8], room: &mut [u8], answer: &mut [u64]) -> u64 {
    if answer.len() < WRITE_NEEDS {
        return NO_ROOM;
    }
    put_answer(answer, reference::write(sheet, room))
}

/// Writes the first state of a judgement by portions.
pub fn start(state: &mut [u64]) -> u64 {
    if state.len() < STATE_ROOM {
        return NO_ROOM;
    }
    state[..STATE_ROOM].copy_from_slice(&State::start().numbers());
    0
}

/// Judges a portion and writes the new state and the answer.
pub fn judge_portion(flow: &[u8], portion: u64, state: &mut [u64], answer: &mut [u64]) -> u64 {
    if state.len() < STATE_ROOM || answer.len() < PORTION_ROOM {
        return NO_ROOM;
    }
    let mut numbers = [0; STATE_ROOM];
    numbers.copy_from_slice(&state[..STATE_ROOM]);
    let answered = reference::judge_portion(flow, portion, &State::of(&numbers));
    answer[0] = answered.examined;
    if answered.answer != Answer::Foreign {
        state[..STATE_ROOM].copy_from_slice(&answered.state.numbers());
    }
    match answered.answer {
        Answer::NotEnded => NOT_ENDED,
        Answer::Foreign => FOREIGN,
        Answer::Ended(Ok(summary)) => {
            put_summary(&mut answer[1..], &summary);
            0
        }
        Answer::Ended(Err(refusal)) => put_refusal(&mut answer[1..], &refusal),
    }
}

/// Rebalances a flow and writes the list of what changed and the answer.
pub fn rebalance(flow: &mut [u8], changed: &mut [u64], answer: &mut [u64]) -> u64 {
    if answer.len() < REBALANCE_ROOM {
        return NO_ROOM;
    }
    put_answer(answer, reference::rebalance(flow, changed))
}

/// Drops the deleghe with these numbers from a flow and writes the answer.
pub fn drop_deleghe(flow: &mut [u8], numbers: &[u64], answer: &mut [u64]) -> u64 {
    if answer.len() < DROP_ROOM {
        return NO_ROOM;
    }
    put_answer(answer, reference::drop_deleghe(flow, numbers))
}

/// Makes the record of a flow's sums and writes the answer.
pub fn kept(flow: &[u8], kept: &mut [u64], answer: &mut [u64]) -> u64 {
    if kept.len() < SUMS_ROOM || answer.len() < KEPT_ROOM {
        return NO_ROOM;
    }
    match Kept::made(flow) {
        Ok(made) => {
            kept[..SUMS_ROOM].copy_from_slice(&made.numbers());
            0
        }
        Err(refusal) => put_refusal(answer, &refusal),
    }
}

/// Corrects a line and writes the record and the answer.
pub fn correct_kept(
    flow: &mut [u8],
    [delega, subtype, place, debit, credit]: [u64; 5],
    kept: &mut [u64],
    answer: &mut [u64],
) -> u64 {
    if kept.len() < SUMS_ROOM || answer.len() < CORRECT_ROOM {
        return NO_ROOM;
    }
    match with_record(kept, |record| record.correct(flow, delega, subtype, place, debit, credit)) {
        Ok(()) => 0,
        Err(refusal) => put_refusal(answer, &refusal),
    }
}

/// Rebalances a flow and writes the list of what changed, the record and the answer.
pub fn rebalance_kept(flow: &mut [u8], changed: &mut [u64], kept: &mut [u64], answer: &mut [u64]) -> u64 {
    if kept.len() < SUMS_ROOM || answer.len() < REBALANCE_ROOM {
        return NO_ROOM;
    }
    put_answer(answer, with_record(kept, |record| record.rebalance(flow, changed)))
}

/// Drops the deleghe with these numbers and writes the record and the answer.
pub fn drop_kept(flow: &mut [u8], numbers: &[u64], kept: &mut [u64], answer: &mut [u64]) -> u64 {
    if kept.len() < SUMS_ROOM || answer.len() < DROP_ROOM {
        return NO_ROOM;
    }
    put_answer(answer, with_record(kept, |record| record.drop_deleghe(flow, numbers)))
}

/// Judges records of the F24 EP form and writes the answer.
pub fn ep_judge(records: &[u8], answer: &mut [u64]) -> u64 {
    if answer.len() < EP_ROOM {
        return NO_ROOM;
    }
    match reference::judge_ep(records) {
        Ok(EpSummary { payments, total }) => {
            answer[..EP_ROOM].copy_from_slice(&[payments, total]);
            0
        }
        Err(refusal) => put_refusal(answer, &refusal),
    }
}

/// Lends the record that stands in the first ten numbers, and writes what comes back.
fn with_record<T>(kept: &mut [u64], call: impl FnOnce(&mut Kept) -> T) -> T {
    let mut numbers = [0; SUMS_ROOM];
    numbers.copy_from_slice(&kept[..SUMS_ROOM]);
    let mut record = Kept::of(&numbers);
    let answered = call(&mut record);
    kept[..SUMS_ROOM].copy_from_slice(&record.numbers());
    answered
}

/// Writes the one number that a call answers with, or the refusal.
fn put_answer(answer: &mut [u64], answered: Result<usize, Refusal>) -> u64 {
    match answered {
        Ok(number) => {
            answer[0] = number as u64;
            0
        }
        Err(refusal) => put_refusal(answer, &refusal),
    }
}

/// Writes where a flow or a sheet is refused, and gives the refusal's number.
fn put_refusal(answer: &mut [u64], refusal: &Refusal) -> u64 {
    answer[0] = refusal.record as u64;
    answer[1] = refusal.position as u64;
    u64::from(refusal.number)
}

/// Writes the summary of a flow.
fn put_summary(room: &mut [u64], summary: &Summary) {
    room[0] = summary.deleghe;
    room[1] = summary.records as u64;
    room[2] = summary.total;
    room[3] = summary.lines;
    put_sums(&mut room[SUMS..], &summary.sums);
}

/// Writes the five sections' sums, debit and credit in turn.
pub fn put_sums(room: &mut [u64], sums: &[(u64, u64); 5]) {
    for (pair, &(debit, credit)) in room.chunks_exact_mut(2).zip(sums) {
        pair[0] = debit;
        pair[1] = credit;
    }
}
