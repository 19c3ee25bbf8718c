//! The static library. Nothing checks these declarations against its source:
//! they repeat include/f24.h.

use crate::calls::Call;

/// What the calls of this build are.
#[cfg(not(stand_in))]
pub const NAME: &str = "library";

#[cfg(not(stand_in))]
#[link(name = "f24", kind = "static")]
extern "C" {
    fn f24_judge(flow: *const u8, flow_len: usize, answer: *mut u64, answer_len: usize) -> u64;
    fn f24_delega(flow: *const u8, flow_len: usize, number: u64, answer: *mut u64, answer_len: usize) -> u64;
    fn f24_find(
        flow: *const u8,
        flow_len: usize,
        delega: u64,
        subtype: u64,
        place: u64,
        answer: *mut u64,
        answer_len: usize,
    ) -> u64;
    fn f24_correct(
        flow: *mut u8,
        flow_len: usize,
        delega: u64,
        subtype: u64,
        place: u64,
        debit: u64,
        credit: u64,
        answer: *mut u64,
        answer_len: usize,
    ) -> u64;
    fn f24_write(
        sheet: *const u8,
        sheet_len: usize,
        room: *mut u8,
        room_len: usize,
        answer: *mut u64,
        answer_len: usize,
    ) -> u64;
    fn f24_start(state: *mut u64, state_len: usize) -> u64;
    fn f24_judge_portion(
        flow: *const u8,
        flow_len: usize,
        portion: u64,
        state: *mut u64,
        state_len: usize,
        answer: *mut u64,
        answer_len: usize,
    ) -> u64;
    fn f24_rebalance(
        flow: *mut u8,
        flow_len: usize,
        changed: *mut u64,
        changed_len: usize,
        answer: *mut u64,
        answer_len: usize,
    ) -> u64;
    fn f24_drop(
        flow: *mut u8,
        flow_len: usize,
        numbers: *const u64,
        numbers_len: usize,
        answer: *mut u64,
        answer_len: usize,
    ) -> u64;
    fn f24_kept(
        flow: *const u8,
        flow_len: usize,
        kept: *mut u64,
        kept_len: usize,
        answer: *mut u64,
        answer_len: usize,
    ) -> u64;
    fn f24_correct_kept(
        flow: *mut u8,
        flow_len: usize,
        delega: u64,
        subtype: u64,
        place: u64,
        debit: u64,
        credit: u64,
        kept: *mut u64,
        kept_len: usize,
        answer: *mut u64,
        answer_len: usize,
    ) -> u64;
    fn f24_rebalance_kept(
        flow: *mut u8,
        flow_len: usize,
        changed: *mut u64,
        changed_len: usize,
        kept: *mut u64,
        kept_len: usize,
        answer: *mut u64,
        answer_len: usize,
    ) -> u64;
    fn f24_drop_kept(
        flow: *mut u8,
        flow_len: usize,
        numbers: *const u64,
        numbers_len: usize,
        kept: *mut u64,
        kept_len: usize,
        answer: *mut u64,
        answer_len: usize,
    ) -> u64;
    fn f24_ep_judge(records: *const u8, len: usize, answer: *mut u64, answer_len: usize) -> u64;
}

/// Makes a call on a flow and lets the library write its answer into the room.
#[cfg(not(stand_in))]
pub fn call(call: &Call, flow: &mut [u8], room: &mut [u64]) -> u64 {
    let (bytes, length) = (flow.as_mut_ptr(), flow.len());
    let (answer, numbers) = (room.as_mut_ptr(), room.len());
    // SAFETY: both pointers are to slices of these lengths, lent for the call
    // alone and apart from each other; the library asks nothing else.
    unsafe {
        match *call {
            Call::Judge => f24_judge(bytes, length, answer, numbers),
            Call::Delega { number } => f24_delega(bytes, length, number, answer, numbers),
            Call::Find { delega, subtype, place } => f24_find(bytes, length, delega, subtype, place, answer, numbers),
            Call::Correct { delega, subtype, place, debit, credit } => {
                f24_correct(bytes, length, delega, subtype, place, debit, credit, answer, numbers)
            }
        }
    }
}

/// Lets the library write the flow of a sheet into the room, and its answer.
#[cfg(not(stand_in))]
pub fn write(sheet: &[u8], room: &mut [u8], answer: &mut [u64]) -> u64 {
    // SAFETY: the three pointers are to slices of these lengths, lent for the
    // call alone and apart from one another; the library asks nothing else.
    unsafe { f24_write(sheet.as_ptr(), sheet.len(), room.as_mut_ptr(), room.len(), answer.as_mut_ptr(), answer.len()) }
}

/// Lets the library write the first state of a judgement by portions.
#[cfg(not(stand_in))]
pub fn start(state: &mut [u64]) -> u64 {
    // SAFETY: the pointer is to a slice of this length, lent for the call alone.
    unsafe { f24_start(state.as_mut_ptr(), state.len()) }
}

/// Lets the library judge a portion and write the new state and its answer.
#[cfg(not(stand_in))]
pub fn judge_portion(flow: &[u8], portion: u64, state: &mut [u64], answer: &mut [u64]) -> u64 {
    let (numbers, length) = (state.as_mut_ptr(), state.len());
    // SAFETY: the three pointers are to slices of these lengths, lent for the
    // call alone and apart from one another; the library asks nothing else.
    unsafe { f24_judge_portion(flow.as_ptr(), flow.len(), portion, numbers, length, answer.as_mut_ptr(), answer.len()) }
}

/// Lets the library rebalance a flow and write the list of what changed and its
/// answer.
#[cfg(not(stand_in))]
pub fn rebalance(flow: &mut [u8], changed: &mut [u64], answer: &mut [u64]) -> u64 {
    let (list, numbers) = (changed.as_mut_ptr(), changed.len());
    // SAFETY: the three pointers are to slices of these lengths, lent for the
    // call alone and apart from one another; the library asks nothing else.
    unsafe { f24_rebalance(flow.as_mut_ptr(), flow.len(), list, numbers, answer.as_mut_ptr(), answer.len()) }
}

/// Lets the library drop the deleghe with these numbers from a flow and write its
/// answer.
#[cfg(not(stand_in))]
pub fn drop_deleghe(flow: &mut [u8], numbers: &[u64], answer: &mut [u64]) -> u64 {
    let (list, length) = (numbers.as_ptr(), numbers.len());
    // SAFETY: the three pointers are to slices of these lengths, lent for the
    // call alone and apart from one another; the library asks nothing else.
    unsafe { f24_drop(flow.as_mut_ptr(), flow.len(), list, length, answer.as_mut_ptr(), answer.len()) }
}

/// Lets the library make the record of a flow's sums and write its answer.
#[cfg(not(stand_in))]
pub fn kept(flow: &[u8], kept: &mut [u64], answer: &mut [u64]) -> u64 {
    // SAFETY: the three pointers are to slices of these lengths, lent for the
    // call alone and apart from one another; the library asks nothing else.
    unsafe { f24_kept(flow.as_ptr(), flow.len(), kept.as_mut_ptr(), kept.len(), answer.as_mut_ptr(), answer.len()) }
}

/// Lets the library correct a line, with delega, subtype, place, debit and credit, and
/// write the record and its answer.
#[cfg(not(stand_in))]
pub fn correct_kept(flow: &mut [u8], numbers: [u64; 5], kept: &mut [u64], answer: &mut [u64]) -> u64 {
    let [delega, subtype, place, debit, credit] = numbers;
    let (bytes, length) = (flow.as_mut_ptr(), flow.len());
    let (sums, ten) = (kept.as_mut_ptr(), kept.len());
    let (room, many) = (answer.as_mut_ptr(), answer.len());
    // SAFETY: as above.
    unsafe { f24_correct_kept(bytes, length, delega, subtype, place, debit, credit, sums, ten, room, many) }
}

/// Lets the library rebalance a flow and write the list of what changed, the record
/// and its answer.
#[cfg(not(stand_in))]
pub fn rebalance_kept(flow: &mut [u8], changed: &mut [u64], kept: &mut [u64], answer: &mut [u64]) -> u64 {
    let (bytes, length) = (flow.as_mut_ptr(), flow.len());
    let (list, numbers) = (changed.as_mut_ptr(), changed.len());
    let (sums, ten) = (kept.as_mut_ptr(), kept.len());
    // SAFETY: the four pointers are to slices of these lengths, lent for the
    // call alone and apart from one another; the library asks nothing else.
    unsafe { f24_rebalance_kept(bytes, length, list, numbers, sums, ten, answer.as_mut_ptr(), answer.len()) }
}

/// Lets the library drop the deleghe with these numbers and write the record and its
/// answer.
#[cfg(not(stand_in))]
pub fn drop_kept(flow: &mut [u8], numbers: &[u64], kept: &mut [u64], answer: &mut [u64]) -> u64 {
    let (bytes, length) = (flow.as_mut_ptr(), flow.len());
    let (sums, ten) = (kept.as_mut_ptr(), kept.len());
    let (room, many) = (answer.as_mut_ptr(), answer.len());
    // SAFETY: as above.
    unsafe { f24_drop_kept(bytes, length, numbers.as_ptr(), numbers.len(), sums, ten, room, many) }
}

/// Lets the library judge records of the F24 EP form and write its answer.
#[cfg(not(stand_in))]
pub fn ep_judge(records: &[u8], answer: &mut [u64]) -> u64 {
    // SAFETY: both pointers are to slices of these lengths, lent for the call
    // alone and apart from each other; the library asks nothing else.
    unsafe { f24_ep_judge(records.as_ptr(), records.len(), answer.as_mut_ptr(), answer.len()) }
}

/// A build with `--cfg stand_in` links no library: the reference takes its
/// place, and nothing is compared but the reference with itself.
#[cfg(stand_in)]
pub const NAME: &str = "reference in the library's place";

#[cfg(stand_in)]
pub fn call(call: &Call, flow: &mut [u8], room: &mut [u64]) -> u64 {
    crate::rival::call(call, flow, room)
}

#[cfg(stand_in)]
pub fn write(sheet: &[u8], room: &mut [u8], answer: &mut [u64]) -> u64 {
    crate::rival::write(sheet, room, answer)
}

#[cfg(stand_in)]
pub fn start(state: &mut [u64]) -> u64 {
    crate::rival::start(state)
}

#[cfg(stand_in)]
pub fn judge_portion(flow: &[u8], portion: u64, state: &mut [u64], answer: &mut [u64]) -> u64 {
    crate::rival::judge_portion(flow, portion, state, answer)
}

#[cfg(stand_in)]
pub fn rebalance(flow: &mut [u8], changed: &mut [u64], answer: &mut [u64]) -> u64 {
    crate::rival::rebalance(flow, changed, answer)
}

#[cfg(stand_in)]
pub fn drop_deleghe(flow: &mut [u8], numbers: &[u64], answer: &mut [u64]) -> u64 {
    crate::rival::drop_deleghe(flow, numbers, answer)
}

#[cfg(stand_in)]
pub fn kept(flow: &[u8], kept: &mut [u64], answer: &mut [u64]) -> u64 {
    crate::rival::kept(flow, kept, answer)
}

#[cfg(stand_in)]
pub fn correct_kept(flow: &mut [u8], numbers: [u64; 5], kept: &mut [u64], answer: &mut [u64]) -> u64 {
    crate::rival::correct_kept(flow, numbers, kept, answer)
}

#[cfg(stand_in)]
pub fn rebalance_kept(flow: &mut [u8], changed: &mut [u64], kept: &mut [u64], answer: &mut [u64]) -> u64 {
    crate::rival::rebalance_kept(flow, changed, kept, answer)
}

#[cfg(stand_in)]
pub fn drop_kept(flow: &mut [u8], numbers: &[u64], kept: &mut [u64], answer: &mut [u64]) -> u64 {
    crate::rival::drop_kept(flow, numbers, kept, answer)
}

#[cfg(stand_in)]
pub fn ep_judge(records: &[u8], answer: &mut [u64]) -> u64 {
    crate::rival::ep_judge(records, answer)
}
