//! What the calls with a record of sums cost, on the flow of 546 records.

use crate::calls::{Record, CHANGED_MOST, CORRECT_ROOM, DROP_ROOM, KEPT_ROOM, REBALANCE_ROOM, SUMS_ROOM};
use crate::flows::{self, Spot};
use crate::{ffi, opaque, rival};

/// The functions of one side.
struct Side {
    kept: fn(&[u8], &mut [u64], &mut [u64]) -> u64,
    correct: fn(&mut [u8], [u64; 5], &mut [u64], &mut [u64]) -> u64,
    rebalance: fn(&mut [u8], &mut [u64], &mut [u64], &mut [u64]) -> u64,
    drop: fn(&mut [u8], &[u64], &mut [u64], &mut [u64]) -> u64,
}

const LIBRARY: Side = Side {
    kept: ffi::kept,
    correct: ffi::correct_kept,
    rebalance: ffi::rebalance_kept,
    drop: ffi::drop_kept,
};

const REFERENCE: Side = Side {
    kept: rival::kept,
    correct: rival::correct_kept,
    rebalance: rival::rebalance_kept,
    drop: rival::drop_kept,
};

/// Nobody drops and does no more: the copy that comes before it is left.
const NOBODY: Side = Side { drop: |_, _, _, _| 0, ..REFERENCE };

/// Makes a call so many times. A correction goes to other amounts and back, in turns;
/// a flow that is shortened is copied anew each time, and its record with it.
pub fn calls(who: &str, call: &str, times: u64) -> Option<()> {
    let side = match (who, call) {
        ("library", _) => LIBRARY,
        ("reference", _) => REFERENCE,
        ("nobody", "drop-kept") => NOBODY,
        _ => return None,
    };
    let (flow, spot) = flows::middle();
    let mut record: Record = [0; SUMS_ROOM];
    let code = rival::kept(&flow, &mut record, &mut [0; KEPT_ROOM]);
    assert!(code == 0, "the flow is refused {code}");
    let (mut lent, mut list) = (flow.clone(), [0; CHANGED_MOST]);
    for turn in 0..times {
        let code = match call {
            "kept" => opaque(side.kept)(&flow, &mut record, &mut [0; KEPT_ROOM]),
            "correct-kept" => opaque(side.correct)(&mut lent, amounts(&spot, turn), &mut record, &mut [0; CORRECT_ROOM]),
            "rebalance-kept" => opaque(side.rebalance)(&mut lent, &mut list, &mut record, &mut [0; REBALANCE_ROOM]),
            "drop-kept" => {
                lent.copy_from_slice(&flow);
                let mut record = record;
                opaque(side.drop)(&mut lent, &[spot.delega], &mut record, &mut [0; DROP_ROOM])
            }
            _ => return None,
        };
        assert!(code == 0, "{call} by the {who} is refused {code}");
    }
    Some(())
}

/// The line in the middle with another debit, and with its own.
fn amounts(spot: &Spot, turn: u64) -> [u64; 5] {
    let Spot { delega, subtype, place, amounts: (debit, credit) } = *spot;
    [delega, subtype, place, debit + if turn % 2 == 0 { 12_345 } else { 0 }, credit]
}
