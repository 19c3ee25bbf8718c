//! The fast judge, answering as include/f24.h says that the library does.

use crate::calls::{Call, NO_ROOM, SUMS};
use crate::rival::put_sums;
use fast::{Refusal, Summary};

pub const NAME: &str = "fast judge";

/// Judges a flow and writes the answer into the room.
pub fn judge(flow: &[u8], room: &mut [u64]) -> u64 {
    if room.len() < Call::Judge.needs() {
        return NO_ROOM;
    }
    match fast::judge(flow) {
        Ok(Summary { deleghe, records, total, lines, sums }) => {
            room[..SUMS].copy_from_slice(&[deleghe, records as u64, total, lines]);
            put_sums(&mut room[SUMS..], &sums);
            0
        }
        Err(Refusal { number, record, position }) => {
            room[..2].copy_from_slice(&[record as u64, position as u64]);
            u64::from(number)
        }
    }
}
