//! Refusal 3: "a byte outside 32 to 126".

use crate::layout::RECORD;

/// As many bytes as a vector of the plainest x86-64 has.
const LANES: usize = 16;

/// The place of the first byte outside 32 to 126, counted from 0.
pub fn first_bad(records: &[u8]) -> Option<usize> {
    if all_good(records) {
        return None;
    }
    // Half of the records fall away each time.
    let (mut among, mut before) = (records, 0);
    while among.len() > RECORD {
        let (first, second) = among.split_at(among.len() / RECORD / 2 * RECORD);
        if all_good(first) {
            before += first.len();
            among = second;
        } else {
            among = first;
        }
    }
    Some(before + among.iter().take_while(|byte| (32..=126).contains(*byte)).count())
}

/// Whether whole records have no bad byte: the farthest distance from 32, on
/// which the bytes below 32 come out last. Nothing ends it early, and all
/// lanes are alike, so that the compiler makes vectors of them.
fn all_good(records: &[u8]) -> bool {
    let mut farthest = [0; LANES];
    // Two records are fifteen vectors.
    let pairs = records.chunks_exact(2 * RECORD);
    let single = pairs.remainder();
    for pair in pairs {
        widen(&mut farthest, pair);
    }
    // One is seven and a half: its last vector goes over some bytes again.
    if single.len() == RECORD {
        widen(&mut farthest, single);
        widen(&mut farthest, &single[RECORD - LANES..]);
    }
    farthest.iter().all(|&distance| distance <= 126 - 32)
}

#[inline(always)]
fn widen(farthest: &mut [u8; LANES], bytes: &[u8]) {
    for part in bytes.chunks_exact(LANES) {
        for (farthest, byte) in farthest.iter_mut().zip(part) {
            *farthest = byte.wrapping_sub(32).max(*farthest);
        }
    }
}
