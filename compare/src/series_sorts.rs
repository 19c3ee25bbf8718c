//! The sorts of series: from the start, from ended states, from those of other
//! flows and from forged ones, and on bytes that are no flow.

use crate::calls::{FOREIGN, NOT_ENDED, STATE_ROOM};
use crate::columns::*;
use crate::damage;
use crate::forged;
use crate::portion::{is_whole, Compared, Difference, Gave, Numbers};
use crate::rng::Rng;
use crate::series::{from_start, Known, Series};
use crate::sound::{self, Amounts, Pool, Size};

/// One series of a sort.
pub type Make = fn(&mut Series, &mut Rng, &Pool) -> Compared<()>;

/// The sorts of series, each drawn alike.
pub const SORTS: [(Make, &str); 18] = [
    (any_portions, "any portions"),
    (with_zeros, "zeros between"),
    (ones, "portions of 1"),
    (huge, "a huge portion"),
    (edges, "portions around the last record"),
    (larger, "a larger portion"),
    (again_same, "ended, the same flow"),
    (again_other, "ended, another flow"),
    (other_same_length, "another flow's state, one length"),
    (other_length, "another flow's state, any length"),
    (altered_before, "altered where it was examined"),
    (altered_behind, "altered behind the portion"),
    (altered_next, "altered where it is examined next"),
    (forged_one, "one number forged"),
    (forged_two, "two numbers forged"),
    (forged_refusal, "a refusal forged"),
    (forged_all, "all numbers forged"),
    (lengths, "no flow by its length"),
];

// ------------------------------------------------------------------- flows

fn size(rng: &mut Rng) -> Size {
    match rng.below(1000) {
        0..=149 => Size::Least,
        150..=599 => Size::Tiny,
        600..=919 => Size::Small,
        920..=984 => Size::Medium,
        985..=994 => Size::Large,
        _ => Size::Full,
    }
}

/// A flow, sound or not.
fn any_flow(rng: &mut Rng, pool: &Pool) -> Vec<u8> {
    let size = size(rng);
    if rng.one_in(3) {
        let plan = sound::plan(rng, size);
        return sound::write(rng, pool, &plan).bytes;
    }
    damage::flow_of(rng, pool, size).flow
}

/// One that has whole records.
fn whole_flow(rng: &mut Rng, pool: &Pool) -> Vec<u8> {
    loop {
        let flow = any_flow(rng, pool);
        if is_whole(flow.len()) {
            return flow;
        }
    }
}

fn records(flow: &[u8]) -> u64 {
    (flow.len() / RECORD) as u64
}

/// A portion above zero, often around what the flow has, now and then one that
/// is small in fewer bits or times the length of a record.
fn portion(rng: &mut Rng, flow: &[u8]) -> u64 {
    let records = records(flow).clamp(1, MOST_RECORDS as u64 + 1);
    match rng.below(12) {
        0 => 1,
        1 => rng.between(records.max(2) - 1, records + 1),
        2 => rng.pick(&[u64::MAX, u64::MAX - 1, 1 << 63, 546, 547]),
        3 => rng.pick(&[1 << 8, 1 << 16, 1 << 32, (1 << 32) + 1, (1 << 61) + 1, u64::MAX / 120 + 1]),
        4..=7 => rng.between(1, 4),
        _ => rng.between(1, records),
    }
}

// ------------------------------------------------------------------ states

/// The state of a flow's own judgement after so many records at most, in one
/// portion or in two.
fn state_after(series: &mut Series, rng: &mut Rng, flow: &[u8], most: u64) -> Compared<Numbers> {
    let start = series.portions.start(rng)?;
    let first = rng.between(0, most);
    let half = series.call(rng, flow, first, &start)?.state;
    Ok(series.call(rng, flow, most - first, &half)?.state)
}

/// The same after any number of records, with the judgement mostly not ended.
fn any_state(series: &mut Series, rng: &mut Rng, flow: &[u8]) -> Compared<Numbers> {
    let all = records(flow).min(MOST_RECORDS as u64);
    let most = match rng.below(8) {
        0 => 0,
        1 => all,
        2 => all.saturating_sub(1),
        _ => rng.between(0, all.saturating_sub(1)),
    };
    state_after(series, rng, flow, most)
}

/// Goes on with the flow from a state, for a few calls.
fn go_on(series: &mut Series, rng: &mut Rng, flow: &[u8], mut state: Numbers) -> Compared<()> {
    for nth in 0..5 {
        let portion = match rng.below(4) {
            _ if nth == 4 => u64::MAX,
            0 if nth < 2 => 0,
            0 | 1 => 1,
            _ => portion(rng, flow),
        };
        let gave = series.call(rng, flow, portion, &state)?;
        state = gave.state;
        if gave.code != NOT_ENDED && (gave.code == FOREIGN || rng.one_in(2)) {
            break;
        }
    }
    Ok(())
}

// -------------------------------------------------------------- from the start

fn any_portions(series: &mut Series, rng: &mut Rng, pool: &Pool) -> Compared<()> {
    let flow = any_flow(rng, pool);
    from_start(series, rng, &flow, |rng| portion(rng, &flow)).map(drop)
}

fn with_zeros(series: &mut Series, rng: &mut Rng, pool: &Pool) -> Compared<()> {
    let flow = any_flow(rng, pool);
    let zero_first = rng.one_in(2);
    let mut first = true;
    let next = |rng: &mut Rng| {
        let zero = if first { zero_first } else { rng.one_in(2) };
        first = false;
        if zero {
            0
        } else {
            portion(rng, &flow)
        }
    };
    from_start(series, rng, &flow, next).map(drop)
}

fn ones(series: &mut Series, rng: &mut Rng, pool: &Pool) -> Compared<()> {
    let flow = any_flow(rng, pool);
    from_start(series, rng, &flow, |_| 1).map(drop)
}

fn huge(series: &mut Series, rng: &mut Rng, pool: &Pool) -> Compared<()> {
    let flow = any_flow(rng, pool);
    let portion = rng.pick(&[u64::MAX, u64::MAX - 1, 1 << 63, 1 << 32, 1 << 61, u64::MAX / 120 + 1, 547, 546]);
    from_start(series, rng, &flow, |_| portion).map(drop)
}

/// One portion up to the last record needed, one less or one more, then ones.
fn edges(series: &mut Series, rng: &mut Rng, pool: &Pool) -> Compared<()> {
    let flow = any_flow(rng, pool);
    let needed = Known::of(&flow).needed;
    let mut first = Some(rng.between(needed.max(2) - 1, needed + 1));
    from_start(series, rng, &flow, |_| first.take().unwrap_or(1)).map(drop)
}

/// Document 02: "a larger portion never alters an answer given", from any state.
fn larger(series: &mut Series, rng: &mut Rng, pool: &Pool) -> Compared<()> {
    let flow = any_flow(rng, pool);
    let mut state = any_state(series, rng, &flow)?;
    if rng.one_in(3) {
        let place = rng.place(STATE_ROOM);
        forged::forge(rng, &mut state, place);
    }
    let first = portion(rng, &flow);
    let gave = series.call(rng, &flow, first, &state)?;
    let more = [first.saturating_add(1), first.saturating_add(portion(rng, &flow)), u64::MAX];
    for portion in more {
        let other = series.call(rng, &flow, portion, &state)?;
        if gave.code != NOT_ENDED && other != gave {
            let why = format!("a portion of {first} gave another answer");
            return Err(Difference::of(why, &flow, portion, &state, &other));
        }
    }
    Ok(())
}

// ------------------------------------------------------------------ ended states

/// Asks an ended state a few times again: "An ended state gives its answer again."
fn asked_again(series: &mut Series, rng: &mut Rng, flow: &[u8], ended: &Gave) -> Compared<()> {
    for _ in 0..2 {
        let portion = if rng.one_in(3) { 0 } else { portion(rng, flow) };
        let gave = series.call(rng, flow, portion, &ended.state)?;
        if gave != *ended {
            let why = "not the answer that was given".to_string();
            return Err(Difference::of(why, flow, portion, &ended.state, &gave));
        }
    }
    Ok(())
}

fn again_same(series: &mut Series, rng: &mut Rng, pool: &Pool) -> Compared<()> {
    let flow = any_flow(rng, pool);
    let ended = from_start(series, rng, &flow, |rng| portion(rng, &flow))?;
    asked_again(series, rng, &flow, &ended)
}

fn again_other(series: &mut Series, rng: &mut Rng, pool: &Pool) -> Compared<()> {
    let flow = any_flow(rng, pool);
    let ended = from_start(series, rng, &flow, |rng| portion(rng, &flow))?;
    let other = match rng.below(4) {
        0 => no_flow(rng, pool),
        _ => any_flow(rng, pool),
    };
    asked_again(series, rng, &other, &ended)
}

// ------------------------------------------------------------------- other flows

fn other_same_length(series: &mut Series, rng: &mut Rng, pool: &Pool) -> Compared<()> {
    let count = if rng.one_in(64) { rng.between(7, 546) } else { rng.between(7, 30) } as usize;
    let mut one = || {
        let plan = sound::plan_of(rng, count, Amounts::Wide);
        if rng.one_in(2) {
            return damage::damaged(rng, pool, plan, 1).flow;
        }
        sound::write(rng, pool, &plan).bytes
    };
    let (flow, other) = (one(), one());
    let state = any_state(series, rng, &flow)?;
    go_on(series, rng, &other, state)
}

fn other_length(series: &mut Series, rng: &mut Rng, pool: &Pool) -> Compared<()> {
    let flow = any_flow(rng, pool);
    let state = any_state(series, rng, &flow)?;
    let other = any_flow(rng, pool);
    go_on(series, rng, &other, state)
}

/// The flow with something else in these records: a byte, the support name or
/// all of one, or all of them.
fn altered(rng: &mut Rng, flow: &[u8], records: std::ops::Range<u64>) -> Vec<u8> {
    let mut flow = flow.to_vec();
    if records.is_empty() {
        return flow;
    }
    let first = if rng.one_in(2) { records.start } else { rng.between(records.start, records.end - 1) };
    let record = first as usize * RECORD..(first as usize + 1) * RECORD;
    let part = match rng.below(4) {
        0 => {
            let byte = record.start + rng.place(RECORD);
            byte..byte + 1
        }
        1 => record.start + NAME - 1..record.start + NAME - 1 + NAME_WIDTH,
        2 => record,
        _ => records.start as usize * RECORD..records.end as usize * RECORD,
    };
    let to = rng.pick(&[0, b' ', b'0', b'A', b'/', 255]);
    flow[part].iter_mut().for_each(|byte| *byte = if *byte == to { b'B' } else { to });
    flow
}

/// The same state and portion on two flows that agree in what is examined.
fn alike(series: &mut Series, rng: &mut Rng, flows: [&[u8]; 2], portion: u64, state: &Numbers) -> Compared<Gave> {
    let gave = series.call(rng, flows[0], portion, state)?;
    let other = series.call(rng, flows[1], portion, state)?;
    if other != gave {
        let why = "not the answer of a flow that agrees in the records examined".to_string();
        return Err(Difference::of(why, flows[1], portion, state, &other));
    }
    Ok(gave)
}

fn altered_before(series: &mut Series, rng: &mut Rng, pool: &Pool) -> Compared<()> {
    let flow = whole_flow(rng, pool);
    let mut state = any_state(series, rng, &flow)?;
    for _ in 0..3 {
        let other = altered(rng, &flow, 0..state[4]);
        let portion = portion(rng, &flow);
        state = alike(series, rng, [&flow, &other], portion, &state)?.state;
    }
    let other = altered(rng, &flow, 0..state[4]);
    alike(series, rng, [&flow, &other], u64::MAX, &state).map(drop)
}

fn altered_behind(series: &mut Series, rng: &mut Rng, pool: &Pool) -> Compared<()> {
    let flow = whole_flow(rng, pool);
    let mut state = any_state(series, rng, &flow)?;
    let all = records(&flow);
    for _ in 0..3 {
        let left = all.saturating_sub(state[4]);
        let portion = rng.between(0, left.saturating_sub(1));
        let other = altered(rng, &flow, (state[4] + portion).min(all)..all);
        state = alike(series, rng, [&flow, &other], portion, &state)?.state;
    }
    Ok(())
}

fn altered_next(series: &mut Series, rng: &mut Rng, pool: &Pool) -> Compared<()> {
    let flow = whole_flow(rng, pool);
    let state = any_state(series, rng, &flow)?;
    let other = altered(rng, &flow, state[4]..records(&flow));
    go_on(series, rng, &other, state)
}

// ----------------------------------------------------------------- forged states

/// A flow and a state of its own judgement, going on in most cases, to be forged;
/// now and then bytes that are no flow beside it.
fn to_forge(series: &mut Series, rng: &mut Rng, pool: &Pool) -> Compared<(Vec<u8>, Numbers)> {
    let mut flow = any_flow(rng, pool);
    let mut state = any_state(series, rng, &flow)?;
    if rng.one_in(16) {
        flow = no_flow(rng, pool);
    }
    if rng.one_in(16) {
        // As many records as there can be.
        state[4] = rng.pick(&[545, 546]);
    }
    if rng.one_in(16) {
        state[0] = 2;
    }
    Ok((flow, state))
}

/// Several states with one number forged, from the same state.
fn forged_one(series: &mut Series, rng: &mut Rng, pool: &Pool) -> Compared<()> {
    let (flow, own) = to_forge(series, rng, pool)?;
    for _ in 0..8 {
        let mut state = own;
        let place = rng.place(STATE_ROOM);
        if (1..4).contains(&place) && !rng.one_in(4) {
            forged::refuse(rng, &mut state);
        }
        if place == 4 && rng.one_in(2) {
            // Around as many records as this flow has.
            state[4] = rng.between(records(&flow).max(1) - 1, records(&flow) + 1);
        } else {
            let edge = forged::forge(rng, &mut state, place);
            series.forged(place, edge);
        }
        go_on(series, rng, &flow, state)?;
    }
    Ok(())
}

fn forged_two(series: &mut Series, rng: &mut Rng, pool: &Pool) -> Compared<()> {
    let (flow, mut state) = to_forge(series, rng, pool)?;
    let pair = match rng.below(4) {
        0 => [10, 11],
        1 => [7, rng.pick(&[8, 9])],
        2 => [4, rng.place(STATE_ROOM)],
        _ => [rng.place(STATE_ROOM), rng.place(STATE_ROOM)],
    };
    for place in pair {
        forged::forge(rng, &mut state, place);
    }
    if pair == [10, 11] && rng.one_in(3) {
        // Together they are small in 64 bits.
        state[11] = rng.below(1000).wrapping_sub(state[10]);
    }
    go_on(series, rng, &flow, state)
}

fn forged_refusal(series: &mut Series, rng: &mut Rng, pool: &Pool) -> Compared<()> {
    let (flow, mut state) = to_forge(series, rng, pool)?;
    if rng.one_in(3) {
        state[4] = rng.pick(&[0, 0, 545, 545, 546, 546, 547, u64::MAX]);
    }
    forged::forge_refusal(rng, &mut state);
    go_on(series, rng, &flow, state)
}

/// Nothing hangs together, but the next record may mostly stand where it does.
fn forged_all(series: &mut Series, rng: &mut Rng, pool: &Pool) -> Compared<()> {
    let flow = whole_flow(rng, pool);
    let own = any_state(series, rng, &flow)?;
    let passed = if own[0] == 1 { own[4] } else { rng.below(records(&flow)) };
    let mut state = forged::anything(rng, passed);
    if !rng.one_in(4) {
        state[6..9].copy_from_slice(&own[6..9]);
    }
    state[6] = state[6].min(passed);
    go_on(series, rng, &flow, state)
}

// ---------------------------------------------------------------------- lengths

/// Bytes of a length that no flow has: none, a record cut, too many.
fn no_flow(rng: &mut Rng, pool: &Pool) -> Vec<u8> {
    let mut flow = any_flow(rng, pool);
    let length = match rng.below(8) {
        0 | 1 => 0,
        2 => rng.between(1, 119),
        3 => rng.pick(&[MOST_BYTES as u64 + 1, MOST_BYTES as u64 + 120, 2 * MOST_BYTES as u64]),
        4 => MOST_BYTES as u64 - rng.between(1, 119),
        _ => records(&flow).min(545) * 120 + rng.between(1, 119),
    };
    flow.resize(length as usize, b' ');
    flow
}

fn lengths(series: &mut Series, rng: &mut Rng, pool: &Pool) -> Compared<()> {
    let bytes = no_flow(rng, pool);
    let state = match rng.below(3) {
        0 => series.portions.start(rng)?,
        _ => {
            let flow = any_flow(rng, pool);
            any_state(series, rng, &flow)?
        }
    };
    let portion = if rng.one_in(2) { 0 } else { portion(rng, &bytes) };
    let gave = series.call(rng, &bytes, portion, &state)?;
    if gave.code == NOT_ENDED {
        let why = "what is no flow by its length is gone on with".to_string();
        return Err(Difference::of(why, &bytes, portion, &state, &gave));
    }
    asked_again(series, rng, &bytes, &gave)
}
