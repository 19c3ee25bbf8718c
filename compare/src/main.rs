//! Compares the static library and the fast judge with the reference on seeded
//! random flows, and the library with the reference on sheets and on records of the
//! F24 EP form.

#![allow(unknown_lints, unexpected_cfgs)]

mod calendar;
mod calls;
mod century;
mod codes;
mod columns;
mod comparer;
mod corrected;
mod correction;
mod damage;
mod dates;
mod delega_vectors;
mod drop_flows;
mod drop_lists;
mod drop_steps;
mod drop_tally;
mod drop_vectors;
mod dropped;
mod dropping;
mod drops;
mod endings;
mod ep_account;
mod ep_beside;
mod ep_columns;
mod ep_damage;
mod ep_every;
mod ep_fields;
mod ep_judging;
mod ep_large;
mod ep_orders;
mod ep_sound;
mod ep_tally;
mod ep_texts;
mod ep_vectors;
mod eps;
mod ffi;
mod forged;
mod frames;
mod heads;
mod keep_calls;
mod keep_flows;
mod keep_meddling;
mod keep_records;
mod keep_tally;
mod keep_vectors;
mod keeping;
mod keeps;
mod kept;
mod lent;
mod lines;
mod list_call;
mod mended;
mod pair_claims;
mod pair_flows;
mod pair_lines;
mod pair_report;
mod pair_sorts;
mod pair_tally;
mod pairing;
mod pairs;
mod passed;
mod payers;
mod planned;
mod portion;
mod portion_vectors;
mod probe;
mod quick;
mod rebalance_damage;
mod rebalance_vectors;
mod rebalances;
mod rebalancing;
mod report;
mod rival;
mod rng;
mod series;
mod series_sorts;
mod sevens;
mod sheet;
mod sheet_damage;
mod sheet_vectors;
mod sheets;
mod sorts;
mod sound;
mod taxcodes;
mod trap;
mod vectors;
mod writing;

use calls::{Call, MOST_NUMBERS, SUMS};
use comparer::{Compared, Comparer, Difference};
use damage::Made;
use heads::Dates;
use lines::Sets;
use payers::Codes;
use rng::Rng;
use sevens::{Character, Sevens};
use sound::{Amounts, Pool, Size};
use std::fs;
use std::path::{Path, PathBuf};
use std::process::ExitCode;
use writing::Writings;

const USAGE: &str = "usage:
  compare SEED FLOWS CORRECTIONS [SHEETS [SERIES [REBALANCINGS [DROPS [KEPT [PAIRS [EPS]]]]]]]
                                             compares so many random cases; SERIES, REBALANCINGS, DROPS, KEPT, PAIRS
                                             and EPS are 200000 where they are not given
  compare again SEED KIND INDEX              compares one of these once more; KIND is flow, correction, sheet, series,
                                             rebalancing, dropping, kept, pair or ep
  compare dates                              compares every six digits as the date of a flow and of a sheet
  compare codes FILE                         compares every last character behind the tax codes' beginnings of a file
  compare frames FILE..                      compares the flows of framed files
  compare files FILE..                       compares files, a flow each
  compare sheets FILE..                      compares files, a sheet each
  compare portions FILE..                    compares files, a flow each, judged by portions
  compare rebalances FILE..                  compares files, a flow each, rebalanced
  compare drops FILE..                       compares files, a flow each, with deleghe dropped
  compare keeps FILE..                       compares files, a flow each, with a record of sums beside it
  compare pairs FILE..                       compares files, a flow each, with pairs of corrections of its lines
  compare ep FILE..                          compares files, the records of an F24 EP form each
  compare eps FILE..                         compares the records of framed files
  compare seeds SEED COUNT FOLDER            writes small random flows, a file each, for a fuzzer to start from
  compare vectors SEED COUNT FLOWS STDOUT    writes random flows with the reference's answers
  compare vectors sheets SEED COUNT DATA STDOUT
                                             writes random sheets with the reference's answers
  compare vectors deleghe SEED COUNT DATA STDOUT
                                             writes random calls for one delega with the reference's answers
  compare vectors portions SEED COUNT DATA STDOUT
                                             writes random judgements by portions with the reference's answers
  compare vectors rebalances SEED COUNT DATA STDOUT
                                             writes random rebalancings with the reference's answers
  compare vectors drops SEED COUNT DATA STDOUT
                                             writes random droppings with the reference's answers
  compare vectors keeps SEED COUNT DATA STDOUT
                                             writes random series of calls with a record, and the reference's answers
  compare vectors eps SEED COUNT DATA STDOUT
                                             writes random records of the F24 EP form with the reference's answers
The first difference goes to the folder that COMPARE_FOLDER names, or to 'difference'.";

/// Fewest times that each answer must come up in a full run.
const FEWEST: u64 = 2000;
const FULL_FLOWS: u64 = 1_000_000;
const FULL_CORRECTIONS: u64 = 200_000;
const FULL_SHEETS: u64 = 200_000;

pub enum Failure {
    Usage,
    Io(String),
    Differs(String, Box<Difference>),
    SheetDiffers(String, Box<writing::Difference>),
    SeriesDiffers(String, Box<portion::Difference>),
    ListCallDiffers(String, Box<list_call::Difference>),
    PairDiffers(String, Box<pair_report::Difference>),
    EpDiffers(String, Box<ep_judging::Difference>),
    /// An answer that came up too seldom for the run to say much.
    Seldom,
}

/// Ends with 0 when all is the same, 1 at a difference, 2 for bad usage.
fn main() -> ExitCode {
    let words: Vec<String> = std::env::args().skip(1).collect();
    let words: Vec<&str> = words.iter().map(String::as_str).collect();
    match run(&words) {
        Ok(()) => ExitCode::SUCCESS,
        Err(Failure::Usage) => {
            eprintln!("{USAGE}");
            ExitCode::from(2)
        }
        Err(Failure::Io(message)) => {
            eprintln!("compare: {message}");
            ExitCode::from(2)
        }
        Err(Failure::Seldom) => ExitCode::from(1),
        Err(Failure::Differs(case, difference)) => {
            eprintln!("\nDIFFERENCE between the {} and the reference", report::differing(&difference));
            shown(&case, report::write(&folder(), &case, &difference))
        }
        Err(Failure::SheetDiffers(case, difference)) => {
            eprintln!("\nDIFFERENCE in what is written from a sheet");
            shown(&case, difference.write(&folder(), &case))
        }
        Err(Failure::SeriesDiffers(case, difference)) => {
            eprintln!("\nDIFFERENCE in a judgement by portions");
            shown(&case, difference.write(&folder(), &case))
        }
        Err(Failure::ListCallDiffers(case, difference)) => {
            eprintln!("\nDIFFERENCE in {}", difference.what());
            shown(&case, difference.write(&folder(), &case))
        }
        Err(Failure::PairDiffers(case, difference)) => {
            eprintln!("\nDIFFERENCE in a pair of corrections");
            shown(&case, difference.write(&folder(), &case))
        }
        Err(Failure::EpDiffers(case, difference)) => {
            eprintln!("\nDIFFERENCE in records of the F24 EP form");
            shown(&case, difference.write(&folder(), &case))
        }
    }
}

fn shown(case: &str, written: std::io::Result<String>) -> ExitCode {
    match written {
        Ok(text) => eprintln!("{text}files: {}", folder().display()),
        Err(error) => eprintln!("case: {case}\n{}: {error}", folder().display()),
    }
    ExitCode::from(1)
}

fn run(words: &[&str]) -> Result<(), Failure> {
    match *words {
        ["again", seed, kind, index] => again(number(seed)?, kind, number(index)?),
        ["dates"] => century::compare(),
        ["codes", file] => endings::compare(file),
        ["frames", ref files @ ..] if !files.is_empty() => compare_frames(files),
        ["files", ref files @ ..] if !files.is_empty() => compare_files(files),
        ["sheets", ref files @ ..] if !files.is_empty() => sheets::compare_files(files),
        ["portions", ref files @ ..] if !files.is_empty() => series::compare_files(files),
        ["rebalances", ref files @ ..] if !files.is_empty() => rebalances::compare_files(files),
        ["drops", ref files @ ..] if !files.is_empty() => drops::compare_files(files),
        ["keeps", ref files @ ..] if !files.is_empty() => keeps::compare_files(files),
        ["pairs", ref files @ ..] if !files.is_empty() => pairs::compare_files(files),
        ["ep", ref files @ ..] if !files.is_empty() => eps::compare_files(files),
        ["eps", ref files @ ..] if !files.is_empty() => eps::compare_frames(files),
        ["seeds", seed, count, folder] => seeds(number(seed)?, number(count)?, Path::new(folder)),
        ["vectors", "sheets", seed, count, data, stdout] => {
            sheet_vectors::write(number(seed)?, number(count)?, data, stdout)
                .map_err(|error| Failure::Io(error.to_string()))
        }
        ["vectors", "deleghe", seed, count, data, stdout] => {
            delega_vectors::write(number(seed)?, number(count)?, data, stdout)
                .map_err(|error| Failure::Io(error.to_string()))
        }
        ["vectors", "portions", seed, count, data, stdout] => {
            portion_vectors::write(number(seed)?, number(count)?, data, stdout)
                .map_err(|error| Failure::Io(error.to_string()))
        }
        ["vectors", "rebalances", seed, count, data, stdout] => {
            rebalance_vectors::write(number(seed)?, number(count)?, data, stdout)
                .map_err(|error| Failure::Io(error.to_string()))
        }
        ["vectors", "drops", seed, count, data, stdout] => {
            drop_vectors::write(number(seed)?, number(count)?, data, stdout)
                .map_err(|error| Failure::Io(error.to_string()))
        }
        ["vectors", "keeps", seed, count, data, stdout] => {
            keep_vectors::write(number(seed)?, number(count)?, data, stdout)
                .map_err(|error| Failure::Io(error.to_string()))
        }
        ["vectors", "eps", seed, count, data, stdout] => ep_vectors::write(number(seed)?, number(count)?, data, stdout)
            .map_err(|error| Failure::Io(error.to_string())),
        ["vectors", seed, count, flows, stdout] => {
            vectors::write(number(seed)?, number(count)?, flows, stdout).map_err(|error| Failure::Io(error.to_string()))
        }
        [seed, ref counts @ ..] if (2..=9).contains(&counts.len()) => {
            let mut all = [0, 0, 0, series::FULL, rebalances::FULL, drops::FULL, keeps::FULL, pairs::FULL, eps::FULL];
            for (count, word) in all.iter_mut().zip(counts) {
                *count = number(word)?;
            }
            compare(number(seed)?, all)
        }
        _ => Err(Failure::Usage),
    }
}

fn number(word: &str) -> Result<u64, Failure> {
    word.parse().map_err(|_| Failure::Usage)
}

fn folder() -> PathBuf {
    PathBuf::from(std::env::var_os("COMPARE_FOLDER").unwrap_or_else(|| "difference".into()))
}

fn compare(
    seed: u64,
    [flows, corrections, sheets, many, mended, dropped, kept, paired, forms]: [u64; 9],
) -> Result<(), Failure> {
    let mut what = format!("{flows} flows, {corrections} corrections");
    for (count, name) in [
        (sheets, "sheets"),
        (many, "series"),
        (mended, "rebalancings"),
        (dropped, "droppings"),
        (kept, "series with a record"),
        (paired, "pairs"),
        (forms, "EP cases"),
    ] {
        if count > 0 {
            what += &format!(", {count} {name}");
        }
    }
    println!("seed {seed}: {what}, the {} with the reference", ffi::NAME);
    trap::set();
    let pool = Pool::new(seed);
    let mut comparer = Comparer::new();
    let mut shapes = Shapes::default();
    every_room(&mut comparer, &pool)
        .map_err(|difference| Failure::Differs("rooms of every length".to_string(), difference))?;
    for index in 0..flows {
        trap::at(trap::FLOW, seed, index);
        flow_case(&mut comparer, &pool, seed, index, &mut shapes)
            .map_err(|difference| differs(seed, "flow", index, difference))?;
        progress(index, flows, "flows");
    }
    let mut index = 0;
    while comparer.tally.calls(3) < corrections {
        let before = comparer.tally.calls(3);
        trap::at(trap::CORRECTION, seed, index);
        correction_case(&mut comparer, &pool, (seed, index), corrections - before, &mut shapes)
            .map_err(|difference| differs(seed, "correction", index, difference))?;
        index += 1;
        progress_past(before, comparer.tally.calls(3), corrections, "corrections");
    }
    let mut writings = Writings::new();
    for index in 0..sheets {
        trap::at(trap::SHEET, seed, index);
        sheets::case(&mut writings, &pool, seed, index)?;
        progress(index, sheets, "sheets");
    }
    let series = series::compare(&pool, seed, many)?;
    let rebalancings = rebalances::compare(&pool, seed, mended)?;
    let droppings = drops::compare(&pool, seed, dropped)?;
    let keepings = keeps::compare(&pool, seed, kept)?;
    let pairings = pairs::compare(&pool, seed, paired)?;
    let judgings = eps::compare(seed, forms)?;

    comparer.tally.print();
    shapes.print();
    if sheets > 0 {
        writings.tally.print();
    }
    series.print(many);
    if mended > 0 {
        rebalancings.tally.print();
    }
    if dropped > 0 {
        droppings.tally.print();
    }
    if kept > 0 {
        keepings.tally.print();
    }
    if paired > 0 {
        pairings.tally.print();
    }
    if forms > 0 {
        judgings.tally.print();
    }
    let judged = (0..=20).chain([26]).map(|way| (comparer.tally.of(0, way), format!("judge {way}"))).min();
    let corrected =
        [0, 9, 14, 21, 22, 23].iter().map(|&way| (comparer.tally.of(3, way), format!("correct {way}"))).min();
    let mut seldom = false;
    let (times, answer) = writings.tally.rarest();
    let written = Some((times, format!("write {answer}")));
    let (judged_at, written_at) = (shapes.sevens.rarest("judge"), writings.tally.sevens.rarest_place("write"));
    let (judged_dates, written_dates) = (shapes.dates.rarest("judge"), writings.tally.dates.rarest("write"));
    let (judged_codes, written_codes) = (shapes.codes.rarest("judge"), writings.tally.codes.rarest("write"));
    let told_sets = shapes.sets.rarest("delega");
    for (least, cases, full) in [
        (judged, flows, FULL_FLOWS),
        (judged_at, flows, FULL_FLOWS),
        (judged_dates, flows, FULL_FLOWS),
        (judged_codes, flows, FULL_FLOWS),
        (told_sets, flows, FULL_FLOWS),
        (corrected, corrections, FULL_CORRECTIONS),
        (written, sheets, FULL_SHEETS),
        (written_at, sheets, FULL_SHEETS),
        (written_dates, sheets, FULL_SHEETS),
        (written_codes, sheets, FULL_SHEETS),
    ] {
        if let Some((times, answer)) = least.filter(|_| cases > 0) {
            println!("rarest: {answer}, {times} times");
            seldom |= cases >= full && times < FEWEST;
        }
    }
    if seldom {
        eprintln!("compare: an answer came up fewer than {FEWEST} times");
    }
    seldom |= series.is_seldom(many);
    seldom |= rebalances::is_seldom(&rebalancings, mended);
    seldom |= drops::is_seldom(&droppings, dropped);
    seldom |= keeps::is_seldom(&keepings, kept);
    seldom |= pairs::is_seldom(&pairings, paired);
    if eps::is_seldom(&judgings, forms) || seldom {
        return Err(Failure::Seldom);
    }
    println!("no difference");
    Ok(())
}

fn differs(seed: u64, kind: &str, index: u64, difference: Box<Difference>) -> Failure {
    let case = format!("seed {seed}, {kind} {index} (once more: again {seed} {kind} {index})");
    Failure::Differs(case, difference)
}

/// Says on standard error how far it is, ten times in all.
fn progress(index: u64, of: u64, what: &str) {
    progress_past(index, index + 1, of, what);
}

fn progress_past(before: u64, now: u64, of: u64, what: &str) {
    let tenth = |k: u64| (u128::from(k) * 10 / u128::from(of.max(1))) as u64;
    if tenth(before) < tenth(now) && of >= 10_000 {
        eprintln!("{now} of {of} {what}");
    }
}

/// Every call with a room of every length, on a flow that is accepted and on one
/// that is refused.
fn every_room(comparer: &mut Comparer, pool: &Pool) -> Compared<()> {
    let mut rng = Rng::new(24, 16, 0);
    let accepted = sound::write(&mut rng, pool, &sound::printed()).bytes;
    let refused = &accepted[..accepted.len() - columns::RECORD];
    let calls = [
        Call::Judge,
        Call::Delega { number: 1 },
        Call::Delega { number: 2 },
        Call::Find { delega: 1, subtype: 5, place: 2 },
        Call::Find { delega: 1, subtype: 5, place: 3 },
        Call::Correct { delega: 1, subtype: 5, place: 2, debit: 1, credit: 2 },
        Call::Correct { delega: 1, subtype: 5, place: 2, debit: 0, credit: 0 },
    ];
    for flow in [&accepted[..], refused] {
        for (call, nth) in calls.into_iter().zip(1..) {
            trap::at(trap::ROOM, 0, nth);
            comparer.compare_rooms(&mut rng, call, flow)?;
        }
    }
    Ok(())
}

/// One flow: judged, then asked for its deleghe and lines.
fn flow_case(comparer: &mut Comparer, pool: &Pool, seed: u64, index: u64, shapes: &mut Shapes) -> Compared<()> {
    let mut rng = Rng::new(seed, 1, index);
    let Made { flow, known } = damage::any_flow(&mut rng, pool);
    let code = comparer.compare(&mut rng, Call::Judge, &flow)?;
    let says = known.unwrap_or(code);
    assert!(code == says, "seed {seed}, flow {index}: it is answered {code}, the generator says {says}");
    shapes.dates.count(&flow, code);
    shapes.codes.count(|| payers::in_flow(&flow), code, comparer.room());
    if code == 7 {
        shapes.sevens.count(&told(comparer, &flow, (seed, index)));
    }
    if code == 0 {
        let room = comparer.room();
        let deleghe = room[0];
        shapes.count(room);
        let used: Vec<u64> = (0..5)
            .filter(|&section| room[SUMS + 2 * section] + room[SUMS + 2 * section + 1] > 0)
            .map(|section| columns::SECTIONS[section].line)
            .collect();
        for number in 1..=deleghe.min(3) {
            delega(comparer, &mut rng, number, &flow, shapes)?;
        }
        let number = match rng.below(4) {
            0 => 0,
            1 => deleghe + 1,
            2 => rng.pick(&[u64::MAX, 1 << 32, (1 << 32) + 1, 10_000_001]),
            _ => rng.between(1, deleghe),
        };
        delega(comparer, &mut rng, number, &flow, shapes)?;
        for _ in 0..4 {
            let delega = if rng.one_in(8) { number } else { rng.between(1, deleghe) };
            let subtype = if rng.one_in(8) { rng.below(20) } else { rng.pick(&used) };
            let place = match rng.below(8) {
                0 => rng.pick(&[0, 29, 256, 257, u64::MAX]),
                1 => rng.between(1, 28),
                2 | 3 => rng.between(2, 6),
                _ => 1,
            };
            comparer.compare(&mut rng, Call::Find { delega, subtype, place }, &flow)?;
        }
    } else if rng.one_in(8) {
        let call = correction::anything(&mut rng);
        if call.index() != 3 {
            comparer.compare(&mut rng, call, &flow)?;
        }
    }
    if rng.one_in(16) {
        let call = if rng.one_in(3) { Call::Judge } else { correction::anything(&mut rng) };
        comparer.compare_short(&mut rng, call, &flow)?;
    }
    if code == 0 {
        more_deleghe(comparer, &flow, (seed, index), shapes)?;
        probes(comparer, &flow, seed, index)?;
    }
    Ok(())
}

/// Asks an accepted flow for one delega.
fn delega(comparer: &mut Comparer, rng: &mut Rng, number: u64, flow: &[u8], shapes: &mut Shapes) -> Compared<()> {
    if comparer.compare(rng, Call::Delega { number }, flow)? == 0 {
        shapes.sets.count(comparer.room());
    }
    Ok(())
}

/// The flow was accepted: where it has more than three deleghe, two others are
/// asked for and the last.
fn more_deleghe(comparer: &mut Comparer, flow: &[u8], (seed, index): (u64, u64), shapes: &mut Shapes) -> Compared<()> {
    let tail = &flow[flow.len() - columns::RECORD..];
    let deleghe = sound::get(tail, columns::TAIL_DELEGHE, columns::COUNT);
    if deleghe > 3 {
        let mut rng = Rng::new(seed, 15, index);
        for number in [rng.between(4, deleghe), rng.between(4, deleghe), deleghe] {
            delega(comparer, &mut rng, number, flow, shapes)?;
        }
    }
    Ok(())
}

/// The flow was accepted: a few others close to it are judged as well.
fn probes(comparer: &mut Comparer, flow: &[u8], seed: u64, index: u64) -> Compared<()> {
    let mut rng = Rng::new(seed, 8, index);
    for nth in 0..5 {
        let (near, known) = if nth < 4 { probe::probe(&mut rng, flow) } else { probe::code_probe(&mut rng, flow) };
        let code = comparer.compare_untallied(&mut rng, &near)?;
        let says = known.unwrap_or(code);
        assert!(code == says, "seed {seed}, flow {index}: a probe is answered {code}, the generator says {says}");
        if code == 7 {
            told(comparer, &near, (seed, index));
        }
    }
    Ok(())
}

/// The character that all sides have just told, which must be the one that the
/// generator says.
fn told(comparer: &Comparer, flow: &[u8], (seed, index): (u64, u64)) -> Character {
    sevens::told(sevens::in_flow(flow), comparer.room())
        .unwrap_or_else(|why| panic!("seed {seed}, flow {index}: {:?} is told, {why}", &comparer.room()[..2]))
}

/// Corrections of one flow, each on what the one before left.
fn correction_case(
    comparer: &mut Comparer,
    pool: &Pool,
    (seed, index): (u64, u64),
    most: u64,
    shapes: &mut Shapes,
) -> Compared<()> {
    let mut rng = Rng::new(seed, 2, index);
    let size = match rng.below(1000) {
        0..=499 => Size::Tiny,
        500..=899 => Size::Small,
        900..=989 => Size::Medium,
        990..=996 => Size::Large,
        _ => Size::Full,
    };
    let amounts = rng.pick(&[Amounts::Small, Amounts::Middle, Amounts::Wide, Amounts::Extreme]);
    let mut plan = sound::plan_with(&mut rng, size, amounts);
    if rng.one_in(4) {
        // A flow that is refused is not corrected.
        let call = correction::choose(&mut rng, &plan);
        let damages = rng.between(1, 2);
        let flow = damage::damaged(&mut rng, pool, plan, damages).flow;
        comparer.compare(&mut rng, call, &flow)?;
        return Ok(());
    }
    let fillers = || Rng::new(seed, 6, index);
    let mut flow = sound::write(&mut fillers(), pool, &plan).bytes;
    let times = rng.between(1, 10).min(most);
    for _ in 0..times {
        let call = correction::choose(&mut rng, &plan);
        if rng.one_in(32) {
            comparer.compare_short(&mut rng, call, &flow)?;
        }
        let code = comparer.compare(&mut rng, call, &flow)?;
        if code == 0 {
            shapes.correction(&flow, comparer.after());
            flow.clear();
            flow.extend_from_slice(comparer.after());
            correction::apply(&mut plan, &call);
        }
    }
    // What the corrections left is accepted, and is the flow that the
    // generator writes for these lines with the same fillers.
    let code = comparer.compare(&mut rng, Call::Judge, &flow)?;
    assert!(code == 0, "seed {seed}, correction {index}: the flow is refused {code} at the end");
    let anew = sound::write(&mut fillers(), pool, &plan).bytes;
    assert!(flow == anew, "seed {seed}, correction {index}: not the generator's flow of these lines");
    let number = rng.between(1, plan.deleghe.len() as u64);
    delega(comparer, &mut rng, number, &flow, shapes)
}

/// Accepted flows by size, by deleghe, by lines and by section, corrections made
/// by what they changed, flows refused 7 by the character told, flows by the date
/// and the tax codes, and deleghe by their sets of sections.
#[derive(Default)]
struct Shapes {
    records: [u64; 6],
    deleghe: [u64; 5],
    lines: [u64; 5],
    sections: [u64; 5],
    beyond_fifteen: u64,
    /// Changed nothing, changed no sign, P to N, N to P.
    corrections: [u64; 4],
    sevens: Sevens,
    dates: Dates,
    codes: Codes,
    sets: Sets,
}

impl Shapes {
    fn count(&mut self, room: &[u64]) {
        self.records[match room[1] {
            0..=8 => 0,
            9..=16 => 1,
            17..=64 => 2,
            65..=256 => 3,
            257..=545 => 4,
            _ => 5,
        }] += 1;
        self.deleghe[match room[0] {
            0..=1 => 0,
            2..=3 => 1,
            4..=16 => 2,
            17..=64 => 3,
            _ => 4,
        }] += 1;
        self.lines[match room[3] {
            0..=2 => 0,
            3..=8 => 1,
            9..=32 => 2,
            33..=128 => 3,
            _ => 4,
        }] += 1;
        let sums = &room[SUMS..MOST_NUMBERS];
        for (section, sums) in sums.chunks(2).enumerate() {
            self.sections[section] += u64::from(sums[0] + sums[1] > 0);
        }
        let beyond = sums.iter().any(|&sum| sum > columns::MOST_AMOUNT);
        self.beyond_fifteen += u64::from(beyond);
    }

    fn correction(&mut self, before: &[u8], after: &[u8]) {
        let changed = |old, new| before.iter().zip(after).any(|(&b, &a)| b == old && a == new);
        self.corrections[if before == after {
            0
        } else if changed(b'P', b'N') {
            2
        } else if changed(b'N', b'P') {
            3
        } else {
            1
        }] += 1;
    }

    fn print(&self) {
        let line = |what: &str, names: &[&str], counts: &[u64]| {
            let parts: Vec<String> = names.iter().zip(counts).map(|(name, count)| format!("{name}: {count}")).collect();
            println!("accepted flows by {what}: {}", parts.join(", "));
        };
        let [same, amounts, to_n, to_p] = self.corrections;
        println!("corrections made: {same} to the same amounts, {amounts} within a sign, {to_n} from P to N, {to_p} from N to P");
        line("records", &["7-8", "9-16", "17-64", "65-256", "257-545", "546"], &self.records);
        line("deleghe", &["1", "2-3", "4-16", "17-64", "65-108"], &self.deleghe);
        line("lines", &["1-2", "3-8", "9-32", "33-128", "129-476"], &self.lines);
        line("section used", &["01", "03", "05", "07", "17"], &self.sections);
        println!("accepted flows with a section's sum of more than fifteen digits: {}", self.beyond_fifteen);
        self.sevens.print("judge");
        self.dates.print("judge");
        self.codes.print("judge");
        self.sets.print("delega");
    }
}

fn again(seed: u64, kind: &str, index: u64) -> Result<(), Failure> {
    let pool = Pool::new(seed);
    let mut comparer = Comparer::new();
    let mut shapes = Shapes::default();
    trap::set();
    let compared = match kind {
        "flow" => {
            // Kept for a library that ends the program.
            let flow = damage::any_flow(&mut Rng::new(seed, 1, index), &pool).flow;
            let to = folder().join("flow");
            fs::create_dir_all(folder()).and_then(|()| fs::write(&to, &flow)).map_err(|error| at(&to, error))?;
            println!("flow of {} bytes: {}", flow.len(), to.display());
            trap::at(trap::FLOW, seed, index);
            flow_case(&mut comparer, &pool, seed, index, &mut shapes)
        }
        "correction" => {
            trap::at(trap::CORRECTION, seed, index);
            correction_case(&mut comparer, &pool, (seed, index), u64::MAX, &mut shapes)
        }
        "sheet" => return sheets::again(&pool, seed, index),
        "series" => return series::again(&pool, seed, index),
        "rebalancing" => return rebalances::again(&pool, seed, index),
        "dropping" => return drops::again(&pool, seed, index),
        "kept" => return keeps::again(&pool, seed, index),
        "pair" => return pairs::again(&pool, seed, index),
        "ep" => return eps::again(seed, index),
        _ => return Err(Failure::Usage),
    };
    compared.map_err(|difference| differs(seed, kind, index, difference))?;
    comparer.tally.print();
    println!("no difference");
    Ok(())
}

fn at(file: impl AsRef<Path>, error: std::io::Error) -> Failure {
    Failure::Io(format!("{}: {error}", file.as_ref().display()))
}

fn compare_frames(files: &[&str]) -> Result<(), Failure> {
    let mut comparer = Comparer::new();
    for file in files {
        let data = fs::read(file).map_err(|error| at(file, error))?;
        let flows = frames::read(&data).ok_or_else(|| Failure::Io(format!("{file}: not framed flows")))?;
        for (name, flow) in flows {
            one_flow(&mut comparer, flow, &format!("{name} of {file}"))?;
        }
    }
    comparer.tally.print();
    println!("no difference");
    Ok(())
}

fn compare_files(files: &[&str]) -> Result<(), Failure> {
    let mut comparer = Comparer::new();
    for file in files {
        let flow = fs::read(file).map_err(|error| at(file, error))?;
        one_flow(&mut comparer, &flow, file)?;
    }
    comparer.tally.print();
    println!("no difference");
    Ok(())
}

/// A flow from a file: judged, asked for its deleghe and lines, corrected.
fn one_flow(comparer: &mut Comparer, flow: &[u8], case: &str) -> Result<(), Failure> {
    let mut rng = Rng::new(flow.len() as u64, 4, 0);
    every_call(comparer, &mut rng, flow).map_err(|difference| Failure::Differs(case.to_string(), difference))
}

fn every_call(comparer: &mut Comparer, rng: &mut Rng, flow: &[u8]) -> Compared<()> {
    let accepted = comparer.compare(rng, Call::Judge, flow)? == 0;
    for _ in 0..16 {
        let call = correction::anything(rng);
        comparer.compare(rng, call, flow)?;
    }
    if accepted {
        let deleghe = comparer.compare(rng, Call::Judge, flow).map(|_| comparer.room()[0])?;
        for delega in 0..=deleghe + 1 {
            comparer.compare(rng, Call::Delega { number: delega }, flow)?;
            for section in &columns::SECTIONS {
                let (subtype, place) = (section.line, rng.between(1, 3));
                comparer.compare(rng, Call::Find { delega, subtype, place }, flow)?;
                let (debit, credit) = (rng.wide(1_000_000), rng.wide(1_000_000));
                comparer.compare(rng, Call::Correct { delega, subtype, place, debit, credit }, flow)?;
            }
        }
    }
    Ok(())
}

fn seeds(seed: u64, count: u64, folder: &Path) -> Result<(), Failure> {
    let pool = Pool::new(seed);
    fs::create_dir_all(folder).map_err(|error| at(folder, error))?;
    for index in 0..count {
        let mut rng = Rng::new(seed, 5, index);
        let flow = damage::flow_of(&mut rng, &pool, if index % 8 == 0 { Size::Small } else { Size::Tiny }).flow;
        if flow.len() <= 6000 {
            let file = folder.join(format!("flow-{index:05}"));
            fs::write(&file, flow).map_err(|error| at(&file, error))?;
        }
    }
    Ok(())
}
