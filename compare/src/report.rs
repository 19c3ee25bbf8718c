//! Writes the first difference to a folder, so that it can be looked at and
//! tried again.

use crate::columns::RECORD;
use crate::comparer::{Difference, Left};
use crate::ffi;
use std::fmt::Write as _;
use std::fs;
use std::io;
use std::path::Path;

/// Writes files of these names, and the text as `difference.txt`.
pub fn write_files(folder: &Path, files: &[(&str, &[u8])], text: String) -> io::Result<String> {
    fs::create_dir_all(folder)?;
    for (name, bytes) in files {
        fs::write(folder.join(name), bytes)?;
    }
    fs::write(folder.join("difference.txt"), &text)?;
    Ok(text)
}

/// Writes `flow`, `after-reference`, `after-library` where the library was
/// called, and `difference.txt`.
pub fn write(folder: &Path, case: &str, difference: &Difference) -> io::Result<String> {
    let mut files: Vec<(&str, &[u8])> =
        vec![("flow", &difference.flow), ("after-reference", &difference.reference.flow)];
    if let Some((_, library)) = difference.others.iter().find(|(name, _)| *name == ffi::NAME) {
        files.push(("after-library", &library.flow));
    }
    write_files(folder, &files, text(case, difference))
}

/// The sides that are not as the reference is.
pub fn differing(difference: &Difference) -> String {
    let reference = &difference.reference;
    let names: Vec<&str> = difference
        .others
        .iter()
        .filter(|(_, left)| left.code != reference.code || left.room != reference.room || left.flow != reference.flow)
        .map(|&(name, _)| name)
        .collect();
    if difference.says.is_some() {
        return "generator".to_string();
    }
    if names.is_empty() {
        // Nothing but bytes beside the memory lent to it.
        return ffi::NAME.to_string();
    }
    names.join(" and the ")
}

fn text(case: &str, difference: &Difference) -> String {
    let mut text = String::new();
    let Difference { call, flow, room, reference, others, beside, says } = difference;
    let _ = writeln!(text, "case: {case}");
    let _ = writeln!(text, "differs from the reference: the {}", differing(difference));
    if let Some(says) = says {
        let _ = writeln!(text, "{says}");
    }
    let _ = writeln!(text, "call: {call}, flow of {} bytes, room for {} numbers", flow.len(), room.len());
    let _ = writeln!(text, "room before: {room:?}");
    let sides = others.iter().map(|(name, left)| (*name, left)).chain([("reference", reference)]);
    for (name, Left { code, room, flow: after }) in sides {
        let _ = writeln!(text, "{name}: answers {code}, room after {room:?}");
        let changed: Vec<usize> = (0..flow.len()).filter(|&at| flow[at] != after[at]).collect();
        match (changed.first(), changed.last()) {
            (Some(&first), Some(&last)) => {
                let (first, last) = (place(first), place(last));
                let _ = writeln!(text, "  changed {} bytes of the flow, from {first} to {last}", changed.len());
            }
            _ => {
                let _ = writeln!(text, "  left the flow as it came");
            }
        }
    }
    for (name, left) in others {
        if let Some(at) = (0..flow.len()).find(|&at| left.flow[at] != reference.flow[at]) {
            let (one, other) = (left.flow[at], reference.flow[at]);
            let _ = writeln!(text, "{name}: first byte that differs after the call: {}, {one} and {other}", place(at));
        }
    }
    if *beside {
        let _ = writeln!(text, "bytes beside the lent memory were written");
    }
    text
}

/// A place in the flow, counted from 0, as record and position.
pub fn place(at: usize) -> String {
    format!("record {} position {}", at / RECORD + 1, at % RECORD + 1)
}
