//! A pair of corrections of which something is not as it must be, and its files.

use crate::calls::Call;
use crate::comparer;
use crate::list_call;
use crate::report;
use std::io;
use std::path::Path;

/// What is not as it must be.
pub enum Of {
    Plain(Box<comparer::Difference>),
    Kept(Box<list_call::Difference>),
    /// A claim or the plan, with the bytes before and after.
    Claim(String, Vec<u8>, Vec<u8>),
}

impl From<Box<comparer::Difference>> for Of {
    fn from(difference: Box<comparer::Difference>) -> Self {
        Of::Plain(difference)
    }
}

impl From<Box<list_call::Difference>> for Of {
    fn from(difference: Box<list_call::Difference>) -> Self {
        Of::Kept(difference)
    }
}

/// A pair of which something is not as it must be.
pub struct Difference {
    /// The flow of the pair and its calls, and which call it was at.
    pub start: Vec<u8>,
    pub calls: [[u64; 5]; 2],
    pub step: String,
    pub of: Of,
}

impl Difference {
    /// Writes the files of a difference in the call, or `flow` and `after`, and beside
    /// them `start` and `numbers`.
    pub fn write(&self, folder: &Path, case: &str) -> io::Result<String> {
        let [one, other] = self.calls.map(|numbers| Call::correction(numbers).to_string());
        let case = format!("{case}\nA: {one}\nB: {other}\nat: {}", self.step);
        let numbers: Vec<String> = self.calls.concat().chunks(5).map(|five| format!("{five:?}\n")).collect();
        let numbers = numbers.concat();
        let text = match &self.of {
            Of::Plain(difference) => report::write(folder, &case, difference)?,
            Of::Kept(difference) => difference.write(folder, &case)?,
            Of::Claim(why, ..) => format!("case: {case}\ndiffers: {why}\n"),
        };
        let mut files: Vec<(&str, &[u8])> = vec![("start", &self.start), ("numbers", numbers.as_bytes())];
        if let Of::Claim(_, flow, after) = &self.of {
            files.extend([("flow", &flow[..]), ("after", &after[..])]);
        }
        report::write_files(folder, &files, text)
    }
}
