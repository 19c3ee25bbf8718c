//! The cases of a run that are sheets.

use crate::columns::MOST_BYTES;
use crate::rng::Rng;
use crate::sheet_damage::{self, Case};
use crate::sound::Pool;
use crate::writing::{Difference, Writings};
use crate::{at, folder, trap, Failure};
use std::fs;

fn differs(seed: u64, index: u64, difference: Box<Difference>) -> Failure {
    let case = format!("seed {seed}, sheet {index} (once more: again {seed} sheet {index})");
    Failure::SheetDiffers(case, difference)
}

/// One sheet.
pub fn case(writings: &mut Writings, pool: &Pool, seed: u64, index: u64) -> Result<(), Failure> {
    let mut rng = Rng::new(seed, 9, index);
    let case = sheet_damage::any_case(&mut rng, pool);
    writings.compare(&mut rng, &case).map(drop).map_err(|difference| differs(seed, index, difference))
}

/// The same once more, the sheet kept for a library that ends the program.
pub fn again(pool: &Pool, seed: u64, index: u64) -> Result<(), Failure> {
    let made = sheet_damage::any_case(&mut Rng::new(seed, 9, index), pool);
    let to = folder().join("sheet");
    fs::create_dir_all(folder()).and_then(|()| fs::write(&to, &made.sheet)).map_err(|error| at(&to, error))?;
    println!("sheet of {} bytes, room of {} bytes: {}", made.sheet.len(), made.room, to.display());
    trap::at(trap::SHEET, seed, index);
    let mut writings = Writings::new();
    case(&mut writings, pool, seed, index)?;
    writings.tally.print();
    println!("no difference");
    Ok(())
}

/// Sheets from files, each with rooms of several lengths.
pub fn compare_files(files: &[&str]) -> Result<(), Failure> {
    let mut writings = Writings::new();
    for file in files {
        let sheet = fs::read(file).map_err(|error| at(file, error))?;
        let mut rng = Rng::new(sheet.len() as u64, 11, 0);
        let mut rooms = vec![0, 240, sheet.len(), MOST_BYTES, MOST_BYTES + 1, 2 * MOST_BYTES];
        if let Ok(length) = reference::write(&sheet, &mut vec![0; MOST_BYTES]) {
            rooms.extend([length - 1, length, length + 1]);
        }
        for room in rooms {
            let case = Case { sheet: sheet.clone(), room, known: None, flow: Vec::new() };
            let name = format!("{file} with a room of {room} bytes");
            writings.compare(&mut rng, &case).map_err(|difference| Failure::SheetDiffers(name, difference))?;
        }
    }
    writings.tally.print();
    println!("no difference");
    Ok(())
}
