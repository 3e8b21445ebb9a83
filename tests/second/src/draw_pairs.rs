//! Writes random pairs of images, as 0-one.mdf and 0-other.mdf and so on.
//! Most are accepted, and differ in a few things.
//!
//! usage: pairs FOLDER COUNT SEED

use second::make::pairs::draw;
use std::fs;
use std::path::Path;
use std::process::ExitCode;

fn write(folder: &Path, count: u64, seed: u64) -> std::io::Result<()> {
    for index in 0..count {
        let drawn = draw(seed, index);
        fs::write(folder.join(format!("{index}-one.mdf")), &drawn.image)?;
        fs::write(folder.join(format!("{index}-other.mdf")), drawn.kin.unwrap_or_default())?;
    }
    Ok(())
}

fn main() -> ExitCode {
    let words: Vec<String> = std::env::args().skip(1).collect();
    let numbers: Vec<u64> = words.iter().skip(1).filter_map(|word| word.parse().ok()).collect();
    let (folder, count, seed) = match (&words[..], &numbers[..]) {
        ([folder, _, _], [count, seed]) => (folder, *count, *seed),
        _ => {
            eprintln!("usage: pairs FOLDER COUNT SEED");
            return ExitCode::from(2);
        }
    };
    match write(Path::new(folder), count, seed) {
        Ok(()) => ExitCode::SUCCESS,
        Err(error) => {
            eprintln!("pairs: {error}");
            ExitCode::from(1)
        }
    }
}
