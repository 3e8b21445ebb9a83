//! Writes images, and beside each what a program has to write that shows its
//! samples as values and as parts.
//!
//! usage: show FOLDER COUNT SEED

use second::make::signals::{self, Signal, Signals, DOUBLES, SINGLES};
use second::mdf::{self, Refusal};
use second::reading::Reading;
use second::sample::{self, Asked, Sample};
use std::fs;
use std::path::Path;
use std::process::ExitCode;

const GROUPS: u64 = 5;
const CHANNELS: u64 = 9;
const RECORDS: u64 = 6;
/// Longer images are not shown.
const MOST: usize = 32_768;

/// The bits of a float, one pattern for all that are no number.
fn bits(value: f64) -> u64 {
    if value.is_nan() {
        0x7FF8_0000_0000_0000
    } else {
        value.to_bits()
    }
}

/// The line of a sample: its kind and two numbers. A signed number stands
/// there as the float next to it, a 32-bit float as a 64-bit one.
fn line(sample: Result<Sample, Refusal>) -> String {
    let (kind, one, two) = match sample {
        Err(refusal) => (0, u64::from(refusal.number), refusal.place),
        Ok(Sample::Unsigned(value)) => (1, value, 0),
        Ok(Sample::Signed(value)) => (2, bits(value as f64), 0),
        Ok(Sample::Single(pattern)) => (3, bits(f64::from(f32::from_bits(pattern))), 0),
        Ok(Sample::Double(pattern)) => (4, bits(f64::from_bits(pattern)), 0),
        Ok(Sample::Part { place, length }) => (5, place, length),
    };
    format!("{kind} {one} {two}\n")
}

/// The bytes of a part; none for every other sample.
fn part(image: &[u8], sample: Result<Sample, Refusal>) -> &[u8] {
    match sample {
        Ok(Sample::Part { place, length }) => &image[place as usize..(place + length) as usize],
        _ => &[],
    }
}

fn shown(image: &[u8]) -> Vec<u8> {
    let reading = mdf::check(image).map(|file| Reading::of(image, file));
    let mut text = Vec::new();
    for group in 0..GROUPS {
        for channel in 0..CHANNELS {
            for record in 0..RECORDS {
                let found = match &reading {
                    Ok(reading) => sample::sample(reading, Asked { group, channel, record }),
                    Err(refusal) => Err(*refusal),
                };
                text.extend(line(found).bytes());
                let part = part(image, found);
                text.extend(format!("{} ", part.len()).bytes());
                text.extend(part);
                text.push(b'\n');
            }
        }
    }
    text
}

/// Floats of every kind, one in each record.
fn floats(types: [u16; 3], width: u16, patterns: &[u64]) -> Vec<Vec<u8>> {
    let mut images = Vec::new();
    for some in patterns.chunks(RECORDS as usize) {
        let size = usize::from(width) / 8;
        let mut file = Signals::new(size);
        let signals = types.map(|data_type| Signal::at(0, width, data_type));
        for signal in signals {
            file.channel(signal);
        }
        let mut records = Vec::new();
        for &pattern in some {
            let mut record = vec![0; size];
            signals::plant(&mut record, signals[0], pattern);
            records.extend(record);
        }
        file.records(&records);
        images.push(file.sheet.bytes);
    }
    images
}

fn write(folder: &Path, count: u64, seed: u64) -> std::io::Result<()> {
    let mut images = floats([2, 15, 11], 32, &SINGLES);
    images.extend(floats([3, 16, 12], 64, &DOUBLES));
    images.extend((0..count).map(|index| signals::draw(seed, index).image));
    images.retain(|image| image.len() <= MOST);
    for (number, image) in images.iter().enumerate() {
        fs::write(folder.join(format!("{number}.mdf")), image)?;
        fs::write(folder.join(format!("{number}.txt")), shown(image))?;
    }
    println!("{} images to show", images.len());
    Ok(())
}

fn main() -> ExitCode {
    let words: Vec<String> = std::env::args().skip(1).collect();
    let numbers: Vec<u64> = words.iter().skip(1).filter_map(|word| word.parse().ok()).collect();
    let (folder, count, seed) = match (words.first(), &numbers[..]) {
        (Some(folder), &[count, seed]) => (folder, count, seed),
        _ => {
            eprintln!("usage: show FOLDER COUNT SEED");
            return ExitCode::from(2);
        }
    };
    match write(Path::new(folder), count, seed) {
        Ok(()) => ExitCode::SUCCESS,
        Err(error) => {
            eprintln!("{folder}: {error}");
            ExitCode::from(1)
        }
    }
}
