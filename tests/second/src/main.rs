//! Compares the library's check, copy, sample, physical value and difference
//! list with the second implementation.
//!
//! Named cases first, then random images, then random images made for their
//! samples, then pairs of images, then very long images, copies and lists.
//! Exit code 0 when all answers agree, 1 at a difference, 2 for wrong
//! options.

mod big;
mod compare;
mod library;
mod output;
mod pairing;
mod pairs;
mod sampling;
mod tally;

use compare::{Difference, Wanted};
use output::Output;
use second::make::{self, cases, signals, Drawn};
use std::path::PathBuf;
use std::process::ExitCode;
use std::sync::atomic::{AtomicBool, Ordering};
use std::time::Instant;
use tally::Tally;

const DEFAULT_COUNT: u64 = 120_000;
const DEFAULT_SEED: u64 = 0x4D44_4633;
const WORKERS: u64 = 2;
const MOST_TOLD: u64 = 20;
/// So many pairs of accepted images have to be compared, with entries of
/// every kind, where the count of random images is not made smaller.
const LEAST_PAIRS: u64 = 100_000;
const LEAST_ENTRIES: u64 = 10_000;

pub struct Options {
    count: u64,
    seed: u64,
    out: PathBuf,
}

/// Tells of a difference and keeps the images.
pub fn report(options: &Options, name: &str, images: &[&[u8]], difference: &Difference) {
    let mut text = format!("DIFFERENCE in {name}\n");
    for (label, value) in &difference.0 {
        text += &format!("  {label}: {value}\n");
    }
    let plain: String =
        name.chars().map(|c| if c.is_ascii_alphanumeric() { c } else { '-' }).collect();
    let short: String = plain.chars().take(120).collect();
    for (image, end) in images.iter().zip(["", "-other"]) {
        let path = options.out.join(format!("second-{short}{end}.mdf"));
        match std::fs::write(&path, image) {
            Ok(()) => text += &format!("  image: {}\n", path.display()),
            Err(error) => text += &format!("  image not kept: {error}\n"),
        }
    }
    print!("{text}");
}

/// All named cases; the first differences are told, all are counted.
fn run_named(options: &Options) -> Option<Tally> {
    let mut tally = Tally::default();
    let mut output = Output::default();
    let list = cases::all();
    let mut wrong = 0;
    for case in &list {
        let wanted = Wanted {
            check: Some((case.number, case.place)),
            length: case.length,
            copy: case.copy.as_deref(),
            told: &case.told,
            known: &case.known,
        };
        let compared = compare::compare(&case.image, &wanted, &mut output, &mut tally);
        if let Err(difference) = compared {
            wrong += 1;
            if wrong <= MOST_TOLD {
                report(options, &case.name, &[&case.image], &difference);
            }
        }
    }
    println!("{} named cases, {wrong} wrong", list.len());
    (wrong == 0).then_some(tally)
}

/// One random image, and its kin.
fn run_drawn(drawn: &Drawn, output: &mut Output, tally: &mut Tally) -> Result<(), Difference> {
    let check = drawn.valid.then_some((0, 0));
    compare::compare(&drawn.image, &Wanted { check, ..Wanted::default() }, output, tally)?;
    if let Some(kin) = &drawn.kin {
        compare::compare_pair(&drawn.image, kin, drawn.valid, tally)?;
    }
    pairing::with_kin(drawn, output, tally)
}

/// Random images: what they are called, how many, how one is drawn from seed
/// and index, and what is done with it.
#[derive(Clone, Copy)]
struct Series {
    name: &'static str,
    count: u64,
    draw: fn(u64, u64) -> Drawn,
    run: fn(&Drawn, &mut Output, &mut Tally) -> Result<(), Difference>,
}

/// Every `WORKERS`th image from `first` on; stops at a difference.
fn run_share(options: &Options, series: Series, first: u64, stop: &AtomicBool) -> Tally {
    let mut tally = Tally::default();
    let mut output = Output::default();
    let mut index = first;
    while index < series.count && !stop.load(Ordering::Relaxed) {
        let drawn = (series.draw)(options.seed, index);
        if let Err(difference) = (series.run)(&drawn, &mut output, &mut tally) {
            let name = format!("{}, seed {} index {index}", series.name, options.seed);
            let kin = drawn.kin.as_deref();
            let images: Vec<&[u8]> = [Some(&drawn.image[..]), kin].into_iter().flatten().collect();
            report(options, &name, &images, &difference);
            stop.store(true, Ordering::Relaxed);
        }
        index += WORKERS;
    }
    tally
}

fn run_series(options: &Options, series: Series) -> Option<Tally> {
    let stop = AtomicBool::new(false);
    let mut total = Tally::default();
    std::thread::scope(|scope| {
        let shares: Vec<_> = (0..WORKERS)
            .map(|first| {
                let stop = &stop;
                scope.spawn(move || run_share(options, series, first, stop))
            })
            .collect();
        for share in shares {
            total.add(&share.join().expect("a worker broke off"));
        }
    });
    println!("{} {}, seed {}", series.count, series.name, options.seed);
    (!stop.load(Ordering::Relaxed)).then_some(total)
}

fn run_random(options: &Options) -> Option<Tally> {
    let count = options.count;
    let series = Series { name: "random images", count, draw: make::draw, run: run_drawn };
    run_series(options, series)
}

/// A quarter as many, since each has many samples.
fn run_signals(options: &Options) -> Option<Tally> {
    let count = options.count / 4;
    let series = Series { name: "images of signals", count, draw: signals::draw, run: run_drawn };
    run_series(options, series)
}

/// Pairs: of the named cases, named ones, then half as many random ones as
/// there are random images.
fn run_pairs(options: &Options) -> Option<Tally> {
    let mut tally = pairing::run_named(options)?;
    let count = options.count / 2;
    let series =
        Series { name: "random pairs", count, draw: make::pairs::draw, run: pairing::with_kin };
    tally.add(&run_series(options, series)?);
    Some(tally)
}

/// Whether as many pairs were compared as there should be.
fn enough_pairs(options: &Options, total: &Tally) -> bool {
    let (pairs, rarest) = total.pairs_listed();
    let enough = pairs >= LEAST_PAIRS && rarest >= LEAST_ENTRIES;
    if !enough && options.count >= DEFAULT_COUNT {
        println!("only {pairs} pairs of accepted images compared, {rarest} entries of a kind");
        return false;
    }
    true
}

fn read_options() -> Result<Options, String> {
    let mut options =
        Options { count: DEFAULT_COUNT, seed: DEFAULT_SEED, out: std::env::temp_dir() };
    let mut words = std::env::args().skip(1);
    while let Some(word) = words.next() {
        let value = words.next().ok_or(format!("{word} needs a value"))?;
        let number = || value.parse::<u64>().map_err(|e| format!("{word} {value}: {e}"));
        match word.as_str() {
            "--count" => options.count = number()?,
            "--seed" => options.seed = number()?,
            "--out" => options.out = PathBuf::from(&value),
            _ => return Err(format!("unknown option {word}")),
        }
    }
    Ok(options)
}

fn main() -> ExitCode {
    let options = match read_options() {
        Ok(options) => options,
        Err(trouble) => {
            eprintln!("{trouble}\nusage: compare [--count N] [--seed S] [--out FOLDER]");
            return ExitCode::from(2);
        }
    };
    println!("library: {}", library::NAME);
    let mut total = Tally::default();
    type Part = fn(&Options) -> Option<Tally>;
    let parts: [(&str, Part); 5] = [
        ("named", run_named),
        ("random", run_random),
        ("signals", run_signals),
        ("pairs", run_pairs),
        ("long", big::run),
    ];
    for (label, part) in parts {
        let begin = Instant::now();
        let tally = match part(&options) {
            Some(tally) => tally,
            None => {
                println!("{label}: answers differ");
                return ExitCode::from(1);
            }
        };
        total.add(&tally);
        tally.print(&format!("{label} ({:.1} s)", begin.elapsed().as_secs_f64()));
    }
    total.print("outcomes");
    if !enough_pairs(&options, &total) {
        return ExitCode::from(1);
    }
    ExitCode::SUCCESS
}
