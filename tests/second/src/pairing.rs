//! Which images are paired.

use crate::compare::Difference;
use crate::output::Output;
use crate::pairs::{self, Side};
use crate::tally::Tally;
use crate::{report, Options, MOST_TOLD};
use second::make::cases;
use second::make::pairs::{all, Told};
use second::make::Drawn;

/// An image with itself, and an accepted one with its copy.
fn with_itself(side: &Side<'_>, output: &mut Output, tally: &mut Tally) -> Result<(), Difference> {
    let equal = Told::List(Vec::new());
    match side.copy() {
        Some(copy) => {
            pairs::compare(side, side, Some(&equal), output, tally)?;
            pairs::compare(side, &Side::of(&copy), Some(&equal), output, tally)
        }
        None => pairs::compare(side, side, None, output, tally),
    }
}

/// A random image with itself, with its copy, and with the image that was
/// drawn beside it.
pub fn with_kin(drawn: &Drawn, output: &mut Output, tally: &mut Tally) -> Result<(), Difference> {
    let side = Side::of(&drawn.image);
    if side.is_long() {
        return Ok(());
    }
    with_itself(&side, output, tally)?;
    match drawn.kin.as_deref().map(Side::of) {
        Some(kin) if !kin.is_long() => pairs::compare(&side, &kin, None, output, tally),
        _ => Ok(()),
    }
}

/// What has gone wrong in named pairs.
struct Wrong<'a> {
    options: &'a Options,
    count: u64,
}

impl Wrong<'_> {
    /// The first differences are told, all are counted.
    fn note(&mut self, name: &str, images: &[&[u8]], compared: Result<(), Difference>) {
        if let Err(difference) = compared {
            self.count += 1;
            if self.count <= MOST_TOLD {
                report(self.options, name, images, &difference);
            }
        }
    }
}

/// The named cases, each with itself, its copy and the case before.
fn pair_cases(wrong: &mut Wrong<'_>, output: &mut Output, tally: &mut Tally) {
    let list = cases::all();
    let mut before: Option<(&str, Side<'_>)> = None;
    for case in &list {
        let (name, side) = (&case.name[..], Side::of(&case.image));
        if side.is_long() {
            continue;
        }
        let compared = with_itself(&side, output, tally);
        wrong.note(&format!("{name}, with itself"), &[side.image], compared);
        if let Some((other_name, other)) = &before {
            let compared = pairs::compare(other, &side, None, output, tally);
            let images = [other.image, side.image];
            wrong.note(&format!("{other_name}, and {name}"), &images, compared);
        }
        before = Some((name, side));
    }
}

/// Pairs of named cases, and the named pairs.
pub fn run_named(options: &Options) -> Option<Tally> {
    let mut tally = Tally::default();
    let mut output = Output::default();
    let mut wrong = Wrong { options, count: 0 };
    pair_cases(&mut wrong, &mut output, &mut tally);
    let list = all();
    for pair in &list {
        let (one, other) = (Side::of(&pair.one), Side::of(&pair.other));
        let compared = pairs::compare(&one, &other, Some(&pair.told), &mut output, &mut tally);
        wrong.note(&pair.name, &[&pair.one, &pair.other], compared);
    }
    println!("{} named pairs and those of cases, {} wrong", list.len(), wrong.count);
    (wrong.count == 0).then_some(tally)
}
