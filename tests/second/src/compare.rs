//! One image through both implementations, with all that has to agree.

use crate::library;
use crate::output::Output;
use crate::sampling;
use crate::tally::Tally;
use second::calls::{find, length_of, reading_of, Found};
use second::canonical;
use second::make::cases::{Known, Told};
use second::mdf::Refusal;

/// Number and place of a check.
pub type Answer = (u32, u64);

/// The longest copy whose bytes are compared for every image; longer ones
/// have cases of their own.
const LONG: u64 = 16 << 20;

/// What is known of an image beforehand.
#[derive(Default)]
pub struct Wanted<'a> {
    pub check: Option<Answer>,
    pub length: Option<u64>,
    pub copy: Option<&'a [u8]>,
    pub told: &'a [Told],
    pub known: &'a [Known],
}

/// What was answered when the answers differ.
pub struct Difference(pub Vec<(&'static str, String)>);

impl Difference {
    pub fn new(label: &'static str, text: impl Into<String>) -> Difference {
        Difference(vec![(label, text.into())])
    }
}

pub fn shown(answer: &Result<Answer, String>) -> String {
    match answer {
        Ok((number, place)) => format!("number {number}, place {place}"),
        Err(trouble) => trouble.clone(),
    }
}

fn shown_copy(answer: &Result<canonical::Answer, String>) -> String {
    match answer {
        Ok(a) => format!("number {}, place {}, value {}", a.number, a.place, a.value),
        Err(trouble) => trouble.clone(),
    }
}

/// Compares check, copies and samples of an image with each other and with
/// what is known of it.
pub fn compare(
    image: &[u8],
    wanted: &Wanted<'_>,
    output: &mut Output,
    tally: &mut Tally,
) -> Result<(), Difference> {
    let found = find(image);
    compare_check(image, &found, wanted.check, tally)?;
    let mut copy = None;
    if let Ok(found) = &found {
        if wanted.length.unwrap_or(found.length) != found.length {
            let text = format!("{}, expected {:?}", found.length, wanted.length);
            return Err(Difference::new("second's length", text));
        }
        if found.length <= LONG {
            copy = Some(made_copy(found, wanted.copy)?);
        }
    }
    let length = length_of(&found);
    known_answers(length, wanted.told)?;
    let told = wanted.told.iter().map(|told| told.room);
    for (turn, room) in rooms(image.len(), length).into_iter().chain(told).enumerate() {
        let fill = [0xA5, 0x5A, 0x00, 0xFF, 0x3C][turn % 5];
        output.prepare(room, fill);
        let answer = compare_answer(image, length, output, tally)?;
        compare_output(output, answer, copy.as_deref())?;
    }
    sampling::compare(image, reading_of(&found), wanted.known, tally)
}

fn compare_check(
    image: &[u8],
    found: &Result<Found<'_>, Refusal>,
    expected: Option<Answer>,
    tally: &mut Tally,
) -> Result<(), Difference> {
    let second = match found {
        Ok(_) => (0, 0),
        Err(refusal) => (refusal.number, refusal.place),
    };
    let library = library::check(image.as_ptr(), image.len());
    let wanted = expected.unwrap_or(second);
    if second == wanted && library == Ok(wanted) {
        tally.note_check(wanted.0);
        return Ok(());
    }
    let mut lines = vec![("library", shown(&library)), ("second", shown(&Ok(second)))];
    if expected.is_some() {
        lines.push(("expected", shown(&Ok(wanted))));
    }
    Err(Difference(lines))
}

/// The second implementation's copy, after a look at what it is good for:
/// it is accepted, reads as the original, and copied again gives itself.
fn made_copy(found: &Found<'_>, expected: Option<&[u8]>) -> Result<Vec<u8>, Difference> {
    let copy = canonical::bytes(&found.reading);
    let trouble = |text: String| Err(Difference::new("second's copy", text));
    if copy.len() as u64 != found.length {
        return trouble(format!("{} bytes, foretold {}", copy.len(), found.length));
    }
    if let Some(bytes) = expected.filter(|&bytes| bytes != copy) {
        let at = first_difference(bytes, &copy);
        return trouble(format!("differs from what is expected at {at}"));
    }
    match find(&copy) {
        Err(refusal) => trouble(format!("refused: {refusal:?}")),
        Ok(again) if again.reading != found.reading => trouble("another reading".into()),
        Ok(again) if canonical::bytes(&again.reading) != copy => {
            trouble("copied again, it is not itself".into())
        }
        Ok(_) => Ok(copy),
    }
}

/// The second implementation's answers beside those known beforehand.
fn known_answers(length: Result<u64, Refusal>, list: &[Told]) -> Result<(), Difference> {
    for &Told { room, number, place, value } in list {
        let known = Ok(canonical::Answer { number, place, value });
        let second = Ok(canonical::answer(length, room as u64));
        if second != known {
            return Err(Difference(vec![
                ("room", room.to_string()),
                ("second's copy", shown_copy(&second)),
                ("expected", shown_copy(&known)),
            ]));
        }
    }
    Ok(())
}

/// The lengths of output that an image is copied to.
fn rooms(image: usize, length: Result<u64, Refusal>) -> Vec<usize> {
    match length {
        Err(_) => vec![0, image.min(100_000) + 1_000],
        Ok(length) if length > LONG => vec![0, 64, 1 << 20],
        Ok(length) => {
            let exact = length as usize;
            vec![exact, exact - 1, 0, exact + 1, 2 * exact + 10_000]
        }
    }
}

/// Both answers to a copy into the prepared output.
pub fn compare_answer(
    image: &[u8],
    length: Result<u64, Refusal>,
    output: &mut Output,
    tally: &mut Tally,
) -> Result<canonical::Answer, Difference> {
    let room = output.room();
    let second = canonical::answer(length, room as u64);
    let library = library::copy(image.as_ptr(), image.len(), output.pointer(), room);
    if library == Ok(second) {
        tally.note_copy(second.number);
        return Ok(second);
    }
    Err(Difference(vec![
        ("room", room.to_string()),
        ("library's copy", shown_copy(&library)),
        ("second's copy", shown_copy(&Ok(second))),
    ]))
}

/// The bytes written, and those that have to be as they were.
fn compare_output(
    output: &Output,
    answer: canonical::Answer,
    copy: Option<&[u8]>,
) -> Result<(), Difference> {
    let written = answer.value as usize;
    let trouble = |text| Err(Difference(vec![("room", output.room().to_string()), ("copy", text)]));
    if !output.untouched_beyond(written) {
        return trouble(format!("number {}, wrote beyond {written} bytes", answer.number));
    }
    if answer.number == 0 {
        let bytes = output.start(written);
        let copy = copy.unwrap_or(&[]);
        if bytes != copy {
            return trouble(format!("differs at {}", first_difference(copy, bytes)));
        }
    }
    Ok(())
}

pub fn first_difference(one: &[u8], other: &[u8]) -> usize {
    one.iter().zip(other).take_while(|(a, b)| a == b).count()
}

/// Two accepted images: their copies are equal exactly when their readings
/// are. `same` says that the readings have to be equal.
pub fn compare_pair(
    one: &[u8],
    other: &[u8],
    same: bool,
    tally: &mut Tally,
) -> Result<(), Difference> {
    let (one, other) = match (find(one), find(other)) {
        (Ok(one), Ok(other)) => (one, other),
        _ => return Ok(()),
    };
    if one.length.max(other.length) > LONG {
        return Ok(());
    }
    let readings = one.reading == other.reading;
    let copies = canonical::bytes(&one.reading) == canonical::bytes(&other.reading);
    if readings != copies || (same && !readings) {
        let text = format!("equal readings: {readings}, equal copies: {copies}, wanted {same}");
        return Err(Difference::new("two layouts", text));
    }
    tally.note_pair(readings);
    Ok(())
}
