//! Two images through both implementations: their difference list, in both
//! orders.

use crate::compare::{first_difference, Difference};
use crate::library;
use crate::output::Output;
use crate::tally::Tally;
use second::calls::{find, reading_of, Found};
use second::canonical::{self, Answer};
use second::differences::{differences, Entry};
use second::make::pairs::Told;
use second::mdf::Refusal;
use second::reading::Reading;

/// Images with longer copies are compared in cases of their own.
const LONG: u64 = 16 << 20;

/// An image and what the second implementation finds in it.
pub struct Side<'a> {
    pub image: &'a [u8],
    found: Result<Found<'a>, Refusal>,
}

impl<'a> Side<'a> {
    pub fn of(image: &'a [u8]) -> Side<'a> {
        Side { image, found: find(image) }
    }

    pub fn is_long(&self) -> bool {
        matches!(&self.found, Ok(found) if found.length > LONG)
    }

    /// The canonical copy of an accepted image.
    pub fn copy(&self) -> Option<Vec<u8>> {
        self.found.as_ref().ok().map(|found| canonical::bytes(&found.reading))
    }

    fn reading(&self) -> Result<&Reading<'a>, Refusal> {
        reading_of(&self.found)
    }

    fn memory(&self) -> (*const u8, usize) {
        (self.image.as_ptr(), self.image.len())
    }
}

type List = Result<Vec<Entry>, Refusal>;

fn list_of(first: &Side<'_>, second: &Side<'_>) -> List {
    Ok(differences(first.reading()?, second.reading()?))
}

/// Compares the lists of two images with each other and with what is known
/// of them.
pub fn compare(
    one: &Side<'_>,
    other: &Side<'_>,
    told: Option<&Told>,
    output: &mut Output,
    tally: &mut Tally,
) -> Result<(), Difference> {
    let lists = [list_of(one, other), list_of(other, one)];
    look_at(one, other, &lists)?;
    if let Some(told) = told {
        compare_told(&lists, told)?;
    }
    let written = [written(one, other, output)?, written(other, one, output)?];
    if written[0] != written[1] {
        return Err(Difference::new("library's list", "is another in the other order"));
    }
    compare_order((one, other), &lists[0], output, tally)?;
    compare_order((other, one), &lists[1], output, tally)?;
    tally.note_listed(&lists[0]);
    Ok(())
}

/// What holds of the second implementation's lists: they do not depend on
/// the order, and are empty exactly when the readings are equal.
fn look_at(one: &Side<'_>, other: &Side<'_>, lists: &[List; 2]) -> Result<(), Difference> {
    let trouble = |text: &str| Err(Difference::new("second's list", text));
    match (one.reading(), other.reading(), lists) {
        (Ok(a), Ok(b), [Ok(list), Ok(swapped)]) => {
            if list != swapped {
                return trouble("is another in the other order");
            }
            if list.is_empty() != (a == b) {
                return trouble("is empty with other readings, or not with equal ones");
            }
            Ok(())
        }
        (Ok(_), Ok(_), _) => trouble("is refused"),
        _ => Ok(()),
    }
}

fn compare_told(lists: &[List; 2], told: &Told) -> Result<(), Difference> {
    let wanted = match told {
        Told::List(list) => [Ok(list.clone()), Ok(list.clone())],
        Told::Refused(first, second) => [Err(*first), Err(*second)],
    };
    if *lists == wanted {
        return Ok(());
    }
    Err(Difference(vec![
        ("second's lists", format!("{lists:?}")),
        ("expected", format!("{wanted:?}")),
    ]))
}

/// What the library writes into room that it asked for itself; nothing
/// where it refuses.
fn written(
    first: &Side<'_>,
    second: &Side<'_>,
    output: &mut Output,
) -> Result<Option<Vec<u8>>, Difference> {
    let trouble = |text: String| Err(Difference::new("library's list", text));
    let mut length = 0;
    loop {
        output.prepare(length, 0xC3);
        let answer =
            library::compare(first.memory(), second.memory(), output.pointer(), length);
        match answer {
            Ok(Answer { number: 13, place, value: 0 }) if length == 0 && place > 0 => {
                length = place as usize;
            }
            Ok(Answer { number: 0, place: 0, value }) if value == length as u64 => break,
            Ok(Answer { number: 1..=11 | 17..=19, value: 0, .. }) if length == 0 => return Ok(None),
            _ => return trouble(format!("room {length}: {}", shown(&answer))),
        }
    }
    let bytes = output.start(length).to_vec();
    match fault(&bytes) {
        Some(text) => trouble(text),
        None => Ok(Some(bytes)),
    }
}

/// What no list may have, whatever the images are: entries out of order or
/// twice, numbers where there are none.
fn fault(bytes: &[u8]) -> Option<String> {
    let long = |e: &[u8], at: usize| u32::from_le_bytes([e[at], e[at + 1], e[at + 2], e[at + 3]]);
    let mut last = None;
    for e in bytes.chunks(16) {
        if e.len() != 16 {
            return Some(format!("{} bytes", bytes.len()));
        }
        let (kind, group, item, byte) = (long(e, 0), long(e, 4), long(e, 8), long(e, 12));
        let right = match kind {
            1 => group == 0 && item < 4 && byte == 0,
            2 => item == 0 && byte == 0,
            3 | 5 => byte == 0,
            4 => true,
            _ => false,
        };
        if !right || last >= Some((group, kind, item)) {
            return Some(format!("entry {kind}, {group}, {item}, {byte} behind {last:?}"));
        }
        last = Some((group, kind, item));
    }
    None
}

/// The lengths of output that a list is written to.
fn rooms(length: Result<u64, Refusal>) -> Vec<usize> {
    match length {
        Err(_) => vec![0, 1_000],
        Ok(0) => vec![0, 1, 16, 10_000],
        Ok(length) => {
            let exact = length as usize;
            vec![exact, exact - 1, 0, exact + 1, exact - 16, 2 * exact + 10_000]
        }
    }
}

/// Both answers and the output for one order of the images, for several
/// lengths of output.
fn compare_order(
    (first, second): (&Side<'_>, &Side<'_>),
    list: &List,
    output: &mut Output,
    tally: &mut Tally,
) -> Result<(), Difference> {
    let length = list.as_ref().map(|list| 16 * list.len() as u64).map_err(|refusal| *refusal);
    for (turn, room) in rooms(length).into_iter().enumerate() {
        output.prepare(room, [0xA5, 0x5A, 0x00, 0xFF, 0x3C, 0x01][turn % 6]);
        let wanted = compare_answer(first.memory(), second.memory(), length, output, tally)?;
        compare_output(output, wanted, list)?;
    }
    Ok(())
}

/// Both answers to a call with the prepared output.
pub fn compare_answer(
    first: (*const u8, usize),
    second: (*const u8, usize),
    length: Result<u64, Refusal>,
    output: &mut Output,
    tally: &mut Tally,
) -> Result<Answer, Difference> {
    let room = output.room();
    let wanted = canonical::answer(length, room as u64);
    let library = library::compare(first, second, output.pointer(), room);
    if library == Ok(wanted) {
        tally.note_list(wanted.number);
        return Ok(wanted);
    }
    Err(Difference(vec![
        ("room", room.to_string()),
        ("library's list", shown(&library)),
        ("second's list", shown(&Ok(wanted))),
    ]))
}

/// The entries written, and the bytes that have to be as they were.
fn compare_output(output: &Output, answer: Answer, list: &List) -> Result<(), Difference> {
    let written = answer.value as usize;
    let trouble = |text| Err(Difference(vec![("room", output.room().to_string()), ("list", text)]));
    if !output.untouched_beyond(written) {
        return trouble(format!("number {}, wrote beyond {written} bytes", answer.number));
    }
    let wanted = match list {
        Ok(list) if answer.number == 0 => list.concat(),
        _ => Vec::new(),
    };
    let bytes = output.start(written);
    if bytes != wanted {
        let at = first_difference(bytes, &wanted) / 16;
        let entries = [bytes, &wanted].map(|list| list.chunks(16).nth(at).map(<[u8]>::to_vec));
        return trouble(format!("entry {at} is {:?}, wanted {:?}", entries[0], entries[1]));
    }
    Ok(())
}

fn shown(answer: &Result<Answer, String>) -> String {
    match answer {
        Ok(a) => format!("number {}, place {}, value {}", a.number, a.place, a.value),
        Err(trouble) => trouble.clone(),
    }
}
