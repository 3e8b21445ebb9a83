//! Samples and physical values of one image through both implementations.

use crate::compare::Difference;
use crate::library;
use crate::tally::Tally;
use second::make::cases::Known;
use second::mdf::Refusal;
use second::reading::{Group, Reading};
use second::sample::{self, Answer, Asked, Call};

/// So many groups or channels are all asked for; of more a few.
const FEW: u64 = 24;
const WRAP: u64 = 1 << 32;
/// With more records than this a file is asked for little.
const MANY: u64 = 4 << 20;

/// Compares known answers, and those to a choice of questions.
pub fn compare(
    image: &[u8],
    reading: Result<&Reading<'_>, Refusal>,
    known: &[Known],
    tally: &mut Tally,
) -> Result<(), Difference> {
    for &Known { call, asked, answer } in known {
        compare_one(image, reading, (call, asked), Some(answer), tally)?;
    }
    for asked in questions(reading) {
        for call in [Call::Sample, Call::Physical] {
            compare_one(image, reading, (call, asked), None, tally)?;
        }
    }
    Ok(())
}

fn compare_one(
    image: &[u8],
    reading: Result<&Reading<'_>, Refusal>,
    (call, asked): (Call, Asked),
    expected: Option<Answer>,
    tally: &mut Tally,
) -> Result<(), Difference> {
    let second = sample::answer(call, reading, asked);
    let library = library::ask(call, image.as_ptr(), image.len(), asked);
    let wanted = expected.unwrap_or(second);
    if second == wanted && library == Ok(wanted) {
        tally.note_asked(call, wanted);
        return Ok(());
    }
    let Asked { group, channel, record } = asked;
    let mut lines = vec![
        ("call", format!("{call:?} of group {group}, channel {channel}, record {record}")),
        ("library", shown(&library)),
        ("second", shown(&Ok(second))),
    ];
    if expected.is_some() {
        lines.push(("expected", shown(&Ok(wanted))));
    }
    Err(Difference(lines))
}

fn shown(answer: &Result<Answer, String>) -> String {
    match answer {
        Ok(a) => format!(
            "number {}, place {}, value {} ({:#x}), length {}, kind {}",
            a.number, a.place, a.value, a.value, a.length, a.kind
        ),
        Err(trouble) => trouble.clone(),
    }
}

/// What is asked of an image: all its groups and channels, or a few of them,
/// some records of each, and what is not there.
fn questions(reading: Result<&Reading<'_>, Refusal>) -> Vec<Asked> {
    let mut list = Vec::new();
    let mut ask = |group, channel, record| list.push(Asked { group, channel, record });
    ask(u64::MAX, u64::MAX, u64::MAX);
    ask(0, 0, 0);
    let reading = match reading {
        Ok(reading) => reading,
        Err(_) => return list,
    };
    let groups = reading.groups.len() as u64;
    for group in [groups, groups + 1, WRAP, 1 << 63, u64::MAX] {
        ask(group, 0, 0);
    }
    let records = reading.groups.iter().map(|group| u64::from(group.records.count()));
    if records.sum::<u64>() > MANY {
        ask(groups - 1, 0, 0);
        return list;
    }
    for index in some_of(groups) {
        let group = &reading.groups[index as usize];
        list.extend(in_group(group).map(|(channel, record)| Asked {
            group: index,
            channel,
            record,
        }));
    }
    list
}

/// Channels and records to ask for in a group.
fn in_group(group: &Group<'_>) -> impl Iterator<Item = (u64, u64)> {
    let (channels, records) = (group.channels.len() as u64, u64::from(group.records.count()));
    let found = some_of(channels).into_iter().flat_map(move |channel| {
        let some = [0, 1, records / 2, records.saturating_sub(1), records];
        let mut some = some.to_vec();
        some.sort_unstable();
        some.dedup();
        some.retain(|&record| record <= records);
        some.into_iter().map(move |record| (channel, record))
    });
    let missing = [
        (channels, 0),
        (WRAP, 0),
        (u64::MAX, 0),
        (0, records + 1),
        (0, WRAP),
        (0, 1 << 63),
        (0, u64::MAX),
    ];
    found.chain(missing)
}

/// All numbers below a count, or those at the ends and in the middle.
fn some_of(count: u64) -> Vec<u64> {
    if count <= FEW {
        return (0..count).collect();
    }
    vec![0, 1, count / 3, count / 2, count - 2, count - 1]
}
