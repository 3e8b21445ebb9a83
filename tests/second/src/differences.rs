//! The difference list of two readings: an entry of 16 bytes for every item
//! in which they differ, and what a call that asks for it has to answer.

use crate::mdf::Refusal;
use crate::reading::{Group, Reading};

pub const ENTRY_SIZE: u64 = 16;

/// Kind in two bytes, two of zero, then group, item and byte place in four
/// bytes each, lowest byte first.
pub type Entry = [u8; 16];

pub fn entry(kind: u16, group: usize, item: usize, byte: usize) -> Entry {
    let mut bytes = [0; 16];
    bytes[..2].copy_from_slice(&kind.to_le_bytes());
    for (cell, number) in bytes[4..].chunks_exact_mut(4).zip([group, item, byte]) {
        cell.copy_from_slice(&(number as u32).to_le_bytes());
    }
    bytes
}

/// The whole list.
pub fn differences(one: &Reading<'_>, other: &Reading<'_>) -> Vec<Entry> {
    let mut list = Vec::new();
    each(one, other, |entry| list.push(entry));
    list
}

/// The length of the list in bytes. It can be longer than any that is
/// written.
pub fn length(one: &Reading<'_>, other: &Reading<'_>) -> u64 {
    let mut entries = 0;
    each(one, other, |_| entries += 1);
    ENTRY_SIZE * entries
}

/// The same for two images, or why one of them is refused; the first one's
/// refusal counts before the second one's.
pub fn length_of(
    first: Result<&Reading<'_>, Refusal>,
    second: Result<&Reading<'_>, Refusal>,
) -> Result<u64, Refusal> {
    Ok(length(first?, second?))
}

/// Hands out the entries in the order of group, kind and item.
pub fn each(one: &Reading<'_>, other: &Reading<'_>, mut put: impl FnMut(Entry)) {
    let items = [
        one.identification == other.identification,
        one.plain == other.plain && one.later == other.later,
        one.comment == other.comment,
        one.program == other.program,
    ];
    for (item, same) in items.into_iter().enumerate() {
        if !same {
            put(entry(1, 0, item, 0));
        }
    }
    for number in 0..one.groups.len().max(other.groups.len()) {
        match (one.groups.get(number), other.groups.get(number)) {
            (Some(a), Some(b)) => {
                described(number, a, b, &mut put);
                recorded(number, a, b, &mut put);
            }
            _ => put(entry(2, number, 0, 0)),
        }
    }
}

/// The group's own fields and comment, then its channels.
fn described(number: usize, one: &Group<'_>, other: &Group<'_>, put: &mut impl FnMut(Entry)) {
    if (one.record_size, one.comment) != (other.record_size, other.comment) {
        put(entry(3, number, 0, 0));
    }
    for channel in 0..one.channels.len().max(other.channels.len()) {
        // One that is missing differs from every channel.
        if one.channels.get(channel) != other.channels.get(channel) {
            put(entry(3, number, channel + 1, 0));
        }
    }
}

/// The records that both have, then those that one has.
fn recorded(number: usize, one: &Group<'_>, other: &Group<'_>, put: &mut impl FnMut(Entry)) {
    for (item, (a, b)) in one.records.iter().zip(other.records.iter()).enumerate() {
        if a != b {
            let within = a.iter().zip(b).position(|(x, y)| x != y);
            put(entry(4, number, item, within.unwrap_or(a.len().min(b.len()))));
        }
    }
    let counts = [one.records.count() as usize, other.records.count() as usize];
    for item in counts[0].min(counts[1])..counts[0].max(counts[1]) {
        put(entry(5, number, item, 0));
    }
}
