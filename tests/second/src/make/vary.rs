//! Random contents, and changes that leave a file accepted.

use super::content::{Body, Channel, Content, Group};
use super::rng::Rng;

pub fn content(rng: &mut Rng) -> Content {
    let mut identification = rng.bytes(64);
    identification[..8].copy_from_slice(b"MDF     ");
    identification[24..28].fill(0);
    let mut header = rng.bytes(190);
    if rng.chance(30) {
        header[146..].fill(0);
    }
    let mut content =
        Content { identification, header, comment: None, program: None, groups: Vec::new() };
    content.set_version(rng.pick(&[300, 319, 320, 329, 330, 331]));
    content.comment = body(rng, 0);
    content.program = body(rng, 0);
    for _ in 0..rng.pick(&[0, 1, 1, 2, 2, 3, 5]) {
        content.groups.push(group(rng));
    }
    content
}

/// Absent, empty, or some bytes; never fewer than `least`.
fn body(rng: &mut Rng, least: usize) -> Body {
    let size = least + rng.pick(&[0, 0, 1, 3, 9, 40]);
    rng.chance(60).then(|| rng.bytes(size))
}

/// No conversion has formula 12, which would be refused.
fn conversion(rng: &mut Rng) -> Body {
    let mut bytes = body(rng, 42)?;
    let formula = rng.pick(&[0, 1, 6, 11, 13, 255]);
    bytes[38..40].copy_from_slice(&[formula, 0]);
    Some(bytes)
}

fn one_body(rng: &mut Rng, number: usize) -> Body {
    match number {
        0 => conversion(rng),
        1 => body(rng, 2),
        _ => body(rng, 0),
    }
}

/// With bits only at the start of the record, so that it may have any
/// length from 1 on.
fn channel(rng: &mut Rng) -> Channel {
    let mut channel = Channel {
        fields: rng.bytes(194),
        added_offset: 0,
        bodies: [0, 1, 2, 3, 4].map(|number| one_body(rng, number)),
    };
    channel.put16(24, rng.below(2) as u16);
    channel.put16(190, rng.below(17) as u16);
    position(rng, &mut channel);
    channel
}

fn position(rng: &mut Rng, channel: &mut Channel) {
    let somewhere = rng.chance(50);
    let bits = if somewhere { 0 } else { rng.between(1, 8) };
    channel.put16(188, bits as u16);
    channel.put16(186, if somewhere { rng.raw() as u16 } else { 0 });
    channel.added_offset = if somewhere && rng.chance(50) { rng.raw() as u16 } else { 0 };
}

fn group(rng: &mut Rng) -> Group {
    let size = rng.pick(&[1, 1, 2, 3, 4, 8, 21]);
    let channels = (0..rng.below(4)).map(|_| channel(rng)).collect();
    let count = if rng.chance(5) { rng.below(300) } else { rng.pick(&[0, 1, 2, 3, 5, 8]) };
    let records = (0..count).map(|_| rng.bytes(size)).collect();
    Group { record_size: size as u16, comment: body(rng, 0), channels, records }
}

/// Flips a bit of one byte.
fn flip(rng: &mut Rng, bytes: &mut [u8]) {
    if !bytes.is_empty() {
        let any = rng.below(bytes.len());
        let at = rng.pick(&[0, bytes.len() - 1, any]);
        bytes[at] ^= 1 << rng.below(8);
    }
}

/// Changes one thing that the file says; where there is nothing to change,
/// it stays.
pub fn change(rng: &mut Rng, content: &mut Content) {
    match rng.below(100) {
        0..=4 => flip(rng, &mut content.identification[30..]),
        5..=7 => content.set_version(rng.pick(&[300, 310, 319, 320, 329, 330, 399])),
        8..=14 => flip(rng, &mut content.header),
        15..=18 => content.comment = changed(rng, &content.comment),
        19..=22 => content.program = changed(rng, &content.program),
        23..=25 => content.groups.push(group(rng)),
        26..=29 => change_list(rng, &mut content.groups, group),
        _ if content.groups.is_empty() => content.groups.push(group(rng)),
        _ => {
            let number = rng.below(content.groups.len());
            change_group(rng, &mut content.groups[number]);
        }
    }
}

/// Another text: absent, emptied, longer, shorter, or of other bytes.
fn changed(rng: &mut Rng, body: &Body) -> Body {
    let mut bytes = body.clone().unwrap_or_default();
    match rng.below(5) {
        0 => return None,
        1 => bytes.clear(),
        2 => bytes.push(rng.raw() as u8),
        3 => bytes.truncate(bytes.len().saturating_sub(1)),
        _ => flip(rng, &mut bytes),
    }
    Some(bytes)
}

/// Puts one in, takes one out, or exchanges two.
fn change_list<T>(rng: &mut Rng, list: &mut Vec<T>, fresh: fn(&mut Rng) -> T) {
    let at = rng.below(list.len() + 1);
    if list.is_empty() || rng.chance(40) {
        list.insert(at, fresh(rng));
    } else if rng.chance(60) {
        list.remove(at % list.len());
    } else {
        let other = rng.below(list.len());
        let at = at % list.len();
        list.swap(at, other);
    }
}

fn change_group(rng: &mut Rng, group: &mut Group) {
    match rng.below(100) {
        0..=9 => group.comment = changed(rng, &group.comment),
        10..=19 => resize(rng, group),
        20..=29 => change_list(rng, &mut group.channels, channel),
        30..=54 if !group.channels.is_empty() => {
            let number = rng.below(group.channels.len());
            change_channel(rng, &mut group.channels[number]);
        }
        55..=64 => {
            let size = usize::from(group.record_size);
            group.records.push(rng.bytes(size));
        }
        65..=69 => {
            group.records.pop();
        }
        _ if group.records.is_empty() => group.comment = changed(rng, &group.comment),
        70..=76 => {
            group.records.remove(rng.below(group.records.len()));
        }
        77..=80 => group.records.reverse(),
        _ => {
            let number = rng.below(group.records.len());
            flip(rng, &mut group.records[number]);
        }
    }
}

/// Longer or shorter records, the start of each being as it was.
fn resize(rng: &mut Rng, group: &mut Group) {
    let size = rng.between(1, usize::from(group.record_size) + 2);
    let fill = rng.raw() as u8;
    group.record_size = size as u16;
    for record in &mut group.records {
        record.resize(size, fill);
    }
}

fn change_channel(rng: &mut Rng, channel: &mut Channel) {
    match rng.below(10) {
        0..=1 => flip(rng, &mut channel.fields[2..162]),
        2 => flip(rng, &mut channel.fields[168..]),
        3 => channel.put16(24, 1 - channel.word(24)),
        4 => channel.put16(190, rng.below(17) as u16),
        5 => position(rng, channel),
        _ => {
            let number = rng.below(5);
            channel.bodies[number] = match number {
                0 | 1 => one_body(rng, number),
                _ => changed(rng, &channel.bodies[number]),
            };
        }
    }
}
