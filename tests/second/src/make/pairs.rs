//! Pairs of files: named ones, whose difference lists follow from how they
//! were made, and random ones.

use super::content::{Body, Channel, Content, Group};
use super::rng::Rng;
use super::{vary, Drawn};
use crate::differences::{entry, Entry};
use crate::mdf::Refusal;

pub struct Pair {
    pub name: String,
    pub one: Vec<u8>,
    pub other: Vec<u8>,
    pub told: Told,
}

/// What is known of a pair beforehand.
pub enum Told {
    /// The list, in either order of the images.
    List(Vec<Entry>),
    /// The refusal with `one` as the first image, and with `other`.
    Refused(Refusal, Refusal),
}

/// An entry by its numbers: kind, group, item, byte place.
type Numbers = (u16, usize, usize, usize);

/// Collects pairs; the layouts come of the random numbers.
struct Book {
    pairs: Vec<Pair>,
    rng: Rng,
}

impl Book {
    /// Two contents with this list, in every combination of modes.
    fn add(&mut self, name: impl Into<String>, one: &Content, other: &Content, list: &[Numbers]) {
        let name = name.into();
        for modes in 0..9 {
            let (a, b) = (modes / 3, modes % 3);
            let list = list.iter().map(|&(kind, group, item, byte)| entry(kind, group, item, byte));
            self.pairs.push(Pair {
                name: format!("{name}, modes {a} and {b}"),
                one: one.lay_down(&mut self.rng, Some(a)),
                other: other.lay_down(&mut self.rng, Some(b)),
                told: Told::List(list.collect()),
            });
        }
    }

    /// The base and what a change makes of it.
    fn changed(
        &mut self,
        name: impl Into<String>,
        change: impl FnOnce(&mut Content),
        list: &[Numbers],
    ) {
        let one = base();
        let mut other = one.clone();
        change(&mut other);
        self.add(name, &one, &other, list);
    }
}

/// All named pairs.
pub fn all() -> Vec<Pair> {
    let mut book = Book { pairs: Vec::new(), rng: Rng::new(1) };
    book.changed("equal", |_| {}, &[]);
    headers(&mut book);
    versions(&mut book);
    texts(&mut book);
    group_fields(&mut book);
    channel_fields(&mut book);
    channel_bodies(&mut book);
    channel_lists(&mut book);
    group_lists(&mut book);
    record_bytes(&mut book);
    record_lists(&mut book);
    record_sizes(&mut book);
    record_sizes_alone(&mut book);
    many_at_once(&mut book);
    no_groups(&mut book);
    refusals(&mut book);
    book.pairs
}

/// Two random contents of which one was made from the other, in any layout;
/// at times one or both are damaged.
pub fn draw(seed: u64, index: u64) -> Drawn {
    let mut rng = Rng::new(seed ^ index.wrapping_mul(0xA24B_AED4_963E_E407));
    let one = vary::content(&mut rng);
    let mut other = one.clone();
    for _ in 0..rng.pick(&[0, 1, 1, 1, 2, 2, 3, 5, 9]) {
        vary::change(&mut rng, &mut other);
    }
    let mut image = one.lay_down(&mut rng, None);
    let mut kin = other.lay_down(&mut rng, None);
    let valid = !rng.chance(8);
    if !valid {
        damage(&mut rng, &mut image);
    }
    if rng.chance(8) {
        damage(&mut rng, &mut kin);
    }
    Drawn { image, valid, kin: Some(kin) }
}

fn damage(rng: &mut Rng, image: &mut Vec<u8>) {
    if rng.chance(50) {
        image.truncate(rng.below(image.len()));
    } else {
        let place = rng.below(image.len());
        image[place] ^= 1 << rng.below(8);
    }
}

// ---- the base

fn channel(number: u8, bodies: [Body; 5]) -> Channel {
    let mut fields = vec![0; 194];
    fields[2..162].fill(0x40 + number);
    Channel { fields, added_offset: 0, bodies }
}

fn with_bodies(number: u8) -> Channel {
    let body = |of: u8, size: usize| Some(vec![0x10 * of + number; size]);
    channel(number, [body(2, 58), body(3, 5), body(4, 3), body(5, 2), body(6, 4)])
}

/// Records of this size, no byte twice among them.
fn records(first: u8, size: u8, count: u8) -> Vec<Vec<u8>> {
    (0..count).map(|n| (0..size).map(|byte| first + n * size + byte).collect()).collect()
}

/// Four groups: channels with all bodies; with none; with empty texts; no
/// channels and records at all.
fn base() -> Content {
    let mut identification = b"MDF     3.30    pairs   \0\0\0\0".to_vec();
    identification.extend((28..64).map(|n| n as u8));
    let text = |bytes: &[u8]| Some(bytes.to_vec());
    let empty = [text(&[7; 42]), text(&[7; 2]), text(b""), text(b""), text(b"")];
    let mut content = Content {
        identification,
        header: (18..208).map(|n| n as u8 | 1).collect(),
        comment: text(b"comment"),
        program: text(b"program"),
        groups: vec![
            Group {
                record_size: 4,
                comment: text(b"group"),
                channels: vec![with_bodies(0), with_bodies(1)],
                records: records(0, 4, 5),
            },
            Group {
                record_size: 3,
                comment: None,
                channels: (2..5).map(|n| channel(n, Default::default())).collect(),
                records: records(50, 3, 4),
            },
            Group {
                record_size: 2,
                comment: text(b""),
                channels: vec![channel(5, empty)],
                records: records(100, 2, 6),
            },
            Group { record_size: 0, comment: None, channels: vec![], records: vec![] },
        ],
    };
    content.set_version(330);
    content
}

// ---- kind 1

fn headers(book: &mut Book) {
    for at in (8..24).chain(30..64) {
        let name = format!("identification byte {at}");
        book.changed(name, |c| c.identification[at] ^= 1, &[(1, 0, 0, 0)]);
    }
    for at in 18..208 {
        book.changed(format!("header byte {at}"), |c| c.header[at - 18] ^= 0x80, &[(1, 0, 1, 0)]);
    }
    // All of them, and it is one entry.
    book.changed("all header bytes", |c| c.header.fill(0), &[(1, 0, 1, 0)]);
    book.changed("header bytes 164 on", |c| c.header[146..].fill(0), &[(1, 0, 1, 0)]);
}

/// Header bytes 164 to 207 say something from version 320 on. Below version
/// 330 the two files mostly have different bytes where later ones have
/// sample reduction links.
fn versions(book: &mut Book) {
    let of = |version: u16, later: u8| {
        let mut content = base();
        content.set_version(version);
        content.header[146..].fill(later);
        content
    };
    let both = [(1, 0, 0, 0), (1, 0, 1, 0)];
    for (one, other, list) in [
        (of(300, 0), of(319, 0), &both[..1]),
        (of(300, 1), of(319, 2), &both[..1]),
        (of(319, 1), of(319, 2), &[]),
        (of(300, 0), of(320, 0), &both),
        (of(319, 0), of(320, 0), &both),
        (of(319, 1), of(320, 1), &both),
        (of(320, 0), of(321, 0), &both[..1]),
        (of(320, 1), of(399, 2), &both),
        (of(320, 1), of(320, 2), &both[1..]),
        (of(300, 0), of(300, 0), &[]),
        (of(329, 1), of(329, 1), &[]),
        (of(329, 1), of(330, 1), &both[..1]),
    ] {
        let (a, b) = (one.version(), other.version());
        let later = (one.header[146], other.header[146]);
        book.add(format!("versions {a} and {b} with {later:?}"), &one, &other, list);
    }
}

/// What can become of a body of at least `least` bytes that is there.
fn body_changes(body: &Body, least: usize) -> Vec<(String, Body)> {
    let bytes = body.clone().unwrap_or_default();
    let mut list = vec![("absent".to_string(), None)];
    for at in 0..bytes.len() {
        let mut flipped = bytes.clone();
        flipped[at] ^= 1;
        list.push((format!("byte {at}"), Some(flipped)));
    }
    let longer = [&bytes[..], &[0]].concat();
    list.push(("longer".to_string(), Some(longer)));
    if bytes.len() > least {
        list.push(("shorter".to_string(), Some(bytes[..bytes.len() - 1].to_vec())));
        list.push(("shortest".to_string(), Some(bytes[..least].to_vec())));
    }
    list
}

fn texts(book: &mut Book) {
    for (name, body) in body_changes(&base().comment, 0) {
        book.changed(format!("comment {name}"), |c| c.comment = body, &[(1, 0, 2, 0)]);
    }
    for (name, body) in body_changes(&base().program, 0) {
        book.changed(format!("program {name}"), |c| c.program = body, &[(1, 0, 3, 0)]);
    }
    // No text at all is not one of no bytes.
    let of = |comment: Body, program: Body| Content { comment, program, ..base() };
    let (none, empty) = (of(None, None), of(Some(vec![]), Some(vec![])));
    book.add("texts absent and empty", &none, &empty, &[(1, 0, 2, 0), (1, 0, 3, 0)]);
    let half = of(None, Some(vec![]));
    book.add("comment absent and empty", &half, &empty, &[(1, 0, 2, 0)]);
    book.add("program absent and empty", &half, &none, &[(1, 0, 3, 0)]);
}

// ---- kind 3

fn group_fields(book: &mut Book) {
    for number in 0..3 {
        let list = [(3, number, 0, 0)];
        for (name, body) in body_changes(&base().groups[number].comment, 0) {
            if body != base().groups[number].comment {
                let name = format!("comment of group {number} {name}");
                book.changed(name, |c| c.groups[number].comment = body, &list);
            }
        }
    }
    let comment = |c: &mut Content| c.groups[3].comment = Some(vec![]);
    book.changed("comment of group 3 there and empty", comment, &[(3, 3, 0, 0)]);
    for size in [1, 255, 256, 65_535] {
        let change = |c: &mut Content| c.groups[3].record_size = size;
        book.changed(format!("record size {size} for 0, no records"), change, &[(3, 3, 0, 0)]);
    }
    let both = |c: &mut Content| {
        c.groups[3].record_size = 9;
        c.groups[3].comment = Some(vec![9]);
    };
    book.changed("record size and comment", both, &[(3, 3, 0, 0)]);
}

fn channel_fields(book: &mut Book) {
    for (group, channel) in [(0, 0), (0, 1), (1, 0), (1, 2), (2, 0)] {
        let list = [(3, group, channel + 1, 0)];
        // The high bytes of type, bits and data type have to be 0.
        for at in (24..218).filter(|at| ![25, 189, 191].contains(at)) {
            let name = format!("byte {at} of channel {channel} of group {group}");
            book.changed(name, |c| c.groups[group].channels[channel].fields[at - 24] ^= 1, &list);
        }
        for offset in [1, 0x100, 0x8000] {
            let name = format!("added offset {offset} of channel {channel} of group {group}");
            let change = |c: &mut Content| c.groups[group].channels[channel].added_offset = offset;
            book.changed(name, change, &list);
        }
    }
}

fn channel_bodies(book: &mut Book) {
    for (group, channel) in [(0, 0), (0, 1), (2, 0)] {
        let list = [(3, group, channel + 1, 0)];
        for (number, least) in [42, 2, 0, 0, 0].into_iter().enumerate() {
            let old = base().groups[group].channels[channel].bodies[number].clone();
            for (name, body) in body_changes(&old, least) {
                let name = format!("body {number} {name}, channel {channel} of group {group}");
                let change =
                    |c: &mut Content| c.groups[group].channels[channel].bodies[number] = body;
                book.changed(name, change, &list);
            }
        }
    }
    // A body in the place of another one.
    let moved = |from: usize, to: usize| {
        move |c: &mut Content| {
            let bodies = &mut c.groups[0].channels[1].bodies;
            bodies[to] = bodies[from].take();
        }
    };
    for (from, to) in [(2, 3), (3, 4), (4, 2)] {
        book.changed(format!("body {from} as {to}"), moved(from, to), &[(3, 0, 2, 0)]);
    }
    let emptied = |c: &mut Content| c.groups[0].channels[1].bodies = Default::default();
    book.changed("no bodies", emptied, &[(3, 0, 2, 0)]);
}

fn channel_lists(book: &mut Book) {
    let plain = |number| channel(number, Default::default());
    let end = |c: &mut Content| c.groups[1].channels.push(plain(9));
    book.changed("channel at the end", end, &[(3, 1, 4, 0)]);
    let middle = |c: &mut Content| c.groups[1].channels.insert(1, plain(9));
    book.changed("channel in the middle", middle, &[(3, 1, 2, 0), (3, 1, 3, 0), (3, 1, 4, 0)]);
    // The second one twice: the third is another then.
    let twice = |c: &mut Content| c.groups[1].channels.insert(1, plain(3));
    book.changed("channel twice", twice, &[(3, 1, 3, 0), (3, 1, 4, 0)]);
    let swapped = |c: &mut Content| c.groups[1].channels.swap(0, 2);
    book.changed("channels exchanged", swapped, &[(3, 1, 1, 0), (3, 1, 3, 0)]);
    let none = |c: &mut Content| c.groups[1].channels.clear();
    book.changed("no channels", none, &[(3, 1, 1, 0), (3, 1, 2, 0), (3, 1, 3, 0)]);
    let first = |c: &mut Content| c.groups[3].channels.push(plain(9));
    book.changed("first channel", first, &[(3, 3, 1, 0)]);
}

// ---- kind 2

/// A group of records of one byte and no channels.
fn small(records: &[u8]) -> Group {
    let records = records.iter().map(|&byte| vec![byte]).collect();
    Group { record_size: 1, comment: None, channels: vec![], records }
}

fn group_lists(book: &mut Book) {
    // Whatever it holds, it has one entry.
    let end = |c: &mut Content| c.groups.push(base().groups[0].clone());
    book.changed("group at the end", end, &[(2, 4, 0, 0)]);
    let two = |c: &mut Content| c.groups.extend_from_slice(&base().groups[..2]);
    book.changed("two groups at the end", two, &[(2, 4, 0, 0), (2, 5, 0, 0)]);
    let gone = |c: &mut Content| c.groups.truncate(1);
    book.changed("three groups fewer", gone, &[(2, 1, 0, 0), (2, 2, 0, 0), (2, 3, 0, 0)]);
    let none = |c: &mut Content| c.groups.clear();
    let all = [(2, 0, 0, 0), (2, 1, 0, 0), (2, 2, 0, 0), (2, 3, 0, 0)];
    book.changed("no groups", none, &all);
    let of = |groups: &[Group]| Content { groups: groups.to_vec(), ..base() };
    let (a, b, c) = (small(&[1, 2]), small(&[1, 3, 4]), small(&[]));
    let three = of(&[a.clone(), b.clone(), c.clone()]);
    let front = of(&[c.clone(), a.clone(), b.clone(), c.clone()]);
    let list = [
        (5, 0, 0, 0),
        (5, 0, 1, 0),
        (4, 1, 1, 0),
        (5, 1, 2, 0),
        (5, 2, 0, 0),
        (5, 2, 1, 0),
        (5, 2, 2, 0),
        (2, 3, 0, 0),
    ];
    book.add("group in front", &three, &front, &list);
    let middle = of(&[a, b.clone(), b, c]);
    let list = [(5, 2, 0, 0), (5, 2, 1, 0), (5, 2, 2, 0), (2, 3, 0, 0)];
    book.add("group in the middle", &three, &middle, &list);
    book.add("files without groups", &of(&[]), &of(&[]), &[]);
}

// ---- kinds 4 and 5

fn record_bytes(book: &mut Book) {
    for (group, size, count) in [(0, 4, 5), (1, 3, 4), (2, 2, 6)] {
        for item in 0..count {
            for byte in 0..size {
                let name = format!("byte {byte} of record {item} of group {group}");
                let change = |c: &mut Content| c.groups[group].records[item][byte] ^= 0x80;
                book.changed(name, change, &[(4, group, item, byte)]);
                // Of several bytes the first counts.
                let name = format!("record {item} of group {group} from byte {byte} on");
                let change = |c: &mut Content| c.groups[group].records[item][byte..].fill(0xFF);
                book.changed(name, change, &[(4, group, item, byte)]);
            }
        }
    }
}

fn record_lists(book: &mut Book) {
    let more = |c: &mut Content| c.groups[1].records.extend(records(200, 3, 2));
    book.changed("two records more", more, &[(5, 1, 4, 0), (5, 1, 5, 0)]);
    let fewer = |c: &mut Content| c.groups[2].records.truncate(3);
    book.changed("three records fewer", fewer, &[(5, 2, 3, 0), (5, 2, 4, 0), (5, 2, 5, 0)]);
    let none = |c: &mut Content| c.groups[1].records.clear();
    let list = [(5, 1, 0, 0), (5, 1, 1, 0), (5, 1, 2, 0), (5, 1, 3, 0)];
    book.changed("no records", none, &list);
    // The first byte of each record differs from those of all others.
    let middle = |c: &mut Content| c.groups[1].records.insert(2, vec![200; 3]);
    let list = [(4, 1, 2, 0), (4, 1, 3, 0), (5, 1, 4, 0)];
    book.changed("record in the middle", middle, &list);
    let swapped = |c: &mut Content| c.groups[2].records.swap(1, 4);
    book.changed("records exchanged", swapped, &[(4, 2, 1, 0), (4, 2, 4, 0)]);
    let long = |length: usize, last: u8| {
        let mut record = vec![7; 1000];
        *record.last_mut().expect("not empty") = last;
        let group =
            Group { record_size: 1000, records: vec![record; length], ..small(&[]) };
        Content { groups: vec![group], ..base() }
    };
    let list: Vec<Numbers> = (0..300).map(|item| (4, 0, item, 999)).collect();
    book.add("last of 1,000 bytes", &long(300, 1), &long(300, 2), &list);
    let list: Vec<Numbers> = (1..300).map(|item| (5, 0, item, 0)).collect();
    book.add("one of 300 records", &long(300, 1), &long(1, 1), &list);
}

/// With another record size every record differs, at the latest where the
/// shorter one ends.
fn record_sizes(book: &mut Book) {
    let longer = |c: &mut Content| {
        c.groups[2].record_size = 5;
        for record in &mut c.groups[2].records {
            record.resize(5, 0);
        }
    };
    let mut list: Vec<Numbers> = vec![(3, 2, 0, 0)];
    list.extend((0..6).map(|item| (4, 2, item, 2)));
    book.changed("longer records", longer, &list);
    let shorter = |c: &mut Content| {
        c.groups[0].record_size = 1;
        for record in &mut c.groups[0].records {
            record.truncate(1);
        }
        c.groups[0].records[3][0] ^= 1;
        c.groups[0].records.push(vec![0]);
    };
    let list = [
        (3, 0, 0, 0),
        (4, 0, 0, 1),
        (4, 0, 1, 1),
        (4, 0, 2, 1),
        (4, 0, 3, 0),
        (4, 0, 4, 1),
        (5, 0, 5, 0),
    ];
    book.changed("shorter records", shorter, &list);
}

/// Another record size, and nothing else that differs.
fn record_sizes_alone(book: &mut Book) {
    // What stands behind the shorter one is as the longer one goes on.
    let alike = |size: usize| {
        let records = vec![vec![7; size]; 6];
        let group = Group { record_size: size as u16, records, ..small(&[]) };
        Content { groups: vec![group], ..base() }
    };
    let mut list: Vec<Numbers> = vec![(3, 0, 0, 0)];
    list.extend((0..6).map(|item| (4, 0, item, 1)));
    book.add("records of one byte over and over", &alike(1), &alike(3), &list);
    let none = |c: &mut Content| {
        c.groups[1].record_size = 7;
        c.groups[1].records.clear();
    };
    let list = [(3, 1, 0, 0), (5, 1, 0, 0), (5, 1, 1, 0), (5, 1, 2, 0), (5, 1, 3, 0)];
    book.changed("another record size, no records", none, &list);
}

// ---- several, and none

/// The order is by group first, so what concerns the file comes before all.
fn many_at_once(book: &mut Book) {
    let change = |c: &mut Content| {
        c.identification[63] ^= 1;
        c.header[0] ^= 1;
        c.comment = None;
        c.program = Some(vec![]);
        c.groups[0].comment = None;
        c.groups[0].channels[0].added_offset = 3;
        c.groups[0].channels[1].bodies[4] = None;
        c.groups[0].records[1][2] ^= 1;
        c.groups[0].records[4][0] ^= 1;
        c.groups[0].records.push(vec![0; 4]);
        c.groups[1].channels.remove(2);
        c.groups[1].records.pop();
        c.groups[2].records[5][1] ^= 1;
        c.groups[3].record_size = 1;
        c.groups[3].channels.push(channel(9, Default::default()));
        c.groups[3].records.push(vec![0]);
        c.groups.push(small(&[1, 2, 3]));
    };
    let list = [
        (1, 0, 0, 0),
        (1, 0, 1, 0),
        (1, 0, 2, 0),
        (1, 0, 3, 0),
        (3, 0, 0, 0),
        (3, 0, 1, 0),
        (3, 0, 2, 0),
        (4, 0, 1, 2),
        (4, 0, 4, 0),
        (5, 0, 5, 0),
        (3, 1, 3, 0),
        (5, 1, 3, 0),
        (4, 2, 5, 1),
        (3, 3, 0, 0),
        (3, 3, 1, 0),
        (5, 3, 0, 0),
        (2, 4, 0, 0),
    ];
    book.changed("many at once", change, &list);
}

/// A file without groups.
fn no_groups(book: &mut Book) {
    let change = |c: &mut Content| {
        c.identification[8] ^= 1;
        c.program = None;
        c.groups.clear();
    };
    let list =
        [(1, 0, 0, 0), (1, 0, 3, 0), (2, 0, 0, 0), (2, 1, 0, 0), (2, 2, 0, 0), (2, 3, 0, 0)];
    book.changed("no groups, and others", change, &list);
}

/// The first image's refusal counts, whatever the second one's is.
fn refusals(book: &mut Book) {
    let good = base().lay_down(&mut Rng::new(1), Some(0));
    let with = |place: usize, bytes: &[u8]| {
        let mut image = good.clone();
        image[place..place + bytes.len()].copy_from_slice(bytes);
        image
    };
    let refusal = |number, place| Refusal { number, place };
    let bad = [
        (vec![], refusal(2, 0)),
        (with(0, b"UnFinMF "), refusal(3, 0)),
        (with(24, &[1]), refusal(4, 24)),
        (with(28, &[0, 0]), refusal(4, 28)),
        (with(64, b"ZZ"), refusal(17, 64)),
        (with(66, &[163, 0]), refusal(18, 64)),
        (with(66, &[255; 2]), refusal(19, 64)),
        (with(72, &[1, 0, 0, 0]), refusal(17, 72)),
        (with(68, &[255; 4]), refusal(5, 68)),
    ];
    for (n, (one, first)) in bad.iter().enumerate() {
        for (m, (other, second)) in bad.iter().enumerate() {
            let (one, other) = (one.clone(), other.clone());
            let told = Told::Refused(*first, *second);
            book.pairs.push(Pair { name: format!("refused {n} and {m}"), one, other, told });
        }
        let (one, other) = (one.clone(), good.clone());
        let told = Told::Refused(*first, *first);
        book.pairs.push(Pair { name: format!("refused {n} and accepted"), one, other, told });
    }
}
