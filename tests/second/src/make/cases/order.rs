//! Two faults in one file: only the one met first is told.
//!
//! All faults of the full file are listed in the order in which a check
//! meets them. Every two of them that do not write the same bytes make a
//! case. No fault reaches a test that comes before its own. Then each of
//! them once more, in a file of version 329 with sample reduction links.

use super::{full, Book, Full};

const FAR: u32 = 0xFFFF_FFFF;

struct Fault {
    name: String,
    at: usize,
    bytes: Vec<u8>,
    number: u32,
    place: usize,
}

#[derive(Default)]
struct Faults {
    list: Vec<Fault>,
}

impl Faults {
    fn bytes(&mut self, name: &str, at: usize, bytes: &[u8], number: u32, place: usize) {
        let (name, bytes) = (format!("{name} at {at}"), bytes.to_vec());
        self.list.push(Fault { name, at, bytes, number, place });
    }

    /// A fault written at the place it is told for.
    fn word(&mut self, name: &str, at: usize, value: u16, number: u32) {
        self.bytes(name, at, &value.to_le_bytes(), number, at);
    }

    fn link(&mut self, name: &str, at: usize, value: u32, number: u32) {
        self.bytes(name, at, &value.to_le_bytes(), number, at);
    }

    /// A link beyond the image, a wrong identifier, a size that is too small
    /// and one that is too large.
    fn block(&mut self, name: &str, field: usize, block: usize, too_small: u16) {
        self.link(&format!("{name} link"), field, FAR, 5);
        self.bytes(&format!("{name} identifier"), block, b"ZZ", 17, field);
        let size = too_small.to_le_bytes();
        self.bytes(&format!("{name} size"), block + 2, &size, 18, field);
        self.bytes(&format!("{name} end"), block + 2, &[0xFF; 2], 19, field);
    }
}

pub fn cases(book: &mut Book) {
    let file = full(true);
    let faults = listed(&file);
    for (n, first) in faults.iter().enumerate() {
        let image = with(&file, &[first]);
        book.expect(format!("single: {}", first.name), &image, first.number, first.place);
        for second in &faults[n + 1..] {
            if !collide(first, second) {
                let image = with(&file, &[first, second]);
                let name = format!("pair: {} / {}", first.name, second.name);
                book.expect(name, &image, first.number, first.place);
            }
        }
    }
    from_each_on(book, &file, &faults);
    below_330(book);
}

/// Below version 330 sample reduction links are no fault, and every other
/// one is told as without them.
fn below_330(book: &mut Book) {
    let mut file = full(true);
    file.sheet.put16(28, 329);
    for cg in file.cg {
        file.sheet.put32(cg + 26, FAR);
    }
    book.accept("version 329 with sample reduction links", &file.sheet.bytes);
    let others = listed(&file).into_iter().filter(|f| !f.name.starts_with("sample reduction"));
    for fault in others {
        let name = format!("version 329 with sample reduction links: {}", fault.name);
        book.expect(name, &with(&file, &[&fault]), fault.number, fault.place);
    }
}

/// Every fault together with as many later ones as fit.
fn from_each_on(book: &mut Book, file: &Full, faults: &[Fault]) {
    for n in 0..faults.len() {
        let mut chosen: Vec<&Fault> = vec![&faults[n]];
        for fault in &faults[n + 1..] {
            if !chosen.iter().any(|other| collide(other, fault)) {
                chosen.push(fault);
            }
        }
        let name = format!("all from: {}", faults[n].name);
        let image = with(file, &chosen);
        book.expect(name, &image, faults[n].number, faults[n].place);
    }
}

fn collide(one: &Fault, other: &Fault) -> bool {
    one.at < other.at + other.bytes.len() && other.at < one.at + one.bytes.len()
}

fn with(file: &Full, faults: &[&Fault]) -> Vec<u8> {
    let mut sheet = file.sheet.clone();
    for fault in faults {
        sheet.put(fault.at, &fault.bytes);
    }
    sheet.bytes
}

/// All faults, in the order in which they are met.
fn listed(file: &Full) -> Vec<Fault> {
    let mut faults = Faults::default();
    faults.bytes("identifier", 0, b"XDF", 2, 0);
    faults.bytes("unfinalized", 0, b"UnFinMF ", 3, 0);
    faults.word("byte order", 24, 1, 4);
    faults.word("float format", 26, 1, 4);
    faults.word("version", 28, 400, 4);
    faults.bytes("HD identifier", 64, b"ZZ", 17, 64);
    faults.bytes("HD size", 66, &[163, 0], 18, 64);
    faults.bytes("HD end", 66, &[0xFF; 2], 19, 64);
    faults.link("file comment link", 72, FAR, 5);
    faults.link("program link", 76, FAR, 5);
    data_group(&mut faults, 68, file.dg[0]);
    group(&mut faults, file, 0, file.dg[0] + 8);
    channel(&mut faults, file, 0, file.cg[0] + 8);
    channel(&mut faults, file, 1, file.channels[0].cn + 4);
    group(&mut faults, file, 1, file.cg[0] + 4);
    channel(&mut faults, file, 2, file.cg[1] + 8);
    logged_records(&mut faults, file);
    data_group(&mut faults, file.dg[0] + 4, file.dg[1]);
    group(&mut faults, file, 2, file.dg[1] + 8);
    channel(&mut faults, file, 3, file.cg[2] + 8);
    let last = file.cg[2];
    faults.link("second group", last + 4, file.cg[0] as u32, 8);
    faults.link("second group, broken", last + 4, FAR, 8);
    sorted_records(&mut faults, file);
    faults.link("third DG link", file.dg[1] + 4, FAR, 5);
    faults.list
}

fn data_group(faults: &mut Faults, field: usize, dg: usize) {
    faults.block("DG", field, dg, 23);
    faults.link("trigger", dg + 12, 1, 6);
    faults.word("mode", dg + 22, 3, 8);
}

fn group(faults: &mut Faults, file: &Full, number: usize, field: usize) {
    let cg = file.cg[number];
    faults.block("CG", field, cg, 25);
    faults.link("sample reduction", cg + 26, 1, 6);
    if number < 2 {
        faults.word("ID too large", cg + 16, 256, 8);
    }
    if number == 1 {
        faults.word("ID used before", cg + 16, super::GROUP_IDS[0], 8);
    }
    faults.link("group comment link", cg + 12, FAR, 5);
    faults.word("record size 0", cg + 20, 0, 10);
}

fn channel(faults: &mut Faults, file: &Full, number: usize, field: usize) {
    let places = file.channels[number];
    let cn = places.cn;
    faults.block("CN", field, cn, 217);
    faults.block("CC", cn + 8, places.cc, 45);
    faults.word("formula", places.cc + 42, 12, 6);
    faults.block("CE", cn + 12, places.ce, 5);
    faults.link("dependency", cn + 16, 1, 6);
    faults.block("comment", cn + 20, places.tx, 3);
    faults.word("channel type", cn + 24, 2, 9);
    faults.word("start", cn + 186, 200, 9);
    faults.bytes("bits", cn + 188, &33u16.to_le_bytes(), 9, cn + 186);
    faults.bytes("added offset", cn + 226, &9u16.to_le_bytes(), 9, cn + 186);
    faults.word("data type", cn + 190, 17, 9);
    faults.block("long name", cn + 218, places.long, 3);
    faults.block("display name", cn + 222, places.display, 3);
}

/// Faults of the records with IDs: 1 at 0, 2 at 5, 1 at 8 of the data.
fn logged_records(faults: &mut Faults, file: &Full) {
    let (dg, data) = (file.dg[0], file.data[0]);
    faults.link("data link nil", dg + 16, 0, 11);
    faults.bytes("data link far", dg + 16, &FAR.to_le_bytes(), 11, FAR as usize);
    faults.bytes("record 0 ID unknown", data, &[9], 11, data);
    faults.bytes("record 1 ID unknown", data + 5, &[9], 11, data + 5);
    faults.bytes("record 2 ID unknown", data + 8, &[9], 11, data + 8);
    faults.bytes("record 2 ID full", data + 8, &[2], 11, data + 8);
}

/// Faults of the two records of three bytes that end the image.
fn sorted_records(faults: &mut Faults, file: &Full) {
    let (dg, data) = (file.dg[1], file.data[1]);
    faults.link("data link nil", dg + 16, 0, 11);
    let late = data + 1;
    faults.bytes("data link late", dg + 16, &(late as u32).to_le_bytes(), 11, late + 3);
    let count = file.cg[2] + 22;
    faults.bytes("record count", count, &[3], 11, data + 6);
}
