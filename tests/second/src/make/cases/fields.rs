//! Boundaries of single fields of data groups, groups and channels.

use super::super::sheet::Sheet;
use super::{full, logged, Book, Full};

pub fn cases(book: &mut Book) {
    let file = full(true);
    book.accept("full file", &file.sheet.bytes);
    barred_links(book, &file);
    formulas(book, &file);
    modes(book, &file);
    record_ids(book);
    channel_fields(book, &file);
    positions(book);
    record_sizes(book);
    reductions(book);
    short_channels(book);
    idle_fields(book, &file);
}

/// One 16-bit field of the full file set to a value.
fn with16(file: &Full, place: usize, value: u16) -> Vec<u8> {
    let mut sheet = file.sheet.clone();
    sheet.put16(place, value);
    sheet.bytes
}

fn with32(file: &Full, place: usize, value: u32) -> Vec<u8> {
    let mut sheet = file.sheet.clone();
    sheet.put32(place, value);
    sheet.bytes
}

fn barred_links(book: &mut Book, file: &Full) {
    let mut fields = Vec::new();
    fields.extend(file.dg.iter().map(|dg| ("trigger", dg + 12)));
    fields.extend(file.cg.iter().map(|cg| ("sample reduction", cg + 26)));
    fields.extend(file.channels.iter().map(|ch| ("dependency", ch.cn + 16)));
    for (label, place) in fields {
        for value in [1, 64, 256, 0x0001_0000, 0x0100_0000, 0x8000_0000, 0xFFFF_FFFF] {
            let name = format!("{label} at {place}: {value:#x}");
            book.expect(name, &with32(file, place, value), 6, place);
        }
    }
}

fn formulas(book: &mut Book, file: &Full) {
    for channel in file.channels {
        let place = channel.cc + 42;
        for value in [0, 1, 2, 6, 10, 11, 13, 132, 133, 268, 3072, 0x0C0C, 65535] {
            book.accept(format!("formula {value} at {place}"), &with16(file, place, value));
        }
        book.expect(format!("formula 12 at {place}"), &with16(file, place, 12), 6, place);
    }
    // The size of the block and the parameter count make no difference.
    for (size, count) in [(46, 0), (46, 65535), (47, 1), (62, 2), (1000, 3)] {
        let mut sheet = file.sheet.clone();
        let cc = sheet.linked(file.channels[1].cn + 8, b"CC", size);
        sheet.put16(cc + 44, count);
        let name = format!("conversion of {size} bytes, count {count}");
        book.accept(format!("{name}, formula 0"), &sheet.bytes);
        sheet.put16(cc + 42, 12);
        book.expect(format!("{name}, formula 12"), &sheet.bytes, 6, cc + 42);
    }
}

fn modes(book: &mut Book, file: &Full) {
    for dg in file.dg {
        for mode in [3, 4, 255, 256, 257, 512, 0x8000, 65535] {
            let name = format!("mode {mode} at {dg}");
            book.expect(name, &with16(file, dg + 22, mode), 8, dg + 22);
        }
    }
    for mode in [0, 1, 2] {
        let empty = logged(mode, &[], &[]);
        book.accept(format!("mode {mode} without groups"), &empty.sheet.bytes);
        let one = logged(mode, &[(5, 2, 0)], &[]);
        book.accept(format!("mode {mode} with one group"), &one.sheet.bytes);
    }
    for mode in [3, 65535] {
        let empty = logged(mode, &[], &[]);
        let place = empty.dg + 22;
        book.expect(format!("mode {mode} without groups"), &empty.sheet.bytes, 8, place);
    }
    let two = logged(0, &[(1, 2, 0), (2, 2, 0)], &[]);
    book.expect("second group in mode 0", &two.sheet.bytes, 8, two.cg[0] + 4);
    let mut broken = two.sheet.clone();
    broken.put32(two.cg[0] + 4, 0xFFFF_FFFF);
    book.expect("second group in mode 0, broken link", &broken.bytes, 8, two.cg[0] + 4);
    let three = logged(0, &[(1, 2, 0), (2, 2, 0), (3, 2, 0)], &[]);
    book.expect("three groups in mode 0", &three.sheet.bytes, 8, three.cg[0] + 4);
}

fn record_ids(book: &mut Book) {
    for id in [0, 1, 255, 256, 257, 0x0101, 65535] {
        let one = logged(0, &[(id, 2, 1)], &[0, 0]);
        book.accept(format!("mode 0, ID {id}"), &one.sheet.bytes);
        for mode in [1, 2] {
            let file = logged(mode, &[(7, 1, 0), (id, 2, 0), (9, 1, 0)], &[]);
            let name = format!("mode {mode}, ID {id}");
            if id <= 255 {
                book.accept(name, &file.sheet.bytes);
            } else {
                book.expect(name, &file.sheet.bytes, 8, file.cg[1] + 16);
            }
        }
    }
    for mode in [1, 2] {
        for id in [0, 1, 128, 255] {
            let file = logged(mode, &[(id, 1, 0), (id, 1, 0)], &[]);
            let name = format!("mode {mode}, ID {id} twice");
            book.expect(name, &file.sheet.bytes, 8, file.cg[1] + 16);
            let other = id ^ 64;
            let file = logged(mode, &[(id, 1, 0), (other, 1, 0), (9, 1, 0), (id, 1, 0)], &[]);
            let name = format!("mode {mode}, ID {id} in groups one and four");
            book.expect(name, &file.sheet.bytes, 8, file.cg[3] + 16);
        }
        let file = logged(mode, &[(256, 1, 0), (256, 1, 0)], &[]);
        book.expect(format!("mode {mode}, ID 256 twice"), &file.sheet.bytes, 8, file.cg[0] + 16);
        same_id_elsewhere(book, mode);
    }
}

/// The same ID, even the same group block, in two data groups.
fn same_id_elsewhere(book: &mut Book, mode: u16) {
    let mut file = logged(mode, &[(3, 1, 0), (4, 1, 0)], &[]);
    let dg = file.sheet.linked(file.dg + 4, b"DG", 24);
    file.sheet.put16(dg + 22, mode);
    let cg = file.sheet.linked(dg + 8, b"CG", 26);
    file.sheet.put16(cg + 16, 3);
    book.accept(format!("mode {mode}, ID in two data groups"), &file.sheet.bytes);
    file.sheet.put32(dg + 8, file.cg[0] as u32);
    book.accept(format!("mode {mode}, groups shared by data groups"), &file.sheet.bytes);
}

fn channel_fields(book: &mut Book, file: &Full) {
    for channel in file.channels {
        let cn = channel.cn;
        for value in [0, 1] {
            let name = format!("channel type {value} at {cn}");
            book.accept(name, &with16(file, cn + 24, value));
        }
        for value in [2, 3, 255, 256, 257, 0x8000, 65535] {
            let name = format!("channel type {value} at {cn}");
            book.expect(name, &with16(file, cn + 24, value), 9, cn + 24);
        }
        for value in 0..=16 {
            let name = format!("data type {value} at {cn}");
            book.accept(name, &with16(file, cn + 190, value));
        }
        for value in [17, 18, 32, 255, 256, 264, 0x8000, 65535] {
            let name = format!("data type {value} at {cn}");
            book.expect(name, &with16(file, cn + 190, value), 9, cn + 190);
        }
    }
}

/// Start bit, bits, added offset and record size; and whether they pass.
const POSITIONS: &[(u16, u16, u16, u16, bool)] = &[
    (0, 0, 0, 0, true),
    (0, 1, 0, 0, false),
    (65535, 0, 65535, 0, true),
    (65535, 0, 0, 1, true),
    (0, 8, 0, 1, true),
    (0, 9, 0, 1, false),
    (1, 8, 0, 1, false),
    (7, 1, 0, 1, true),
    (8, 1, 0, 1, false),
    (0, 16, 0, 2, true),
    (0, 17, 0, 2, false),
    (3, 13, 0, 2, true),
    (4, 13, 0, 2, false),
    (0, 8, 1, 2, true),
    (0, 9, 1, 2, false),
    (1, 8, 1, 2, false),
    (0, 1, 2, 2, false),
    (7, 9, 1, 3, true),
    (7, 10, 1, 3, false),
    (65535, 1, 0, 8192, true),
    (65535, 2, 0, 8192, false),
    (65535, 1, 0, 8191, false),
    (65535, 1, 0, 1, false),
    (1, 65535, 0, 1, false),
    (0, 65535, 0, 8192, true),
    (1, 65535, 0, 8192, true),
    (2, 65535, 0, 8192, false),
    (65535, 65535, 0, 16383, false),
    (65535, 65535, 0, 16384, true),
    (0, 8, 8192, 1, false),
    (0, 8, 8192, 8193, true),
    (0, 9, 8192, 8193, false),
    (0, 8, 65535, 65535, false),
    (0, 8, 65534, 65535, true),
    (0, 9, 65534, 65535, false),
    (65535, 65535, 65535, 65535, false),
    (65535, 65535, 49151, 65535, true),
    (65535, 65535, 49152, 65535, false),
    (0, 65535, 57344, 65535, false),
    (0, 65535, 57343, 65535, true),
];

fn positions(book: &mut Book) {
    for &(start, bits, offset, size, passes) in POSITIONS {
        let mut file = logged(0, &[(0, size, 0)], &[]);
        let cn = file.sheet.linked(file.cg[0] + 8, b"CN", 228);
        file.sheet.put16(cn + 186, start);
        file.sheet.put16(cn + 188, bits);
        file.sheet.put16(cn + 226, offset);
        let name = format!("start {start}, bits {bits}, offset {offset}, record {size}");
        if passes {
            book.accept(name, &file.sheet.bytes);
        } else {
            book.expect(name, &file.sheet.bytes, 9, cn + 186);
        }
    }
}

fn record_sizes(book: &mut Book) {
    for mode in [0, 1, 2] {
        let idle = logged(mode, &[(1, 0, 0)], &[]);
        book.accept(format!("mode {mode}, record size 0, none wanted"), &idle.sheet.bytes);
        for count in [1, 256, 0x0001_0000, 0x8000_0000, 0xFFFF_FFFF] {
            let file = logged(mode, &[(1, 0, count)], &[1; 9]);
            let name = format!("mode {mode}, record size 0, {count} wanted");
            book.expect(name, &file.sheet.bytes, 10, file.cg[0] + 20);
        }
    }
    let second = logged(1, &[(1, 0, 0), (2, 0, 1)], &[2]);
    book.expect("record size 0 in the second group", &second.sheet.bytes, 10, second.cg[1] + 20);
}

/// Sample reduction links: they count from version 330 on, in groups that
/// hold them whole.
fn reductions(book: &mut Book) {
    for version in [300, 319, 320, 329, 330, 331, 399] {
        for size in [26, 27, 28, 29, 30, 31, 60] {
            for link in [1, 64, 0x0001_0000, 0x8000_0000, 0xFFFF_FFFF] {
                let mut sheet = Sheet::new(version, 208);
                let dg = sheet.linked(68, b"DG", 24);
                let cg = sheet.linked(dg + 8, b"CG", size);
                sheet.append(&[0; 8]);
                sheet.put32(cg + 26, link);
                let name = format!("version {version}, group of {size} bytes, {link:#x} at 26");
                if version < 330 || size < 30 {
                    book.accept(name, &sheet.bytes);
                } else {
                    book.expect(name, &sheet.bytes, 6, cg + 26);
                }
            }
        }
    }
    for version in 300..=399 {
        for (mode, groups) in [(0, 1), (1, 2), (2, 3)] {
            last_reduction(book, version, mode, groups);
        }
    }
}

/// A sample reduction link in the last of some groups.
fn last_reduction(book: &mut Book, version: u16, mode: u16, groups: usize) {
    let shapes = [(1, 1, 0), (2, 1, 0), (3, 1, 0)];
    let mut file = logged(mode, &shapes[..groups], &[]);
    let place = file.cg[groups - 1] + 26;
    file.sheet.put16(28, version);
    file.sheet.put32(place, 0x0100);
    let name = format!("version {version}, mode {mode}, sample reduction at {place}");
    if version < 330 {
        book.accept(name, &file.sheet.bytes);
    } else {
        book.expect(name, &file.sheet.bytes, 6, place);
    }
}

/// Channels too short for their last fields, with those bytes set behind.
fn short_channels(book: &mut Book) {
    for size in 218..=230 {
        let fields = [
            ("long name", 218, 4, 5, 218),
            ("display name", 222, 4, 5, 222),
            ("added offset", 226, 2, 9, 186),
        ];
        for (label, offset, width, number, place) in fields {
            let mut file = logged(0, &[(0, 1, 0)], &[]);
            let cn = file.sheet.linked(file.cg[0] + 8, b"CN", size);
            file.sheet.append(&[0; 16]);
            file.sheet.put16(cn + 188, 8);
            file.sheet.put(cn + offset, &[0xFF; 4][..width]);
            let name = format!("channel of {size} bytes, {label} bytes set");
            if size < offset + width {
                book.accept(name, &file.sheet.bytes);
            } else {
                book.expect(name, &file.sheet.bytes, number, cn + place);
            }
        }
    }
}

/// Fields that are not looked at.
fn idle_fields(book: &mut Book, file: &Full) {
    let mut sheet = file.sheet.clone();
    sheet.put16(80, 65535);
    for dg in file.dg {
        sheet.put16(dg + 20, 65535);
        sheet.put32(dg + 24, 0xFFFF_FFFF);
    }
    for cg in file.cg {
        sheet.put16(cg + 18, 65535);
    }
    for channel in file.channels {
        sheet.put(channel.cn + 26, &[0xFF; 160]);
        sheet.put(channel.cn + 192, &[0xFF; 26]);
        sheet.put(channel.cc + 4, &[0xFF; 38]);
        sheet.put16(channel.cc + 44, 65535);
        sheet.put(channel.ce + 4, &[0xFF; 4]);
        sheet.put(channel.tx + 4, &[0xFF; 2]);
        sheet.put(channel.long + 4, &[0xFF; 3]);
    }
    book.accept("counts and plain fields all ones", &sheet.bytes);
    for dg in file.dg {
        let mut sheet = file.sheet.clone();
        sheet.put16(dg + 20, 0);
        book.accept(format!("group count 0 at {dg}"), &sheet.bytes);
    }
}
