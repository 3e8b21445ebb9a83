//! Records: where they lie and what their IDs say.

use super::{logged, Book, Logged};

pub fn cases(book: &mut Book) {
    without_ids(book);
    data_links(book);
    known_examples(book);
    wrong_ids(book);
    full_groups(book);
    cut_records(book);
    second_ids(book);
    large_counts(book);
    large_records(book);
    overlaps(book);
    shared_data(book);
}

fn accept(book: &mut Book, name: impl Into<String>, file: &Logged) {
    book.accept(name, &file.sheet.bytes);
}

/// Expects refusal 11 at an offset of the data.
fn refuse(book: &mut Book, name: impl Into<String>, file: &Logged, offset: usize) {
    book.expect(name, &file.sheet.bytes, 11, file.data + offset);
}

fn without_ids(book: &mut Book) {
    for (size, count) in [(1, 1), (1, 7), (3, 4), (300, 2)] {
        let bytes = vec![0x5A; size * count];
        let group = [(9, size as u16, count as u32)];
        let name = format!("mode 0, {count} records of {size}");
        accept(book, &*name, &logged(0, &group, &bytes));
        let longer = [&bytes[..], &[1]].concat();
        accept(book, format!("{name}, byte to spare"), &logged(0, &group, &longer));
        let cut = logged(0, &group, &bytes[..bytes.len() - 1]);
        refuse(book, format!("{name}, byte missing"), &cut, (count - 1) * size);
        let none = logged(0, &group, &[]);
        refuse(book, format!("{name}, no data"), &none, 0);
        let more = logged(0, &[(9, size as u16, count as u32 + 1)], &bytes);
        refuse(book, format!("{name}, one more wanted"), &more, count * size);
    }
    accept(book, "mode 0, data of another ID", &logged(0, &[(1, 2, 2)], &[7, 7, 8, 8]));
}

fn data_links(book: &mut Book) {
    for mode in [0, 1, 2] {
        let file = logged(mode, &[(1, 1, 1)], &[1, 1, 1]);
        accept(book, format!("mode {mode}, one record"), &file);
        let mut nil = logged(mode, &[(1, 1, 1)], &[1, 1, 1]);
        nil.sheet.put32(nil.dg + 16, 0);
        let name = format!("mode {mode}, data link nil");
        book.expect(name, &nil.sheet.bytes, 11, nil.dg + 16);
        let end = file.sheet.len() as u32;
        for link in [end, end + 1, 0x7FFF_FFFF, 0x8000_0000, 0xFFFF_FFFE, 0xFFFF_FFFF] {
            let mut far = logged(mode, &[(1, 1, 1)], &[1, 1, 1]);
            far.sheet.put32(far.dg + 16, link);
            let name = format!("mode {mode}, data link {link:#x}");
            book.expect(name, &far.sheet.bytes, 11, link as usize);
        }
        for link in [0, 1, end, 0xFFFF_FFFF] {
            let mut idle = logged(mode, &[(1, 1, 0)], &[2, 2, 2]);
            idle.sheet.put32(idle.dg + 16, link);
            accept(book, format!("mode {mode}, none wanted, data link {link:#x}"), &idle);
            let mut empty = logged(mode, &[], &[2, 2, 2]);
            empty.sheet.put32(empty.dg + 16, link);
            accept(book, format!("mode {mode}, no groups, data link {link:#x}"), &empty);
        }
    }
    let mut last = logged(0, &[(1, 1, 1)], &[0; 9]);
    last.sheet.put32(last.dg + 16, last.sheet.len() as u32 - 1);
    accept(book, "mode 0, record in the last byte", &last);
}

const PAIR: [(u16, u16, u32); 2] = [(1, 2, 2), (2, 1, 1)];
const ONE_ID: [u8; 8] = [1, 0xAA, 0xBB, 2, 0xCC, 1, 0xDD, 0xEE];
const TWO_IDS: [u8; 11] = [1, 0xAA, 0xBB, 1, 2, 0xCC, 2, 1, 0xDD, 0xEE, 1];

fn known_examples(book: &mut Book) {
    accept(book, "mode 1 example", &logged(1, &PAIR, &ONE_ID));
    accept(book, "mode 2 example", &logged(2, &PAIR, &TWO_IDS));
    // Read with one ID, these are 1 AA BB, 1 02 CC and 2 01: three records too.
    accept(book, "mode 2 data read in mode 1", &logged(1, &PAIR, &TWO_IDS));
    refuse(book, "mode 1 data read in mode 2", &logged(2, &PAIR, &ONE_ID), 0);
    let swapped = [(2, 1, 1), (1, 2, 2)];
    accept(book, "mode 1 example, groups swapped", &logged(1, &swapped, &ONE_ID));
    accept(book, "mode 2 example, groups swapped", &logged(2, &swapped, &TWO_IDS));
    let edge = [(0, 1, 1), (255, 1, 1)];
    accept(book, "IDs 0 and 255", &logged(1, &edge, &[255, 9, 0, 9]));
    accept(book, "IDs 0 and 255, mode 2", &logged(2, &edge, &[255, 9, 255, 0, 9, 0]));
}

fn wrong_ids(book: &mut Book) {
    for (n, offset) in [0, 3, 5].into_iter().enumerate() {
        for id in [0, 3, 0x81, 255] {
            let mut data = ONE_ID;
            data[offset] = id;
            let name = format!("mode 1, record {n} with unknown ID {id}");
            refuse(book, name, &logged(1, &PAIR, &data), offset);
        }
    }
    for (n, offset) in [0, 4, 7].into_iter().enumerate() {
        for id in [0, 3, 0x81, 255] {
            let mut data = TWO_IDS;
            data[offset] = id;
            let name = format!("mode 2, record {n} with unknown ID {id}");
            refuse(book, name, &logged(2, &PAIR, &data), offset);
        }
    }
    // An unknown ID after the last record is not looked at.
    accept(book, "mode 1, unknown ID after the last", &logged(1, &[(1, 1, 1)], &[1, 0, 9]));
    accept(book, "mode 2, unknown ID after the last", &logged(2, &[(1, 1, 1)], &[1, 0, 1, 9]));
}

fn full_groups(book: &mut Book) {
    let pair = [(1, 1, 1), (2, 1, 2)];
    accept(book, "mode 1, group one first", &logged(1, &pair, &[1, 0, 2, 0, 2, 0]));
    accept(book, "mode 1, group one last", &logged(1, &pair, &[2, 0, 2, 0, 1, 0]));
    refuse(book, "mode 1, group one twice", &logged(1, &pair, &[1, 0, 1, 0, 2, 0]), 2);
    refuse(book, "mode 1, group one at the end again", &logged(1, &pair, &[1, 0, 2, 0, 1, 0]), 4);
    refuse(book, "mode 1, group two too often", &logged(1, &pair, &[2, 0, 2, 0, 2, 0]), 4);
    let twice = [1, 0, 1, 1, 0, 1, 2, 0, 2];
    refuse(book, "mode 2, group one twice", &logged(2, &pair, &twice), 3);
    let idle = [(1, 1, 0), (2, 1, 1)];
    accept(book, "mode 1, idle group", &logged(1, &idle, &[2, 0]));
    refuse(book, "mode 1, ID of an idle group", &logged(1, &idle, &[1, 0, 2, 0]), 0);
    refuse(book, "mode 2, ID of an idle group", &logged(2, &idle, &[1, 0, 1, 2, 0, 2]), 0);
    let sizeless = [(1, 0, 0), (2, 1, 1)];
    refuse(book, "mode 1, ID of a group of size 0", &logged(1, &sizeless, &[1, 2, 0]), 0);
    let behind = [(2, 1, 1), (1, 1, 0)];
    refuse(book, "mode 1, ID of an idle last group", &logged(1, &behind, &[1, 0, 2, 0]), 0);
}

fn cut_records(book: &mut Book) {
    // Data offset of the first record not whole, for each length kept.
    for kept in 0..ONE_ID.len() {
        let file = logged(1, &PAIR, &ONE_ID[..kept]);
        let offset = [0, 0, 0, 3, 3, 5, 5, 5][kept];
        refuse(book, format!("mode 1, {kept} bytes of data"), &file, offset);
    }
    for kept in 0..TWO_IDS.len() {
        let file = logged(2, &PAIR, &TWO_IDS[..kept]);
        let offset = [0, 0, 0, 0, 4, 4, 4, 7, 7, 7, 7][kept];
        refuse(book, format!("mode 2, {kept} bytes of data"), &file, offset);
    }
}

fn second_ids(book: &mut Book) {
    for (first, second) in [(0, 3), (4, 6), (7, 10)] {
        for id in [0, 1, 2, 3, 255] {
            let mut data = TWO_IDS;
            let name = format!("mode 2, second ID {id} at {second}");
            data[second] = id;
            if data[second] == data[first] {
                accept(book, name, &logged(2, &PAIR, &data));
            } else {
                refuse(book, name, &logged(2, &PAIR, &data), first);
            }
        }
    }
}

fn large_counts(book: &mut Book) {
    let sums: [&[u32]; 6] = [
        &[0x8000_0000, 0x8000_0000],
        &[0xFFFF_FFFF, 1],
        &[0xFFFF_FFFF, 0xFFFF_FFFF],
        &[0x4000_0000; 4],
        &[0xFFFF_FFFF, 2],
        &[0x8000_0000, 0x8000_0001],
    ];
    for counts in sums {
        let groups: Vec<(u16, u16, u32)> =
            counts.iter().enumerate().map(|(n, &count)| (n as u16 + 1, 1, count)).collect();
        for mode in [1, 2] {
            let name = format!("mode {mode}, counts {counts:x?}");
            let mut nil = logged(mode, &groups, &[]);
            nil.sheet.put32(nil.dg + 16, 0);
            book.expect(format!("{name}, nil"), &nil.sheet.bytes, 11, nil.dg + 16);
            let record: &[u8] = if mode == 1 { &[1, 0] } else { &[1, 0, 1] };
            let data = record.repeat(5);
            let file = logged(mode, &groups, &data);
            refuse(book, format!("{name}, five there"), &file, data.len());
        }
    }
    for (size, count) in [
        (1, 0xFFFF_FFFF),
        (2, 0x8000_0000),
        (32768, 131_072),
        (65535, 0xFFFF_FFFF),
        (4, 0x4000_0000),
        (3, 0x5555_5556),
    ] {
        let data = vec![1; 2 * usize::from(size) + usize::from(size) / 2];
        let file = logged(0, &[(0, size, count)], &data);
        let offset = 2 * usize::from(size);
        refuse(book, format!("mode 0, {count} records of {size}"), &file, offset);
    }
}

fn large_records(book: &mut Book) {
    let one = [(200, 65535, 1)];
    let mut data = vec![200; 65537];
    accept(book, "mode 2, record of 65535", &logged(2, &one, &data));
    data.pop();
    refuse(book, "mode 2, record of 65535 cut", &logged(2, &one, &data), 0);
    accept(book, "mode 1, record of 65535", &logged(1, &one, &data));
    data.pop();
    refuse(book, "mode 1, record of 65535 cut", &logged(1, &one, &data), 0);
    accept(book, "mode 0, record of 65535", &logged(0, &one, &data));
    data.pop();
    refuse(book, "mode 0, record of 65535 cut", &logged(0, &one, &data), 0);
}

/// Records that lie over blocks.
fn overlaps(book: &mut Book) {
    let mut file = logged(0, &[(0, 1, 227)], &[]);
    let length = file.sheet.len();
    file.sheet.put32(file.dg + 16, 1);
    accept(book, "mode 0, records from place 1 on", &file);
    file.sheet.put32(file.cg[0] + 22, length as u32 - 1);
    accept(book, "mode 0, records from place 1 to the end", &file);
    file.sheet.put32(file.cg[0] + 22, length as u32);
    book.expect("mode 0, records from place 1 beyond", &file.sheet.bytes, 11, length);
    // "H", then "D", then the low size byte: A4 hex.
    let mut file = logged(1, &[(u16::from(b'H'), 1, 1), (0xA4, 1, 1)], &[]);
    file.sheet.put32(file.dg + 16, 64);
    accept(book, "mode 1, records over the header", &file);
    let mut file = logged(2, &[(0x20, 1, 1)], &[]);
    file.sheet.put32(file.dg + 16, 3);
    accept(book, "mode 2, record over the identification", &file);
    file.sheet.put32(file.dg + 16, 6);
    book.expect("mode 2, record across the identifier's end", &file.sheet.bytes, 11, 6);
}

/// Two data groups that lead to the same data.
fn shared_data(book: &mut Book) {
    for (count, passes) in [(2, true), (3, false)] {
        let mut file = logged(1, &PAIR, &ONE_ID);
        let dg = file.sheet.linked(file.dg + 4, b"DG", 24);
        let cg = file.sheet.linked(dg + 8, b"CG", 26);
        file.sheet.put16(cg + 20, 4);
        file.sheet.put32(cg + 22, count);
        let data = file.sheet.append(&ONE_ID);
        file.sheet.put32(file.dg + 16, data as u32);
        file.sheet.put32(dg + 16, data as u32);
        let name = format!("data shared by two data groups, {count} records");
        if passes {
            book.accept(name, &file.sheet.bytes);
        } else {
            book.expect(name, &file.sheet.bytes, 11, data + 8);
        }
    }
}
