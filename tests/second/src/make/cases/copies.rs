//! Canonical copies laid down by hand, beside images that have them.

use super::super::sheet::Sheet;
use super::{full, logged, Book, Full, GROUP_COUNTS, GROUP_SIZES};

pub fn cases(book: &mut Book) {
    headers(book);
    marked_example(book);
    every_block(book);
    channel_sizes(book);
    larger_blocks(book);
    shared_text(book);
    empty_bodies(book);
    empty_data_groups(book);
    without_records(book);
    interleaved(book);
    all_ids(book);
    data_groups_in_a_row(book);
}

/// A copy in the making: the last data group, channel group and link field
/// that the next block of a list goes to.
struct Laid {
    sheet: Sheet,
    groups: u16,
    next_dg: usize,
    dg: usize,
    cg: usize,
    next_cn: usize,
}

impl Laid {
    fn new(version: u16) -> Laid {
        let sheet = Sheet::new(version, if version < 320 { 164 } else { 208 });
        Laid { sheet, groups: 0, next_dg: 68, dg: 0, cg: 0, next_cn: 0 }
    }

    /// A data group and its channel group.
    fn group(&mut self, record_size: u16) {
        self.groups += 1;
        self.sheet.put16(80, self.groups);
        self.dg = self.sheet.linked(self.next_dg, b"DG", 28);
        self.sheet.put16(self.dg + 20, 1);
        self.next_dg = self.dg + 4;
        self.cg = self.sheet.linked(self.dg + 8, b"CG", 30);
        self.sheet.put16(self.cg + 20, record_size);
        self.next_cn = self.cg + 8;
    }

    /// A channel of the group; `number` counts it from 1.
    fn channel(&mut self, number: u16) -> usize {
        let cn = self.sheet.linked(self.next_cn, b"CN", 228);
        self.sheet.put16(self.cg + 18, number);
        self.next_cn = cn + 4;
        cn
    }

    fn records(&mut self, count: u32, bytes: &[u8]) {
        self.sheet.put32(self.cg + 22, count);
        let data = self.sheet.append(bytes);
        self.sheet.put32(self.dg + 16, data as u32);
    }
}

/// A block filled with one byte, behind a link field.
fn filled(sheet: &mut Sheet, field: usize, kind: &[u8; 2], size: usize, byte: u8) -> usize {
    let place = sheet.linked(field, kind, size);
    sheet.put(place + 4, &vec![byte; size - 4]);
    place
}

/// Headers of many sizes on both sides of version 320, all bytes set.
fn headers(book: &mut Book) {
    let smallest = Sheet::new(300, 164).bytes;
    book.copied("smallest file, copied", &smallest, &smallest);
    book.told(228, 0, 0, 228);
    book.told(227, 13, 228, 0);
    let sizes = [164, 165, 171, 172, 173, 174, 175, 176, 177, 207, 208, 209, 260, 1000];
    for version in [300, 319, 320, 321, 399] {
        for size in sizes {
            let mut image = Sheet::new(version, size);
            let set: Vec<u8> = (18..size).map(|n| n as u8 | 1).collect();
            image.put(64 + 18, &set);
            image.put16(80, 0xFFFF);
            let mut copy = Laid::new(version).sheet;
            copy.put(64 + 18, &set[..146]);
            for (start, end) in [(164, 172), (172, 174), (174, 176), (176, 208)] {
                if version >= 320 && end <= size {
                    copy.put(64 + start, &set[start - 18..end - 18]);
                }
            }
            let name = format!("version {version}, header of {size}, copied");
            book.copied(name, &image.bytes, &copy.bytes);
        }
    }
}

const ONE_ID: [u8; 8] = [1, 0xAA, 0xBB, 2, 0xCC, 1, 0xDD, 0xEE];
const TWO_IDS: [u8; 11] = [1, 0xAA, 0xBB, 1, 2, 0xCC, 2, 1, 0xDD, 0xEE, 1];

/// Two groups with interleaved records, at the places known beforehand.
fn marked_example(book: &mut Book) {
    let mut copy = Sheet::new(300, 164);
    copy.bytes.resize(577, 0);
    copy.put32(68, 228);
    copy.put16(80, 2);
    copy.put(228, &[b'D', b'G', 28, 0, 6, 2, 0, 0, 0, 1, 0, 0, 0, 0, 0, 0, 2, 2, 0, 0, 1]);
    copy.put(256, &[b'C', b'G', 30, 0, 0, 0, 0, 0, 30, 1]);
    copy.put(256 + 18, &[1, 0, 2, 0, 2]);
    copy.put(286, &[b'C', b'N', 228, 0]);
    copy.put(514, &[0xAA, 0xBB, 0xDD, 0xEE]);
    copy.put(518, &[b'D', b'G', 28, 0, 0, 0, 0, 0, 34, 2, 0, 0, 0, 0, 0, 0, 64, 2, 0, 0, 1]);
    copy.put(546, &[b'C', b'G', 30, 0]);
    copy.put(546 + 20, &[1, 0, 1]);
    copy.put(576, &[0xCC]);
    for (mode, data) in [(1, &ONE_ID[..]), (2, &TWO_IDS[..])] {
        let mut file = logged(mode, &[(1, 2, 2), (2, 1, 1)], data);
        file.sheet.linked(file.cg[0] + 8, b"CN", 228);
        book.copied(format!("mode {mode} example, copied"), &file.sheet.bytes, &copy.bytes);
        book.told(577, 0, 0, 577);
        book.told(576, 13, 577, 0);
        book.told(0, 13, 577, 0);
    }
}

/// Fills every body of the full file with a byte of its own, and sets what
/// is redundant or not carried.
fn marked_full() -> Full {
    let mut file = full(true);
    let sheet = &mut file.sheet;
    sheet.put16(80, 77);
    for dg in file.dg {
        sheet.put16(dg + 20, 78);
        sheet.put32(dg + 24, 0x7979_7979);
    }
    for (n, cg) in file.cg.into_iter().enumerate() {
        sheet.put16(cg + 18, 80);
        sheet.put(cg + 30 + 4, &[0x10 + n as u8; 5]);
    }
    for (n, channel) in file.channels.into_iter().enumerate() {
        let byte = 0x20 + n as u8;
        sheet.put(channel.cn + 26, &[byte; 160]);
        sheet.put(channel.cc + 4, &[byte + 0x10; 58]);
        sheet.put(channel.ce + 4, &[byte + 0x20; 4]);
        sheet.put(channel.tx + 4, &[byte + 0x30; 2]);
        sheet.put(channel.long + 4, &[byte + 0x40; 3]);
    }
    sheet.put(file.data[0], &[1, 3, 4, 5, 6, 2, 7, 8, 1, 9, 10, 11, 12]);
    sheet.put(file.data[1], &[13, 14, 15, 16, 17, 18]);
    file
}

/// Every kind of block once at least, in the order of the copy.
fn every_block(book: &mut Book) {
    let file = marked_full();
    let mut copy = Laid::new(330);
    copy.sheet.linked(72, b"TX", 10);
    copy.sheet.linked(76, b"PR", 11);
    let channels = [&[(0, 8), (1, 32)][..], &[(2, 16)], &[(3, 24)]];
    let records: [&[u8]; 3] =
        [&[3, 4, 5, 6, 9, 10, 11, 12], &[7, 8], &[13, 14, 15, 16, 17, 18]];
    for group in 0..3 {
        copy.group(GROUP_SIZES[group]);
        filled(&mut copy.sheet, copy.cg + 12, b"TX", 9, 0x10 + group as u8);
        for (index, &(channel, bits)) in channels[group].iter().enumerate() {
            let cn = copy.channel(index as u16 + 1);
            let sheet = &mut copy.sheet;
            let byte = 0x20 + channel;
            sheet.put(cn + 26, &[byte; 160]);
            sheet.put16(cn + 188, bits);
            filled(sheet, cn + 8, b"CC", 62, byte + 0x10);
            filled(sheet, cn + 12, b"CE", 8, byte + 0x20);
            filled(sheet, cn + 20, b"TX", 6, byte + 0x30);
            filled(sheet, cn + 218, b"TX", 7, byte + 0x40);
            filled(sheet, cn + 222, b"TX", 4, 0);
        }
        copy.records(GROUP_COUNTS[group], records[group]);
    }
    book.copied("full file, copied", &file.sheet.bytes, &copy.sheet.bytes);
}

/// Channels of every size around the last fields; what the size does not
/// hold is nil or 0 in the copy.
fn channel_sizes(book: &mut Book) {
    for size in 218..=230 {
        let mut file = logged(0, &[(7, 9, 0)], &[]);
        let cn = file.sheet.linked(file.cg[0] + 8, b"CN", size);
        file.sheet.append(&[0; 12]);
        file.sheet.put(cn + 26, &[0x61; 160]);
        file.sheet.put16(cn + 188, 8);
        filled(&mut file.sheet, cn + 218, b"TX", 9, 0x62);
        filled(&mut file.sheet, cn + 222, b"TX", 6, 0x63);
        file.sheet.put16(cn + 226, 3);
        let mut copy = Laid::new(300);
        copy.group(9);
        let cn = copy.channel(1);
        copy.sheet.put(cn + 26, &[0x61; 160]);
        copy.sheet.put16(cn + 188, 8);
        if size >= 222 {
            filled(&mut copy.sheet, cn + 218, b"TX", 9, 0x62);
        }
        if size >= 226 {
            filled(&mut copy.sheet, cn + 222, b"TX", 6, 0x63);
        }
        if size >= 228 {
            copy.sheet.put16(cn + 226, 3);
        }
        let name = format!("channel of {size} bytes, copied");
        book.copied(name, &file.sheet.bytes, &copy.sheet.bytes);
    }
}

/// Sizes of DG, CG and CN.
const SIZES: [(usize, usize, usize); 6] = [
    (24, 26, 218),
    (25, 27, 221),
    (27, 29, 225),
    (28, 30, 227),
    (29, 31, 229),
    (400, 500, 600),
];

/// Blocks with more or fewer bytes than their known fields, and all bytes
/// set that are no part of a field held whole.
fn larger_blocks(book: &mut Book) {
    for version in [310, 329, 330] {
        for sizes in SIZES {
            blocks_of(book, version, sizes);
        }
    }
}

/// One file with blocks of these sizes. Below version 330 the sample
/// reduction link of a channel group is no field.
fn blocks_of(book: &mut Book, version: u16, (dg_size, cg_size, cn_size): (usize, usize, usize)) {
    let mut image = Sheet::new(version, 164);
    let dg = image.linked(68, b"DG", dg_size);
    let cg = image.linked(dg + 8, b"CG", cg_size);
    let cn = image.linked(cg + 8, b"CN", cn_size);
    let cg_known = if cg_size < 30 || version < 330 { 26 } else { 30 };
    let cn_known = [218, 222, 226, 228].into_iter().filter(|&k| k <= cn_size).max();
    let known = [(dg, 24), (cg, cg_known), (cn, cn_known.unwrap_or(218))];
    for ((place, known), size) in known.into_iter().zip([dg_size, cg_size, cn_size]) {
        image.put(place + known, &vec![0xEE; size - known]);
    }
    image.put16(cg + 16, 700);
    image.put16(cg + 20, 2);
    image.put32(cg + 22, 1);
    let data = image.append(&[5, 6, 7]);
    image.put32(dg + 16, data as u32);
    let mut copy = Laid::new(version);
    copy.group(2);
    copy.channel(1);
    copy.records(1, &[5, 6]);
    let name = format!("version {version}, blocks of {dg_size}, {cg_size} and {cn_size}, copied");
    book.copied(name, &image.bytes, &copy.sheet.bytes);
}

/// One text behind every link that may lead to a text: it is copied each time.
fn shared_text(book: &mut Book) {
    let mut file = logged(1, &[(4, 1, 0), (5, 1, 0)], &[]);
    let tx = filled(&mut file.sheet, 72, b"TX", 20, 0x6D) as u32;
    let cn = file.sheet.linked(file.cg[0] + 8, b"CN", 228);
    for field in [file.cg[0] + 12, file.cg[1] + 12, cn + 20, cn + 218, cn + 222] {
        file.sheet.put32(field, tx);
    }
    // Both groups have the same channel.
    file.sheet.put32(file.cg[1] + 8, cn as u32);
    let mut copy = Laid::new(300);
    filled(&mut copy.sheet, 72, b"TX", 20, 0x6D);
    for _ in 0..2 {
        copy.group(1);
        filled(&mut copy.sheet, copy.cg + 12, b"TX", 20, 0x6D);
        let cn = copy.channel(1);
        for field in [20, 218, 222] {
            filled(&mut copy.sheet, cn + field, b"TX", 20, 0x6D);
        }
    }
    book.copied("shared text, copied", &file.sheet.bytes, &copy.sheet.bytes);
}

/// Bodies of the least size, one at a time and all together; an empty one is
/// not left out.
fn empty_bodies(book: &mut Book) {
    let fields: [(&[u8; 2], usize, usize); 5] =
        [(b"CC", 46, 8), (b"CE", 6, 12), (b"TX", 4, 20), (b"TX", 4, 218), (b"TX", 4, 222)];
    for chosen in 0..32u32 {
        let mut file = logged(0, &[(0, 1, 0)], &[]);
        let cn = file.sheet.linked(file.cg[0] + 8, b"CN", 228);
        let mut copy = Laid::new(300);
        if chosen % 2 == 1 {
            copy.sheet.linked(72, b"TX", 4);
            copy.sheet.linked(76, b"PR", 4);
            file.sheet.linked(76, b"PR", 4);
            file.sheet.linked(72, b"TX", 4);
        }
        copy.group(1);
        let copied = copy.channel(1);
        for (n, (kind, size, field)) in fields.into_iter().enumerate() {
            if chosen >> n & 1 == 1 {
                copy.sheet.linked(copied + field, kind, size);
            }
        }
        // In the image they stand in the other order.
        for (n, (kind, size, field)) in fields.into_iter().enumerate().rev() {
            if chosen >> n & 1 == 1 {
                file.sheet.linked(cn + field, kind, size);
            }
        }
        let name = format!("least bodies {chosen:05b}, copied");
        book.copied(name, &file.sheet.bytes, &copy.sheet.bytes);
    }
}

/// Data groups without channel groups leave nothing in the copy.
fn empty_data_groups(book: &mut Book) {
    // One letter for each data group: with a channel group or empty.
    for pattern in ["e", "ee", "ge", "eg", "ege", "gege", "egeeg", "gg"] {
        let mut image = Sheet::new(300, 164);
        let mut copy = Laid::new(300);
        let mut field = 68;
        for (n, letter) in pattern.chars().enumerate() {
            let dg = image.linked(field, b"DG", 24);
            image.put16(dg + 22, n as u16 % 3);
            image.put32(dg + 16, 99_999);
            field = dg + 4;
            if letter == 'g' {
                let cg = image.linked(dg + 8, b"CG", 26);
                image.put16(cg + 20, n as u16);
                copy.group(n as u16);
            }
        }
        let name = format!("data groups {pattern}, copied");
        book.copied(name, &image.bytes, &copy.sheet.bytes);
    }
}

/// Groups that want no records have no data link, whatever stood there.
fn without_records(book: &mut Book) {
    for mode in [0, 1, 2] {
        for (size, link) in [(0, 0), (0, 64), (5, 0), (5, 0xFFFF_FFFF)] {
            let mut file = logged(mode, &[(3, size, 0)], &[9; 20]);
            file.sheet.put32(file.dg + 16, link);
            let mut copy = Laid::new(300);
            copy.group(size);
            let name = format!("mode {mode}, no records of {size}, link {link:#x}, copied");
            book.copied(name, &file.sheet.bytes, &copy.sheet.bytes);
        }
    }
}

/// Five groups as ID, record size and record count; two of them idle. Two
/// IDs differ in the highest bit alone.
const FIVE: [(u16, u16, u32); 5] = [(3, 1, 5), (0, 2, 0), (131, 3, 4), (255, 0, 0), (1, 2, 3)];

/// The groups, by number, in the order in which records are logged.
const ORDERS: [[usize; 12]; 4] = [
    [0, 2, 4, 0, 2, 4, 0, 2, 4, 0, 2, 0],
    [4, 4, 4, 2, 2, 2, 2, 0, 0, 0, 0, 0],
    [0, 0, 0, 0, 0, 2, 2, 2, 2, 4, 4, 4],
    [2, 0, 0, 4, 2, 0, 4, 2, 0, 2, 4, 0],
];

/// Records of several groups, mixed: each goes to its own group, in the
/// order in which it was logged.
fn interleaved(book: &mut Book) {
    for mode in [1u16, 2] {
        for (n, order) in ORDERS.iter().enumerate() {
            let mut data = Vec::new();
            let mut kept: [Vec<u8>; 5] = Default::default();
            for (turn, &group) in order.iter().enumerate() {
                let (id, size, _) = FIVE[group];
                // Contents look like IDs now and then.
                let record = vec![[3, 131, 1, 255][turn % 4] ^ (turn as u8 / 4); size.into()];
                data.push(id as u8);
                data.extend(&record);
                data.extend((mode == 2).then_some(id as u8));
                kept[group].extend(record);
            }
            let file = logged(mode, &FIVE, &data);
            let mut copy = Laid::new(300);
            for (&(_, size, count), records) in FIVE.iter().zip(&kept) {
                copy.group(size);
                if count > 0 {
                    copy.records(count, records);
                }
            }
            let name = format!("mode {mode}, five groups in order {n}, copied");
            book.copied(name, &file.sheet.bytes, &copy.sheet.bytes);
        }
    }
}

/// All 256 IDs in one data group, in an order of their own; every third group
/// has no records. Those of others come forwards, then backwards.
fn all_ids(book: &mut Book) {
    let groups: Vec<(u16, u16, u32)> =
        (0..256).map(|n| (n * 167 % 256, n % 5 + 1, u32::from(n) % 3)).collect();
    for mode in [1u16, 2] {
        let mut data = Vec::new();
        let mut kept = vec![Vec::new(); 256];
        for turn in 0..512u32 {
            let round = turn / 256;
            let group = (if round == 0 { turn } else { 511 - turn }) as usize;
            let (id, size, count) = groups[group];
            if round < count {
                let record = vec![(turn * 31) as u8; size.into()];
                data.push(id as u8);
                data.extend(&record);
                data.extend((mode == 2).then_some(id as u8));
                kept[group].extend(record);
            }
        }
        let mut copy = Laid::new(300);
        for (&(_, size, count), records) in groups.iter().zip(&kept) {
            copy.group(size);
            if count > 0 {
                copy.records(count, records);
            }
        }
        let file = logged(mode, &groups, &data);
        book.copied(format!("mode {mode}, all IDs, copied"), &file.sheet.bytes, &copy.sheet.bytes);
    }
}

/// Data groups with the same IDs, exchanged in every second one, sorted and
/// empty ones among them: each has its own records.
fn data_groups_in_a_row(book: &mut Book) {
    // One letter for each data group: its mode, or empty.
    for pattern in ["11", "12", "22", "101", "1e1", "2e02", "2112", "e1ee2"] {
        let mut image = Sheet::new(300, 164);
        let mut copy = Laid::new(300);
        let mut field = 68;
        for (n, letter) in pattern.chars().enumerate() {
            let dg = image.linked(field, b"DG", 24);
            field = dg + 4;
            let mode = match letter.to_digit(10) {
                Some(mode) => mode as u16,
                None => continue,
            };
            image.put16(dg + 22, mode);
            let sizes: &[u16] = if mode == 0 { &[3] } else { &[3, 2] };
            let id = |group: usize| ((group + n) % 2 + 1) as u8;
            let mut data = Vec::new();
            let mut kept = vec![Vec::new(); sizes.len()];
            for turn in 0..3 * sizes.len() {
                let group = turn % sizes.len();
                let record = vec![(16 * n + turn) as u8; sizes[group].into()];
                data.extend((mode > 0).then_some(id(group)));
                data.extend(&record);
                data.extend((mode == 2).then_some(id(group)));
                kept[group].extend(record);
            }
            let mut link = dg + 8;
            for (group, &size) in sizes.iter().enumerate() {
                let cg = image.linked(link, b"CG", 26);
                image.put16(cg + 16, id(group).into());
                image.put16(cg + 20, size);
                image.put32(cg + 22, 3);
                link = cg + 4;
                copy.group(size);
                copy.records(3, &kept[group]);
            }
            let place = image.append(&data);
            image.put32(dg + 16, place as u32);
        }
        let name = format!("data groups of modes {pattern}, copied");
        book.copied(name, &image.bytes, &copy.sheet.bytes);
    }
}
