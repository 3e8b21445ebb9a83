//! Samples with values that are known beforehand: written down by hand, or
//! planted bit by bit.

use super::super::rng::Rng;
use super::super::sheet::Sheet;
use super::super::signals::{plant, Signal, Signals, DOUBLES, SINGLES};
use super::{logged, Book};
use crate::sample::Answer;

const NONE: Answer = Answer { number: 14, place: 0, value: 0, length: 0, kind: 0 };

fn unsigned(value: u64) -> Answer {
    Answer::done(1, value, 0)
}

fn signed(value: i64) -> Answer {
    Answer::done(2, value as u64, 0)
}

/// A sample that can't be read, of the channel at a place.
fn unreadable(cn: usize) -> Answer {
    Answer::refused(15, cn as u64 + 190)
}

pub fn cases(book: &mut Book) {
    by_hand(book);
    four_bits(book);
    sixty_four_bits(book);
    planted(book);
    unknown_types(book);
    floats(book);
    texts(book);
    long_texts(book);
    short_channels(book);
    far_offsets(book);
    counting(book);
    record_ids(book);
    shared_channel(book);
    many_groups(book);
    many_channels(book);
    check_first(book);
}

/// The record 34 12 (hex), bits 4 to 11.
fn by_hand(book: &mut Book) {
    let mut file = Signals::new(2);
    for data_type in [0, 13, 9, 1, 14, 10] {
        file.channel(Signal { start: 4, bits: 8, data_type, offset: 0 });
    }
    file.records(&[0x34, 0x12]);
    book.accept("34 12, start 4, 8 bits", &file.sheet.bytes);
    // Lowest byte first 0x1234, highest first 0x3412; four bits dropped.
    for (channel, value) in [(0, 0x23), (1, 0x23), (2, 0x41)] {
        book.sample([0, channel, 0], unsigned(value));
    }
    for (channel, value) in [(3, 0x23), (4, 0x23), (5, 0x41)] {
        book.sample([0, channel, 0], signed(value));
    }
    // From bit 3 on 0x1234 >> 3 = 0x246, 0x3412 >> 3 = 0x682.
    let mut file = Signals::new(2);
    for data_type in [0, 1, 9, 10] {
        file.channel(Signal { start: 3, bits: 8, data_type, offset: 0 });
    }
    file.records(&[0x34, 0x12]);
    book.accept("34 12, start 3, 8 bits", &file.sheet.bytes);
    book.sample([0, 0, 0], unsigned(0x46));
    book.sample([0, 1, 0], signed(0x46));
    book.sample([0, 2, 0], unsigned(0x82));
    book.sample([0, 3, 0], signed(0x82 - 0x100));
}

/// Signed values of four bits and of one, at every place in a byte.
fn four_bits(book: &mut Book) {
    for (bits, pattern, value) in [(4, 0x8, -8), (4, 0x7, 7), (4, 0xF, -1), (1, 1, -1), (1, 0, 0)] {
        for start in 0..=8 - bits {
            let mut file = Signals::new(1);
            for data_type in [1, 14, 10] {
                file.channel(Signal { start, bits, data_type, offset: 0 });
            }
            // Beside the value all bits are set, then none.
            let rest = !((1u8 << bits).wrapping_sub(1) << start);
            let there: u8 = pattern << start;
            file.records(&[there | rest, there]);
            let name = format!("signed, {bits} bits from {start} on, pattern {pattern}");
            book.accept(name, &file.sheet.bytes);
            for channel in 0..3 {
                book.sample([0, channel, 0], signed(value));
                book.sample([0, channel, 1], signed(value));
            }
        }
    }
}

/// From bit 57 on 63 bits end with the eighth byte, 64 need a ninth.
fn sixty_four_bits(book: &mut Book) {
    let mut record = [0xFF; 16];
    record[7..15].copy_from_slice(&[0x03, 0, 0, 0, 0, 0, 0, 0x80]);
    for data_type in [0, 13, 9, 1, 14, 10] {
        let mut file = Signals::new(16);
        file.channel(Signal { start: 57, bits: 63, data_type, offset: 0 });
        let cn = file.channel(Signal { start: 57, bits: 64, data_type, offset: 0 });
        file.channel(Signal { start: 56, bits: 64, data_type, offset: 0 });
        file.records(&record);
        book.accept(format!("start 57, type {data_type}"), &file.sheet.bytes);
        // 0x8000000000000003, or 0x0300000000000080, without its lowest bit.
        let (value, whole) = match data_type {
            9 => (unsigned(0x0180_0000_0000_0040), unsigned(0x0300_0000_0000_0080)),
            10 => (signed(0x0180_0000_0000_0040), signed(0x0300_0000_0000_0080)),
            1 | 14 => (signed(1 - (1 << 62)), signed(i64::MIN + 3)),
            _ => (unsigned(0x4000_0000_0000_0001), unsigned(0x8000_0000_0000_0003)),
        };
        book.sample([0, 0, 0], value);
        book.sample([0, 1, 0], unreadable(cn));
        book.sample([0, 2, 0], whole);
    }
}

/// What a channel with this planted value has to give. The low 64 bits are
/// enough, since more can't be read as a number.
fn expected(signal: Signal, value: u64, cn: usize, place: usize) -> Answer {
    let (shift, bits) = (u32::from(signal.start % 8), u32::from(signal.bits));
    let top = 64 - bits.min(64);
    let cut = if bits == 0 { 0 } else { value << top >> top };
    match (signal.data_type, shift, bits) {
        (_, _, 0) => unreadable(cn),
        (0 | 9 | 13, _, _) if shift + bits < 65 => unsigned(cut),
        (1 | 10 | 14, _, _) if shift + bits < 65 => signed((value << top) as i64 >> top),
        (2 | 11 | 15, 0, 32) => Answer::done(3, cut, 0),
        (3 | 12 | 16, 0, 64) => Answer::done(4, cut, 0),
        (7 | 8, 0, _) if bits & 7 == 0 => Answer::done(5, place as u64, u64::from(bits) >> 3),
        _ => unreadable(cn),
    }
}

const WIDTHS: [u16; 25] =
    [0, 1, 2, 7, 8, 9, 15, 16, 17, 24, 31, 32, 33, 40, 52, 53, 54, 56, 57, 62, 63, 64, 65, 72, 200];

/// Every type and width at every place in a byte, near and far.
fn planted(book: &mut Book) {
    let mut rng = Rng::new(5);
    for data_type in 0..=16 {
        for bits in WIDTHS {
            plant_all(book, &mut rng, data_type, bits);
        }
    }
}

/// One file: each channel has bytes of its own between bytes of others.
fn plant_all(book: &mut Book, rng: &mut Rng, data_type: u16, bits: u16) {
    let step = bits / 8 + 2;
    let mut signals = Vec::new();
    for offset in [0, 1, 7] {
        for shift in 0..8 {
            let byte = 8 + step * signals.len() as u16;
            signals.push(Signal { start: 8 * (byte - offset) + shift, bits, data_type, offset });
        }
    }
    let size = usize::from(8 + step * signals.len() as u16);
    let mut file = Signals::new(size);
    for signal in &signals {
        file.channel(*signal);
    }
    // Clear bits among set ones, set ones among clear ones, the highest bit
    // alone, and anything.
    let any = rng.raw();
    let top = 1 << (u32::from(bits.clamp(1, 64)) - 1);
    let values = [any & !top, !any | top, top, rng.raw()];
    let mut records = [vec![0xFF; size], vec![0; size], vec![0; size], rng.bytes(size)];
    for (record, value) in records.iter_mut().zip(values) {
        for signal in &signals {
            plant(record, *signal, value);
        }
    }
    let data = file.records(&records.concat());
    book.accept(format!("type {data_type}, {bits} bits planted"), &file.sheet.bytes);
    for (channel, (signal, cn)) in signals.iter().zip(&file.cn).enumerate() {
        for (record, value) in values.into_iter().enumerate() {
            let place = data + record * size + usize::from(signal.start / 8 + signal.offset);
            let answer = expected(*signal, value, *cn, place);
            book.sample([0, channel as u64, record as u64], answer);
        }
    }
}

/// From 17 on the check refuses, whatever else the channel has.
fn unknown_types(book: &mut Book) {
    for data_type in [17, 18, 32, 255, 256, 265, 65_535] {
        for bits in [0, 8, 32] {
            let mut file = Signals::new(8);
            let cn = file.channel(Signal::at(0, bits, data_type));
            file.records(&[0; 8]);
            let place = cn + 190;
            book.expect(format!("type {data_type}, {bits} bits"), &file.sheet.bytes, 9, place);
            book.sample([0, 0, 0], Answer::refused(9, place as u64));
            book.physical([0, 0, 0], Answer::refused(9, place as u64));
        }
    }
}

/// Patterns of floats come out as they are stored.
fn floats(book: &mut Book) {
    for (types, bits, patterns) in
        [([2, 15, 11], 32, &SINGLES[..]), ([3, 16, 12], 64, &DOUBLES[..])]
    {
        for data_type in types {
            let mut file = Signals::new(12);
            let signal = Signal { offset: 1, ..Signal::at(2, bits, data_type) };
            file.channel(signal);
            let mut records = Vec::new();
            for &pattern in patterns {
                let mut record = [0x5A; 12];
                plant(&mut record, signal, pattern);
                records.extend(record);
            }
            file.records(&records);
            book.accept(format!("floats of type {data_type}"), &file.sheet.bytes);
            let kind = if bits == 32 { 3 } else { 4 };
            for (record, &pattern) in patterns.iter().enumerate() {
                book.sample([0, 0, record as u64], Answer::done(kind, pattern, 0));
            }
        }
    }
}

/// Parts of the image, at the record's start and end.
fn texts(book: &mut Book) {
    for data_type in [7, 8] {
        let mut file = Signals::new(6);
        for (start, bits, offset) in [(0, 48, 0), (0, 8, 0), (40, 8, 0), (8, 16, 3), (0, 40, 1)] {
            file.channel(Signal { start, bits, data_type, offset });
        }
        let odd = [(1, 8), (0, 4), (4, 4), (0, 47), (7, 1), (8, 0)];
        let bad =
            odd.map(|(start, bits)| file.channel(Signal { start, bits, data_type, offset: 0 }));
        let data = file.records(b"first.second") as u64;
        book.accept(format!("parts of type {data_type}"), &file.sheet.bytes);
        for record in [0, 1] {
            let from = data + 6 * record;
            for (channel, (byte, length)) in
                [(0, 6), (0, 1), (5, 1), (4, 2), (1, 5)].into_iter().enumerate()
            {
                let answer = Answer::done(5, from + byte, length);
                book.sample([0, channel as u64, record], answer);
            }
            for (channel, cn) in (5..).zip(bad) {
                book.sample([0, channel, record], unreadable(cn));
            }
        }
    }
}

/// Up to 8,191 bytes fit a bit count of 16 bits.
fn long_texts(book: &mut Book) {
    for (bits, start, offset) in [
        (65_528, 0, 0),
        (65_528, 8, 0),
        (65_528, 0, 1),
        (65_528, 65_528, 0),
        (65_528, 65_528, 49_152),
        (65_520, 16, 2),
        (65_535, 0, 0),
        (65_527, 8, 0),
        (65_528, 65_535, 0),
    ] {
        for data_type in [7, 8] {
            let signal = Signal { start, bits, data_type, offset };
            let mut file = Signals::new(65_535);
            let cn = file.channel(signal);
            let data = file.records(&vec![0x74; 2 * 65_535]);
            let name = format!("{bits} bits of type {data_type} from {start} on, {offset} added");
            book.accept(name, &file.sheet.bytes);
            for record in [0, 1] {
                let first = usize::from(start / 8) + usize::from(offset);
                let place = data + record as usize * 65_535 + first;
                book.sample([0, 0, record], expected(signal, 0, cn, place));
            }
        }
    }
}

/// The added offset counts only where the block holds the whole field.
fn short_channels(book: &mut Book) {
    for size in 218..=229 {
        let mut file = Signals::new(4);
        let whole = Signal { start: 8, bits: 8, data_type: 0, offset: 0 };
        let cn = file.channel(whole);
        file.sheet.put16(cn + 226, 2);
        file.sheet.append(&[0]);
        file.sheet.put16(cn + 2, size);
        file.records(&[0x11, 0x22, 0x33, 0x44]);
        book.accept(format!("channel of {size} bytes, 2 added"), &file.sheet.bytes);
        book.sample([0, 0, 0], unsigned(if size < 228 { 0x22 } else { 0x44 }));
        let mut odd = file.sheet.clone();
        odd.put16(cn + 190, 5);
        book.accept(format!("channel of {size} bytes, type 5"), &odd.bytes);
        book.sample([0, 0, 0], unreadable(cn));
    }
}

/// The last byte of the longest record, by start bit and added offset.
fn far_offsets(book: &mut Book) {
    let mut file = Signals::new(65_535);
    let last = [(0, 65_534), (65_535, 57_343), (65_528, 57_343)];
    for (start, offset) in last {
        let bits = if start == 65_535 { 1 } else { 8 };
        file.channel(Signal { start, bits, data_type: 0, offset });
    }
    let empty = Signal { start: 65_535, bits: 0, data_type: 0, offset: 65_535 };
    let cn = file.channel(empty);
    let mut record = vec![0; 65_535];
    record[65_534] = 0xA5;
    record[0] = 0xFF;
    file.records(&record);
    book.accept("last byte of the longest record", &file.sheet.bytes);
    book.sample([0, 0, 0], unsigned(0xA5));
    book.sample([0, 1, 0], unsigned(1));
    book.sample([0, 2, 0], unsigned(0xA5));
    book.sample([0, 3, 0], unreadable(cn));
}

/// Records of 10 on, an empty data group, two channels with records of 20
/// on, and a group without channels.
fn four_data_groups() -> Signals {
    let mut file = Signals::new(1);
    file.channel(Signal::at(0, 8, 0));
    file.records(&[10, 11, 12]);
    file.dg = file.sheet.linked(file.dg + 4, b"DG", 28);
    file.data_group(2);
    file.channel(Signal::at(0, 8, 0));
    file.channel(Signal::at(1, 8, 0));
    file.records(&[20, 21, 22, 23]);
    file.data_group(1);
    file.records(&[30]);
    file
}

/// Groups count over data groups, empty ones aside; what is beyond is 14.
fn counting(book: &mut Book) {
    book.accept("groups of four data groups", &four_data_groups().sheet.bytes);
    for (asked, value) in [
        ([0, 0, 0], 10),
        ([0, 0, 1], 11),
        ([0, 0, 2], 12),
        ([1, 0, 0], 20),
        ([1, 1, 0], 21),
        ([1, 0, 1], 22),
        ([1, 1, 1], 23),
    ] {
        book.sample(asked, unsigned(value));
        book.physical(asked, Answer::done(4, (value as f64).to_bits(), 0));
    }
    for asked in [[0, 0, 3], [0, 1, 0], [1, 2, 0], [1, 0, 2], [2, 0, 0], [3, 0, 0]] {
        book.sample(asked, NONE);
        book.physical(asked, NONE);
    }
    for far in [1 << 32, 1 << 63, u64::MAX] {
        for asked in [[far, 0, 0], [0, far, 0], [0, 0, far], [far; 3]] {
            book.sample(asked, NONE);
            book.physical(asked, NONE);
        }
    }
}

/// The IDs around a record are no part of it.
fn record_ids(book: &mut Book) {
    let one_id: &[u8] = &[1, 0xAA, 0xBB, 2, 0xCC, 1, 0xDD, 0xEE];
    let two_ids: &[u8] = &[1, 0xAA, 0xBB, 1, 2, 0xCC, 2, 1, 0xDD, 0xEE, 1];
    for (mode, data, places) in [(1, one_id, [1, 6, 4]), (2, two_ids, [1, 8, 5])] {
        let mut file = logged(mode, &[(1, 2, 2), (2, 1, 1)], data);
        for (group, bits) in [(0, 16), (1, 8)] {
            let cn = file.sheet.linked(file.cg[group] + 8, b"CN", 228);
            file.sheet.put16(cn + 188, bits);
            let text = file.sheet.linked(cn + 4, b"CN", 228);
            file.sheet.put16(text + 188, bits);
            file.sheet.put16(text + 190, 7);
        }
        book.accept(format!("samples in mode {mode}"), &file.sheet.bytes);
        let found = [([0, 0, 0], 0xBBAA), ([0, 0, 1], 0xEEDD), ([1, 0, 0], 0xCC)];
        for (([group, _, record], value), place) in found.into_iter().zip(places) {
            book.sample([group, 0, record], unsigned(value));
            let part = Answer::done(5, (file.data + place) as u64, 2 - group);
            book.sample([group, 1, record], part);
        }
        book.sample([0, 0, 2], NONE);
        book.sample([1, 0, 1], NONE);
    }
}

/// One channel block, read in the records of two groups.
fn shared_channel(book: &mut Book) {
    let mut file = Signals::new(1);
    let cn = file.channel(Signal::at(0, 8, 0));
    let odd = file.channel(Signal::at(0, 8, 6));
    file.records(&[1]);
    file.data_group(3);
    file.sheet.put32(file.cg + 8, cn as u32);
    file.records(&[2, 3, 4, 5, 6, 7]);
    book.accept("channels of two groups", &file.sheet.bytes);
    for (asked, value) in [([0, 0, 0], 1), ([1, 0, 0], 2), ([1, 0, 1], 5)] {
        book.sample(asked, unsigned(value));
    }
    book.sample([0, 1, 0], unreadable(odd));
    book.sample([1, 1, 1], unreadable(odd));
    book.sample([0, 0, 1], NONE);
}

/// The last of 1,024 groups; one more, and there is no sample at all.
fn many_groups(book: &mut Book) {
    let mut file = Signals::new(1);
    for number in 0..1024 {
        if number > 0 {
            file.data_group(1);
        }
        file.channel(Signal::at(0, 8, 0));
        file.records(&[number as u8]);
    }
    book.accept("1024 groups with a sample each", &file.sheet.bytes);
    for group in [0, 1, 254, 255, 256, 1022, 1023] {
        book.sample([group, 0, 0], unsigned(group % 256));
        let value = (group % 256) as f64;
        book.physical([group, 0, 0], Answer::done(4, value.to_bits(), 0));
    }
    book.sample([1024, 0, 0], NONE);
    book.sample([1023, 1, 0], NONE);
    book.sample([1023, 0, 1], NONE);
    let field = file.dg + 4;
    file.data_group(1);
    book.expect("1025 groups with a sample each", &file.sheet.bytes, 7, field);
    for group in [0, 1023, 1024, 1025] {
        book.sample([group, 0, 0], Answer::refused(7, field as u64));
        book.physical([group, 0, 0], Answer::refused(7, field as u64));
    }
}

/// The last of 16,384 channels.
fn many_channels(book: &mut Book) {
    let mut file = Signals::new(2048);
    for number in 0..16_384 {
        file.channel(Signal { start: number, bits: 1, data_type: 1, offset: 0 });
    }
    let mut record = [0; 2048];
    record[2047] = 0x80;
    file.records(&record);
    book.accept("16384 channels of a bit each", &file.sheet.bytes);
    book.sample([0, 16_382, 0], signed(0));
    book.sample([0, 16_383, 0], signed(-1));
    book.sample([0, 16_384, 0], NONE);
}

/// Whatever is asked for, a refusal of the check comes first.
fn check_first(book: &mut Book) {
    let none = Sheet::new(300, 164);
    book.accept("no group", &none.bytes);
    book.sample([0, 0, 0], NONE);
    let mut file = Signals::new(1);
    file.channel(Signal::at(0, 8, 4));
    file.records(&[1]);
    file.data_group(1);
    file.sheet.put16(file.dg + 22, 3);
    let place = file.dg + 22;
    book.expect("mode 3 in a later data group", &file.sheet.bytes, 8, place);
    for asked in [[0, 0, 0], [0, 0, 1], [u64::MAX; 3]] {
        book.sample(asked, Answer::refused(8, place as u64));
        book.physical(asked, Answer::refused(8, place as u64));
    }
    // No record, then a channel that can't be read.
    let mut file = Signals::new(1);
    let cn = file.channel(Signal::at(0, 8, 4));
    file.records(&[1]);
    book.accept("14 before 15", &file.sheet.bytes);
    book.sample([0, 0, 0], unreadable(cn));
    book.physical([0, 0, 0], unreadable(cn));
    book.sample([0, 0, 1], NONE);
    book.physical([0, 0, 1], NONE);
}
