//! The limits on the three lists, and lists that never end.

use super::super::sheet::Sheet;
use super::Book;

const LONE: u32 = 0xFFFF_FFFF;

pub fn cases(book: &mut Book) {
    data_groups(book);
    data_group_loops(book);
    channel_groups(book);
    channel_group_loops(book);
    group_order(book);
    channels(book);
    channel_loops(book);
    shared_channels(book);
}

/// A chain of equal blocks from a link field on; hands back their places.
fn chain(sheet: &mut Sheet, field: usize, kind: &[u8; 2], size: usize, count: usize) -> Vec<usize> {
    let mut places = Vec::with_capacity(count);
    let mut field = field;
    for _ in 0..count {
        let place = sheet.linked(field, kind, size);
        places.push(place);
        field = place + 4;
    }
    places
}

fn data_groups(book: &mut Book) {
    for count in [1, 2, 1023, 1024] {
        let mut sheet = Sheet::new(300, 164);
        chain(&mut sheet, 68, b"DG", 24, count);
        book.accept(format!("{count} data groups"), &sheet.bytes);
    }
    let mut sheet = Sheet::new(300, 164);
    let dg = chain(&mut sheet, 68, b"DG", 24, 1024);
    let field = dg[1023] + 4;
    let full = sheet.clone();
    let last = sheet.linked(field, b"DG", 24);
    book.expect("1025 data groups", &sheet.bytes, 7, field);
    sheet.put16(last + 22, 3);
    sheet.put32(last + 12, 1);
    book.expect("1025th data group with faults", &sheet.bytes, 7, field);
    let mut cut = full.clone();
    cut.put32(field, LONE);
    book.expect("1025th data group does not open", &cut.bytes, 7, field);
    cut.put16(dg[1023] + 22, 3);
    book.expect("mode of the 1024th before the 1025th", &cut.bytes, 8, dg[1023] + 22);
    cut.put32(dg[1023] + 12, 9);
    book.expect("trigger of the 1024th before its mode", &cut.bytes, 6, dg[1023] + 12);
    cut.put32(dg[1022] + 4, LONE);
    book.expect("1024th data group does not open", &cut.bytes, 5, dg[1022] + 4);
    let mut wanting = full;
    wanting.put32(field, LONE);
    let cg = wanting.linked(dg[1023] + 8, b"CG", 26);
    wanting.put16(cg + 20, 1);
    wanting.put32(cg + 22, 1);
    let place = dg[1023] + 16;
    book.expect("records of the 1024th before the 1025th", &wanting.bytes, 11, place);
}

/// Loops of one, two and three data groups, and one with a way in.
fn data_group_loops(book: &mut Book) {
    for (length, back, last) in [(1, 0, 0), (2, 0, 1), (3, 0, 0), (3, 1, 1), (4, 3, 3)] {
        let mut sheet = Sheet::new(300, 164);
        let dg = chain(&mut sheet, 68, b"DG", 24, length);
        sheet.put32(dg[length - 1] + 4, dg[back] as u32);
        let name = format!("{length} data groups back to number {back}");
        book.expect(name, &sheet.bytes, 7, dg[last] + 4);
    }
    // With a group each both limits are near; the data group comes first.
    let mut sheet = Sheet::new(300, 164);
    let dg = sheet.linked(68, b"DG", 24);
    sheet.put32(dg + 4, dg as u32);
    let cg = sheet.linked(dg + 8, b"CG", 26);
    book.expect("looped data group with a group", &sheet.bytes, 7, dg + 4);
    // With records in each round.
    sheet.put16(cg + 20, 2);
    sheet.put32(cg + 22, 3);
    let data = sheet.append(&[0; 6]);
    sheet.put32(dg + 16, data as u32);
    book.expect("looped data group with records", &sheet.bytes, 7, dg + 4);
    sheet.bytes.pop();
    book.expect("looped data group, record cut", &sheet.bytes, 11, data + 4);
}

/// Data groups with mode 1 and some groups each, IDs from 0 on.
fn filled(shape: &[usize]) -> (Sheet, Vec<usize>, Vec<Vec<usize>>) {
    let mut sheet = Sheet::new(300, 164);
    let dg = chain(&mut sheet, 68, b"DG", 24, shape.len());
    let mut groups = Vec::new();
    for (place, &count) in dg.iter().zip(shape) {
        sheet.put16(place + 22, 1);
        let cg = chain(&mut sheet, place + 8, b"CG", 26, count);
        for (id, group) in cg.iter().enumerate() {
            sheet.put16(group + 16, id as u16);
        }
        groups.push(cg);
    }
    (sheet, dg, groups)
}

fn channel_groups(book: &mut Book) {
    let (sheet, _, _) = filled(&[256]);
    book.accept("256 groups in one data group", &sheet.bytes);
    let (sheet, _, cg) = filled(&[257]);
    book.expect("257 groups in one data group", &sheet.bytes, 8, cg[0][256] + 16);
    let (sheet, _, _) = filled(&[256, 256, 256, 256]);
    book.accept("1024 groups", &sheet.bytes);
    let (sheet, _, _) = filled(&[256, 256, 256, 255, 1]);
    book.accept("1024 groups in five data groups", &sheet.bytes);
    let (sheet, _, _) = filled(&[256, 256, 256, 256, 0]);
    book.accept("1024 groups and an empty data group", &sheet.bytes);
    let (mut sheet, dg, _) = filled(&[256, 256, 256, 256, 1]);
    book.expect("1025 groups, first of a data group", &sheet.bytes, 7, dg[4] + 8);
    sheet.put32(dg[4] + 8, LONE);
    book.expect("1025th group does not open", &sheet.bytes, 7, dg[4] + 8);
    sheet.put16(dg[4] + 22, 3);
    book.expect("mode before the 1025th group", &sheet.bytes, 8, dg[4] + 22);
    let (sheet, _, cg) = filled(&[256, 256, 256, 255, 2]);
    book.expect("1025 groups, second of a data group", &sheet.bytes, 7, cg[4][0] + 4);
    let (sheet, _, cg) = filled(&[256, 256, 256, 257]);
    book.expect("1025th group with an ID too large", &sheet.bytes, 7, cg[3][255] + 4);
    let mut sheet = Sheet::new(300, 164);
    let dg = chain(&mut sheet, 68, b"DG", 24, 1024);
    for place in &dg {
        sheet.linked(place + 8, b"CG", 26);
    }
    book.accept("1024 data groups with a group each", &sheet.bytes);
}

fn channel_group_loops(book: &mut Book) {
    for mode in [0u16, 1, 2] {
        for length in [1, 2, 5] {
            let (mut sheet, dg, cg) = filled(&[length]);
            sheet.put16(dg[0] + 22, mode);
            sheet.put32(cg[0][length - 1] + 4, cg[0][0] as u32);
            let name = format!("mode {mode}, loop of {length} groups");
            if mode == 0 {
                book.expect(name, &sheet.bytes, 8, cg[0][0] + 4);
            } else {
                book.expect(name, &sheet.bytes, 8, cg[0][0] + 16);
            }
        }
    }
    let (mut sheet, _, cg) = filled(&[4]);
    sheet.put32(cg[0][3] + 4, cg[0][2] as u32);
    book.expect("loop of groups with a way in", &sheet.bytes, 8, cg[0][2] + 16);
    // Here the limit is met before the repeated ID.
    let (mut sheet, _, cg) = filled(&[256, 256, 256, 256]);
    sheet.put32(cg[3][255] + 4, cg[3][0] as u32);
    book.expect("loop of groups at the limit", &sheet.bytes, 7, cg[3][255] + 4);
    let (mut sheet, _, cg) = filled(&[256, 256, 256, 255]);
    sheet.put32(cg[3][254] + 4, cg[3][0] as u32);
    book.expect("loop of groups below the limit", &sheet.bytes, 8, cg[3][0] + 16);
    // A data group that leads to itself takes its groups again and again.
    let (mut sheet, dg, _) = filled(&[2]);
    sheet.put32(dg[0] + 4, dg[0] as u32);
    book.expect("looped data group with two groups", &sheet.bytes, 7, dg[0] + 8);
    let (mut sheet, dg, cg) = filled(&[3]);
    sheet.put32(dg[0] + 4, dg[0] as u32);
    book.expect("looped data group with three groups", &sheet.bytes, 7, cg[0][0] + 4);
}

/// The limit on groups against the test for a second group in mode 0.
fn group_order(book: &mut Book) {
    for (before, number) in [(1023, 7), (1022, 8)] {
        let mut sheet = Sheet::new(300, 164);
        let dg = chain(&mut sheet, 68, b"DG", 24, before + 1);
        let mut cg = 0;
        for place in &dg {
            cg = sheet.linked(place + 8, b"CG", 26);
        }
        sheet.linked(cg + 4, b"CG", 26);
        let name = format!("second group in mode 0 after {before} groups and its first");
        book.expect(&*name, &sheet.bytes, number, cg + 4);
        sheet.put32(cg + 4, LONE);
        book.expect(format!("{name}, broken link"), &sheet.bytes, number, cg + 4);
    }
}

/// One group of mode 0 with a chain of channels of the least size.
fn with_channels(count: usize) -> (Sheet, usize, Vec<usize>) {
    let mut sheet = Sheet::new(300, 164);
    let dg = sheet.linked(68, b"DG", 24);
    let cg = sheet.linked(dg + 8, b"CG", 26);
    let cn = chain(&mut sheet, cg + 8, b"CN", 218, count);
    (sheet, cg, cn)
}

fn channels(book: &mut Book) {
    let (mut sheet, cg, cn) = with_channels(16384);
    book.accept("16384 channels", &sheet.bytes);
    let field = cn[16383] + 4;
    sheet.put32(field, LONE);
    book.expect("16385th channel does not open", &sheet.bytes, 7, field);
    sheet.put16(cn[16383] + 190, 17);
    book.expect("data type of the 16384th before the 16385th", &sheet.bytes, 9, cn[16383] + 190);
    sheet.put16(cn[16383] + 190, 0);
    sheet.linked(field, b"CN", 218);
    book.expect("16385 channels", &sheet.bytes, 7, field);
    sheet.put32(cg + 22, 1);
    book.expect("record size 0 before the 16385th channel", &sheet.bytes, 10, cg + 20);
    let (mut sheet, cg, cn) = with_channels(3);
    sheet.put32(cn[2] + 4, cn[0] as u32);
    sheet.put32(cg + 22, 1);
    book.expect("record size 0 before looped channels", &sheet.bytes, 10, cg + 20);
}

/// Loops of channels; the last step is number 16384.
fn channel_loops(book: &mut Book) {
    for (length, back, last) in [(1, 0, 0), (2, 0, 1), (3, 0, 0), (3, 1, 1), (4, 3, 3)] {
        let (mut sheet, _, cn) = with_channels(length);
        sheet.put32(cn[length - 1] + 4, cn[back] as u32);
        let name = format!("{length} channels back to number {back}");
        book.expect(name, &sheet.bytes, 7, cn[last] + 4);
    }
    let (mut sheet, cg, cn) = with_channels(2);
    let dg = cg - 24;
    sheet.put16(dg + 22, 1);
    let next = sheet.linked(cg + 4, b"CG", 26);
    sheet.put16(next + 16, 1);
    let looped = sheet.linked(next + 8, b"CN", 218);
    sheet.put32(looped + 4, looped as u32);
    book.expect("looped channel in the second group", &sheet.bytes, 7, looped + 4);
    sheet.put32(cn[1] + 4, looped as u32);
    book.expect("looped channel in the first group", &sheet.bytes, 7, looped + 4);
    // A fault in the loop is met in its first round.
    sheet.put16(looped + 24, 2);
    book.expect("looped channel with a fault", &sheet.bytes, 9, looped + 24);
}

/// Many groups that share one chain of channels.
fn sharing(groups: usize, channels: usize) -> (Sheet, Vec<usize>, Vec<usize>) {
    let mut sheet = Sheet::new(300, 164);
    let cn = chain(&mut sheet, 80, b"CN", 218, channels);
    sheet.put32(80, 0);
    let dg = chain(&mut sheet, 68, b"DG", 24, groups);
    let mut places = Vec::new();
    for place in &dg {
        let cg = sheet.linked(place + 8, b"CG", 26);
        sheet.put32(cg + 8, cn[0] as u32);
        places.push(cg);
    }
    (sheet, places, cn)
}

fn shared_channels(book: &mut Book) {
    let (sheet, _, _) = sharing(1024, 16);
    book.accept("1024 groups share 16 channels", &sheet.bytes);
    let (sheet, _, cn) = sharing(1024, 17);
    // 963 groups take 16371, the next one may take 13.
    book.expect("1024 groups share 17 channels", &sheet.bytes, 7, cn[12] + 4);
    let (sheet, _, _) = sharing(512, 32);
    book.accept("512 groups share 32 channels", &sheet.bytes);
    let (mut sheet, cg, _) = sharing(513, 32);
    book.expect("513 groups share 32 channels", &sheet.bytes, 7, cg[512] + 8);
    sheet.put32(cg[512] + 8, LONE);
    book.expect("513th group, broken first channel", &sheet.bytes, 7, cg[512] + 8);
    sheet.put32(cg[512] + 8, 0);
    book.accept("513th group without channels", &sheet.bytes);
    let (mut sheet, cg, cn) = sharing(1, 16);
    let dg = cg[0] - 24;
    sheet.put32(dg + 4, dg as u32);
    book.expect("looped data group with 16 channels", &sheet.bytes, 7, dg + 4);
    sheet.linked(cn[15] + 4, b"CN", 218);
    book.expect("looped data group with 17 channels", &sheet.bytes, 7, cn[12] + 4);
}
