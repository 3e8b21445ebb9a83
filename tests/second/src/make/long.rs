//! Small files with long copies and long difference lists: blocks and records
//! that are shared count once for every use.

use super::cases::logged;
use super::sheet::Sheet;

const GROUPS: u64 = 1024;
const RECORD: u64 = 2048;

/// A file whose copy has exactly this length, from about 60,000 bytes on.
///
/// 1,024 data groups share one channel group in mode 0 with its records and
/// its comment; the file's comment makes up for the rest.
pub fn with_copy_of(length: u64) -> Sheet {
    let rest = length - (64 + 164 + GROUPS * (28 + 30));
    let count = rest / (GROUPS * RECORD);
    let rest = rest % (GROUPS * RECORD);
    // A text has at least 4 bytes.
    let group_comment = (rest / GROUPS).saturating_sub(4);
    let group_comment = if group_comment < 4 { 0 } else { group_comment };
    let comment = rest - GROUPS * group_comment;
    let mut sheet = Sheet::new(300, 164);
    text(&mut sheet, 72, comment);
    let cg = sheet.block(b"CG", 26);
    text(&mut sheet, cg + 12, group_comment);
    sheet.put16(cg + 20, RECORD as u16);
    sheet.put32(cg + 22, count as u32);
    let records: Vec<u8> = (0..count * RECORD).map(|n| (n % 251) as u8).collect();
    let data = sheet.append(&records);
    let mut field = 68;
    for _ in 0..GROUPS {
        let dg = sheet.linked(field, b"DG", 24);
        sheet.put32(dg + 8, cg as u32);
        sheet.put32(dg + 16, data as u32);
        field = dg + 4;
    }
    sheet
}

fn text(sheet: &mut Sheet, field: usize, size: u64) {
    if size > 0 {
        let tx = sheet.linked(field, b"TX", size as usize);
        sheet.put(tx + 4, &vec![0x74; size as usize - 4]);
    }
}

/// 1,024 data groups with a group each; all share 16 channels, and these
/// share five bodies of the given sizes. The length of the copy as well.
pub fn with_bodies(sizes: [usize; 5]) -> (Sheet, u64) {
    let mut sheet = Sheet::new(300, 164);
    let cg = sheet.block(b"CG", 26);
    let mut bodies = Vec::new();
    for ((kind, field), size) in
        [(b"CC", 8), (b"CE", 12), (b"TX", 20), (b"TX", 218), (b"TX", 222)].into_iter().zip(sizes)
    {
        bodies.push((field, sheet.block(kind, size)));
    }
    let mut field = cg + 8;
    for _ in 0..16 {
        let cn = sheet.linked(field, b"CN", 228);
        for &(offset, body) in &bodies {
            sheet.put32(cn + offset, body as u32);
        }
        field = cn + 4;
    }
    let mut field = 68;
    for _ in 0..GROUPS {
        let dg = sheet.linked(field, b"DG", 24);
        sheet.put32(dg + 8, cg as u32);
        field = dg + 4;
    }
    let channel = 228 + sizes.iter().sum::<usize>() as u64;
    (sheet, 64 + 164 + GROUPS * (28 + 30 + 16 * channel))
}

/// So many data groups share three groups with 97 records of 65,535 bytes,
/// in turn. The length of the copy as well.
pub fn unsorted(mode: u16, data_groups: u64) -> (Sheet, u64) {
    let groups = [(9, 65_535, 33), (8, 65_535, 32), (7, 65_535, 32)];
    let mut data = Vec::new();
    for turn in 0..97 {
        let id = [9, 8, 7][turn % 3];
        data.push(id);
        data.resize(data.len() + 65_535, turn as u8);
        data.extend((mode == 2).then_some(id));
    }
    let file = logged(mode, &groups, &data);
    let mut sheet = file.sheet;
    let mut field = file.dg + 4;
    for _ in 1..data_groups {
        let dg = sheet.linked(field, b"DG", 24);
        sheet.put32(dg + 8, file.cg[0] as u32);
        sheet.put32(dg + 16, file.data as u32);
        sheet.put16(dg + 22, mode);
        field = dg + 4;
    }
    (sheet, 64 + 164 + data_groups * (3 * (28 + 30) + 97 * 65_535))
}

/// Two files with 1,024 groups each, whose list has so many entries, from
/// 1,024 on: the records that only the first one has.
pub fn with_entries(entries: u64) -> (Sheet, Sheet) {
    let shared = entries / GROUPS;
    (counting(shared, entries - (GROUPS - 1) * shared), counting(0, 0))
}

/// 1,024 groups with records of one byte: all but the last share theirs.
fn counting(shared: u64, last: u64) -> Sheet {
    let mut sheet = Sheet::new(300, 164);
    let data = sheet.append(&vec![0x72; shared.max(last) as usize]);
    let groups = [shared, last].map(|count| {
        let cg = sheet.block(b"CG", 26);
        sheet.put16(cg + 20, 1);
        sheet.put32(cg + 22, count as u32);
        cg
    });
    let mut field = 68;
    for number in 0..GROUPS {
        let dg = sheet.linked(field, b"DG", 24);
        sheet.put32(dg + 8, groups[usize::from(number == GROUPS - 1)] as u32);
        sheet.put32(dg + 16, data as u32);
        field = dg + 4;
    }
    sheet
}
