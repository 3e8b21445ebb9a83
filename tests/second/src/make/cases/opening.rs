//! Both sides of every condition for opening a block, at every link field.

use super::super::sheet::{least, Sheet, KINDS};
use super::{full, Book};

/// A link field: its name, its place and the kind of block it leads to.
type Field = (&'static str, usize, &'static [u8; 2]);

pub fn cases(book: &mut Book) {
    let file = full(false);
    book.accept("full file without records", &file.sheet.bytes);
    let (dg, cg) = (file.dg, file.cg);
    let (first, last) = (file.channels[0].cn, file.channels[3].cn);
    let fields: [Field; 19] = [
        ("file comment", 72, b"TX"),
        ("program", 76, b"PR"),
        ("first DG", 68, b"DG"),
        ("next DG", dg[0] + 4, b"DG"),
        ("next DG of the last", dg[1] + 4, b"DG"),
        ("first CG", dg[0] + 8, b"CG"),
        ("next CG", cg[0] + 4, b"CG"),
        ("first CG of the last", dg[1] + 8, b"CG"),
        ("group comment", cg[0] + 12, b"TX"),
        ("group comment of the last", cg[2] + 12, b"TX"),
        ("first CN", cg[0] + 8, b"CN"),
        ("next CN", first + 4, b"CN"),
        ("next CN of the last", last + 4, b"CN"),
        ("CC", first + 8, b"CC"),
        ("CE", first + 12, b"CE"),
        ("channel comment", first + 20, b"TX"),
        ("long name", first + 218, b"TX"),
        ("display name", first + 222, b"TX"),
        ("display name of the last", last + 222, b"TX"),
    ];
    for field in fields {
        at_the_end(book, &file.sheet, field);
        sizes(book, &file.sheet, field);
        names(book, &file.sheet, field);
        far_links(book, &file.sheet, field);
    }
    inside_others(book);
}

/// The file with a zeroed block of this size as its last bytes.
fn with_last(sheet: &Sheet, field: Field, size: usize) -> Sheet {
    let mut sheet = sheet.clone();
    sheet.linked(field.1, field.2, size);
    sheet
}

/// The number for a block of which the image has so many bytes, and no more.
fn cut_to(kept: usize) -> u32 {
    if kept < 4 {
        5
    } else {
        19
    }
}

/// The image ends within or right after the block.
fn at_the_end(book: &mut Book, sheet: &Sheet, field: Field) {
    let (label, at, kind) = field;
    let size = least(kind);
    let whole = with_last(sheet, field, size);
    let begin = whole.len() - size;
    book.accept(format!("{label}: least size at the image end"), &whole.bytes);
    for kept in 0..size.min(8) {
        let name = format!("{label}: only {kept} bytes in the image");
        book.expect(name, &whole.bytes[..begin + kept], cut_to(kept), at);
    }
    book.expect(
        format!("{label}: last byte missing"),
        &whole.bytes[..whole.len() - 1],
        cut_to(size - 1),
        at,
    );
    let mut longer = whole.clone();
    longer.put16(begin + 2, size as u16 + 1);
    book.expect(format!("{label}: ends one byte too late"), &longer.bytes, 19, at);
    longer.append(&[0]);
    book.accept(format!("{label}: one byte above least"), &longer.bytes);
    let mut odd = sheet.clone();
    odd.append(&[0xFF]);
    let odd = with_last(&odd, field, size);
    book.accept(format!("{label}: at another place parity"), &odd.bytes);
}

/// The size field itself, with plenty of bytes behind the block; sizes that
/// are too small also with none behind the head.
fn sizes(book: &mut Book, sheet: &Sheet, field: Field) {
    let (label, at, kind) = field;
    let size = least(kind);
    let mut roomy = with_last(sheet, field, size);
    let begin = roomy.len() - size;
    roomy.append(&[0; 400]);
    for value in [0, 1, 2, 3, size / 2, size - 2, size - 1] {
        if value < size {
            let mut image = roomy.clone();
            image.put16(begin + 2, value as u16);
            let name = format!("{label}: size {value} below {size}");
            book.expect(name, &image.bytes, 18, at);
            let name = format!("{label}: size {value} below {size}, the head alone");
            book.expect(name, &image.bytes[..begin + 4], 18, at);
        }
    }
    for value in [size, size + 1, size + 50, size + 400] {
        let mut image = roomy.clone();
        image.put16(begin + 2, value as u16);
        book.accept(format!("{label}: size {value} from {size}"), &image.bytes);
    }
    for value in [size + 401, 0x7FFF, 0x8000, 0xFFFF] {
        let mut image = roomy.clone();
        image.put16(begin + 2, value as u16);
        let name = format!("{label}: size {value} beyond the end");
        book.expect(name, &image.bytes, 19, at);
    }
    let mut largest = with_last(sheet, field, 65535);
    book.accept(format!("{label}: size 65535 at the end"), &largest.bytes);
    largest.bytes.pop();
    let name = format!("{label}: size 65535, one byte missing");
    book.expect(name, &largest.bytes, 19, at);
}

/// Wrong identifiers, with sizes right and wrong, and with a head that is cut.
fn names(book: &mut Book, sheet: &Sheet, field: Field) {
    let (label, at, kind) = field;
    let whole = with_last(sheet, field, 300);
    let begin = whole.len() - 300;
    let [a, b] = *kind;
    let mut wrong: Vec<[u8; 2]> = vec![
        [b, a],
        [a, a ^ b ^ 0x55],
        [a ^ 1, b],
        [a, b ^ 1],
        [a ^ 0x80, b],
        [a, b ^ 0x80],
        [a | 0x20, b | 0x20],
        [0, 0],
        *b"TR",
        *b"SR",
        *b"CD",
        *b"MD",
    ];
    wrong.extend(KINDS.iter().map(|k| k.0));
    for name in wrong {
        if name != *kind {
            let mut image = whole.clone();
            image.put(begin, &name);
            book.expect(format!("{label}: named {name:?}"), &image.bytes, 17, at);
            for size in [0, 3, 301, 0xFFFF] {
                image.put16(begin + 2, size);
                let name = format!("{label}: named {name:?}, size {size}");
                book.expect(name, &image.bytes, 17, at);
            }
            let head = format!("{label}: named {name:?}, the head alone");
            book.expect(head, &image.bytes[..begin + 4], 17, at);
            let part = format!("{label}: named {name:?}, three bytes of the head");
            book.expect(part, &image.bytes[..begin + 3], 5, at);
        }
    }
}

/// Links that lead to no block of the kind, and nil.
fn far_links(book: &mut Book, sheet: &Sheet, field: Field) {
    let (label, at, _) = field;
    let end = sheet.len() as u32;
    for link in [1, 2, 63, 64, 65, end - 4] {
        let mut image = sheet.clone();
        image.put32(at, link);
        book.expect(format!("{label}: link {link:#x}"), &image.bytes, 17, at);
    }
    let places = [
        end - 3,
        end - 1,
        end,
        end + 1,
        0x0100_0000,
        0x7FFF_FFFF,
        0x8000_0000,
        0xFFFF_FFF0,
        0xFFFF_FFFC,
        0xFFFF_FFFD,
        0xFFFF_FFFE,
        0xFFFF_FFFF,
    ];
    for link in places {
        let mut image = sheet.clone();
        image.put32(at, link);
        book.expect(format!("{label}: link {link:#x}"), &image.bytes, 5, at);
    }
    let mut nil = sheet.clone();
    nil.put32(at, 0);
    book.accept(format!("{label}: nil"), &nil.bytes);
}

/// Blocks that lie inside other blocks.
fn inside_others(book: &mut Book) {
    let mut sheet = Sheet::new(300, 164);
    sheet.put(34, b"TX\x04\x00");
    sheet.put32(72, 34);
    book.accept("comment inside the identification", &sheet.bytes);
    let mut sheet = Sheet::new(300, 164);
    sheet.put(60, b"TX\xA8\x00");
    sheet.put32(72, 60);
    book.accept("comment from the identification to the end", &sheet.bytes);
    sheet.put(60, b"TX\xA9\x00");
    book.expect("comment from the identification beyond", &sheet.bytes, 19, 72);
    let mut sheet = Sheet::new(300, 164);
    sheet.put(100, b"DG\x18\x00");
    sheet.put32(68, 100);
    book.accept("data group inside the header", &sheet.bytes);
    let mut sheet = Sheet::new(300, 164);
    sheet.put32(76, 8);
    sheet.put(8, b"PR\xDC\x00");
    book.accept("program from place 8 over the whole file", &sheet.bytes);
}
