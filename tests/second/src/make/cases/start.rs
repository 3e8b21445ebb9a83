//! The image's length, the identification block and the header.

use super::super::sheet::{Sheet, KINDS};
use super::Book;

pub fn cases(book: &mut Book) {
    lengths(book);
    identifiers(book);
    flags_and_version(book);
    header(book);
    header_sizes(book);
}

fn lengths(book: &mut Book) {
    let whole = Sheet::new(300, 164).bytes;
    book.accept("smallest file", &whole);
    for length in [0, 1, 3, 4, 8, 28, 30, 62, 63] {
        book.expect(format!("image of {length} bytes"), &whole[..length], 2, 0);
    }
    for length in [64, 65, 66, 67] {
        let name = format!("image of {length} bytes, the header's head cut");
        book.expect(name, &whole[..length], 5, 64);
    }
    for length in [68, 72, 226, 227] {
        book.expect(format!("image of {length} bytes, header cut"), &whole[..length], 19, 64);
    }
    let mut unfinished = whole.clone();
    unfinished[..8].copy_from_slice(b"UnFinMF ");
    book.expect("unfinalized, 63 bytes", &unfinished[..63], 2, 0);
    book.expect("unfinalized, 8 bytes", &unfinished[..8], 2, 0);
    book.expect("unfinalized, 64 bytes", &unfinished[..64], 3, 0);
    book.expect("unfinalized, whole", &unfinished, 3, 0);
    book.expect("63 zero bytes", &[0; 63], 2, 0);
    book.expect("64 zero bytes", &[0; 64], 2, 0);
    book.expect("300 bytes of ones", &[0xFF; 300], 2, 0);
}

fn identifiers(book: &mut Book) {
    let whole = Sheet::new(300, 164).bytes;
    for (right, label) in [(b"MDF     ", "MDF"), (b"UnFinMF ", "UnFinMF")] {
        for n in 0..8 {
            for change in [0x01, 0x20, 0x80] {
                let mut image = whole.clone();
                image[..8].copy_from_slice(right);
                image[n] ^= change;
                book.expect(format!("{label}: byte {n} xor {change:#x}"), &image, 2, 0);
            }
        }
    }
    let wrong: [&[u8; 8]; 8] = [
        b"MDF\0\0\0\0\0",
        b"MDF    \0",
        b"mdf     ",
        b"UnFinMF\0",
        b"UnFinMDF",
        b"MDF 3.00",
        b"     MDF",
        b"\0\0\0\0\0\0\0\0",
    ];
    for text in wrong {
        let mut image = whole.clone();
        image[..8].copy_from_slice(text);
        book.expect(format!("identifier {text:?}"), &image, 2, 0);
    }
}

fn flags_and_version(book: &mut Book) {
    let whole = Sheet::new(330, 208);
    for (place, label) in [(24, "byte order"), (26, "float format")] {
        for value in [1, 2, 255, 256, 0x8000, 0xFFFF] {
            let mut sheet = whole.clone();
            sheet.put16(place, value);
            book.expect(format!("{label} {value}"), &sheet.bytes, 4, place);
        }
    }
    for version in [300, 301, 310, 319, 320, 329, 330, 331, 398, 399] {
        let sheet = Sheet::new(version, 208);
        book.accept(format!("version {version}"), &sheet.bytes);
    }
    for version in [0, 1, 44, 211, 298, 299, 400, 401, 410, 556, 11265, 0x8000, 65535] {
        let sheet = Sheet::new(version, 208);
        book.expect(format!("version {version}"), &sheet.bytes, 4, 28);
    }
    // The rest of the block does not matter.
    let mut sheet = whole;
    sheet.put(8, &[0xFF; 16]);
    sheet.put(30, &[0xFF; 34]);
    book.accept("other identification bytes", &sheet.bytes);
}

fn header(book: &mut Book) {
    let whole = Sheet::new(300, 164);
    for (kind, _) in KINDS {
        if kind != *b"HD" {
            let mut sheet = whole.clone();
            sheet.put(64, &kind);
            book.expect(format!("header named {kind:?}"), &sheet.bytes, 17, 64);
        }
    }
    for name in [b"hd", b"DH", b"H\0", b"\0D", b"HH", b"DD"] {
        let mut sheet = whole.clone();
        sheet.put(64, name);
        book.expect(format!("header named {name:?}"), &sheet.bytes, 17, 64);
        for size in [0, 3, 163, 165, 0xFFFF] {
            sheet.put16(66, size);
            let name = format!("header named {name:?} says {size}");
            book.expect(name, &sheet.bytes, 17, 64);
        }
        sheet.bytes.truncate(68);
        book.expect(format!("header named {name:?}, its head alone"), &sheet.bytes, 17, 64);
        sheet.bytes.truncate(67);
        book.expect(format!("header named {name:?}, three bytes"), &sheet.bytes, 5, 64);
    }
    let mut idle = whole.clone();
    idle.put16(80, 65535);
    idle.put(82, &[0xFF; 146]);
    book.accept("header with data group count 65535", &idle.bytes);
}

fn header_sizes(book: &mut Book) {
    for version in [300, 319, 320, 399] {
        for size in [164, 165, 171, 172, 173, 174, 175, 176, 177, 207, 208, 209, 1000, 65535] {
            let mut sheet = Sheet::new(version, size);
            let name = format!("version {version}, header of {size}");
            book.accept(&*name, &sheet.bytes);
            sheet.bytes.pop();
            book.expect(format!("{name}, last byte missing"), &sheet.bytes, 19, 64);
        }
        for size in [0, 1, 2, 3, 4, 100, 162, 163] {
            let mut sheet = Sheet::new(version, 208);
            sheet.put16(66, size);
            let name = format!("version {version}, header says {size}");
            book.expect(&*name, &sheet.bytes, 18, 64);
            sheet.bytes.truncate(68);
            book.expect(format!("{name}, its head alone"), &sheet.bytes, 18, 64);
        }
        for size in [209, 256, 420, 0xFFFF] {
            let mut sheet = Sheet::new(version, 208);
            sheet.put16(66, size);
            let name = format!("version {version}, header says {size} of 208");
            book.expect(name, &sheet.bytes, 19, 64);
        }
    }
}
