//! Small files with copies too long to make (12) or for the output (13).

use super::super::long;
use super::Book;

const LONGEST: u64 = 2_147_483_647;
const WRAP: u64 = 1 << 32;

pub fn cases(book: &mut Book) {
    shared_records(book);
    shared_bodies(book);
    for mode in [1, 2] {
        // 6, 254 and 2,168 million bytes.
        for data_groups in [1, 40, 341] {
            let (sheet, length) = long::unsorted(mode, data_groups);
            let name = format!("mode {mode}, records shared by {data_groups} data groups");
            book.of_length(name, &sheet.bytes, length);
            told(book, length);
        }
    }
}

/// With little room it is 12 for a copy too long to make, else 13.
fn told(book: &mut Book, length: u64) {
    for room in [0, 1_000] {
        if length > LONGEST {
            book.told(room, 12, 0, 0);
        } else {
            book.told(room, 13, length, 0);
        }
    }
}

fn shared_records(book: &mut Book) {
    // Kept in 32 bits, signed or not, some of these would seem to be short.
    for length in [
        70_000,
        1_000_000,
        40_000_000,
        LONGEST - 1,
        LONGEST,
        LONGEST + 1,
        LONGEST + 2,
        WRAP - 1,
        WRAP,
        WRAP + 1,
        WRAP + 500_000,
        2 * WRAP + 7,
    ] {
        let sheet = long::with_copy_of(length);
        book.of_length(format!("shared records, copy of {length}"), &sheet.bytes, length);
        told(book, length);
    }
}

fn shared_bodies(book: &mut Book) {
    for sizes in [
        [46, 6, 4, 4, 4],
        // 2,147,477,732 and 2,147,494,116 bytes.
        [65_535, 65_293, 4, 4, 4],
        [65_535, 65_294, 4, 4, 4],
        // 4,294,977,764 bytes.
        [65_535, 65_535, 65_535, 65_304, 4],
        [65_535; 5],
    ] {
        let (sheet, length) = long::with_bodies(sizes);
        book.of_length(format!("shared bodies of {sizes:?}"), &sheet.bytes, length);
        told(book, length);
    }
}
