//! Physical values, each worked out beforehand.

use super::super::signals::{plant, Conversion, Signal, Signals, DOUBLES, INTEGERS, SINGLES};
use super::Book;
use crate::sample::Answer;

const ZERO: u64 = 0;
const MINUS_ZERO: u64 = 1 << 63;
const ONE: u64 = 0x3FF0_0000_0000_0000;
const MAX: u64 = 0x7FEF_FFFF_FFFF_FFFF;
const INFINITE: u64 = 0x7FF0_0000_0000_0000;
const NAN: u64 = 0x7FF8_0000_0000_0000;
const SIGN: u64 = 1 << 63;
/// 2 to the power of 53 as an integer and as a float.
const EXACT: u64 = 9_007_199_254_740_992;
const EXACT_FLOAT: u64 = 0x4340_0000_0000_0000;

const UNSIGNED: u16 = 0;
const SIGNED: u16 = 1;
const DOUBLE: u16 = 3;

const NONE: Answer = Answer { number: 16, place: 0, value: 0, length: 0, kind: 0 };

pub fn cases(book: &mut Book) {
    sample_file(book);
    linear(book);
    roundings(book);
    overflows(book);
    subnormals(book);
    zeros(book);
    largest_integers(book);
    without_conversion(book);
    parameters(book);
    doubles(book);
    not_numbers(book);
    conversion_sizes(book);
    formulas(book);
    parameter_counts(book);
    narrow(book);
    earlier_refusals(book);
}

/// A channel of 64 bits: its type, what is stored, its conversion, and the
/// physical value.
struct Row {
    data_type: u16,
    raw: u64,
    conversion: Option<Conversion>,
    value: Option<u64>,
}

fn by(p1: u64, p2: u64) -> Option<Conversion> {
    Some(Conversion { size: 62, formula: 0, p1, p2 })
}

fn told(value: Option<u64>) -> Answer {
    value.map_or(NONE, |pattern| Answer::done(4, pattern, 0))
}

/// All rows as the channels of one file.
fn table(book: &mut Book, name: &str, rows: &[Row]) {
    let mut file = Signals::new(8 * rows.len());
    let mut record = vec![0; 8 * rows.len()];
    for (byte, row) in (0..).step_by(8).zip(rows) {
        let bits = if matches!(row.data_type, 2 | 11 | 15) { 32 } else { 64 };
        let signal = Signal::at(byte, bits, row.data_type);
        let cn = file.channel(signal);
        if let Some(conversion) = row.conversion {
            file.convert(cn, conversion);
        }
        plant(&mut record, signal, row.raw);
    }
    file.records(&record);
    book.accept(name, &file.sheet.bytes);
    for (channel, row) in rows.iter().enumerate() {
        book.physical([0, channel as u64, 0], told(row.value));
    }
}

/// Formula 0: type, stored, P1, P2, value.
fn converted(book: &mut Book, name: &str, rows: &[(u16, u64, u64, u64, Option<u64>)]) {
    let row = |&(data_type, raw, p1, p2, value): &(u16, u64, u64, u64, Option<u64>)| Row {
        data_type,
        raw,
        conversion: by(p1, p2),
        value,
    };
    table(book, name, &rows.iter().map(row).collect::<Vec<_>>());
}

/// Input_1, channel 1 of group 0: byte 4 of records of 5 from 4567 on. Its
/// P1 is stored as -0.0, its P2 as 40.
fn sample_file(book: &mut Book) {
    let mut image = include_bytes!("../../../../data/sample000_v300.mdf").to_vec();
    for record in [0, 31] {
        image[4567 + 5 * record + 4] = 5;
    }
    book.accept("sample file, Input_1 is 5", &image);
    for record in [0, 31] {
        book.sample([0, 1, record], Answer::done(1, 5, 0));
        book.physical([0, 1, record], told(Some(200.0_f64.to_bits())));
    }
    book.physical([0, 1, 32], Answer::refused(14, 0));
    book.physical([0, 2, 0], Answer::refused(14, 0));
    book.physical([2, 0, 0], Answer::refused(14, 0));
}

fn linear(book: &mut Book) {
    let [half, two, forty] = [0.5_f64, 2.0, 40.0].map(f64::to_bits);
    let minus = |raw: u64| raw.wrapping_neg();
    let is = |value: f64| Some(value.to_bits());
    let rows = [
        (UNSIGNED, 5, MINUS_ZERO, forty, is(200.0)),
        (UNSIGNED, 5, forty, two, is(50.0)),
        (UNSIGNED, 5, two, forty, is(202.0)),
        (SIGNED, minus(8), ONE, half, is(-3.0)),
        (SIGNED, minus(8), half, ONE, is(-7.5)),
        (SIGNED, 8, ONE, half | SIGN, is(-3.0)),
        (13, 3, two, two, is(8.0)),
        (14, minus(3), two, two, is(-4.0)),
        (9, 3, two, two, is(8.0)),
        (10, minus(3), two, two, is(-4.0)),
        (DOUBLE, half, two, forty, is(22.0)),
        (16, half | SIGN, two, forty, is(-18.0)),
        (12, half, forty, two, is(41.0)),
    ];
    converted(book, "linear", &rows);
}

/// Rounded after the product and again after the sum, ties to even.
fn roundings(book: &mut Book) {
    let above_one = ONE + 1;
    let [tenth, three_tenths] = [0x3FB9_9999_9999_999A, 0x3FD3_3333_3333_3333];
    let [one, three] = [1.0_f64, 3.0].map(f64::to_bits);
    let half_exact = 1 << 52;
    // 2^52 + 2, which has no bits behind the point.
    let rounded = 0x4330_0000_0000_0002;
    let rows = [
        // (2^52 + 1) (1 + 2^-52) = 2^52 + 2 + 2^-52, rounded 2^52 + 2.
        (UNSIGNED, half_exact + 1, rounded | SIGN, above_one, Some(ZERO)),
        (UNSIGNED, half_exact + 1, ZERO, above_one, Some(rounded)),
        // 3 x 0.1 lies midway; the even float is the one above 0.3.
        (UNSIGNED, 3, ZERO, tenth, Some(three_tenths + 1)),
        (UNSIGNED, 3, three_tenths | SIGN, tenth, Some(0x3C90_0000_0000_0000)),
        // 2^53 + 1 lies between 2^53 and 2^53 + 2; 2^53 + 3 before 2^53 + 4.
        (UNSIGNED, EXACT, one, ONE, Some(EXACT_FLOAT)),
        (UNSIGNED, EXACT, three, ONE, Some(EXACT_FLOAT + 2)),
        (SIGNED, EXACT.wrapping_neg(), one | SIGN, ONE, Some(EXACT_FLOAT | SIGN)),
        (SIGNED, EXACT.wrapping_neg(), three | SIGN, ONE, Some((EXACT_FLOAT + 2) | SIGN)),
        // Just above the tie: 1 + 2^-52 more.
        (UNSIGNED, EXACT, above_one, ONE, Some(EXACT_FLOAT + 1)),
        // (1 + 2^-52) squared is 1 + 2^-51 + 2^-104.
        (DOUBLE, above_one, ZERO, above_one, Some(ONE + 2)),
        (DOUBLE, above_one, (ONE + 2) | SIGN, above_one, Some(ZERO)),
    ];
    converted(book, "roundings", &rows);
}

fn overflows(book: &mut Book) {
    // Half of the last place of the greatest float, and just below it.
    let half_place = 0x7C90_0000_0000_0000;
    let below = half_place - 1;
    let rows = [
        (UNSIGNED, 1, ZERO, MAX, Some(MAX)),
        (SIGNED, u64::MAX, ZERO, MAX, Some(MAX | SIGN)),
        (UNSIGNED, 2, ZERO, MAX, None),
        (UNSIGNED, 2, MAX | SIGN, MAX, None),
        (SIGNED, 2_u64.wrapping_neg(), MAX, MAX, None),
        (DOUBLE, MAX, ZERO, MAX, None),
        (DOUBLE, MAX, MAX, MAX | SIGN, None),
        // (2 - 2^-52) (1 + 2^-52) is above 2.
        (DOUBLE, ONE + 1, ZERO, MAX, None),
        // (2 - 2^-52) (1 - 2^-53) is 2 - 2^-51 and a little.
        (DOUBLE, ONE - 1, ZERO, MAX, Some(MAX - 1)),
        (UNSIGNED, 1, MAX, MAX, None),
        (SIGNED, u64::MAX, MAX | SIGN, MAX, None),
        (UNSIGNED, 1, MAX | SIGN, MAX, Some(ZERO)),
        (UNSIGNED, 1, half_place, MAX, None),
        (UNSIGNED, 1, below, MAX, Some(MAX)),
        (UNSIGNED, 1, MAX, half_place, None),
        (UNSIGNED, 1, MAX, below, Some(MAX)),
        (SIGNED, u64::MAX, half_place | SIGN, MAX, None),
        (SIGNED, u64::MAX, below | SIGN, MAX, Some(MAX | SIGN)),
        (UNSIGNED, EXACT, ZERO, MAX, None),
    ];
    converted(book, "overflows", &rows);
}

fn subnormals(book: &mut Book) {
    let least = 1;
    let [half, one_half, two_half] = [0.5_f64, 1.5, 2.5].map(f64::to_bits);
    let rows = [
        (UNSIGNED, 1, ZERO, least, Some(1)),
        (UNSIGNED, 3, ZERO, least, Some(3)),
        (SIGNED, u64::MAX, ZERO, least, Some(1 | SIGN)),
        (UNSIGNED, 0, 5, least, Some(5)),
        (UNSIGNED, 1, least, least, Some(2)),
        (UNSIGNED, 1, least | SIGN, least, Some(ZERO)),
        (UNSIGNED, 1, 0x000F_FFFF_FFFF_FFFF, least, Some(0x0010_0000_0000_0000)),
        (DOUBLE, least, ZERO, ONE, Some(least)),
        // Ties to even: half to 0, one and a half to 2, two and a half to 2.
        (DOUBLE, half, ZERO, least, Some(ZERO)),
        (DOUBLE, half + 1, ZERO, least, Some(1)),
        (DOUBLE, one_half, ZERO, least, Some(2)),
        (DOUBLE, two_half, ZERO, least, Some(2)),
        (DOUBLE, least, ZERO, least, Some(ZERO)),
        (DOUBLE, least | SIGN, MINUS_ZERO, least, Some(MINUS_ZERO)),
        (DOUBLE, half | SIGN, MINUS_ZERO, least, Some(MINUS_ZERO)),
        // The least normal number halved.
        (DOUBLE, 0x0010_0000_0000_0000, ZERO, half, Some(0x0008_0000_0000_0000)),
    ];
    converted(book, "subnormals", &rows);
}

/// A zero is below zero only where both product and P1 are.
fn zeros(book: &mut Book) {
    let minus_one = ONE | SIGN;
    let rows = [
        (UNSIGNED, 0, ZERO, ONE, Some(ZERO)),
        (UNSIGNED, 0, MINUS_ZERO, ONE, Some(ZERO)),
        (UNSIGNED, 0, ZERO, minus_one, Some(ZERO)),
        (UNSIGNED, 0, MINUS_ZERO, minus_one, Some(MINUS_ZERO)),
        (SIGNED, 5, MINUS_ZERO, MINUS_ZERO, Some(MINUS_ZERO)),
        (SIGNED, u64::MAX, MINUS_ZERO, MINUS_ZERO, Some(ZERO)),
        (SIGNED, u64::MAX, MINUS_ZERO, ZERO, Some(MINUS_ZERO)),
        (DOUBLE, MINUS_ZERO, MINUS_ZERO, ONE, Some(MINUS_ZERO)),
        (DOUBLE, MINUS_ZERO, ZERO, ONE, Some(ZERO)),
        (DOUBLE, MINUS_ZERO, MINUS_ZERO, minus_one, Some(ZERO)),
        (UNSIGNED, 1, minus_one, ONE, Some(ZERO)),
    ];
    converted(book, "zeros", &rows);
}

/// Both sides of 9,007,199,254,740,992 and of its negative.
fn largest_integers(book: &mut Book) {
    let kept = [None, by(ZERO, ONE), Some(Conversion { size: 46, formula: 65_535, p1: 0, p2: 0 })];
    let minus = |raw: u64| raw.wrapping_neg();
    let below = EXACT_FLOAT - 1;
    for (number, conversion) in kept.into_iter().enumerate() {
        let mut rows = Vec::new();
        let mut row = |data_type, raw, value| {
            rows.push(Row { data_type, raw, conversion, value });
        };
        for data_type in [0, 13, 9] {
            row(data_type, EXACT - 1, Some(below));
            row(data_type, EXACT, Some(EXACT_FLOAT));
            for raw in [EXACT + 1, EXACT + 2, 2 * EXACT, 1 << 63, u64::MAX, minus(EXACT)] {
                row(data_type, raw, None);
            }
        }
        for data_type in [1, 14, 10] {
            row(data_type, EXACT - 1, Some(below));
            row(data_type, EXACT, Some(EXACT_FLOAT));
            row(data_type, minus(EXACT - 1), Some(below | SIGN));
            row(data_type, minus(EXACT), Some(EXACT_FLOAT | SIGN));
            for raw in [EXACT + 1, EXACT + 2, minus(EXACT + 1), minus(EXACT + 2), 1 << 63] {
                row(data_type, raw, None);
            }
        }
        table(book, &format!("integers at 2^53, conversion {number}"), &rows);
    }
    // Nor does P2 help.
    let rows = [
        (UNSIGNED, EXACT + 1, ZERO, ZERO, None),
        (SIGNED, minus(EXACT + 1), ONE, ZERO, None),
        (UNSIGNED, EXACT, ONE, ZERO, Some(ONE)),
    ];
    converted(book, "integers at 2^53, P2 is 0", &rows);
}

/// Without CC, or with formula 65535, whatever parameters it has.
fn without_conversion(book: &mut Book) {
    let none = |size, p1, p2| Some(Conversion { size, formula: 65_535, p1, p2 });
    let kept = [None, none(46, 0, 0), none(62, NAN, INFINITE), none(200, ONE, ONE)];
    let mut rows = Vec::new();
    for conversion in kept {
        let mut row = |data_type, raw, value| {
            rows.push(Row { data_type, raw, conversion, value });
        };
        row(UNSIGNED, 0, Some(ZERO));
        row(UNSIGNED, 5, Some(5.0_f64.to_bits()));
        row(SIGNED, 5_u64.wrapping_neg(), Some((-5.0_f64).to_bits()));
        row(UNSIGNED, 5_u64.wrapping_neg(), None);
        row(DOUBLE, MINUS_ZERO, Some(MINUS_ZERO));
        row(DOUBLE, 1, Some(1));
        row(12, MAX | SIGN, Some(MAX | SIGN));
        row(16, INFINITE, None);
    }
    table(book, "no conversion", &rows);
}

fn is_finite(pattern: u64) -> bool {
    pattern & INFINITE != INFINITE
}

/// P1 and P2 of every kind: with 0 to convert only P1 is left.
fn parameters(book: &mut Book) {
    for p1 in DOUBLES {
        let mut rows = Vec::new();
        for p2 in DOUBLES {
            let fine = is_finite(p1) && is_finite(p2);
            // 0 x P2 is 0 or -0; beside another P1 it makes no difference.
            let value = match (p1, p2 & SIGN) {
                (MINUS_ZERO, 0) => ZERO,
                _ => p1,
            };
            rows.push((UNSIGNED, 0, p1, p2, fine.then_some(value)));
        }
        converted(book, &format!("P1 {p1:x}, 0 converted"), &rows);
    }
    // 1 x P2 is P2; with P1 -0.0 nothing is added.
    let rows = DOUBLES.map(|p2| (SIGNED, 1, MINUS_ZERO, p2, is_finite(p2).then_some(p2)));
    converted(book, "1 converted, P1 -0.0", &rows);
}

/// Numbers of every kind, as they are and converted.
fn doubles(book: &mut Book) {
    for data_type in [3, 16, 12] {
        let mut rows = Vec::new();
        for raw in DOUBLES {
            let value = is_finite(raw).then_some(raw);
            rows.push(Row { data_type, raw, conversion: None, value });
            rows.push(Row { data_type, raw, conversion: by(MINUS_ZERO, ONE), value });
            // Times 0 is 0 or -0, and 1 is added.
            let one = value.map(|_| ONE);
            rows.push(Row { data_type, raw, conversion: by(ONE, ZERO), value: one });
        }
        table(book, &format!("numbers of type {data_type}"), &rows);
    }
}

/// 32-bit floats, text and bytes have no physical value.
fn not_numbers(book: &mut Book) {
    let kept = [None, by(ZERO, ONE), Some(Conversion { size: 46, formula: 65_535, p1: 0, p2: 0 })];
    for data_type in [2, 15, 11, 7, 8] {
        let mut rows = Vec::new();
        for raw in SINGLES {
            for conversion in kept {
                rows.push(Row { data_type, raw, conversion, value: None });
            }
        }
        table(book, &format!("no numbers, type {data_type}"), &rows);
    }
}

/// From 62 bytes on the block holds both parameters.
fn conversion_sizes(book: &mut Book) {
    let sizes: Vec<usize> = (46..=70).chain([100, 1_000, 65_535]).collect();
    let mut rows = Vec::new();
    for &size in &sizes {
        for formula in [0, 65_535] {
            let conversion = Some(Conversion { size, formula, p1: ONE, p2: 2.0_f64.to_bits() });
            let value = match formula {
                0 if size < 62 => None,
                0 => Some(11.0_f64.to_bits()),
                _ => Some(5.0_f64.to_bits()),
            };
            rows.push(Row { data_type: UNSIGNED, raw: 5, conversion, value });
        }
    }
    table(book, "sizes of CC", &rows);
}

/// Formulas other than 0 and 65535; 12 is refused by the check.
fn formulas(book: &mut Book) {
    let mut rows = Vec::new();
    for formula in (1..300).chain([511, 512, 3072, 32_767, 32_768, 65_280, 65_534]) {
        if formula != 12 {
            let conversion = Some(Conversion { size: 62, formula, p1: ZERO, p2: ONE });
            rows.push(Row { data_type: UNSIGNED, raw: 5, conversion, value: None });
        }
    }
    table(book, "other formulas", &rows);
    let mut file = Signals::new(1);
    let cn = file.channel(Signal::at(0, 8, UNSIGNED));
    let cc = file.convert(cn, Conversion { size: 62, formula: 12, p1: ZERO, p2: ONE });
    file.records(&[5]);
    book.expect("formula 12", &file.sheet.bytes, 6, cc + 42);
    book.sample([0, 0, 0], Answer::refused(6, cc as u64 + 42));
    book.physical([0, 0, 0], Answer::refused(6, cc as u64 + 42));
}

/// The count of parameters is not looked at.
fn parameter_counts(book: &mut Book) {
    for count in [0, 1, 2, 3, 65_535] {
        let mut file = Signals::new(1);
        let cn = file.channel(Signal::at(0, 8, UNSIGNED));
        let two = 2.0_f64.to_bits();
        let cc = file.convert(cn, Conversion { size: 62, formula: 0, p1: ONE, p2: two });
        file.sheet.put16(cc + 44, count);
        file.records(&[5]);
        book.accept(format!("CC with {count} parameters"), &file.sheet.bytes);
        book.physical([0, 0, 0], told(Some(11.0_f64.to_bits())));
    }
}

/// Integers narrower than 64 bits, near 2^53 and near zero.
fn narrow(book: &mut Book) {
    for (data_type, bits) in [(0, 53), (0, 54), (9, 54), (1, 54), (1, 55), (10, 55), (1, 8)] {
        let signal = Signal { start: 3, bits, data_type, offset: 1 };
        let mut file = Signals::new(9);
        file.channel(signal);
        let mut records = Vec::new();
        for raw in INTEGERS {
            let mut record = [0xA5; 9];
            plant(&mut record, signal, raw);
            records.extend(record);
        }
        file.records(&records);
        book.accept(format!("type {data_type} of {bits} bits, numbers"), &file.sheet.bytes);
        for (record, raw) in INTEGERS.into_iter().enumerate() {
            // What is left of it in so many bits.
            let whole = i128::from(raw) % (1 << bits);
            let below_zero = matches!(data_type, 1 | 10) && whole >= 1 << (bits - 1);
            let number = if below_zero { whole - (1 << bits) } else { whole };
            let exact = number.unsigned_abs() <= u128::from(EXACT);
            let value = exact.then_some((number as f64).to_bits());
            book.physical([0, 0, record as u64], told(value));
        }
    }
}

/// 14 and 15 come before 16.
fn earlier_refusals(book: &mut Book) {
    let odd = Conversion { size: 46, formula: 1, p1: 0, p2: 0 };
    for (data_type, bits) in [(4, 32), (5, 64), (6, 64), (0, 0), (2, 31), (3, 32), (7, 12)] {
        let mut file = Signals::new(8);
        let cn = file.channel(Signal::at(0, bits, data_type));
        file.convert(cn, odd);
        file.records(&[0; 8]);
        book.accept(format!("15 before 16, type {data_type}, {bits} bits"), &file.sheet.bytes);
        book.physical([0, 0, 0], Answer::refused(15, cn as u64 + 190));
        book.physical([0, 0, 1], Answer::refused(14, 0));
        book.physical([0, 1, 0], Answer::refused(14, 0));
    }
}
