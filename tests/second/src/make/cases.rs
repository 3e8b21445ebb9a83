//! Named cases. Each expected answer follows from how the image was built.

mod copies;
mod fields;
mod lengths;
mod limits;
mod opening;
mod order;
mod physical;
mod records;
mod samples;
mod start;

use super::sheet::Sheet;
use crate::sample::{Answer, Asked, Call};

pub struct Case {
    pub name: String,
    pub image: Vec<u8>,
    pub number: u32,
    pub place: u64,
    /// The length of the copy, where it is known beforehand.
    pub length: Option<u64>,
    /// The copy itself, where it is known beforehand.
    pub copy: Option<Vec<u8>>,
    /// Answers to a copy that are known beforehand.
    pub told: Vec<Told>,
    /// Samples and physical values that are known beforehand.
    pub known: Vec<Known>,
}

/// What a copy into an output of so many bytes has to answer.
#[derive(Clone, Copy)]
pub struct Told {
    pub room: usize,
    pub number: u32,
    pub place: u64,
    pub value: u64,
}

/// What a call for a sample or a physical value has to answer.
#[derive(Clone, Copy)]
pub struct Known {
    pub call: Call,
    pub asked: Asked,
    pub answer: Answer,
}

/// Collects cases.
#[derive(Default)]
pub struct Book {
    pub cases: Vec<Case>,
}

impl Book {
    fn accept(&mut self, name: impl Into<String>, image: &[u8]) {
        self.expect(name, image, 0, 0);
    }

    fn expect(&mut self, name: impl Into<String>, image: &[u8], number: u32, place: usize) {
        let (name, image, place) = (name.into(), image.to_vec(), place as u64);
        let (length, copy, told, known) = (None, None, Vec::new(), Vec::new());
        self.cases.push(Case { name, image, number, place, length, copy, told, known });
    }

    /// An accepted image whose copy has this length.
    fn of_length(&mut self, name: impl Into<String>, image: &[u8], length: u64) {
        self.accept(name, image);
        self.last().length = Some(length);
    }

    /// An accepted image whose copy has these bytes.
    fn copied(&mut self, name: impl Into<String>, image: &[u8], copy: &[u8]) {
        self.of_length(name, image, copy.len() as u64);
        self.last().copy = Some(copy.to_vec());
    }

    /// What copying the last image into so much room has to answer.
    fn told(&mut self, room: usize, number: u32, place: u64, value: u64) {
        self.last().told.push(Told { room, number, place, value });
    }

    /// What the last image has as a sample: group, channel, record.
    fn sample(&mut self, asked: [u64; 3], answer: Answer) {
        self.known(Call::Sample, asked, answer);
    }

    /// What the last image has as a physical value.
    fn physical(&mut self, asked: [u64; 3], answer: Answer) {
        self.known(Call::Physical, asked, answer);
    }

    fn known(&mut self, call: Call, [group, channel, record]: [u64; 3], answer: Answer) {
        let asked = Asked { group, channel, record };
        self.last().known.push(Known { call, asked, answer });
    }

    fn last(&mut self) -> &mut Case {
        self.cases.last_mut().expect("a case has been added")
    }
}

/// All named cases.
pub fn all() -> Vec<Case> {
    let mut book = Book::default();
    start::cases(&mut book);
    opening::cases(&mut book);
    fields::cases(&mut book);
    limits::cases(&mut book);
    records::cases(&mut book);
    order::cases(&mut book);
    copies::cases(&mut book);
    lengths::cases(&mut book);
    samples::cases(&mut book);
    physical::cases(&mut book);
    // The sample file has version 200, and no other fault.
    book.expect("sample file", include_bytes!("../../../data/sample000.mdf"), 4, 28);
    book.told(0, 4, 28, 0);
    book.told(10_000, 4, 28, 0);
    let sample = include_bytes!("../../../data/sample000_v300.mdf");
    book.of_length("sample file as version 300", sample, 4_765);
    book.told(4_765, 0, 0, 4_765);
    book.told(4_764, 13, 4_765, 0);
    book.cases
}

/// Places of one channel and its five optional blocks.
#[derive(Clone, Copy)]
pub struct Channel {
    pub cn: usize,
    pub cc: usize,
    pub ce: usize,
    pub tx: usize,
    pub long: usize,
    pub display: usize,
}

/// A valid file with every kind of block. Data group 0 has mode 1, with
/// groups 0 (channels 0 and 1) and 1 (channel 2); data group 1 has mode 0
/// with group 2 (channel 3).
#[derive(Clone)]
pub struct Full {
    pub sheet: Sheet,
    pub dg: [usize; 2],
    pub cg: [usize; 3],
    pub channels: [Channel; 4],
    pub data: [usize; 2],
}

pub const GROUP_IDS: [u16; 3] = [1, 2, 0];
pub const GROUP_SIZES: [u16; 3] = [4, 2, 3];
pub const GROUP_COUNTS: [u32; 3] = [2, 1, 2];

fn add_channel(sheet: &mut Sheet, field: usize, bits: u16) -> Channel {
    let cn = sheet.linked(field, b"CN", 228);
    sheet.put16(cn + 188, bits);
    Channel {
        cn,
        cc: sheet.linked(cn + 8, b"CC", 62),
        ce: sheet.linked(cn + 12, b"CE", 8),
        tx: sheet.linked(cn + 20, b"TX", 6),
        long: sheet.linked(cn + 218, b"TX", 7),
        display: sheet.linked(cn + 222, b"TX", 4),
    }
}

fn add_group(sheet: &mut Sheet, field: usize, number: usize, with_records: bool) -> usize {
    let cg = sheet.linked(field, b"CG", 30);
    sheet.linked(cg + 12, b"TX", 9);
    sheet.put16(cg + 16, GROUP_IDS[number]);
    sheet.put16(cg + 20, GROUP_SIZES[number]);
    if with_records {
        sheet.put32(cg + 22, GROUP_COUNTS[number]);
    }
    cg
}

/// Builds the full file; without records all record counts are 0.
pub fn full(with_records: bool) -> Full {
    let mut sheet = Sheet::new(330, 208);
    sheet.linked(72, b"TX", 10);
    sheet.linked(76, b"PR", 11);
    let dg0 = sheet.linked(68, b"DG", 28);
    sheet.put16(dg0 + 22, 1);
    let cg0 = add_group(&mut sheet, dg0 + 8, 0, with_records);
    let ch0 = add_channel(&mut sheet, cg0 + 8, 8);
    let ch1 = add_channel(&mut sheet, ch0.cn + 4, 32);
    let cg1 = add_group(&mut sheet, cg0 + 4, 1, with_records);
    let ch2 = add_channel(&mut sheet, cg1 + 8, 16);
    let dg1 = sheet.linked(dg0 + 4, b"DG", 28);
    let cg2 = add_group(&mut sheet, dg1 + 8, 2, with_records);
    let ch3 = add_channel(&mut sheet, cg2 + 8, 24);
    let data0 = sheet.append(&[1, 0, 0, 0, 0, 2, 0, 0, 1, 0, 0, 0, 0]);
    let data1 = sheet.append(&[0; 6]);
    sheet.put32(dg0 + 16, data0 as u32);
    sheet.put32(dg1 + 16, data1 as u32);
    Full {
        sheet,
        dg: [dg0, dg1],
        cg: [cg0, cg1, cg2],
        channels: [ch0, ch1, ch2, ch3],
        data: [data0, data1],
    }
}

/// One data group with some channel groups without channels; every group
/// is its ID, record size and record count. The data ends the image.
pub struct Logged {
    pub sheet: Sheet,
    pub dg: usize,
    pub cg: Vec<usize>,
    pub data: usize,
}

pub fn logged(mode: u16, groups: &[(u16, u16, u32)], data: &[u8]) -> Logged {
    let mut sheet = Sheet::new(300, 164);
    let dg = sheet.linked(68, b"DG", 28);
    sheet.put16(dg + 22, mode);
    let mut cg = Vec::new();
    let mut field = dg + 8;
    for &(id, size, count) in groups {
        let place = sheet.linked(field, b"CG", 30);
        sheet.put16(place + 16, id);
        sheet.put16(place + 20, size);
        sheet.put32(place + 22, count);
        cg.push(place);
        field = place + 4;
    }
    let data = sheet.append(data);
    sheet.put32(dg + 16, data as u32);
    Logged { sheet, dg, cg, data }
}
