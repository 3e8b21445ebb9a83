//! Files made for their samples: channels of chosen form, with chosen values
//! at their places, and conversions.

use super::rng::Rng;
use super::sheet::Sheet;
use super::Drawn;

/// Where a channel's values lie in a record, and its data type.
#[derive(Clone, Copy, Debug)]
pub struct Signal {
    pub start: u16,
    pub bits: u16,
    pub data_type: u16,
    pub offset: u16,
}

impl Signal {
    /// A whole number of bytes, the added offset being 0.
    pub fn at(byte: u16, bits: u16, data_type: u16) -> Signal {
        Signal { start: 8 * byte, bits, data_type, offset: 0 }
    }
}

/// A CC block: its size, formula, and P1 and P2 as bit patterns.
#[derive(Clone, Copy, Debug)]
pub struct Conversion {
    pub size: usize,
    pub formula: u16,
    pub p1: u64,
    pub p2: u64,
}

/// A file in the making, with the channel group and link field that the
/// next channel goes to.
pub struct Signals {
    pub sheet: Sheet,
    pub dg: usize,
    pub cg: usize,
    pub cn: Vec<usize>,
    next: usize,
    record_size: usize,
}

impl Signals {
    /// One channel group in mode 0.
    pub fn new(record_size: usize) -> Signals {
        let mut sheet = Sheet::new(300, 164);
        let dg = sheet.linked(68, b"DG", 28);
        let cg = sheet.linked(dg + 8, b"CG", 30);
        sheet.put16(cg + 20, record_size as u16);
        Signals { sheet, dg, cg, cn: Vec::new(), next: cg + 8, record_size }
    }

    /// A further data group with a channel group in mode 0.
    pub fn data_group(&mut self, record_size: usize) {
        self.dg = self.sheet.linked(self.dg + 4, b"DG", 28);
        self.open_group(self.dg + 8, record_size);
    }

    /// A further channel group of the data group, with a record ID.
    pub fn group(&mut self, record_size: usize, id: u16) {
        self.open_group(self.cg + 4, record_size);
        self.sheet.put16(self.cg + 16, id);
    }

    fn open_group(&mut self, field: usize, record_size: usize) {
        self.cg = self.sheet.linked(field, b"CG", 30);
        self.sheet.put16(self.cg + 20, record_size as u16);
        self.next = self.cg + 8;
        self.cn.clear();
        self.record_size = record_size;
    }

    /// Adds a channel and hands back its place.
    pub fn channel(&mut self, signal: Signal) -> usize {
        self.channel_of(228, signal)
    }

    /// Adds a channel whose block has this size.
    pub fn channel_of(&mut self, size: usize, signal: Signal) -> usize {
        let cn = self.sheet.linked(self.next, b"CN", size);
        self.sheet.put16(cn + 186, signal.start);
        self.sheet.put16(cn + 188, signal.bits);
        self.sheet.put16(cn + 190, signal.data_type);
        if size >= 228 {
            self.sheet.put16(cn + 226, signal.offset);
        }
        self.next = cn + 4;
        self.cn.push(cn);
        cn
    }

    /// Gives a channel a conversion. Both parameters stand in the image even
    /// where the block's size leaves them out.
    pub fn convert(&mut self, cn: usize, conversion: Conversion) -> usize {
        let cc = self.sheet.linked(cn + 8, b"CC", conversion.size.max(62));
        self.sheet.put16(cc + 2, conversion.size as u16);
        self.sheet.put16(cc + 42, conversion.formula);
        self.sheet.put16(cc + 44, 2);
        self.sheet.put(cc + 46, &conversion.p1.to_le_bytes());
        self.sheet.put(cc + 54, &conversion.p2.to_le_bytes());
        cc
    }

    /// The group's records in mode 0; hands back their place.
    pub fn records(&mut self, bytes: &[u8]) -> usize {
        let count = bytes.len() / self.record_size;
        self.sheet.put32(self.cg + 22, count as u32);
        self.data(bytes)
    }

    /// The data group's bytes.
    pub fn data(&mut self, bytes: &[u8]) -> usize {
        let data = self.sheet.append(bytes);
        self.sheet.put32(self.dg + 16, data as u32);
        data
    }
}

/// Writes a value bit by bit where a channel has it in a record; at most
/// the low 64 bits.
pub fn plant(record: &mut [u8], signal: Signal, value: u64) {
    let (start, bits) = (usize::from(signal.start), usize::from(signal.bits));
    let first = start / 8 + usize::from(signal.offset);
    let count = (start % 8 + bits + 7) / 8;
    for n in 0..bits.min(64) {
        let bit = start % 8 + n;
        let byte = match signal.data_type {
            9..=12 => count - 1 - bit / 8,
            _ => bit / 8,
        };
        let cell = &mut record[first + byte];
        *cell &= !(1 << (bit % 8));
        *cell |= ((value >> n & 1) as u8) << (bit % 8);
    }
}

/// 64-bit floats of every kind: zeros, subnormals, ends of ranges,
/// infinities, and no numbers of several patterns.
pub const DOUBLES: [u64; 26] = [
    0x0000_0000_0000_0000,
    0x8000_0000_0000_0000,
    0x0000_0000_0000_0001,
    0x8000_0000_0000_0003,
    0x000F_FFFF_FFFF_FFFF,
    0x0010_0000_0000_0000,
    0x3C90_0000_0000_0000,
    0x3FB9_9999_9999_999A,
    0x3FEF_FFFF_FFFF_FFFF,
    0x3FF0_0000_0000_0000,
    0x3FF0_0000_0000_0001,
    0xBFF0_0000_0000_0000,
    0xBFD3_3333_3333_3333,
    0x4044_0000_0000_0000,
    0x4340_0000_0000_0000,
    0xC340_0000_0000_0001,
    0x7C90_0000_0000_0000,
    0x7FEF_FFFF_FFFF_FFFF,
    0xFFEF_FFFF_FFFF_FFFF,
    0x7FF0_0000_0000_0000,
    0xFFF0_0000_0000_0000,
    0x7FF0_0000_0000_0001,
    0x7FF8_0000_0000_0000,
    0xFFF8_1234_5678_9ABC,
    0xFFF7_FFFF_FFFF_FFFF,
    0xFFFF_FFFF_FFFF_FFFF,
];

/// 32-bit floats of every kind.
pub const SINGLES: [u64; 14] = [
    0x0000_0000,
    0x8000_0000,
    0x0000_0001,
    0x807F_FFFF,
    0x0080_0000,
    0x3F80_0000,
    0xC2F6_E979,
    0x7F7F_FFFF,
    0x7F80_0000,
    0xFF80_0000,
    0x7F80_0001,
    0x7FC0_0000,
    0xFFC1_2345,
    0xFFFF_FFFF,
];

const EXACT: u64 = 1 << 53;

/// Integers near zero, near both ends of what converts, and near the ends
/// of 64 bits.
pub const INTEGERS: [u64; 17] = [
    0,
    1,
    5,
    u64::MAX,
    u64::MAX - 7,
    0x00AA_BBCC_DDEE_FF01,
    EXACT - 1,
    EXACT,
    EXACT + 1,
    EXACT + 2,
    EXACT.wrapping_neg() + 1,
    EXACT.wrapping_neg(),
    EXACT.wrapping_neg() - 1,
    1 << 62,
    i64::MAX as u64,
    1 << 63,
    (1 << 63) + 1,
];

/// The image number `index` of the run with this seed: up to four groups,
/// full of channels that overlap; some with bytes changed afterwards.
pub fn draw(seed: u64, index: u64) -> Drawn {
    let mut rng = Rng::new(seed ^ index.wrapping_mul(0xA24B_AED4_963E_E407));
    let mode = rng.pick(&[0, 0, 1, 2]);
    let mut file = Signals::new(random_size(&mut rng));
    file.sheet.put16(file.dg + 22, mode);
    if mode == 0 {
        draw_runs(&mut rng, &mut file);
    } else {
        draw_mixed(&mut rng, &mut file, mode);
    }
    let mut image = file.sheet.bytes;
    let valid = rng.chance(75);
    if !valid {
        for _ in 0..rng.between(1, 6) {
            let place = rng.between(64, image.len() - 1);
            image[place] = rng.pick(&[0, 1, 2, 7, 8, 9, 64, 0x7F, 0x80, 0xF0, 0xFF]);
        }
    }
    Drawn { image, valid, kin: None }
}

fn random_size(rng: &mut Rng) -> usize {
    let any = rng.between(1, 40);
    rng.pick(&[1, 2, 3, 4, 7, 8, 8, 9, 9, 10, 16, 17, 24, any, any])
}

/// Data groups in mode 0.
fn draw_runs(rng: &mut Rng, file: &mut Signals) {
    let count = rng.between(1, 3);
    for number in 0..count {
        let signals = draw_channels(rng, file);
        let records: Vec<u8> = (0..rng.pick(&[1, 1, 2, 3, 5]))
            .flat_map(|_| draw_record(rng, file.record_size, &signals))
            .collect();
        file.records(&records);
        if number + 1 < count {
            file.data_group(random_size(rng));
        }
    }
}

/// A data group whose records carry IDs.
fn draw_mixed(rng: &mut Rng, file: &mut Signals, mode: u16) {
    let mut records = Vec::new();
    let count = rng.between(1, 4) as u16;
    for number in 0..count {
        let signals = draw_channels(rng, file);
        let wanted = rng.pick(&[0, 1, 2, 3, 5]);
        file.sheet.put32(file.cg + 22, wanted);
        for _ in 0..wanted {
            records.push((number as u8, draw_record(rng, file.record_size, &signals)));
        }
        if number + 1 < count {
            file.group(random_size(rng), number + 1);
        }
    }
    rng.shuffle(&mut records);
    let mut data = Vec::new();
    for (id, record) in records {
        data.push(id);
        data.extend(record);
        data.extend((mode == 2).then_some(id));
    }
    file.data(&data);
}

fn draw_channels(rng: &mut Rng, file: &mut Signals) -> Vec<Signal> {
    let mut signals = Vec::new();
    for _ in 0..rng.between(1, 8) {
        let data_type = rng.below(17) as u16;
        let signal = draw_signal(rng, file.record_size, data_type);
        let short = signal.offset == 0 && rng.chance(20);
        let cn = file.channel_of(if short { rng.between(218, 227) } else { 228 }, signal);
        if rng.chance(70) {
            let conversion = draw_conversion(rng);
            file.convert(cn, conversion);
        }
        signals.push(signal);
    }
    signals
}

/// A signal inside records of this size; more often one that can be read.
fn draw_signal(rng: &mut Rng, record_size: usize, data_type: u16) -> Signal {
    let room = 8 * record_size;
    let usual: &[usize] = match data_type {
        2 | 11 | 15 => &[32, 32, 32, 31, 33],
        3 | 12 | 16 => &[64, 64, 64, 63, 65],
        7 | 8 => &[8, 16, 24, 64, 72, 12],
        _ => &[0, 1, 7, 8, 9, 16, 31, 32, 33, 53, 54, 55, 56, 57, 63, 64, 65],
    };
    let usual = rng.pick(usual).min(room);
    let bits = if rng.chance(70) { usual } else { rng.between(1, room) };
    let spare = room - bits;
    let offset = if rng.chance(40) { rng.below(spare / 8 + 1) } else { 0 };
    let mut start = rng.below(spare - 8 * offset + 1);
    if !matches!(data_type, 0 | 1 | 9 | 10 | 13 | 14) && rng.chance(85) {
        start -= start % 8;
    }
    Signal { start: start as u16, bits: bits as u16, data_type, offset: offset as u16 }
}

fn draw_conversion(rng: &mut Rng) -> Conversion {
    let any = rng.below(65_536) as u16;
    Conversion {
        size: rng.pick(&[46, 53, 54, 61, 62, 62, 62, 62, 62, 62, 63, 80]),
        formula: match rng.pick(&[0, 0, 0, 0, 0, 0, 65_535, 65_535, 1, any]) {
            // Formula 12 is refused as a whole.
            12 => 0,
            formula => formula,
        },
        p1: draw_double(rng),
        p2: draw_double(rng),
    }
}

/// Some 64-bit float, mostly one of middling size.
fn draw_double(rng: &mut Rng) -> u64 {
    let pattern = rng.raw();
    match rng.below(10) {
        0..=3 => rng.pick(&DOUBLES),
        4 => pattern,
        5 => (rng.below(2_001) as f64 - 1_000.0).to_bits(),
        // An exponent from -32 to 31.
        _ => pattern & 0x800F_FFFF_FFFF_FFFF | (rng.between(991, 1_054) as u64) << 52,
    }
}

/// A record with something of interest for some of its channels.
fn draw_record(rng: &mut Rng, record_size: usize, signals: &[Signal]) -> Vec<u8> {
    let mut record = rng.bytes(record_size);
    for &signal in signals {
        if rng.chance(60) {
            let value = match signal.data_type {
                2 | 11 | 15 => rng.pick(&SINGLES),
                3 | 12 | 16 => draw_double(rng),
                _ => rng.pick(&INTEGERS),
            };
            plant(&mut record, signal, value);
        }
    }
    record
}
