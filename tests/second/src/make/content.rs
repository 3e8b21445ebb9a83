//! What a file says, apart from any layout, and files that say it.

use super::rng::Rng;
use super::sheet::Sheet;

/// The bytes after a block's head; none where there is no block.
pub type Body = Option<Vec<u8>>;

#[derive(Clone)]
pub struct Content {
    /// All 64 bytes, the version at 28.
    pub identification: Vec<u8>,
    /// Header bytes 18 to 207. Below version 320 the last 44 say nothing.
    pub header: Vec<u8>,
    pub comment: Body,
    pub program: Body,
    pub groups: Vec<Group>,
}

#[derive(Clone)]
pub struct Group {
    pub record_size: u16,
    pub comment: Body,
    pub channels: Vec<Channel>,
    pub records: Vec<Vec<u8>>,
}

#[derive(Clone)]
pub struct Channel {
    /// Bytes 24 to 217.
    pub fields: Vec<u8>,
    pub added_offset: u16,
    /// Conversion, extension, comment, long name, display name.
    pub bodies: [Body; 5],
}

impl Channel {
    /// Writes a 16-bit field among the bytes 24 to 217.
    pub fn put16(&mut self, offset: usize, value: u16) {
        self.fields[offset - 24..offset - 22].copy_from_slice(&value.to_le_bytes());
    }

    pub fn word(&self, offset: usize) -> u16 {
        u16::from_le_bytes([self.fields[offset - 24], self.fields[offset - 23]])
    }
}

impl Content {
    pub fn version(&self) -> u16 {
        u16::from_le_bytes([self.identification[28], self.identification[29]])
    }

    pub fn set_version(&mut self, version: u16) {
        self.identification[28..30].copy_from_slice(&version.to_le_bytes());
    }

    /// A file of this content, with data groups of this mode or of any. In
    /// mode 0 each group has one of its own; else some groups share one.
    pub fn lay_down(&self, rng: &mut Rng, mode: Option<u16>) -> Vec<u8> {
        let mut sheet = self.start(rng);
        put_body(&mut sheet, 72, b"TX", &self.comment);
        put_body(&mut sheet, 76, b"PR", &self.program);
        let mut field = 68;
        let mut rest = &self.groups[..];
        while !rest.is_empty() {
            if rng.chance(10) {
                field = sheet.linked(field, b"DG", 28) + 4;
            }
            let mode = mode.unwrap_or_else(|| rng.below(3) as u16);
            let most = if mode == 0 { 1 } else { rest.len().min(256) };
            let (some, more) = rest.split_at(rng.between(1, most));
            field = put_data_group(&mut sheet, rng, field, mode, some) + 4;
            rest = more;
        }
        sheet.bytes
    }

    /// Identification and header; the header is short at times, where what
    /// is left out says nothing or is zeros.
    fn start(&self, rng: &mut Rng) -> Sheet {
        let idle = self.version() < 320 || self.header[146..].iter().all(|&byte| byte == 0);
        let size = if idle && rng.chance(50) { 164 } else { 208 };
        let mut sheet = Sheet::new(self.version(), size);
        sheet.put(0, &self.identification);
        sheet.put(64 + 18, &self.header[..size - 18]);
        sheet
    }
}

fn put_body(sheet: &mut Sheet, field: usize, kind: &[u8; 2], body: &Body) {
    if let Some(bytes) = body {
        let place = sheet.linked(field, kind, 4 + bytes.len());
        sheet.put(place + 4, bytes);
    }
}

/// Hands back the data group's place.
fn put_data_group(
    sheet: &mut Sheet,
    rng: &mut Rng,
    field: usize,
    mode: u16,
    groups: &[Group],
) -> usize {
    let dg = sheet.linked(field, b"DG", rng.pick(&[24, 28, 28, 31]));
    sheet.put16(dg + 22, mode);
    let mut ids: Vec<u8> = (0..=255).collect();
    rng.shuffle(&mut ids);
    let mut next = dg + 8;
    for (group, &id) in groups.iter().zip(&ids) {
        next = put_group(sheet, rng, next, u16::from(id), group) + 4;
    }
    let data = mixed(rng, mode, groups, &ids);
    if !data.is_empty() {
        let place = sheet.append(&data);
        sheet.put32(dg + 16, place as u32);
    }
    dg
}

fn put_group(sheet: &mut Sheet, rng: &mut Rng, field: usize, id: u16, group: &Group) -> usize {
    let size = rng.pick(&[26, 29, 30, 30, 33]);
    let cg = sheet.linked(field, b"CG", size);
    // A sample reduction link not held whole says nothing, nor does any below version 330.
    if size < 30 || sheet.version() < 330 {
        let rubbish = rng.bytes(size - 26);
        sheet.put(cg + 26, &rubbish);
    }
    sheet.put16(cg + 16, id);
    sheet.put16(cg + 20, group.record_size);
    sheet.put32(cg + 22, group.records.len() as u32);
    put_body(sheet, cg + 12, b"TX", &group.comment);
    let mut next = cg + 8;
    for channel in &group.channels {
        next = put_channel(sheet, rng, next, channel) + 4;
    }
    cg
}

/// The block is short at times, where what is left out is nil or 0.
fn put_channel(sheet: &mut Sheet, rng: &mut Rng, field: usize, channel: &Channel) -> usize {
    let least = match (channel.added_offset, &channel.bodies) {
        (0, [_, _, _, None, None]) => 218,
        (0, [_, _, _, _, None]) => 222,
        (0, _) => 226,
        _ => 228,
    };
    let cn = sheet.linked(field, b"CN", rng.pick(&[least, 228, 228, 240]));
    sheet.put(cn + 24, &channel.fields);
    if channel.added_offset != 0 {
        sheet.put16(cn + 226, channel.added_offset);
    }
    for ((offset, kind), body) in
        [(8, b"CC"), (12, b"CE"), (20, b"TX"), (218, b"TX"), (222, b"TX")]
            .into_iter()
            .zip(&channel.bodies)
    {
        put_body(sheet, cn + offset, kind, body);
    }
    cn
}

/// The records of some groups with their IDs; those of one group are in
/// order, and between them come those of others.
fn mixed(rng: &mut Rng, mode: u16, groups: &[Group], ids: &[u8]) -> Vec<u8> {
    let mut order = Vec::new();
    for (number, group) in groups.iter().enumerate() {
        order.resize(order.len() + group.records.len(), number);
    }
    rng.shuffle(&mut order);
    let mut lists: Vec<_> = groups.iter().map(|group| group.records.iter()).collect();
    let mut data = Vec::new();
    for number in order {
        let record = lists[number].next().expect("as many as there are");
        data.extend((mode > 0).then_some(ids[number]));
        data.extend_from_slice(record);
        data.extend((mode == 2).then_some(ids[number]));
    }
    data
}
