//! A growing image written block by block.

pub const KINDS: [([u8; 2], usize); 8] = [
    (*b"HD", 164),
    (*b"DG", 24),
    (*b"CG", 26),
    (*b"CN", 218),
    (*b"CC", 46),
    (*b"TX", 4),
    (*b"PR", 4),
    (*b"CE", 6),
];

/// The smallest size a block of this kind may have.
pub fn least(kind: &[u8; 2]) -> usize {
    KINDS.iter().find(|(name, _)| name == kind).map_or(4, |&(_, size)| size)
}

#[derive(Clone)]
pub struct Sheet {
    pub bytes: Vec<u8>,
}

impl Sheet {
    /// Identification block and a header of the given size, no links.
    pub fn new(version: u16, header: usize) -> Sheet {
        let mut sheet = Sheet { bytes: vec![0; 64] };
        sheet.put(0, b"MDF     3.00    second  ");
        sheet.put16(28, version);
        sheet.block(b"HD", header);
        sheet
    }

    pub fn version(&self) -> u16 {
        u16::from_le_bytes([self.bytes[28], self.bytes[29]])
    }

    pub fn len(&self) -> usize {
        self.bytes.len()
    }

    pub fn is_empty(&self) -> bool {
        self.bytes.is_empty()
    }

    /// Appends a zeroed block and hands back its place.
    pub fn block(&mut self, kind: &[u8; 2], size: usize) -> usize {
        let place = self.bytes.len();
        self.bytes.resize(place + size, 0);
        self.put(place, kind);
        self.put16(place + 2, size as u16);
        place
    }

    /// Appends a zeroed block and lets a link field lead to it.
    pub fn linked(&mut self, field: usize, kind: &[u8; 2], size: usize) -> usize {
        let place = self.block(kind, size);
        self.put32(field, place as u32);
        place
    }

    /// Appends plain bytes and hands back their place.
    pub fn append(&mut self, bytes: &[u8]) -> usize {
        let place = self.bytes.len();
        self.bytes.extend_from_slice(bytes);
        place
    }

    pub fn put(&mut self, place: usize, bytes: &[u8]) {
        self.bytes[place..place + bytes.len()].copy_from_slice(bytes);
    }

    pub fn put16(&mut self, place: usize, value: u16) {
        self.put(place, &value.to_le_bytes());
    }

    pub fn put32(&mut self, place: usize, value: u32) {
        self.put(place, &value.to_le_bytes());
    }
}
