//! Memory for a copy: filled with one byte, and with a margin on both sides.

const MARGIN: usize = 64;

#[derive(Default)]
pub struct Output {
    memory: Vec<u8>,
    room: usize,
    fill: u8,
}

impl Output {
    /// Makes room for so many bytes and fills it, margins too.
    pub fn prepare(&mut self, room: usize, fill: u8) {
        self.memory.clear();
        self.memory.resize(MARGIN + room + MARGIN, fill);
        self.room = room;
        self.fill = fill;
    }

    /// Takes so much room of the memory prepared; the rest becomes margin.
    pub fn limit(&mut self, room: usize) {
        assert!(room + 2 * MARGIN <= self.memory.len());
        self.room = room;
    }

    pub fn pointer(&mut self) -> *mut u8 {
        self.memory[MARGIN..].as_mut_ptr()
    }

    pub fn room(&self) -> usize {
        self.room
    }

    /// The first so many bytes of the room.
    pub fn start(&self, length: usize) -> &[u8] {
        &self.memory[MARGIN..MARGIN + length]
    }

    /// Whether all is as it was, but for the first so many bytes.
    pub fn untouched_beyond(&self, length: usize) -> bool {
        let (before, rest) = self.memory.split_at(MARGIN);
        all_are(before, self.fill) && all_are(&rest[length..], self.fill)
    }
}

fn all_are(bytes: &[u8], fill: u8) -> bool {
    match bytes.split_first() {
        // Every byte equals the next one.
        Some((first, rest)) => *first == fill && bytes[..rest.len()] == *rest,
        None => true,
    }
}
