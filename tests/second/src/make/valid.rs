//! Random files that have to be accepted.
//!
//! First a plan is drawn: blocks that name each other by number, some of
//! them named more than once. Then the blocks are laid down in any order,
//! with gaps, and the links are filled in.

use super::rng::Rng;

/// What a field of a finished image is, for those who want to damage it.
#[derive(Clone, Copy, Debug, PartialEq, Eq)]
pub enum What {
    Next,
    Link,
    Barred,
    Data,
    BlockSize,
    Mode,
    RecordId,
    RecordSize,
    RecordCount,
    ChannelType,
    Start,
    Bits,
    DataType,
    Offset,
    Formula,
    Idle,
}

/// Kind of block, offset of the field, width of the field, meaning.
const FIELDS: &[(&[u8; 2], usize, usize, What)] = &[
    (b"HD", 2, 2, What::BlockSize),
    (b"HD", 4, 4, What::Link),
    (b"HD", 8, 4, What::Link),
    (b"HD", 12, 4, What::Link),
    (b"HD", 16, 2, What::Idle),
    (b"DG", 2, 2, What::BlockSize),
    (b"DG", 4, 4, What::Next),
    (b"DG", 8, 4, What::Link),
    (b"DG", 12, 4, What::Barred),
    (b"DG", 16, 4, What::Data),
    (b"DG", 20, 2, What::Idle),
    (b"DG", 22, 2, What::Mode),
    (b"CG", 2, 2, What::BlockSize),
    (b"CG", 4, 4, What::Next),
    (b"CG", 8, 4, What::Link),
    (b"CG", 12, 4, What::Link),
    (b"CG", 16, 2, What::RecordId),
    (b"CG", 18, 2, What::Idle),
    (b"CG", 20, 2, What::RecordSize),
    (b"CG", 22, 4, What::RecordCount),
    (b"CG", 26, 4, What::Barred),
    (b"CN", 2, 2, What::BlockSize),
    (b"CN", 4, 4, What::Next),
    (b"CN", 8, 4, What::Link),
    (b"CN", 12, 4, What::Link),
    (b"CN", 16, 4, What::Barred),
    (b"CN", 20, 4, What::Link),
    (b"CN", 24, 2, What::ChannelType),
    (b"CN", 186, 2, What::Start),
    (b"CN", 188, 2, What::Bits),
    (b"CN", 190, 2, What::DataType),
    (b"CN", 218, 4, What::Link),
    (b"CN", 222, 4, What::Link),
    (b"CN", 226, 2, What::Offset),
    (b"CC", 2, 2, What::BlockSize),
    (b"CC", 42, 2, What::Formula),
    (b"TX", 2, 2, What::BlockSize),
    (b"PR", 2, 2, What::BlockSize),
    (b"CE", 2, 2, What::BlockSize),
];

#[derive(Clone, Copy, Debug)]
pub struct Site {
    pub place: usize,
    pub width: usize,
    pub what: What,
    /// The place of the block that holds the field.
    pub block: usize,
}

/// A finished image and what stands where in it.
pub struct Made {
    pub bytes: Vec<u8>,
    pub sites: Vec<Site>,
    /// Kind and place of every block.
    pub blocks: Vec<([u8; 2], usize)>,
    /// Place and length of every piece of record data.
    pub data: Vec<(usize, usize)>,
}

const ID: &[u8; 2] = b"ID";
const DATA: &[u8; 2] = b"--";

#[derive(Clone)]
struct Node {
    kind: [u8; 2],
    bytes: Vec<u8>,
    /// Offset of a link field and the block it leads to.
    links: Vec<(usize, usize)>,
    /// Set for a block that lies inside another one.
    inside: Option<(usize, usize)>,
}

/// A channel list that further groups may share.
struct ChannelList {
    first: usize,
    /// Bits that a record needs to hold all its channels.
    needs: usize,
    length: usize,
}

#[derive(Clone, Copy, PartialEq, Eq)]
struct GroupShape {
    id: u16,
    size: u16,
    count: u32,
}

/// A channel group list that further data groups may share.
struct GroupList {
    first: usize,
    shapes: Vec<GroupShape>,
}

/// Record data that further data groups may share.
struct SharedData {
    node: usize,
    mode: u16,
    shapes: Vec<GroupShape>,
}

/// The blocks of a file, before they have places.
#[derive(Default)]
pub struct Plan {
    version: usize,
    nodes: Vec<Node>,
    /// Blocks that still have room for a block inside: number, offset, room.
    hosts: Vec<(usize, usize, usize)>,
    channel_lists: Vec<ChannelList>,
    group_lists: Vec<GroupList>,
    data: Vec<SharedData>,
    /// Data links that may lead anywhere: field's block and bytes needed.
    anywhere: Vec<(usize, usize)>,
}

fn set16(bytes: &mut [u8], at: usize, value: usize) {
    bytes[at..at + 2].copy_from_slice(&(value as u16).to_le_bytes());
}

fn set32(bytes: &mut [u8], at: usize, value: u32) {
    bytes[at..at + 4].copy_from_slice(&value.to_le_bytes());
}

impl Plan {
    /// Whether every layout of the blocks reads the same: no records lie
    /// over whatever is there.
    pub fn has_one_reading(&self) -> bool {
        self.anywhere.is_empty()
    }

    fn add(&mut self, kind: &[u8; 2], bytes: Vec<u8>) -> usize {
        self.nodes.push(Node { kind: *kind, bytes, links: Vec::new(), inside: None });
        self.nodes.len() - 1
    }

    /// Adds a block of random content with a right head.
    fn block(&mut self, rng: &mut Rng, kind: &[u8; 2], size: usize) -> usize {
        let mut bytes = rng.bytes(size);
        bytes[..2].copy_from_slice(kind);
        set16(&mut bytes, 2, size);
        self.add(kind, bytes)
    }

    /// Writes a link field: nil, or to a block.
    fn link(&mut self, from: usize, offset: usize, to: Option<usize>) {
        let node = &mut self.nodes[from];
        if offset + 4 > node.bytes.len() {
            return;
        }
        set32(&mut node.bytes, offset, 0);
        if let Some(to) = to {
            node.links.push((offset, to));
        }
    }

    /// An optional body: nil, shared, or a new block.
    fn body(&mut self, rng: &mut Rng, kind: &[u8; 2], percent: usize) -> Option<usize> {
        if !rng.chance(percent) {
            return None;
        }
        if rng.chance(25) {
            let known: Vec<usize> =
                (0..self.nodes.len()).filter(|&n| self.nodes[n].kind == *kind).collect();
            if !known.is_empty() {
                return Some(rng.pick(&known));
            }
        }
        Some(match kind {
            b"CC" => self.conversion(rng),
            b"CE" => {
                let size = 6 + if rng.chance(40) { 0 } else { rng.below(24) };
                self.block(rng, kind, size)
            }
            _ => self.text(rng, kind),
        })
    }

    /// A text or program block, at times inside another block.
    fn text(&mut self, rng: &mut Rng, kind: &[u8; 2]) -> usize {
        let mut size = 4 + if rng.chance(30) { 0 } else { rng.below(40) };
        if rng.chance(2) {
            size += rng.below(1500);
        }
        let node = self.block(rng, kind, size);
        if rng.chance(10) && !self.hosts.is_empty() {
            let chosen = rng.below(self.hosts.len());
            let (host, offset, room) = self.hosts[chosen];
            if size <= room {
                self.hosts.swap_remove(chosen);
                let shift = rng.below(room - size + 1);
                self.nodes[node].inside = Some((host, offset + shift));
            }
        }
        node
    }

    fn conversion(&mut self, rng: &mut Rng) -> usize {
        let size = 46 + if rng.chance(30) { 0 } else { rng.below(30) };
        let node = self.block(rng, b"CC", size);
        let formulas = [0, 0, 1, 2, 6, 7, 8, 9, 10, 11, 13, 132, 133, 268, 3072, 65535];
        let formula = rng.pick(&formulas);
        set16(&mut self.nodes[node].bytes, 42, formula);
        node
    }

    /// One channel in front of `next`; hands back its bits needed as well.
    fn channel(&mut self, rng: &mut Rng, record: usize, next: Option<usize>) -> (usize, usize) {
        let sizes = [218, 219, 221, 222, 223, 225, 226, 227, 228, 228, 228, 228, 229, 250];
        let size = rng.pick(&sizes);
        let node = self.block(rng, b"CN", size);
        self.hosts.push((node, 58, 128));
        let (start, bits, offset) = position(rng, record, size >= 228);
        let types = rng.below(17);
        let bytes = &mut self.nodes[node].bytes;
        set16(bytes, 24, rng.below(2));
        set16(bytes, 186, start);
        set16(bytes, 188, bits);
        set16(bytes, 190, types);
        if size >= 228 {
            set16(bytes, 226, offset);
        }
        self.link(node, 4, next);
        self.link(node, 16, None);
        for (offset, kind) in [(8, b"CC"), (12, b"CE"), (20, b"TX"), (218, b"TX"), (222, b"TX")] {
            let body = self.body(rng, kind, 35);
            self.link(node, offset, body);
        }
        let needs = if bits == 0 { 0 } else { start + 8 * offset + bits };
        (node, needs)
    }

    /// A channel list for records of this size, perhaps a shared one.
    fn channels(&mut self, rng: &mut Rng, record: usize) -> Option<usize> {
        let fitting: Vec<usize> = (0..self.channel_lists.len())
            .filter(|&n| self.channel_lists[n].needs <= 8 * record)
            .filter(|&n| self.channel_lists[n].length <= 6)
            .collect();
        let (mut first, mut needs, mut length) = (None, 0, 0);
        if rng.chance(25) && !fitting.is_empty() {
            let list = &self.channel_lists[rng.pick(&fitting)];
            (first, needs, length) = (Some(list.first), list.needs, list.length);
        }
        let more = rng.pick(&[0, 0, 1, 1, 1, 1, 2, 2, 3]);
        for _ in 0..more {
            let (node, bits) = self.channel(rng, record, first);
            (first, needs, length) = (Some(node), needs.max(bits), length + 1);
            self.channel_lists.push(ChannelList { first: node, needs, length });
        }
        first
    }

    /// A channel group in front of `next`.
    fn group(&mut self, rng: &mut Rng, shape: GroupShape, next: Option<usize>) -> usize {
        let size = rng.pick(&[26, 26, 27, 28, 29, 30, 30, 30, 30, 31, 40]);
        let node = self.block(rng, b"CG", size);
        let bytes = &mut self.nodes[node].bytes;
        set16(bytes, 16, usize::from(shape.id));
        set16(bytes, 20, usize::from(shape.size));
        set32(bytes, 22, shape.count);
        // Below version 330 a sample reduction link says nothing, and is mostly rubbish.
        if self.version >= 330 || rng.chance(20) {
            self.link(node, 26, None);
        }
        self.link(node, 4, next);
        let comment = self.body(rng, b"TX", 30);
        self.link(node, 12, comment);
        let channels = self.channels(rng, usize::from(shape.size));
        self.link(node, 8, channels);
        node
    }

    /// The channel groups of a data group, perhaps with a shared tail.
    fn groups(&mut self, rng: &mut Rng, mode: u16) -> (Option<usize>, Vec<GroupShape>) {
        let (mut first, mut shapes) = (None, Vec::new());
        if rng.chance(25) && !self.group_lists.is_empty() {
            let list = &self.group_lists[rng.below(self.group_lists.len())];
            let fits = if mode == 0 {
                list.shapes.len() == 1
            } else {
                list.shapes.iter().all(|s| s.id < 256)
            };
            if fits {
                (first, shapes) = (Some(list.first), list.shapes.clone());
            }
        }
        let wished = if mode == 0 {
            usize::from(shapes.is_empty() && rng.chance(85))
        } else {
            rng.pick(&[0, 1, 1, 2, 2, 3, 4])
        };
        for _ in 0..wished {
            let shape = new_shape(rng, mode, &shapes);
            first = Some(self.group(rng, shape, first));
            shapes.insert(0, shape);
            self.group_lists.push(GroupList { first: first.unwrap(), shapes: shapes.clone() });
        }
        (first, shapes)
    }

    /// A data group in front of `next`.
    fn data_group(&mut self, rng: &mut Rng, next: Option<usize>) -> usize {
        let size = rng.pick(&[24, 24, 25, 27, 28, 28, 28, 28, 29, 40]);
        let mode = rng.pick(&[0u16, 0, 1, 1, 2, 2]);
        let node = self.block(rng, b"DG", size);
        set16(&mut self.nodes[node].bytes, 22, usize::from(mode));
        self.link(node, 4, next);
        self.link(node, 12, None);
        let (first, shapes) = self.groups(rng, mode);
        self.link(node, 8, first);
        self.data_link(rng, node, mode, shapes);
        node
    }

    fn data_link(&mut self, rng: &mut Rng, node: usize, mode: u16, shapes: Vec<GroupShape>) {
        let wanted: u32 = shapes.iter().map(|s| s.count).sum();
        if wanted == 0 {
            // Never followed, so any value will do.
            let value = rng.pick(&[0, 0, 1, 64, 0x7FFF_FFFF, 0xFFFF_FFFF]);
            set32(&mut self.nodes[node].bytes, 16, value);
            return;
        }
        if mode == 0 && rng.chance(15) {
            let length = shapes[0].size as usize * shapes[0].count as usize;
            self.anywhere.push((node, length));
            return;
        }
        let same = self.data.iter().find(|d| d.mode == mode && d.shapes == shapes);
        let known = same.map(|d| d.node).filter(|_| rng.chance(60));
        let target = known.unwrap_or_else(|| {
            let bytes = record_data(rng, mode, &shapes);
            let target = self.add(DATA, bytes);
            self.data.push(SharedData { node: target, mode, shapes });
            target
        });
        self.link(node, 16, Some(target));
    }
}

/// Start bit, bits and added offset that fit a record of so many bytes.
fn position(rng: &mut Rng, record: usize, with_offset: bool) -> (usize, usize, usize) {
    let room = 8 * record;
    if room == 0 || rng.chance(12) {
        return (rng.below(65536), 0, if with_offset { rng.below(65536) } else { 0 });
    }
    let bits = match rng.below(4) {
        0 => rng.between(1, room.min(8)),
        1 => rng.between(1, room.min(64)),
        2 => room,
        _ => rng.between(1, room),
    };
    let spare = room - bits;
    let offset = if with_offset && rng.chance(40) { rng.below(spare / 8 + 1) } else { 0 };
    let rest = spare - 8 * offset;
    let start = if rng.chance(40) { rest } else { rng.below(rest + 1) };
    (start.min(65535), bits.min(65535), offset)
}

/// A group with an ID not used so far, if IDs matter.
fn new_shape(rng: &mut Rng, mode: u16, others: &[GroupShape]) -> GroupShape {
    let count = rng.pick(&[0, 0, 1, 1, 2, 3, 5, 9]);
    let mut size = rng.pick(&[0, 1, 1, 2, 3, 4, 8, 16, 20]);
    if rng.chance(3) {
        size = rng.between(1, 300) as u16;
    }
    if count > 0 && size == 0 {
        size = 1;
    }
    let mut id = if mode == 0 && rng.chance(50) {
        rng.below(65536) as u16
    } else {
        rng.pick(&[0, 1, 2, 3, 7, 84, 128, 254, 255])
    };
    if mode != 0 {
        while others.iter().any(|s| s.id == id) {
            id = rng.below(256) as u16;
        }
    }
    GroupShape { id, size, count }
}

/// The records of all groups, in a random order if they carry IDs.
fn record_data(rng: &mut Rng, mode: u16, shapes: &[GroupShape]) -> Vec<u8> {
    let mut order = Vec::new();
    for shape in shapes {
        order.extend((0..shape.count).map(|_| *shape));
    }
    rng.shuffle(&mut order);
    let mut bytes = Vec::new();
    for shape in order {
        if mode > 0 {
            bytes.push(shape.id as u8);
        }
        bytes.extend(rng.bytes(usize::from(shape.size)));
        if mode == 2 {
            bytes.push(shape.id as u8);
        }
    }
    bytes
}

/// Identification block and header, as numbers 0 and 1 of the plan.
fn start_plan(rng: &mut Rng) -> Plan {
    let any = rng.between(300, 399);
    let version = rng.pick(&[300, 301, 310, 319, 320, 321, 329, 330, 331, 399, any]);
    let mut plan = Plan { version, ..Plan::default() };
    let mut id = rng.bytes(64);
    id[..8].copy_from_slice(b"MDF     ");
    set32(&mut id, 24, 0);
    set16(&mut id, 28, version);
    plan.add(ID, id);
    plan.hosts.push((0, 30, 34));
    let any = rng.between(164, 260);
    let size = rng.pick(&[164, 164, 165, 171, 172, 174, 176, 207, 208, 208, 208, 209, any]);
    plan.block(rng, b"HD", size);
    plan.hosts.push((1, 36, 128));
    plan
}

/// A random file that has to be accepted.
pub fn file(rng: &mut Rng) -> Made {
    let plan = plan(rng);
    lay_down(rng, &plan)
}

/// The blocks of a random file that has to be accepted.
pub fn plan(rng: &mut Rng) -> Plan {
    let mut plan = start_plan(rng);
    let mut first = None;
    for _ in 0..rng.pick(&[0, 1, 1, 1, 1, 2, 2, 2, 3, 4]) {
        first = Some(plan.data_group(rng, first));
    }
    plan.link(1, 4, first);
    let comment = plan.body(rng, b"TX", 60);
    plan.link(1, 8, comment);
    let program = plan.body(rng, b"PR", 60);
    plan.link(1, 12, program);
    plan
}

/// Puts every block at its place and fills in the links.
pub fn lay_down(rng: &mut Rng, plan: &Plan) -> Made {
    let mut order: Vec<usize> = (2..plan.nodes.len()).collect();
    if rng.chance(80) {
        rng.shuffle(&mut order);
    }
    let with_gaps = rng.chance(60);
    let mut bytes = plan.nodes[0].bytes.clone();
    bytes.extend_from_slice(&plan.nodes[1].bytes);
    let mut places = vec![0, 64];
    places.resize(plan.nodes.len(), 0);
    for node in order {
        if plan.nodes[node].inside.is_some() {
            continue;
        }
        if with_gaps && rng.chance(40) {
            let gap = rng.between(1, 9);
            bytes.extend(rng.bytes(gap));
        }
        places[node] = bytes.len();
        bytes.extend_from_slice(&plan.nodes[node].bytes);
    }
    for node in 0..plan.nodes.len() {
        if let Some((host, offset)) = plan.nodes[node].inside {
            places[node] = places[host] + offset;
            let inner = &plan.nodes[node].bytes;
            bytes[places[node]..places[node] + inner.len()].copy_from_slice(inner);
        }
    }
    if with_gaps && rng.chance(40) {
        let gap = rng.between(1, 20);
        bytes.extend(rng.bytes(gap));
    }
    // Records that may lie anywhere still have to fit after place 0.
    let needed = plan.anywhere.iter().map(|a| a.1 + 1).max().unwrap_or(0);
    if bytes.len() < needed {
        bytes.resize(needed, 0);
    }
    fill_links(rng, plan, &places, &mut bytes);
    describe(plan, &places, bytes)
}

fn fill_links(rng: &mut Rng, plan: &Plan, places: &[usize], bytes: &mut [u8]) {
    for (node, &place) in plan.nodes.iter().zip(places) {
        for &(offset, to) in &node.links {
            set32(bytes, place + offset, places[to] as u32);
        }
    }
    for &(node, length) in &plan.anywhere {
        let last = bytes.len() - length;
        let place = if rng.chance(25) { last } else { rng.between(1, last) };
        set32(bytes, places[node] + 16, place as u32);
    }
}

/// Notes down what stands where.
fn describe(plan: &Plan, places: &[usize], bytes: Vec<u8>) -> Made {
    let mut made = Made { bytes, sites: Vec::new(), blocks: Vec::new(), data: Vec::new() };
    for (node, &block) in plan.nodes.iter().zip(places) {
        if node.kind == *DATA {
            made.data.push((block, node.bytes.len()));
            continue;
        }
        made.blocks.push((node.kind, block));
        for &(kind, offset, width, what) in FIELDS {
            if *kind == node.kind && offset + width <= node.bytes.len() {
                let place = block + offset;
                made.sites.push(Site { place, width, what, block });
            }
        }
    }
    made
}
