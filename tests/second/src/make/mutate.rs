//! Damage done to valid files.

use super::rng::Rng;
use super::valid::{self, Made, Site, What};

/// A copy of the file with one to three things changed.
pub fn damage(rng: &mut Rng, made: &Made) -> Vec<u8> {
    let mut bytes = made.bytes.clone();
    let times = rng.pick(&[1, 1, 1, 1, 1, 2, 2, 3]);
    for _ in 0..times {
        match rng.below(100) {
            0..=9 => flip_bit(rng, made, &mut bytes),
            10..=17 => set_byte(rng, made, &mut bytes),
            18..=25 => cut(rng, made, &mut bytes),
            26..=29 => extend(rng, &mut bytes),
            30..=34 => splice(rng, &mut bytes),
            35..=54 => rewrite_link(rng, made, &mut bytes),
            55..=58 => make_loop(rng, made, &mut bytes),
            59..=77 => rewrite_field(rng, made, &mut bytes),
            78..=80 => empty_record(rng, made, &mut bytes),
            81..=88 => change_data(rng, made, &mut bytes),
            89..=94 => change_identification(rng, &mut bytes),
            _ => swap_fields(rng, made, &mut bytes),
        }
    }
    bytes
}

/// Writes as much of a value as lies in the image.
fn write(bytes: &mut [u8], place: usize, value: u64, width: usize) {
    for (n, byte) in value.to_le_bytes()[..width].iter().enumerate() {
        if let Some(cell) = bytes.get_mut(place + n) {
            *cell = *byte;
        }
    }
}

fn read(bytes: &[u8], place: usize, width: usize) -> u64 {
    (0..width).fold(0, |sum, n| {
        sum | u64::from(bytes.get(place + n).copied().unwrap_or(0)) << (8 * n)
    })
}

/// Any byte, more often one of a field that counts.
fn some_place(rng: &mut Rng, made: &Made, length: usize) -> usize {
    if rng.chance(50) && !made.sites.is_empty() {
        let site = rng.pick(&made.sites);
        return site.place + rng.below(site.width);
    }
    rng.below(length)
}

fn flip_bit(rng: &mut Rng, made: &Made, bytes: &mut [u8]) {
    let place = some_place(rng, made, bytes.len());
    let bit = 1 << rng.below(8);
    if let Some(cell) = bytes.get_mut(place) {
        *cell ^= bit;
    }
}

fn set_byte(rng: &mut Rng, made: &Made, bytes: &mut [u8]) {
    let place = some_place(rng, made, bytes.len());
    let any = rng.raw();
    let value = rng.pick(&[0, 1, 2, 3, 12, 17, 0x7F, 0x80, 0xFE, 0xFF, any]);
    write(bytes, place, value & 0xFF, 1);
}

fn cut(rng: &mut Rng, made: &Made, bytes: &mut Vec<u8>) {
    let length = match rng.below(10) {
        0..=3 => bytes.len().saturating_sub(rng.between(1, 8)),
        4..=6 => {
            let (_, place) = rng.pick(&made.blocks);
            place + rng.below(8)
        }
        7 => rng.below(70),
        _ => rng.below(bytes.len() + 1),
    };
    bytes.truncate(length);
}

fn extend(rng: &mut Rng, bytes: &mut Vec<u8>) {
    let more = rng.between(1, 64);
    if rng.chance(50) {
        bytes.extend(rng.bytes(more));
    } else {
        bytes.resize(bytes.len() + more, 0);
    }
}

/// Mixes in parts of another valid file.
fn splice(rng: &mut Rng, bytes: &mut Vec<u8>) {
    let other = valid::file(rng).bytes;
    match rng.below(3) {
        0 => {
            let seam = rng.below(bytes.len().min(other.len()) + 1);
            bytes.truncate(seam);
            bytes.extend_from_slice(&other[seam..]);
        }
        1 => {
            let first = rng.below(other.len());
            let last = (first + rng.below(256)).min(other.len()).min(bytes.len());
            if first < last {
                bytes[first..last].copy_from_slice(&other[first..last]);
            }
        }
        _ => {
            let seam = rng.below(bytes.len() + 1);
            let from = rng.below(other.len());
            bytes.truncate(seam);
            bytes.extend_from_slice(&other[from..]);
        }
    }
}

fn pick_site(rng: &mut Rng, made: &Made, wanted: impl Fn(What) -> bool) -> Option<Site> {
    let fitting: Vec<Site> = made.sites.iter().copied().filter(|s| wanted(s.what)).collect();
    if fitting.is_empty() {
        return None;
    }
    Some(rng.pick(&fitting))
}

fn rewrite_link(rng: &mut Rng, made: &Made, bytes: &mut [u8]) {
    let is_link = |w| matches!(w, What::Next | What::Link | What::Barred | What::Data);
    let site = match pick_site(rng, made, is_link) {
        Some(site) => site,
        None => return,
    };
    let end = bytes.len();
    let old = read(bytes, site.place, 4) as usize;
    let value = match rng.below(12) {
        0 | 1 => 0,
        2 | 3 => rng.pick(&made.blocks).1,
        4 => same_kind(rng, made, old).unwrap_or(old),
        5 => site.block,
        6 => rng.below(end + 1),
        7 => end - rng.below(9).min(end),
        8 => end + rng.below(4),
        9 => rng.pick(&[1, 2, 63, 64, 0x7FFF_FFFF, 0x8000_0000, 0xFFFF_FFFC, 0xFFFF_FFFF]),
        10 => old.wrapping_add(1),
        _ => old.wrapping_sub(1),
    };
    write(bytes, site.place, value as u64, 4);
}

/// Some block of the same kind as the one at this place.
fn same_kind(rng: &mut Rng, made: &Made, place: usize) -> Option<usize> {
    let kind = made.blocks.iter().find(|b| b.1 == place)?.0;
    let alike: Vec<usize> =
        made.blocks.iter().filter(|b| b.0 == kind).map(|b| b.1).collect();
    Some(rng.pick(&alike))
}

/// Lets a list lead back into itself or into another one of its kind.
fn make_loop(rng: &mut Rng, made: &Made, bytes: &mut [u8]) {
    if let Some(site) = pick_site(rng, made, |w| w == What::Next) {
        let target = same_kind(rng, made, site.block).unwrap_or(site.block);
        write(bytes, site.place, target as u64, 4);
    }
}

fn rewrite_field(rng: &mut Rng, made: &Made, bytes: &mut [u8]) {
    let is_field = |w| !matches!(w, What::Next | What::Link | What::Data);
    let site = match pick_site(rng, made, is_field) {
        Some(site) => site,
        None => return,
    };
    let old = read(bytes, site.place, site.width);
    let near = [old.wrapping_add(1), old.wrapping_sub(1), old.wrapping_add(8)];
    let any = rng.raw();
    let values: &[u64] = match site.what {
        What::BlockSize => &[0, 3, 4, 5, 6, 24, 26, 29, 30, 46, 164, 218, 227, 228, 65535],
        What::Mode => &[0, 1, 2, 3, 256, 65535],
        What::RecordId => &[0, 1, 2, 3, 255, 256, 257, 65535],
        What::RecordSize => &[0, 0, 1, 2, 8, 255, 65535],
        What::RecordCount => &[0, 1, 2, 3, 256, 65536, 0x8000_0000, 0xFFFF_FFFF],
        What::ChannelType => &[0, 1, 2, 256, 65535],
        What::Start | What::Bits | What::Offset => &[0, 1, 7, 8, 32, 64, 8192, 65535],
        What::DataType => &[0, 4, 8, 16, 17, 256, 65535],
        What::Formula => &[0, 11, 12, 12, 13, 268, 65535],
        What::Barred => &[1, 64, 0x0100_0000, 0xFFFF_FFFF],
        _ => &[0, 1, 65535],
    };
    let value = match rng.below(10) {
        0..=2 => rng.pick(&near),
        3 => any,
        _ => rng.pick(values),
    };
    write(bytes, site.place, value, site.width);
}

/// Record size 0 for a group that mostly wants records.
fn empty_record(rng: &mut Rng, made: &Made, bytes: &mut [u8]) {
    if let Some(site) = pick_site(rng, made, |w| w == What::RecordSize) {
        write(bytes, site.place, 0, 2);
        let count = rng.pick(&[0, 1, 1, 2, 0x0100_0000, 0xFFFF_FFFF]);
        write(bytes, site.place + 2, count, 4);
    }
}

/// Changes a byte of the records, where the IDs are.
fn change_data(rng: &mut Rng, made: &Made, bytes: &mut [u8]) {
    let filled: Vec<(usize, usize)> =
        made.data.iter().copied().filter(|d| d.1 > 0).collect();
    if filled.is_empty() {
        return flip_bit(rng, made, bytes);
    }
    let (place, length) = rng.pick(&filled);
    let at = place + if rng.chance(30) { 0 } else { rng.below(length) };
    let any = rng.raw();
    let value = rng.pick(&[0, 1, 2, 3, 255, any]);
    write(bytes, at, value & 0xFF, 1);
}

fn change_identification(rng: &mut Rng, bytes: &mut [u8]) {
    match rng.below(6) {
        0 | 1 => {
            for (n, &byte) in b"UnFinMF ".iter().enumerate() {
                write(bytes, n, u64::from(byte), 1);
            }
        }
        2 => {
            let place = rng.below(8);
            let any = rng.raw();
            let value = rng.pick(&[0, 0x20, 0x4D, any]);
            write(bytes, place, value & 0xFF, 1);
        }
        3 | 4 => {
            let place = rng.pick(&[24, 25, 26, 27]);
            let value = rng.pick(&[0, 1, 2, 255]);
            write(bytes, place, value, 1);
        }
        _ => {
            let version = rng.pick(&[0, 299, 300, 319, 320, 329, 330, 399, 400, 410, 65535]);
            write(bytes, 28, version, 2);
        }
    }
}

/// Exchanges the values of two fields of one width.
fn swap_fields(rng: &mut Rng, made: &Made, bytes: &mut [u8]) {
    let one = rng.pick(&made.sites);
    let other = rng.pick(&made.sites);
    if one.width != other.width {
        return;
    }
    let (a, b) = (read(bytes, one.place, one.width), read(bytes, other.place, one.width));
    write(bytes, one.place, b, one.width);
    write(bytes, other.place, a, one.width);
}
