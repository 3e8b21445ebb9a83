//! The second implementation behind the calls that the library has: what it
//! finds in an image, and the same functions for C under names of their own.

use crate::canonical;
use crate::differences;
use crate::mdf::{self, Refusal};
use crate::reading::Reading;
use crate::sample::{self, Asked, Call};
use std::slice::{from_raw_parts, from_raw_parts_mut};

/// What the second implementation finds in an accepted image.
pub struct Found<'a> {
    pub reading: Reading<'a>,
    pub length: u64,
}

pub fn find(image: &[u8]) -> Result<Found<'_>, Refusal> {
    let reading = Reading::of(image, mdf::check(image)?);
    let length = canonical::length(&reading);
    Ok(Found { reading, length })
}

/// The length of the copy, or why the image is refused.
pub fn length_of(found: &Result<Found<'_>, Refusal>) -> Result<u64, Refusal> {
    found.as_ref().map(|found| found.length).map_err(|refusal| *refusal)
}

/// The reading, or why the image is refused.
pub fn reading_of<'f, 'a>(
    found: &'f Result<Found<'a>, Refusal>,
) -> Result<&'f Reading<'a>, Refusal> {
    found.as_ref().map(|found| &found.reading).map_err(|refusal| *refusal)
}

fn write(parts: [u64; 4], answer: &mut [u8]) {
    for (bytes, part) in answer.chunks_exact_mut(8).zip(parts) {
        bytes.copy_from_slice(&part.to_le_bytes());
    }
}

/// As `mdf3_check`.
///
/// # Safety
/// The caller lends the image and an answer of 32 bytes.
#[no_mangle]
pub unsafe extern "C" fn second_check(image: *const u8, image_len: usize, answer: *mut u8) -> u32 {
    // SAFETY: the caller's.
    let (image, answer) =
        unsafe { (from_raw_parts(image, image_len), from_raw_parts_mut(answer, 32)) };
    let (number, place) = match mdf::check(image) {
        Ok(_) => (0, 0),
        Err(refusal) => (refusal.number, refusal.place),
    };
    write([place, 0, 0, 0], answer);
    number
}

/// As `mdf3_copy`.
///
/// # Safety
/// The caller lends the image, the output and an answer of 32 bytes, apart.
#[no_mangle]
pub unsafe extern "C" fn second_copy(
    image: *const u8,
    image_len: usize,
    out: *mut u8,
    out_len: usize,
    answer: *mut u8,
) -> u32 {
    // SAFETY: the caller's.
    let (image, out, answer) = unsafe {
        (
            from_raw_parts(image, image_len),
            from_raw_parts_mut(out, out_len),
            from_raw_parts_mut(answer, 32),
        )
    };
    let found = find(image);
    let told = canonical::answer(length_of(&found), out_len as u64);
    if let (0, Ok(found)) = (told.number, &found) {
        let mut end = 0;
        canonical::pieces(&found.reading, |piece| {
            out[end..end + piece.len()].copy_from_slice(piece);
            end += piece.len();
        });
    }
    write([told.place, told.value, 0, 0], answer);
    told.number
}

unsafe fn ask(call: Call, image: (*const u8, usize), asked: Asked, answer: *mut u8) -> u32 {
    // SAFETY: the caller's.
    let (image, answer) =
        unsafe { (from_raw_parts(image.0, image.1), from_raw_parts_mut(answer, 32)) };
    let told = sample::answer(call, reading_of(&find(image)), asked);
    write([told.place, told.value, told.length, told.kind], answer);
    told.number
}

/// As `mdf3_sample`.
///
/// # Safety
/// As `second_check`.
#[no_mangle]
pub unsafe extern "C" fn second_sample(
    image: *const u8,
    image_len: usize,
    group: u64,
    channel: u64,
    record: u64,
    answer: *mut u8,
) -> u32 {
    let asked = Asked { group, channel, record };
    // SAFETY: passed on.
    unsafe { ask(Call::Sample, (image, image_len), asked, answer) }
}

/// As `mdf3_physical`.
///
/// # Safety
/// As `second_check`.
#[no_mangle]
pub unsafe extern "C" fn second_physical(
    image: *const u8,
    image_len: usize,
    group: u64,
    channel: u64,
    record: u64,
    answer: *mut u8,
) -> u32 {
    let asked = Asked { group, channel, record };
    // SAFETY: passed on.
    unsafe { ask(Call::Physical, (image, image_len), asked, answer) }
}

/// As `mdf3_compare`.
///
/// # Safety
/// The caller lends both images, which may overlap each other, and apart
/// from them the output and an answer of 32 bytes.
#[no_mangle]
pub unsafe extern "C" fn second_compare(
    first: *const u8,
    first_len: usize,
    second: *const u8,
    second_len: usize,
    out: *mut u8,
    out_len: usize,
    answer: *mut u8,
) -> u32 {
    // SAFETY: the caller's.
    let (first, second, out, answer) = unsafe {
        (
            from_raw_parts(first, first_len),
            from_raw_parts(second, second_len),
            from_raw_parts_mut(out, out_len),
            from_raw_parts_mut(answer, 32),
        )
    };
    let (first, second) = (find(first), find(second));
    let length = differences::length_of(reading_of(&first), reading_of(&second));
    let told = canonical::answer(length, out_len as u64);
    if let (0, Ok(first), Ok(second)) = (told.number, &first, &second) {
        let mut places = out.chunks_exact_mut(16);
        differences::each(&first.reading, &second.reading, |entry| {
            places.next().expect("there is room").copy_from_slice(&entry);
        });
    }
    write([told.place, told.value, 0, 0], answer);
    told.number
}
