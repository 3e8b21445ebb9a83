//! The calls of the library under test.

use crate::compare::Answer;
use second::canonical;
use second::sample::{self, Asked, Call};

const FILL: u8 = 0xA5;
const MARGIN: usize = 32;
const ANSWER_SIZE: usize = 32;

#[cfg(feature = "selfcheck")]
pub const NAME: &str = "none, the second implementation checks itself";
#[cfg(not(feature = "selfcheck"))]
pub const NAME: &str = "linked mdf3";

#[cfg(not(feature = "selfcheck"))]
extern "C" {
    fn mdf3_check(image: *const u8, image_len: usize, answer: *mut u8) -> u32;
    fn mdf3_copy(
        image: *const u8,
        image_len: usize,
        out: *mut u8,
        out_len: usize,
        answer: *mut u8,
    ) -> u32;
    fn mdf3_sample(
        image: *const u8,
        image_len: usize,
        group: u64,
        channel: u64,
        record: u64,
        answer: *mut u8,
    ) -> u32;
    fn mdf3_physical(
        image: *const u8,
        image_len: usize,
        group: u64,
        channel: u64,
        record: u64,
        answer: *mut u8,
    ) -> u32;
    fn mdf3_compare(
        first: *const u8,
        first_len: usize,
        second: *const u8,
        second_len: usize,
        out: *mut u8,
        out_len: usize,
        answer: *mut u8,
    ) -> u32;
}

#[cfg(feature = "selfcheck")]
use second::calls::{
    second_check as mdf3_check, second_compare as mdf3_compare, second_copy as mdf3_copy,
    second_physical as mdf3_physical, second_sample as mdf3_sample,
};

/// Lends an answer between two margins to a call; hands back the number and
/// the answer's four numbers.
fn with_answer(call: impl FnOnce(*mut u8) -> u32) -> Result<(u32, [u64; 4]), String> {
    let mut memory = [FILL; MARGIN + ANSWER_SIZE + MARGIN];
    let number = call(memory[MARGIN..].as_mut_ptr());
    let (before, rest) = memory.split_at(MARGIN);
    let (answer, after) = rest.split_at(ANSWER_SIZE);
    if before.iter().chain(after).any(|&byte| byte != FILL) {
        return Err(format!("number {number}, wrote outside the answer"));
    }
    let mut parts = [0; 4];
    for (part, bytes) in parts.iter_mut().zip(answer.chunks_exact(8)) {
        *part = bytes.iter().rev().fold(0, |sum, &byte| sum << 8 | u64::from(byte));
    }
    Ok((number, parts))
}

/// Calls the check and looks at all it wrote.
pub fn check(image: *const u8, length: usize) -> Result<Answer, String> {
    // SAFETY: the image is `length` bytes long and the answer has 32 bytes.
    let (number, parts) = with_answer(|answer| unsafe { mdf3_check(image, length, answer) })?;
    match parts {
        [place, 0, 0, 0] => Ok((number, place)),
        _ => Err(format!("number {number}, answer {parts:?}")),
    }
}

/// Calls the copy and looks at its answer; the output is the caller's matter.
pub fn copy(
    image: *const u8,
    length: usize,
    out: *mut u8,
    room: usize,
) -> Result<canonical::Answer, String> {
    // SAFETY: the image has `length` bytes, the output `room` and the answer 32.
    let call = |answer| unsafe { mdf3_copy(image, length, out, room, answer) };
    let (number, parts) = with_answer(call)?;
    match parts {
        [place, value, 0, 0] => Ok(canonical::Answer { number, place, value }),
        _ => Err(format!("number {number}, answer {parts:?}")),
    }
}

/// Calls for the difference list and looks at the answer; the output is the
/// caller's matter.
pub fn compare(
    (first, first_len): (*const u8, usize),
    (second, second_len): (*const u8, usize),
    out: *mut u8,
    room: usize,
) -> Result<canonical::Answer, String> {
    // SAFETY: images and output have as many bytes as told, the answer 32.
    let call = |answer| unsafe {
        mdf3_compare(first, first_len, second, second_len, out, room, answer)
    };
    let (number, parts) = with_answer(call)?;
    match parts {
        [place, value, 0, 0] => Ok(canonical::Answer { number, place, value }),
        _ => Err(format!("number {number}, answer {parts:?}")),
    }
}

/// Calls for a sample or a physical value, and looks at all it wrote.
pub fn ask(
    call: Call,
    image: *const u8,
    length: usize,
    asked: Asked,
) -> Result<sample::Answer, String> {
    let Asked { group, channel, record } = asked;
    // SAFETY: the image is `length` bytes long and the answer has 32 bytes.
    let (number, parts) = with_answer(|answer| unsafe {
        match call {
            Call::Sample => mdf3_sample(image, length, group, channel, record, answer),
            Call::Physical => mdf3_physical(image, length, group, channel, record, answer),
        }
    })?;
    let [place, value, length, kind] = parts;
    Ok(sample::Answer { number, place, value, length, kind })
}
