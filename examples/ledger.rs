//! A ledger line from a logged file, as ledger.c makes it, with the standard library alone.
//!
//!     ledger FILE GROUP CHANNEL

use std::env;
use std::ffi::OsString;
use std::fs;
use std::io::{self, Write};
use std::process::ExitCode;

extern "C" {
    fn mdf3_check(image: *const u8, image_len: usize, answer: *mut u8) -> u32;
    fn mdf3_copy(
        image: *const u8,
        image_len: usize,
        out: *mut u8,
        out_len: usize,
        answer: *mut u8,
    ) -> u32;
    fn mdf3_physical(
        image: *const u8,
        image_len: usize,
        group: u64,
        channel: u64,
        record: u64,
        answer: *mut u8,
    ) -> u32;
}

// Numbers of mdf3.h.
const OK: u32 = 0;
const NO_ROOM: u32 = 13;
const NO_SUCH: u32 = 14;

/// Why there is no line to post: refused with number and place, or no memory for the copy.
enum Failed {
    Refused(u32, u64),
    NoMemory,
}
use Failed::{NoMemory, Refused};

type Answer = [u8; 32];

fn number_at(answer: &Answer, offset: usize) -> u64 {
    answer[offset..offset + 8].iter().rev().fold(0, |sum, &byte| sum << 8 | u64::from(byte))
}

/// Lends an answer to a call.
fn ask(call: impl FnOnce(*mut u8) -> u32) -> (u32, Answer) {
    let mut answer = [0; 32];
    (call(answer.as_mut_ptr()), answer)
}

fn check(image: &[u8]) -> Result<(), Failed> {
    // SAFETY: image and answer are lent for the call, with their lengths.
    let (number, answer) = ask(|a| unsafe { mdf3_check(image.as_ptr(), image.len(), a) });
    if number == OK { Ok(()) } else { Err(Refused(number, number_at(&answer, 0))) }
}

fn copy_into(image: &[u8], out: &mut [u8]) -> (u32, Answer) {
    let (to, room) = (out.as_mut_ptr(), out.len());
    // SAFETY: image, output and answer are lent for the call, and are apart.
    ask(|a| unsafe { mdf3_copy(image.as_ptr(), image.len(), to, room, a) })
}

fn copy(image: &[u8]) -> Result<Vec<u8>, Failed> {
    // With no room, an image that can be copied gives the length needed.
    let (number, answer) = copy_into(image, &mut []);
    if number != NO_ROOM {
        return Err(Refused(number, number_at(&answer, 0)));
    }
    let length = number_at(&answer, 0) as usize;
    let mut out = Vec::new();
    out.try_reserve_exact(length).map_err(|_| NoMemory)?;
    out.resize(length, 0);
    match copy_into(image, &mut out) {
        (OK, _) => Ok(out),
        (number, answer) => Err(Refused(number, number_at(&answer, 0))),
    }
}

fn physical(image: &[u8], group: u64, channel: u64, record: u64) -> Result<f64, Failed> {
    // SAFETY: as for the check.
    let (number, answer) =
        ask(|a| unsafe { mdf3_physical(image.as_ptr(), image.len(), group, channel, record, a) });
    match number {
        OK => Ok(f64::from_bits(number_at(&answer, 8))),
        _ => Err(Refused(number, number_at(&answer, 0))),
    }
}

/// How many records there are, and their values added up.
fn post(image: &[u8], group: u64, channel: u64) -> Result<(u64, f64), Failed> {
    check(image)?;
    let kept = copy(image)?;
    let (mut count, mut total) = (0, 0.0);
    loop {
        match physical(&kept, group, channel, count) {
            Ok(value) => total += value,
            Err(Refused(NO_SUCH, _)) if count > 0 => return Ok((count, total)),
            // The image refuses the same value: its place is the one to tell.
            Err(refused) => {
                return Err(physical(image, group, channel, count).err().unwrap_or(refused));
            }
        }
        count += 1;
    }
}

/// FILE GROUP CHANNEL; the numbers in decimal digits alone.
fn arguments() -> Option<(OsString, u64, u64)> {
    let words: Vec<OsString> = env::args_os().skip(1).collect();
    let number = |word: &OsString| {
        let digits = word.to_str().filter(|text| text.bytes().all(|byte| byte.is_ascii_digit()))?;
        digits.parse().ok()
    };
    match &words[..] {
        [name, group, channel] => Some((name.clone(), number(group)?, number(channel)?)),
        _ => None,
    }
}

fn trouble(what: &str) -> ExitCode {
    eprintln!("{what}");
    ExitCode::from(2)
}

/// Prints a line, and gives the status that goes with it.
fn tell(line: &str, status: u8) -> ExitCode {
    match writeln!(io::stdout(), "{line}").and_then(|()| io::stdout().flush()) {
        Ok(()) => ExitCode::from(status),
        Err(_) => trouble("standard output: cannot be written"),
    }
}

fn main() -> ExitCode {
    let (path, group, channel) = match arguments() {
        Some(given) => given,
        None => return trouble("usage: ledger FILE GROUP CHANNEL"),
    };
    let name = path.to_string_lossy();
    let image = match fs::read(&path) {
        Ok(image) => image,
        Err(_) => return trouble(&format!("{name}: cannot be read")),
    };
    match post(&image, group, channel) {
        Ok((_, total)) if !total.is_finite() => trouble(&format!("{name}: the total is too large")),
        Ok((count, total)) => tell(&format!("{name}: {count} records, total {total:.2}"), 0),
        Err(Refused(number, place)) => {
            tell(&format!("{name}: refused, {number} at {place}"), 1)
        }
        Err(NoMemory) => trouble(&format!("{name}: no memory for its copy")),
    }
}
