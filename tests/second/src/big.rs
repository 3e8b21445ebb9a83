//! Images, copies and difference lists at the greatest length, samples far
//! behind, and empty parts of memory.

use second::calls::{find, length_of, reading_of};
use crate::compare::{self, compare, shown, Answer, Difference, Wanted};
use crate::output::Output;
use crate::tally::Tally;
use crate::{library, pairs, report, Options};
use second::canonical;
use second::differences;
use second::make::cases::Known;
use second::make::long::{with_copy_of, with_entries};
use second::make::sheet::Sheet;
use second::make::signals::{Signal, Signals};
use second::sample::{self, Asked, Call};
use std::ptr::NonNull;

const LONGEST: usize = 2_147_483_647;
/// Entries of the longest list, and its length.
const MOST_ENTRIES: u64 = 134_217_727;
const LONGEST_LIST: u64 = 2_147_483_632;

pub fn run(options: &Options) -> Option<Tally> {
    let mut tally = Tally::default();
    let right = long_images(options, &mut tally);
    let told = |name: &str, compared: Result<(), Difference>| match compared {
        Ok(()) => true,
        Err(difference) => {
            report(options, name, &[], &difference);
            false
        }
    };
    let right = told("empty memory", empty_memory(&mut tally)) && right;
    let right = told("long output", long_output(&mut tally)) && right;
    let right = told("lists of shared records", shared_records(&mut tally)) && right;
    let right = told("long list", long_list(&mut tally)) && right;
    right.then_some(tally)
}

/// The long image: zeros that take no memory until they are written.
struct Long<'a> {
    bytes: Vec<u8>,
    options: &'a Options,
    output: Output,
    tally: &'a mut Tally,
    right: bool,
}

impl Long<'_> {
    /// Puts a small file at the start and tries the first `length` bytes.
    fn try_at(&mut self, name: &str, file: &[u8], length: usize, expected: Answer) {
        self.try_known(name, file, length, expected, &[]);
    }

    /// The same, with samples that are known beforehand.
    fn try_known(
        &mut self,
        name: &str,
        file: &[u8],
        length: usize,
        expected: Answer,
        known: &[Known],
    ) {
        self.bytes[..file.len()].copy_from_slice(file);
        let name = format!("{name}, {length} bytes");
        let wanted = Wanted { check: Some(expected), known, ..Wanted::default() };
        let image = &self.bytes[..length];
        if let Err(difference) = compare(image, &wanted, &mut self.output, self.tally) {
            // Only the written start is kept; the rest is zeros.
            report(self.options, &name, &[&image[..file.len()]], &difference);
            self.right = false;
        }
        self.bytes[..file.len()].fill(0);
    }
}

/// One group of mode 0 with records of size 1; places of link and count.
fn small_file() -> (Sheet, usize, usize) {
    let mut sheet = Sheet::new(300, 164);
    let dg = sheet.linked(68, b"DG", 28);
    let cg = sheet.linked(dg + 8, b"CG", 30);
    sheet.put16(cg + 20, 1);
    sheet.put32(cg + 22, 1);
    sheet.put32(dg + 16, 1);
    (sheet, dg + 16, cg + 22)
}

/// One byte more than is allowed, whatever the image holds.
fn lengths(long: &mut Long<'_>) {
    let (sheet, _, _) = small_file();
    long.try_at("small file", &sheet.bytes, LONGEST, (0, 0));
    long.try_at("small file", &sheet.bytes, LONGEST + 1, (1, 0));
    long.try_at("zeros", &[], LONGEST, (2, 0));
    long.try_at("zeros", &[], LONGEST + 1, (1, 0));
    let mut unfinished = sheet.clone();
    unfinished.put(0, b"UnFinMF ");
    long.try_at("unfinalized", &unfinished.bytes, LONGEST, (3, 0));
    long.try_at("unfinalized", &unfinished.bytes, LONGEST + 1, (1, 0));
    let mut broken = sheet;
    broken.put(64, b"ZZ");
    long.try_at("broken header", &broken.bytes, LONGEST, (17, 64));
    long.try_at("broken header", &broken.bytes, LONGEST + 1, (1, 0));
}

/// Records and blocks at the far end.
fn last_bytes(long: &mut Long<'_>) {
    let (mut sheet, link, count) = small_file();
    let end = LONGEST as u64;
    sheet.put32(link, LONGEST as u32 - 3);
    sheet.put32(count, 3);
    long.try_at("three records at the end", &sheet.bytes, LONGEST, (0, 0));
    long.try_at("three records at the end, cut", &sheet.bytes, LONGEST - 1, (11, end - 1));
    sheet.put32(count, 4);
    long.try_at("a fourth record", &sheet.bytes, LONGEST, (11, end));
    sheet.put32(link, LONGEST as u32);
    long.try_at("data at the end", &sheet.bytes, LONGEST, (11, end));
    sheet.put32(link, 0xFFFF_FFFF);
    long.try_at("data beyond", &sheet.bytes, LONGEST, (11, 0xFFFF_FFFF));
    let (mut sheet, _, _) = small_file();
    sheet.put32(72, LONGEST as u32 - 4);
    long.bytes[LONGEST - 4..LONGEST].copy_from_slice(b"TX\x04\x00");
    long.try_at("comment at the end", &sheet.bytes, LONGEST, (0, 0));
    long.try_at("comment at the end, cut", &sheet.bytes, LONGEST - 1, (5, 72));
    long.bytes[LONGEST - 2] = 5;
    long.try_at("comment beyond the end", &sheet.bytes, LONGEST, (19, 72));
    long.bytes[LONGEST - 4..LONGEST].fill(0);
}

/// A number and a text in the last three records, of two bytes each.
fn last_samples(long: &mut Long<'_>) {
    let mut file = Signals::new(2);
    file.channel(Signal { start: 4, bits: 8, data_type: 9, offset: 0 });
    file.channel(Signal { start: 0, bits: 8, data_type: 7, offset: 1 });
    file.records(&[0; 6]);
    file.sheet.put32(file.dg + 16, LONGEST as u32 - 6);
    long.bytes[LONGEST - 2..LONGEST].copy_from_slice(&[0x34, 0x12]);
    let known = |call, channel, answer| {
        let asked = Asked { group: 0, channel, record: 2 };
        Known { call, asked, answer }
    };
    let list = [
        known(Call::Sample, 0, sample::Answer::done(1, 0x41, 0)),
        known(Call::Sample, 1, sample::Answer::done(5, LONGEST as u64 - 1, 1)),
        known(Call::Physical, 0, sample::Answer::done(4, 65.0_f64.to_bits(), 0)),
        known(Call::Physical, 1, sample::Answer::refused(16, 0)),
    ];
    long.try_known("samples at the end", &file.sheet.bytes, LONGEST, (0, 0), &list);
    let list =
        [Call::Sample, Call::Physical].map(|call| known(call, 0, sample::Answer::refused(1, 0)));
    long.try_known("samples, too long", &file.sheet.bytes, LONGEST + 1, (1, 0), &list);
    long.bytes[LONGEST - 2..LONGEST].fill(0);
}

/// 1,024 data groups that each take the whole long image for their records:
/// a copy of more than 2 million million bytes.
fn longest_copy(long: &mut Long<'_>) {
    let mut sheet = Sheet::new(300, 164);
    let cg = sheet.block(b"CG", 30);
    sheet.put16(cg + 20, 65_535);
    sheet.put32(cg + 22, 32_767);
    let mut field = 68;
    for _ in 0..1024 {
        let dg = sheet.linked(field, b"DG", 28);
        sheet.put32(dg + 8, cg as u32);
        sheet.put32(dg + 16, 1);
        field = dg + 4;
    }
    long.try_at("longest copy", &sheet.bytes, LONGEST, (0, 0));
}

fn long_images(options: &Options, tally: &mut Tally) -> bool {
    let bytes = vec![0; LONGEST + 1];
    let mut long = Long { bytes, options, output: Output::default(), tally, right: true };
    lengths(&mut long);
    last_bytes(&mut long);
    last_samples(&mut long);
    longest_copy(&mut long);
    long_pairs(&mut long);
    long.right
}

/// An image that is too long, as the first and as the second one, and one of
/// the greatest length beside the same file without the zeros behind.
fn long_pairs(long: &mut Long<'_>) {
    let small = small_file().0.bytes;
    let [mut broken, start] = [small.clone(), small.clone()];
    broken[64] = 0;
    long.bytes[..start.len()].copy_from_slice(&start);
    let [longest, longer] = [LONGEST, LONGEST + 1].map(|length| (long.bytes.as_ptr(), length));
    let [small, broken] = [&small, &broken].map(|image| (image.as_ptr(), image.len()));
    let mut compared = Ok(());
    for (first, second, number, place) in [
        (longest, small, 0, 0),
        (small, longest, 0, 0),
        (longest, longest, 0, 0),
        (longer, small, 1, 0),
        (small, longer, 1, 0),
        (longer, longer, 1, 0),
        (longer, broken, 1, 0),
        (broken, longer, 17, 64),
        (longest, broken, 17, 64),
    ] {
        let told = told_list(first, second, (number, place), &mut long.output, long.tally);
        compared = compared.and(told);
    }
    if let Err(difference) = compared {
        report(long.options, "long pairs", &[], &difference);
        long.right = false;
    }
    long.bytes[..start.len()].fill(0);
}

/// What a call for a list into little room has to tell, which is known.
fn told_list(
    first: (*const u8, usize),
    second: (*const u8, usize),
    (number, place): Answer,
    output: &mut Output,
    tally: &mut Tally,
) -> Result<(), Difference> {
    output.prepare(64, 0x3C);
    let library = library::compare(first, second, output.pointer(), 64);
    if library != Ok(canonical::Answer { number, place, value: 0 }) || !output.untouched_beyond(0) {
        let text = format!("{library:?}, expected number {number}, place {place}");
        return Err(Difference::new("library's list", text));
    }
    tally.note_list(number);
    Ok(())
}

/// Image and output without a byte, at an address that must not be used.
fn empty_memory(tally: &mut Tally) -> Result<(), Difference> {
    let nowhere = NonNull::<u8>::dangling().as_ptr();
    let library = library::check(nowhere, 0);
    if library != Ok((2, 0)) {
        return Err(Difference::new("library", shown(&library)));
    }
    tally.note_check(2);
    let smallest = Sheet::new(300, 164).bytes;
    for (image, length, number, place) in
        [(nowhere as *const u8, 0, 2, 0), (smallest.as_ptr(), smallest.len(), 13, 228)]
    {
        let library = library::copy(image, length, nowhere, 0);
        if library != Ok(canonical::Answer { number, place, value: 0 }) {
            return Err(Difference::new("library's copy", format!("{library:?}")));
        }
        tally.note_copy(number);
    }
    empty_pairs(nowhere, &smallest, tally)?;
    let asked = Asked { group: 0, channel: 0, record: 0 };
    let wanted = sample::Answer::refused(2, 0);
    for call in [Call::Sample, Call::Physical] {
        let library = library::ask(call, nowhere, 0, asked);
        if library != Ok(wanted) {
            return Err(Difference::new("library's sample", format!("{library:?}")));
        }
        tally.note_asked(call, wanted);
    }
    Ok(())
}

/// Lists of images without a byte, and into no output.
fn empty_pairs(nowhere: *mut u8, small: &[u8], tally: &mut Tally) -> Result<(), Difference> {
    let nothing = (nowhere as *const u8, 0);
    let small = (small.as_ptr(), small.len());
    for (first, second, number) in
        [(nothing, nothing, 2), (nothing, small, 2), (small, nothing, 2), (small, small, 0)]
    {
        let library = library::compare(first, second, nowhere, 0);
        if library != Ok(canonical::Answer { number, place: 0, value: 0 }) {
            return Err(Difference::new("library's list", format!("{library:?}")));
        }
        tally.note_list(number);
    }
    Ok(())
}

/// Small files with as many differences as can be told, and more: one more,
/// and so many that the length is 0 in 32 bits.
fn shared_records(tally: &mut Tally) -> Result<(), Difference> {
    let mut output = Output::default();
    for (entries, told) in [
        (MOST_ENTRIES, (13, LONGEST_LIST)),
        (MOST_ENTRIES + 1, (12, 0)),
        (1 << 28, (12, 0)),
        ((1 << 28) + 1, (12, 0)),
    ] {
        let (one, other) = with_entries(entries);
        let [first, second] = [&one.bytes, &other.bytes].map(|image| (image.as_ptr(), image.len()));
        told_list(first, second, told, &mut output, tally)?;
        told_list(second, first, told, &mut output, tally)?;
        let (one, other) = (find(&one.bytes), find(&other.bytes));
        let length = differences::length_of(reading_of(&one), reading_of(&other));
        let second = canonical::answer(length, 64);
        if (second.number, second.place) != told {
            return Err(Difference::new("second's list", format!("{second:?}")));
        }
    }
    Ok(())
}

/// One group with so many records of one byte, all of them the same.
fn run_of(count: u64, byte: u8) -> (Vec<u8>, usize) {
    let (mut sheet, link, field) = small_file();
    sheet.put32(field, count as u32);
    sheet.put32(link, sheet.len() as u32);
    let first = sheet.len();
    sheet.bytes.resize(first + count as usize, byte);
    (sheet.bytes, first)
}

/// The longest list: records that differ, then some that one file has. The
/// first record makes it longer than that.
fn long_list(tally: &mut Tally) -> Result<(), Difference> {
    let (one, _) = run_of(MOST_ENTRIES + 1, 0);
    let (mut other, first) = run_of(100_000_000, 1);
    let memory = |image: &[u8]| (image.as_ptr(), image.len());
    let mut output = Output::default();
    told_list(memory(&one), memory(&other), (12, 0), &mut output, tally)?;
    other[first] = 0;
    told_list(memory(&one), memory(&other), (13, LONGEST_LIST), &mut output, tally)?;
    told_list(memory(&other), memory(&one), (13, LONGEST_LIST), &mut output, tally)?;
    output.prepare(LONGEST + 1, 0x5A);
    output.limit(LONGEST_LIST as usize - 1);
    let length = Ok(LONGEST_LIST);
    pairs::compare_answer(memory(&one), memory(&other), length, &mut output, tally)?;
    if !output.untouched_beyond(0) {
        return Err(Difference::new("refused list", "touched the output"));
    }
    output.limit(LONGEST_LIST as usize);
    pairs::compare_answer(memory(&one), memory(&other), length, &mut output, tally)?;
    whole_list(&one, &other, &output)
}

/// A list compared entry by entry.
fn whole_list(one: &[u8], other: &[u8], output: &Output) -> Result<(), Difference> {
    let (one, other) = (find(one), find(other));
    let (mut entries, mut equal) = (output.start(LONGEST_LIST as usize).chunks_exact(16), true);
    if let (Ok(one), Ok(other)) = (&one, &other) {
        differences::each(&one.reading, &other.reading, |entry| {
            equal &= entries.next() == Some(&entry[..]);
        });
    }
    if !equal || entries.next().is_some() || !output.untouched_beyond(LONGEST_LIST as usize) {
        return Err(Difference::new("long list", "is another"));
    }
    Ok(())
}

/// An output longer than any copy, and the longest copy that can be made.
fn long_output(tally: &mut Tally) -> Result<(), Difference> {
    let mut output = Output::default();
    output.prepare(LONGEST + 1, 0x5A);
    let longest = with_copy_of(LONGEST as u64).bytes;
    let longer = with_copy_of(LONGEST as u64 + 1).bytes;
    for (image, room) in [(&longer, LONGEST + 1), (&longer, LONGEST), (&longest, LONGEST - 1)] {
        output.limit(room);
        let length = length_of(&find(image));
        compare::compare_answer(image, length, &mut output, tally)?;
        if !output.untouched_beyond(0) {
            return Err(Difference::new("refused copy", format!("room {room}: touched")));
        }
    }
    let small = Sheet::new(320, 164).bytes;
    for (image, room) in [(small, LONGEST + 1), (longest, LONGEST)] {
        output.limit(room);
        whole_copy(&image, &mut output, tally)?;
    }
    Ok(())
}

/// A copy compared piece by piece, and what it is good for.
fn whole_copy(image: &[u8], output: &mut Output, tally: &mut Tally) -> Result<(), Difference> {
    let found = find(image);
    let answer = compare::compare_answer(image, length_of(&found), output, tally)?;
    let found = found.map_err(|_| Difference::new("long copy", "refused"))?;
    let copy = output.start(answer.value as usize);
    let (mut end, mut equal) = (0, true);
    canonical::pieces(&found.reading, |piece| {
        equal &= copy[end..].starts_with(piece);
        end += piece.len();
    });
    if !equal || end != copy.len() || !output.untouched_beyond(end) {
        return Err(Difference::new("long copy", format!("of {end} bytes is another")));
    }
    match find(copy) {
        Ok(again) if again.reading == found.reading => {}
        _ => return Err(Difference::new("long copy", "does not read as its original")),
    }
    match library::check(copy.as_ptr(), copy.len()) {
        Ok((0, 0)) => tally.note_check(0),
        other => return Err(Difference::new("library on the long copy", shown(&other))),
    }
    Ok(())
}
