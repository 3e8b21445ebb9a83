//! How often each answer came.

use second::differences::Entry;
use second::mdf::Refusal;
use second::sample::{Answer, Call};

const NUMBERS: usize = 20;
const KINDS: usize = 6;

#[derive(Clone, Copy, Default)]
pub struct Tally {
    check: [u64; NUMBERS],
    copy: [u64; NUMBERS],
    sample: [u64; NUMBERS],
    physical: [u64; NUMBERS],
    /// Samples of each kind.
    kinds: [u64; KINDS],
    /// Pairs of accepted images with different and with equal readings.
    pairs: [u64; 2],
    /// Calls for a difference list.
    list: [u64; NUMBERS],
    /// Entries of each kind.
    entries: [u64; KINDS],
    /// Pairs whose lists were compared: with a refused image, and without.
    listed: [u64; 2],
}

impl Tally {
    pub fn note_check(&mut self, number: u32) {
        self.check[number as usize] += 1;
    }

    pub fn note_copy(&mut self, number: u32) {
        self.copy[number as usize] += 1;
    }

    pub fn note_asked(&mut self, call: Call, answer: Answer) {
        match call {
            Call::Sample => {
                self.sample[answer.number as usize] += 1;
                self.kinds[answer.kind as usize] += 1;
            }
            Call::Physical => self.physical[answer.number as usize] += 1,
        }
    }

    pub fn note_pair(&mut self, equal: bool) {
        self.pairs[usize::from(equal)] += 1;
    }

    pub fn note_list(&mut self, number: u32) {
        self.list[number as usize] += 1;
    }

    /// A pair, with its list or its refusal.
    pub fn note_listed(&mut self, list: &Result<Vec<Entry>, Refusal>) {
        self.listed[usize::from(list.is_ok())] += 1;
        for entry in list.iter().flatten() {
            self.entries[usize::from(entry[0])] += 1;
        }
    }

    /// How many pairs of accepted images had their lists compared, and how
    /// many entries of the rarest kind were among them.
    pub fn pairs_listed(&self) -> (u64, u64) {
        (self.listed[1], self.entries[1..].iter().copied().min().unwrap_or(0))
    }

    fn cells(&mut self) -> [&mut [u64]; 9] {
        [
            &mut self.check,
            &mut self.copy,
            &mut self.sample,
            &mut self.physical,
            &mut self.kinds,
            &mut self.pairs,
            &mut self.list,
            &mut self.entries,
            &mut self.listed,
        ]
    }

    pub fn add(&mut self, other: &Tally) {
        let mut other = *other;
        for (mine, more) in self.cells().into_iter().zip(other.cells()) {
            for (cell, more) in mine.iter_mut().zip(more) {
                *cell += *more;
            }
        }
    }

    pub fn print(&self, label: &str) {
        println!("{label}");
        line("check", counts(&self.check, 0));
        line("copy", counts(&self.copy, 0));
        line("sample", with_kinds(counts(&self.sample, 0), &self.kinds));
        line("physical", counts(&self.physical, 0));
        line("compare", with_kinds(counts(&self.list, 0), &self.entries));
        let [refused, accepted] = self.listed;
        if refused + accepted > 0 {
            println!("  pairs compared: {accepted} accepted, {refused} with a refused image");
        }
        let [other, same] = self.pairs;
        if other + same > 0 {
            println!("  pairs of images: {same} with equal readings and copies, {other} with neither");
        }
    }
}

/// The answers to a call, where it was made.
fn line(call: &str, counts: String) {
    if !counts.is_empty() {
        println!("  {call:8} {counts}");
    }
}

fn with_kinds(counts_of: String, kinds: &[u64]) -> String {
    match counts(kinds, 1) {
        kinds if kinds.is_empty() => counts_of,
        kinds => format!("{counts_of}; of kind {kinds}"),
    }
}

/// What came at all, from the cell `first` on.
fn counts(cells: &[u64], first: usize) -> String {
    let told = cells.iter().enumerate().skip(first).filter(|(_, count)| **count > 0);
    told.map(|(number, count)| format!("{number}:{count}")).collect::<Vec<_>>().join(" ")
}
