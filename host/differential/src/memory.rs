//! Load with a memory: what the widths of accepted calls met in their logs.

use crate::compare::{add_counts, named_counts};
use reference::Record;

/// What a right width is, and what it meets in a log that passes its questions.
#[derive(Clone, Copy)]
pub enum Met {
    /// No memory, 2 to 9 frames, 10 to 99, 100 to 4,095, and 4,096.
    One,
    Few,
    Second,
    Many,
    Most,
    /// Uncovered frames between two records of a group, one less than the width: they are just closed.
    Closed,
    /// As many as the width: one of them stays uncovered.
    JustOpen,
    /// A record that would be remembered past the last frame, and one that just reaches it.
    CutOff,
    JustReached,
    /// Two records that differ in their last frame alone and are both remembered to the last frame.
    Alike,
    /// A record over frame 0 with fewer frames before its end than are remembered.
    AtZero,
}

/// The names of what was met, in its order.
const NAMES: [&str; 11] = [
    "no memory",
    "2 to 9 frames",
    "10 to 99",
    "100 to 4095",
    "4096",
    "a gap just closed",
    "a gap of one frame left",
    "a record cut off at the last frame",
    "a record just remembered there",
    "two records alike but for last frames past it",
    "a record at frame 0",
];

/// What the widths met, and how often.
#[derive(Clone, Copy, Default)]
pub struct Remembered {
    met: [u64; NAMES.len()],
}

impl Remembered {
    pub fn join(&mut self, other: &Remembered) {
        add_counts([(&mut self.met, &other.met)]);
    }

    fn add(&mut self, what: Met, is_so: bool) {
        self.met[what as usize] += u64::from(is_so);
    }

    /// What was met fewer than so many times.
    pub fn missing(&self, owed: &[Met], least: u64) -> Vec<String> {
        owed.iter()
            .filter(|what| self.met[**what as usize] < least)
            .map(|what| format!("with a memory {} {least} times", NAMES[*what as usize]))
            .collect()
    }

    /// Prints what was met.
    pub fn print(&self) {
        if self.met != [0; NAMES.len()] {
            println!("  widths met: {}", named_counts(&NAMES, &self.met));
        }
    }

    /// Counts a right width with a log whose questions all got 'yes'.
    pub fn count(&mut self, width: u16, records: &[Record]) {
        let what = match width {
            1 => Met::One,
            2..=9 => Met::Few,
            10..=99 => Met::Second,
            100..=4095 => Met::Many,
            _ => Met::Most,
        };
        self.add(what, true);
        if width == 1 {
            return;
        }
        let back = u32::from(width) - 1;
        let reach = |record: &Record| u32::from(record.last) + back;
        self.add(Met::CutOff, records.iter().any(|one| reach(one) > 65_535));
        self.add(
            Met::JustReached,
            records.iter().any(|one| reach(one) == 65_535),
        );
        let at_zero = |one: &Record| one.first == 0 && u32::from(one.last) < back;
        self.add(Met::AtZero, records.iter().any(at_zero));
        let gaps = gaps(records);
        self.add(Met::Closed, gaps.contains(&back));
        self.add(Met::JustOpen, gaps.contains(&(back + 1)));
        let alike = records.iter().enumerate().any(|(place, one)| {
            let others = records[place + 1..].iter();
            let same = |other: &&Record| {
                Record {
                    last: one.last,
                    ..**other
                } == *one
            };
            reach(one) >= 65_535
                && others
                    .clone()
                    .filter(same)
                    .any(|other| other.last != one.last && reach(other) >= 65_535)
        });
        self.add(Met::Alike, alike);
    }
}

/// How many uncovered frames lie between two covered ones of a group, without a memory: of each gap.
fn gaps(records: &[Record]) -> Vec<u32> {
    let mut gaps = Vec::new();
    for group in 0..8 {
        let mut frames: Vec<(u32, u32)> = records
            .iter()
            .filter(|record| record.group == group)
            .map(|record| (u32::from(record.first), u32::from(record.last)))
            .collect();
        frames.sort_unstable();
        let mut covered = None;
        for (first, last) in frames {
            // The frames so far end at the last one that is covered.
            match covered {
                Some(end) if first > end + 1 => gaps.push(first - end - 1),
                _ => {}
            }
            covered = Some(covered.unwrap_or(0).max(last));
        }
    }
    gaps
}
