//! A slot against its log. What a query writes by a bound passes with its log and the query's own width,
//! in every order of the records; by windows it is refused by its header. Slots that are damaged or made
//! otherwise, and slots with another width than their own, are compared with the independent
//! implementation, and none that passes is better than the query.

use crate::compare::{add_counts, named_counts, number, same};
use crate::inputs;
use crate::order::{self, Ask};
use crate::random::Random;
use pacer::{c, RECORD_BYTES, SLOT_BYTES};
use reference::brute::{self, Frame};
use reference::{Contents, Stretch};

/// What was held to a log.
#[derive(Clone, Copy)]
pub enum Met {
    /// As a query by a bound wrote it: with its log, and with the records in another order.
    Written,
    Reordered,
    /// As a query by windows wrote it, refused by 11.
    ByWindows,
    /// Otherwise than a query wrote it, and accepted: its rows cut finer, or with something else
    /// changed; and in another order of the records.
    Finer,
    Otherwise,
    OtherwiseReordered,
    /// As a query with a memory of more than one frame wrote it.
    Remembered,
    /// As a query wrote it, with another width than its own: accepted, and refused by 22, 23 and 24.
    OtherWidth,
    OtherCover,
    OtherBelow,
    OtherError,
    /// Refused: for a short slot (1), for the width (25), for the log (4 to 9 and 21), for the slot (11
    /// to 17), and by 22, 23 and 24.
    Short,
    WrongWidth,
    WrongLog,
    WrongSlot,
    Cover,
    Below,
    Error,
    /// A fitting list of a small log, of those with every cutting and many numbers, accepted or one
    /// below a value of kind 3; and those accepted with a memory.
    List,
    ListBelow,
    ListRemembered,
}

/// The names of what was met, in its order.
const NAMES: [&str; 21] = [
    "accepted as written",
    "accepted as written in another order",
    "by windows refused by 11",
    "accepted with rows cut finer",
    "accepted otherwise",
    "accepted finer or otherwise in another order",
    "accepted as written with a memory",
    "accepted with another width",
    "with another width refused by 22",
    "with another width refused by 23",
    "with another width refused by 24",
    "refused by 1",
    "refused by 25",
    "refused for the log",
    "refused for the slot",
    "refused by 22",
    "refused by 23",
    "refused by 24",
    "accepted of all fitting lists",
    "refused by 23 of all fitting lists",
    "accepted of all fitting lists with a memory",
];

/// What was held to a log, and how often.
#[derive(Clone, Copy, Default)]
pub struct Checked {
    met: [u64; NAMES.len()],
    /// Accepted slots by kind: as written, and otherwise.
    written_kinds: [u64; 5],
    other_kinds: [u64; 5],
}

impl Checked {
    pub fn join(&mut self, other: &Checked) {
        add_counts([
            (&mut self.met, &other.met),
            (&mut self.written_kinds, &other.written_kinds),
            (&mut self.other_kinds, &other.other_kinds),
        ]);
    }

    fn add(&mut self, what: Met) {
        self.met[what as usize] += 1;
    }

    /// What was met fewer than so many times.
    pub fn missing(&self, owed: &[Met], least: u64) -> Vec<String> {
        owed.iter()
            .filter(|what| self.met[**what as usize] < least)
            .map(|what| format!("a slot {} {least} times", NAMES[*what as usize]))
            .collect()
    }

    /// The kinds of which no slot was accepted as written, or otherwise.
    pub fn missing_kinds(&self, kinds: &[u8]) -> Vec<String> {
        let pairs = [
            ("as written", &self.written_kinds),
            ("otherwise", &self.other_kinds),
        ];
        let mut missing = Vec::new();
        for (what, counts) in pairs {
            for kind in kinds.iter().filter(|kind| counts[usize::from(**kind)] == 0) {
                missing.push(format!(
                    "a slot accepted {what} with its log, of kind {kind}"
                ));
            }
        }
        missing
    }

    /// Prints what was met.
    pub fn print(&self) {
        if self.met == [0; NAMES.len()] {
            return;
        }
        println!(
            "  slots held to their logs: {}",
            named_counts(&NAMES, &self.met)
        );
        if self.written_kinds != [0; 5] {
            println!(
                "    by kind, as written {:?}, accepted otherwise {:?}",
                self.written_kinds, self.other_kinds
            );
        }
    }
}

/// The question and index that the library gives, the same by the safe functions: of the width 1 also by
/// the one that takes none.
fn library(log: &[u8], width: u16, slot: &[u8]) -> Result<(u8, usize), String> {
    let answer = c::check(log, width, slot);
    let found = (answer.question, answer.index);
    let numbers = |outcome| match outcome {
        Ok(()) => (0, 0),
        Err(pacer::Refusal { question, index }) => (question, index),
    };
    let safe = numbers(pacer::check_with_memory(log, width, slot));
    same("safe check", safe, found)?;
    if width == c::ONE_FRAME {
        let safe = numbers(pacer::check(log, slot));
        same("safe check without a memory", safe, found)?;
    }
    Ok(found)
}

/// A slot that passes is no better than the query's own answer of the same width with as many rows.
fn no_better(log: &[u8], width: u16, slot: &[u8]) -> Result<(), String> {
    let read = c::read(slot);
    let mut best = [0; SLOT_BYTES];
    let limit = read.rows as u16;
    let answer = c::query(read.kind, c::ROWS, limit, width, log, &mut best);
    same("the query with as many rows", answer.question, 0)?;
    let better = read.rows < answer.rows || read.error < answer.error;
    same("a slot better than the query's", better, false)
}

/// Adds where two things differ: the width, and the bytes of both.
fn context(log: &[u8], width: u16, slot: &[u8], why: String) -> String {
    let hexadecimal = |bytes: &[u8]| -> String {
        let bytes = bytes.iter().map(|byte| format!("{byte:02x}"));
        bytes.collect()
    };
    let (log, slot) = (hexadecimal(log), hexadecimal(slot));
    format!("a slot with its log: {why}; width {width}, log {log}, slot {slot}")
}

/// Holds what the library says of a log and a slot to the independent implementation. Gives the
/// question and the index.
fn compared(log: &[u8], width: u16, slot: &[u8]) -> Result<(u8, usize), String> {
    let hold = || {
        let expected = number(&reference::check(log, width, slot));
        same("check", library(log, width, slot)?, expected)?;
        if expected.0 == 0 {
            no_better(log, width, slot)?;
        }
        Ok(expected)
    };
    hold().map_err(|why| context(log, width, slot, why))
}

/// Counts what a log and a slot got that no query wrote.
fn count(question: u8, cut_finer: bool, slot: &[u8], counts: &mut Checked) {
    counts.add(match question {
        0 if cut_finer => Met::Finer,
        0 => Met::Otherwise,
        1 => Met::Short,
        25 => Met::WrongWidth,
        4..=9 | 21 => Met::WrongLog,
        22 => Met::Cover,
        23 => Met::Below,
        24 => Met::Error,
        _ => Met::WrongSlot,
    });
    if question == 0 {
        counts.other_kinds[usize::from(slot[2])] += 1;
    }
}

/// Any log with any slot and any width.
pub fn any(log: &[u8], width: u16, slot: &[u8], counts: &mut Checked) -> Result<(), String> {
    let (question, _) = compared(log, width, slot)?;
    count(question, false, slot, counts);
    Ok(())
}

/// The frames from the first that a record names to the last, over all groups: what it costs to go
/// through a log.
fn span(log: &[u8]) -> u64 {
    let records = reference::records(log);
    let first = records.iter().map(|record| record.first).min().unwrap_or(0);
    let last = records.iter().map(|record| record.last).max().unwrap_or(0);
    u64::from(last.saturating_sub(first)) + 1
}

/// A slot that a query wrote with a width, and its log, with other widths: those beside it, without a
/// memory, wrong ones, and seldom any.
fn other_widths(
    random: &mut Random,
    log: &[u8],
    width: u16,
    slot: &[u8],
    counts: &mut Checked,
) -> Result<(), String> {
    let beside = random.pick(&[width - 1, width + 1, width - 1, width + 1, c::ONE_FRAME]);
    let small = random.range(1, 9) as u16;
    let anywhere = random.range(1, 5000) as u16;
    let other = match random.range(0, 99) {
        0..=79 => beside,
        80..=93 => small,
        94..=96 => random.pick(&[0, 4097, 4098, 8192, 65_535]),
        _ => random.pick(&[60, 4096, anywhere]),
    };
    if other == width {
        return Ok(());
    }
    let (question, _) = compared(log, other, slot)?;
    counts.add(match question {
        0 => Met::OtherWidth,
        22 => Met::OtherCover,
        23 => Met::OtherBelow,
        24 => Met::OtherError,
        25 => Met::WrongWidth,
        _ => return Err(format!("a slot with another width: question {question}")),
    });
    Ok(())
}

/// The slot that a query wrote, with its log: by a bound it passes with the query's own width, in other
/// orders of the records too; by windows it is refused by 11, and compared under the other header. So
/// many slots are then made otherwise from one by a bound, and every second one is held to its log with
/// another width. Of logs over very many frames, and with a memory of very many, few are, since each
/// frame is gone to.
pub fn written(
    random: &Random,
    ask: Ask,
    log: &[u8],
    (answer, slot): (c::QueryAnswer, &[u8]),
    others: u64,
    counts: &mut Checked,
) -> Result<(), String> {
    if answer.question != 0 {
        return Ok(());
    }
    let mut random = random.beside();
    let width = match ask {
        Ask::Bound(_, _, width) => width,
        // A query by windows has none; the check is asked with any.
        Ask::Windows(_) => random.pick(&[1, 1, 1, 2, 5, 60]),
    };
    let at = |why| context(log, width, slot, why);
    let seldom = match span(log) + u64::from(width) {
        0..=2_001 => false,
        2_002..=9_999 => !random.percent(15),
        _ => !random.percent(4),
    };
    if let Ask::Windows(_) = ask {
        let found = library(log, width, slot).map_err(at)?;
        same("by windows", found, (11, 0)).map_err(at)?;
        counts.add(Met::ByWindows);
        if seldom || !random.percent(25) {
            return Ok(());
        }
        let mut other = slot.to_vec();
        other[1] = reference::BY_BOUND;
        return any(log, width, &other, counts);
    }
    let as_written = library(log, width, slot).map_err(at)?;
    same("as written", as_written, (0, 0)).map_err(at)?;
    no_better(log, width, slot).map_err(at)?;
    counts.add(Met::Written);
    if width > c::ONE_FRAME {
        counts.add(Met::Remembered);
    }
    counts.written_kinds[usize::from(slot[2])] += 1;
    for (name, other) in order::orders(&mut random, log) {
        let found = library(&other, width, slot)?;
        same(name, found, (0, 0)).map_err(|why| context(&other, width, slot, why))?;
        counts.add(Met::Reordered);
    }
    if seldom {
        return Ok(());
    }
    if random.percent(50) {
        other_widths(&mut random, log, width, slot, counts)?;
    }
    let contents = reference::read(slot).map_err(|no| format!("the reference: {no:?}"))?;
    let frames = reference::covered(&reference::records(log), contents.kind, width);
    for _ in 0..others {
        let made = made(&mut random, (log, width), slot, &contents, &frames);
        if made.log == log && made.slot.starts_with(&slot[..SLOT_BYTES]) {
            continue;
        }
        let Made {
            log,
            slot,
            cut_finer,
        } = made;
        let answer = compared(&log, width, &slot)?;
        count(answer.0, cut_finer, &slot, counts);
        if matches!(answer.0, 4..=9 | 21) {
            continue;
        }
        // The answer does not depend on the order of a log that passes.
        for (name, other) in order::orders(&mut random, &log) {
            let at = |why| context(&other, width, &slot, why);
            let found = library(&other, width, &slot).map_err(at)?;
            same(name, found, answer).map_err(at)?;
            if answer.0 == 0 {
                counts.add(Met::OtherwiseReordered);
            }
        }
    }
    Ok(())
}

// ---------------------------------------------------------------------------------------------
// Slots made otherwise

/// A log and a slot that were made from a slot that passes.
struct Made {
    log: Vec<u8>,
    slot: Vec<u8>,
    /// Whether rows were cut and nothing else was changed.
    cut_finer: bool,
}

/// The squared error of some rows over the frames that lie in one, frame by frame.
fn error_of(rows: &[Stretch], frames: &[Frame]) -> u64 {
    frames
        .iter()
        .filter_map(|(group, frame, value)| {
            let row = rows.iter().find(|row| row.contains(*group, *frame))?;
            Some(u64::from(row.value.abs_diff(*value)).pow(2))
        })
        .sum()
}

/// Cuts a row in two at a random frame, if there is one to be cut and room for one more.
fn cut(random: &mut Random, rows: &mut Vec<Stretch>) -> bool {
    let long: Vec<usize> = (0..rows.len())
        .filter(|place| rows[*place].length() > 1)
        .collect();
    if long.is_empty() || rows.len() == pacer::ROWS {
        return false;
    }
    let place = random.pick(&long);
    let row = rows[place];
    let first = random.range(u64::from(row.first) + 1, u64::from(row.last)) as u16;
    rows[place].last = first - 1;
    rows.insert(place + 1, Stretch { first, ..row });
    true
}

/// A row that lies nowhere else: between others, behind them or in any group, near a row or not.
fn more(random: &mut Random, rows: &mut Vec<Stretch>) {
    let anywhere = random.next() as u16;
    let (group, frame) = match rows.len() as u64 {
        0 => (random.range(0, 7) as u8, anywhere),
        count => {
            let near = rows[random.range(0, count - 1) as usize];
            let other = random.range(0, 7) as u8;
            let group = random.pick(&[near.group, near.group, other]);
            let before = near.first.wrapping_sub(1);
            let behind = near.last.wrapping_add(1);
            (group, random.pick(&[before, behind, behind, anywhere]))
        }
    };
    if rows.len() < pacer::ROWS && !rows.iter().any(|row| row.contains(group, u32::from(frame))) {
        rows.push(Stretch {
            group,
            first: frame,
            last: frame,
            value: random.range(0, 1000) as u32,
        });
        rows.sort_by_key(|row| (row.group, row.first));
    }
}

/// A step to a neighbouring number, and seldom to any.
fn step(random: &mut Random, from: u32, most: u32) -> u32 {
    let anywhere = random.range(0, u64::from(most)) as u32;
    random.pick(&[
        from.saturating_sub(1),
        from.saturating_sub(1),
        (from + 1).min(most),
        (from + 1).min(most),
        anywhere,
    ])
}

/// One slot or log made from a slot that passes with its log and width, of which the contents and the
/// covered frames with their values are given. Where there is nothing to change, both are as they were.
fn made(
    random: &mut Random,
    (log, width): (&[u8], u16),
    slot: &[u8],
    contents: &Contents,
    frames: &[Frame],
) -> Made {
    let Contents {
        mut kind,
        mut error,
        ..
    } = *contents;
    let mut rows = contents.rows.clone();
    let unchanged = |log: Vec<u8>, slot: Vec<u8>| Made {
        log,
        slot,
        cut_finer: false,
    };
    let place = random.range(0, (rows.len() as u64).max(1) - 1) as usize;
    let mut cut_finer = false;
    match random.range(0, 19) {
        // Rows cut finer, one in three times with another value and its error.
        0..=3 => {
            for _ in 0..random.range(1, 3) {
                cut_finer |= cut(random, &mut rows);
            }
            if random.percent(33) && !rows.is_empty() {
                let place = random.range(0, rows.len() as u64 - 1) as usize;
                rows[place].value = step(random, rows[place].value, 128_000);
                error = error_of(&rows, frames);
                cut_finer = false;
            }
        }
        4 | 5 => {
            let bit = 1 << random.range(0, 63);
            let (less, more) = (error.wrapping_sub(1), error.wrapping_add(1));
            error = random.pick(&[less, more, 0, error ^ bit, u64::MAX]);
        }
        // Another value: with the error as it was, and with that of the value.
        6..=9 if !rows.is_empty() => {
            rows[place].value = step(random, rows[place].value, 128_000);
            if random.percent(70) {
                error = error_of(&rows, frames);
            }
        }
        // Another first or last frame, often of a row that was cut, so that two are apart.
        10 | 11 if !rows.is_empty() => {
            if random.percent(40) {
                cut(random, &mut rows);
            }
            let place = random.range(0, rows.len() as u64 - 1) as usize;
            let row = &mut rows[place];
            if random.percent(50) {
                row.first = step(random, u32::from(row.first), 65_535) as u16;
            } else {
                row.last = step(random, u32::from(row.last), 65_535) as u16;
            }
        }
        12 if !rows.is_empty() => {
            rows[place].group = step(random, u32::from(rows[place].group), 7) as u8;
            rows.sort_by_key(|row| (row.group, row.first));
        }
        13 if !rows.is_empty() => {
            rows.remove(place);
            error = error_of(&rows, frames);
        }
        14 => more(random, &mut rows),
        // Two rows next to each other in one, which may lie across a gap.
        15 if place + 1 < rows.len() && rows[place].group == rows[place + 1].group => {
            let next = rows.remove(place + 1);
            rows[place].last = next.last;
            rows[place].value = rows[place].value.max(next.value);
            if random.percent(60) {
                error = error_of(&rows, frames);
            }
        }
        16 => {
            kind = random.range(0, u64::from(reference::MOST_KIND)) as u8;
            if random.percent(60) {
                let frames = reference::covered(&reference::records(log), kind, width);
                error = error_of(&rows, &frames);
            }
        }
        // A record left out, or one more: the slot belongs to another log.
        17 => {
            let mut log = log.to_vec();
            if random.percent(50) && !log.is_empty() {
                let count = (log.len() / RECORD_BYTES) as u64;
                let at = RECORD_BYTES * random.range(0, count - 1) as usize;
                log.drain(at..at + RECORD_BYTES);
            } else if let (Some(row), true) = (rows.get(place), log.len() < 128 * RECORD_BYTES) {
                let last = step(random, u32::from(row.last), 65_535) as u16;
                let load = random.range(0, 1000) as u16;
                log.extend(inputs::log_of(&[(row.group, row.first, last, load)]));
            }
            return unchanged(log, slot.to_vec());
        }
        18 => {
            let mut slot = slot.to_vec();
            if random.percent(20) {
                slot.truncate(random.pick(&[0, 12, 767]));
            } else {
                inputs::damage_slot(random, &mut slot);
            }
            return unchanged(log.to_vec(), slot);
        }
        _ => {
            let mut log = log.to_vec();
            inputs::damage_log(random, &mut log);
            return unchanged(log, slot.to_vec());
        }
    }
    let mut slot = reference::layout(reference::BY_BOUND, kind, error, &rows);
    if random.percent(20) {
        slot.extend(random.bytes(9));
    }
    Made {
        log: log.to_vec(),
        slot,
        cut_finer,
    }
}

// ---------------------------------------------------------------------------------------------
// Every fitting list of a small log

/// The most combinations of numbers for which every list is gone through.
const LISTS: u64 = 1_000;

/// What the lists say of a slot's rows and error, by trying each frame: the question.
fn due(kind: u8, rows: &[Stretch], error: u64, frames: &[Frame]) -> u8 {
    if !brute::fits(rows, frames, 0) {
        22
    } else if !brute::fits(rows, frames, kind) {
        23
    } else if error != brute::squared_error(rows, frames) {
        24
    } else {
        0
    }
}

/// Every fitting list of a small log that a slot can hold, with every cutting and all numbers that
/// are tried: laid out with its error it is accepted, and by kind 3 refused by 23 if it is below a
/// value somewhere. With an error beside it, it is refused. Each list is also tried with one row
/// left out, or with a frame less or more, which may be right or wrong by chance.
pub fn lists(
    random: &Random,
    kind: u8,
    (log, width): (&[u8], u16),
    frames: &[Frame],
    numbers: u64,
    counts: &mut Checked,
) -> Result<(), String> {
    if numbers.saturating_pow(frames.len() as u32) > LISTS {
        return Ok(());
    }
    let mut random = random.beside();
    let mut outcome = Ok(());
    // By kind 0 every number fits.
    brute::each_list(frames, 0, &mut |list, error| {
        if outcome.is_ok() {
            let log = (log, width);
            outcome = one_list(&mut random, kind, log, frames, (list, error), counts);
        }
    });
    outcome
}

fn one_list(
    random: &mut Random,
    kind: u8,
    (log, width): (&[u8], u16),
    frames: &[Frame],
    (list, error): (&[brute::Part], u64),
    counts: &mut Checked,
) -> Result<(), String> {
    let mut rows: Vec<Stretch> = Vec::with_capacity(list.len());
    for (start, end, number) in list {
        let Ok(value) = u32::try_from(*number) else {
            return Ok(());
        };
        rows.push(Stretch {
            group: frames[*start].0,
            first: frames[*start].1 as u16,
            last: frames[*end - 1].1 as u16,
            value,
        });
    }
    let hold = |rows: &[Stretch], error: u64, expected: u8| {
        let slot = reference::layout(reference::BY_BOUND, kind, error, rows);
        let at = |why| context(log, width, &slot, why);
        let found = library(log, width, &slot).map_err(at)?;
        same("a list of rows", found, (expected, 0)).map_err(at)
    };
    let expected = due(kind, &rows, error, frames);
    same("a fitting list", matches!(expected, 0 | 23), true)?;
    hold(&rows, error, expected)?;
    counts.add(if expected == 0 {
        Met::List
    } else {
        Met::ListBelow
    });
    if expected == 0 && width > c::ONE_FRAME {
        counts.add(Met::ListRemembered);
    }
    if random.percent(90) || rows.is_empty() {
        return Ok(());
    }
    let beside = random.pick(&[error + 1, error.wrapping_sub(1), 0]);
    hold(&rows, beside, due(kind, &rows, beside, frames))?;
    let place = random.range(0, rows.len() as u64 - 1) as usize;
    let before = rows.clone();
    match random.range(0, 2) {
        0 => {
            rows.remove(place);
        }
        1 => rows[place].last = rows[place].last.saturating_sub(1).max(rows[place].first),
        _ => rows[place].last = rows[place].last.saturating_add(1),
    }
    // Rows that have come to lie over each other are the reader's to refuse.
    let slot = reference::layout(reference::BY_BOUND, kind, error, &rows);
    if rows != before && reference::read(&slot).is_ok() {
        hold(&rows, error, due(kind, &rows, error, frames))?;
    }
    Ok(())
}
