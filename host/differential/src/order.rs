//! Any order of the log: every log that a part runs is run again with the same records in another
//! order. The library has to give the same answer and the same bytes for it.

use crate::check::{self, Checked};
use crate::compare::{add_counts, named_counts, number, same, same_places};
use crate::random::Random;
use crate::windows::Windows;
use pacer::{c, RECORDS, RECORD_BYTES, SEGMENT_PLACES, SLOT_BYTES};

/// What a call was that was held to another order.
#[derive(Clone, Copy)]
pub enum Met {
    /// Accepted by the segment call, or by a query: by a bound, by beats, by scenes.
    Segments,
    ByBound,
    ByBeats,
    ByScenes,
    /// Accepted with a memory of more than one frame: by the segment call, and by a bound.
    SegmentsMemory,
    ByBoundMemory,
    /// Refused in every order: too few rows (10) or too many (20), for what was asked (2, 3, 18, 19),
    /// for the width (25), or for the log (4 to 9 and 21).
    TooFew,
    TooMany,
    AskedWrong,
    WrongWidth,
    WrongLog,
    /// On a log of 128 records that passes its questions.
    Longest,
    /// At an end of the reduction, of a log that has more segments than runs: accepted with the
    /// fewest rows, refused with one below them, with as many rows as segments, and with the shares
    /// 0 and 1,000.
    Fewest,
    BelowFewest,
    NothingMerged,
    Share0,
    Share1000,
}

/// The names of what was met, in its order.
const NAMES: [&str; 17] = [
    "accepted by the segment call",
    "accepted by a bound",
    "accepted by beats",
    "accepted by scenes",
    "accepted by the segment call with a memory",
    "accepted by a bound with a memory",
    "refused with 10",
    "refused with 20",
    "refused for what is asked",
    "refused for the width",
    "refused for the log",
    "of 128 records",
    "with a limit equal to the runs",
    "with a limit one below the runs",
    "with nothing merged",
    "with the share 0",
    "with the share 1000",
];

/// What was held to another order, and how often. A log in another order has other bytes: logs of
/// one record, of none and of equal ones have one order alone, and are not counted.
#[derive(Clone, Copy, Default)]
pub struct Shuffled {
    met: [u64; NAMES.len()],
    /// Accepted queries by kind, by a bound and by windows.
    bound_kinds: [u64; 5],
    window_kinds: [u64; 5],
}

impl Shuffled {
    pub fn join(&mut self, other: &Shuffled) {
        add_counts([
            (&mut self.met, &other.met),
            (&mut self.bound_kinds, &other.bound_kinds),
            (&mut self.window_kinds, &other.window_kinds),
        ]);
    }

    fn add(&mut self, what: Met, is_so: bool) {
        self.met[what as usize] += u64::from(is_so);
    }

    /// What was never met, of what has to be.
    pub fn missing(&self, owed: &[Met]) -> Vec<String> {
        owed.iter()
            .filter(|what| self.met[**what as usize] == 0)
            .map(|what| format!("a log in another order {}", NAMES[*what as usize]))
            .collect()
    }

    /// What no query by a bound met, of what they must meet, with accepted ones of these kinds.
    pub fn missing_by_bound(&self, kinds: &[u8]) -> Vec<String> {
        let mut missing = self.missing(&[
            Met::ByBound,
            Met::ByBoundMemory,
            Met::TooFew,
            Met::Fewest,
            Met::BelowFewest,
            Met::NothingMerged,
            Met::Share0,
            Met::Share1000,
        ]);
        missing.extend(kinds_missing("by a bound", &self.bound_kinds, kinds));
        missing
    }

    /// What no query by windows met, of what they must meet, with accepted ones of all kinds.
    pub fn missing_by_windows(&self) -> Vec<String> {
        let kinds: Vec<u8> = (0..=reference::MOST_KIND).collect();
        let mut missing = self.missing(&[Met::ByBeats, Met::ByScenes]);
        missing.extend(kinds_missing("by windows", &self.window_kinds, &kinds));
        missing
    }

    /// Prints what was met.
    pub fn print(&self) {
        println!("  in another order: {}", named_counts(&NAMES, &self.met));
        for (what, kinds) in [
            ("a bound", self.bound_kinds),
            ("windows", self.window_kinds),
        ] {
            if kinds != [0; 5] {
                println!("    by {what}: by kind {kinds:?}");
            }
        }
    }
}

fn kinds_missing(what: &str, counts: &[u64; 5], kinds: &[u8]) -> Vec<String> {
    kinds
        .iter()
        .filter(|kind| counts[usize::from(**kind)] == 0)
        .map(|kind| format!("a log in another order accepted {what} of kind {kind}"))
        .collect()
}

/// What a query asks, but for its kind.
#[derive(Clone, Copy)]
pub enum Ask<'a> {
    /// Rule, bound and width.
    Bound(u8, u16, u16),
    Windows(&'a Windows),
}

impl Ask<'_> {
    pub fn library(&self, kind: u8, log: &[u8], slot: &mut [u8]) -> c::QueryAnswer {
        match self {
            Ask::Bound(rule, bound, width) => c::query(kind, *rule, *bound, *width, log, slot),
            Ask::Windows(windows) => windows.library(kind, log, slot),
        }
    }
}

/// The numbers of the safe function's answer.
pub fn answer_of(outcome: Result<pacer::Reduction, pacer::Refusal>) -> c::QueryAnswer {
    match outcome {
        Ok(found) => c::QueryAnswer {
            question: 0,
            index: 0,
            rows: found.rows,
            error: found.error,
            weighed: found.weighed,
        },
        Err(refusal) => c::QueryAnswer {
            question: refusal.question,
            index: refusal.index,
            rows: 0,
            error: 0,
            weighed: 0,
        },
    }
}

/// The same records in other orders, each with its name: always at random, and of every tenth log
/// also from the last to the first, by their bytes, and with the first ones put behind the others.
/// None where the log has one order alone. Bytes behind the last whole record stay where they are.
pub fn orders(random: &mut Random, log: &[u8]) -> Vec<(&'static str, Vec<u8>)> {
    let (whole, rest) = log.split_at(log.len() - log.len() % RECORD_BYTES);
    let records: Vec<&[u8]> = whole.chunks_exact(RECORD_BYTES).collect();
    if records.iter().all(|record| *record == records[0]) {
        return Vec::new();
    }
    let mut shuffled = records.clone();
    for place in (1..shuffled.len()).rev() {
        shuffled.swap(place, random.range(0, place as u64) as usize);
    }
    if shuffled == records {
        shuffled.rotate_left(1);
    }
    let mut orders = vec![("shuffled", shuffled)];
    if random.percent(10) {
        let reversed = records.iter().rev().copied().collect();
        let mut sorted = records.clone();
        sorted.sort_unstable();
        let mut rotated = records.clone();
        rotated.rotate_left(random.range(1, records.len() as u64 - 1) as usize);
        orders.extend([
            ("reversed", reversed),
            ("sorted", sorted),
            ("rotated", rotated),
        ]);
    }
    orders
        .into_iter()
        .filter(|(_, order)| *order != records)
        .map(|(name, order)| (name, [&order.concat(), rest].concat()))
        .collect()
}

/// The question and index that another order of a log gets, where the log as it was got this one.
/// What the log fails of its own depends on the order, and is what the reference says; but a log
/// that fails passes in no order. Everything else does not depend on it.
fn due(question: u8, index: usize, other: &[u8]) -> Result<(u8, usize), String> {
    match question {
        4..=9 | 21 => {
            let no = number(&reference::ask_log(other));
            same("the reference passes no order", no.0 != 0, true)?;
            Ok(no)
        }
        _ => {
            same("the index of no record", index, 0)?;
            Ok((question, 0))
        }
    }
}

fn context(name: &str, log: &[u8], why: String) -> String {
    let bytes: String = log.iter().map(|byte| format!("{byte:02x}")).collect();
    format!("in another order, {why}; the log {name}: {bytes}")
}

/// The numbers of segments and of runs that the library finds in a log.
fn segments_and_runs(kind: u8, width: u16, log: &[u8]) -> (usize, usize) {
    let mut list = [c::Segment::default(); SEGMENT_PLACES];
    let count = c::segments(log, kind, width, &mut list).count;
    let apart = |pair: &&[c::Segment]| {
        pair[0].group != pair[1].group || u32::from(pair[0].last) + 1 != u32::from(pair[1].first)
    };
    let gaps = list[..count].windows(2).filter(apart).count();
    (count, gaps + usize::from(count > 0))
}

/// Counts a query that was held to another order.
fn count(
    kind: u8,
    ask: Ask,
    log: &[u8],
    (segments, runs): (usize, usize),
    answer: &c::QueryAnswer,
    counts: &mut Shuffled,
) {
    let accepted = answer.question == 0;
    match answer.question {
        0 => {}
        10 => counts.add(Met::TooFew, true),
        20 => counts.add(Met::TooMany, true),
        4..=9 | 21 => return counts.add(Met::WrongLog, true),
        25 => return counts.add(Met::WrongWidth, true),
        _ => return counts.add(Met::AskedWrong, true),
    }
    counts.add(Met::Longest, log.len() == RECORDS * RECORD_BYTES);
    match ask {
        Ask::Bound(rule, bound, width) => {
            counts.add(Met::ByBound, accepted);
            counts.add(Met::ByBoundMemory, accepted && width > c::ONE_FRAME);
            counts.bound_kinds[usize::from(kind)] += u64::from(accepted);
            if segments == runs {
                return;
            }
            let bound = usize::from(bound);
            if rule == c::ROWS {
                counts.add(Met::Fewest, accepted && bound == runs);
                counts.add(Met::BelowFewest, answer.question == 10 && bound + 1 == runs);
                let all = answer.rows == segments && (bound == segments || bound == pacer::ROWS);
                counts.add(Met::NothingMerged, accepted && all);
            } else {
                counts.add(Met::Share0, accepted && bound == 0);
                counts.add(Met::Share1000, accepted && bound == 1000);
            }
        }
        Ask::Windows(windows) => {
            let what = match windows {
                Windows::Beats(..) => Met::ByBeats,
                Windows::Scenes(..) => Met::ByScenes,
            };
            counts.add(what, accepted);
            counts.window_kinds[usize::from(kind)] += u64::from(accepted);
        }
    }
}

/// Holds a query to other orders of its log: `answer` and `slot` are what the library gave for the
/// log as it is. Another order gets a slot with other bytes in it, and often one of another length.
/// Where the slot was too short, the log is asked once more with one that is long enough.
pub fn query(
    random: &Random,
    kind: u8,
    ask: Ask,
    log: &[u8],
    (answer, slot): (c::QueryAnswer, &[u8]),
    counts: &mut Shuffled,
) -> Result<(), String> {
    let mut random = random.beside();
    let orders = orders(&mut random, log);
    if orders.is_empty() {
        return Ok(());
    }
    if slot.len() < SLOT_BYTES {
        let mut slot = random.bytes(SLOT_BYTES);
        let answer = ask.library(kind, log, &mut slot);
        return query(&random, kind, ask, log, (answer, &slot), counts);
    }
    let sizes = match (ask, answer.question) {
        (Ask::Bound(_, _, width), 0 | 10) => segments_and_runs(kind, width, log),
        _ => (0, 0),
    };
    for (name, other) in orders {
        let length = random.pick(&[SLOT_BYTES, SLOT_BYTES, SLOT_BYTES + 1, 1000]);
        let before = random.bytes(length);
        let mut found = before.clone();
        let again = ask.library(kind, &other, &mut found);
        let hold = || {
            let (question, index) = due(answer.question, answer.index, &other)?;
            let expected = c::QueryAnswer {
                question,
                index,
                ..answer
            };
            same("query", again, expected)?;
            let mut after = before;
            if question == 0 {
                after[..SLOT_BYTES].copy_from_slice(&slot[..SLOT_BYTES]);
            }
            same_places("slot", &found, &after)
        };
        hold().map_err(|why| context(name, &other, why))?;
        count(kind, ask, log, sizes, &answer, counts);
    }
    Ok(())
}

/// Holds the segment call to other orders of its log: `answer` and `list` are what the library gave
/// for the log as it is.
pub fn segments(
    random: &Random,
    kind: u8,
    width: u16,
    log: &[u8],
    (answer, list): (c::SegmentsAnswer, &[c::Segment]),
    counts: &mut Shuffled,
) -> Result<(), String> {
    let mut random = random.beside();
    let orders = orders(&mut random, log);
    if orders.is_empty() {
        return Ok(());
    }
    if list.len() < SEGMENT_PLACES {
        let mut list = [c::Segment::default(); SEGMENT_PLACES];
        let answer = c::segments(log, kind, width, &mut list);
        return segments(&random, kind, width, log, (answer, &list), counts);
    }
    for (name, other) in orders {
        let noise = random.next();
        let blank = c::Segment {
            group: noise as u8,
            first: (noise >> 8) as u16,
            last: (noise >> 24) as u16,
            value: (noise >> 32) as u32,
        };
        let length = random.pick(&[SEGMENT_PLACES, SEGMENT_PLACES, SEGMENT_PLACES + 1, 300]);
        let mut found = vec![blank; length];
        let again = c::segments(&other, kind, width, &mut found);
        let hold = || {
            let (question, index) = due(answer.question, answer.index, &other)?;
            let expected = c::SegmentsAnswer {
                question,
                index,
                count: answer.count,
            };
            same("segments", again, expected)?;
            let mut after = vec![blank; length];
            after[..answer.count].copy_from_slice(&list[..answer.count]);
            same_places("list of segments", &found, &after)
        };
        hold().map_err(|why| context(name, &other, why))?;
        let what = match answer.question {
            0 => Met::Segments,
            2 => Met::AskedWrong,
            25 => Met::WrongWidth,
            _ => Met::WrongLog,
        };
        counts.add(what, true);
        let memory = answer.question == 0 && width > c::ONE_FRAME;
        counts.add(Met::SegmentsMemory, memory);
        let longest = log.len() == RECORDS * RECORD_BYTES;
        counts.add(Met::Longest, answer.question == 0 && longest);
    }
    Ok(())
}

/// Both ends of the reduction of a log that passes its questions, with a right width: the fewest rows
/// and one below them, as many as there are segments or as a slot holds, and the least and the greatest
/// shares. What is written there is held to the log too.
pub fn ends(
    random: &Random,
    kind: u8,
    width: u16,
    log: &[u8],
    counts: &mut Shuffled,
    checked: &mut Checked,
) -> Result<(), String> {
    let (segments, runs) = segments_and_runs(kind, width, log);
    let limits = [runs, runs.wrapping_sub(1), segments, pacer::ROWS];
    let bounds = limits
        .into_iter()
        .filter(|limit| *limit <= pacer::ROWS)
        .map(|limit| (c::ROWS, limit as u16))
        .chain([0, 1, 999, 1000].map(|share| (c::SHARE, share)));
    for (rule, bound) in bounds {
        let ask = Ask::Bound(rule, bound, width);
        let mut slot = [0xEE; SLOT_BYTES];
        let answer = ask.library(kind, log, &mut slot);
        query(random, kind, ask, log, (answer, &slot), counts)
            .and_then(|()| check::written(random, ask, log, (answer, &slot), 1, checked))
            .map_err(|why| {
                format!("kind {kind}, rule {rule:#x}, bound {bound}, width {width}: {why}")
            })?;
    }
    Ok(())
}
