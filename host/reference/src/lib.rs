//! An independent implementation of load profiles, to compare the proved library with.
//!
//! It is written from the paper's words for clarity and shares no code with the library. Its
//! means differ where they can: segments are found frame by frame, not from event to event; the
//! error of a block is summed over its segments, not computed from totals; the reduction is a
//! plain table over all cuts, with no early exit, and the cuts that the paper's scan weighs are
//! counted beside it. Rows by windows are found window by window, the empty ones included. Twins are
//! found in a set of the records' bytes. A slot is held to its log frame by frame. Many lookups go from
//! row to row and ask which pairs lie in it. With a memory, each
//! frame is asked which records meet the last frames; no record is made longer. [`brute`] goes
//! further: it tries every list of rows for a small log, goes through the frames of a window and
//! through the last frames of each frame, and holds every record to every earlier one.

#![forbid(unsafe_code)]

pub mod brute;

use std::cmp::Ordering;
use std::collections::HashSet;

/// The bound is a row limit.
pub const ROWS: u8 = 0x52;
/// The bound is an error share.
pub const SHARE: u8 = 0x45;
/// The greatest kind.
pub const MOST_KIND: u8 = 4;
/// The kind of the greatest load, whose rows must not fall short.
pub const GREATEST: u8 = 3;
/// The second byte of a slot's header: rows by a bound.
pub const BY_BOUND: u8 = 0x48;
/// The second byte of a slot's header: rows by windows.
pub const BY_WINDOWS: u8 = 0x53;
/// The greatest number of rows in a slot.
pub const MOST_ROWS: usize = 64;
/// The greatest number of pairs in many lookups.
pub const MOST_PAIRS: usize = 64;
/// The width without a memory.
pub const ONE_FRAME: u16 = 1;
/// The greatest width of a memory.
pub const MOST_WIDTH: u16 = 4096;
/// The last frame that there is.
const LAST_FRAME: u32 = 65_535;

/// The first question that got 'no', and the index of the record or row.
#[derive(Clone, Copy, Debug, PartialEq, Eq)]
pub struct No {
    pub question: u8,
    pub index: usize,
}

/// Consecutive frames of one group, both ends included, and a number: a segment or a row.
#[derive(Clone, Copy, Debug, PartialEq, Eq)]
pub struct Stretch {
    pub group: u8,
    pub first: u16,
    pub last: u16,
    pub value: u32,
}

impl Stretch {
    /// The number of frames.
    pub fn length(&self) -> u64 {
        u64::from(self.last) - u64::from(self.first) + 1
    }

    /// Whether the frame of the group lies in here.
    pub fn contains(&self, group: u8, frame: u32) -> bool {
        self.group == group && u32::from(self.first) <= frame && frame <= u32::from(self.last)
    }
}

/// One record of a log, as its bytes say, right or wrong.
#[derive(Clone, Copy, Debug, PartialEq, Eq)]
pub struct Record {
    pub mark: [u8; 2],
    pub group: u8,
    pub first: u16,
    pub last: u16,
    pub load: u16,
}

fn two(bytes: &[u8], at: usize) -> u16 {
    u16::from_le_bytes([bytes[at], bytes[at + 1]])
}

/// The whole records at the start of a log.
pub fn records(log: &[u8]) -> Vec<Record> {
    log.chunks_exact(9)
        .map(|bytes| Record {
            mark: [bytes[0], bytes[1]],
            group: bytes[2],
            first: two(bytes, 3),
            last: two(bytes, 5),
            load: two(bytes, 7),
        })
        .collect()
}

// ---------------------------------------------------------------------------------------------
// Questions

/// A question's number, the index it concerns, and whether the answer is 'yes'.
type Question = (u8, usize, bool);

/// The first question that got 'no'.
fn ask(questions: impl IntoIterator<Item = Question>) -> Result<(), No> {
    match questions.into_iter().find(|(_, _, yes)| !yes) {
        Some((question, index, _)) => Err(No { question, index }),
        None => Ok(()),
    }
}

/// Questions 4 to 9, and 21 of each record after its 9.
fn log_questions(log: &[u8]) -> Vec<Question> {
    let mut questions = Vec::new();
    let mut earlier = HashSet::new();
    let mut nines = log.chunks_exact(9);
    for (question, index, yes) in file_questions(log) {
        questions.push((question, index, yes));
        if question == 9 {
            questions.push((21, index, earlier.insert(nines.next())));
        }
    }
    questions
}

/// Questions 4 to 9: those of a log on file, which may have twins.
fn file_questions(log: &[u8]) -> Vec<Question> {
    let mut questions = vec![
        (4, 0, log.len().is_multiple_of(9)),
        (5, 0, log.len() / 9 <= 128),
    ];
    for (index, record) in records(log).iter().enumerate() {
        questions.push((6, index, record.mark == [0x4C, 0x44]));
        questions.push((7, index, record.group <= 7));
        questions.push((8, index, record.first <= record.last));
        questions.push((9, index, record.load <= 1000));
    }
    questions
}

/// The first of a log's own questions that got 'no', whichever call takes it but that for logs on
/// file.
pub fn ask_log(log: &[u8]) -> Result<(), No> {
    ask(log_questions(log))
}

/// Questions 1 and 11 to 17.
fn slot_questions(slot: &[u8]) -> Vec<Question> {
    let mut questions = vec![(1, 0, slot.len() >= 768)];
    if slot.len() < 768 {
        return questions;
    }
    let count = usize::from(slot[3]);
    let by_windows = slot[..2] == [0x50, BY_WINDOWS];
    questions.push((11, 0, slot[..2] == [0x50, BY_BOUND] || by_windows));
    questions.push((12, 0, slot[2] <= MOST_KIND));
    questions.push((13, 0, count <= 64));
    if count > 64 {
        return questions;
    }
    let rows: Vec<Stretch> = (0..count).map(|number| row(slot, number)).collect();
    for (index, row) in rows.iter().enumerate() {
        let at = 12 + 11 * index;
        questions.push((14, index, slot[at..at + 2] == [0x50, 0x52]));
        questions.push((
            15,
            index,
            row.group <= 7 && row.first <= row.last && row.value <= 128_000,
        ));
        let ordered = match index.checked_sub(1).map(|previous| rows[previous]) {
            None => true,
            Some(previous) => {
                row.group > previous.group
                    || (row.group == previous.group && row.first > previous.last)
            }
        };
        questions.push((16, index, ordered));
    }
    let after = 12 + 11 * count;
    let zero = |bytes: &[u8]| bytes.iter().all(|byte| *byte == 0);
    let no_error = !by_windows || zero(&slot[4..12]);
    questions.push((17, 0, zero(&slot[after..768]) && no_error));
    questions
}

// ---------------------------------------------------------------------------------------------
// Segments

/// The kind's aggregate of some loads, none if there are none.
fn aggregate(loads: &[u32], kind: u8) -> Option<u32> {
    if loads.is_empty() {
        return None;
    }
    let sum: u32 = loads.iter().sum();
    let count = loads.len() as u32;
    match kind {
        0 => Some(sum),
        1 => Some(count),
        2 => loads.iter().copied().min(),
        3 => loads.iter().copied().max(),
        // The mean in hundredths, rounded down.
        _ => Some(100 * sum / count),
    }
}

/// The last frames of a frame, as many as the width says, itself included: the first and the last of
/// them. There are none before frame 0.
fn last_frames(frame: u32, width: u16) -> Window {
    let first = frame.saturating_sub(u32::from(width) - 1);
    (first as u16, frame as u16)
}

/// The values of some frames, one after the other: for each the aggregate of the loads of the records
/// that contain at least one of its last frames, none if no record does. All records, at most 128, are
/// of the frames' group.
fn values<'a>(
    of_group: &'a [Record],
    kind: u8,
    width: u16,
    frames: impl Iterator<Item = u32> + 'a,
) -> impl Iterator<Item = (u32, Option<u32>)> + 'a {
    assert!(of_group.len() <= 128);
    // The records of the frame before, a bit for each, and its value: with the same records a frame
    // has the same value.
    let (mut before, mut value) = (0u128, None);
    frames.map(move |frame| {
        let window = last_frames(frame, width);
        let met = |record: &&Record| meets(record, window);
        let bits = of_group
            .iter()
            .rev()
            .fold(0, |bits, record| bits << 1 | u128::from(met(&record)));
        if bits != before {
            let records = of_group.iter().filter(met);
            let loads: Vec<u32> = records.map(|record| u32::from(record.load)).collect();
            (before, value) = (bits, aggregate(&loads, kind));
        }
        (frame, value)
    })
}

/// The frames of a group that a value may have to be asked for: from the first that a record contains
/// to the last one whose last frames reach one. Behind it, and before the first, no frame is covered.
fn reached(of_group: &[Record], width: u16) -> Option<(u32, u32)> {
    let first = of_group.iter().map(|record| record.first).min()?;
    let last = of_group.iter().map(|record| record.last).max()?;
    // Of a frame further behind, even the earliest of the last frames lies behind all records.
    let most = u32::from(last) + u32::from(width) - 1;
    Some((u32::from(first), most.min(LAST_FRAME)))
}

/// The records of a group.
fn of_group(records: &[Record], group: u8) -> Vec<Record> {
    records
        .iter()
        .copied()
        .filter(|record| record.group == group)
        .collect()
}

/// Every covered frame with its value, by group and then by frame. The width is at least 1.
pub fn covered(records: &[Record], kind: u8, width: u16) -> Vec<(u8, u32, u32)> {
    let mut frames = Vec::new();
    for group in 0..8 {
        let of_group = of_group(records, group);
        if let Some((first, last)) = reached(&of_group, width) {
            let values = values(&of_group, kind, width, first..=last);
            frames.extend(values.filter_map(|(frame, value)| Some((group, frame, value?))));
        }
    }
    frames
}

/// The segments of a log in order: the covered frames, joined where they are consecutive and
/// equal in value.
pub fn segments_of(records: &[Record], kind: u8, width: u16) -> Vec<Stretch> {
    let mut segments: Vec<Stretch> = Vec::new();
    for (group, frame, value) in covered(records, kind, width) {
        match segments.last_mut() {
            Some(open)
                if open.group == group
                    && u32::from(open.last) + 1 == frame
                    && open.value == value =>
            {
                open.last = frame as u16;
            }
            _ => segments.push(Stretch {
                group,
                first: frame as u16,
                last: frame as u16,
                value,
            }),
        }
    }
    segments
}

/// Whether a width passes question 25.
pub fn right_width(width: u16) -> bool {
    (ONE_FRAME..=MOST_WIDTH).contains(&width)
}

/// The segment call: the segments, or the first question that got 'no'.
pub fn segments(log: &[u8], kind: u8, width: u16, places: usize) -> Result<Vec<Stretch>, No> {
    ask([
        (1, 0, places >= 255),
        (2, 0, kind <= MOST_KIND),
        (25, 0, right_width(width)),
    ])?;
    ask_log(log)?;
    Ok(segments_of(&records(log), kind, width))
}

// ---------------------------------------------------------------------------------------------
// Rows and their error

/// Whether the second of two neighbours in the list begins where the first one ends.
fn adjacent(one: &Stretch, next: &Stretch) -> bool {
    one.group == next.group && u32::from(one.last) + 1 == u32::from(next.first)
}

/// The count of runs.
pub fn runs(segments: &[Stretch]) -> usize {
    let gaps = segments
        .windows(2)
        .filter(|pair| !adjacent(&pair[0], &pair[1]))
        .count();
    if segments.is_empty() {
        0
    } else {
        gaps + 1
    }
}

/// Which of two equally near whole numbers a row holds: the upper one, or the lower one, as rows
/// did that were written before halves went up.
#[derive(Clone, Copy, Debug, PartialEq, Eq)]
pub enum Half {
    Upper,
    Lower,
}

/// The whole number nearest to the mean of a block.
fn nearest(block: &[Stretch], half: Half) -> u64 {
    let length: u64 = block.iter().map(Stretch::length).sum();
    let total: u64 = block.iter().map(|s| s.length() * u64::from(s.value)).sum();
    let below = total / length;
    let above = below + 1;
    // How far the mean lies from the two, times the length.
    match (total - below * length).cmp(&(above * length - total)) {
        Ordering::Less => below,
        Ordering::Greater => above,
        Ordering::Equal if half == Half::Upper => above,
        Ordering::Equal => below,
    }
}

/// The row value of a block: by the kind of the greatest load its greatest value, by every other
/// kind the nearest whole number.
fn row_value(block: &[Stretch], kind: u8, half: Half) -> u64 {
    if kind == GREATEST {
        block.iter().map(|s| u64::from(s.value)).max().unwrap_or(0)
    } else {
        nearest(block, half)
    }
}

/// The error of a block: length times squared difference to the row value, summed.
fn error_of(block: &[Stretch], kind: u8, half: Half) -> u64 {
    let number = row_value(block, kind, half);
    block
        .iter()
        .map(|s| s.length() * u64::from(s.value).abs_diff(number).pow(2))
        .sum()
}

/// The row of a block.
fn row_of(block: &[Stretch], kind: u8, half: Half) -> Stretch {
    Stretch {
        group: block[0].group,
        first: block[0].first,
        last: block[block.len() - 1].last,
        value: row_value(block, kind, half) as u32,
    }
}

// ---------------------------------------------------------------------------------------------
// The reduction

/// The least errors E(k, i) of the first i segments in exactly k rows, for k from 1.
pub struct Table<'a> {
    segments: &'a [Stretch],
    kind: u8,
    half: Half,
    /// The last gap below i, 0 if there is none, at place i.
    gap: Vec<usize>,
    /// The error of block j + 1 to i, none if a gap lies within, at places j and i.
    block: Vec<Vec<Option<u64>>>,
    /// E(k, i) at places k − 1 and i.
    least: Vec<Vec<Option<u64>>>,
    /// The latest cut that gives E(k, i), at places k − 1 and i.
    cut: Vec<Vec<usize>>,
    /// The cuts weighed for k rows, at place k − 1.
    weighed: Vec<u64>,
}

impl<'a> Table<'a> {
    /// A table with no row yet.
    pub fn new(segments: &'a [Stretch], kind: u8, half: Half) -> Self {
        let n = segments.len();
        let mut gap = vec![0; n + 1];
        for i in 2..=n {
            // A gap below i is a j < i whose segment is not adjacent to the next one.
            gap[i] = if adjacent(&segments[i - 2], &segments[i - 1]) {
                gap[i - 1]
            } else {
                i - 1
            };
        }
        let block = (0..n)
            .map(|j| {
                (0..=n)
                    .map(|i| (i > j && gap[i] <= j).then(|| error_of(&segments[j..i], kind, half)))
                    .collect()
            })
            .collect();
        Table {
            segments,
            kind,
            half,
            gap,
            block,
            least: Vec::new(),
            cut: Vec::new(),
            weighed: Vec::new(),
        }
    }

    /// The count of rows tried so far.
    pub fn rows(&self) -> usize {
        self.least.len()
    }

    /// The least error of all segments in exactly k rows; k from 1 to the rows tried.
    pub fn error(&self, k: usize) -> Option<u64> {
        self.least[k - 1][self.segments.len()]
    }

    /// The cuts weighed for all rows tried.
    pub fn weighed(&self) -> u64 {
        self.weighed.iter().sum()
    }

    /// Tries one row more.
    pub fn grow(&mut self) {
        let n = self.segments.len();
        let k = self.rows() + 1;
        let mut least = vec![None; n + 1];
        let mut cut = vec![0; n + 1];
        let mut weighed = 0;
        for i in k..=n {
            if k == 1 {
                least[i] = self.block[0][i];
                continue;
            }
            let before = &self.least[k - 2];
            // All cuts, in rising order; of equal totals the latest is kept.
            for (j, front) in before.iter().enumerate().take(i).skip(k - 1) {
                if let (Some(front), Some(block)) = (*front, self.block[j][i]) {
                    if least[i].is_none_or(|best| front + block <= best) {
                        least[i] = Some(front + block);
                        cut[i] = j;
                    }
                }
            }
            weighed += self.scan_length(k, i);
        }
        self.least.push(least);
        self.cut.push(cut);
        self.weighed.push(weighed);
    }

    /// The number of candidates that the paper's scan tries for E(k, i), k from 2.
    fn scan_length(&self, k: usize, i: usize) -> u64 {
        let lowest = self.gap[i].max(k - 1);
        let mut best: Option<u64> = None;
        let mut tried = 0;
        for j in (lowest..i).rev() {
            tried += 1;
            let block = self.block[j][i].expect("no gap at or above the lowest candidate");
            if let Some(front) = self.least[k - 2][j] {
                best = Some(best.map_or(front + block, |best| best.min(front + block)));
            }
            if best.is_some_and(|best| block > best) {
                break;
            }
        }
        tried
    }

    /// The rows of the best reduction to exactly k rows, its cuts read back from the last row.
    fn read_back(&self, k: usize) -> Vec<Stretch> {
        let mut rows = Vec::new();
        let mut end = self.segments.len();
        for k in (1..=k).rev() {
            let start = self.cut[k - 1][end];
            rows.push(row_of(&self.segments[start..end], self.kind, self.half));
            end = start;
        }
        rows.reverse();
        rows
    }
}

/// A query's answer.
#[derive(Clone, Debug, PartialEq, Eq)]
pub struct Reduction {
    pub rows: Vec<Stretch>,
    pub error: u64,
    pub weighed: u64,
}

/// The best reduction of some segments under a row limit or a share, with row values by the kind;
/// none if there are too few rows for it.
pub fn reduce(segments: &[Stretch], kind: u8, rule: u8, bound: u16) -> Option<Reduction> {
    reduce_by(segments, kind, Half::Upper, rule, bound)
}

/// The same with either number at a half.
pub fn reduce_by(
    segments: &[Stretch],
    kind: u8,
    half: Half,
    rule: u8,
    bound: u16,
) -> Option<Reduction> {
    let n = segments.len();
    let m = runs(segments);
    let bound = usize::from(bound);
    if rule == ROWS && bound < m {
        return None;
    }
    if n == 0 {
        return Some(Reduction {
            rows: Vec::new(),
            error: 0,
            weighed: 0,
        });
    }
    let mut table = Table::new(segments, kind, half);
    let chosen = if rule == ROWS {
        while table.rows() < bound.min(n) {
            table.grow();
        }
        (m..=table.rows()).min_by_key(|k| (table.error(*k), *k))?
    } else {
        let meets = |table: &Table| {
            let k = table.rows();
            let error = |k| u128::from(table.error(k).expect("m or more rows have an error"));
            k >= m && error(k) * 1000 <= bound as u128 * error(m)
        };
        loop {
            if table.rows() == n.min(64) {
                return None;
            }
            table.grow();
            if meets(&table) {
                break table.rows();
            }
        }
    };
    Some(Reduction {
        rows: table.read_back(chosen),
        error: table.error(chosen)?,
        weighed: table.weighed(),
    })
}

/// Whether a rule and its bound pass question 3.
pub fn bounded(rule: u8, bound: u16) -> bool {
    (rule == ROWS && bound <= 64) || (rule == SHARE && bound <= 1000)
}

/// The query call: the reduction, or the first question that got 'no'.
pub fn query(
    kind: u8,
    rule: u8,
    bound: u16,
    width: u16,
    log: &[u8],
    slot_length: usize,
) -> Result<Reduction, No> {
    ask([
        (1, 0, slot_length >= 768),
        (2, 0, kind <= MOST_KIND),
        (3, 0, bounded(rule, bound)),
        (25, 0, right_width(width)),
    ])?;
    ask_log(log)?;
    reduce(&segments_of(&records(log), kind, width), kind, rule, bound).ok_or(No {
        question: 10,
        index: 0,
    })
}

// ---------------------------------------------------------------------------------------------
// Rows by windows

/// The first and last frame of a window, both included.
pub type Window = (u16, u16);

/// The windows every `length` frames, at least 1, from a start frame on, the last one cut off at
/// frame 65,535.
pub fn beats(length: u16, start: u16) -> Vec<Window> {
    (u32::from(start)..65_536)
        .step_by(usize::from(length))
        .map(|first| {
            let last = first + u32::from(length) - 1;
            (first as u16, last.min(65_535) as u16)
        })
        .collect()
}

/// Whether scenes of these first and last frames pass question 19.
pub fn in_order(firsts: &[u16], lasts: &[u16]) -> bool {
    let counted = (1..=16).contains(&firsts.len()) && firsts.len() == lasts.len();
    let forward = firsts.iter().zip(lasts).all(|(first, last)| first <= last);
    let apart = lasts
        .iter()
        .zip(firsts.iter().skip(1))
        .all(|(last, next)| last < next);
    counted && forward && apart
}

/// Whether a record and a window have a frame in common.
fn meets(record: &Record, (first, last): Window) -> bool {
    record.first.max(first) <= record.last.min(last)
}

/// The rows of some windows: for each group, window after window, the aggregate of the loads of
/// the group's records that meet the window; no row where none does.
pub fn window_rows(records: &[Record], kind: u8, windows: &[Window]) -> Vec<Stretch> {
    let mut rows = Vec::new();
    for group in 0..8 {
        let of_group = of_group(records, group);
        for (first, last) in windows {
            let loads: Vec<u32> = of_group
                .iter()
                .filter(|record| meets(record, (*first, *last)))
                .map(|record| u32::from(record.load))
                .collect();
            rows.extend(aggregate(&loads, kind).map(|value| Stretch {
                group,
                first: *first,
                last: *last,
                value,
            }));
        }
    }
    rows
}

/// The question 20: at most 64 rows.
fn ask_rows(rows: Vec<Stretch>) -> Result<Vec<Stretch>, No> {
    ask([(20, 0, rows.len() <= MOST_ROWS)])?;
    Ok(rows)
}

/// The query by beats: the rows, or the first question that got 'no'.
pub fn query_beats(
    kind: u8,
    length: u16,
    start: u16,
    log: &[u8],
    slot_length: usize,
) -> Result<Vec<Stretch>, No> {
    ask([
        (1, 0, slot_length >= 768),
        (2, 0, kind <= MOST_KIND),
        (18, 0, length >= 1),
    ])?;
    ask_log(log)?;
    ask_rows(window_rows(&records(log), kind, &beats(length, start)))
}

/// The query by scenes: the rows, or the first question that got 'no'.
pub fn query_scenes(
    kind: u8,
    firsts: &[u16],
    lasts: &[u16],
    log: &[u8],
    slot_length: usize,
) -> Result<Vec<Stretch>, No> {
    ask([
        (1, 0, slot_length >= 768),
        (2, 0, kind <= MOST_KIND),
        (19, 0, in_order(firsts, lasts)),
    ])?;
    ask_log(log)?;
    let scenes: Vec<Window> = firsts.iter().copied().zip(lasts.iter().copied()).collect();
    ask_rows(window_rows(&records(log), kind, &scenes))
}

// ---------------------------------------------------------------------------------------------
// Logs on file

/// The call for logs on file, with a buffer of some length: the first of equal records and all
/// others in their order, or the first question that got 'no'.
pub fn without_twins(log: &[u8], room: usize) -> Result<Vec<u8>, No> {
    ask([(1, 0, room >= log.len())])?;
    ask(file_questions(log))?;
    let mut kept = HashSet::new();
    let first = log.chunks_exact(9).filter(|nine| kept.insert(*nine));
    Ok(first.flatten().copied().collect())
}

// ---------------------------------------------------------------------------------------------
// Slot, reader, walk, lookup, many lookups, a slot against its log, writer

/// The 768 bytes of a slot; the mark is the second byte.
pub fn layout(mark: u8, kind: u8, error: u64, rows: &[Stretch]) -> Vec<u8> {
    let mut bytes = vec![0x50, mark, kind, rows.len() as u8];
    bytes.extend(error.to_le_bytes());
    for row in rows {
        bytes.extend([0x50, 0x52, row.group]);
        bytes.extend(row.first.to_le_bytes());
        bytes.extend(row.last.to_le_bytes());
        bytes.extend(row.value.to_le_bytes());
    }
    bytes.resize(768, 0);
    bytes
}

/// The fields of a row in a slot, right or wrong.
fn row(slot: &[u8], number: usize) -> Stretch {
    let bytes = &slot[12 + 11 * number..][..11];
    Stretch {
        group: bytes[2],
        first: two(bytes, 3),
        last: two(bytes, 5),
        value: u32::from(two(bytes, 7)) + 65_536 * u32::from(two(bytes, 9)),
    }
}

/// What the reader gives.
#[derive(Clone, Debug, PartialEq, Eq)]
pub struct Contents {
    pub mark: u8,
    pub kind: u8,
    pub error: u64,
    pub rows: Vec<Stretch>,
}

/// Reads a slot.
pub fn read(slot: &[u8]) -> Result<Contents, No> {
    ask(slot_questions(slot))?;
    let error = (0..8).map(|i| u64::from(slot[4 + i]) << (8 * i)).sum();
    Ok(Contents {
        mark: slot[1],
        kind: slot[2],
        error,
        rows: (0..usize::from(slot[3])).map(|n| row(slot, n)).collect(),
    })
}

/// The row with a number, none at the end.
pub fn row_at(slot: &[u8], number: usize) -> Result<Option<Stretch>, No> {
    Ok(read(slot)?.rows.get(number).copied())
}

/// The value of the row of a group that contains a frame, none if it is uncovered.
pub fn lookup(slot: &[u8], group: u8, frame: u16) -> Result<Option<u32>, No> {
    let contents = read(slot)?;
    ask([(7, 0, group <= 7)])?;
    Ok(contents
        .rows
        .iter()
        .find(|row| row.contains(group, u32::from(frame)))
        .map(|row| row.value))
}

/// What many lookups leave in the two lists that are lent, each place of them.
#[derive(Clone, Debug, PartialEq, Eq)]
pub struct Lists {
    pub values: Vec<u32>,
    pub covered: Vec<u8>,
}

/// Many lookups as a set: both lists, of which the content before is given, as they are afterwards; or
/// the first question that got 'no', and they are as they were.
pub fn lookups(slot: &[u8], groups: &[u8], frames: &[u16], before: &Lists) -> Result<Lists, No> {
    let pairs = groups.len();
    ask([
        (1, 0, slot.len() >= 768),
        (1, 0, frames.len() >= pairs),
        (1, 0, before.values.len() >= pairs),
        (1, 0, before.covered.len() >= pairs),
    ])?;
    let contents = read(slot)?;
    ask([(26, 0, pairs <= MOST_PAIRS)])?;
    ask((0..pairs).map(|index| (7, index, groups[index] <= 7)))?;
    let mut after = before.clone();
    after.values[..pairs].fill(0);
    after.covered[..pairs].fill(0);
    for row in &contents.rows {
        for pair in (0..pairs).filter(|i| row.contains(groups[*i], u32::from(frames[*i]))) {
            after.values[pair] = row.value;
            after.covered[pair] = 1;
        }
    }
    Ok(after)
}

/// Holds a slot to a log, frame by frame: each frame of each group is asked which records contain one
/// of its last frames and which row contains it. A frame outside all that records, with the last frames
/// of a frame, and rows of its group reach lies in none of them, and is not gone to. The error is summed in 128 bits; 64 would do, since 8 groups of 65,536 frames
/// with differences of at most 128,000 have at most 8,589,934,592,000,000.
pub fn check(log: &[u8], width: u16, slot: &[u8]) -> Result<(), No> {
    ask([(1, 0, slot.len() >= 768), (25, 0, right_width(width))])?;
    ask_log(log)?;
    ask([(11, 0, slot[..2] == [0x50, BY_BOUND])])?;
    let Contents {
        kind, error, rows, ..
    } = read(slot)?;
    let records = records(log);
    let (mut same_cover, mut nowhere_below, mut summed) = (true, true, 0);
    for group in 0..8 {
        let of_group = of_group(&records, group);
        let rows: Vec<&Stretch> = rows.iter().filter(|row| row.group == group).collect();
        let of_rows = rows
            .iter()
            .map(|row| (u32::from(row.first), u32::from(row.last)));
        let named = of_rows.chain(reached(&of_group, width));
        let first = named.clone().map(|(first, _)| first).min();
        let last = named.map(|(_, last)| last).max();
        let (Some(first), Some(last)) = (first, last) else {
            continue;
        };
        for (frame, value) in values(&of_group, kind, width, first..=last) {
            let row = rows.iter().find(|row| row.contains(group, frame));
            match (value, row) {
                (Some(value), Some(row)) => {
                    nowhere_below &= value <= row.value;
                    summed += u128::from(value.abs_diff(row.value)).pow(2);
                }
                (None, None) => {}
                _ => same_cover = false,
            }
        }
    }
    ask([
        (22, 0, same_cover),
        (23, 0, kind != GREATEST || nowhere_below),
        (24, 0, u128::from(error) == summed),
    ])
}

/// The 9 bytes of a record, for a buffer of some length.
pub fn write_record(
    group: u8,
    first: u16,
    last: u16,
    load: u16,
    length: usize,
) -> Result<Vec<u8>, No> {
    ask([
        (1, 0, length >= 9),
        (7, 0, group <= 7),
        (8, 0, first <= last),
        (9, 0, load <= 1000),
    ])?;
    let mut bytes = vec![0x4C, 0x44, group];
    for number in [first, last, load] {
        bytes.extend(number.to_le_bytes());
    }
    Ok(bytes)
}

#[cfg(test)]
mod tests {
    use super::*;

    fn log(records: &[(u8, u16, u16, u16)]) -> Vec<u8> {
        records
            .iter()
            .flat_map(|(group, first, last, load)| {
                write_record(*group, *first, *last, *load, 9).unwrap()
            })
            .collect()
    }

    fn log_g() -> Vec<u8> {
        log(&[
            (0, 0, 3, 100),
            (0, 2, 5, 200),
            (0, 6, 6, 210),
            (0, 9, 10, 50),
            (1, 0, 0, 7),
        ])
    }

    fn outcome(rule: u8, bound: u16, log: &[u8]) -> Result<(usize, u64), u8> {
        query(0, rule, bound, 1, log, 768)
            .map(|answer| (answer.rows.len(), answer.error))
            .map_err(|no| no.question)
    }

    #[test]
    fn log_g_played_through() {
        let log = log_g();
        assert_eq!(segments(&log, 0, 1, 255).unwrap().len(), 6);
        assert_eq!(outcome(ROWS, 2, &log), Err(10));
        assert_eq!(outcome(ROWS, 3, &log), Ok((3, 40_087)));
        assert_eq!(outcome(ROWS, 4, &log), Ok((4, 11_280)));
        assert_eq!(outcome(ROWS, 5, &log), Ok((5, 67)));
        assert_eq!(outcome(ROWS, 6, &log), Ok((6, 0)));
        assert_eq!(outcome(ROWS, 64, &log), Ok((6, 0)));
        assert_eq!(outcome(SHARE, 281, &log), Ok((5, 67)));
        assert_eq!(outcome(SHARE, 282, &log), Ok((4, 11_280)));
        assert_eq!(query(0, ROWS, 4, 1, &log, 768).unwrap().weighed, 16);
    }

    #[test]
    fn small_cases() {
        let frames = |loads: &[u16]| {
            let records: Vec<_> = (0u16..).zip(loads).map(|(f, l)| (0, f, f, *l)).collect();
            log(&records)
        };
        assert_eq!(outcome(ROWS, 2, &frames(&[0, 1, 0])), Ok((1, 1)));
        assert_eq!(outcome(ROWS, 2, &frames(&[0, 4, 8])), Ok((2, 8)));
        assert_eq!(outcome(ROWS, 1, &frames(&[0, 1, 1])), Ok((1, 1)));
        assert_eq!(outcome(ROWS, 0, &[]), Ok((0, 0)));
        let early = query(0, ROWS, 2, 1, &frames(&[0, 1, 2, 100]), 768).unwrap();
        assert_eq!(early.weighed, 5);
    }

    /// A half goes up, by every kind but that of the greatest load, and a third does not; the error
    /// is that of the lower number.
    #[test]
    fn halves() {
        let one_row = |kind, half, loads: &[u16]| {
            let records: Vec<_> = (0u16..).zip(loads).map(|(f, l)| (0, f, f, *l)).collect();
            let found = segments(&log(&records), kind, 1, 255).unwrap();
            let answer = reduce_by(&found, kind, half, ROWS, 1).unwrap();
            (answer.rows[0].value, answer.error)
        };
        for kind in [0, 2] {
            assert_eq!(one_row(kind, Half::Upper, &[0, 1]), (1, 1));
            assert_eq!(one_row(kind, Half::Lower, &[0, 1]), (0, 1));
            assert_eq!(one_row(kind, Half::Upper, &[0, 1, 0]), (0, 1));
            assert_eq!(one_row(kind, Half::Upper, &[7, 10]), (9, 5));
            assert_eq!(one_row(kind, Half::Lower, &[7, 10]), (8, 5));
        }
        assert_eq!(one_row(4, Half::Upper, &[0, 1]), (50, 5000));
        assert_eq!(one_row(GREATEST, Half::Upper, &[0, 1]), (1, 1));
        assert_eq!(one_row(GREATEST, Half::Lower, &[7, 10]), (10, 9));
    }

    /// Means in hundredths, rounded down; the means of G are cut at another frame than its sums.
    #[test]
    fn means() {
        let values = |records: &[(u8, u16, u16, u16)]| -> Vec<u32> {
            let segments = segments(&log(records), 4, 1, 255).unwrap();
            segments.iter().map(|segment| segment.value).collect()
        };
        assert_eq!(values(&[(0, 0, 0, 1), (0, 0, 0, 2)]), [150]);
        assert_eq!(values(&[(0, 0, 0, 0), (0, 0, 1, 0), (0, 0, 0, 1)]), [33, 0]);
        assert_eq!(values(&[(0, 5, 5, 0), (0, 5, 5, 1000)]), [50_000]);
        assert_eq!(
            values(&[(0, 5, 5, 999), (0, 5, 6, 1000)]),
            [99_950, 100_000]
        );
        let answer = query(4, ROWS, 4, 1, &log_g(), 768).unwrap();
        assert_eq!((answer.error, answer.weighed), (25_666_667, 16));
        let rows: Vec<_> = answer
            .rows
            .iter()
            .map(|r| (r.first, r.last, r.value))
            .collect();
        assert_eq!(
            rows,
            [(0, 3, 12_500), (4, 6, 20_333), (9, 10, 5_000), (0, 0, 700)]
        );
        assert_eq!(segments(&[], 5, 1, 255).unwrap_err().question, 2);
    }

    /// Rows of the greatest load: the greatest value of a block, and the error taken from it. The
    /// share's least error is 24,600 for G, where nearest means would have 14,943.
    #[test]
    fn greatest() {
        let rows = |rule, bound, log: &[u8]| -> (Vec<u32>, u64) {
            let answer = query(GREATEST, rule, bound, 1, log, 768).unwrap();
            let values = answer.rows.iter().map(|row| row.value).collect();
            (values, answer.error)
        };
        let two = log(&[(0, 0, 0, 0), (0, 1, 1, 1)]);
        assert_eq!(rows(ROWS, 1, &two), (vec![1], 1));
        let steps = log(&[(0, 0, 2, 0), (0, 3, 4, 9)]);
        assert_eq!(rows(ROWS, 1, &steps), (vec![9], 243));
        let g = log_g();
        assert_eq!(rows(ROWS, 3, &g), (vec![210, 50, 7], 24_600));
        let four = (vec![100, 210, 50, 7], 400);
        assert_eq!(rows(ROWS, 4, &g), four);
        assert_eq!(rows(SHARE, 17, &g), four);
        assert_eq!(rows(SHARE, 26, &g), four);
        assert_eq!(rows(SHARE, 16, &g), (vec![100, 200, 210, 50, 7], 0));
        // With the rule of another kind for row values.
        let by_means = reduce(&segments(&g, GREATEST, 1, 255).unwrap(), 0, ROWS, 3).unwrap();
        assert_eq!((by_means.rows[0].value, by_means.error), (173, 14_943));
    }

    /// The fields of a row: group, first, last, value.
    fn fields(rows: &[Stretch]) -> Vec<(u8, u16, u16, u32)> {
        rows.iter()
            .map(|row| (row.group, row.first, row.last, row.value))
            .collect()
    }

    /// The average salary by project and trimester of the first source's Figure 1, in hundredths.
    #[test]
    fn trimesters() {
        let proj = log(&[
            (0, 1, 4, 800),
            (0, 3, 6, 400),
            (0, 4, 7, 300),
            (1, 4, 5, 500),
            (1, 7, 8, 500),
        ]);
        let expected = [
            (0, 1, 4, 50_000),
            (0, 5, 8, 35_000),
            (1, 1, 4, 50_000),
            (1, 5, 8, 50_000),
        ];
        let by_beats = query_beats(4, 4, 1, &proj, 768).unwrap();
        assert_eq!(fields(&by_beats), expected);
        let by_scenes = query_scenes(4, &[1, 5], &[4, 8], &proj, 768).unwrap();
        assert_eq!(by_scenes, by_beats);
    }

    /// Beats of log G; the last window of all is cut off.
    #[test]
    fn beats_of_g() {
        let rows =
            |kind, length, start| fields(&query_beats(kind, length, start, &log_g(), 768).unwrap());
        assert_eq!(
            rows(0, 4, 0),
            [(0, 0, 3, 300), (0, 4, 7, 410), (0, 8, 11, 50), (1, 0, 3, 7)]
        );
        assert_eq!(rows(3, 7, 3), [(0, 3, 9, 210), (0, 10, 16, 50)]);
        assert_eq!(rows(1, 65_535, 6), [(0, 6, 65_535, 2)]);
        assert_eq!(rows(2, 65_535, 0), [(0, 0, 65_534, 50), (1, 0, 65_534, 7)]);
        assert_eq!(rows(0, 1, 65_535), []);
        assert_eq!(beats(65_535, 0), [(0, 65_534), (65_535, 65_535)]);
        assert_eq!(beats(65_535, 1), [(1, 65_535)]);
        assert_eq!(beats(1, 0).len(), 65_536);
        assert_eq!(beats(1, 65_535), [(65_535, 65_535)]);
    }

    /// Question 19, part by part, and its place ahead of the log's questions.
    #[test]
    fn scenes_in_order() {
        assert!(in_order(&[0, 4], &[3, 9]));
        assert!(in_order(&[65_535], &[65_535]));
        assert!(!in_order(&[], &[]));
        assert!(!in_order(&[0, 4], &[3]));
        assert!(!in_order(&[0, 3], &[3, 9]));
        assert!(!in_order(&[4, 0], &[9, 3]));
        assert!(!in_order(&[0, 9], &[3, 8]));
        let sixteen: Vec<u16> = (0..16).collect();
        let seventeen: Vec<u16> = (0..17).collect();
        assert!(in_order(&sixteen, &sixteen));
        assert!(!in_order(&seventeen, &seventeen));
        let question = |kind, firsts: &[u16], log: &[u8], room| {
            query_scenes(kind, firsts, firsts, log, room)
                .unwrap_err()
                .question
        };
        assert_eq!(question(5, &[], &[0], 767), 1);
        assert_eq!(question(5, &[], &[0], 768), 2);
        assert_eq!(question(4, &[], &[0], 768), 19);
        assert_eq!(question(4, &[0], &[0], 768), 4);
        let beats = |length, log: &[u8]| query_beats(0, length, 0, log, 768);
        assert_eq!(beats(0, &[0]).unwrap_err().question, 18);
        let wide = log(&[(0, 0, 63, 1), (1, 5, 5, 1)]);
        assert_eq!(beats(1, &wide[..9]).unwrap().len(), 64);
        assert_eq!(beats(1, &wide).unwrap_err().question, 20);
    }

    /// A record that an earlier one equals is refused by every call that takes a log, at its own
    /// index, after its other questions and ahead of 10 and 20.
    #[test]
    fn twins_refused() {
        let g = log_g();
        let no = |question, index| No { question, index };
        for again in g.chunks(9) {
            let twice = [&g, again].concat();
            for kind in 0..=MOST_KIND {
                let refused = no(21, 5);
                assert_eq!(segments(&twice, kind, 1, 255), Err(refused));
                assert_eq!(query(kind, ROWS, 0, 1, &twice, 768), Err(refused));
                assert_eq!(query(kind, SHARE, 300, 1, &twice, 768), Err(refused));
                assert_eq!(query_beats(kind, 1, 0, &twice, 768), Err(refused));
                assert_eq!(query_scenes(kind, &[0], &[9], &twice, 768), Err(refused));
            }
            assert_eq!(ask_log(&[again, again, again].concat()), Err(no(21, 1)));
        }
        let wide = log(&[(0, 0, 64, 1), (0, 0, 64, 1)]);
        assert_eq!(query_beats(0, 1, 0, &wide, 768), Err(no(21, 1)));
        assert_eq!(query_beats(0, 1, 0, &wide[..9], 768), Err(no(20, 0)));
        // Ahead of 21: the call's own questions, the length, the count, and a bad record before.
        assert_eq!(query(5, ROWS, 65, 1, &wide, 768), Err(no(2, 0)));
        assert_eq!(query(0, ROWS, 65, 1, &wide, 768), Err(no(3, 0)));
        assert_eq!(query_beats(0, 0, 0, &wide, 768), Err(no(18, 0)));
        assert_eq!(query_scenes(0, &[1], &[0], &wide, 768), Err(no(19, 0)));
        assert_eq!(ask_log(&[&wide[..], &[0x4C]].concat()), Err(no(4, 0)));
        assert_eq!(ask_log(&wide[..9].repeat(129)), Err(no(5, 0)));
        let good = &wide[..9];
        for (question, place, byte) in [(6, 1, 0), (7, 2, 8), (8, 4, 1), (9, 8, 4)] {
            let mut bad = good.to_vec();
            bad[place] = byte;
            let log = |records: &[&[u8]]| ask_log(&records.concat()).unwrap_err();
            assert_eq!(log(&[good, &bad, good]), no(question, 1));
            assert_eq!(log(&[good, good, &bad]), no(21, 1));
            assert_eq!(log(&[good, &bad, &bad]), no(question, 1));
        }
    }

    /// Equal but for one byte is not equal.
    #[test]
    fn nearly_twins() {
        let one = log(&[(1, 0x012C, 0x0384, 0x01F4)]);
        let others = log(&[
            (2, 0x012C, 0x0384, 0x01F4),
            (1, 0x012D, 0x0384, 0x01F4),
            (1, 0x002C, 0x0384, 0x01F4),
            (1, 0x012C, 0x0385, 0x01F4),
            (1, 0x012C, 0x0484, 0x01F4),
            (1, 0x012C, 0x0384, 0x01F5),
            (1, 0x012C, 0x0384, 0x00F4),
        ]);
        for (place, other) in (2..).zip(others.chunks(9)) {
            let differ: Vec<usize> = (0..9).filter(|at| one[*at] != other[*at]).collect();
            assert_eq!(differ, [place]);
        }
        let all = [&one[..], &others].concat();
        assert_eq!(ask_log(&all), Ok(()));
        assert_eq!(without_twins(&all, 72), Ok(all));
    }

    /// What is kept of a log on file, and what it is asked.
    #[test]
    fn kept_of_a_file() {
        let g = log_g();
        assert_eq!(without_twins(&g, 45), Ok(g.clone()));
        assert_eq!(without_twins(&[], 0), Ok(vec![]));
        assert_eq!(without_twins(&g.repeat(3), 135), Ok(g.clone()));
        assert_eq!(
            without_twins(&g[..9].repeat(128), 1152),
            Ok(g[..9].to_vec())
        );
        let nines: Vec<&[u8]> = g.chunks(9).collect();
        let of = |places: &[usize]| -> Vec<u8> {
            let records: Vec<&[u8]> = places.iter().map(|place| nines[*place]).collect();
            records.concat()
        };
        let found = without_twins(&of(&[1, 0, 1, 2, 0, 4]), 99);
        assert_eq!(found, Ok(of(&[1, 0, 2, 4])));
        let question = |log: &[u8], room| without_twins(log, room).unwrap_err();
        let no = |question, index| No { question, index };
        assert_eq!(question(&g, 44), no(1, 0));
        assert_eq!(question(&g[..44], 44), no(4, 0));
        assert_eq!(question(&g[..9].repeat(129), 2000), no(5, 0));
        let mut bad = g.repeat(2);
        bad[9 * 7 + 2] = 8;
        assert_eq!(question(&bad, 90), no(7, 7));
        bad[9 * 7] = 0;
        assert_eq!(question(&bad, 90), no(6, 7));
    }

    /// The slot of some rows, with any error.
    fn slot(kind: u8, error: u64, rows: &[(u8, u16, u16, u32)]) -> Vec<u8> {
        let rows: Vec<Stretch> = rows
            .iter()
            .map(|(group, first, last, value)| Stretch {
                group: *group,
                first: *first,
                last: *last,
                value: *value,
            })
            .collect();
        layout(BY_BOUND, kind, error, &rows)
    }

    /// Log G with four rows of the sum, as they are, with the numbers of hand-made slots beside
    /// them, and each question of a slot against its log.
    #[test]
    fn slot_against_log_g() {
        let g = log_g();
        let asked = |slot: &[u8]| check(&g, 1, slot).map_err(|no| (no.question, no.index));
        let rows = [(0, 0, 1, 100), (0, 2, 6, 242), (0, 9, 10, 50), (1, 0, 0, 7)];
        let sum = |error, rows: &[_]| asked(&slot(0, error, rows));
        assert_eq!(sum(11_280, &rows), Ok(()));
        for error in [0, 11_279, 11_281, u64::MAX] {
            assert_eq!(sum(error, &rows), Err((24, 0)));
        }
        // Cut finer between frames 4 and 5; and one above 242, the mean of five frames: 5 more.
        let finer = [rows[0], (0, 2, 4, 242), (0, 5, 6, 242), rows[2], rows[3]];
        assert_eq!(sum(11_280, &finer), Ok(()));
        let other = [rows[0], (0, 2, 6, 243), rows[2], rows[3]];
        assert_eq!(sum(11_285, &other), Ok(()));
        // A row across the gap, short of it, past the end, in another group, and none.
        for (place, row) in [
            (1, (0, 2, 8, 242)),
            (1, (0, 2, 7, 242)),
            (1, (0, 2, 5, 242)),
            (2, (0, 10, 10, 50)),
            (2, (0, 9, 11, 50)),
            (3, (2, 0, 0, 7)),
        ] {
            let mut moved = rows;
            moved[place] = row;
            assert_eq!(sum(11_280, &moved), Err((22, 0)));
        }
        for left_out in 0..4 {
            let mut fewer = rows.to_vec();
            fewer.remove(left_out);
            assert_eq!(sum(11_280, &fewer), Err((22, 0)));
        }
        // Kind 3: 210 for frames 2 to 6 is the least; 209 is short at frame 6, whatever the error.
        let greatest = |value, error| {
            let rows = [rows[0], (0, 2, 6, value), rows[2], rows[3]];
            asked(&slot(GREATEST, error, &rows))
        };
        assert_eq!(greatest(210, 400), Ok(()));
        assert_eq!(greatest(211, 4 * 121 + 1), Ok(()));
        assert_eq!(greatest(209, 4 * 81 + 1), Err((23, 0)));
        assert_eq!(greatest(209, 0), Err((23, 0)));
        assert_eq!(greatest(211, 400), Err((24, 0)));
        let least = [rows[0], (0, 2, 6, 0), rows[2], rows[3]];
        let of_frames = 2 * 100 * 100 + 2 * 200 * 200 + 210 * 210;
        assert_eq!(asked(&slot(2, of_frames, &least)), Ok(()));

        // The questions in order.
        let right = slot(0, 11_280, &rows);
        let mut by_windows = right.clone();
        by_windows[1] = BY_WINDOWS;
        assert_eq!(asked(&by_windows), Err((11, 0)));
        assert_eq!(asked(&right[..767]), Err((1, 0)));
        let question = |log: &[u8], slot: &[u8]| check(log, 1, slot).unwrap_err();
        assert_eq!(question(&g[..44], &right[..767]).question, 1);
        assert_eq!(question(&g[..44], &by_windows).question, 4);
        let twice = [&g[..], &g[..9]].concat();
        let no = No {
            question: 21,
            index: 5,
        };
        assert_eq!(question(&twice, &by_windows), no);
        let mut tail = slot(0, 0, &rows[..1]);
        assert_eq!(asked(&tail), Err((22, 0)));
        tail[767] = 1;
        assert_eq!(asked(&tail), Err((17, 0)));
        tail[2] = 5;
        assert_eq!(asked(&tail), Err((12, 0)));
    }

    /// The empty log, the last frame, and the greatest error that there is: all frames of all groups
    /// with load 0 in rows of 128,000.
    #[test]
    fn slot_against_ends() {
        for kind in 0..=MOST_KIND {
            assert_eq!(check(&[], 1, &slot(kind, 0, &[])), Ok(()));
            let question = |slot: Vec<u8>| check(&[], 1, &slot).unwrap_err().question;
            assert_eq!(question(slot(kind, 1, &[])), 24);
            assert_eq!(question(slot(kind, 0, &[(0, 0, 0, 0)])), 22);
        }
        let last = log(&[(7, 65_535, 65_535, 9)]);
        assert_eq!(
            check(&last, 1, &slot(0, 0, &[(7, 65_535, 65_535, 9)])),
            Ok(())
        );
        let two = slot(0, 0, &[(7, 65_534, 65_535, 9)]);
        assert_eq!(check(&last, 1, &two).unwrap_err().question, 22);
        let everywhere: Vec<_> = (0..8).map(|group| (group, 0, 65_535, 0)).collect();
        let rows: Vec<_> = (0..8).map(|group| (group, 0, 65_535, 128_000)).collect();
        let error = 8 * 65_536 * 128_000 * 128_000;
        assert_eq!(error, 8_589_934_592_000_000);
        assert_eq!(check(&log(&everywhere), 1, &slot(0, error, &rows)), Ok(()));
        let one_less = slot(0, error - 1, &rows);
        assert_eq!(
            check(&log(&everywhere), 1, &one_less).unwrap_err().question,
            24
        );
    }

    /// Log G with a memory of three frames: its records count in frames 0 to 5, 2 to 7, 6 to 8, 9 to 12
    /// and, of group 1, 0 to 2. Frames 7 and 8 are covered now, so that group 0 is one run.
    #[test]
    fn memory_of_g() {
        let g = log_g();
        let found = |width| fields(&segments(&g, 0, width, 255).unwrap());
        let three = [
            (0, 0, 1, 100),
            (0, 2, 5, 300),
            (0, 6, 7, 410),
            (0, 8, 8, 210),
            (0, 9, 12, 50),
            (1, 0, 2, 7),
        ];
        assert_eq!(found(3), three);
        // With two frames frame 8 is uncovered.
        let two = found(2);
        assert_eq!(two[3..6], [(0, 6, 6, 410), (0, 7, 7, 210), (0, 9, 11, 50)]);
        assert_eq!((two.len(), runs(&segments(&g, 0, 2, 255).unwrap())), (7, 3));
        // With eleven, all that was is still there at frame 10; the last to be left is frame 20.
        let eleven = found(11);
        assert!(eleven.contains(&(0, 9, 13, 560)) && eleven.contains(&(0, 17, 20, 50)));

        let error = |rule, bound| {
            let answer = query(0, rule, bound, 3, &g, 768).unwrap();
            (answer.rows.len(), answer.error)
        };
        assert!(query(0, ROWS, 1, 3, &g, 768).is_err());
        assert_eq!(error(ROWS, 2), (2, 238_232));
        assert_eq!(error(ROWS, 3), (3, 104_200));
        assert_eq!(error(ROWS, 4), (4, 29_887));
        assert_eq!(error(ROWS, 5), (5, 16_134));
        assert_eq!(error(ROWS, 64), (6, 0));
        assert_eq!(error(SHARE, 126), (4, 29_887));
        assert_eq!(error(SHARE, 125), (5, 16_134));
        let rows = fields(&query(0, ROWS, 4, 3, &g, 768).unwrap().rows);
        let four = [(0, 0, 1, 100), (0, 2, 8, 319), (0, 9, 12, 50), (1, 0, 2, 7)];
        assert_eq!(rows, four);

        // The slot passes with its own width; with others its cover is another one.
        let slot = slot(0, 29_887, &four);
        for width in [1, 2, 3, 4, MOST_WIDTH] {
            let asked = check(&g, width, &slot).map_err(|no| no.question);
            assert_eq!(asked, if width == 3 { Ok(()) } else { Err(22) });
        }
    }

    /// There is no frame behind 65,535 and none before 0, and a gap is closed by as many frames less
    /// one. Records that differ in their last frame alone are no twins, also where both are remembered
    /// to the last frame of all.
    #[test]
    fn memory_at_the_ends() {
        let found = |records: &[_], kind, width| {
            fields(&segments(&log(records), kind, width, 255).unwrap())
        };
        for (last, width) in [(65_535, 1), (65_535, 4096), (65_476, 60), (61_440, 4096)] {
            let record = [(7, 61_000, last, 9)];
            assert_eq!(found(&record, 0, width), [(7, 61_000, 65_535, 9)]);
        }
        for (last, width) in [(65_475, 60), (61_439, 4096), (65_534, 1)] {
            let record = [(7, 61_000, last, 9)];
            assert_eq!(found(&record, 0, width), [(7, 61_000, 65_534, 9)]);
        }
        assert_eq!(found(&[(0, 0, 0, 9)], 0, 4096), [(0, 0, 4095, 9)]);
        assert_eq!(
            found(&[(3, 65_535, 65_535, 9)], 1, 60),
            [(3, 65_535, 65_535, 1)]
        );
        // Frames 10 to 12 lie between the two, and frames 10 to 13.
        let apart = |next| [(2, 0, 9, 5), (2, next, next, 5)];
        assert_eq!(found(&apart(13), 0, 4), [(2, 0, 16, 5)]);
        assert_eq!(found(&apart(14), 0, 4), [(2, 0, 12, 5), (2, 14, 17, 5)]);
        let pair = [(4, 65_000, 65_533, 7), (4, 65_000, 65_534, 7)];
        assert_eq!(found(&pair, 0, 3), [(4, 65_000, 65_535, 14)]);
        assert_eq!(
            found(&pair, 1, 2),
            [(4, 65_000, 65_534, 2), (4, 65_535, 65_535, 1)]
        );
    }

    /// Question 25, its place among the others, and that it is not asked by windows.
    #[test]
    fn widths_asked() {
        for width in [1, 2, 60, 4095, 4096] {
            assert!(right_width(width));
        }
        for width in [0, 4097, 65_535] {
            assert!(!right_width(width));
            let asked = |kind, rule, bound, log: &[u8], room| {
                let no = query(kind, rule, bound, width, log, room).unwrap_err();
                (no.question, no.index)
            };
            assert_eq!(asked(5, 0, 65, &[0], 767), (1, 0));
            assert_eq!(asked(5, 0, 65, &[0], 768), (2, 0));
            assert_eq!(asked(4, 0, 4, &[0], 768), (3, 0));
            assert_eq!(asked(4, ROWS, 65, &[0], 768), (3, 0));
            assert_eq!(asked(4, ROWS, 0, &[0], 768), (25, 0));
            assert_eq!(asked(4, SHARE, 0, &log_g(), 768), (25, 0));
            let listed = |kind, places| segments(&[0], kind, width, places).unwrap_err().question;
            assert_eq!([listed(5, 254), listed(5, 255), listed(4, 255)], [1, 2, 25]);
            let held = |slot: &[u8]| check(&[0], width, slot).unwrap_err().question;
            assert_eq!([held(&[0; 767]), held(&[0; 768])], [1, 25]);
        }
        assert_eq!(check(&[0], 4096, &[0; 768]).unwrap_err().question, 4);
    }

    /// The eight groups of log G's four rows for one frame, and one frame after the other of group 0.
    #[test]
    fn lookups_of_g() {
        let rows = [(0, 0, 1, 100), (0, 2, 6, 242), (0, 9, 10, 50), (1, 0, 0, 7)];
        let g = slot(0, 11_280, &rows);
        let before = Lists {
            values: (900..970).collect(),
            covered: (100..170).collect(),
        };
        let groups = [0, 1, 2, 3, 4, 5, 6, 7];
        for (frame, values, covered) in [(0, [100, 7], [1, 1]), (6, [242, 0], [1, 0])] {
            let after = lookups(&g, &groups, &[frame; 8], &before).unwrap();
            assert_eq!(after.values[..2], values);
            assert_eq!(after.covered[..2], covered);
            assert_eq!(
                (&after.values[2..8], &after.covered[2..8]),
                (&[0; 6][..], &[0; 6][..])
            );
            assert_eq!(after.values[8..], before.values[8..]);
            assert_eq!(after.covered[8..], before.covered[8..]);
        }
        let frames: Vec<u16> = (0..12).collect();
        let after = lookups(&g, &[0; 12], &frames, &before).unwrap();
        let expected = [100, 100, 242, 242, 242, 242, 242, 0, 0, 50, 50, 0];
        assert_eq!(after.values[..12], expected);
        assert_eq!(
            after.covered[..12],
            expected.map(|value| u8::from(value > 0))
        );
    }

    /// The questions of many lookups in their order, and that nothing is asked of pairs that are not
    /// there.
    #[test]
    fn lookups_refused() {
        let lists = |values, covered| Lists {
            values: vec![9; values],
            covered: vec![9; covered],
        };
        let g = slot(0, 0, &[(0, 0, 1, 100)]);
        let damaged = [&g[..767], &[1]].concat();
        let asked = |slot: &[u8], groups: &[u8], frames, values, covered| {
            let outcome = lookups(slot, groups, &vec![0; frames], &lists(values, covered));
            outcome.map_or_else(|no| (no.question, no.index), |_| (0, 0))
        };
        let wrong = [8; 65];
        for (frames, values, covered) in [(64, 65, 65), (65, 64, 65), (65, 65, 64)] {
            assert_eq!(asked(&damaged, &wrong, frames, values, covered), (1, 0));
        }
        assert_eq!(asked(&damaged[..767], &[], 0, 0, 0), (1, 0));
        assert_eq!(asked(&damaged, &wrong, 65, 65, 65), (17, 0));
        assert_eq!(asked(&damaged, &[], 0, 0, 0), (17, 0));
        assert_eq!(asked(&g, &[], 0, 0, 0), (0, 0));
        assert_eq!(asked(&g, &wrong, 65, 65, 65), (26, 0));
        assert_eq!(asked(&g, &[0; 65], 70, 70, 70), (26, 0));
        assert_eq!(asked(&g, &wrong[..64], 64, 64, 64), (7, 0));
        let mut groups = [7; 64];
        assert_eq!(asked(&g, &groups, 64, 64, 64), (0, 0));
        for index in (0..64).rev() {
            groups[index] = 255;
            assert_eq!(asked(&g, &groups, 64, 64, 64), (7, index));
        }
    }

    /// Both headers; an error under that of windows is asked of after the rows.
    #[test]
    fn headers() {
        let rows = query_beats(0, 4, 0, &log_g(), 768).unwrap();
        let answer = |mark, error, damaged: Option<usize>| {
            let mut slot = layout(mark, 0, error, &rows);
            if let Some(byte) = damaged {
                slot[byte] ^= 1;
            }
            match read(&slot) {
                Ok(contents) => (0, usize::from(contents.mark)),
                Err(no) => (no.question, no.index),
            }
        };
        assert_eq!(answer(BY_BOUND, 7, None), (0, 0x48));
        assert_eq!(answer(BY_WINDOWS, 0, None), (0, 0x53));
        assert_eq!(answer(BY_WINDOWS, 1 << 56, None), (17, 0));
        assert_eq!(answer(BY_WINDOWS, 7, Some(34)), (14, 2));
        assert_eq!(answer(BY_WINDOWS, 7, Some(1)), (11, 0));
        assert_eq!(answer(0x43, 0, None), (11, 0));
    }

    /// The segments of the first source's running example, and its Figures 4 and 5.
    #[test]
    fn running_example() {
        let log = log(&[
            (0, 1, 2, 800),
            (0, 3, 3, 600),
            (0, 4, 4, 500),
            (0, 5, 6, 350),
            (0, 7, 7, 300),
            (1, 4, 5, 500),
            (1, 7, 8, 500),
        ]);
        let segments = segments(&log, 0, 1, 255).unwrap();
        let mut table = Table::new(&segments, 0, Half::Upper);
        for _ in 0..4 {
            table.grow();
        }
        // The published errors belong to fractional means and are rounded down; with whole
        // numbers an error is a little larger, by at most a quarter per frame.
        let published = [
            [
                Some(0),
                Some(26_666),
                Some(67_500),
                Some(208_333),
                Some(269_285),
                None,
                None,
            ],
            [
                None,
                Some(0),
                Some(5_000),
                Some(41_666),
                Some(49_166),
                Some(269_285),
                None,
            ],
            [
                None,
                None,
                Some(0),
                Some(5_000),
                Some(6_666),
                Some(49_166),
                Some(269_285),
            ],
            [
                None,
                None,
                None,
                Some(0),
                Some(1_666),
                Some(6_666),
                Some(49_166),
            ],
        ];
        for (k, row) in published.iter().enumerate() {
            for (i, expected) in row.iter().enumerate() {
                let found: Option<u64> = table.least[k][i + 1];
                assert_eq!(found.is_some(), expected.is_some());
                if let (Some(found), Some(expected)) = (found, expected) {
                    assert!(
                        (*expected..=expected + 3).contains(&found),
                        "{found} {expected}"
                    );
                }
            }
        }
        assert_eq!(table.cut[3][7], 6);
        assert_eq!(table.cut[2][6], 5);
        assert_eq!(table.cut[1][5], 2);
    }
}
