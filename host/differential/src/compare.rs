//! One case: all calls of the proved library against the independent implementation.

use crate::check::{self, Checked};
use crate::inputs;
use crate::lookups::{self, LookedUp};
use crate::memory::Remembered;
use crate::order::{self, Ask, Shuffled};
use crate::random::Random;
use crate::twins;
use crate::windows;
use pacer::c;
use reference::{Contents, Half, No, Reduction, Stretch};
use std::fmt::Debug;

/// How often each question was the first 'no', and at place 0 how often there was none.
pub type ByQuestion = [u64; 27];

/// What was answered, over all calls.
#[derive(Clone, Default)]
pub struct Seen {
    pub query: ByQuestion,
    pub beats: ByQuestion,
    pub scenes: ByQuestion,
    pub segments: ByQuestion,
    /// Slots, and those under the header of windows among them.
    pub slot: ByQuestion,
    pub windows_slot: ByQuestion,
    pub record: ByQuestion,
    /// Logs on file, and of these the ones that something was left out of, and how many records.
    pub file: ByQuestion,
    pub cleaned: u64,
    pub left_out: u64,
    /// Logs with a bad record behind the first twin, and with a twin behind the first bad record.
    pub bad_after: u64,
    pub bad_before: u64,
    /// Slots under the header of windows with nothing wrong but their error.
    pub with_error: u64,
    /// Rows of beats that are cut off at the last frame, queries by windows with just 64 rows, and
    /// those refused for just 65.
    pub cut_off: u64,
    pub full: u64,
    pub one_too_many: u64,
    /// Rows that have risen at a half, and slots of before with other rows than now, by kind.
    pub halves: [u64; 5],
    pub earlier: [u64; 5],
    /// Segments, rows and cuts of the largest case.
    pub most_segments: usize,
    pub most_rows: usize,
    pub most_weighed: u64,
    /// Logs in another order.
    pub order: Shuffled,
    /// Slots held to their logs.
    pub checked: Checked,
    /// Many lookups as a set.
    pub lookups: LookedUp,
    /// What the widths of queries and of the segment call met; and how often a wrong one stood ahead of
    /// a log that fails too, and behind something else that is wrong (1 to 3).
    pub memory: Remembered,
    pub width_ahead: u64,
    pub width_behind: u64,
    /// Logs of which the sum over records was held to the segments' sum, without a memory.
    pub summed: u64,
}

impl Seen {
    pub fn join(&mut self, other: &Seen) {
        let pairs = [
            (&mut self.query, &other.query),
            (&mut self.beats, &other.beats),
            (&mut self.scenes, &other.scenes),
            (&mut self.segments, &other.segments),
            (&mut self.slot, &other.slot),
            (&mut self.windows_slot, &other.windows_slot),
            (&mut self.record, &other.record),
            (&mut self.file, &other.file),
        ];
        for (one, two) in pairs {
            for (a, b) in one.iter_mut().zip(two) {
                *a += b;
            }
        }
        for kind in 0..self.halves.len() {
            self.halves[kind] += other.halves[kind];
            self.earlier[kind] += other.earlier[kind];
        }
        self.cleaned += other.cleaned;
        self.left_out += other.left_out;
        self.bad_after += other.bad_after;
        self.bad_before += other.bad_before;
        self.with_error += other.with_error;
        self.cut_off += other.cut_off;
        self.full += other.full;
        self.one_too_many += other.one_too_many;
        self.most_segments = self.most_segments.max(other.most_segments);
        self.most_rows = self.most_rows.max(other.most_rows);
        self.most_weighed = self.most_weighed.max(other.most_weighed);
        self.order.join(&other.order);
        self.checked.join(&other.checked);
        self.lookups.join(&other.lookups);
        self.memory.join(&other.memory);
        self.width_ahead += other.width_ahead;
        self.width_behind += other.width_behind;
        self.summed += other.summed;
    }
}

/// Adds counts to others, place by place.
pub fn add_counts<const N: usize>(pairs: [(&mut [u64], &[u64]); N]) {
    for (counts, more) in pairs {
        for (count, more) in counts.iter_mut().zip(more) {
            *count += more;
        }
    }
}

/// The counts that are not 0, each behind its name.
pub fn named_counts(names: &[&str], counts: &[u64]) -> String {
    let met: Vec<String> = names
        .iter()
        .zip(counts)
        .filter(|(_, count)| **count > 0)
        .map(|(what, count)| format!("{what} {count}"))
        .collect();
    met.join(", ")
}

/// Tells where two things differ.
pub fn same<T: PartialEq + Debug>(what: &str, found: T, expected: T) -> Result<(), String> {
    if found == expected {
        Ok(())
    } else {
        Err(format!(
            "{what}: the library gives {found:?}, expected {expected:?}"
        ))
    }
}

/// Tells the first place where two lists differ.
pub fn same_places<T: PartialEq + Debug>(
    what: &str,
    found: &[T],
    expected: &[T],
) -> Result<(), String> {
    same(&format!("{what}, length"), found.len(), expected.len())?;
    for (place, (one, two)) in found.iter().zip(expected).enumerate() {
        if one != two {
            return Err(format!(
                "{what}, place {place}: the library gives {one:?}, expected {two:?}"
            ));
        }
    }
    Ok(())
}

/// The rows of a slot that was read.
pub fn stretches(profile: &pacer::Profile) -> Vec<Stretch> {
    profile
        .rows()
        .iter()
        .map(|row| Stretch {
            group: row.group,
            first: row.first,
            last: row.last,
            value: row.value,
        })
        .collect()
}

fn segment_of(stretch: &Stretch) -> c::Segment {
    c::Segment {
        group: stretch.group,
        first: stretch.first,
        last: stretch.last,
        value: stretch.value,
    }
}

fn row_of(stretch: &Stretch) -> c::Row {
    c::Row {
        group: stretch.group,
        first: stretch.first,
        last: stretch.last,
        value: stretch.value,
    }
}

/// The question and index of an outcome, 0 and 0 if it is accepted.
pub fn number<T>(outcome: &Result<T, No>) -> (u8, usize) {
    match outcome {
        Ok(_) => (0, 0),
        Err(no) => (no.question, no.index),
    }
}

/// Runs one case.
pub fn run(random: &mut Random, seen: &mut Seen) -> Result<(), String> {
    let records = inputs::records(random);
    let mut log = if random.percent(12) {
        inputs::with_twins(random, &records)
    } else {
        inputs::log_of(&records)
    };
    inputs::damage_log(random, &mut log);
    let kind = inputs::kind(random);
    let width = inputs::width(random, &records);
    twins::run(random, &log, seen)?;

    let expected = segments(random, &log, kind, width, seen)
        .map_err(|why| format!("kind {kind}, width {width}: {why}"))?;
    let (rule, bound) = inputs::bound(random, &expected, kind);
    let ask = Ask::Bound(rule, bound, width);
    let slot = query(random, kind, ask, &log, seen).map_err(|why| {
        format!("kind {kind}, rule {rule:#x}, bound {bound}, width {width}: {why}")
    })?;
    let passes = kind <= reference::MOST_KIND
        && reference::right_width(width)
        && reference::ask_log(&log).is_ok();
    if passes && random.beside().percent(10) {
        order::ends(
            random,
            kind,
            width,
            &log,
            &mut seen.order,
            &mut seen.checked,
        )?;
    }

    // The slot as the query left it; then that slot, or one that no query wrote, with some bytes
    // damaged.
    slot_calls(random, &slot, seen)?;
    let mut other = if reference::read(&slot).is_ok() && random.percent(50) {
        slot
    } else {
        let mut fresh = inputs::slot(random);
        let length = inputs::length(random, 768);
        let rest = random.bytes(length.saturating_sub(768));
        fresh.extend(rest);
        fresh.truncate(length);
        fresh
    };
    inputs::damage_slot(random, &mut other);
    slot_calls(random, &other, seen)?;
    check::any(&log, width, &other, &mut seen.checked)?;
    let right = reference::bounded(rule, bound) && reference::right_width(width);
    if kind <= reference::MOST_KIND && right {
        halves(random, kind, &expected, rule, bound, seen)?;
    }
    if kind == reference::GREATEST && right {
        let earlier = reference::reduce_by(&expected, 0, Half::Lower, rule, bound);
        earlier_slot(random, kind, &expected, rule, bound, earlier, seen)?;
    }
    write_record(random, seen)?;
    let windows = inputs::windows(random, &records);
    let length = inputs::length(random, 768);
    windows::run(random, kind, &windows, &log, length, seen)
}

/// Holds what a query answers to what it answered before halves went up: the same refusal, or as
/// many rows of the same frames with the same error and as many cuts weighed. A value is one more
/// than it was at a half, and else what it was; by the kind of the greatest load it never rises.
/// A slot of before is read as it is.
fn halves(
    random: &mut Random,
    kind: u8,
    segments: &[Stretch],
    rule: u8,
    bound: u16,
    seen: &mut Seen,
) -> Result<(), String> {
    let now = reference::reduce(segments, kind, rule, bound);
    let before = reference::reduce_by(segments, kind, Half::Lower, rule, bound);
    let counts = |answer: &Option<Reduction>| {
        let answer = answer.as_ref()?;
        Some((answer.rows.len(), answer.error, answer.weighed))
    };
    same("counts of before", counts(&now), counts(&before))?;
    let (Some(now), Some(then)) = (&now, &before) else {
        return Ok(());
    };
    for (row, earlier) in now.rows.iter().zip(&then.rows) {
        let frames = |row: &Stretch| (row.group, row.first, row.last);
        same("frames of a row", frames(row), frames(earlier))?;
        let inside =
            |s: &&Stretch| s.group == row.group && row.first <= s.first && s.last <= row.last;
        let twice: u64 = segments
            .iter()
            .filter(inside)
            .map(|s| 2 * s.length() * u64::from(s.value))
            .sum();
        let half = twice == (2 * u64::from(earlier.value) + 1) * row.length();
        let risen = u32::from(half && kind != reference::GREATEST);
        same("value of a row", row.value, earlier.value + risen)?;
        seen.halves[usize::from(kind)] += u64::from(risen);
    }
    if now.rows == then.rows {
        return Ok(());
    }
    earlier_slot(random, kind, segments, rule, bound, before, seen)
}

/// The calls on a slot as it was written before: with the lower number at a half and, of the
/// greatest load, with nearest whole numbers at first. It is read, walked and looked up as it is.
fn earlier_slot(
    random: &mut Random,
    kind: u8,
    segments: &[Stretch],
    rule: u8,
    bound: u16,
    earlier: Option<Reduction>,
    seen: &mut Seen,
) -> Result<(), String> {
    let Some(earlier) = earlier else {
        return Ok(());
    };
    let slot = reference::layout(reference::BY_BOUND, kind, earlier.error, &earlier.rows);
    let read = reference::read(&slot).map(|contents| contents.rows);
    same("the reference", read, Ok(earlier.rows.clone()))?;
    let now = reference::reduce(segments, kind, rule, bound).map(|reduction| reduction.rows);
    seen.earlier[usize::from(kind)] += u64::from(now != Some(earlier.rows));
    slot_calls(random, &slot, seen)
}

/// The segment call. Gives the segments that a query will find, whatever list was lent.
fn segments(
    random: &mut Random,
    log: &[u8],
    kind: u8,
    width: u16,
    seen: &mut Seen,
) -> Result<Vec<Stretch>, String> {
    let places = inputs::length(random, 255);
    let before: Vec<c::Segment> = (0..places)
        .map(|_| {
            let noise = random.next();
            c::Segment {
                group: noise as u8,
                first: (noise >> 8) as u16,
                last: (noise >> 24) as u16,
                value: (noise >> 32) as u32,
            }
        })
        .collect();
    let mut list = before.clone();
    let answer = c::segments(log, kind, width, &mut list);
    order::segments(random, kind, width, log, (answer, &list), &mut seen.order)?;
    let outcome = reference::segments(log, kind, width, 255);
    let expected = if places < 255 {
        Err(No {
            question: 1,
            index: 0,
        })
    } else {
        outcome.clone()
    };
    let (question, index) = number(&expected);
    let found = expected.unwrap_or_default();
    same(
        "segments",
        answer,
        c::SegmentsAnswer {
            question,
            index,
            count: found.len(),
        },
    )?;
    let mut after = before.clone();
    for (place, segment) in after.iter_mut().zip(&found) {
        *place = segment_of(segment);
    }
    same_places("list of segments", &list, &after)?;
    seen.segments[usize::from(question)] += 1;
    if question == 0 {
        seen.memory.count(width, &reference::records(log));
    }
    if width == c::ONE_FRAME {
        // The safe function without a memory does the same.
        let mut other = before;
        let safe = pacer::segments(log, pacer::Kind(kind), &mut other).map(<[_]>::len);
        let numbers = match safe {
            Ok(count) => (0, 0, count),
            Err(refusal) => (refusal.question, refusal.index, 0),
        };
        same("safe segments", numbers, (question, index, found.len()))?;
        same_places("list of the safe function", &other, &after)?;
    }

    if kind == 0 && width == c::ONE_FRAME && answer.question == 0 {
        // The library's own segments against the records; with a memory the sum is another one.
        seen.summed += 1;
        let by_segment: u64 = list[..answer.count]
            .iter()
            .map(|s| frames(s.first, s.last) * u64::from(s.value))
            .sum();
        let by_record: u64 = reference::records(log)
            .iter()
            .map(|r| frames(r.first, r.last) * u64::from(r.load))
            .sum();
        same("length times load", by_segment, by_record)?;
    }
    let found = outcome.unwrap_or_default();
    seen.most_segments = seen.most_segments.max(found.len());
    Ok(found)
}

/// The number of frames from first to last, both included.
fn frames(first: u16, last: u16) -> u64 {
    u64::from(last) - u64::from(first) + 1
}

/// The paper's bound of the cuts that the library may weigh, from its own answers: K is the
/// smaller of limit and n, and with a share the count of rows.
fn most_weighed(
    kind: u8,
    (rule, bound, width): (u8, u16, u16),
    log: &[u8],
    answer: &c::QueryAnswer,
) -> u64 {
    let mut list = [c::Segment::default(); pacer::SEGMENT_PLACES];
    let n = c::segments(log, kind, width, &mut list).count as u64;
    let tried = if rule == c::ROWS {
        u64::from(bound).min(n)
    } else {
        answer.rows as u64
    };
    tried.saturating_sub(1) * n * n.saturating_sub(1) / 2
}

/// The safe function's query by a bound, where it knows the rule: the answer of the C function, and the
/// same bytes. Of the width 1 also without a memory.
fn safe_query(
    kind: u8,
    (rule, bound, width): (u8, u16, u16),
    log: &[u8],
    before: &[u8],
    (answer, slot): (c::QueryAnswer, &[u8]),
) -> Result<(), String> {
    let bound = match rule {
        c::ROWS => pacer::Rule::Rows(bound),
        c::SHARE => pacer::Rule::Share(bound),
        _ => return Ok(()),
    };
    let query = pacer::Query::new(pacer::Kind(kind), bound);
    let mut asked = vec![query.with_memory(width)];
    if width == c::ONE_FRAME {
        asked.push(query);
    }
    for query in asked {
        let mut other = before.to_vec();
        let found = order::answer_of(pacer::query(query, log, &mut other));
        same("safe query", found, answer)?;
        same_places("slot of the safe query", &other, slot)?;
    }
    Ok(())
}

/// The query call by a bound. Gives the slot that was lent, as the call left it.
fn query(
    random: &mut Random,
    kind: u8,
    ask: Ask,
    log: &[u8],
    seen: &mut Seen,
) -> Result<Vec<u8>, String> {
    let Ask::Bound(rule, bound, width) = ask else {
        return Err("a query by windows".to_string());
    };
    let length = inputs::length(random, 768);
    let before = random.bytes(length);
    let mut slot = before.clone();
    let answer = ask.library(kind, log, &mut slot);
    safe_query(kind, (rule, bound, width), log, &before, (answer, &slot))?;
    order::query(random, kind, ask, log, (answer, &slot), &mut seen.order)?;
    check::written(random, ask, log, (answer, &slot), 3, &mut seen.checked)?;
    let expected = reference::query(kind, rule, bound, width, log, slot.len());
    let (question, index) = number(&expected);
    seen.query[usize::from(question)] += 1;
    if question == 0 {
        seen.memory.count(width, &reference::records(log));
    } else if !reference::right_width(width) {
        seen.width_behind += u64::from(question < 25);
        seen.width_ahead += u64::from(question == 25 && reference::ask_log(log).is_err());
    }
    match expected {
        Ok(reduction) => {
            same(
                "query",
                answer,
                c::QueryAnswer {
                    question: 0,
                    index: 0,
                    rows: reduction.rows.len(),
                    error: reduction.error,
                    weighed: reduction.weighed,
                },
            )?;
            let rows = &reduction.rows;
            let mut after = reference::layout(reference::BY_BOUND, kind, reduction.error, rows);
            after.extend(&before[768..]);
            same_places("slot", &slot, &after)?;

            // The library reads its own slot back to the same kind, error and rows.
            let profile = pacer::read(&slot).map_err(|refusal| refusal.to_string())?;
            same("header", profile.header(), pacer::Header::ByBound)?;
            same("kind read back", profile.kind().0, kind)?;
            same("error read back", profile.error(), reduction.error)?;
            same_places("rows read back", &stretches(&profile), rows)?;
            let most = most_weighed(kind, (rule, bound, width), log, &answer);
            same("cuts within the bound", answer.weighed <= most, true)?;
            seen.most_rows = seen.most_rows.max(rows.len());
            seen.most_weighed = seen.most_weighed.max(reduction.weighed);
        }
        Err(_) => {
            same(
                "query",
                answer,
                c::QueryAnswer {
                    question,
                    index,
                    rows: 0,
                    error: 0,
                    weighed: 0,
                },
            )?;
            same_places("slot after a refusal", &slot, &before)?;
        }
    }
    Ok(slot)
}

/// The reading of a slot with its rows into a lent list.
fn read_rows(
    random: &mut Random,
    slot: &[u8],
    expected: &Result<Contents, No>,
) -> Result<(), String> {
    let places = inputs::length(random, 64);
    let before: Vec<c::Row> = (0..places)
        .map(|place| c::Row {
            group: 9,
            first: place as u16,
            last: 1,
            value: 7,
        })
        .collect();
    let mut list = before.clone();
    let answer = c::read_rows(slot, &mut list);
    let short = No {
        question: 1,
        index: 0,
    };
    let outcome = if places < 64 {
        Err(&short)
    } else {
        expected.as_ref()
    };
    match outcome {
        Ok(contents) => {
            same(
                "read_rows",
                answer,
                c::ReadAnswer {
                    question: 0,
                    index: 0,
                    kind: contents.kind,
                    mark: contents.mark,
                    rows: contents.rows.len(),
                    error: contents.error,
                },
            )?;
            let rows: Vec<c::Row> = contents.rows.iter().map(row_of).collect();
            same_places("rows in the list", &list[..rows.len()], &rows)?;
            same_places(
                "places behind the rows",
                &list[rows.len()..],
                &before[rows.len()..],
            )
        }
        Err(no) => {
            same(
                "read_rows",
                answer,
                c::ReadAnswer {
                    question: no.question,
                    index: no.index,
                    kind: 0,
                    mark: 0,
                    rows: 0,
                    error: 0,
                },
            )?;
            same_places("list after a refusal", &list, &before)
        }
    }
}

/// Whether a slot under the header of windows is accepted once its error is 0.
fn only_error(slot: &[u8]) -> bool {
    let mut without = slot.to_vec();
    without[4..12].fill(0);
    reference::read(&without).is_ok()
}

/// The calls on a slot: read, read_rows, row_at for every number, some lookups, and many as a set.
pub fn slot_calls(random: &mut Random, slot: &[u8], seen: &mut Seen) -> Result<(), String> {
    let expected = reference::read(slot);
    let (question, index) = number(&expected);
    let by_windows = slot.starts_with(&[0x50, reference::BY_WINDOWS]);
    seen.slot[usize::from(question)] += 1;
    seen.windows_slot[usize::from(question)] += u64::from(by_windows);
    seen.with_error += u64::from(by_windows && question == 17 && only_error(slot));
    let (kind, mark, error, rows) = match &expected {
        Ok(contents) => (
            contents.kind,
            contents.mark,
            contents.error,
            contents.rows.clone(),
        ),
        Err(_) => (0, 0, 0, Vec::new()),
    };
    same(
        "read",
        c::read(slot),
        c::ReadAnswer {
            question,
            index,
            kind,
            mark,
            rows: rows.len(),
            error,
        },
    )?;
    if expected.is_ok() {
        // A slot that the library accepts is byte for byte the layout of what it reads.
        let profile = pacer::read(slot).map_err(|refusal| refusal.to_string())?;
        let read = stretches(&profile);
        let mark = match profile.header() {
            pacer::Header::ByBound => reference::BY_BOUND,
            pacer::Header::ByWindows => reference::BY_WINDOWS,
        };
        let layout = reference::layout(mark, profile.kind().0, profile.error(), &read);
        same_places("layout", &layout, &slot[..768])?;
        same_places("rows", &read, &rows)?;
    }
    read_rows(random, slot, &expected)?;
    let far = [64, 65, 1 << 16, usize::MAX, random.next() as usize];
    for number in (0..rows.len() + 2).chain(far) {
        let row = rows.get(number);
        let blank = Stretch {
            group: 0,
            first: 0,
            last: 0,
            value: 0,
        };
        let fields = row.unwrap_or(&blank);
        same(
            "row_at",
            c::row_at(slot, number),
            c::StepAnswer {
                question,
                index,
                found: u8::from(row.is_some()),
                group: fields.group,
                first: fields.first,
                last: fields.last,
                value: fields.value,
                next: if row.is_some() { number + 1 } else { number },
            },
        )?;
    }
    for _ in 0..6 {
        // Near the ends of a row, or anywhere.
        let (group, frame) = if !rows.is_empty() && random.percent(75) {
            let row = random.pick(&rows);
            let frame = match random.range(0, 4) {
                0 => row.first,
                1 => row.last,
                2 => row.first.wrapping_sub(1),
                3 => row.last.wrapping_add(1),
                _ => random.range(u64::from(row.first), u64::from(row.last)) as u16,
            };
            (row.group, frame)
        } else {
            (random.range(0, 9) as u8, random.range(0, 65_535) as u16)
        };
        let expected = reference::lookup(slot, group, frame);
        let (question, index) = number(&expected);
        seen.slot[usize::from(question)] += u64::from(question == 7);
        seen.windows_slot[usize::from(question)] += u64::from(by_windows && question == 7);
        let value = expected.unwrap_or(None);
        same(
            "lookup",
            c::lookup(slot, group, frame),
            c::LookupAnswer {
                question,
                index,
                covered: u8::from(value.is_some()),
                value: value.unwrap_or(0),
            },
        )?;
    }
    lookups::run(random, slot, &rows, &mut seen.lookups)
}

/// The record writer.
fn write_record(random: &mut Random, seen: &mut Seen) -> Result<(), String> {
    let group = random.range(0, 8) as u8;
    let first = random.pick(&[0, 1, 255, 256, 65_534, 65_535, 4660]);
    let last = random.pick(&[0, 1, 255, 256, 65_534, 65_535, 4661]).max(
        // Most often the frames are in order.
        if random.percent(80) { first } else { 0 },
    );
    let load = random.pick(&[0, 1, 100, 513, 999, 1000, 1001, 65_535]);
    let length = inputs::length(random, 9);
    let before = random.bytes(length);
    let mut buffer = before.clone();
    let answer = c::write_record(group, first, last, load, &mut buffer);
    let expected = reference::write_record(group, first, last, load, length);
    let (question, index) = number(&expected);
    same("write_record", answer, c::RecordAnswer { question, index })?;
    let mut after = expected.unwrap_or_default();
    after.extend(&before[after.len()..]);
    same_places("buffer of write_record", &buffer, &after)?;
    seen.record[usize::from(question)] += 1;
    Ok(())
}
