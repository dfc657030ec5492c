//! Demand 3 for the proved library, against every fitting list of a small log, with a memory and
//! without.

use crate::check::{self, Checked};
use crate::compare::{same, stretches};
use crate::inputs::{self, Fields};
use crate::memory::Remembered;
use crate::order::{self, Ask, Shuffled};
use crate::random::Random;
use pacer::{c, Bound, Kind, Query};
use reference::brute::{self, Frame};
use reference::Stretch;

/// How much was tried.
#[derive(Clone, Copy, Default)]
pub struct Tried {
    pub queries: u64,
    pub refused: u64,
    /// The same of queries with a memory of more than one frame.
    pub remembered: u64,
    pub remembered_refused: u64,
    /// Rows for which two numbers are equally good, by kind.
    pub halves: [u64; 5],
    /// Logs in another order.
    pub order: Shuffled,
    /// Slots held to their logs.
    pub checked: Checked,
    /// What the widths met.
    pub memory: Remembered,
}

impl Tried {
    pub fn join(&mut self, other: &Tried) {
        self.queries += other.queries;
        self.refused += other.refused;
        self.remembered += other.remembered;
        self.remembered_refused += other.remembered_refused;
        for (a, b) in self.halves.iter_mut().zip(&other.halves) {
            *a += b;
        }
        self.order.join(&other.order);
        self.checked.join(&other.checked);
        self.memory.join(&other.memory);
    }
}

/// A log with a kind and a width, and its covered frames with their values.
struct Asked<'a> {
    kind: u8,
    width: u16,
    log: &'a [u8],
    frames: &'a [Frame],
}

/// What the library writes and reads back: the rows and the error, or the question.
type Outcome = Result<(Vec<Stretch>, u64), u8>;

/// The library's outcome for a bound, the same in every order of the log.
fn outcome(
    random: &Random,
    asked: &Asked,
    bound: Bound,
    tried: &mut Tried,
) -> Result<Outcome, String> {
    let &Asked {
        kind, width, log, ..
    } = asked;
    let mut slot = [0; pacer::SLOT_BYTES];
    let query = Query::new(Kind(kind), bound).with_memory(width);
    let found = pacer::query(query, log, &mut slot);
    let ask = match bound {
        Bound::Rows(limit) => Ask::Bound(c::ROWS, limit, width),
        Bound::Share(share) => Ask::Bound(c::SHARE, share, width),
        _ => return Err("a rule that is no bound".to_string()),
    };
    let answer = order::answer_of(found);
    order::query(random, kind, ask, log, (answer, &slot), &mut tried.order)?;
    check::written(random, ask, log, (answer, &slot), 1, &mut tried.checked)?;
    Ok(found
        .and_then(|_| pacer::read(&slot))
        .map(|profile| (stretches(&profile), profile.error()))
        .map_err(|refusal| refusal.question))
}

/// The rows of the answer are a list that fits for the kind, the error is theirs, and each holds
/// the greatest of the numbers that are best for its frames.
fn fitting(
    kind: u8,
    rows: &[Stretch],
    error: u64,
    frames: &[Frame],
    tried: &mut Tried,
) -> Result<(), String> {
    same("the rows fit", brute::fits(rows, frames, kind), true)?;
    same(
        "the error frame by frame",
        error,
        brute::squared_error(rows, frames),
    )?;
    for row in rows {
        let held: Vec<Frame> = frames
            .iter()
            .copied()
            .filter(|(group, frame, _)| row.contains(*group, *frame))
            .collect();
        let (number, equally_good) = brute::best_number(&held, kind);
        same("the best number of a row", i64::from(row.value), number)?;
        tried.halves[usize::from(kind)] += u64::from(equally_good > 1);
    }
    Ok(())
}

/// Holds the library's answer to the error and row count of the best list, and to question 10 if there
/// is none. Gives the rows.
fn hold(
    random: &Random,
    asked: &Asked,
    bound: Bound,
    best: Option<(u64, usize)>,
    tried: &mut Tried,
) -> Result<Option<Vec<Stretch>>, String> {
    let remembered = u64::from(asked.width > c::ONE_FRAME);
    tried.queries += 1;
    tried.remembered += remembered;
    match (outcome(random, asked, bound, tried)?, best) {
        (Ok((rows, error)), Some(best)) => {
            same("error and row count", (error, rows.len()), best)?;
            fitting(asked.kind, &rows, error, asked.frames, tried)?;
            Ok(Some(rows))
        }
        (Err(question), None) => {
            tried.refused += 1;
            tried.remembered_refused += remembered;
            same("no list answers the bound", question, 10)?;
            Ok(None)
        }
        (found, best) => Err(format!("the library gives {found:?}, the lists {best:?}")),
    }
}

/// A row limit: `least` has the least error of the fitting lists of exactly k rows at place k.
fn limit(
    random: &Random,
    asked: &Asked,
    c: u16,
    least: &[Option<u64>],
    tried: &mut Tried,
) -> Result<Option<Vec<Stretch>>, String> {
    let reachable = least.iter().take(usize::from(c) + 1);
    // The least error of at most c rows and the fewest rows that have it.
    let best = reachable
        .enumerate()
        .filter_map(|(rows, error)| error.map(|error| (error, rows)))
        .min();
    hold(random, asked, Bound::Rows(c), best, tried)
}

/// A share of the least error at the fewest rows.
fn share(
    random: &Random,
    asked: &Asked,
    p: u16,
    least: &[Option<u64>],
    tried: &mut Tried,
) -> Result<Option<Vec<Stretch>>, String> {
    let most = least
        .iter()
        .flatten()
        .next()
        .copied()
        .map(|error| u128::from(error) * u128::from(p));
    // The fewest rows with a list within the share.
    let best = least.iter().take(65).enumerate().find_map(|(rows, error)| {
        let (error, most) = ((*error)?, most?);
        (u128::from(error) * 1000 <= most).then_some((error, rows))
    });
    hold(random, asked, Bound::Share(p), best, tried)
}

/// One small log with all limits that matter and several shares, half of them with a memory of a few
/// frames. Its frames are gone through one by one, and from each as many back as the width says.
pub fn run_small(random: &mut Random, tried: &mut Tried) -> Result<(), String> {
    let width = random.pick(&[1, 1, 1, 1, 1, 2, 2, 3, 4, 7]);
    let base = if random.percent(20) {
        65_536 - 10
    } else {
        random.range(0, 3)
    };
    let records = small_records(random, base, width);
    let log = inputs::log_of(&records);
    let kind = random.range(0, u64::from(reference::MOST_KIND)) as u8;
    let decoded = reference::records(&log);
    // Ten frames from the base on have records, and some behind them remember those.
    let last = (base + 20).min(65_535) as u16;
    let frames = brute::covered_by_frames(&decoded, kind, width, base as u16..=last);
    let covered = reference::covered(&decoded, kind, width);
    // A test of the reference and not of the library.
    assert_eq!(covered, frames, "{records:?}, width {width}");
    let segments = reference::segments_of(&decoded, kind, width);
    tried.memory.count(width, &decoded);

    let least = brute::least_by_cuttings(&frames, kind);
    // At most so many numbers are tried for a row, and there are no more rows than frames.
    let numbers = u64::from(frames.iter().map(|f| f.2).max().unwrap_or(0)) + 7;
    if numbers.saturating_pow(frames.len() as u32) <= 100_000 {
        // A test of the measure and not of the library: the least errors by cuttings with the best
        // number each are those by every combination of numbers.
        assert_eq!(brute::least_by_lists(&frames, kind), least, "{records:?}");
    }
    let context = |why| format!("records {records:?}, kind {kind}, width {width}: {why}");
    let held = (&log[..], width);
    check::lists(random, kind, held, &frames, numbers, &mut tried.checked).map_err(context)?;
    let asked = Asked {
        kind,
        width,
        log: &log,
        frames: &frames,
    };
    for c in 0..=frames.len() as u16 + 1 {
        let rows = limit(random, &asked, c, &least, tried)
            .map_err(|why| context(format!("limit {c}: {why}")))?;
        if let Some(rows) = rows {
            let chosen = brute::best_cutting(&segments, kind, usize::from(c), false);
            same("the paper's rows", Some(rows), chosen).map_err(context)?;
        }
    }
    let mut shares = vec![0, 1000, random.range(0, 1000), random.range(0, 100)];
    if let Some(most) = least.iter().flatten().next().filter(|most| **most > 0) {
        // The least share that each number of rows meets, and the one below it.
        for error in least.iter().flatten() {
            let share = (error * 1000).div_ceil(*most);
            shares.extend([share, share.saturating_sub(1)]);
        }
    }
    shares.sort_unstable();
    shares.dedup();
    for p in shares {
        let rows = share(random, &asked, p as u16, &least, tried)
            .map_err(|why| context(format!("share {p}: {why}")))?;
        if let Some(rows) = rows {
            let chosen = brute::best_cutting(&segments, kind, rows.len(), true);
            same("the paper's rows", Some(rows), chosen).map_err(context)?;
        }
    }
    Ok(())
}

/// Records of ten frames from a base on that cover, with a memory, at most ten frames.
fn small_records(random: &mut Random, base: u64, width: u16) -> Vec<Fields> {
    let groups: Vec<u8> = match random.range(0, 3) {
        0 | 1 => vec![random.range(0, 7) as u8],
        2 => vec![0, 7],
        _ => vec![1, 2, 5],
    };
    let greatest = match random.range(0, 39) {
        0 => 1000,
        1..=15 => 3,
        _ => 9,
    };
    let span = random.range(1, 10);
    let mut records: Vec<Fields> = Vec::new();
    for _ in 0..random.range(0, 9) {
        let length = random.range(1, span.min(4));
        let first = base + random.range(0, span - length);
        let record = (
            random.pick(&groups),
            first as u16,
            (first + length - 1) as u16,
            random.range(0, greatest) as u16,
        );
        records.push(record);
        let decoded = reference::records(&inputs::log_of(&records));
        if reference::covered(&decoded, 1, width).len() > 10 {
            records.pop();
        } else if random.percent(10) {
            // The same frames with another load.
            let (group, first, last, _) = record;
            records.push((group, first, last, random.range(0, greatest) as u16));
        } else if random.percent(10) {
            // The same but for the last frame.
            let (group, first, last, load) = record;
            records.push((group, first, last.saturating_sub(1).max(first), load));
        }
    }
    inputs::distinct(records)
}

/// One log of many frames, so that 64 rows can be too few, against a table over its frames.
pub fn run_many(random: &mut Random, tried: &mut Tried) -> Result<(), String> {
    let count = random.range(40, 120);
    let kind = random.pick(&[0, 2, 3, 4]);
    // Every number up to the greatest value is tried, and kind 4 has values 100 times as great.
    let greatest = random.range(1, if kind == 4 { 2 } else { 9 });
    // One run, a few runs, or almost as many runs as frames.
    let apart = random.pick(&[0, 2, 10, 60, 95]);
    // Frames further apart than the memory reaches begin a run of their own.
    let width = random.pick(&[1, 1, 1, 2, 3]);
    let mut frame = random.range(0, 5) as u16;
    let mut group = 0;
    let records: Vec<Fields> = (0..count)
        .map(|_| {
            if random.percent(2) && group < 7 {
                group += 1;
            }
            frame += if random.percent(apart) { 1 + width } else { 1 };
            (group, frame, frame, random.range(0, greatest) as u16)
        })
        .collect();
    let log = inputs::log_of(&records);
    let decoded = reference::records(&log);
    let frames = reference::covered(&decoded, kind, width);
    let least = brute::least_by_table(&frames, kind, 64);
    // The fewest rows of any list, also where they are more than 64.
    let m = reference::runs(&reference::segments_of(&decoded, kind, width)) as u64;
    let context = |why| format!("records {records:?}, kind {kind}, width {width}: {why}");
    let asked = Asked {
        kind,
        width,
        log: &log,
        frames: &frames,
    };

    for c in [
        random.range(0, 64),
        64,
        m.min(64),
        m.saturating_sub(1).min(64),
    ] {
        limit(random, &asked, c as u16, &least, tried)
            .map_err(|why| context(format!("limit {c}: {why}")))?;
    }
    for p in [0, 1000, random.range(0, 10), random.range(0, 1000)] {
        share(random, &asked, p as u16, &least, tried)
            .map_err(|why| context(format!("share {p}: {why}")))?;
    }
    Ok(())
}
