//! Demand 3 by trying every list of rows, rows by windows by going through the frames, a memory by
//! going through the last frames of each frame, and twins by holding every record to every earlier one.
//!
//! Nothing here knows segments or blocks: a log is its covered frames with their values, a list
//! of rows is any cutting of these frames, and a row's number is tried out. By the kind of the
//! greatest load only numbers fit that are nowhere below a value in the row. A window is its
//! frames, and the records that meet it are those found at one of them.

use crate::{aggregate, Half, Record, Stretch, Window, GREATEST};
use std::collections::BTreeSet;

/// A covered frame: group, frame and value.
pub type Frame = (u8, u32, u32);

/// Every covered frame with its value, by group and then by frame: each of the frames that are gone
/// through is asked for the records that contain it, or the frame before it, and so on, as many frames
/// back as the width says. A record that is found at several of them is noted once. The frames must
/// have all that are covered among them; few and with a small width.
pub fn covered_by_frames(
    records: &[Record],
    kind: u8,
    width: u16,
    frames: impl Iterator<Item = u16> + Clone,
) -> Vec<Frame> {
    let mut covered = Vec::new();
    for group in 0..8 {
        for frame in frames.clone() {
            let mut met = BTreeSet::new();
            for back in (0..width).take_while(|back| *back <= frame) {
                for (place, record) in records.iter().enumerate() {
                    let holds = (record.first..=record.last).contains(&(frame - back));
                    if record.group == group && holds {
                        met.insert(place);
                    }
                }
            }
            let loads = met.into_iter().map(|place| u32::from(records[place].load));
            let value = aggregate(&loads.collect::<Vec<u32>>(), kind);
            covered.extend(value.map(|value| (group, u32::from(frame), value)));
        }
    }
    covered
}

/// Whether a list fits for a kind: every covered frame lies in exactly one row of its group, and
/// no uncovered frame lies in any; by the kind of the greatest load no frame's value is above the
/// number of its row.
pub fn fits(rows: &[Stretch], frames: &[Frame], kind: u8) -> bool {
    let held_once = frames.iter().all(|(group, frame, _)| {
        rows.iter()
            .filter(|row| row.contains(*group, *frame))
            .count()
            == 1
    });
    let all_covered = rows.iter().all(|row| {
        (u32::from(row.first)..=u32::from(row.last)).all(|frame| {
            frames
                .iter()
                .any(|(group, covered, _)| *group == row.group && *covered == frame)
        })
    });
    let nowhere_below = frames.iter().all(|(group, frame, value)| {
        rows.iter()
            .filter(|row| row.contains(*group, *frame))
            .all(|row| *value <= row.value)
    });
    held_once
        && all_covered
        && rows.iter().all(|row| row.first <= row.last)
        && (kind != GREATEST || nowhere_below)
}

/// The squared error of a fitting list, frame by frame.
pub fn squared_error(rows: &[Stretch], frames: &[Frame]) -> u64 {
    frames
        .iter()
        .map(|(group, frame, value)| {
            let row = rows
                .iter()
                .find(|row| row.contains(*group, *frame))
                .expect("a fitting list holds every covered frame");
            u64::from(row.value.abs_diff(*value)).pow(2)
        })
        .sum()
}

/// Whether frames i and i + 1 may lie in one row.
fn joined(frames: &[Frame], i: usize) -> bool {
    let (one, next) = (frames[i], frames[i + 1]);
    one.0 == next.0 && one.1 + 1 == next.1
}

/// The numbers tried for a row: all from one below the least value to two above the greatest,
/// and some negative ones; by the kind of the greatest load those that no value is above.
fn candidates(row: &[Frame], kind: u8) -> impl Iterator<Item = i64> + Clone + '_ {
    let least = row.iter().map(|f| i64::from(f.2)).min().unwrap_or(0);
    let greatest = row.iter().map(|f| i64::from(f.2)).max().unwrap_or(0);
    let negative = [-1000, -2, -1].into_iter().filter(move |x| *x < least - 1);
    negative
        .chain(least - 1..=greatest + 2)
        .filter(move |x| kind != GREATEST || row.iter().all(|f| i64::from(f.2) <= *x))
}

/// The squared error of a row with a number.
fn row_error(row: &[Frame], number: i64) -> u64 {
    row.iter()
        .map(|f| (i64::from(f.2) - number).pow(2) as u64)
        .sum()
}

/// The number of a row: of those with the least error the greatest, and how many these are.
pub fn best_number(row: &[Frame], kind: u8) -> (i64, usize) {
    let least = candidates(row, kind).map(|x| row_error(row, x)).min();
    let best = candidates(row, kind).filter(|x| Some(row_error(row, *x)) == least);
    let number = best.clone().max().expect("a row has candidates");
    (number, best.count())
}

fn keep_least(place: &mut Option<u64>, error: u64) {
    if place.is_none_or(|least| error < least) {
        *place = Some(error);
    }
}

/// A row by the places of its first frame and of the frame after its last, and its number.
pub type Part = (usize, usize, i64);

/// Visits the fitting lists with their errors: every cutting with every combination of numbers. For
/// very few frames.
pub fn each_list(frames: &[Frame], kind: u8, visit: &mut dyn FnMut(&[Part], u64)) {
    fn go(
        (frames, kind): (&[Frame], u8),
        start: usize,
        list: &mut Vec<Part>,
        error: u64,
        visit: &mut dyn FnMut(&[Part], u64),
    ) {
        if start == frames.len() {
            visit(list, error);
            return;
        }
        for end in start + 1..=frames.len() {
            let row = &frames[start..end];
            for number in candidates(row, kind) {
                let error = error + row_error(row, number);
                list.push((start, end, number));
                go((frames, kind), end, list, error, visit);
                list.pop();
            }
            if end < frames.len() && !joined(frames, end - 1) {
                break;
            }
        }
    }
    go((frames, kind), 0, &mut Vec::new(), 0, visit);
}

/// The least error of the fitting lists of exactly k rows, at place k, by going through all lists.
pub fn least_by_lists(frames: &[Frame], kind: u8) -> Vec<Option<u64>> {
    let mut least = vec![None; frames.len() + 1];
    each_list(frames, kind, &mut |list, error| {
        keep_least(&mut least[list.len()], error);
    });
    least
}

/// The least error that a row of frames start to end (excluded) can have, over the candidates.
fn row_table(frames: &[Frame], kind: u8) -> Vec<Vec<Option<u64>>> {
    let count = frames.len();
    (0..count)
        .map(|start| {
            let mut row = vec![None; count + 1];
            for end in start + 1..=count {
                let part = &frames[start..end];
                row[end] = candidates(part, kind).map(|x| row_error(part, x)).min();
                if end < count && !joined(frames, end - 1) {
                    break;
                }
            }
            row
        })
        .collect()
}

/// The same by every cutting; each row gets the best of its candidate numbers, since the errors
/// of the rows add. For few frames.
pub fn least_by_cuttings(frames: &[Frame], kind: u8) -> Vec<Option<u64>> {
    let count = frames.len();
    let mut least = vec![None; count + 1];
    if count == 0 {
        least[0] = Some(0);
        return least;
    }
    let rows = row_table(frames, kind);
    'cutting: for cuts in 0u32..1 << (count - 1) {
        // Bit i of `cuts` says that a row ends after frame i; the last frame always ends one.
        let ends = (1..=count).filter(|end| *end == count || cuts >> (end - 1) & 1 == 1);
        let (mut start, mut parts, mut error) = (0, 0, 0);
        for end in ends {
            match rows[start][end] {
                Some(cost) => error += cost,
                None => continue 'cutting,
            }
            parts += 1;
            start = end;
        }
        keep_least(&mut least[parts], error);
    }
    least
}

/// The same by a table over frames, for at most `limit` rows: for logs with more frames than can
/// be cut in every way.
pub fn least_by_table(frames: &[Frame], kind: u8, limit: usize) -> Vec<Option<u64>> {
    let count = frames.len();
    let rows = row_table(frames, kind);
    let mut reach: Vec<Option<u64>> = vec![None; count + 1];
    reach[0] = Some(0);
    let mut least = vec![reach[count]];
    for _ in 1..=limit.min(count) {
        let mut next = vec![None; count + 1];
        for start in 0..count {
            if let Some(front) = reach[start] {
                for end in start + 1..=count {
                    match rows[start][end] {
                        Some(cost) => keep_least(&mut next[end], front + cost),
                        None => break,
                    }
                }
            }
        }
        reach = next;
        least.push(reach[count]);
    }
    least
}

/// The paper's choice among all reductions of a few segments, each tried: the rows of the least
/// error, then the fewest rows, then the latest last cut, and so on. With `exactly` only
/// reductions of so many rows are tried, otherwise those of at most so many.
pub fn best_cutting(
    segments: &[Stretch],
    kind: u8,
    rows: usize,
    exactly: bool,
) -> Option<Vec<Stretch>> {
    let n = segments.len();
    if n == 0 {
        return Some(Vec::new());
    }
    let mut best: Option<(u64, Vec<usize>)> = None;
    for cuts in 0u32..1 << (n - 1) {
        // Where the blocks end, from the last one to the first.
        let ends: Vec<usize> = (1..=n)
            .rev()
            .filter(|end| *end == n || cuts >> (end - 1) & 1 == 1)
            .collect();
        let allowed = if exactly {
            ends.len() == rows
        } else {
            ends.len() <= rows
        };
        let across = (1..n).any(|end| {
            !crate::adjacent(&segments[end - 1], &segments[end]) && !ends.contains(&end)
        });
        if !allowed || across {
            continue;
        }
        let error = blocks(segments, &ends)
            .map(|block| crate::error_of(block, kind, Half::Upper))
            .sum();
        let better = match &best {
            None => true,
            Some((least, chosen)) => {
                (error, ends.len()) < (*least, chosen.len())
                    || ((error, ends.len()) == (*least, chosen.len()) && ends > *chosen)
            }
        };
        if better {
            best = Some((error, ends));
        }
    }
    best.map(|(_, ends)| {
        let mut rows: Vec<Stretch> = blocks(segments, &ends)
            .map(|block| crate::row_of(block, kind, Half::Upper))
            .collect();
        rows.reverse();
        rows
    })
}

/// The blocks that end at the given places, from the last to the first.
fn blocks<'a>(
    segments: &'a [Stretch],
    ends: &'a [usize],
) -> impl Iterator<Item = &'a [Stretch]> + 'a {
    ends.iter().enumerate().map(|(place, end)| {
        let start = ends.get(place + 1).copied().unwrap_or(0);
        &segments[start..*end]
    })
}

/// The rows of some windows, by going through the frames of each and noting the places of the
/// group's records that contain the frame. A record that is met at several frames is noted once. For
/// few and short windows.
pub fn rows_by_frames(records: &[Record], kind: u8, windows: &[Window]) -> Vec<Stretch> {
    let mut rows = Vec::new();
    for group in 0..8 {
        for (first, last) in windows {
            let mut met = BTreeSet::new();
            for frame in *first..=*last {
                for (place, record) in records.iter().enumerate() {
                    if record.group == group && (record.first..=record.last).contains(&frame) {
                        met.insert(place);
                    }
                }
            }
            let loads: Vec<u32> = met
                .into_iter()
                .map(|place| u32::from(records[place].load))
                .collect();
            if let Some(value) = aggregate(&loads, kind) {
                rows.push(Stretch {
                    group,
                    first: *first,
                    last: *last,
                    value,
                });
            }
        }
    }
    rows
}

/// The places of a log's whole records that an earlier one equals in all nine bytes, by comparing
/// each pair byte by byte.
pub fn later_twins(log: &[u8]) -> Vec<usize> {
    let equal =
        |one: usize, other: usize| (0..9).all(|at| log[9 * one + at] == log[9 * other + at]);
    (0..log.len() / 9)
        .filter(|later| (0..*later).any(|earlier| equal(earlier, *later)))
        .collect()
}

#[cfg(test)]
mod tests {
    use super::*;

    fn record(group: u8, first: u16, last: u16, load: u16) -> Record {
        Record {
            mark: [0x4C, 0x44],
            group,
            first,
            last,
            load,
        }
    }

    /// All logs of up to six of three records, one of which is bad: the first twin is refused where
    /// no bad record is, and what is kept of a log without a bad one has no twins.
    #[test]
    fn twins_by_pairs() {
        let record = |load| crate::write_record(2, 3, 4, load, 9).unwrap();
        let mut bad = record(7);
        bad[2] = 8;
        let records = [record(7), record(8), bad];
        for count in 0..=6 {
            for choice in 0..3usize.pow(count) {
                let chosen = (0..count).map(|place| choice / 3usize.pow(place) % 3);
                let log: Vec<u8> = chosen
                    .clone()
                    .flat_map(|one| records[one].clone())
                    .collect();
                let twins = later_twins(&log);
                let wrong = chosen.clone().position(|one| one == 2);
                let asked = crate::ask_log(&log).map_err(|no| (no.question, no.index));
                match (wrong, twins.first()) {
                    (Some(bad), Some(twin)) if twin < &bad => assert_eq!(asked, Err((21, *twin))),
                    (Some(bad), _) => assert_eq!(asked, Err((7, bad))),
                    (None, Some(twin)) => assert_eq!(asked, Err((21, *twin))),
                    (None, None) => assert_eq!(asked, Ok(())),
                }
                let kept = crate::without_twins(&log, log.len());
                if let Some(bad) = wrong {
                    assert_eq!(kept.map_err(|no| (no.question, no.index)), Err((7, bad)));
                    continue;
                }
                let kept = kept.unwrap();
                assert_eq!(later_twins(&kept), []);
                assert_eq!(kept.len(), log.len() - 9 * twins.len());
                let left: Vec<u8> = (0..log.len() / 9)
                    .filter(|place| !twins.contains(place))
                    .flat_map(|place| log[9 * place..9 * place + 9].to_vec())
                    .collect();
                assert_eq!(kept, left);
            }
        }
    }

    /// Records that meet a window at one end, across it, within it and not; two of the same load
    /// both count.
    #[test]
    fn window_by_frames() {
        let records = [
            record(3, 0, 10, 1),
            record(3, 4, 9, 2),
            record(3, 10, 12, 4),
            record(3, 11, 12, 8),
            record(3, 0, 20, 16),
            record(3, 12, 12, 32),
            record(3, 13, 14, 64),
            record(3, 11, 12, 32),
            record(4, 12, 12, 128),
        ];
        let windows = [(10, 12), (15, 19), (21, 30)];
        let rows = rows_by_frames(&records, 0, &windows);
        let values: Vec<(u8, u32)> = rows.iter().map(|row| (row.group, row.value)).collect();
        assert_eq!(values, [(3, 93), (3, 16), (4, 128)]);
        for kind in 0..=crate::MOST_KIND {
            let by_frames = rows_by_frames(&records, kind, &windows);
            assert_eq!(crate::window_rows(&records, kind, &windows), by_frames);
        }
    }

    /// With a memory: at the first frame and the last, and with a record that ends as many frames
    /// before a frame as are remembered.
    #[test]
    fn memory_by_frames() {
        let low = [record(3, 0, 1, 1), record(3, 4, 4, 2), record(5, 2, 9, 4)];
        let high = [record(0, 65_530, 65_531, 1), record(0, 65_535, 65_535, 2)];
        let found = covered_by_frames(&low, 0, 3, 0..=20);
        let of_three: Vec<_> = found.iter().filter(|frame| frame.0 == 3).collect();
        let expected = [(0, 1), (1, 1), (2, 1), (3, 1), (4, 2), (5, 2), (6, 2)];
        assert_eq!(of_three.len(), expected.len());
        for (frame, expected) in of_three.iter().zip(expected) {
            assert_eq!((frame.1, frame.2), expected);
        }
        for width in 1..9 {
            for kind in 0..=crate::MOST_KIND {
                for (records, frames) in [(&low[..], 0..=40), (&high[..], 65_500..=65_535)] {
                    let by_frames = covered_by_frames(records, kind, width, frames);
                    assert_eq!(crate::covered(records, kind, width), by_frames);
                }
            }
        }
    }

    #[test]
    fn three_ways_agree() {
        let frames: Vec<Frame> = vec![(0, 3, 2), (0, 4, 0), (0, 5, 1), (0, 7, 4), (1, 8, 4)];
        let expected = [
            (0, [None, None, None, Some(2), Some(1), Some(0)]),
            (GREATEST, [None, None, None, Some(5), Some(1), Some(0)]),
        ];
        for (kind, least) in expected {
            assert_eq!(least_by_lists(&frames, kind), least);
            assert_eq!(least_by_cuttings(&frames, kind), least);
            assert_eq!(least_by_table(&frames, kind, 64), least);
        }
    }

    /// A row that is one below a value does not fit for the kind of the greatest load.
    #[test]
    fn one_below() {
        let frames: Vec<Frame> = vec![(0, 0, 0), (0, 1, 4)];
        let row = |value| Stretch {
            group: 0,
            first: 0,
            last: 1,
            value,
        };
        for value in 0..6 {
            assert!(fits(&[row(value)], &frames, 0));
            assert_eq!(fits(&[row(value)], &frames, GREATEST), value >= 4);
        }
    }
}
