//! Queries by windows: beats and scenes, against the independent implementation.

use crate::check::{self, Checked};
use crate::compare::{number, same, same_places, slot_calls, stretches, Seen};
use crate::inputs::{self, Fields};
use crate::order::{self, Ask, Shuffled};
use crate::random::Random;
use pacer::{c, Header, Kind, Query, Rule, Scene};
use reference::{brute, No, Stretch, Window};

/// The windows of a query, right or wrong.
#[derive(Clone, Debug)]
pub enum Windows {
    /// Length and start.
    Beats(u16, u16),
    /// First and last frames.
    Scenes(Vec<u16>, Vec<u16>),
}

impl Windows {
    fn scenes(list: &[Window]) -> Self {
        Windows::Scenes(
            list.iter().map(|(first, _)| *first).collect(),
            list.iter().map(|(_, last)| *last).collect(),
        )
    }

    /// The frames of each window, of a length from 1 on or of scenes in order.
    fn list(&self) -> Vec<Window> {
        match self {
            Windows::Beats(length, start) => reference::beats(*length, *start),
            Windows::Scenes(firsts, lasts) => {
                firsts.iter().copied().zip(lasts.iter().copied()).collect()
            }
        }
    }

    fn reference(&self, kind: u8, log: &[u8], room: usize) -> Result<Vec<Stretch>, No> {
        match self {
            Windows::Beats(length, start) => {
                reference::query_beats(kind, *length, *start, log, room)
            }
            Windows::Scenes(firsts, lasts) => {
                reference::query_scenes(kind, firsts, lasts, log, room)
            }
        }
    }

    pub fn library(&self, kind: u8, log: &[u8], slot: &mut [u8]) -> c::QueryAnswer {
        match self {
            Windows::Beats(length, start) => c::query_beats(kind, *length, *start, log, slot),
            Windows::Scenes(firsts, lasts) => c::query_scenes(kind, firsts, lasts, log, slot),
        }
    }

    /// The safe function's rule; lists of unequal length have none.
    fn with_rule<T>(&self, call: impl FnOnce(Rule) -> T) -> Option<T> {
        match self {
            Windows::Beats(length, start) => Some(call(Rule::Every {
                length: *length,
                start: *start,
            })),
            Windows::Scenes(firsts, lasts) => (firsts.len() == lasts.len()).then(|| {
                let scenes: Vec<Scene> = firsts
                    .iter()
                    .zip(lasts)
                    .map(|(first, last)| Scene::new(*first, *last))
                    .collect();
                call(Rule::Scenes(&scenes))
            }),
        }
    }
}

/// One query by windows into a slot of some length, with every byte of the slot. Gives the slot as
/// the call left it.
fn query(
    random: &mut Random,
    kind: u8,
    windows: &Windows,
    log: &[u8],
    length: usize,
    seen: &mut Seen,
) -> Result<Vec<u8>, String> {
    let before = random.bytes(length);
    let mut slot = before.clone();
    let ask = Ask::Windows(windows);
    let answer = ask.library(kind, log, &mut slot);
    order::query(random, kind, ask, log, (answer, &slot), &mut seen.order)?;
    check::written(random, ask, log, (answer, &slot), 0, &mut seen.checked)?;
    let expected = windows.reference(kind, log, length);
    let (question, index) = number(&expected);
    match windows {
        Windows::Beats(..) => seen.beats[usize::from(question)] += 1,
        Windows::Scenes(..) => seen.scenes[usize::from(question)] += 1,
    }
    if question == 20 {
        let due = reference::window_rows(&reference::records(log), kind, &windows.list());
        seen.one_too_many += u64::from(due.len() == reference::MOST_ROWS + 1);
    }
    let rows = expected.clone().unwrap_or_default();
    let found = c::QueryAnswer {
        question,
        index,
        rows: rows.len(),
        error: 0,
        weighed: 0,
    };
    same("query", answer, found)?;
    let after = if expected.is_ok() {
        let mut after = reference::layout(reference::BY_WINDOWS, kind, 0, &rows);
        after.extend(&before[768..]);
        after
    } else {
        before.clone()
    };
    same_places("slot", &slot, &after)?;

    // The safe function does the same, and reads no width.
    let mut other = before;
    let width = random.pick(&[1, 0, 2, 60, 4096, 4097, 65_535]);
    let safe = windows.with_rule(|bound| {
        let query = Query::new(Kind(kind), bound).with_memory(width);
        pacer::query(query, log, &mut other)
    });
    if let Some(safe) = safe {
        let numbers = match safe {
            Ok(reduction) => (0, 0, reduction.rows, reduction.error + reduction.weighed),
            Err(refusal) => (refusal.question, refusal.index, 0, 0),
        };
        same("safe query", numbers, (question, index, rows.len(), 0))?;
        same_places("slot of the safe query", &other, &after)?;
    }
    if expected.is_ok() {
        let profile = pacer::read(&slot).map_err(|refusal| refusal.to_string())?;
        same("header", profile.header(), Header::ByWindows)?;
        same("kind read back", profile.kind().0, kind)?;
        same("error read back", profile.error(), 0)?;
        same_places("rows read back", &stretches(&profile), &rows)?;
        seen.full += u64::from(rows.len() == reference::MOST_ROWS);
        if let Windows::Beats(length, _) = windows {
            let cut_off = |row: &&Stretch| row.length() < u64::from(*length);
            seen.cut_off += rows.iter().filter(cut_off).count() as u64;
        }
    }
    Ok(slot)
}

/// A query by windows and the calls on its slot: as the query left it, with some bytes damaged, and
/// under the other header.
pub fn run(
    random: &mut Random,
    kind: u8,
    windows: &Windows,
    log: &[u8],
    length: usize,
    seen: &mut Seen,
) -> Result<(), String> {
    let at = |why| format!("kind {kind}, {windows:?}: {why}");
    let slot = query(random, kind, windows, log, length, seen).map_err(at)?;
    slot_calls(random, &slot, seen).map_err(at)?;
    let mut damaged = slot.clone();
    inputs::damage_slot(random, &mut damaged);
    slot_calls(random, &damaged, seen).map_err(at)?;
    if reference::read(&slot).is_ok() {
        let mut other = slot;
        other[1] = reference::BY_BOUND;
        slot_calls(random, &other, seen).map_err(at)?;
    }
    Ok(())
}

// ---------------------------------------------------------------------------------------------
// The edges: fixed logs with fixed windows

/// So many frames of a group, from a frame on, one record.
fn stretch(group: u8, first: u16, frames: u16, load: u16) -> Fields {
    (group, first, first + (frames - 1), load)
}

/// The logs: one for each case, and whole records all.
fn edge_records() -> Vec<Vec<Fields>> {
    let everywhere = |group| (group, 0, 65_535, 1000 - u16::from(group));
    let eighths: Vec<Fields> = (0..8).map(|g| stretch(g, 8 * u16::from(g), 8, 5)).collect();
    let quarters: Vec<Fields> = (0..4).map(|group| stretch(group, 0, 160, 9)).collect();
    let with = |records: &[Fields], more: Fields| [records, &[more]].concat();
    let around = |i: u16| (7, 300 - i % 12, 301 + i / 12, 1000);
    vec![
        vec![],
        // Log G, and the relation of the first source's Figure 1.
        vec![
            (0, 0, 3, 100),
            (0, 2, 5, 200),
            (0, 6, 6, 210),
            (0, 9, 10, 50),
            (1, 0, 0, 7),
        ],
        vec![
            (0, 1, 4, 800),
            (0, 3, 6, 400),
            (0, 4, 7, 300),
            (1, 4, 5, 500),
            (1, 7, 8, 500),
        ],
        // The first frame, the last one, and all.
        vec![(0, 0, 0, 1)],
        vec![(7, 65_535, 65_535, 1000)],
        vec![(3, 0, 0, 1), (3, 65_535, 65_535, 2), (4, 65_530, 65_535, 4)],
        vec![everywhere(5)],
        (0..8).map(everywhere).collect(),
        // 64 rows of one frame and 65, of one group and of all.
        vec![stretch(2, 0, 64, 3)],
        vec![stretch(2, 0, 65, 3)],
        vec![stretch(2, 65_472, 64, 3)],
        vec![stretch(2, 65_471, 65, 3)],
        eighths.clone(),
        with(&eighths, (7, 40_000, 40_000, 1)),
        // 64 rows of 16 scenes and 65.
        quarters.clone(),
        with(&quarters, (7, 150, 150, 1)),
        // 64 rows of 600 frames and 65.
        vec![stretch(6, 0, 64 * 600, 3)],
        vec![stretch(6, 0, 64 * 600 + 1, 3)],
        // 128 records: one within the other, one after the other in all groups, and all with the
        // greatest load around two frames; and 129 of those.
        (0..128).map(|i| (1, i, 300 - i, i % 7)).collect(),
        (0..128)
            .map(|i| (i as u8 % 8, i, i, 8 * i % 1001))
            .collect(),
        (0..128).map(around).collect(),
        (0..129).map(around).collect(),
        // Records that questions 7, 8 and 9 refuse.
        vec![(0, 0, 3, 100), (8, 0, 3, 100)],
        vec![(0, 0, 3, 100), (0, 3, 2, 100)],
        vec![(0, 0, 3, 100), (0, 0, 3, 1001)],
        // Twins: next to each other, far apart, of 64 frames and of 65, ahead of a bad record and
        // behind one.
        vec![(0, 0, 3, 100), (0, 0, 3, 100), (1, 2, 5, 200)],
        (0..128).map(|i| around(i % 127)).collect(),
        vec![stretch(2, 0, 64, 3); 2],
        vec![stretch(2, 0, 65, 3); 3],
        vec![
            (0, 0, 3, 100),
            (1, 0, 3, 100),
            (0, 0, 3, 100),
            (8, 0, 3, 100),
        ],
        vec![(0, 0, 3, 100), (8, 0, 3, 100), (0, 0, 3, 100)],
    ]
}

/// The windows of every log's queries.
fn edge_windows() -> Vec<Windows> {
    let mut all = Vec::new();
    for length in [
        0, 1, 2, 3, 4, 5, 8, 10, 64, 599, 600, 601, 32_767, 32_768, 65_534, 65_535,
    ] {
        for start in [0, 1, 4, 9, 10, 63, 599, 65_471, 65_472, 65_534, 65_535] {
            all.push(Windows::Beats(length, start));
        }
    }
    let tens = |count: u16| -> Vec<Window> { (0..count).map(|i| (10 * i, 10 * i + 9)).collect() };
    let single = |count: u16| -> Vec<Window> { (0..count).map(|i| (10 * i, 10 * i)).collect() };
    let mut lists: Vec<Vec<Window>> = vec![
        vec![],
        vec![(0, 0)],
        vec![(0, 65_535)],
        vec![(65_535, 65_535)],
        vec![(1, 4), (5, 8)],
        // Touching, sharing a frame, sharing all, one within the other, apart, in wrong order.
        vec![(0, 3), (4, 9)],
        vec![(0, 3), (3, 9)],
        vec![(0, 3), (0, 3)],
        vec![(0, 9), (4, 5)],
        vec![(0, 3), (6, 9)],
        vec![(4, 9), (0, 3)],
        vec![(0, 65_534), (65_535, 65_535)],
        vec![(0, 65_535), (65_535, 65_535)],
        // A first above its last, in the first scene, a middle one and the last.
        vec![(1, 0)],
        vec![(65_535, 0)],
        vec![(0, 3), (6, 5), (7, 9)],
        vec![(0, 3), (4, 6), (9, 8)],
    ];
    for count in [1, 2, 15, 16, 17, 18, 32, 33, 64] {
        lists.extend([tens(count), single(count)]);
    }
    // 16 and 17 scenes of which only the last is wrong.
    for count in [16, 17] {
        let mut late = tens(count);
        late[usize::from(count) - 1] = (10 * count - 11, 10 * count);
        lists.push(late);
    }
    all.extend(lists.iter().map(|list| Windows::scenes(list)));
    // Lists of unequal length, each in order as far as it goes.
    for (firsts, lasts) in [
        (1, 0),
        (0, 1),
        (2, 1),
        (1, 2),
        (16, 15),
        (15, 16),
        (16, 17),
        (17, 16),
    ] {
        let list = |count: u16| (0..count).map(|i| 10 * i).collect();
        all.push(Windows::Scenes(list(firsts), list(lasts)));
    }
    all
}

/// The bytes of the logs, by number: the last ones have a wrong length and a wrong mark.
fn edge_logs() -> Vec<Vec<u8>> {
    let mut logs: Vec<Vec<u8>> = edge_records()
        .iter()
        .map(|records| inputs::log_of(records))
        .collect();
    let good = inputs::log_of(&[(0, 0, 3, 100), (1, 2, 5, 200)]);
    logs.push(good[..17].to_vec());
    for place in [0, 10] {
        let mut marked = good.clone();
        marked[place] ^= 1;
        logs.push(marked);
    }
    logs
}

/// How many logs the edges have.
pub fn edges() -> u64 {
    edge_logs().len() as u64
}

/// All windows and kinds on one of the fixed logs.
pub fn run_edges(random: &mut Random, case: u64, seen: &mut Seen) -> Result<(), String> {
    let logs = edge_logs();
    let log = logs.get(case as usize).ok_or("there is no such log")?;
    for windows in edge_windows() {
        for kind in 0..=reference::MOST_KIND + 1 {
            let length = random.pick(&[768, 769, 1000]);
            run(random, kind, &windows, log, length, seen)?;
        }
        run(random, 0, &windows, log, 767, seen)?;
    }
    Ok(())
}

// ---------------------------------------------------------------------------------------------
// Small logs, going through the frames

/// How much was tried.
#[derive(Clone, Copy, Default)]
pub struct Gone {
    pub queries: u64,
    pub rows: u64,
    /// Logs in another order.
    pub order: Shuffled,
    /// Slots held to their logs.
    pub checked: Checked,
}

impl Gone {
    pub fn join(&mut self, other: &Gone) {
        self.queries += other.queries;
        self.rows += other.rows;
        self.order.join(&other.order);
        self.checked.join(&other.checked);
    }
}

/// The library's rows for windows of a few frames, against those found at their frames.
fn hold(
    random: &Random,
    kind: u8,
    windows: &Windows,
    list: &[Window],
    log: &[u8],
    gone: &mut Gone,
) -> Result<(), String> {
    let mut slot = [0; pacer::SLOT_BYTES];
    let expected = brute::rows_by_frames(&reference::records(log), kind, list);
    let ask = Ask::Windows(windows);
    let answer = ask.library(kind, log, &mut slot);
    order::query(random, kind, ask, log, (answer, &slot), &mut gone.order)?;
    check::written(random, ask, log, (answer, &slot), 0, &mut gone.checked)?;
    let question = if expected.len() > 64 { 20 } else { 0 };
    same("question", answer.question, question)?;
    if question == 0 {
        let profile = pacer::read(&slot).map_err(|refusal| refusal.to_string())?;
        same_places("rows by frames", &stretches(&profile), &expected)?;
    }
    gone.queries += 1;
    gone.rows += expected.len() as u64;
    Ok(())
}

/// One small log near the first frame or the last, with beats of every length that matters and with
/// scenes, gone through frame by frame.
pub fn run_frames(random: &mut Random, gone: &mut Gone) -> Result<(), String> {
    let span = random.range(1, 24);
    let base = random.pick(&[0, 0, 7, 65_536 - span]);
    let groups = [random.range(0, 7) as u8, random.range(0, 7) as u8];
    let records: Vec<Fields> = (0..random.range(0, 12))
        .map(|_| {
            let length = random.range(1, span.min(9));
            let first = base + random.range(0, span - length);
            let load = random.pick(&[0, 1, 2, 5, 999, 1000]);
            let group = random.pick(&groups);
            (group, first as u16, (first + length - 1) as u16, load)
        })
        .collect();
    let records = inputs::distinct(records);
    let log = inputs::log_of(&records);
    let kind = random.range(0, u64::from(reference::MOST_KIND)) as u8;
    let context =
        |what: &Windows, why| format!("records {records:?}, kind {kind}, {what:?}: {why}");
    // Beats from some start near the log. Windows behind the records are not gone through: there is
    // nothing in them.
    for length in (1..=10).chain([span, span + 1, 40]) {
        let start = base.saturating_sub(2) + random.range(0, span + 3);
        let (length, start) = (length as u16, start.min(65_535) as u16);
        let windows = Windows::Beats(length, start);
        let end = base + span;
        let list: Vec<Window> = (u64::from(start)..end.max(u64::from(start) + 1))
            .step_by(usize::from(length))
            .map(|first| {
                let last = (first + u64::from(length) - 1).min(65_535);
                (first as u16, last as u16)
            })
            .collect();
        hold(random, kind, &windows, &list, &log, gone).map_err(|why| context(&windows, why))?;
    }
    let mut ends: Vec<u16> = (0..2 * random.range(1, 8))
        .map(|_| (base + random.range(0, span - 1)) as u16)
        .collect();
    ends.sort_unstable();
    let mut list: Vec<Window> = ends
        .chunks_exact(2)
        .map(|pair| (pair[0], pair[1]))
        .collect();
    // Scenes that share a frame with the one before are left out.
    list.dedup_by(|next, kept| next.0 <= kept.1);
    let windows = Windows::scenes(&list);
    hold(random, kind, &windows, &list, &log, gone).map_err(|why| context(&windows, why))
}
