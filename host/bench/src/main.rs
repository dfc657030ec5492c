//! Times the proved library against the same algorithm in plain safe Rust.
//!
//!     bench [ROUNDS]
//!
//! Queries are held to two plain versions: one works a block's error out for every candidate, the
//! other keeps the errors. All get the same inputs in one run, in turns, and must give equal
//! answers, slot bytes and weighed cuts. Prints the median time of a call for each, and the
//! library's ratio to each plain version.

#![forbid(unsafe_code)]

mod plain;
mod windows;

use pacer::{c, Kind};
use std::hint::black_box;
use std::time::{Duration, Instant};

/// The time that the calls of one turn take together, about.
const TURN: Duration = Duration::from_micros(400);

/// The segment counts.
const SIZES: [usize; 5] = [6, 20, 60, 128, 255];

/// The row limits.
const LIMITS: [u16; 4] = [1, 2, 4, 64];

/// The segment counts of logs with few segments, and their row limits.
const FEW_SIZES: [usize; 3] = [1, 6, 20];
const FEW_LIMITS: [u16; 2] = [1, 64];

/// The width without a memory; those of the rows with a memory, their segment counts without one, and
/// their row limits.
const NO_MEMORY: u16 = c::ONE_FRAME;
const WIDTHS: [u16; 2] = [60, c::MOST_WIDTH];
const MEMORY_SIZES: [usize; 3] = [6, 20, 128];
const MEMORY_LIMITS: [u16; 2] = [4, 64];

fn record(group: u8, first: usize, last: usize, load: usize) -> Vec<u8> {
    let mut bytes = vec![0x4C, 0x44, group];
    for number in [first, last, load] {
        bytes.extend((number as u16).to_le_bytes());
    }
    bytes
}

/// A shape of data: what it is called, the kind that is asked for, and its log of n segments.
struct Shape {
    name: &'static str,
    kind: u8,
    log: fn(usize) -> Vec<u8>,
}

const SHAPES: [Shape; 6] = [
    Shape {
        name: "no early exit",
        kind: Kind::SUM.0,
        log: alternating,
    },
    Shape {
        name: "ramp",
        kind: Kind::SUM.0,
        log: ramp,
    },
    Shape {
        name: "random",
        kind: Kind::SUM.0,
        log: random,
    },
    Shape {
        name: "random, 8 groups, gaps",
        kind: Kind::SUM.0,
        log: groups,
    },
    Shape {
        name: "random, greatest",
        kind: Kind::GREATEST.0,
        log: peaks,
    },
    Shape {
        name: "random, mean",
        kind: Kind::MEAN.0,
        log: random,
    },
];

/// Logs of 128 records with few segments. Whether a record has a twin is asked of all of them; where
/// they lie over the same frames, hardly anything else is to be done.
const FEW_SHAPES: [Shape; 2] = [
    Shape {
        name: "few segments of 128 records",
        kind: Kind::SUM.0,
        log: stacked,
    },
    Shape {
        name: "few segments, nested records",
        kind: Kind::SUM.0,
        log: nested,
    },
];

/// The records of a log with random values, not in the order of their frames.
const SHUFFLED: Shape = Shape {
    name: "random, shuffled",
    kind: Kind::SUM.0,
    log: |n| shuffled(&random(n)),
};

/// Values 1 and 2 in turn, one frame each: hardly any block error alone exceeds a best total.
fn alternating(n: usize) -> Vec<u8> {
    if n <= 128 {
        (0..n).flat_map(|i| record(0, i, i, 1 + i % 2)).collect()
    } else {
        // Each record shares its last frame with the next one's first.
        (0..n.div_ceil(2))
            .flat_map(|i| record(0, 2 * i, 2 * i + 2, 1))
            .collect()
    }
}

/// Rising values; above 128 segments they rise and then fall.
fn ramp(n: usize) -> Vec<u8> {
    if n <= 128 {
        (0..n)
            .flat_map(|i| record(0, 3 * i, 3 * i + 2, 7 * i))
            .collect()
    } else {
        let count = n.div_ceil(2);
        (0..count)
            .flat_map(|i| record(0, 3 * i, 6 * count - 3 * i, 7))
            .collect()
    }
}

/// A fixed sequence of numbers that look random.
fn noise(i: usize) -> usize {
    let mut z = (i as u64 + 1).wrapping_mul(0x9E37_79B9_7F4A_7C15);
    z = (z ^ (z >> 30)).wrapping_mul(0xBF58_476D_1CE4_E5B9);
    z = (z ^ (z >> 27)).wrapping_mul(0x94D0_49BB_1331_11EB);
    ((z ^ (z >> 31)) >> 33) as usize
}

/// The same records in an order that looks random.
fn shuffled(log: &[u8]) -> Vec<u8> {
    let mut records: Vec<&[u8]> = log.chunks(9).collect();
    for place in (1..records.len()).rev() {
        records.swap(place, noise(3000 + place) % (place + 1));
    }
    records.concat()
}

/// Random values and lengths in one run.
fn random(n: usize) -> Vec<u8> {
    let mut frame = 0;
    if n <= 128 {
        (0..n)
            .flat_map(|i| {
                // Neighbours differ: the lowest digit says odd or even.
                let load = noise(i) % 500 * 2 + i % 2;
                let first = frame;
                frame += 1 + noise(1000 + i) % 9;
                record(0, first, frame - 1, load)
            })
            .collect()
    } else {
        (0..n.div_ceil(2))
            .flat_map(|i| {
                let first = frame;
                frame += 2 + noise(1000 + i) % 9;
                record(0, first, frame, 1 + noise(i) % 1000)
            })
            .collect()
    }
}

/// Random values and lengths in one run, also of the greatest load: above 128 segments each record
/// lies within the one before and has a greater load, so that values rise and then fall.
fn peaks(n: usize) -> Vec<u8> {
    if n <= 128 {
        return random(n);
    }
    let count = n.div_ceil(2);
    let (mut first, mut last) = (0, 20 * count);
    (0..count)
        .flat_map(|i| {
            let bytes = record(0, first, last, 1 + 7 * i + noise(i) % 7);
            first += 1 + noise(1000 + i) % 9;
            last -= 1 + noise(2000 + i) % 9;
            bytes
        })
        .collect()
}

/// Random values in all groups with some uncovered frames. Above 128 records are not allowed, and
/// ends of runs are not shared, so that there are fewer than 255 segments.
fn groups(n: usize) -> Vec<u8> {
    let mut frame = 0;
    let (count, shared) = if n <= 128 {
        (n, false)
    } else {
        (n.div_ceil(2), true)
    };
    (0..count)
        .flat_map(|i| {
            let first = frame;
            let last = first + 1 + noise(1000 + i) % 9;
            frame = last + usize::from(!shared);
            if noise(2000 + i).is_multiple_of(12) {
                frame += 3;
            }
            let load = 1 + noise(i) % 499 * 2 + i % 2;
            record((8 * i / count) as u8, first, last, load)
        })
        .collect()
}

/// 128 records over n stretches of frames, one after the other. Records over the same stretch differ
/// in their loads.
fn stacked(n: usize) -> Vec<u8> {
    (0..128)
        .flat_map(|i| {
            let place = i % n;
            let load = noise(place) % 800 + i / n;
            record(0, 100 * place, 100 * place + 99, load)
        })
        .collect()
}

/// n records one after the other, and others with the load 0 to make 128, each within the one
/// before: there are many events, and few of them change the sum.
fn nested(n: usize) -> Vec<u8> {
    (0..128)
        .flat_map(|i| {
            if i < n {
                record(0, 1000 * i, 1000 * i + 999, 1 + noise(i) % 500 * 2 + i % 2)
            } else {
                record(0, i, 1000 * n - i, 0)
            }
        })
        .collect()
}

/// The times of some calls, lowest to highest; the median is printed.
fn median(times: &mut [f64]) -> f64 {
    times.sort_by(f64::total_cmp);
    times[times.len() / 2]
}

/// The time of one call, measured over so many.
fn turn(calls: u32, call: &mut dyn FnMut()) -> f64 {
    let start = Instant::now();
    for _ in 0..calls {
        call();
    }
    start.elapsed().as_nanos() as f64 / f64::from(calls)
}

/// The times of the versions of one call: the median of each, and for each but the first the
/// median of the rounds' ratios, first version to it.
struct Times {
    medians: Vec<f64>,
    ratios: Vec<f64>,
}

/// Times versions of one call that take turns, another one first in every round. The turns of a
/// round are next to each other in time, so that a slow stretch of the machine touches all.
fn measure(rounds: usize, versions: &mut [&mut dyn FnMut()]) -> Times {
    let once = versions
        .iter_mut()
        .map(|call| turn(1, call))
        .fold(1.0, f64::max);
    let calls = ((TURN.as_nanos() as f64 / once) as u32).clamp(1, 100_000);
    let count = versions.len();
    let mut times = vec![Vec::new(); count];
    for call in versions.iter_mut() {
        turn(calls, call);
    }
    for round in 0..rounds {
        for place in 0..count {
            let version = (round + place) % count;
            times[version].push(turn(calls, versions[version]));
        }
    }
    let ratios = times[1..]
        .iter()
        .map(|other| {
            let mut ratios: Vec<f64> = times[0].iter().zip(other).map(|(a, b)| a / b).collect();
            median(&mut ratios)
        })
        .collect();
    Times {
        medians: times.iter_mut().map(|times| median(times)).collect(),
        ratios,
    }
}

/// The plain versions that the library is held to, in the order of their columns.
const PLAIN: [&str; 2] = ["plain", "keeping"];

/// What many lookups are held to: a plain version that halves the rows, as the library does, one that asks
/// one row after the other, and as many single lookups of the library.
const OF_LOOKUPS: [&str; 3] = ["plain", "rowwise", "singles"];

/// The ratios printed, by what the library is held to, for the last lines.
struct Report {
    rounds: usize,
    others: &'static [&'static str],
    ratios: Vec<Vec<f64>>,
}

impl Report {
    fn new(rounds: usize, others: &'static [&'static str]) -> Self {
        Report {
            rounds,
            others,
            ratios: vec![Vec::new(); others.len()],
        }
    }

    /// Prints a row; the library is the first of the versions.
    fn line(&mut self, what: &str, numbers: &str, versions: &mut [&mut dyn FnMut()]) {
        let times = measure(self.rounds, versions);
        print!("{what:<38} {numbers:>29}");
        for median in &times.medians {
            print!(" {:>10.3}", median / 1000.0);
        }
        for (ratio, printed) in times.ratios.iter().zip(&mut self.ratios) {
            printed.push(*ratio);
            print!(" {ratio:>9.2}");
        }
        println!();
    }
}

/// The head of a table in which the library is held to so many plain versions.
fn head(numbers: &str, plain: usize) {
    head_of(numbers, &PLAIN[..plain]);
}

/// The head of a table in which the library is held to others.
fn head_of(numbers: &str, others: &[&str]) {
    print!("\n{:<38} {numbers:>29} {:>10}", "", "library µs");
    for name in others {
        print!(" {:>10}", format!("{name} µs"));
    }
    for name in others {
        print!(" {:>9}", format!("/ {name}"));
    }
    println!();
}

/// What the name of a row has behind it for a width: nothing without a memory.
fn memory(width: u16) -> String {
    match width {
        NO_MEMORY => String::new(),
        _ => format!(", w {width}"),
    }
}

fn query_line(
    report: &mut Report,
    shape: &Shape,
    log: &[u8],
    (rule, bound): (u8, u16),
    width: u16,
) {
    let kind = shape.kind;
    let n = count_segments(log, kind, width);
    let mut slot = [0; 768];
    let answer = c::query(kind, rule, bound, width, log, &mut slot);
    let found = plain::QueryAnswer {
        question: answer.question,
        index: answer.index,
        rows: answer.rows,
        error: answer.error,
        weighed: answer.weighed,
    };
    let mut kept = plain::Kept::new();
    let (mut one, mut two) = ([0; 768], [0; 768]);
    let anew = plain::query(
        &mut plain::Anew,
        black_box(kind),
        rule,
        bound,
        width,
        log,
        &mut one,
    );
    let keeping = plain::query(
        &mut kept,
        black_box(kind),
        rule,
        bound,
        width,
        log,
        &mut two,
    );
    assert_eq!(found, anew, "{} n={n}", shape.name);
    assert_eq!(found, keeping, "{} n={n}", shape.name);
    assert_eq!(slot, one, "{} n={n}", shape.name);
    assert_eq!(slot, two, "{} n={n}", shape.name);
    let what = if rule == c::ROWS { "limit" } else { "share" };
    let input = || black_box((kind, rule, bound, width, log));
    report.line(
        &format!("query, {}{}", shape.name, memory(width)),
        &format!(
            "{n:>4} {what} {bound:>4} {:>4} {:>9}",
            answer.rows, answer.weighed
        ),
        &mut [
            &mut || {
                let (kind, rule, bound, width, log) = input();
                black_box(c::query(kind, rule, bound, width, log, &mut slot));
            },
            &mut || {
                let (kind, rule, bound, width, log) = input();
                let errors = &mut plain::Anew;
                black_box(plain::query(
                    errors, kind, rule, bound, width, log, &mut one,
                ));
            },
            &mut || {
                let (kind, rule, bound, width, log) = input();
                let errors = &mut kept;
                black_box(plain::query(
                    errors, kind, rule, bound, width, log, &mut two,
                ));
            },
        ],
    );
}

/// The count of segments, the same for both. The log is accepted, and so has no twins.
fn count_segments(log: &[u8], kind: u8, width: u16) -> usize {
    let mut list = [c::Segment::default(); 255];
    let mut other = [plain::Segment::default(); 255];
    let answer = c::segments(log, kind, width, &mut list);
    let expected = plain::segments(log, black_box(kind), width, &mut other);
    assert_eq!((answer.question, answer.index, answer.count), expected);
    assert_eq!(answer.question, 0);
    for (one, two) in list.iter().zip(&other) {
        assert_eq!(
            (one.group, one.first, one.last, one.value),
            (two.group, two.first, two.last, two.value)
        );
    }
    answer.count
}

/// The segment call on a log.
fn segments_line(report: &mut Report, shape: &Shape, log: &[u8], width: u16) {
    let n = count_segments(log, shape.kind, width);
    let mut list = [c::Segment::default(); 255];
    let mut other = [plain::Segment::default(); 255];
    let input = || black_box((log, shape.kind, width));
    report.line(
        &format!("segments, {}{}", shape.name, memory(width)),
        &n.to_string(),
        &mut [
            &mut || {
                let (log, kind, width) = input();
                black_box(c::segments(log, kind, width, &mut list));
            },
            &mut || {
                let (log, kind, width) = input();
                black_box(plain::segments(log, kind, width, &mut other));
            },
        ],
    );
}

/// The call for logs on file.
fn without_twins_line(report: &mut Report, name: &str, log: &[u8]) {
    // Bytes behind those written keep their content, in both.
    let (mut one, mut two) = ([0xEE; 9 * 128], [0xEE; 9 * 128]);
    let answer = c::without_twins(log, &mut one);
    let expected = plain::without_twins(black_box(log), &mut two);
    assert_eq!((answer.question, answer.index, answer.length), expected);
    assert_eq!(answer.question, 0, "{name}");
    assert_eq!(one, two, "{name}");
    report.line(
        &format!("without_twins, {name}"),
        &format!("{} {:>5}", log.len() / 9, answer.length / 9),
        &mut [
            &mut || {
                black_box(c::without_twins(black_box(log), &mut one));
            },
            &mut || {
                black_box(plain::without_twins(black_box(log), &mut two));
            },
        ],
    );
}

/// Logs on file: without twins, with the last record twice, and with equal records alone.
fn without_twins_lines(report: &mut Report) {
    for count in [0, 6, 20, 64, 128] {
        without_twins_line(report, "no twins", &random(count));
    }
    let mut log = random(127);
    log.extend_from_within(log.len() - 9..);
    without_twins_line(report, "last record twice", &log);
    without_twins_line(report, "all equal", &record(0, 0, 99, 500).repeat(128));
}

/// The slot that a query writes for a log of so many segments, at most 64.
fn slot_of(wanted: usize) -> [u8; 768] {
    let mut slot = [0; 768];
    let log = random(wanted);
    let answer = c::query(Kind::SUM.0, c::ROWS, 64, NO_MEMORY, &log, &mut slot);
    assert_eq!((answer.question, answer.rows), (0, wanted));
    slot
}

/// What the reader says of a slot, the same for both.
fn read_answer(slot: &[u8; 768]) -> c::ReadAnswer {
    let answer = c::read(slot);
    let expected = plain::ReadAnswer {
        question: answer.question,
        index: answer.index,
        kind: answer.kind,
        mark: answer.mark,
        rows: answer.rows,
        error: answer.error,
    };
    assert_eq!(plain::read(slot), expected);
    answer
}

/// How many slots are read one after the other, as at boot.
const SLOTS: usize = 400;

/// The reading of many slots.
fn boot_line(report: &mut Report, rows: &str, slots: &[[u8; 768]]) {
    for slot in slots {
        read_answer(slot);
    }
    report.line(
        &format!("read {} slots", slots.len()),
        rows,
        &mut [
            &mut || {
                for slot in black_box(slots) {
                    black_box(c::read(slot));
                }
            },
            &mut || {
                for slot in black_box(slots) {
                    black_box(plain::read(slot));
                }
            },
        ],
    );
}

/// The windows of a query.
enum Windows {
    /// Length and start.
    Beats(u16, u16),
    /// First and last frames.
    Scenes(Vec<u16>, Vec<u16>),
}

impl Windows {
    fn library(&self, kind: u8, log: &[u8], slot: &mut [u8]) -> c::QueryAnswer {
        match self {
            Windows::Beats(length, start) => c::query_beats(kind, *length, *start, log, slot),
            Windows::Scenes(firsts, lasts) => c::query_scenes(kind, firsts, lasts, log, slot),
        }
    }

    fn plain(&self, kind: u8, log: &[u8], slot: &mut [u8]) -> plain::QueryAnswer {
        match self {
            Windows::Beats(length, start) => windows::query_beats(kind, *length, *start, log, slot),
            Windows::Scenes(firsts, lasts) => windows::query_scenes(kind, firsts, lasts, log, slot),
        }
    }
}

/// Some data for windows: what it is called, the windows, and the log.
struct Spans {
    name: &'static str,
    windows: Windows,
    log: Vec<u8>,
}

/// So many frames of a group, one record.
fn stretch(group: usize, first: usize, frames: usize, load: usize) -> Vec<u8> {
    record(group as u8, first, first + frames - 1, load)
}

/// The data for windows.
fn spans() -> Vec<Spans> {
    let scenes = || {
        let firsts: Vec<u16> = (0..16).map(|i| 4000 * i).collect();
        let lasts = firsts.iter().map(|first| first + 3000).collect();
        Windows::Scenes(firsts, lasts)
    };
    let spans = |name, windows, log| Spans { name, windows, log };
    // Records of some length at places that look random, in so many groups.
    let scattered = |count: usize, groups: usize, most: usize| -> Vec<u8> {
        (0..count)
            .flat_map(|i| {
                let first = noise(i) % (65_536 - most);
                let frames = 1 + noise(1000 + i) % most;
                stretch(i % groups, first, frames, noise(2000 + i) % 1001)
            })
            .collect()
    };
    vec![
        spans("beats of 1, no record", Windows::Beats(1, 0), Vec::new()),
        spans(
            "beats of 1, last frame",
            Windows::Beats(1, 0),
            record(7, 65_535, 65_535, 9),
        ),
        // 8 groups, each 8 frames far from the next group's.
        spans(
            "beats of 1, 8 groups",
            Windows::Beats(1, 0),
            (0..8)
                .flat_map(|g| stretch(g, 8000 * g + 100, 8, 100 + g))
                .collect(),
        ),
        // Twice 64 records of one frame, all over the frames; the two of a frame differ in their loads.
        spans(
            "beats of 1, 8 groups, scattered",
            Windows::Beats(1, 0),
            (0..128)
                .flat_map(|i| {
                    let frame = 1000 * (i / 2) + noise(i / 2) % 1000;
                    stretch(i / 2 % 8, frame, 1, noise(i) % 500 * 2 + i % 2)
                })
                .collect(),
        ),
        // Too many rows at once, and only at the last record.
        spans(
            "beats of 1, all frames",
            Windows::Beats(1, 0),
            (0..8).flat_map(|g| stretch(g, 0, 65_536, 9)).collect(),
        ),
        spans(
            "beats of 1, one row too many",
            Windows::Beats(1, 0),
            [stretch(0, 0, 64, 9), stretch(7, 65_535, 1, 9)].concat(),
        ),
        // 8 groups by 8 windows.
        spans(
            "beats of 600, 8 groups",
            Windows::Beats(600, 0),
            (0..128)
                .flat_map(|i| {
                    let first = 600 * (i / 8 / 2) + noise(i) % 300;
                    stretch(i % 8, first, 300, noise(1000 + i) % 1001)
                })
                .collect(),
        ),
        spans(
            "beats of 1024, 1 group",
            Windows::Beats(1024, 0),
            scattered(128, 1, 3000),
        ),
        // Each scene with two records of each of 4 groups, and of one group.
        spans(
            "16 scenes, 4 groups",
            scenes(),
            (0..128)
                .flat_map(|i| {
                    let first = 4000 * (i / 8) + noise(i) % 2000;
                    stretch(i % 4, first, 1500, noise(1000 + i) % 1001)
                })
                .collect(),
        ),
        spans("16 scenes, 1 group", scenes(), scattered(128, 1, 3000)),
        spans("16 scenes, 8 records", scenes(), scattered(8, 4, 3000)),
    ]
}

/// A query by windows of one kind.
fn windows_line(report: &mut Report, spans: &Spans, kind: Kind) {
    let Spans { name, windows, log } = spans;
    let (mut slot, mut other) = ([0; 768], [0; 768]);
    let answer = windows.library(kind.0, log, &mut slot);
    let found = plain::QueryAnswer {
        question: answer.question,
        index: answer.index,
        rows: answer.rows,
        error: answer.error,
        weighed: answer.weighed,
    };
    assert_eq!(
        found,
        windows.plain(black_box(kind.0), log, &mut other),
        "{name}"
    );
    assert_eq!(slot, other, "{name}");
    assert!(matches!(answer.question, 0 | 20), "{name}: {answer:?}");
    let kinds = ["sum", "count", "least", "greatest", "mean"];
    let outcome = if answer.question == 0 {
        answer.rows.to_string()
    } else {
        format!("no {}", answer.question)
    };
    let input = || black_box((kind.0, windows, log));
    report.line(
        name,
        &format!(
            "{:>4} {:>8} {outcome:>5}",
            log.len() / 9,
            kinds[usize::from(kind.0)]
        ),
        &mut [
            &mut || {
                let (kind, windows, log) = input();
                black_box(windows.library(kind, log, &mut slot));
            },
            &mut || {
                let (kind, windows, log) = input();
                black_box(windows.plain(kind, log, &mut other));
            },
        ],
    );
}

/// The slot of so many rows by windows, at most 64.
fn windows_slot_of(wanted: usize) -> [u8; 768] {
    let mut slot = [0; 768];
    let log = if wanted == 0 {
        Vec::new()
    } else {
        stretch(0, 0, wanted, 9)
    };
    let answer = c::query_beats(Kind::SUM.0, 1, 0, &log, &mut slot);
    assert_eq!((answer.question, answer.rows), (0, wanted));
    slot
}

/// Read and lookup on a slot.
fn slot_lines(report: &mut Report, by: &str, slot: &[u8; 768]) {
    let rows = read_answer(slot).rows;
    report.line(
        &format!("read{by}"),
        &rows.to_string(),
        &mut [
            &mut || {
                black_box(c::read(black_box(slot)));
            },
            &mut || {
                black_box(plain::read(black_box(slot)));
            },
        ],
    );
    let last = pacer::row_at(slot, rows.saturating_sub(1))
        .expect("an accepted slot")
        .map_or(0, |row| row.last);
    for (what, frame) in [("last row", last), ("uncovered", 65_535)] {
        let answer = c::lookup(slot, 0, frame);
        let value = (answer.covered == 1).then_some(answer.value);
        assert_eq!(
            (answer.question, answer.index, value),
            plain::lookup(slot, black_box(0), frame)
        );
        let asked = || black_box((slot, 0, frame));
        report.line(
            &format!("lookup{by}, {what}"),
            &rows.to_string(),
            &mut [
                &mut || {
                    let (slot, group, frame) = asked();
                    black_box(c::lookup(slot, group, frame));
                },
                &mut || {
                    let (slot, group, frame) = asked();
                    black_box(plain::lookup(slot, group, frame));
                },
            ],
        );
    }
}

/// Pairs of group and frame, and what they are called.
struct Pairs {
    name: &'static str,
    groups: Vec<u8>,
    frames: Vec<u16>,
}

/// The pairs that are looked up in a slot: eight groups for one frame, which lies in the middle of its
/// rows, eight groups for eight frames, and 64 frames of the first row's group, one in each row of 64.
fn pairs_of(slot: &[u8; 768]) -> Vec<Pairs> {
    let profile = pacer::read(slot).expect("an accepted slot");
    let rows = profile.rows();
    let first = |place: usize| {
        rows.get(place % rows.len().max(1))
            .map_or(0, |row| row.first)
    };
    let group = rows.first().map_or(0, |row| row.group);
    let pairs = |name, pairs: Vec<(u8, u16)>| {
        let (groups, frames) = pairs.into_iter().unzip();
        Pairs {
            name,
            groups,
            frames,
        }
    };
    let of_frame = |frame| (0..8).map(move |group| (group, frame));
    vec![
        pairs("8 groups", of_frame(first(rows.len() / 2)).collect()),
        pairs(
            "8 groups, 8 frames",
            (0..8).flat_map(|i| of_frame(first(i * 9))).collect(),
        ),
        pairs(
            "1 group, 64 frames",
            (0..64).map(|i| (group, first(i))).collect(),
        ),
    ]
}

/// The single lookups of some pairs, one after the other, into two lists.
fn singles(slot: &[u8], groups: &[u8], frames: &[u16], values: &mut [u32], covered: &mut [u8]) {
    let places = values.iter_mut().zip(covered);
    for ((group, frame), (value, covered)) in groups.iter().zip(frames).zip(places) {
        let answer = c::lookup(slot, *group, *frame);
        *value = answer.value;
        *covered = answer.covered;
    }
}

/// Many lookups as a set on a slot: against both plain versions, and against as many single lookups of the
/// library. All give the same.
fn lookups_line(report: &mut Report, by: &str, slot: &[u8; 768], pairs: &Pairs) {
    let Pairs {
        name,
        groups,
        frames,
    } = pairs;
    let count = groups.len();
    let blank = || (vec![u32::MAX; count], vec![0xEE; count]);
    let (mut values, mut covered) = blank();
    let answer = c::lookups(slot, groups, frames, &mut values, &mut covered);
    assert_eq!((answer.question, answer.index), (0, 0), "{name}");
    let found = covered.iter().filter(|flag| **flag == 1).count();
    for halving in [false, true] {
        let (mut others, mut flags) = blank();
        let no = plain_lookups(
            halving,
            slot,
            black_box(groups),
            frames,
            &mut others,
            &mut flags,
        );
        assert_eq!((no, &others, &flags), (Ok(()), &values, &covered), "{name}");
    }
    let (mut others, mut flags) = blank();
    singles(slot, groups, frames, &mut others, &mut flags);
    assert_eq!((&others, &flags), (&values, &covered), "{name}");

    let input = || black_box((slot, &groups[..], &frames[..]));
    let mut library = || {
        let (slot, groups, frames) = input();
        black_box(c::lookups(slot, groups, frames, &mut values, &mut covered));
    };
    let (mut row_values, mut row_flags) = blank();
    let mut row_by_row = || {
        let (slot, groups, frames) = input();
        let _ = black_box(plain::lookups(
            plain::find_value,
            slot,
            groups,
            frames,
            &mut row_values,
            &mut row_flags,
        ));
    };
    let (mut half_values, mut half_flags) = blank();
    let mut halving = || {
        let (slot, groups, frames) = input();
        let _ = black_box(plain::lookups(
            plain::find_by_halving,
            slot,
            groups,
            frames,
            &mut half_values,
            &mut half_flags,
        ));
    };
    let mut one_by_one = || {
        let (slot, groups, frames) = input();
        singles(slot, groups, frames, &mut others, &mut flags);
        black_box((&others, &flags));
    };
    report.line(
        &format!("lookups{by}, {name}"),
        &format!("{:>4} {count:>5} {found:>7}", slot[3]),
        &mut [&mut library, &mut halving, &mut row_by_row, &mut one_by_one],
    );
}

/// One of the two plain versions of many lookups.
fn plain_lookups(
    halving: bool,
    slot: &[u8],
    groups: &[u8],
    frames: &[u16],
    values: &mut [u32],
    covered: &mut [u8],
) -> Result<(), (u8, usize)> {
    if halving {
        plain::lookups(
            plain::find_by_halving,
            slot,
            groups,
            frames,
            values,
            covered,
        )
    } else {
        plain::lookups(plain::find_value, slot, groups, frames, values, covered)
    }
}

/// The slots that pairs are looked up in: of few rows and many of one group, and eight rows of each group.
fn lookups_slots() -> Vec<(&'static str, [u8; 768])> {
    let by_group: Vec<u8> = (0..64)
        .flat_map(|i| {
            record(
                (i / 8) as u8,
                30 * (i % 8),
                30 * (i % 8) + 19,
                1 + noise(i) % 1000,
            )
        })
        .collect();
    let mut eight = [0; 768];
    let answer = c::query(Kind::SUM.0, c::ROWS, 64, NO_MEMORY, &by_group, &mut eight);
    assert_eq!((answer.question, answer.rows), (0, 64));
    vec![
        ("", slot_of(6)),
        ("", slot_of(20)),
        ("", slot_of(64)),
        (" by windows", windows_slot_of(64)),
        (" by group", eight),
    ]
}

/// Many lookups as a set, of each slot with each list of pairs.
fn lookups_lines(report: &mut Report) {
    for (by, slot) in lookups_slots() {
        for pairs in pairs_of(&slot) {
            lookups_line(report, by, &slot, &pairs);
        }
    }
}

/// The segment counts of logs that slots are held to.
const CHECKED_SIZES: [usize; 3] = [6, 60, 255];

/// A slot against its log, which is answered by a question, 0 if it passes.
fn check_line(
    report: &mut Report,
    shape: &Shape,
    log: &[u8],
    width: u16,
    slot: &[u8; 768],
    question: u8,
) {
    let n = count_segments(log, shape.kind, width);
    let answer = c::check(log, width, slot);
    let expected = plain::check(black_box(log), width, slot);
    assert_eq!((answer.question, answer.index), expected, "{}", shape.name);
    assert_eq!(answer.question, question, "{}", shape.name);
    let outcome = match question {
        0 => "yes".to_string(),
        _ => format!("no {question}"),
    };
    let input = || black_box((log, width, slot));
    report.line(
        &format!("check, {}{}", shape.name, memory(width)),
        &format!("{n:>4} {:>4} {outcome:>6}", slot[3]),
        &mut [
            &mut || {
                let (log, width, slot) = input();
                black_box(c::check(log, width, slot));
            },
            &mut || {
                let (log, width, slot) = input();
                black_box(plain::check(log, width, slot));
            },
        ],
    );
}

/// Slots that a query wrote against their logs, of few rows and of many, and refusals of the last
/// row for its last frame and its value, and of the error.
fn check_lines(report: &mut Report) {
    for shape in SHAPES.iter().chain(&FEW_SHAPES) {
        let sizes: &[usize] = if shape.name.starts_with("few") {
            &FEW_SIZES
        } else {
            &CHECKED_SIZES
        };
        for wanted in sizes {
            let log = (shape.log)(*wanted);
            let mut written = [0; 768];
            for limit in [1, 64] {
                let mut slot = [0; 768];
                let answer = c::query(shape.kind, c::ROWS, limit, NO_MEMORY, &log, &mut slot);
                if answer.question == 0 && slot != written {
                    check_line(report, shape, &log, NO_MEMORY, &slot, 0);
                    written = slot;
                }
            }
        }
    }
    let shape = &SHAPES[4];
    assert_eq!(shape.kind, Kind::GREATEST.0);
    let log = (shape.log)(255);
    let mut slot = [0; 768];
    let answer = c::query(shape.kind, c::ROWS, 64, NO_MEMORY, &log, &mut slot);
    // The last row's last frame and value, and the error, each one less.
    let at = 12 + 11 * (answer.rows - 1);
    for (byte, question) in [(at + 5, 22), (at + 7, 23), (4, 24)] {
        let mut damaged = slot;
        damaged[byte] -= 1;
        check_line(report, shape, &log, NO_MEMORY, &damaged, question);
    }
}

/// The shapes of the rows with a memory.
fn memory_shapes() -> impl Iterator<Item = &'static Shape> {
    let names = ["random", "random, 8 groups, gaps", "random, greatest"];
    SHAPES
        .iter()
        .filter(move |shape| names.contains(&shape.name))
}

/// Calls `line` with each shape, log and width of the rows with a memory.
fn with_memory(line: &mut dyn FnMut(&Shape, &[u8], u16)) {
    for shape in memory_shapes() {
        for wanted in MEMORY_SIZES {
            let log = (shape.log)(wanted);
            for width in WIDTHS {
                line(shape, &log, width);
            }
        }
    }
}

/// The smallest of some shares that 64 rows meet.
fn share_met(log: &[u8], kind: u8, width: u16) -> Option<u16> {
    let mut slot = [0; 768];
    [10, 50, 100, 200, 400, 600, 700, 800, 900, 1000]
        .into_iter()
        .find(|p| c::query(kind, c::SHARE, *p, width, log, &mut slot).question == 0)
}

/// Queries of a log with each of some limits that is accepted, and with a share.
fn query_lines(report: &mut Report, shape: &Shape, log: &[u8], limits: &[u16], width: u16) {
    for limit in limits {
        let mut slot = [0; 768];
        if c::query(shape.kind, c::ROWS, *limit, width, log, &mut slot).question == 0 {
            query_line(report, shape, log, (c::ROWS, *limit), width);
        }
    }
    if let Some(share) = share_met(log, shape.kind, width) {
        query_line(report, shape, log, (c::SHARE, share), width);
    }
}

fn main() {
    let rounds = std::env::args()
        .nth(1)
        .and_then(|word| word.parse().ok())
        .unwrap_or(51);
    let mut report = Report::new(rounds, &PLAIN);
    println!("The proved library (as `rt lib` built it) against the same algorithm in plain safe Rust");
    println!("(built for release), in one process: the same inputs, in turns, {rounds} rounds.");
    println!("'plain' works a block's error out for every candidate; 'keeping' works each out once per query,");
    println!("into a list that is reused from query to query and not cleared.");
    println!("Times are medians; a ratio is library / plain version, the median over the rounds, below 1 if");
    println!("the library is faster. Buffers (log, slot, list) are reused from call to call and not cleared.");
    println!("Answers, slot bytes and weighed cuts are compared first and are equal. A limit below the count");
    println!("of runs, which is refused, has no row. Rows by windows have one plain version, which goes from");
    println!("window to window over those that no record meets; 'no 20' is the refusal of more than 64 rows.");
    println!("Only logs of 'without_twins', the call for logs on file, hold equal records. A slot is held to its");
    println!("log ('check') by one plain version, which finds the segments and walks rows and segments together.");
    println!("Many lookups ('lookups') have two, which ask the slot once: 'plain' finds each pair's row by halving the");
    println!("rows, 'rowwise' asks one row after the other. 'singles' are as many single lookups of the library.");
    println!("A row named 'shuffled' has the records of the row without that word in another order, and the");
    println!("same answer. A row with 'w' and a number has a memory of so many frames, and n segments by it; the");
    println!("plain versions move the last frames of the records as they read them. All others have none.");

    head("n bound          rows   weighed", 2);
    for shape in &SHAPES {
        for wanted in SIZES {
            let log = (shape.log)(wanted);
            query_lines(&mut report, shape, &log, &LIMITS, NO_MEMORY);
        }
    }

    for shape in &FEW_SHAPES {
        for n in FEW_SIZES {
            let log = (shape.log)(n);
            let count = count_segments(&log, shape.kind, NO_MEMORY);
            assert_eq!((log.len(), count), (9 * 128, n));
            for limit in FEW_LIMITS {
                query_line(&mut report, shape, &log, (c::ROWS, limit), NO_MEMORY);
            }
        }
    }

    // 128 records, and as many segments.
    let (in_order, log) = (random(128), (SHUFFLED.log)(128));
    let mut bounds = vec![(c::ROWS, 4), (c::ROWS, 64)];
    bounds.extend(share_met(&log, SHUFFLED.kind, NO_MEMORY).map(|share| (c::SHARE, share)));
    for (rule, bound) in bounds {
        let answers = [&in_order, &log].map(|log| {
            let mut slot = [0; 768];
            let answer = c::query(SHUFFLED.kind, rule, bound, NO_MEMORY, log, &mut slot);
            (answer, slot)
        });
        assert_eq!(answers[0], answers[1]);
        query_line(&mut report, &SHUFFLED, &log, (rule, bound), NO_MEMORY);
    }
    with_memory(&mut |shape, log, width| {
        query_lines(&mut report, shape, log, &MEMORY_LIMITS, width);
    });

    head("n", 1);
    for shape in &SHAPES {
        for wanted in SIZES {
            segments_line(&mut report, shape, &(shape.log)(wanted), NO_MEMORY);
        }
    }
    for shape in &FEW_SHAPES {
        for n in FEW_SIZES {
            segments_line(&mut report, shape, &(shape.log)(n), NO_MEMORY);
        }
    }
    let lists = [&in_order, &log].map(|log| {
        let mut list = [c::Segment::default(); 255];
        let answer = c::segments(log, SHUFFLED.kind, NO_MEMORY, &mut list);
        (answer, list)
    });
    assert_eq!(lists[0], lists[1]);
    segments_line(&mut report, &SHUFFLED, &log, NO_MEMORY);
    with_memory(&mut |shape, log, width| segments_line(&mut report, shape, log, width));

    head("records  kept", 1);
    without_twins_lines(&mut report);

    head("records     kind  rows", 1);
    for spans in spans() {
        for kind in [Kind::SUM, Kind::GREATEST, Kind::MEAN] {
            windows_line(&mut report, &spans, kind);
        }
    }
    let in_order = spans()
        .into_iter()
        .find(|spans| spans.name == "beats of 600, 8 groups")
        .expect("the data for windows");
    let log = shuffled(&in_order.log);
    let answers = [&in_order.log, &log].map(|log| {
        let mut slot = [0; 768];
        let answer = in_order.windows.library(Kind::SUM.0, log, &mut slot);
        (answer, slot)
    });
    assert_eq!(answers[0], answers[1]);
    let spans = Spans {
        name: "beats of 600, 8 groups, shuffled",
        log,
        ..in_order
    };
    windows_line(&mut report, &spans, Kind::SUM);

    head("n rows answer", 1);
    check_lines(&mut report);
    let in_order = random(128);
    let log = shuffled(&in_order);
    let mut slot = [0; 768];
    c::query(SHUFFLED.kind, c::ROWS, 64, NO_MEMORY, &in_order, &mut slot);
    assert_eq!(
        c::check(&in_order, NO_MEMORY, &slot),
        c::check(&log, NO_MEMORY, &slot)
    );
    check_line(&mut report, &SHUFFLED, &log, NO_MEMORY, &slot, 0);
    with_memory(&mut |shape, log, width| {
        let mut slot = [0; 768];
        if c::query(shape.kind, c::ROWS, 64, width, log, &mut slot).question == 0 {
            check_line(&mut report, shape, log, width, &slot, 0);
        }
    });

    head("rows", 1);
    let sizes = [0, 6, 20, 64];
    for wanted in sizes {
        slot_lines(&mut report, "", &slot_of(wanted));
    }
    for wanted in sizes {
        slot_lines(&mut report, " by windows", &windows_slot_of(wanted));
    }
    for wanted in sizes {
        boot_line(&mut report, &wanted.to_string(), &[slot_of(wanted); SLOTS]);
    }
    let mixed: Vec<_> = (0..SLOTS).map(|i| slot_of(noise(i) % 65)).collect();
    boot_line(&mut report, "0 to 64", &mixed);

    let mut lookups = Report::new(rounds, &OF_LOOKUPS);
    head_of("rows pairs covered", &OF_LOOKUPS);
    lookups_lines(&mut lookups);

    for (what, report) in [("", &report), ("many lookups ", &lookups)] {
        println!();
        for (name, ratios) in report.others.iter().zip(&report.ratios) {
            let above = ratios.iter().filter(|ratio| **ratio > 1.0).count();
            let highest = ratios.iter().copied().fold(0.0, f64::max);
            println!(
                "{what}against '{name}': {} rows, {above} with a ratio above 1.00, the highest {highest:.2}",
                ratios.len()
            );
        }
    }
}
