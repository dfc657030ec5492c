//! Compares the proved library with the independent implementation.
//!
//!     differential [CASES] [--seed SEED] [--only PART CASE]
//!
//! Runs CASES random cases (100,000 if no number is given), a fifth as many small logs (at least
//! 20,000) against every fitting list, some logs of many frames against a table over their
//! frames, for every row count the slots with one bit of the tail set, fixed logs with windows at
//! the edges of what is allowed, as many small logs as above by windows gone through frame by
//! frame, and long logs with twins at every two places. Queries by a bound, the segment call and the
//! check of a slot have widths of all kinds, right and wrong, most often 1. In every slot many pairs of
//! group and frame are looked up as a set, with lists of all lengths. Every log that is run
//! through a query or the segment call is run again with its records in another order, and every slot
//! that a query writes is held to its log, as it is and made otherwise, and with other widths. The seed is fixed unless one is given, and
//! is printed. A difference is printed with the words that run its case alone, and the status is
//! then 1.

#![forbid(unsafe_code)]

mod check;
mod compare;
mod demand;
mod inputs;
mod lookups;
mod memory;
mod order;
mod random;
mod tails;
mod twins;
mod windows;

use check::Checked;
use compare::{ByQuestion, Seen};
use demand::Tried;
use lookups::LookedUp;
use memory::Remembered;
use order::{Met, Shuffled};
use random::Random;
use std::process::ExitCode;
use std::sync::atomic::{AtomicU64, Ordering};
use std::time::Instant;
use windows::Gone;

const SEED: u64 = 20_240_601;
const CASES: u64 = 100_000;
const SMALL_LOGS: u64 = 20_000;
const LONG_LOGS: u64 = 400;
/// The row counts of a slot, 0 to 64.
const ROW_COUNTS: u64 = 65;
/// The bits of their tails: 756 bytes behind the header, less 11 for each row.
const TAIL_BITS: u64 = 8 * (ROW_COUNTS * 756 - 11 * (64 * 65 / 2));
/// The bits of the error that are wrong under the header of windows.
const ERROR_BITS: u64 = ROW_COUNTS * 64;
/// The places of a log's records.
const PLACES: u64 = 128;

/// The parts of a run.
#[derive(Clone, Copy, PartialEq)]
enum Part {
    Random,
    Small,
    Many,
    Tails,
    Edges,
    Frames,
    Twins,
}

impl Part {
    const ALL: [Part; 7] = [
        Part::Random,
        Part::Small,
        Part::Many,
        Part::Tails,
        Part::Edges,
        Part::Frames,
        Part::Twins,
    ];

    fn name(self) -> &'static str {
        match self {
            Part::Random => "random",
            Part::Small => "small",
            Part::Many => "many",
            Part::Tails => "tails",
            Part::Edges => "edges",
            Part::Frames => "frames",
            Part::Twins => "twins",
        }
    }

    fn run(self, seed: u64, case: u64, counts: &mut Counts) -> Result<(), String> {
        let mut random = Random::of_case(seed, self as u64, case);
        match self {
            Part::Random => compare::run(&mut random, &mut counts.seen),
            Part::Small => demand::run_small(&mut random, &mut counts.tried),
            Part::Many => demand::run_many(&mut random, &mut counts.tried),
            Part::Tails => tails::run(&mut random, case, &mut counts.seen),
            Part::Edges => windows::run_edges(&mut random, case, &mut counts.seen),
            Part::Frames => windows::run_frames(&mut random, &mut counts.gone),
            Part::Twins => twins::run_places(&mut random, case, &mut counts.seen),
        }
    }
}

#[derive(Clone, Default)]
struct Counts {
    seen: Seen,
    tried: Tried,
    gone: Gone,
}

impl Counts {
    /// The logs in another order, whichever calls they went through.
    fn order(&self) -> Shuffled {
        let mut all = self.seen.order;
        all.join(&self.tried.order);
        all.join(&self.gone.order);
        all
    }

    /// What the widths of queries and of the segment call met.
    fn memory(&self) -> Remembered {
        let mut all = self.seen.memory;
        all.join(&self.tried.memory);
        all
    }

    /// The slots that were held to their logs, whichever calls wrote them.
    fn checked(&self) -> Checked {
        let mut all = self.seen.checked;
        all.join(&self.tried.checked);
        all.join(&self.gone.checked);
        all
    }
}

/// Runs all cases of a part on every processor. Gives the counts, or the first case that differs
/// and why.
fn run_all(part: Part, seed: u64, cases: u64) -> Result<Counts, (u64, String)> {
    let workers = std::thread::available_parallelism().map_or(1, |n| n.get() as u64);
    // The least case known to differ; later ones need not be run.
    let stop = AtomicU64::new(u64::MAX);
    let results: Vec<Result<Counts, (u64, String)>> = std::thread::scope(|scope| {
        let handles: Vec<_> = (0..workers)
            .map(|worker| {
                let stop = &stop;
                scope.spawn(move || {
                    let mut counts = Counts::default();
                    for case in (worker..cases).step_by(workers as usize) {
                        if case > stop.load(Ordering::Relaxed) {
                            break;
                        }
                        if let Err(why) = part.run(seed, case, &mut counts) {
                            stop.fetch_min(case, Ordering::Relaxed);
                            return Err((case, why));
                        }
                    }
                    Ok(counts)
                })
            })
            .collect();
        handles
            .into_iter()
            .map(|handle| handle.join().expect("a worker panicked"))
            .collect()
    });
    let mut all = Counts::default();
    let mut first: Option<(u64, String)> = None;
    for result in results {
        match result {
            Ok(counts) => {
                all.seen.join(&counts.seen);
                all.tried.join(&counts.tried);
                all.gone.join(&counts.gone);
            }
            Err(difference) => {
                if first.as_ref().is_none_or(|(case, _)| difference.0 < *case) {
                    first = Some(difference);
                }
            }
        }
    }
    match first {
        Some(difference) => Err(difference),
        None => Ok(all),
    }
}

fn print_counts(call: &str, counts: &ByQuestion) {
    let refused: Vec<String> = counts
        .iter()
        .enumerate()
        .skip(1)
        .filter(|(_, count)| **count > 0)
        .map(|(question, count)| format!("{question}: {count}"))
        .collect();
    println!(
        "  {call}: accepted {}; 'no' by question {}",
        counts[0],
        refused.join(", ")
    );
}

/// The questions of the calls by windows and of the slots under their header.
const BY_WINDOWS: [(&str, &[usize]); 3] = [
    ("beats", &[0, 1, 2, 4, 5, 6, 7, 8, 9, 18, 20, 21]),
    ("scenes", &[0, 1, 2, 4, 5, 6, 7, 8, 9, 19, 20, 21]),
    ("slot by windows", &[0, 7, 12, 13, 14, 15, 16, 17]),
];

/// What no case gave, of the calls by windows: questions, and what else the cases must have.
fn unreached_by_windows(seen: &Seen) -> Vec<String> {
    let counts = [&seen.beats, &seen.scenes, &seen.windows_slot];
    let mut missing = Vec::new();
    for ((call, questions), counts) in BY_WINDOWS.iter().zip(counts) {
        missing.extend(zeros(call, counts, questions));
    }
    let features = [
        ("a window cut off", seen.cut_off),
        ("64 rows by windows", seen.full),
        ("65 rows by windows", seen.one_too_many),
        ("a slot by windows with an error", seen.with_error),
    ];
    for (what, count) in features {
        if count == 0 {
            missing.push(what.to_string());
        }
    }
    missing
}

/// The questions of a call that no case failed.
fn zeros(call: &str, counts: &ByQuestion, questions: &[usize]) -> Vec<String> {
    questions
        .iter()
        .filter(|question| counts[**question] == 0)
        .map(|question| format!("{call} {question}"))
        .collect()
}

/// The kinds of which no row was at a half; that of the greatest load has none.
fn without_halves(counts: &[u64; 5]) -> Vec<String> {
    let kinds = (0..counts.len()).filter(|kind| *kind != usize::from(reference::GREATEST));
    kinds
        .filter(|kind| counts[*kind] == 0)
        .map(|kind| format!("a half of kind {kind}"))
        .collect()
}

/// The questions that a call asks but that no case failed, and what else no case had.
fn unreached(seen: &Seen) -> Vec<String> {
    let calls: [(&str, &ByQuestion, &[usize]); 5] = [
        (
            "query",
            &seen.query,
            &[0, 1, 2, 3, 4, 5, 6, 7, 8, 9, 10, 21, 25],
        ),
        (
            "segments",
            &seen.segments,
            &[0, 1, 2, 4, 5, 6, 7, 8, 9, 21, 25],
        ),
        ("log on file", &seen.file, &[0, 1, 4, 5, 6, 7, 8, 9]),
        ("slot", &seen.slot, &[0, 1, 7, 11, 12, 13, 14, 15, 16, 17]),
        ("record", &seen.record, &[0, 1, 7, 8, 9]),
    ];
    let mut missing = unreached_by_windows(seen);
    missing.extend(without_halves(&seen.halves));
    for (kind, count) in seen.earlier.iter().enumerate() {
        if *count == 0 {
            missing.push(format!("a slot of before of kind {kind}"));
        }
    }
    for (call, counts, questions) in calls {
        missing.extend(zeros(call, counts, questions));
    }
    let features = [
        ("a log with twins on file", seen.cleaned),
        ("a bad record behind a twin", seen.bad_after),
        ("a twin behind a bad record", seen.bad_before),
        ("a wrong width ahead of a wrong log", seen.width_ahead),
        ("a wrong width behind 1, 2 or 3", seen.width_behind),
        ("a sum over records", seen.summed),
    ];
    missing.extend(
        features
            .iter()
            .filter(|(_, count)| *count == 0)
            .map(|(what, _)| what.to_string()),
    );
    missing
}

/// What the logs of a part did not have in another order, and must have.
fn unreached_in_order(part: Part, order: &Shuffled) -> Vec<String> {
    let logs = [Met::Longest, Met::WrongLog];
    match part {
        Part::Random => [
            order.missing_by_bound(&[0, 1, 2, 3, 4]),
            order.missing_by_windows(),
            order.missing(&[Met::Segments, Met::TooMany]),
            order.missing(&[Met::SegmentsMemory, Met::WrongWidth]),
            order.missing(&logs),
        ]
        .concat(),
        Part::Small => order.missing_by_bound(&[0, 1, 2, 3, 4]),
        // There are no logs of counts among them.
        Part::Many => order.missing_by_bound(&[0, 2, 3, 4]),
        Part::Tails => Vec::new(),
        Part::Edges => [
            order.missing_by_windows(),
            order.missing(&[Met::TooMany]),
            order.missing(&logs),
        ]
        .concat(),
        Part::Frames => order.missing_by_windows(),
        Part::Twins => [order.missing(&[Met::Segments]), order.missing(&logs)].concat(),
    }
}

/// What the widths of a part met too rarely; `cases` is how many cases it had.
fn unreached_with_memory(part: Part, cases: u64, memory: &Remembered) -> Vec<String> {
    use memory::Met::*;
    // Of each in every hundred cases at least one, and of what is rare in every thousand. Small logs have
    // few frames for all that can be.
    let (often, seldom) = (cases / 100, cases / 1000);
    match part {
        Part::Random => [
            memory.missing(&[One, Few, Second, Closed, JustOpen, CutOff, AtZero], often),
            memory.missing(&[Many, Most, JustReached, Alike], seldom),
        ]
        .concat(),
        Part::Small => [
            memory.missing(&[One, Few], often),
            memory.missing(
                &[Closed, JustOpen, CutOff, AtZero, JustReached, Alike],
                seldom,
            ),
        ]
        .concat(),
        _ => Vec::new(),
    }
}

/// What the slots of a part, held to their logs, got too rarely; `cases` is how many cases it had.
fn unreached_in_check(part: Part, cases: u64, checked: &Checked) -> Vec<String> {
    use check::Met::*;
    // Of each in every hundred cases at least one.
    let often = cases / 100;
    let by_bound = [
        Written, Reordered, Finer, Otherwise, Cover, Error, WrongSlot, WrongLog,
    ];
    match part {
        Part::Random => [
            checked.missing(&by_bound, often),
            checked.missing(&[OtherwiseReordered, Below, Short, ByWindows], often),
            checked.missing(&[Remembered, WrongWidth, OtherCover, OtherWidth], often),
            checked.missing(&[OtherBelow, OtherError], cases / 2000),
            checked.missing_kinds(&[0, 1, 2, 3, 4]),
        ]
        .concat(),
        Part::Small => [
            checked.missing(&by_bound, often),
            checked.missing(&[OtherwiseReordered, Below, List, ListBelow], often),
            checked.missing(&[Remembered, ListRemembered, OtherCover, OtherError], often),
            checked.missing(&[OtherWidth, WrongWidth], often),
            checked.missing(&[OtherBelow], cases / 1000),
            checked.missing_kinds(&[0, 1, 2, 3, 4]),
        ]
        .concat(),
        // There are no logs of counts among them.
        Part::Many => [
            checked.missing(&by_bound, often),
            checked.missing(&[Remembered, OtherCover], often),
            checked.missing_kinds(&[0, 2, 3, 4]),
        ]
        .concat(),
        Part::Edges => checked.missing(&[ByWindows, Cover, Otherwise], 100),
        Part::Frames => checked.missing(&[ByWindows, Cover, Error, Otherwise], often),
        // Two logs with twins at every two places.
        Part::Twins => checked.missing(&[WrongLog], PLACES * (PLACES - 1)),
        // Slots alone have no log.
        Part::Tails => Vec::new(),
    }
}

/// What many lookups on the slots of a part got too rarely; `cases` is how many cases it had.
fn unreached_in_lookups(part: Part, cases: u64, lookups: &LookedUp) -> Vec<String> {
    use lookups::Met::*;
    let asked = [0, 1, 7, 11, 12, 13, 14, 15, 16, 17, 26];
    // Of each in every hundred cases at least one, and of what is rare in every thousand.
    let (often, seldom) = (cases / 100, cases / 1000);
    match part {
        Part::Random => [
            zeros("many lookups", lookups.questions(), &asked),
            lookups.missing(
                &[EightGroups, NoPair, MostPairs, Later, ByWindows, Twice],
                often,
            ),
            lookups.missing(&[Covered, CoveredByZero, Uncovered], often),
            lookups.missing(&[First, Last, Before, Behind], often),
            lookups.missing(&[ShortFrames, ShortValues, ShortFlags], often),
            lookups.missing(
                &[JustTooMany, BadFirst, BadLast, BadBetween, BadTwice],
                often,
            ),
            lookups.missing(&[JustShort, ShortAhead, TooManyAhead], seldom),
            lookups.missing(&[SlotNoPair, SlotTooMany, SlotBadGroup], seldom),
        ]
        .concat(),
        Part::Tails => [
            zeros("many lookups", lookups.questions(), &[0, 17]),
            // Slots with one bit set, in every thousand one of each.
            lookups.missing(&[SlotNoPair, SlotTooMany, SlotBadGroup], TAIL_BITS / 1000),
        ]
        .concat(),
        Part::Edges => [
            zeros("many lookups", lookups.questions(), &[0, 1, 7, 11, 17, 26]),
            lookups.missing(&[EightGroups, MostPairs, ByWindows, BadBetween], 100),
        ]
        .concat(),
        // Logs alone have no slot to look into.
        Part::Small | Part::Many | Part::Frames | Part::Twins => Vec::new(),
    }
}

/// Prints what was refused for twins, and what was kept of logs on file.
fn print_twins(seen: &Seen) {
    println!(
        "  refused for twins: query {}, segments {}, by beats {}, by scenes {}; a bad record behind {}, ahead {}",
        seen.query[21], seen.segments[21], seen.beats[21], seen.scenes[21], seen.bad_after, seen.bad_before
    );
    println!(
        "  logs on file cleaned of twins {}, records left out {}",
        seen.cleaned, seen.left_out
    );
}

/// Prints what queries by windows and their slots gave.
fn print_windows(seen: &Seen) {
    print_counts("by beats", &seen.beats);
    print_counts("by scenes", &seen.scenes);
    print_counts("read and lookup by windows", &seen.windows_slot);
    println!(
        "  windows cut off {}, with 64 rows {}, refused for 65 rows {}, slots with an error {}",
        seen.cut_off, seen.full, seen.one_too_many, seen.with_error
    );
}

struct Arguments {
    cases: u64,
    seed: u64,
    only: Option<(Part, u64)>,
}

fn arguments() -> Option<Arguments> {
    let mut parsed = Arguments {
        cases: CASES,
        seed: SEED,
        only: None,
    };
    let mut words = std::env::args().skip(1);
    while let Some(word) = words.next() {
        match word.as_str() {
            "--seed" => parsed.seed = words.next()?.parse().ok()?,
            "--only" => {
                let name = words.next()?;
                let part = Part::ALL.into_iter().find(|part| part.name() == name)?;
                parsed.only = Some((part, words.next()?.parse().ok()?));
            }
            number => parsed.cases = number.parse().ok()?,
        }
    }
    Some(parsed)
}

fn main() -> ExitCode {
    let Some(arguments) = arguments() else {
        eprintln!(
            "usage: differential [CASES] [--seed SEED] [--only random|small|many|tails|edges|frames|twins CASE]"
        );
        return ExitCode::from(2);
    };
    let seed = arguments.seed;
    println!("seed {seed}");
    if let Some((part, case)) = arguments.only {
        return match part.run(seed, case, &mut Counts::default()) {
            Ok(()) => {
                println!("{} case {case}: no difference", part.name());
                ExitCode::SUCCESS
            }
            Err(why) => {
                println!("{} case {case}: {why}", part.name());
                ExitCode::FAILURE
            }
        };
    }
    for part in Part::ALL {
        let cases = match part {
            Part::Random => arguments.cases,
            Part::Small | Part::Frames => SMALL_LOGS.max(arguments.cases / 5),
            Part::Many => LONG_LOGS.max(arguments.cases / 250),
            Part::Tails => ROW_COUNTS,
            Part::Edges => windows::edges(),
            Part::Twins => PLACES,
        };
        let start = Instant::now();
        let counts = match run_all(part, seed, cases) {
            Ok(counts) => counts,
            Err((case, why)) => {
                println!("{} case {case}: {why}", part.name());
                println!(
                    "run it again: differential --seed {seed} --only {} {case}",
                    part.name()
                );
                return ExitCode::FAILURE;
            }
        };
        let seconds = start.elapsed().as_secs_f64();
        match part {
            Part::Random => {
                println!("{cases} random cases: no difference ({seconds:.1} s)");
                let seen = &counts.seen;
                print_counts("query", &seen.query);
                print_counts("segments", &seen.segments);
                print_counts("read and lookup", &seen.slot);
                print_counts("write_record", &seen.record);
                print_counts("logs on file", &seen.file);
                print_windows(seen);
                print_twins(seen);
                println!(
                    "  most segments {}, rows {}, cuts weighed {}",
                    seen.most_segments, seen.most_rows, seen.most_weighed
                );
                println!(
                    "  by kind, rows risen at a half {:?}, slots of before with other rows {:?}",
                    seen.halves, seen.earlier
                );
                println!(
                    "  a wrong width ahead of a wrong log {}, behind 1, 2 or 3 {}; sums over records held to segments {}",
                    seen.width_ahead, seen.width_behind, seen.summed
                );
                let missing = unreached(seen);
                if cases >= CASES && !missing.is_empty() {
                    println!("no case gave: {}", missing.join(", "));
                    return ExitCode::FAILURE;
                }
            }
            Part::Small => {
                let tried = &counts.tried;
                println!(
                    "{cases} small logs against every fitting list, {} queries, {} refused: no difference ({seconds:.1} s)",
                    tried.queries, tried.refused
                );
                println!(
                    "  with a memory {} queries, {} refused",
                    tried.remembered, tried.remembered_refused
                );
                println!("  rows with two equally good numbers, by kind {:?}", tried.halves);
                let mut missing = without_halves(&tried.halves);
                if tried.remembered < cases || tried.remembered_refused < cases / 100 {
                    missing.push("enough queries with a memory".to_string());
                }
                if !missing.is_empty() {
                    println!("no case gave: {}", missing.join(", "));
                    return ExitCode::FAILURE;
                }
            }
            Part::Many => {
                let tried = &counts.tried;
                println!(
                    "{cases} logs against a table over their frames, {} queries, {} refused: no difference ({seconds:.1} s)",
                    tried.queries, tried.refused
                );
                println!(
                    "  with a memory {} queries, {} refused",
                    tried.remembered, tried.remembered_refused
                );
                if tried.remembered < cases || tried.remembered_refused < cases / 100 {
                    println!("no case gave: enough queries with a memory");
                    return ExitCode::FAILURE;
                }
            }
            Part::Tails => {
                let (accepted, refused) = (counts.seen.slot[0], counts.seen.slot[17]);
                println!(
                    "{cases} row counts, {refused} slots with one bit of the tail or the error set: no difference ({seconds:.1} s)"
                );
                // Under each of the two headers.
                let bits = 2 * TAIL_BITS + ERROR_BITS;
                if (accepted, refused) != (2 * ROW_COUNTS, bits) {
                    println!("expected {} slots with a tail of zeros, and {bits} with a bit set", 2 * ROW_COUNTS);
                    return ExitCode::FAILURE;
                }
            }
            Part::Edges => {
                let seen = &counts.seen;
                let queries: u64 = seen.beats.iter().chain(&seen.scenes).sum();
                println!("{cases} logs with windows at the edges, {queries} queries: no difference ({seconds:.1} s)");
                print_windows(seen);
                let missing = unreached_by_windows(seen);
                if !missing.is_empty() {
                    println!("no case gave: {}", missing.join(", "));
                    return ExitCode::FAILURE;
                }
            }
            Part::Frames => println!(
                "{cases} small logs by windows gone through frame by frame, {} queries, {} rows: no difference ({seconds:.1} s)",
                counts.gone.queries, counts.gone.rows
            ),
            Part::Twins => {
                let seen = &counts.seen;
                println!(
                    "{cases} places of a record with each earlier one's bytes, and with each bit of one changed: no difference ({seconds:.1} s)"
                );
                print_twins(seen);
                // Every two places, in a log of 128 records and in one that ends with the later one.
                let pairs = PLACES * (PLACES - 1);
                if (seen.segments[21], seen.cleaned) != (pairs, pairs) {
                    println!("expected {pairs} logs with twins");
                    return ExitCode::FAILURE;
                }
            }
        }
        let lookups = &counts.seen.lookups;
        if matches!(part, Part::Random | Part::Tails | Part::Edges) {
            print_counts("many lookups", lookups.questions());
            lookups.print();
        }
        let missing = unreached_in_lookups(part, cases, lookups);
        if (part != Part::Random || cases >= CASES) && !missing.is_empty() {
            println!("no case gave: {}", missing.join(", "));
            return ExitCode::FAILURE;
        }
        // Slots alone have no order and no log.
        if part != Part::Tails {
            let (order, checked, memory) = (counts.order(), counts.checked(), counts.memory());
            order.print();
            checked.print();
            memory.print();
            let mut missing = unreached_in_order(part, &order);
            missing.extend(unreached_in_check(part, cases, &checked));
            missing.extend(unreached_with_memory(part, cases, &memory));
            if (part != Part::Random || cases >= CASES) && !missing.is_empty() {
                println!("no case gave: {}", missing.join(", "));
                return ExitCode::FAILURE;
            }
        }
    }
    println!("differential: ok");
    ExitCode::SUCCESS
}
