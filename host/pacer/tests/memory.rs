//! Load with a memory: a frame's value is over the records that contain at least one of the last frames,
//! as many as a width says. Queries by a bound, the segment call and the check of a slot take it.

mod cases;

use cases::{bytes, every_order, lines, listed, no};
use pacer::{c, Kind, Query, Record, Reduction, Refusal, Rule, Scene, Segment};
use pacer::{MOST_WIDTH, ROWS, SEGMENT_PLACES, SLOT_BYTES};

const G: &[u8] = include_bytes!("../../../samples/log-g.query");

/// The log of the sample, which stands behind the four bytes of its query.
fn log_g() -> &'static [u8] {
    &G[4..]
}

fn refused<T>(question: u8) -> Result<T, Refusal> {
    Err(Refusal { question, index: 0 })
}

/// The bytes that are lent, which no call writes by chance.
fn noise(length: usize) -> Vec<u8> {
    (0..length).map(|place| (7 * place + 1) as u8).collect()
}

/// What a query writes: the answer and the 768 bytes. Bytes behind them keep their content, and in a
/// refusal all do. The safe function does the same where it knows the rule.
fn query(
    (kind, rule, bound): (u8, u8, u16),
    width: u16,
    log: &[u8],
    length: usize,
) -> Result<(Reduction, Vec<u8>), Refusal> {
    let before = noise(length);
    let mut slot = before.clone();
    let answer = c::query(kind, rule, bound, width, log, &mut slot);
    let numbers = (answer.rows, answer.error, answer.weighed);
    let given = if answer.question == 0 {
        assert_eq!(
            (answer.index, &slot[SLOT_BYTES..]),
            (0, &before[SLOT_BYTES..])
        );
        let (rows, error, weighed) = numbers;
        let reduction = Reduction {
            rows,
            error,
            weighed,
        };
        Ok((reduction, slot[..SLOT_BYTES].to_vec()))
    } else {
        assert_eq!((numbers, &slot), ((0, 0, 0), &before));
        Err(Refusal {
            question: answer.question,
            index: answer.index,
        })
    };
    let bound = match rule {
        c::ROWS => Rule::Rows(bound),
        c::SHARE => Rule::Share(bound),
        _ => return given,
    };
    let asked = Query::new(Kind(kind), bound).with_memory(width);
    let mut other = before;
    let safe = pacer::query(asked, log, &mut other);
    assert_eq!(safe, given.clone().map(|(reduction, _)| reduction));
    assert_eq!(other, slot);
    // Width 1 is what there is without a memory.
    if width == 1 {
        let without = pacer::query(Query::new(Kind(kind), bound), log, &mut other);
        assert_eq!((without, other), (safe, slot));
    }
    given
}

/// What the segment call lists. Places behind the segments keep their content, and in a refusal all do.
fn segments(kind: u8, width: u16, log: &[u8], places: usize) -> Result<Vec<Segment>, Refusal> {
    let blank = Segment {
        group: 9,
        first: 8,
        last: 7,
        value: 6,
    };
    let mut list = vec![blank; places];
    let given = pacer::segments_with_memory(log, Kind(kind), width, &mut list).map(<[_]>::to_vec);
    let count = given.as_ref().map_or(0, Vec::len);
    assert!(list[count..].iter().all(|place| *place == blank));
    let (question, index) = numbers(&given);
    let mut other = vec![blank; places];
    let answer = c::segments(log, kind, width, &mut other);
    let expected = c::SegmentsAnswer {
        question,
        index,
        count,
    };
    assert_eq!((answer, &other), (expected, &list));
    if width == 1 {
        let without = pacer::segments(log, Kind(kind), &mut other).map(<[_]>::to_vec);
        assert_eq!(without, given);
    }
    given
}

/// What is said of a slot and a log. The C function, the safe one and the method of a slot that reads
/// say the same.
fn check(width: u16, log: &[u8], slot: &[u8]) -> Result<(), Refusal> {
    let given = pacer::check_with_memory(log, width, slot);
    let (question, index) = numbers(&given);
    let answer = c::check(log, width, slot);
    assert_eq!(answer, c::CheckAnswer { question, index });
    if let Ok(profile) = pacer::read(slot) {
        assert_eq!(profile.check_with_memory(log, width), given);
    }
    if width == 1 {
        assert_eq!(pacer::check(log, slot), given);
    }
    given
}

fn numbers<T>(given: &Result<T, Refusal>) -> (u8, usize) {
    match given {
        Ok(_) => (0, 0),
        Err(refusal) => (refusal.question, refusal.index),
    }
}

/// A slot that passes is never better than the query's own answer of the same width with as many rows.
fn no_better(width: u16, log: &[u8], slot: &[u8]) {
    let read = c::read(slot);
    let asked = (read.kind, c::ROWS, read.rows as u16);
    let (answer, best) = query(asked, width, log, SLOT_BYTES).unwrap();
    assert!(answer.rows <= read.rows && answer.error <= read.error);
    assert_eq!(check(width, log, &best), Ok(()));
}

/// How often each question was the first 'no', and at place 0 how often there was none.
type ByQuestion = [usize; 26];

/// The calls that `tools/expected.py` worked out, of each the answer and every byte or place lent.
#[test]
fn as_worked_out() {
    let mut counted: [ByQuestion; 3] = [[0; 26]; 3];
    let mut widths = [0; 65_536];
    for line in lines(include_str!("memory.cases")) {
        let (asked, answer) = line.split_once(": ").unwrap();
        let words: Vec<&str> = asked.split(' ').collect();
        let number = |word: &str| -> u16 { word.parse().unwrap() };
        let refusal = no(answer);
        let (call, width, given) = match words[..] {
            ["query", kind, rule, bound, width, length, log] => {
                let rule = u8::from_str_radix(rule, 16).unwrap();
                let asked = (number(kind) as u8, rule, number(bound));
                let length = usize::from(number(length));
                let given = query(asked, number(width), &bytes(log), length);
                if let Ok((reduction, slot)) = &given {
                    let (weighed, expected) = answer.split_once(' ').unwrap();
                    let mut expected = bytes(expected);
                    expected.resize(SLOT_BYTES, 0);
                    assert_eq!(slot, &expected, "{line}");
                    assert_eq!(reduction.weighed, weighed.parse::<u64>().unwrap(), "{line}");
                    assert_eq!(reduction.rows, usize::from(slot[3]), "{line}");
                    assert_eq!(reduction.error.to_le_bytes(), slot[4..12], "{line}");
                    assert_eq!(check(number(width), &bytes(log), slot), Ok(()), "{line}");
                }
                (0, width, given.map(|_| ()))
            }
            ["segments", kind, width, places, log] => {
                let places = usize::from(number(places));
                let given = segments(number(kind) as u8, number(width), &bytes(log), places);
                if let Ok(given) = &given {
                    assert_eq!(given, &listed(answer), "{line}");
                }
                (1, width, given.map(|_| ()))
            }
            ["check", width, log, length, slot] => {
                let (log, mut slot) = (bytes(log), bytes(slot));
                slot.resize(usize::from(number(length)), 0);
                let given = check(number(width), &log, &slot);
                if given.is_ok() {
                    assert_eq!(answer, "yes", "{line}");
                    no_better(number(width), &log, &slot);
                }
                (2, width, given)
            }
            _ => panic!("{line}"),
        };
        assert_eq!(given.err(), refusal, "{line}");
        counted[call][refusal.map_or(0, |refusal| usize::from(refusal.question))] += 1;
        widths[usize::from(number(width))] += 1;
    }
    let of_log: Vec<usize> = (4..=9).chain([21, 25, 0, 1]).collect();
    let more = [vec![2, 3, 10], vec![2], (11..=17).chain(22..=24).collect()];
    for (counts, more) in counted.iter().zip(more) {
        let owed = [of_log.clone(), more].concat();
        for (question, count) in counts.iter().enumerate() {
            assert_eq!(*count > 0, owed.contains(&question), "question {question}");
        }
    }
    for width in [0, 1, 2, 3, 60, 4096, 4097, 65_535] {
        assert!(widths[width] > 20, "width {width}");
    }
    assert!(counted
        .iter()
        .all(|counts| counts[0] > 150 && counts[25] > 30));
    assert!([22, 23, 24]
        .iter()
        .all(|question| counted[2][*question] > 10));
}

/// Every slot that a query writes for log G with some width passes with the same width, in every order of
/// its records, and every other order has the same segments and the same slot.
#[test]
fn written_for_log_g() {
    let g = log_g();
    let mut held = 0;
    for width in [1, 2, 3, 4, 5, 11, 60, 4095, MOST_WIDTH] {
        for kind in 0..=4 {
            let listed = segments(kind, width, g, SEGMENT_PLACES).unwrap();
            // Frames 7 and 8 are no gap from three frames on.
            let runs = if width < 3 { 3 } else { 2 };
            assert_eq!(
                query((kind, c::ROWS, runs - 1), width, g, SLOT_BYTES),
                refused(10)
            );
            let limits = (runs..=ROWS as u16).map(|limit| (c::ROWS, limit));
            for (rule, bound) in limits.chain([0, 1, 125, 126, 500, 1000].map(|p| (c::SHARE, p))) {
                let (answer, slot) = query((kind, rule, bound), width, g, SLOT_BYTES).unwrap();
                assert_eq!(check(width, g, &slot), Ok(()));
                no_better(width, g, &slot);
                if usize::from(bound) >= listed.len() && rule == c::ROWS {
                    assert_eq!((answer.rows, answer.error), (listed.len(), 0));
                }
                // With a width one more or less the cover is another one: the last record ends at
                // frame 10, and there are frames enough behind it.
                assert_eq!(
                    check(width + 1, g, &slot),
                    refused(if width == 4096 { 25 } else { 22 })
                );
                assert_eq!(
                    check(width - 1, g, &slot),
                    refused(if width == 1 { 25 } else { 22 })
                );
                held += 1;
                if bound == 4 && rule == c::ROWS {
                    every_order(g, &mut |log| {
                        assert_eq!(
                            query((kind, rule, bound), width, log, SLOT_BYTES),
                            Ok((answer, slot.clone()))
                        );
                        assert_eq!(check(width, log, &slot), Ok(()));
                        assert_eq!(segments(kind, width, log, SEGMENT_PLACES).unwrap(), listed);
                    });
                }
            }
        }
    }
    assert!(held > 9 * 5 * 60);
}

/// A query by windows reads no width: right or wrong, it gives the same rows and is not asked 25.
#[test]
fn by_windows() {
    let g = log_g();
    let scenes = [Scene::new(0, 5), Scene::new(6, 10)];
    let every = |length| Rule::Every { length, start: 0 };
    for bound in [
        every(4),
        every(1),
        Rule::Scenes(&scenes),
        every(0),
        Rule::Scenes(&[]),
    ] {
        for kind in (0..=5).map(Kind) {
            let query = Query::new(kind, bound);
            let mut slot = [0xAA; SLOT_BYTES];
            let answer = pacer::query(query, g, &mut slot);
            for width in [0, 2, 60, 4096, 4097, 65_535] {
                let mut other = [0xAA; SLOT_BYTES];
                assert_eq!(
                    pacer::query(query.with_memory(width), g, &mut other),
                    answer
                );
                assert_eq!(other, slot);
                if answer.is_ok() {
                    let question = if (1..=4096).contains(&width) { 11 } else { 25 };
                    assert_eq!(check(width, g, &slot), refused(question));
                }
            }
        }
    }
}

/// All widths there are, and those that there are not, on one record: it counts in its own frames and in
/// one frame less than the width behind them, as far as there are frames.
#[test]
fn all_widths() {
    for (first, last) in [(5u16, 7u16), (0, 0), (60_000, 62_000), (65_535, 65_535)] {
        let record = Record {
            group: 4,
            first,
            last,
            load: 300,
        };
        let log = pacer::log(&[record]).unwrap();
        for width in (0..=4200).chain([8192, 32_768, 65_534, 65_535]) {
            let expected = if (1..=4096).contains(&width) {
                Ok(vec![Segment {
                    group: 4,
                    first,
                    last: last.saturating_add(width - 1),
                    value: 300,
                }])
            } else {
                refused(25)
            };
            assert_eq!(
                segments(0, width, &log, SEGMENT_PLACES),
                expected,
                "{width}"
            );
        }
    }
}

/// The words of the question.
#[test]
fn words() {
    let said = |question| Refusal { question, index: 0 }.to_string();
    assert_eq!(said(25), "question 25 got 'no': Is the width 1 to 4,096?");
    assert_eq!(MOST_WIDTH, 4096);
}
