//! Rows by beats and by scenes, through the safe functions and the C functions beneath them.

mod cases;

use cases::{bytes, frames, lines, no};
use pacer::c;
use pacer::{Bound, Header, Kind, Query, Record, Refusal, Row, Rule, Scene, Walker};
use pacer::{ROWS, SCENES, SLOT_BYTES};

fn record(group: u8, first: u16, last: u16, load: u16) -> Record {
    Record {
        group,
        first,
        last,
        load,
    }
}

const fn row(group: u8, first: u16, last: u16, value: u32) -> Row {
    Row {
        group,
        first,
        last,
        value,
    }
}

fn log_g() -> Vec<u8> {
    pacer::log(&[
        record(0, 0, 3, 100),
        record(0, 2, 5, 200),
        record(0, 6, 6, 210),
        record(0, 9, 10, 50),
        record(1, 0, 0, 7),
    ])
    .unwrap()
}

/// The rows that a rule gives, read back from the slot. Bytes behind the slot keep their content,
/// and in a refusal all do.
fn rows(kind: Kind, rule: Rule, log: &[u8]) -> Result<Vec<Row>, Refusal> {
    let mut slot = [0xAA; SLOT_BYTES + 3];
    let query = Query::new(kind, rule);
    let answer = match pacer::query(query, log, &mut slot) {
        Ok(answer) => answer,
        Err(refusal) => {
            assert_eq!(slot, [0xAA; SLOT_BYTES + 3]);
            return Err(refusal);
        }
    };
    assert_eq!(slot[SLOT_BYTES..], [0xAA; 3]);
    let profile = pacer::read(&slot)?;
    assert_eq!((answer.rows, profile.kind()), (profile.len(), kind));
    assert_eq!((answer.error, answer.weighed, profile.error()), (0, 0, 0));
    assert_eq!(profile.header(), Header::ByWindows);
    Ok(profile.rows().to_vec())
}

fn question(kind: Kind, rule: Rule, log: &[u8]) -> (u8, usize) {
    let refusal = rows(kind, rule, log).unwrap_err();
    (refusal.question, refusal.index)
}

/// The bytes of a slot before a query.
fn noise() -> Vec<u8> {
    (0..SLOT_BYTES + 5)
        .map(|i| (0xA5 ^ (i * 7)) as u8)
        .collect()
}

/// The queries that `tools/expected.py` worked out: the answer and every byte of the slot.
#[test]
fn as_worked_out() {
    let mut counted = [0; 22];
    for line in lines(include_str!("windows.cases")) {
        let (asked, answer) = line.split_once(": ").unwrap();
        let words: Vec<&str> = asked.split(' ').collect();
        let [rule, kind, one, two, log] = words[..] else {
            panic!("{line}");
        };
        let (kind, log) = (kind.parse().unwrap(), bytes(log));
        let mut expected = noise();
        let numbers = match no(answer) {
            Some(no) => (no.question, no.index, 0),
            None => {
                let used = bytes(answer);
                expected[..SLOT_BYTES].fill(0);
                expected[..used.len()].copy_from_slice(&used);
                (0, 0, usize::from(used[3]))
            }
        };
        let mut slot = noise();
        let mut by_rule = noise();
        let mut safe = |rule| {
            let query = Query::new(Kind(kind), rule);
            let outcome = pacer::query(query, &log, &mut by_rule);
            let answer = outcome.map(|found| (0, 0, found.rows));
            answer.unwrap_or_else(|refusal| (refusal.question, refusal.index, 0))
        };
        let found = match rule {
            "beats" => {
                let (length, start) = (one.parse().unwrap(), two.parse().unwrap());
                assert_eq!(safe(Rule::Every { length, start }), numbers, "{line}");
                c::query_beats(kind, length, start, &log, &mut slot)
            }
            "scenes" => {
                let (firsts, lasts) = (frames(one), frames(two));
                if firsts.len() == lasts.len() {
                    let scenes: Vec<Scene> = firsts
                        .iter()
                        .zip(&lasts)
                        .map(|(first, last)| Scene::new(*first, *last))
                        .collect();
                    assert_eq!(safe(Rule::Scenes(&scenes)), numbers, "{line}");
                } else {
                    by_rule.clone_from(&expected);
                }
                c::query_scenes(kind, &firsts, &lasts, &log, &mut slot)
            }
            _ => panic!("{line}"),
        };
        let (question, index, rows) = numbers;
        let answer = c::QueryAnswer {
            question,
            index,
            rows,
            error: 0,
            weighed: 0,
        };
        assert_eq!(found, answer, "{line}");
        assert_eq!(slot, expected, "{line}");
        assert_eq!(by_rule, expected, "{line}");
        if question == 0 {
            let read = c::read(&slot);
            assert_eq!((read.question, read.mark), (0, c::BY_WINDOWS), "{line}");
        }
        counted[usize::from(question)] += 1;
    }
    for question in [0, 2, 4, 5, 6, 7, 8, 9, 18, 19, 20, 21] {
        assert!(counted[question] > 0, "no case for {question}");
    }
}

/// The average salary by project and trimester in the first source's Figure 1, in hundredths.
#[test]
fn trimesters() {
    let proj = pacer::log(&[
        record(0, 1, 4, 800),
        record(0, 3, 6, 400),
        record(0, 4, 7, 300),
        record(1, 4, 5, 500),
        record(1, 7, 8, 500),
    ])
    .unwrap();
    let expected = vec![
        row(0, 1, 4, 50_000),
        row(0, 5, 8, 35_000),
        row(1, 1, 4, 50_000),
        row(1, 5, 8, 50_000),
    ];
    let beats = Rule::Every {
        length: 4,
        start: 1,
    };
    assert_eq!(rows(Kind::MEAN, beats, &proj), Ok(expected.clone()));
    let scenes = [Scene::new(1, 4), Scene::new(5, 8)];
    assert_eq!(rows(Kind::MEAN, Rule::Scenes(&scenes), &proj), Ok(expected));
}

#[test]
fn beats_of_g() {
    let log = log_g();
    let by = |kind, length, start| rows(kind, Rule::Every { length, start }, &log).unwrap();
    assert_eq!(
        by(Kind::SUM, 4, 0),
        [
            row(0, 0, 3, 300),
            row(0, 4, 7, 410),
            row(0, 8, 11, 50),
            row(1, 0, 3, 7),
        ]
    );
    assert_eq!(
        by(Kind::GREATEST, 7, 3),
        [row(0, 3, 9, 210), row(0, 10, 16, 50)]
    );
    // Windows of one frame have the frames' own values.
    let single = by(Kind::SUM, 1, 0);
    assert_eq!(single.len(), 10);
    assert_eq!(single[2], row(0, 2, 2, 300));
    // The last window is cut off at frame 65,535, and frames before the start lie in none.
    assert_eq!(by(Kind::COUNT, 65_535, 6), [row(0, 6, 65_535, 2)]);
    assert_eq!(by(Kind::SUM, 1, 65_535), []);
}

#[test]
fn scenes_of_g() {
    let log = log_g();
    let scenes = [Scene::new(0, 3), Scene::new(4, 9), Scene::new(11, 65_535)];
    assert_eq!(
        rows(Kind::LEAST, Rule::Scenes(&scenes), &log),
        Ok(vec![row(0, 0, 3, 100), row(0, 4, 9, 50), row(1, 0, 3, 7)])
    );
    let wrong: [&[Scene]; 6] = [
        &[],
        &[Scene::new(4, 3)],
        &[Scene::new(0, 3), Scene::new(3, 9)],
        &[Scene::new(4, 9), Scene::new(0, 3)],
        &[Scene::new(0, 3), Scene::new(0, 3)],
        &[Scene::new(0, 3), Scene::new(4, 9), Scene::new(12, 11)],
    ];
    for scenes in wrong {
        assert_eq!(question(Kind::SUM, Rule::Scenes(scenes), &log), (19, 0));
    }
    // 16 scenes are the most; any count above is wrong, also where the first 16 are in order.
    let many: Vec<Scene> = (0..40).map(|frame| Scene::new(frame, frame)).collect();
    let sum = |count: usize| rows(Kind::SUM, Rule::Scenes(&many[..count]), &log);
    assert_eq!(sum(SCENES).unwrap().len(), 10);
    for count in [SCENES + 1, SCENES + 2, 32, 33, 40] {
        assert_eq!(sum(count).unwrap_err().question, 19);
    }
}

/// 64 rows go into a slot and 65 do not, and the questions stand in their order.
#[test]
fn too_many_rows() {
    let every = |length| Rule::Every { length, start: 0 };
    let log = pacer::log(&[record(5, 0, 63, 1), record(7, 40_000, 40_000, 1)]).unwrap();
    assert_eq!(rows(Kind::SUM, every(1), &log[..9]).unwrap().len(), ROWS);
    assert_eq!(question(Kind::SUM, every(1), &log), (20, 0));

    let mut damaged = log.clone();
    damaged[9 + 2] = 8;
    assert_eq!(question(Kind(5), every(0), &damaged), (2, 0));
    assert_eq!(question(Kind::SUM, every(0), &damaged), (18, 0));
    assert_eq!(question(Kind::SUM, every(1), &damaged[..17]), (4, 0));
    assert_eq!(question(Kind::SUM, every(1), &damaged), (7, 1));
    assert_eq!(question(Kind::SUM, Rule::Scenes(&[]), &damaged), (19, 0));
    let mut short = [0xAA; SLOT_BYTES - 1];
    assert_eq!(c::query_beats(5, 0, 0, &damaged, &mut short).question, 1);
    assert_eq!(c::query_scenes(5, &[], &[0], &[], &mut short).question, 1);
    assert_eq!(short, [0xAA; SLOT_BYTES - 1]);
}

/// A slot by windows is read, walked and looked up like one by a bound, and the reader tells which.
#[test]
fn both_headers() {
    let log = log_g();
    let mut slot = [0; SLOT_BYTES];
    let mut query = Query::new(Kind::SUM, Bound::Rows(4));
    pacer::query(query, &log, &mut slot).unwrap();
    assert_eq!(pacer::read(&slot).unwrap().header(), Header::ByBound);
    assert_eq!(c::read(&slot).mark, c::BY_BOUND);

    query.bound = Rule::Every {
        length: 4,
        start: 0,
    };
    pacer::query(query, &log, &mut slot).unwrap();
    let expected = [
        row(0, 0, 3, 300),
        row(0, 4, 7, 410),
        row(0, 8, 11, 50),
        row(1, 0, 3, 7),
    ];
    assert_eq!(slot[..12], [0x50, 0x53, 0, 4, 0, 0, 0, 0, 0, 0, 0, 0]);
    let profile = pacer::read(&slot).unwrap();
    assert_eq!(profile.header(), Header::ByWindows);
    assert_eq!(profile.rows(), expected);
    let mut walker = Walker::new(&slot);
    for row in expected {
        assert_eq!(walker.step(), Ok(Some(row)));
    }
    assert_eq!(walker.step(), Ok(None));
    // A row holds for all frames of its window, covered ones or not.
    assert_eq!(pacer::lookup(&slot, 0, 7), Ok(Some(410)));
    assert_eq!(pacer::lookup(&slot, 0, 12), Ok(None));
    assert_eq!(pacer::lookup(&slot, 1, 3), Ok(Some(7)));
    assert_eq!(pacer::lookup(&slot, 8, 3).unwrap_err().question, 7);

    // An error is 17's 'no' under this header, whichever byte it is in, after the rows' questions.
    for byte in 4..12 {
        slot[byte] = 0x80;
        let untouched = [row(9, 8, 7, 6); ROWS];
        let mut list = untouched;
        let answer = c::read_rows(&slot, &mut list);
        assert_eq!((answer.question, answer.mark, answer.rows), (17, 0, 0));
        assert_eq!(list, untouched);
        assert_eq!(pacer::row_at(&slot, 0).unwrap_err().question, 17);
        assert_eq!(pacer::lookup(&slot, 8, 0).unwrap_err().question, 17);
        slot[34] ^= 1;
        let refusal = pacer::read(&slot).unwrap_err();
        assert_eq!((refusal.question, refusal.index), (14, 2));
        slot[34] ^= 1;
        slot[1] = c::BY_BOUND;
        assert!(pacer::read(&slot).is_ok());
        slot[1] = c::BY_WINDOWS;
        slot[byte] = 0;
    }
    for mark in (0..=255).filter(|mark| ![c::BY_BOUND, c::BY_WINDOWS].contains(mark)) {
        slot[1] = mark;
        assert_eq!(pacer::read(&slot).unwrap_err().question, 11);
    }
}

#[test]
fn words_of_refusals() {
    let words = |rule| {
        let refusal = rows(Kind::SUM, rule, &log_g()).unwrap_err();
        refusal.to_string()
    };
    let none = Rule::Every {
        length: 0,
        start: 0,
    };
    assert_eq!(
        words(none),
        "question 18 got 'no': Is the length of the beats at least 1?"
    );
    assert!(words(Rule::Scenes(&[])).starts_with("question 19 got 'no': Are there 1 to 16 scenes"));
}
