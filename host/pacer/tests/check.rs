//! A slot against its log: accepted exactly if its rows cover what the log covers, no row of kind 3 is
//! short, and its error is theirs.

mod cases;

use cases::{bytes, every_order, lines, no};
use pacer::{c, Kind, Query, Refusal, Rule, Scene, ROWS, SLOT_BYTES};

const G: &[u8] = include_bytes!("../../../samples/log-g.query");

/// The log of the sample, which stands behind the four bytes of its query.
fn log_g() -> &'static [u8] {
    &G[4..]
}

/// What the library says of a slot and a log. The C function, the safe one and the method of a slot
/// that reads say the same, and so does a slot with the log behind it in the same buffer.
fn asked(log: &[u8], slot: &[u8]) -> Result<(), Refusal> {
    let answer = c::check(log, c::ONE_FRAME, slot);
    let found = pacer::check(log, slot);
    let (question, index) = match found {
        Ok(()) => (0, 0),
        Err(refusal) => (refusal.question, refusal.index),
    };
    assert_eq!(answer, c::CheckAnswer { question, index });
    if let Ok(profile) = pacer::read(slot) {
        assert_eq!(profile.check(log), found);
    }
    if slot.len() >= SLOT_BYTES {
        let both = [&slot[..SLOT_BYTES], log].concat();
        assert_eq!(pacer::check(&both[SLOT_BYTES..], &both), found);
    }
    found
}

fn refused(question: u8) -> Result<(), Refusal> {
    Err(Refusal { question, index: 0 })
}

/// A slot that passes is never better than the query's own answer with as many rows.
fn no_better(log: &[u8], slot: &[u8]) {
    let read = c::read(slot);
    let mut best = [0; SLOT_BYTES];
    let limit = read.rows as u16;
    let answer = c::query(read.kind, c::ROWS, limit, c::ONE_FRAME, log, &mut best);
    assert_eq!(answer.question, 0);
    assert!(answer.rows <= read.rows && answer.error <= read.error);
    assert_eq!(pacer::check(log, &best), Ok(()));
}

/// The slots that `tools/expected.py` worked out with their logs.
#[test]
fn as_worked_out() {
    let mut counted = [0; 25];
    for line in lines(include_str!("check.cases")) {
        let (words, answer) = line.split_once(": ").unwrap();
        let words: Vec<&str> = words.split(' ').collect();
        let [log, length, slot] = words[..] else {
            panic!("{line}");
        };
        let (log, mut slot) = (bytes(log), bytes(slot));
        slot.resize(length.parse().unwrap(), 0);
        let expected = match no(answer) {
            Some(refusal) => Err(refusal),
            None => {
                assert_eq!(answer, "yes", "{line}");
                Ok(())
            }
        };
        assert_eq!(asked(&log, &slot), expected, "{line}");
        match expected {
            Ok(()) => {
                no_better(&log, &slot);
                counted[0] += 1;
            }
            Err(refusal) => counted[usize::from(refusal.question)] += 1,
        }
    }
    for question in (4..=9).chain([0, 1, 21]).chain(11..=17).chain(22..=24) {
        assert!(counted[question] > 0, "no case for {question}");
    }
    assert_eq!(
        [2, 3, 10, 18, 19, 20].map(|question| counted[question]),
        [0; 6]
    );
    assert!(counted[0] > 400 && counted[22] > 100 && counted[23] > 30 && counted[24] > 100);
}

/// Every slot that a query writes for log G by a bound passes with it in every order of its records,
/// and every slot by windows is refused by 11. An error beside the right one is refused by 24.
#[test]
fn written_for_log_g() {
    let g = log_g();
    let scenes = [Scene::new(0, 6), Scene::new(9, 10)];
    let rules = (0..=ROWS as u16)
        .map(Rule::Rows)
        .chain([0, 1, 16, 17, 281, 282, 500, 999, 1000].map(Rule::Share))
        .chain([1, 4, 7, 65_535].map(|length| Rule::Every { length, start: 0 }))
        .chain([Rule::Scenes(&scenes)]);
    let mut written = 0;
    for bound in rules {
        for kind in (0..=4).map(Kind) {
            let mut slot = [0; SLOT_BYTES];
            if pacer::query(Query::new(kind, bound), g, &mut slot).is_err() {
                // Fewer rows than runs.
                assert!(matches!(bound, Rule::Rows(0..=2)));
                continue;
            }
            let by_bound = matches!(bound, Rule::Rows(_) | Rule::Share(_));
            let due = if by_bound { Ok(()) } else { refused(11) };
            assert_eq!(asked(g, &slot), due, "{kind:?} {bound:?}");
            if !by_bound {
                continue;
            }
            no_better(g, &slot);
            written += 1;
            slot[4] ^= 1;
            assert_eq!(asked(g, &slot), refused(24), "{kind:?} {bound:?}");
            slot[4] ^= 1;
            if matches!(bound, Rule::Rows(4) | Rule::Share(282)) {
                every_order(g, &mut |log| {
                    assert_eq!(asked(log, &slot), Ok(()), "{log:?}")
                });
            }
        }
    }
    assert_eq!(written, 5 * (62 + 9));
}

/// Each bit of the slot of log G's four sums changed alone: refused by the reader's question where
/// that has one, and else by 22 or 24.
#[test]
fn each_bit() {
    let g = log_g();
    let mut slot = [0; SLOT_BYTES];
    let query = Query::new(Kind::SUM, Rule::Rows(4));
    pacer::query(query, g, &mut slot).unwrap();
    let mut counted = [0; 25];
    for place in 0..SLOT_BYTES {
        for bit in 0..8 {
            let mut other = slot;
            other[place] ^= 1 << bit;
            let refusal = asked(g, &other).unwrap_err();
            let read = pacer::read(&other).map_or_else(|refusal| refusal.question, |_| 0);
            if read != 0 {
                assert_eq!(refusal.question, read, "byte {place}, bit {bit}");
            } else {
                assert!(
                    matches!(refusal.question, 22 | 24),
                    "byte {place}, bit {bit}"
                );
                assert_eq!(refusal.index, 0);
            }
            counted[usize::from(refusal.question)] += 1;
        }
    }
    // 64 bits of the error, and what is left of the values and of the kind.
    assert!(counted[24] >= 64 && counted[22] > 0);
    assert_eq!(counted[11], 16);
}

/// A log and the slot in one buffer, in either order, and the same bytes as both.
#[test]
fn overlapping() {
    let g = log_g();
    let mut slot = [0; SLOT_BYTES];
    let query = Query::new(Kind::MEAN, Rule::Rows(64));
    pacer::query(query, g, &mut slot).unwrap();
    let behind = [&slot[..], g].concat();
    assert_eq!(pacer::check(&behind[SLOT_BYTES..], &behind), Ok(()));
    // A slot is no log, nor a log a slot: 768 bytes are no whole records, and 128 records no slot.
    assert_eq!(pacer::check(&slot, &slot), refused(4));
    let records: Vec<pacer::Record> = (0..128)
        .map(|frame| pacer::Record {
            group: 0,
            first: frame,
            last: frame,
            load: 7,
        })
        .collect();
    let log = pacer::log(&records).unwrap();
    assert_eq!(pacer::check(&log, &log), refused(11));
    assert_eq!(pacer::check(&log[..9], &log[..9]), refused(1));
}

/// The words of the questions.
#[test]
fn words() {
    let said = |question| Refusal { question, index: 0 }.to_string();
    assert_eq!(
        said(22),
        "question 22 got 'no': Do the rows cover, group by group, just the covered frames?"
    );
    assert_eq!(
        said(23),
        "question 23 got 'no': Is no row of kind 3 below the value of a covered frame in it?"
    );
    assert_eq!(
        said(24),
        "question 24 got 'no': Is the header's error the squared error of the rows, summed frame by frame?"
    );
}
