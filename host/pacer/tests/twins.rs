//! Twins: a log with a record that an earlier one equals is refused as 21 by every call that takes
//! one, and the call for logs on file keeps the first of equal records.

mod cases;

use cases::{bytes, lines, no};
use pacer::{Kind, Query, Record, Refusal, Row, Rule, Scene, Segment};
use pacer::{RECORDS, RECORD_BYTES, SEGMENT_PLACES, SLOT_BYTES};

const fn record(group: u8, first: u16, last: u16, load: u16) -> Record {
    Record {
        group,
        first,
        last,
        load,
    }
}

/// The records of log G.
const G: [Record; 5] = [
    record(0, 0, 3, 100),
    record(0, 2, 5, 200),
    record(0, 6, 6, 210),
    record(0, 9, 10, 50),
    record(1, 0, 0, 7),
];

fn log(records: &[Record]) -> Vec<u8> {
    pacer::log(records).unwrap()
}

/// The bytes of a buffer before a call.
fn noise(length: usize) -> Vec<u8> {
    (0..length).map(|k| (7 * k + 1) as u8).collect()
}

/// What is kept of a log, through a buffer just as long; the bytes behind it keep their content.
fn kept(log: &[u8]) -> Vec<u8> {
    let mut buffer = noise(log.len());
    let length = pacer::without_twins(log, &mut buffer).unwrap();
    assert_eq!(buffer[length..], noise(log.len())[length..]);
    buffer.truncate(length);
    buffer
}

/// What every call that takes a log says of it: all say the same, but for 10, which comes after the
/// log's own questions. A refusal changes nothing lent.
fn asked(log: &[u8]) -> Result<(), Refusal> {
    let blank = Segment {
        group: 9,
        first: 8,
        last: 7,
        value: 6,
    };
    let mut list = [blank; SEGMENT_PLACES + 1];
    let outcome = pacer::segments(log, Kind::SUM, &mut list).map(|_| ());
    if outcome.is_err() {
        assert_eq!(list, [blank; SEGMENT_PLACES + 1]);
    }
    let scenes = [Scene::new(0, 9), Scene::new(10, 65_535)];
    let every = |length| Rule::Every { length, start: 0 };
    let rules = [
        Rule::Rows(64),
        Rule::Share(1000),
        every(40_000),
        Rule::Scenes(&scenes),
    ];
    for kind in 0..=4 {
        for bound in rules {
            let query = Query::new(Kind(kind), bound);
            let mut slot = noise(SLOT_BYTES + 3);
            let found = pacer::query(query, log, &mut slot).map(|_| ());
            if found.is_err() {
                assert_eq!(slot, noise(SLOT_BYTES + 3));
            }
            if found != Err(refusal(10, 0)) || outcome.is_err() {
                assert_eq!(found, outcome, "{query:?}");
            }
        }
    }
    outcome
}

fn refusal(question: u8, index: usize) -> Refusal {
    Refusal { question, index }
}

/// The logs on file that `tools/expected.py` worked out: the answer and every byte of the buffer.
#[test]
fn as_worked_out() {
    let mut counted = [0; 10];
    let mut shortened = 0;
    for line in lines(include_str!("twins.cases")) {
        let (words, answer) = line.split_once(": ").unwrap();
        let (log, room) = words.split_once(' ').unwrap();
        let (log, room) = (bytes(log), room.parse().unwrap());
        let (expected, after) = match no(answer) {
            Some(no) => (Err(no), noise(room)),
            None => {
                let (length, after) = answer.split_once(' ').unwrap();
                (Ok(length.parse().unwrap()), bytes(after))
            }
        };
        let mut buffer = noise(room);
        assert_eq!(pacer::without_twins(&log, &mut buffer), expected, "{line}");
        assert_eq!(buffer, after, "{line}");
        match expected {
            Ok(length) => {
                // What was kept has no twins, and the log had some if it was longer.
                assert_eq!(asked(&buffer[..length]), Ok(()), "{line}");
                assert_eq!(asked(&log).is_ok(), length == log.len(), "{line}");
                shortened += usize::from(length < log.len());
                counted[0] += 1;
            }
            Err(no) => counted[usize::from(no.question)] += 1,
        }
    }
    for question in [0, 1, 4, 5, 6, 7, 8, 9] {
        assert!(counted[question] > 0, "no case for {question}");
    }
    assert!(shortened > 20);
}

/// A restarted logger: the last record of G stands twice. Every call refuses it; put through the
/// call for logs on file, the log is G again.
#[test]
fn restarted_logger() {
    let g = log(&G);
    for again in G {
        let twice = log(&[&G[..], &[again]].concat());
        assert_eq!(asked(&twice), Err(refusal(21, 5)));
        assert_eq!(kept(&twice), g);
    }
    assert_eq!(asked(&g), Ok(()));
    assert_eq!(kept(&g), g);

    let twice = log(&[G[0], G[0]]);
    let mut slot = [0; SLOT_BYTES];
    let query = Query::new(Kind::SUM, Rule::Rows(1));
    assert_eq!(pacer::query(query, &twice, &mut slot), Err(refusal(21, 1)));
    pacer::query(query, &kept(&twice), &mut slot).unwrap();
    let row = Row {
        group: 0,
        first: 0,
        last: 3,
        value: 100,
    };
    assert_eq!(pacer::read(&slot).unwrap().rows(), [row]);
}

/// The index is that of the later one, and of several the first that an earlier one equals.
#[test]
fn which_one() {
    let [a, b, c, d, _] = G;
    let first_twin = |records: &[Record]| asked(&log(records)).unwrap_err();
    assert_eq!(first_twin(&[a, a, a]), refusal(21, 1));
    assert_eq!(first_twin(&[a, b, c, a]), refusal(21, 3));
    assert_eq!(first_twin(&[a, b, b, a]), refusal(21, 2));
    assert_eq!(first_twin(&[a, b, c, d, b, a]), refusal(21, 4));
    assert_eq!(kept(&log(&[b, a, b, c, a, d, d])), log(&[b, a, c, d]));

    let mut many: Vec<Record> = (0..RECORDS as u16).map(|i| record(7, i, 500, 9)).collect();
    assert_eq!(asked(&log(&many)), Ok(()));
    assert_eq!(kept(&log(&many)), log(&many));
    many[RECORDS - 1] = many[0];
    assert_eq!(first_twin(&many), refusal(21, RECORDS - 1));
    assert_eq!(kept(&log(&many)), log(&many[..RECORDS - 1]));
    assert_eq!(first_twin(&[a; RECORDS]), refusal(21, 1));
    assert_eq!(kept(&log(&[a; RECORDS])), log(&[a]));
    assert_eq!(first_twin(&[a; RECORDS + 1]), refusal(5, 0));
}

/// 21 is asked of a record after its 9: a bad record ahead of the later twin is refused first, one
/// behind it is not reached. The call for logs on file asks of bad records alone.
#[test]
fn beside_bad_records() {
    let good = log(&G[..1]);
    let file = |log: &[u8]| {
        let mut buffer = noise(log.len() + 4);
        let no = pacer::without_twins(log, &mut buffer).unwrap_err();
        assert_eq!(buffer, noise(log.len() + 4));
        no
    };
    for (question, place, byte) in [(6, 0, 0x4D), (6, 1, 0), (7, 2, 8), (8, 4, 1), (9, 8, 4)] {
        let mut bad = good.clone();
        bad[place] = byte;
        let logs = [
            ([&good, &bad, &good], question, 1, 1),
            ([&bad, &good, &good], question, 0, 0),
            ([&good, &good, &bad], 21, 1, 2),
            ([&good, &bad, &bad], question, 1, 1),
            ([&bad, &bad, &bad], question, 0, 0),
        ];
        for (records, first, index, on_file) in logs {
            let log: Vec<u8> = records.into_iter().flatten().copied().collect();
            assert_eq!(asked(&log), Err(refusal(first, index)));
            assert_eq!(file(&log), refusal(question, on_file));
        }
    }
    let twice = good.repeat(2);
    assert_eq!(asked(&twice[..17]), Err(refusal(4, 0)));
    assert_eq!(file(&twice[..17]), refusal(4, 0));
    assert_eq!(file(&good.repeat(RECORDS + 1)), refusal(5, 0));
}

/// 21 comes ahead of 10 and 20, and behind what is asked of the query.
#[test]
fn among_the_others() {
    let twice = log(&[
        record(0, 0, 64, 1),
        record(3, 0, 64, 1),
        record(0, 0, 64, 1),
    ]);
    let question = |kind, bound, log: &[u8]| {
        let query = Query::new(Kind(kind), bound);
        pacer::query(query, log, &mut [0; SLOT_BYTES]).unwrap_err()
    };
    let every = |length| Rule::Every { length, start: 0 };
    let scenes = [Scene::new(4, 3)];
    let twin = refusal(21, 2);
    let once = &twice[..2 * RECORD_BYTES];
    assert_eq!(question(0, Rule::Rows(1), once), refusal(10, 0));
    assert_eq!(question(0, Rule::Rows(1), &twice), twin);
    assert_eq!(question(0, every(1), once), refusal(20, 0));
    assert_eq!(question(0, every(1), &twice), twin);
    assert_eq!(question(5, Rule::Rows(1), &twice), refusal(2, 0));
    assert_eq!(question(0, Rule::Rows(65), &twice), refusal(3, 0));
    assert_eq!(question(0, Rule::Share(1001), &twice), refusal(3, 0));
    assert_eq!(question(0, every(0), &twice), refusal(18, 0));
    assert_eq!(question(0, Rule::Scenes(&scenes), &twice), refusal(19, 0));
}

/// Records that differ in one bit are not equal, whichever bit it is. A bit may make the second one
/// bad; then it is refused for that.
#[test]
fn one_bit() {
    let one = log(&[record(1, 0x012C, 0x0384, 0x01F4)]);
    let mut accepted = 0;
    for bit in 0..8 * RECORD_BYTES {
        let mut log = one.repeat(2);
        log[RECORD_BYTES + bit / 8] ^= 1 << (bit % 8);
        let mut buffer = noise(log.len());
        let found = pacer::without_twins(&log, &mut buffer);
        match asked(&log) {
            Ok(()) => {
                assert_eq!(found, Ok(log.len()));
                assert_eq!(buffer, log);
                accepted += 1;
            }
            Err(no) => {
                assert!((6..=9).contains(&no.question), "bit {bit}: {no:?}");
                assert_eq!((found, no.index), (Err(no), 1));
                assert_eq!(buffer, noise(log.len()));
            }
        }
    }
    assert!(accepted > 30);
}

/// The buffer is at least as long as the log, also where less is kept.
#[test]
fn length_of_the_buffer() {
    let twice = log(&[G[0], G[1], G[0]]);
    for room in 0..twice.len() {
        let mut buffer = noise(room);
        let found = pacer::without_twins(&twice, &mut buffer);
        assert_eq!(found, Err(refusal(1, 0)));
        assert_eq!(buffer, noise(room));
    }
    for room in twice.len()..twice.len() + 20 {
        let mut buffer = noise(room);
        let length = 2 * RECORD_BYTES;
        assert_eq!(pacer::without_twins(&twice, &mut buffer), Ok(length));
        assert_eq!(buffer[..length], twice[..length]);
        assert_eq!(buffer[length..], noise(room)[length..]);
    }
    // Ahead of the log's own questions.
    let mut none = [];
    assert_eq!(
        pacer::without_twins(&[0; 10], &mut none),
        Err(refusal(1, 0))
    );
    assert_eq!(pacer::without_twins(&[], &mut none), Ok(0));
}
