//! Log G and the paper's other small cases, through the safe functions.

use pacer::c;
use pacer::{Bound, Kind, Query, Record, Refusal, Row, Rule, Scene, Segment, Walker};
use pacer::{RECORDS, RECORD_BYTES, ROWS, SEGMENT_PLACES, SLOT_BYTES};

fn record(group: u8, first: u16, last: u16, load: u16) -> Record {
    Record {
        group,
        first,
        last,
        load,
    }
}

fn log_g() -> Vec<u8> {
    pacer::log(&[
        record(0, 0, 3, 100),
        record(0, 2, 5, 200),
        record(0, 6, 6, 210),
        record(0, 9, 10, 50),
        record(1, 0, 0, 7),
    ])
    .unwrap()
}

fn sum(bound: Bound) -> Query {
    Query::new(Kind::SUM, bound)
}

/// A row: group, first, last, value.
type Fields = (u8, u16, u16, u32);

/// The rows and the error that a bound gives, read back from the slot.
fn reduce(bound: Bound, log: &[u8]) -> Result<(Vec<Fields>, u64), Refusal> {
    let mut slot = [0xAA; SLOT_BYTES + 3];
    let answer = pacer::query(sum(bound), log, &mut slot)?;
    assert_eq!(slot[SLOT_BYTES..], [0xAA; 3]);
    let profile = pacer::read(&slot)?;
    assert_eq!(profile.len(), answer.rows);
    assert_eq!(profile.error(), answer.error);
    assert_eq!(profile.kind(), Kind::SUM);
    let rows = profile
        .rows()
        .iter()
        .map(|r| (r.group, r.first, r.last, r.value))
        .collect();
    Ok((rows, answer.error))
}

fn error(bound: Bound, log: &[u8]) -> Result<(usize, u64), Refusal> {
    reduce(bound, log).map(|(rows, error)| (rows.len(), error))
}

#[test]
fn segments_of_g() {
    let untouched = Segment {
        group: 1,
        first: 2,
        last: 3,
        value: 4,
    };
    let mut list = [untouched; SEGMENT_PLACES + 1];
    let log = log_g();
    let found: Vec<_> = pacer::segments(&log, Kind::SUM, &mut list)
        .unwrap()
        .iter()
        .map(|s| (s.group, s.first, s.last, s.value))
        .collect();
    assert_eq!(
        found,
        [
            (0, 0, 1, 100),
            (0, 2, 3, 300),
            (0, 4, 5, 200),
            (0, 6, 6, 210),
            (0, 9, 10, 50),
            (1, 0, 0, 7),
        ]
    );
    assert!(list[6..].iter().all(|place| *place == untouched));
}

#[test]
fn limits_and_shares_of_g() {
    let log = log_g();
    let too_few = Refusal {
        question: 10,
        index: 0,
    };
    assert_eq!(error(Bound::Rows(2), &log), Err(too_few));
    assert_eq!(error(Bound::Rows(3), &log), Ok((3, 40_087)));
    assert_eq!(error(Bound::Rows(4), &log), Ok((4, 11_280)));
    assert_eq!(error(Bound::Rows(5), &log), Ok((5, 67)));
    assert_eq!(error(Bound::Rows(6), &log), Ok((6, 0)));
    assert_eq!(error(Bound::Rows(64), &log), Ok((6, 0)));
    assert_eq!(error(Bound::Share(281), &log), Ok((5, 67)));
    assert_eq!(error(Bound::Share(282), &log), Ok((4, 11_280)));
}

#[test]
fn small_cases() {
    let frames = |loads: &[u16]| {
        let records: Vec<Record> = (0u16..)
            .zip(loads)
            .map(|(frame, load)| record(0, frame, frame, *load))
            .collect();
        pacer::log(&records).unwrap()
    };
    assert_eq!(
        reduce(Bound::Rows(2), &frames(&[0, 1, 0])),
        Ok((vec![(0, 0, 2, 0)], 1))
    );
    assert_eq!(
        reduce(Bound::Rows(2), &frames(&[0, 4, 8])),
        Ok((vec![(0, 0, 1, 2), (0, 2, 2, 8)], 8))
    );
    assert_eq!(reduce(Bound::Rows(0), &[]), Ok((vec![], 0)));
    let joined = pacer::log(&[record(0, 0, 3, 10), record(0, 4, 7, 10)]).unwrap();
    assert_eq!(
        reduce(Bound::Rows(64), &joined),
        Ok((vec![(0, 0, 7, 10)], 0))
    );
}

/// The rows of G for c = 4.
const ROWS_OF_G: [Row; 4] = [
    row(0, 0, 1, 100),
    row(0, 2, 6, 242),
    row(0, 9, 10, 50),
    row(1, 0, 0, 7),
];

const fn row(group: u8, first: u16, last: u16, value: u32) -> Row {
    Row {
        group,
        first,
        last,
        value,
    }
}

#[test]
fn walks_and_lists_of_rows() {
    let mut slot = [0; SLOT_BYTES];
    pacer::query(sum(Bound::Rows(4)), &log_g(), &mut slot).unwrap();
    assert_eq!(pacer::read(&slot).unwrap().rows(), ROWS_OF_G);

    // The walker hands out row after row, then the end again and again.
    let mut walker = Walker::new(&slot);
    for (number, row) in ROWS_OF_G.iter().enumerate() {
        assert_eq!(walker.number(), number);
        assert_eq!(walker.step(), Ok(Some(*row)));
    }
    for _ in 0..2 {
        assert_eq!(walker.step(), Ok(None));
        assert_eq!(walker.number(), 4);
    }

    // Places behind the rows keep their content, and in a refusal all do.
    let untouched = row(9, 8, 7, 6);
    let mut list = [untouched; ROWS + 1];
    let answer = c::read_rows(&slot, &mut list);
    assert_eq!((answer.question, answer.rows, answer.error), (0, 4, 11_280));
    assert_eq!(list[..4], ROWS_OF_G);
    assert_eq!(list[4..], [untouched; ROWS - 3]);

    let mut list = [untouched; ROWS];
    assert_eq!(c::read_rows(&slot, &mut list[..ROWS - 1]).question, 1);
    slot[767] = 1;
    assert_eq!(c::read_rows(&slot, &mut list).question, 17);
    assert_eq!(c::read_rows(&slot[..767], &mut list).question, 1);
    assert_eq!(list, [untouched; ROWS]);
    assert_eq!(Walker::new(&slot).step().unwrap_err().question, 17);
}

/// Kind 4 by way of query, reader and lookup.
#[test]
fn means_of_g() {
    let mut slot = [0; SLOT_BYTES];
    let query = Query::new(Kind::MEAN, Bound::Rows(4));
    let answer = pacer::query(query, &log_g(), &mut slot).unwrap();
    assert_eq!((answer.error, answer.weighed), (25_666_667, 16));
    let profile = pacer::read(&slot).unwrap();
    assert_eq!(profile.kind(), Kind::MEAN);
    assert_eq!(
        profile.rows(),
        [
            row(0, 0, 3, 12_500),
            row(0, 4, 6, 20_333),
            row(0, 9, 10, 5_000),
            row(1, 0, 0, 700),
        ]
    );
    assert_eq!(profile.lookup(0, 5), Ok(Some(20_333)));

    // The next kind is none.
    let unknown = Query {
        kind: Kind(5),
        ..query
    };
    let before = slot;
    let refusal = pacer::query(unknown, &log_g(), &mut slot).unwrap_err();
    assert_eq!((refusal.question, refusal.index), (2, 0));
    assert_eq!(slot, before);
}

/// Kind 3: rows hold the greatest value in them, and a share is taken of their own least error.
#[test]
fn greatest_of_g() {
    let log = log_g();
    let five = [
        row(0, 0, 1, 100),
        row(0, 2, 5, 200),
        row(0, 6, 6, 210),
        row(0, 9, 10, 50),
        row(1, 0, 0, 7),
    ];
    let four = [five[0], row(0, 2, 6, 210), five[3], five[4]];
    let three = [row(0, 0, 6, 210), five[3], five[4]];
    let cases: [(Bound, &[Row], u64); 7] = [
        (Bound::Rows(3), &three, 24_600),
        (Bound::Share(1000), &three, 24_600),
        (Bound::Rows(4), &four, 400),
        (Bound::Share(17), &four, 400),
        (Bound::Share(26), &four, 400),
        (Bound::Share(16), &five, 0),
        (Bound::Rows(64), &five, 0),
    ];
    for (bound, rows, error) in cases {
        let mut slot = [0; SLOT_BYTES];
        let query = Query::new(Kind::GREATEST, bound);
        assert_eq!(pacer::query(query, &log, &mut slot).unwrap().error, error);
        let profile = pacer::read(&slot).unwrap();
        assert_eq!((profile.kind(), profile.error()), (Kind::GREATEST, error));
        assert_eq!(profile.rows(), rows, "{bound:?}");
    }
}

/// Halves go up in every row, by every kind but 3: the values 0 and 1, 500 and 501, 900 and 907 in
/// three rows, and 118,872 once with 119,872 1,999 times.
#[test]
fn halves() {
    let frames: Vec<Record> = (0u16..)
        .zip([0, 1, 500, 501, 900, 907])
        .map(|(frame, load)| Record {
            group: 0,
            first: frame,
            last: frame,
            load,
        })
        .collect();
    let log = pacer::log(&frames).unwrap();
    let up = [row(0, 0, 1, 1), row(0, 2, 3, 501), row(0, 4, 5, 904)];
    let greatest = [row(0, 0, 1, 1), row(0, 2, 3, 501), row(0, 4, 5, 907)];
    for (kind, rows, error) in [
        (Kind::SUM, up, 27),
        (Kind::LEAST, up, 27),
        (Kind::GREATEST, greatest, 51),
    ] {
        let mut slot = [0; SLOT_BYTES];
        let bound = Bound::Rows(3);
        let answer = pacer::query(Query::new(kind, bound), &log, &mut slot).unwrap();
        assert_eq!(answer.error, error);
        assert_eq!(pacer::read(&slot).unwrap().rows(), rows, "{kind:?}");
    }

    // Loads from 1,000 down; the first record alone begins a frame later.
    let mut records: Vec<Record> = (0..128).map(|i| record(3, 0, 1999, 1000 - i)).collect();
    records[0].first = 1;
    let log = pacer::log(&records).unwrap();
    for (kind, value, error) in [(Kind::SUM, 119_872, 1_000_000), (Kind::COUNT, 128, 1)] {
        let mut slot = [0; SLOT_BYTES];
        let bound = Bound::Rows(1);
        let answer = pacer::query(Query::new(kind, bound), &log, &mut slot).unwrap();
        assert_eq!(
            (answer.error, pacer::lookup(&slot, 3, 7)),
            (error, Ok(Some(value)))
        );
    }
}

/// Slots that were written before: of kind 3, before its rows held the greatest value, the three
/// rows of G with the nearest mean, 173, in the first; and a row with the lower number at a half.
/// They are read, walked and looked up as ever.
#[test]
fn slots_of_before() {
    let nearest = [row(0, 0, 6, 173), row(0, 9, 10, 50), row(1, 0, 0, 7)];
    slot_of_before(Kind::GREATEST, 14_943, &nearest);
    slot_of_before(Kind::SUM, 1, &[row(0, 0, 1, 0)]);
}

fn slot_of_before(kind: Kind, error: u64, rows: &[Row]) {
    let mut slot = [0; SLOT_BYTES];
    slot[..4].copy_from_slice(&[0x50, 0x48, kind.0, rows.len() as u8]);
    slot[4..12].copy_from_slice(&error.to_le_bytes());
    for (place, row) in slot[12..].chunks_exact_mut(11).zip(rows) {
        place[..3].copy_from_slice(&[0x50, 0x52, row.group]);
        place[3..5].copy_from_slice(&row.first.to_le_bytes());
        place[5..7].copy_from_slice(&row.last.to_le_bytes());
        place[7..].copy_from_slice(&row.value.to_le_bytes());
    }
    let profile = pacer::read(&slot).unwrap();
    assert_eq!((profile.kind(), profile.error()), (kind, error));
    assert_eq!(profile.rows(), rows);
    let first = rows[0];
    assert_eq!(
        pacer::lookup(&slot, first.group, first.last),
        Ok(Some(first.value))
    );
    let mut walker = Walker::new(&slot);
    for row in rows {
        assert_eq!(walker.step(), Ok(Some(*row)));
    }
    assert_eq!(walker.step(), Ok(None));
}

#[test]
fn rows_and_refusals() {
    let log = log_g();
    let mut slot = [0; SLOT_BYTES];
    pacer::query(sum(Bound::Rows(4)), &log, &mut slot).unwrap();
    let profile = pacer::read(&slot).unwrap();
    assert_eq!(profile.rows().len(), 4);
    assert_eq!(profile.rows()[1], ROWS_OF_G[1]);
    assert_eq!((&profile).into_iter().count(), 4);
    assert_eq!(profile.lookup(0, 8), Ok(None));
    assert_eq!(profile.lookup(1, 0), Ok(Some(7)));

    let short = pacer::query(sum(Bound::Rows(4)), &log, &mut slot[..767]);
    assert_eq!(short.unwrap_err().question, 1);
    let damaged = pacer::query(sum(Bound::Rows(4)), &log[..44], &mut slot);
    assert_eq!(
        damaged.unwrap_err().to_string(),
        "question 4 got 'no': Is the log's length a multiple of 9?"
    );
    slot[34] = 0;
    let refusal = pacer::read(&slot).unwrap_err();
    assert_eq!(
        refusal.to_string(),
        "question 14 at index 2 got 'no': Row mark right?"
    );
}

/// 128 records of the greatest load, each within the one before, give the greatest number of
/// segments and the greatest value of all.
#[test]
fn most_segments_and_loads() {
    let records: Vec<Record> = (0..128).map(|i| record(7, i, 1000 - i, 1000)).collect();
    let log = pacer::log(&records).unwrap();
    let mut list = [Segment::default(); SEGMENT_PLACES];
    let found = pacer::segments(&log, Kind::SUM, &mut list).unwrap();
    assert_eq!(found.len(), SEGMENT_PLACES);
    assert_eq!((found[127].first, found[127].value), (127, 128_000));
    let scenes = [Scene::new(0, 1000)];
    let query = Query::new(Kind::SUM, Rule::Scenes(&scenes));
    let mut slot = [0; SLOT_BYTES];
    pacer::query(query, &log, &mut slot).unwrap();
    assert_eq!(pacer::lookup(&slot, 7, 0), Ok(Some(128_000)));
}

/// What every call that asks a log all its questions says of it: they agree, and a refusal changes
/// nothing.
fn asked(log: &[u8]) -> Result<(), Refusal> {
    let untouched = Segment {
        group: 9,
        ..Segment::default()
    };
    let mut list = [untouched; SEGMENT_PLACES];
    let outcome = pacer::segments(log, Kind::SUM, &mut list).map(|_| ());
    if outcome.is_err() {
        assert_eq!(list, [untouched; SEGMENT_PLACES]);
    }
    let scenes = [Scene::new(0, 65_535)];
    let every = Rule::Every {
        length: 65_535,
        start: 0,
    };
    for bound in [
        Bound::Rows(64),
        Bound::Share(1000),
        every,
        Rule::Scenes(&scenes),
    ] {
        let mut slot = [0xAA; SLOT_BYTES];
        let answer = pacer::query(sum(bound), log, &mut slot).map(|_| ());
        assert_eq!(answer, outcome, "{bound:?}");
        if outcome.is_err() {
            assert_eq!(slot, [0xAA; SLOT_BYTES]);
        }
    }
    outcome
}

fn refused(question: u8, index: usize) -> Result<(), Refusal> {
    Err(Refusal { question, index })
}

/// Log G with its last record twice, as a restarted logger writes it.
fn restarted() -> Vec<u8> {
    let mut log = log_g();
    log.extend_from_within(log.len() - RECORD_BYTES..);
    log
}

/// Question 21: the later one of two equal records.
#[test]
fn twins() {
    assert_eq!(asked(&log_g()), Ok(()));
    let log = restarted();
    assert_eq!(asked(&log), refused(21, 5));
    let mut slot = [0; SLOT_BYTES];
    assert_eq!(
        pacer::query(sum(Bound::Rows(4)), &log, &mut slot)
            .unwrap_err()
            .to_string(),
        "question 21 at index 5 got 'no': Does no earlier record have the same nine bytes?"
    );

    // A wrong record before the later twin comes first, one behind it does not.
    let mut damaged = log.clone();
    damaged.extend(&log[..9]);
    damaged[6 * 9 + 2] = 8;
    assert_eq!(asked(&damaged), refused(21, 5));
    damaged[9 + 8] = 4;
    assert_eq!(asked(&damaged), refused(9, 1));

    // Too few and too many rows are asked for after the twins.
    let few = pacer::query(sum(Bound::Rows(0)), &log, &mut slot).unwrap_err();
    assert_eq!((few.question, few.index), (21, 5));
    let wide = record(5, 0, 64, 9);
    let frames = Rule::Every {
        length: 1,
        start: 0,
    };
    for (records, expected) in [(1, (20, 0)), (2, (21, 1))] {
        let log = pacer::log(&vec![wide; records]).unwrap();
        let many = pacer::query(sum(frames), &log, &mut slot).unwrap_err();
        assert_eq!((many.question, many.index), expected);
    }
}

/// Each record in the place of each later one, among 128 of which no two are equal.
#[test]
fn every_pair_of_places() {
    let records: Vec<Record> = (0..128)
        .map(|i| record((i % 8) as u8, 300 + i / 8 % 2, 700 - i / 16 % 2, i / 32 % 4))
        .collect();
    let log = pacer::log(&records).unwrap();
    assert_eq!(asked(&log), Ok(()));
    let mut buffer = vec![0; log.len()];
    for later in 1..RECORDS {
        for earlier in 0..later {
            let mut twin = log.clone();
            twin.copy_within(9 * earlier..9 * earlier + 9, 9 * later);
            let mut list = [Segment::default(); SEGMENT_PLACES];
            let refusal = pacer::segments(&twin, Kind::COUNT, &mut list).unwrap_err();
            assert_eq!((refusal.question, refusal.index), (21, later));
            // All but the later one stay.
            assert_eq!(pacer::without_twins(&twin, &mut buffer), Ok(127 * 9));
            assert_eq!(buffer[..9 * later], log[..9 * later]);
            assert_eq!(buffer[9 * later..127 * 9], log[9 * later + 9..]);
        }
    }
}

/// 128 records, each within the one before, backwards and by steps: segments, slots and answers are
/// those of the log as it was.
#[test]
fn any_order() {
    let records: Vec<Record> = (0..128).map(|i| record(7, i, 1000 - i, 7 * i)).collect();
    let log = pacer::log(&records).unwrap();
    let scenes = [Scene::new(0, 63), Scene::new(64, 900)];
    let every = |length| Rule::Every { length, start: 5 };
    // Each with the question that refuses it.
    let rules = [
        (Bound::Rows(64), None),
        (Bound::Share(20), None),
        (Bound::Rows(0), Some(10)),
        (Rule::Scenes(&scenes), None),
        (every(100), None),
        (every(10), Some(20)),
    ];
    // An odd step comes by every record.
    for step in [127, 37, 65] {
        let shuffled: Vec<Record> = (0..128).map(|i| records[(i * step + 3) % 128]).collect();
        let other = pacer::log(&shuffled).unwrap();
        for kind in (0..=4).map(Kind) {
            let mut lists = [[Segment::default(); SEGMENT_PLACES]; 2];
            let [list, again] = &mut lists;
            let found = pacer::segments(&log, kind, list);
            assert_eq!(pacer::segments(&other, kind, again), found);
            for (bound, refused) in rules {
                let query = Query::new(kind, bound);
                let mut slot = [0x55; SLOT_BYTES];
                let mut again = [0xAA; SLOT_BYTES];
                let answer = pacer::query(query, &log, &mut slot);
                assert_eq!(pacer::query(query, &other, &mut again), answer);
                assert_eq!(answer.err().map(|refusal| refusal.question), refused);
                let expected = if refused.is_none() {
                    slot
                } else {
                    [0xAA; SLOT_BYTES]
                };
                assert_eq!(again, expected, "{query:?}");
            }
        }
    }
}

/// The call for logs on file: what it keeps, and where.
#[test]
fn logs_on_file() {
    let log = restarted();
    for length in [54, 55, 63, 100] {
        let mut buffer = vec![0xAA; length];
        assert_eq!(pacer::without_twins(&log, &mut buffer), Ok(45));
        assert_eq!(buffer[..45], log_g());
        assert!(buffer[45..].iter().all(|byte| *byte == 0xAA));
        // Once more changes nothing.
        let mut again = [0; 45];
        assert_eq!(pacer::without_twins(&buffer[..45], &mut again), Ok(45));
        assert_eq!(again, buffer[..45]);
        let mut slot = [0; SLOT_BYTES];
        pacer::query(sum(Bound::Rows(4)), &again, &mut slot).unwrap();
        assert_eq!(pacer::read(&slot).unwrap().rows(), ROWS_OF_G);
    }
    assert_eq!(pacer::without_twins(&[], &mut []), Ok(0));

    let mut buffer = [0xAA; 9 * RECORDS + 1];
    let equal = log[..9].repeat(RECORDS);
    assert_eq!(pacer::without_twins(&equal, &mut buffer), Ok(9));
    assert_eq!(buffer[..9], log[..9]);
    assert_eq!(buffer[9..], [0xAA; 9 * RECORDS - 8]);
}

/// The call for logs on file asks 1 and 4 to 9, and leaves the buffer as it was.
#[test]
fn refused_logs_on_file() {
    let log = restarted();
    let mut buffer = [0xAA; 9 * 129];
    let mut refused = |log: &[u8], length| {
        let refusal = pacer::without_twins(log, &mut buffer[..length]).unwrap_err();
        assert_eq!(buffer, [0xAA; 9 * 129]);
        (refusal.question, refusal.index)
    };
    // A buffer that what is kept would fit in is too short all the same.
    assert_eq!(refused(&log, 53), (1, 0));
    assert_eq!(refused(&log, 45), (1, 0));
    assert_eq!(refused(&log[..53], 52), (1, 0));
    assert_eq!(refused(&log[..53], 53), (4, 0));
    let many = log[..9].repeat(129);
    assert_eq!(refused(&many, 9 * 129 - 1), (1, 0));
    assert_eq!(refused(&many, 9 * 129), (5, 0));
    for (byte, content, question) in [(0, 0x4D, 6), (1, 0x48, 6), (2, 8, 7), (3, 1, 8), (8, 4, 9)] {
        for index in [4, 5] {
            let mut damaged = log.clone();
            damaged[9 * index + byte] = content;
            assert_eq!(refused(&damaged, 54), (question, index));
        }
    }
}
