//! Any order of the log: the same records in another order have the same segments, and every query
//! the same slot bytes and as many cuts weighed, or the same refusal.

mod cases;

use cases::{bytes, every_order, frames, lines, listed, no};
use pacer::{Kind, Query, Reduction, Refusal, Rule, Scene, Segment};
use pacer::{RECORDS, RECORD_BYTES, SEGMENT_PLACES, SLOT_BYTES};

/// What is asked of a log.
#[derive(Debug, PartialEq)]
enum Call {
    Rows(u16),
    Share(u16),
    Every(u16, u16),
    Scenes(Vec<Scene>),
    Segments,
}

/// What the library gives: the segments, or the answer of a query and the 768 bytes of its slot.
#[derive(Debug, PartialEq)]
enum Given {
    Segments(Vec<Segment>),
    Slot(Reduction, Vec<u8>),
}

impl Call {
    /// Asks the library, with every byte and place lent to it as `fill` says. Those behind what it
    /// writes keep their content, and in a refusal all do.
    fn ask(&self, kind: Kind, log: &[u8], fill: u8) -> Result<Given, Refusal> {
        let scenes;
        let bound = match self {
            Call::Rows(limit) => Rule::Rows(*limit),
            Call::Share(share) => Rule::Share(*share),
            Call::Every(length, start) => Rule::Every {
                length: *length,
                start: *start,
            },
            Call::Scenes(list) => {
                scenes = list.clone();
                Rule::Scenes(&scenes)
            }
            Call::Segments => return segments(kind, log, fill),
        };
        let mut slot = [fill; SLOT_BYTES + 3];
        let found = pacer::query(Query::new(kind, bound), log, &mut slot);
        let kept = if found.is_ok() { SLOT_BYTES } else { 0 };
        assert!(slot[kept..].iter().all(|byte| *byte == fill));
        found.map(|found| Given::Slot(found, slot[..SLOT_BYTES].to_vec()))
    }
}

fn segments(kind: Kind, log: &[u8], fill: u8) -> Result<Given, Refusal> {
    let blank = Segment {
        group: fill,
        first: 9,
        last: 8,
        value: 7,
    };
    let mut list = [blank; SEGMENT_PLACES + 2];
    let found = pacer::segments(log, kind, &mut list).map(<[Segment]>::to_vec);
    let kept = found.as_ref().map_or(0, Vec::len);
    assert!(list[kept..].iter().all(|place| *place == blank));
    found.map(Given::Segments)
}

/// One line of a file of cases: the call, its kind, the log and the answer.
struct Case {
    call: Call,
    kind: Kind,
    log: Vec<u8>,
    answer: Result<Given, Refusal>,
}

fn case(line: &str) -> Case {
    let (asked, answer) = line.split_once(": ").unwrap();
    let words: Vec<&str> = asked.split(' ').collect();
    let number = |word: &str| word.parse().unwrap();
    let (call, log) = match words[..] {
        ["rows", _, limit, log] => (Call::Rows(number(limit)), log),
        ["share", _, share, log] => (Call::Share(number(share)), log),
        ["beats", _, length, start, log] => (Call::Every(number(length), number(start)), log),
        ["scenes", _, firsts, lasts, log] => {
            let (firsts, lasts) = (frames(firsts), frames(lasts));
            assert_eq!(firsts.len(), lasts.len());
            let scenes = firsts.into_iter().zip(lasts);
            let scenes = scenes.map(|(first, last)| Scene::new(first, last));
            (Call::Scenes(scenes.collect()), log)
        }
        ["segments", _, log] => (Call::Segments, log),
        _ => panic!("{line}"),
    };
    let answer = match answer.split_once(' ') {
        Some(("no", _)) => Err(no(answer).unwrap()),
        _ if call == Call::Segments => Ok(Given::Segments(listed(answer))),
        Some((weighed, slot)) => Ok(slot_of(weighed.parse().unwrap(), slot)),
        None => Ok(slot_of(0, answer)),
    };
    Case {
        call,
        kind: Kind(words[1].parse().unwrap()),
        log: bytes(log),
        answer,
    }
}

/// The answer of a query from the bytes of its slot up to the zeros.
fn slot_of(weighed: u64, word: &str) -> Given {
    let mut slot = bytes(word);
    slot.resize(SLOT_BYTES, 0);
    let reduction = Reduction {
        rows: usize::from(slot[3]),
        error: u64::from_le_bytes(slot[4..12].try_into().unwrap()),
        weighed,
    };
    Given::Slot(reduction, slot)
}

fn sorted(log: &[u8]) -> Vec<&[u8]> {
    let mut records: Vec<&[u8]> = log.chunks(RECORD_BYTES).collect();
    records.sort_unstable();
    records
}

/// The calls that `tools/expected.py` worked out in two orders of their records each: the answer and
/// every byte or segment, by the file, and the same for both orders by the library.
#[test]
fn as_worked_out() {
    let one = lines(include_str!("order.cases"));
    let two = lines(include_str!("order-shuffled.cases"));
    assert_eq!(one.len(), two.len());
    let (mut longest, mut accepted) = (0, 0);
    let mut refused = [0; 22];
    for (line, shuffled) in one.into_iter().zip(two) {
        let (as_is, other) = (case(line), case(shuffled));
        assert_eq!((&as_is.call, as_is.kind), (&other.call, other.kind));
        assert_ne!(as_is.log, other.log, "{line}");
        assert_eq!(sorted(&as_is.log), sorted(&other.log), "{line}");

        let given = as_is.call.ask(as_is.kind, &as_is.log, 0xA5);
        let again = other.call.ask(other.kind, &other.log, 0x3C);
        assert_eq!(given, as_is.answer, "{line}");
        assert_eq!(again, other.answer, "{shuffled}");
        assert_eq!(given, again, "{line}\n{shuffled}");

        longest += usize::from(as_is.log.len() == RECORDS * RECORD_BYTES);
        match given {
            Ok(_) => accepted += 1,
            Err(refusal) => {
                assert_eq!(refusal.index, 0, "{line}");
                refused[usize::from(refusal.question)] += 1;
            }
        }
    }
    assert!(longest > 10 && accepted > 200);
    assert!(refused[10] > 5 && refused[20] > 3);
    assert_eq!(refused[10] + refused[20], refused.iter().sum::<usize>());
}

/// Log G in all of the 120 orders of its five records.
#[test]
fn every_order_of_log_g() {
    let g = &include_bytes!("../../../samples/log-g.query")[4..];
    let mut calls = vec![Call::Segments, Call::Scenes(vec![Scene::new(0, 5)])];
    calls.extend([0, 1, 2, 3, 4, 5, 6, 64].map(Call::Rows));
    calls.extend([0, 1, 281, 282, 500, 999, 1000].map(Call::Share));
    calls.extend(
        [(1, 0), (4, 0), (3, 2), (65_535, 6)].map(|(length, start)| Call::Every(length, start)),
    );
    let mut orders = 0;
    for call in &calls {
        for kind in (0..=4).map(Kind) {
            let expected = call.ask(kind, g, 0xA5);
            every_order(g, &mut |log| {
                assert_eq!(
                    call.ask(kind, log, 0x3C),
                    expected,
                    "{call:?} {kind:?} {log:?}"
                );
                orders += 1;
            });
        }
    }
    assert_eq!(orders, 120 * 5 * calls.len());
}

/// A log that fails its own questions fails in every order, at the first record that does so in
/// that order.
#[test]
fn refused_in_every_order() {
    let good = bytes("4c4400000003006400");
    let bad = bytes("4c4408000003006400");
    let asked = |records: [&Vec<u8>; 3]| {
        let log: Vec<u8> = records.into_iter().flatten().copied().collect();
        Call::Rows(4).ask(Kind::SUM, &log, 0)
    };
    let refusal = |question, index| Err(Refusal { question, index });
    assert_eq!(asked([&good, &bad, &good]), refusal(7, 1));
    assert_eq!(asked([&bad, &good, &good]), refusal(7, 0));
    assert_eq!(asked([&good, &good, &bad]), refusal(21, 1));
}
