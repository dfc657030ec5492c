//! Many lookups as a set: all pairs are answered, each as the single lookup would, or both lists stay as
//! they were.

mod cases;

use cases::{bytes, frames, lines, no};
use pacer::{c, Kind, Query, Refusal, Rule, PAIRS, SLOT_BYTES};

const G: &[u8] = include_bytes!("../../../samples/log-g.query");

/// A slot of log G, whose records stand behind the four bytes of the sample's query.
fn slot_g(rule: Rule) -> [u8; SLOT_BYTES] {
    let mut slot = [0; SLOT_BYTES];
    pacer::query(Query::new(Kind::SUM, rule), &G[4..], &mut slot).unwrap();
    slot
}

/// What is in the lists before a call: no value of a slot, and neither 1 nor 0.
fn values_before(places: usize) -> Vec<u32> {
    (0..places as u32).map(|place| u32::MAX - place).collect()
}

fn flags_before(places: usize) -> Vec<u8> {
    (0..places).map(|place| 2 + (place % 254) as u8).collect()
}

fn refused<T>(question: u8, index: usize) -> Result<T, Refusal> {
    Err(Refusal { question, index })
}

/// Both lists after a call, whole; a refusal leaves them as they were.
fn lists(
    slot: &[u8],
    groups: &[u8],
    frames: &[u16],
    (value_places, flag_places): (usize, usize),
) -> Result<(Vec<u32>, Vec<u8>), Refusal> {
    let (before, flags) = (values_before(value_places), flags_before(flag_places));
    let (mut values, mut covered) = (before.clone(), flags.clone());
    let answer = c::lookups(slot, groups, frames, &mut values, &mut covered);
    let given = if answer.question == 0 {
        assert_eq!(answer.index, 0);
        let count = groups.len();
        assert_eq!(values[count..], before[count..]);
        assert_eq!(covered[count..], flags[count..]);
        Ok((values, covered))
    } else {
        assert_eq!((&values, &covered), (&before, &flags));
        Err(Refusal {
            question: answer.question,
            index: answer.index,
        })
    };
    if frames.len() >= groups.len() {
        let places = value_places.min(flag_places);
        safe(slot, groups, frames, places, &given);
    }
    if places_enough(groups, frames, value_places.min(flag_places)) {
        one_by_one(slot, groups, frames, &given);
    }
    given
}

fn places_enough(groups: &[u8], frames: &[u16], places: usize) -> bool {
    frames.len().min(places) >= groups.len()
}

/// The safe functions, and the methods of a slot that reads, give the same: the one with a list of so
/// many places that is lent, and the others if it is long enough.
fn safe(
    slot: &[u8],
    groups: &[u8],
    frames: &[u16],
    places: usize,
    given: &Result<(Vec<u32>, Vec<u8>), Refusal>,
) {
    let pairs: Vec<(u8, u16)> = groups.iter().copied().zip(frames.iter().copied()).collect();
    let before: Vec<Option<u32>> = values_before(places).into_iter().map(Some).collect();
    let mut expected = before.clone();
    if let Ok((values, covered)) = given {
        for (place, answer) in expected[..pairs.len()].iter_mut().enumerate() {
            *answer = (covered[place] == 1).then_some(values[place]);
        }
    }
    let outcome = given.as_ref().map(|_| ()).map_err(|refusal| *refusal);
    let mut answers = before.clone();
    let found = pacer::lookups_into(slot, &pairs, &mut answers);
    assert_eq!((found, &answers), (outcome, &expected));
    if let Ok(profile) = pacer::read(slot) {
        let mut answers = before;
        let found = profile.lookups_into(&pairs, &mut answers);
        assert_eq!((found, &answers), (outcome, &expected));
    }
    if places >= pairs.len() {
        let due = outcome.map(|()| expected[..pairs.len()].to_vec());
        assert_eq!(pacer::lookups(slot, &pairs), due);
        if let Ok(profile) = pacer::read(slot) {
            assert_eq!(profile.lookups(&pairs), due);
        }
    }
}

/// Holds a call to the single lookup, pair by pair: what is accepted is what each of them gives; a
/// refused slot is refused by each of them alike; and the first bad group is the first that is refused.
fn one_by_one(
    slot: &[u8],
    groups: &[u8],
    frames: &[u16],
    given: &Result<(Vec<u32>, Vec<u8>), Refusal>,
) {
    let single = |pair: usize| c::lookup(slot, groups[pair], frames[pair]);
    match given {
        Ok((values, covered)) => {
            assert!(groups.len() <= PAIRS);
            assert_eq!(c::read(slot).question, 0);
            for pair in 0..groups.len() {
                let answer = c::LookupAnswer {
                    question: 0,
                    index: 0,
                    covered: covered[pair],
                    value: values[pair],
                };
                assert_eq!(single(pair), answer, "pair {pair}");
            }
        }
        Err(Refusal { question: 7, index }) => {
            assert!((0..*index).all(|pair| single(pair).question == 0));
            assert_eq!((single(*index).question, single(*index).index), (7, 0));
        }
        Err(Refusal { question: 26, .. }) => {
            assert!(groups.len() > PAIRS);
            assert_eq!(c::read(slot).question, 0);
        }
        Err(refusal) => {
            let read = c::read(slot);
            assert_eq!(
                (read.question, read.index),
                (refusal.question, refusal.index)
            );
            for pair in 0..groups.len() {
                assert_eq!(single(pair).question, refusal.question);
                assert_eq!(single(pair).index, refusal.index);
            }
        }
    }
}

/// Numbers in the file of cases.
fn numbers(word: &str) -> Vec<u32> {
    if word == "-" {
        return Vec::new();
    }
    word.split(',')
        .map(|number| number.parse().unwrap())
        .collect()
}

/// The calls that `tools/expected.py` worked out, of each the answer and every place of both lists.
#[test]
fn as_worked_out() {
    let mut counted = [0; 27];
    let mut sizes = [0; PAIRS + 1];
    let mut bad = [0; PAIRS];
    for line in lines(include_str!("lookups.cases")) {
        let (asked, answer) = line.split_once(": ").unwrap();
        let words: Vec<&str> = asked.split(' ').collect();
        let [length, slot, groups, asked_frames, values, covered] = words[..] else {
            panic!("{line}");
        };
        let mut slot = bytes(slot);
        slot.resize(length.parse().unwrap(), 0);
        let (groups, asked_frames) = (bytes(groups), frames(asked_frames));
        let places = (values.parse().unwrap(), covered.parse().unwrap());
        let expected = match no(answer) {
            Some(refusal) => Err(refusal),
            None => {
                let (values, flags) = answer.split_once(' ').unwrap();
                Ok((numbers(values), bytes(flags)))
            }
        };
        assert_eq!(
            lists(&slot, &groups, &asked_frames, places),
            expected,
            "{line}"
        );
        match expected {
            Ok(_) => {
                counted[0] += 1;
                sizes[groups.len()] += 1;
            }
            Err(refusal) => {
                counted[usize::from(refusal.question)] += 1;
                if refusal.question == 7 {
                    bad[refusal.index] += 1;
                }
            }
        }
    }
    for (question, count) in counted.iter().enumerate() {
        let owed = matches!(question, 0 | 1 | 7 | 11..=17 | 26);
        assert_eq!(*count > 0, owed, "question {question}");
    }
    assert!(sizes.iter().all(|count| *count > 0));
    assert!(bad.iter().all(|count| *count > 1));
    assert!(counted[0] > 350 && counted[1] > 150 && counted[7] > 200 && counted[26] > 10);
}

/// Eight groups for each frame of log G's slots and the frames behind it, in a list of ten places.
#[test]
fn eight_groups() {
    let rules = [1, 3, 4, 7]
        .map(|length| Rule::Every { length, start: 0 })
        .into_iter()
        .chain([3, 4, 5, 6].map(Rule::Rows));
    for rule in rules {
        let slot = slot_g(rule);
        let profile = pacer::read(&slot).unwrap();
        for frame in (0..20).chain([255, 256, 65_534, 65_535]) {
            let groups = [0, 1, 2, 3, 4, 5, 6, 7];
            let (values, covered) = lists(&slot, &groups, &[frame; 8], (10, 9)).unwrap();
            for group in groups {
                let row = profile
                    .rows()
                    .iter()
                    .find(|row| row.group == group && (row.first..=row.last).contains(&frame));
                let place = usize::from(group);
                assert_eq!(values[place], row.map_or(0, |row| row.value));
                assert_eq!(covered[place], u8::from(row.is_some()));
            }
        }
    }
}

/// Each of the 768 bytes damaged alone, with eight pairs, none and 65: refused as the reader refuses it,
/// ahead of too many pairs and of a bad group; and where the slot still reads, as it now is.
#[test]
fn damaged_slots() {
    let slot = slot_g(Rule::Rows(4));
    let mut counted = [0; 27];
    for place in 0..SLOT_BYTES {
        for bit in 0..8 {
            let mut other = slot;
            other[place] ^= 1 << bit;
            let read = c::read(&other);
            let at_slot = |otherwise| match read.question {
                0 => otherwise,
                question => refused(question, read.index),
            };
            counted[usize::from(read.question)] += 1;
            let found = |groups: &[u8]| {
                let places = (groups.len(), groups.len() + 1);
                lists(&other, groups, &[2; 66], places).map(|_| ())
            };
            assert_eq!(found(&[]), at_slot(Ok(())));
            assert_eq!(found(&[0, 1, 2, 3, 4, 5, 6, 7]), at_slot(Ok(())));
            assert_eq!(found(&[0, 1, 2, 9, 8]), at_slot(refused(7, 3)));
            assert_eq!(found(&[8; 65]), at_slot(refused(26, 0)));
        }
    }
    assert!([11, 12, 13, 14, 15, 16, 17]
        .iter()
        .all(|question| counted[*question] > 0));
}

/// More than 64 pairs through the safe functions, which hand on one too many of them: what the C function
/// says of as many.
#[test]
fn too_many() {
    let slot = slot_g(Rule::Rows(4));
    let short = &slot[..SLOT_BYTES - 1];
    let mut tail = slot;
    tail[SLOT_BYTES - 1] = 1;
    for count in [65, 66, 67, 100, 1000, 70_000] {
        let groups = vec![8; count];
        let pairs = vec![(8, 0); count];
        for places in [0, 63, 64, 65, 66, count - 1, count, count + 1] {
            for (slot, question) in [(&slot[..], 26), (&tail, 17), (short, 1)] {
                let due = if places < count { 1 } else { question };
                let mut answers = vec![Some(7); places];
                assert_eq!(
                    pacer::lookups_into(slot, &pairs, &mut answers),
                    refused(due, 0)
                );
                assert!(answers.iter().all(|answer| *answer == Some(7)));
                let found = lists(slot, &groups, &vec![0; count], (places, places));
                assert_eq!(found.map(|_| ()), refused(due, 0));
            }
        }
        assert_eq!(pacer::lookups(&slot, &pairs), refused(26, 0));
        assert_eq!(pacer::lookups(&tail, &pairs), refused(17, 0));
    }
}

/// The slot, the groups and the frames are only read, and may lie in one buffer.
#[test]
fn overlapping() {
    let slot = slot_g(Rule::Rows(4));
    // Bytes 2 to 11 of the header are groups as well: kind 0, four rows and the error 11,280.
    let (values, covered) = lists(&slot, &slot[2..4], &[6, 6], (2, 2)).unwrap();
    assert_eq!((values, covered), (vec![242, 0], vec![1, 0]));
    let found = lists(&slot, &slot[2..12], &[6; 10], (10, 10));
    assert_eq!(found, refused(7, 2));
}

/// The words of the question, and the number of pairs.
#[test]
fn words() {
    let said = |question, index| Refusal { question, index }.to_string();
    assert_eq!(
        said(26, 0),
        "question 26 got 'no': Are there at most 64 pairs?"
    );
    assert_eq!(
        said(7, 4),
        "question 7 at index 4 got 'no': Is the group 0 to 7?"
    );
    assert_eq!(said(27, 0), "question 27 got 'no': unknown question");
    assert_eq!(PAIRS, 64);
}
