//! Many lookups as a set: with any number of pairs and lists of any lengths the library says what the
//! independent implementation says, writes the same into both lists, and answers each pair as its own
//! single lookup does.

use crate::compare::{add_counts, named_counts, number, same, same_places, ByQuestion};
use crate::random::Random;
use pacer::{c, PAIRS};
use reference::{Lists, Stretch};

/// What was met.
#[derive(Clone, Copy)]
pub enum Met {
    /// Accepted: eight groups for one frame, no pair, 64, places behind the pairs, under the header of
    /// windows, and the same pair twice.
    EightGroups,
    NoPair,
    MostPairs,
    Later,
    ByWindows,
    Twice,
    /// Pairs of accepted calls: covered, with the value 0 among them, and uncovered.
    Covered,
    CoveredByZero,
    Uncovered,
    /// Pairs at a row's first and last frame, and one frame before it and behind it.
    First,
    Last,
    Before,
    Behind,
    /// Refused by 1 for one list alone: frames, values, flags.
    ShortFrames,
    ShortValues,
    ShortFlags,
    /// Refused by 1 for 64 places and 65 pairs, and for a list while the slot is wrong too.
    JustShort,
    ShortAhead,
    /// Refused for the slot: with no pair, with too many, and with a bad group.
    SlotNoPair,
    SlotTooMany,
    SlotBadGroup,
    /// Refused by 26: for 65 pairs, and with a bad group among the first 64.
    JustTooMany,
    TooManyAhead,
    /// Refused by 7 at the first pair, at the last one and between, and with another bad group behind.
    BadFirst,
    BadLast,
    BadBetween,
    BadTwice,
}

/// The names of what was met, in its order.
const NAMES: [&str; 27] = [
    "eight groups for one frame",
    "no pair",
    "64 pairs",
    "places behind the pairs",
    "by windows",
    "a pair twice",
    "pairs covered",
    "covered with value 0",
    "uncovered",
    "at a first frame",
    "at a last frame",
    "one before a row",
    "one behind it",
    "frames alone too short",
    "values alone too short",
    "flags alone too short",
    "64 places for 65 pairs",
    "a short list ahead of a wrong slot",
    "a wrong slot with no pair",
    "with too many",
    "with a bad group",
    "65 pairs",
    "too many ahead of a bad group",
    "a bad group first",
    "last",
    "between",
    "with another behind it",
];

/// What was met, and how often; and how often each question was the first 'no'.
#[derive(Clone, Copy, Default)]
pub struct LookedUp {
    met: [u64; NAMES.len()],
    questions: ByQuestion,
}

impl LookedUp {
    pub fn join(&mut self, other: &LookedUp) {
        add_counts([
            (&mut self.met, &other.met),
            (&mut self.questions, &other.questions),
        ]);
    }

    fn add(&mut self, what: Met, is_so: bool) {
        self.met[what as usize] += u64::from(is_so);
    }

    /// What was met fewer than so many times.
    pub fn missing(&self, owed: &[Met], least: u64) -> Vec<String> {
        owed.iter()
            .filter(|what| self.met[**what as usize] < least)
            .map(|what| format!("in many lookups {} {least} times", NAMES[*what as usize]))
            .collect()
    }

    /// The questions that were asked, how often each was the first 'no', and at place 0 how often there
    /// was none.
    pub fn questions(&self) -> &ByQuestion {
        &self.questions
    }

    /// Prints what was met beside the questions.
    pub fn print(&self) {
        println!("  in many lookups: {}", named_counts(&NAMES, &self.met));
    }
}

/// One call: groups and frames, and both lists before it.
struct Asked {
    groups: Vec<u8>,
    frames: Vec<u16>,
    before: Lists,
}

/// A frame near the ends of a row, or within it.
fn near(random: &mut Random, row: &Stretch) -> u16 {
    match random.range(0, 5) {
        0 => row.first,
        1 => row.last,
        2 => row.first.wrapping_sub(1),
        3 => row.last.wrapping_add(1),
        _ => random.range(u64::from(row.first), u64::from(row.last)) as u16,
    }
}

/// The length of a list for so many pairs: mostly as many or more, sometimes one less or none.
fn length(random: &mut Random, pairs: usize) -> usize {
    match random.range(0, 99) {
        0..=69 => pairs,
        70..=79 => pairs + 1,
        80..=91 => pairs + random.range(2, 9) as usize,
        92..=96 => pairs.saturating_sub(1),
        97 => pairs.min(PAIRS),
        _ => random.range(0, pairs as u64) as usize,
    }
}

/// Some pairs for a slot with these rows, and lists with any content.
fn asked(random: &mut Random, rows: &[Stretch]) -> Asked {
    let anywhere = random.next() as u16;
    let mut pairs: Vec<(u8, u16)> = if random.percent(30) {
        // Eight groups for one frame.
        let frame = match rows.len() {
            0 => anywhere,
            _ => {
                let row = random.pick(rows);
                near(random, &row)
            }
        };
        (0..8).map(|group| (group, frame)).collect()
    } else {
        let count = match random.range(0, 99) {
            0..=5 => 0,
            6..=15 => 64,
            16..=23 => 65,
            24..=29 => random.range(66, 70),
            30..=79 => random.range(1, 20),
            _ => random.range(0, 70),
        };
        let mut pairs = Vec::with_capacity(count as usize);
        for place in 0..count as usize {
            pairs.push(match random.range(0, 9) {
                0 => (random.range(0, 7) as u8, random.next() as u16),
                1 if place > 0 => random.pick(&pairs),
                _ if rows.is_empty() => (random.range(0, 7) as u8, anywhere),
                _ => {
                    let row = random.pick(rows);
                    (row.group, near(random, &row))
                }
            });
        }
        pairs
    };
    if !pairs.is_empty() && random.percent(25) {
        // A group that there is not, at any index, at the first or at the last; one in three times two.
        let last = pairs.len() - 1;
        for _ in 0..random.pick(&[1, 1, 2]) {
            let place = random.range(0, last as u64) as usize;
            let place = random.pick(&[0, place, place, last]);
            pairs[place].0 = random.pick(&[8, 9, 128, 255]);
        }
    }
    let places = [(); 3].map(|()| length(random, pairs.len()));
    let (groups, mut frames): (Vec<u8>, Vec<u16>) = pairs.into_iter().unzip();
    frames.resize(places[0], anywhere);
    let noise = random.bytes(places[1].max(places[2]));
    // Values and flags that a call writes are among those before.
    let values = noise[..places[1]].iter().map(|byte| match byte {
        0..=99 => u32::from(*byte),
        _ => u32::from(*byte) << 24 | u32::from(anywhere),
    });
    Asked {
        before: Lists {
            values: values.collect(),
            covered: noise[..places[2]].to_vec(),
        },
        groups,
        frames,
    }
}

/// A call on a slot with these rows, none if the slot is refused. Of those one in ten has a call: there are
/// very many.
pub fn run(
    random: &Random,
    slot: &[u8],
    rows: &[Stretch],
    counts: &mut LookedUp,
) -> Result<(), String> {
    let mut random = random.beside();
    let refused = c::read(slot).question != 0;
    if refused && !random.percent(10) {
        return Ok(());
    }
    let asked = asked(&mut random, rows);
    one(slot, rows, &asked, counts).map_err(|why| {
        let Asked {
            groups,
            frames,
            before,
        } = &asked;
        let places = (before.values.len(), before.covered.len());
        format!("many lookups: {why}; groups {groups:?}, frames {frames:?}, places {places:?}")
    })
}

/// One call on a slot, by each of the functions.
fn one(slot: &[u8], rows: &[Stretch], asked: &Asked, counts: &mut LookedUp) -> Result<(), String> {
    let Asked {
        groups,
        frames,
        before,
    } = asked;
    let mut found = before.clone();
    let answer = c::lookups(slot, groups, frames, &mut found.values, &mut found.covered);
    let expected = reference::lookups(slot, groups, frames, before);
    let (question, index) = number(&expected);
    same("lookups", answer, c::LookupsAnswer { question, index })?;
    let after = expected.as_ref().unwrap_or(before);
    same_places("values", &found.values, &after.values)?;
    same_places("flags", &found.covered, &after.covered)?;
    singles(slot, asked, (answer, &found))?;
    if frames.len() >= groups.len() {
        safe(slot, asked, (answer, &found))?;
    }
    counts.questions[usize::from(question)] += 1;
    count(slot, rows, asked, (answer, &found), counts);
    Ok(())
}

/// Each pair of an accepted call is answered as its own lookup does. A refusal by 7 is that of the first
/// pair whose own lookup is refused, and one of the slot that of every pair's.
fn singles(
    slot: &[u8],
    asked: &Asked,
    (answer, found): (c::LookupsAnswer, &Lists),
) -> Result<(), String> {
    let single = |pair: usize| c::lookup(slot, asked.groups[pair], asked.frames[pair]);
    match answer.question {
        0 => {
            for pair in 0..asked.groups.len() {
                let given = c::LookupAnswer {
                    question: 0,
                    index: 0,
                    covered: found.covered[pair],
                    value: found.values[pair],
                };
                same("the single lookup", single(pair), given)?;
            }
        }
        7 => {
            let first = (0..asked.groups.len()).find(|pair| single(*pair).question == 7);
            same("the first pair refused alone", first, Some(answer.index))?;
        }
        11..=17 => {
            for pair in 0..asked.groups.len().min(2) {
                let alone = single(pair);
                let given = (answer.question, answer.index);
                same("the slot alone", (alone.question, alone.index), given)?;
            }
        }
        _ => {}
    }
    Ok(())
}

/// The safe functions with the same pairs: what the C function gave, and an answer to each pair. The list
/// that is lent is as long as the shorter one of the two.
fn safe(
    slot: &[u8],
    asked: &Asked,
    (answer, found): (c::LookupsAnswer, &Lists),
) -> Result<(), String> {
    let pairs: Vec<(u8, u16)> = asked
        .groups
        .iter()
        .copied()
        .zip(asked.frames.iter().copied())
        .collect();
    let places = found.values.len().min(found.covered.len());
    let mut after: Vec<Option<u32>> = asked.before.values[..places]
        .iter()
        .map(|value| Some(*value))
        .collect();
    let mut answers = after.clone();
    if answer.question == 0 {
        for (pair, place) in after[..pairs.len()].iter_mut().enumerate() {
            *place = (found.covered[pair] == 1).then_some(found.values[pair]);
        }
    }
    let numbers = |refusal: pacer::Refusal| (refusal.question, refusal.index);
    let given = match answer.question {
        0 => Ok(()),
        question => Err((question, answer.index)),
    };
    let outcome = pacer::lookups_into(slot, &pairs, &mut answers).map_err(numbers);
    same("lookups_into", outcome, given)?;
    same_places("list of lookups_into", &answers, &after)?;
    if places >= pairs.len() {
        let made = pacer::lookups(slot, &pairs).map_err(numbers);
        let expected = given.map(|()| after[..pairs.len()].to_vec());
        same("safe lookups", made, expected)?;
    }
    Ok(())
}

/// Counts what a call met.
fn count(
    slot: &[u8],
    rows: &[Stretch],
    asked: &Asked,
    (answer, found): (c::LookupsAnswer, &Lists),
    counts: &mut LookedUp,
) {
    let Asked { groups, frames, .. } = asked;
    let pairs = groups.len();
    let short =
        [frames.len(), found.values.len(), found.covered.len()].map(|places| places < pairs);
    let bad = groups.iter().filter(|group| **group > 7).count();
    match answer.question {
        0 => {
            let eight = groups[..] == [0, 1, 2, 3, 4, 5, 6, 7]
                && frames[..pairs].iter().all(|frame| *frame == frames[0]);
            counts.add(Met::EightGroups, eight);
            counts.add(Met::NoPair, pairs == 0);
            counts.add(Met::MostPairs, pairs == PAIRS);
            let later = found.values.len() > pairs && found.covered.len() > pairs;
            counts.add(Met::Later, later);
            counts.add(Met::ByWindows, slot[1] == c::BY_WINDOWS);
            let pair = |place: usize| (groups[place], frames[place]);
            let twice = (1..pairs).any(|place| (0..place).any(|other| pair(other) == pair(place)));
            counts.add(Met::Twice, twice);
            for place in 0..pairs {
                let covered = found.covered[place] == 1;
                counts.add(Met::Covered, covered);
                counts.add(Met::CoveredByZero, covered && found.values[place] == 0);
                counts.add(Met::Uncovered, !covered);
            }
            // Of the first pair, where it lies by the rows of its group.
            if let (Some(group), Some(frame)) = (groups.first(), frames.first()) {
                let frame = i32::from(*frame);
                let mine = || rows.iter().filter(|row| row.group == *group);
                let at = |edge: fn(&Stretch) -> i32| mine().any(|row| edge(row) == frame);
                counts.add(Met::First, at(|row| i32::from(row.first)));
                counts.add(Met::Last, at(|row| i32::from(row.last)));
                counts.add(Met::Before, at(|row| i32::from(row.first) - 1));
                counts.add(Met::Behind, at(|row| i32::from(row.last) + 1));
            }
        }
        1 if slot.len() >= pacer::SLOT_BYTES => {
            counts.add(Met::ShortFrames, short == [true, false, false]);
            counts.add(Met::ShortValues, short == [false, true, false]);
            counts.add(Met::ShortFlags, short == [false, false, true]);
            let least = frames
                .len()
                .min(found.values.len())
                .min(found.covered.len());
            counts.add(Met::JustShort, (pairs, least) == (PAIRS + 1, PAIRS));
            counts.add(Met::ShortAhead, c::read(slot).question != 0);
        }
        7 => {
            counts.add(Met::BadFirst, answer.index == 0);
            counts.add(Met::BadLast, answer.index + 1 == pairs && pairs > 1);
            counts.add(
                Met::BadBetween,
                answer.index > 0 && answer.index + 1 < pairs,
            );
            counts.add(Met::BadTwice, bad > 1);
        }
        11..=17 => {
            counts.add(Met::SlotNoPair, pairs == 0);
            counts.add(Met::SlotTooMany, pairs > PAIRS);
            counts.add(Met::SlotBadGroup, bad > 0);
        }
        26 => {
            counts.add(Met::JustTooMany, pairs == PAIRS + 1);
            let ahead = groups[..PAIRS].iter().any(|group| *group > 7);
            counts.add(Met::TooManyAhead, ahead);
        }
        _ => {}
    }
}
