//! Twins: the call for logs on file on any log, and logs of 128 records with twins at every two
//! places.

use crate::check;
use crate::compare::{number, same, same_places, Seen};
use crate::inputs::{self, Fields};
use crate::order::{self, Ask};
use crate::random::Random;
use crate::windows::Windows;
use pacer::c;
use reference::{brute, No};

/// The call for logs on file with a buffer of some length, with every byte of the buffer. Gives
/// what is kept.
fn file(
    random: &mut Random,
    log: &[u8],
    room: usize,
    seen: &mut Seen,
) -> Result<Option<Vec<u8>>, String> {
    let before = random.bytes(room);
    let mut buffer = before.clone();
    let answer = pacer::without_twins(log, &mut buffer);
    let found = match answer {
        Ok(length) => (0, 0, length),
        Err(refusal) => (refusal.question, refusal.index, 0),
    };
    let expected = reference::without_twins(log, room);
    let (question, index) = number(&expected);
    let kept = expected.ok();
    let mut after = kept.clone().unwrap_or_default();
    same("log on file", found, (question, index, after.len()))?;
    after.extend(&before[after.len()..]);
    same_places("buffer of a log on file", &buffer, &after)?;
    seen.file[usize::from(question)] += 1;
    Ok(kept)
}

/// A width that gets 'yes': what a log fails of its own does not depend on it.
fn right_width(random: &mut Random) -> u16 {
    random.pick(&[1, 1, 1, 2, 9, 60, 4096])
}

/// What the segment call of the library says of a log, by its number and index, with some right width.
/// Other orders of the log are tried too.
fn asked(random: &Random, log: &[u8], seen: &mut Seen) -> Result<(u8, usize), String> {
    let width = right_width(&mut random.beside());
    let mut list = [c::Segment::default(); pacer::SEGMENT_PLACES];
    let answer = c::segments(log, 0, width, &mut list);
    order::segments(random, 0, width, log, (answer, &list), &mut seen.order)?;
    Ok((answer.question, answer.index))
}

/// The call for logs on file: with a buffer as long as the log, one byte shorter, and longer. What
/// is kept is accepted and comes back as it is when it is put through again; a log without twins is
/// kept byte for byte, and one with twins is refused at the first of them.
pub fn run(random: &mut Random, log: &[u8], seen: &mut Seen) -> Result<(), String> {
    let longer = log.len() + random.range(1, 30) as usize;
    file(random, log, longer, seen)?;
    if let Some(shorter) = log.len().checked_sub(1) {
        file(random, log, shorter, seen)?;
    }
    let twins = brute::later_twins(log);
    let Some(kept) = file(random, log, log.len(), seen)? else {
        // A wrong length, too many records or a bad one.
        if let (Err(No { question, index }), Some(twin)) = (reference::ask_log(log), twins.first())
        {
            seen.bad_after += u64::from(question == 21);
            seen.bad_before += u64::from((6..=9).contains(&question) && index < *twin);
        }
        return Ok(());
    };
    same("what is kept", asked(random, &kept, seen)?, (0, 0))?;
    let mut again = vec![0; kept.len()];
    let length = pacer::without_twins(&kept, &mut again).map_err(|refusal| refusal.to_string())?;
    same_places("put through again", &again[..length], &kept)?;
    same("records left out", kept.len() + 9 * twins.len(), log.len())?;
    match twins.first() {
        None => {
            same("log without twins", asked(random, log, seen)?, (0, 0))?;
            same_places("log without twins", &kept, log)?;
        }
        Some(twin) => {
            same("log with twins", asked(random, log, seen)?, (21, *twin))?;
            seen.cleaned += 1;
            seen.left_out += twins.len() as u64;
        }
    }
    Ok(())
}

/// 128 different records over few frames, of all groups.
fn different(random: &mut Random) -> Vec<Fields> {
    let mut records = Vec::new();
    while records.len() < 128 {
        let first = random.range(0, 40) as u16;
        let last = first + random.range(0, 9) as u16;
        let record = (
            random.range(0, 7) as u8,
            first,
            last,
            random.range(0, 1000) as u16,
        );
        if !records.contains(&record) {
            records.push(record);
        }
    }
    records
}

/// A query of a log with a twin, which is refused; the slot keeps its bytes. Other orders of the log
/// are tried too.
fn refused(
    random: &Random,
    kind: u8,
    ask: Ask,
    log: &[u8],
    before: &[u8],
    seen: &mut Seen,
) -> Result<(u8, usize), String> {
    let mut slot = before.to_vec();
    let answer = ask.library(kind, log, &mut slot);
    let (question, index) = (answer.question, answer.index);
    let expected = c::QueryAnswer {
        question,
        index,
        rows: 0,
        error: 0,
        weighed: 0,
    };
    same("refusal", answer, expected)?;
    same_places("slot after a refusal", &slot, before)?;
    order::query(random, kind, ask, log, (answer, &slot), &mut seen.order)?;
    Ok((question, index))
}

/// All calls that take a log on one whose first twin is known: each refuses it with 21 and that
/// index, whatever it is asked. The call for logs on file leaves just that record out.
fn with_twin(random: &mut Random, log: &[u8], later: usize, seen: &mut Seen) -> Result<(), String> {
    let twin = (21, later);
    let expected = number(&reference::ask_log(log));
    same("the reference", expected, twin)?;
    same("segments", asked(random, log, seen)?, twin)?;
    seen.segments[21] += 1;
    let kind = random.range(0, u64::from(reference::MOST_KIND)) as u8;
    let before = random.bytes(770);
    let (rule, most) = random.pick(&[(c::ROWS, 64), (c::SHARE, 1000)]);
    let bound = random.range(0, most) as u16;
    let ask = Ask::Bound(rule, bound, right_width(random));
    let no = refused(random, kind, ask, log, &before, seen)?;
    same("query", no, twin)?;
    seen.query[21] += 1;
    let (length, start) = (random.range(1, 99) as u16, random.range(0, 99) as u16);
    let beats = Windows::Beats(length, start);
    let no = refused(random, kind, Ask::Windows(&beats), log, &before, seen)?;
    same("by beats", no, twin)?;
    seen.beats[21] += 1;
    let scenes = Windows::Scenes(vec![start], vec![start + length]);
    let no = refused(random, kind, Ask::Windows(&scenes), log, &before, seen)?;
    same("by scenes", no, twin)?;
    seen.scenes[21] += 1;
    check::any(log, right_width(random), &before, &mut seen.checked)?;
    let kept = file(random, log, log.len(), seen)?.ok_or("a log without bad records is refused")?;
    let without = [&log[..9 * later], &log[9 * later + 9..]].concat();
    same_places("what is kept", &kept, &without)?;
    seen.cleaned += 1;
    seen.left_out += 1;
    Ok(())
}

/// Logs of 128 records, and those that end with the later twin: the record at one place has the
/// bytes of each earlier one in turn, and then those of an earlier one with each of the 72 bits
/// changed, which makes it a bad record or one like any other.
pub fn run_places(random: &mut Random, later: u64, seen: &mut Seen) -> Result<(), String> {
    if later > 127 {
        return Err("a log has at most 128 records".to_string());
    }
    let later = later as usize;
    let whole = inputs::log_of(&different(random));
    let at = 9 * later..9 * later + 9;
    same("different records", asked(random, &whole, seen)?, (0, 0))?;
    for earlier in 0..later {
        let context = |why| format!("record {later} as record {earlier}: {why}");
        let mut log = whole.clone();
        log.copy_within(9 * earlier..9 * earlier + 9, at.start);
        with_twin(random, &log, later, seen).map_err(context)?;
        with_twin(random, &log[..at.end], later, seen).map_err(context)?;
    }
    if later == 0 {
        return Ok(());
    }
    for bit in 0..72 {
        let earlier = random.range(0, later as u64 - 1) as usize;
        let mut log = whole.clone();
        log.copy_within(9 * earlier..9 * earlier + 9, at.start);
        log[at.start + bit / 8] ^= 1 << (bit % 8);
        let context = |why| format!("record {later} as record {earlier} but for bit {bit}: {why}");
        let expected = number(&reference::ask_log(&log));
        let found = asked(random, &log, seen).map_err(context)?;
        same("segments", found, expected).map_err(context)?;
        let kept = file(random, &log, log.len(), seen).map_err(context)?;
        // The record may by chance be equal to a third one.
        if brute::later_twins(&log).is_empty() && kept.is_some() {
            same("records that differ in one bit", kept, Some(log)).map_err(context)?;
        }
    }
    Ok(())
}
