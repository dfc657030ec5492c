//! Question 17: a slot with one bit of its tail set, at each place of the tail, under each header;
//! and under that of windows one bit of the error.

use crate::compare::{same, slot_calls, Seen};
use crate::random::Random;
use reference::{No, Stretch};

/// So many rows, in order, over all groups.
fn rows(random: &mut Random, count: u64) -> Vec<Stretch> {
    (0..count)
        .map(|i| {
            let first = 900 * i as u16;
            Stretch {
                group: (i / 9) as u8,
                first,
                last: first + random.range(0, 899) as u16,
                value: random.range(0, 128_000) as u32,
            }
        })
        .collect()
}

/// All calls on a slot of so many rows, under each header: with a tail of zeros, and with each bit
/// of the tail set alone; under the header of windows also with each bit of the error set alone.
/// The bytes behind the slot are no part of it.
pub fn run(random: &mut Random, count: u64, seen: &mut Seen) -> Result<(), String> {
    if count > 64 {
        return Err("a slot has at most 64 rows".to_string());
    }
    let rows = rows(random, count);
    let kind = random.range(0, u64::from(reference::MOST_KIND)) as u8;
    let tail = 12 + 11 * rows.len()..768;
    let error = random.next();
    let by_bound = reference::layout(reference::BY_BOUND, kind, error, &rows);
    with_bits(random, by_bound, tail.clone(), seen)?;
    let by_windows = reference::layout(reference::BY_WINDOWS, kind, 0, &rows);
    with_bits(random, by_windows, (4..12).chain(tail), seen)
}

/// All calls on an accepted slot, and with each bit of some zeros set alone.
fn with_bits(
    random: &mut Random,
    mut slot: Vec<u8>,
    places: impl Iterator<Item = usize>,
    seen: &mut Seen,
) -> Result<(), String> {
    slot.extend([255; 9]);
    slot_calls(random, &slot, seen)?;
    let not_zero = No {
        question: 17,
        index: 0,
    };
    let (mark, count) = (slot[1], slot[3]);
    for place in places {
        for bit in 0..8 {
            slot[place] = 1 << bit;
            let at = |why: String| {
                format!(
                    "header 50 {mark:x}, {count} rows, byte {place} is {}: {why}",
                    1 << bit
                )
            };
            same(
                "the reference",
                reference::read(&slot).err(),
                Some(not_zero),
            )
            .map_err(at)?;
            slot_calls(random, &slot, seen).map_err(at)?;
        }
        slot[place] = 0;
    }
    Ok(())
}
