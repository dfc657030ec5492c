//! Rows by windows in plain safe Rust, written for speed: the measure for the proved library.
//!
//! Group by group it goes from window to window. A window ahead of the next frame that a record
//! contains is not looked at, and the 65th row ends the work.

use crate::plain::{ask_log, two, No, QueryAnswer, Segment, BY_WINDOWS, MOST_KIND};

/// The windows of a query, in rising order.
trait Windows {
    /// The first and last frame of the first window that ends at a frame or after it.
    fn reaching(&self, frame: i32) -> Option<(i32, i32)>;
}

/// Windows of so many frames from a start frame on.
struct Beats {
    length: i32,
    start: i32,
}

impl Windows for Beats {
    fn reaching(&self, frame: i32) -> Option<(i32, i32)> {
        let before = (frame - self.start).max(0) / self.length;
        let first = self.start + before * self.length;
        (first < 65_536).then_some((first, (first + self.length - 1).min(65_535)))
    }
}

/// Scenes by their first and last frames.
struct Scenes<'a> {
    firsts: &'a [u16],
    lasts: &'a [u16],
}

impl Windows for Scenes<'_> {
    fn reaching(&self, frame: i32) -> Option<(i32, i32)> {
        self.firsts
            .iter()
            .zip(self.lasts)
            .map(|(first, last)| (i32::from(*first), i32::from(*last)))
            .find(|(_, last)| *last >= frame)
    }
}

/// A record of the group at hand; `end` is the frame after the last.
#[derive(Clone, Copy, Default)]
struct Load {
    first: i32,
    end: i32,
    load: i32,
}

/// Questions 4 to 9, 21 and 20, and the rows of the windows.
fn write_rows(
    windows: &impl Windows,
    kind: u8,
    log: &[u8],
    slot: &mut [u8; 768],
) -> Result<QueryAnswer, No> {
    ask_log(log)?;
    let mut loads = [Load::default(); 128];
    let mut rows = [Segment::default(); 64];
    let mut count = 0;
    for group in 0..8u8 {
        let mut n = 0;
        for record in log.chunks_exact(9).filter(|record| record[2] == group) {
            loads[n] = Load {
                first: i32::from(two(record, 3)),
                end: i32::from(two(record, 5)) + 1,
                load: i32::from(two(record, 7)),
            };
            n += 1;
        }
        let loads = &loads[..n];
        // The next frame that a record of the group contains.
        let mut frame = loads.iter().map(|load| load.first).min().unwrap_or(65_536);
        while frame < 65_536 {
            let Some((a, b)) = windows.reaching(frame) else {
                break;
            };
            // The tally of the records that meet the window, and the next frame behind it.
            let mut next = 65_536;
            let (mut records, mut sum, mut least, mut greatest) = (0, 0, 1000, 0);
            for &Load { first, end, load } in loads {
                let meets = first <= b && a < end;
                let goes_on = end > b + 1;
                next = next.min(if goes_on { first.max(b + 1) } else { 65_536 });
                records += i32::from(meets);
                sum += if meets { load } else { 0 };
                least = least.min(if meets { load } else { 1000 });
                greatest = greatest.max(if meets { load } else { 0 });
            }
            if records > 0 {
                let value = match kind {
                    0 => sum,
                    1 => records,
                    2 => least,
                    3 => greatest,
                    _ => 100 * sum / records,
                };
                *rows.get_mut(count).ok_or((20, 0))? = Segment {
                    group,
                    first: a as u16,
                    last: b as u16,
                    value: value as u32,
                };
                count += 1;
            }
            frame = next;
        }
    }
    slot.fill(0);
    slot[..4].copy_from_slice(&[0x50, BY_WINDOWS, kind, count as u8]);
    for (place, row) in slot[12..].chunks_exact_mut(11).zip(&rows[..count]) {
        place[..3].copy_from_slice(&[0x50, 0x52, row.group]);
        place[3..5].copy_from_slice(&row.first.to_le_bytes());
        place[5..7].copy_from_slice(&row.last.to_le_bytes());
        place[7..].copy_from_slice(&row.value.to_le_bytes());
    }
    Ok(QueryAnswer {
        rows: count,
        ..QueryAnswer::default()
    })
}

/// The answer to a refusal.
fn refused((question, index): No) -> QueryAnswer {
    QueryAnswer {
        question,
        index,
        ..QueryAnswer::default()
    }
}

/// The query by beats.
pub fn query_beats(kind: u8, length: u16, start: u16, log: &[u8], slot: &mut [u8]) -> QueryAnswer {
    let Some(slot) = slot.first_chunk_mut::<768>() else {
        return refused((1, 0));
    };
    if kind > MOST_KIND {
        return refused((2, 0));
    }
    if length == 0 {
        return refused((18, 0));
    }
    let beats = Beats {
        length: i32::from(length),
        start: i32::from(start),
    };
    write_rows(&beats, kind, log, slot).unwrap_or_else(refused)
}

/// The query by scenes.
pub fn query_scenes(
    kind: u8,
    firsts: &[u16],
    lasts: &[u16],
    log: &[u8],
    slot: &mut [u8],
) -> QueryAnswer {
    let Some(slot) = slot.first_chunk_mut::<768>() else {
        return refused((1, 0));
    };
    if kind > MOST_KIND {
        return refused((2, 0));
    }
    let counted = (1..=16).contains(&firsts.len()) && firsts.len() == lasts.len();
    let forward = firsts.iter().zip(lasts).all(|(first, last)| first <= last);
    let mut neighbours = lasts.iter().zip(firsts.iter().skip(1));
    if !counted || !forward || neighbours.any(|(last, next)| last >= next) {
        return refused((19, 0));
    }
    write_rows(&Scenes { firsts, lasts }, kind, log, slot).unwrap_or_else(refused)
}
