//! Random logs, queries and slots.

use crate::random::Random;
use crate::windows::Windows;
use reference::{Half, Stretch, Table};

/// A record: group, first, last, load.
pub type Fields = (u8, u16, u16, u16);

fn bytes_of((group, first, last, load): Fields) -> Vec<u8> {
    let mut bytes = vec![0x4C, 0x44, group];
    for number in [first, last, load] {
        bytes.extend(number.to_le_bytes());
    }
    bytes
}

/// The bytes of a log.
pub fn log_of(records: &[Fields]) -> Vec<u8> {
    records
        .iter()
        .flat_map(|record| bytes_of(*record))
        .collect()
}

/// A load from one of several narrow or wide choices.
fn load(random: &mut Random, palette: u64) -> u16 {
    match palette {
        0 => random.range(0, 3) as u16,
        1 => random.range(0, 1000) as u16,
        2 => random.pick(&[0, 1000]),
        3 => random.pick(&[100, 200, 300]),
        4 => 7,
        5 => random.range(0, 30) as u16,
        _ => random.range(990, 1000) as u16,
    }
}

/// Records spread over some frames and groups, all different; some differ from an earlier one in the
/// load alone. There are fewer than wanted where new ones are hard to find.
fn spread(random: &mut Random, count: u64, base: u64, span: u64, groups: &[u8]) -> Vec<Fields> {
    let palette = random.range(0, 6);
    let longest = random.range(1, span);
    let mut records: Vec<Fields> = Vec::new();
    for _ in 0..count + 8 {
        if records.len() as u64 == count {
            break;
        }
        let again = !records.is_empty() && random.percent(10);
        let record = if again {
            let (group, first, last, _) = random.pick(&records);
            (group, first, last, load(random, palette))
        } else {
            let length = random.range(1, longest);
            let first = base + random.range(0, span - length);
            let last = first + length - 1;
            (
                random.pick(groups),
                first as u16,
                last as u16,
                load(random, palette),
            )
        };
        if !records.contains(&record) {
            records.push(record);
        }
    }
    records
}

/// The first of equal records and the others in their order.
pub fn distinct(records: Vec<Fields>) -> Vec<Fields> {
    let mut kept = Vec::new();
    for record in records {
        if !kept.contains(&record) {
            kept.push(record);
        }
    }
    kept
}

const ALL: [u8; 8] = [0, 1, 2, 3, 4, 5, 6, 7];

fn some_groups(random: &mut Random) -> Vec<u8> {
    let count = random.range(1, 3);
    (0..count).map(|_| random.pick(&ALL)).collect()
}

/// Random records that get 'yes' to every question and are all different. The shapes that take the
/// independent implementation long are rare.
pub fn records(random: &mut Random) -> Vec<Fields> {
    distinct(shape(random))
}

/// The same, where two records may be equal.
fn shape(random: &mut Random) -> Vec<Fields> {
    match random.range(0, 999) {
        // Small loads that last to the last frame of all, and others within them: covered frames are the
        // same with every width.
        0..=39 => {
            let groups = some_groups(random);
            let (count, span) = (random.range(1, 6), random.range(2, 60));
            let base = 65_536 - span;
            let within = spread(random, count, base, span, &groups);
            let lasting = groups.iter().map(|group| {
                let load = random.pick(&[0, 1, 150]);
                (*group, base as u16, 65_535, load)
            });
            lasting
                .collect::<Vec<_>>()
                .into_iter()
                .chain(within)
                .collect()
        }
        // A few records, near each other.
        40..=449 => {
            let groups = some_groups(random);
            let (count, span) = (random.range(0, 8), random.range(1, 24));
            spread(random, count, 0, span, &groups)
        }
        // All groups.
        450..=649 => {
            let (count, span) = (random.range(0, 24), random.range(1, 30));
            spread(random, count, 0, span, &ALL)
        }
        // More records in few groups.
        650..=799 => {
            let groups = some_groups(random);
            let (count, span) = (random.range(8, 40), random.range(20, 120));
            spread(random, count, 0, span, &groups)
        }
        // The last frames that there are; frame 65,535 is often among them.
        800..=899 => {
            let groups = some_groups(random);
            let (count, span) = (random.range(1, 16), random.range(1, 60));
            let mut records = spread(random, count, 65_536 - span, span, &groups);
            if random.percent(60) {
                let place = random.range(0, records.len() as u64 - 1) as usize;
                records[place].2 = 65_535;
            }
            records
        }
        // Long logs.
        900..=911 | 962..=985 => {
            let groups = if random.percent(60) {
                vec![random.pick(&ALL)]
            } else {
                ALL.to_vec()
            };
            let (count, span) = (random.range(60, 128), random.range(40, 400));
            spread(random, count, 0, span, &groups)
        }
        // Records over all frames.
        912..=913 => {
            let groups = some_groups(random);
            let count = random.range(1, 12);
            spread(random, count, 0, 65_536, &groups)
        }
        // Steps up and down: with 128 records 255 segments in one run.
        914..=916 => {
            let count = if random.percent(50) {
                128
            } else {
                random.range(60, 128)
            };
            let width = random.range(1, 2);
            let palette = random.pick(&[1, 3, 5]);
            (0..count)
                .map(|i| {
                    let last = 2 * 128 * width - i * width;
                    let load = load(random, palette).max(1);
                    (3, (i * width) as u16, last as u16, load)
                })
                .collect()
        }
        // Many runs: single frames apart from each other, here and there in pairs.
        917..=946 => {
            let count = random.range(30, 128);
            let palette = random.range(0, 6);
            let mut frame = 0;
            (0..count)
                .map(|_| {
                    frame += random.pick(&[1, 2, 2, 3]);
                    (2, frame, frame, load(random, palette))
                })
                .collect()
        }
        // Neighbours in one run, as many as records.
        947..=956 => {
            let count = random.range(30, 90);
            let palette = random.range(0, 6);
            (0..count)
                .map(|i| (5, i as u16, i as u16, load(random, palette)))
                .collect()
        }
        // Each record shares its last frame with the next one's first. With equal loads two
        // values take turns, and the scan of the cuts is hardly ever left early.
        957..=960 => {
            let count = random.range(20, 128);
            let palette = random.pick(&[1, 4, 4, 4]);
            (0..count)
                .map(|i| {
                    let first = 2 * i as u16;
                    (6, first, first + 2, load(random, palette))
                })
                .collect()
        }
        // One record, of any length.
        961 => spread(random, 1, 0, 65_536, &ALL),
        // No record, or one.
        _ => {
            let count = random.range(0, 1);
            spread(random, count, 0, 9, &ALL)
        }
    }
}

/// Puts a record's bytes at some place of a log, in place of another where the log is full.
fn put(records: &mut Vec<Vec<u8>>, place: usize, record: Vec<u8>) {
    if records.len() < 128 {
        records.insert(place, record);
    } else {
        records[place.min(127)] = record;
    }
}

/// A log of some records with twins among them: next to each other, far apart, three or more equal
/// ones, several pairs, or all records twice. In every fifth log two records differ in one bit
/// instead. In some logs there is a bad record too, ahead of the twins or behind, or twice.
pub fn with_twins(random: &mut Random, records: &[Fields]) -> Vec<u8> {
    let mut nines: Vec<Vec<u8>> = records.iter().map(|record| bytes_of(*record)).collect();
    if nines.is_empty() {
        return Vec::new();
    }
    let last = nines.len() as u64 - 1;
    let one = random.range(0, last) as usize;
    let twin = nines[one].clone();
    match random.range(0, 9) {
        0 => put(&mut nines, one + 1, twin),
        1 | 2 => {
            let place = random.range(one as u64 + 1, last + 1) as usize;
            put(&mut nines, place, twin);
        }
        3 => {
            let first = nines[0].clone();
            put(&mut nines, records.len(), first);
        }
        4 | 5 => {
            for _ in 0..random.range(2, 5) {
                let again = random.pick(records);
                let place = random.range(0, nines.len() as u64) as usize;
                put(&mut nines, place, bytes_of(again));
            }
        }
        6 => {
            let more = random.range(2, 128) as usize;
            nines = vec![twin; more];
        }
        7 => {
            nines.extend(nines.clone());
            nines.truncate(128);
        }
        _ => {
            let mut other = twin;
            other[random.range(0, 8) as usize] ^= 1 << random.range(0, 7);
            let place = random.range(0, last + 1) as usize;
            put(&mut nines, place, other);
        }
    }
    if random.percent(35) {
        let mut bad = bytes_of(random.pick(records));
        match random.range(0, 4) {
            0 => bad[0] ^= 1,
            1 => bad[1] ^= 0x80,
            2 => bad[2] = random.pick(&[8, 255]),
            3 => bad[3..7].copy_from_slice(&[1, 0, 0, 0]),
            _ => bad[7..].copy_from_slice(&[0xE9, 3]),
        }
        for _ in 0..random.pick(&[1, 1, 1, 2]) {
            let place = random.range(0, nines.len() as u64) as usize;
            put(&mut nines, place, bad.clone());
        }
    }
    nines.concat()
}

/// Makes some bytes or the length of a log wrong, or leaves it as it is.
pub fn damage_log(random: &mut Random, log: &mut Vec<u8>) {
    if random.percent(75) {
        return;
    }
    for _ in 0..random.range(1, 2) {
        let count = log.len() as u64 / 9;
        match random.range(0, 9) {
            0 if !log.is_empty() => {
                let place = random.range(0, log.len() as u64 - 1) as usize;
                log[place] = random.next() as u8;
            }
            1 => {
                let kept = random.range(0, log.len() as u64) as usize;
                log.truncate(kept);
            }
            2 => {
                let more = random.range(1, 9) as usize;
                let added = random.bytes(more);
                log.extend(added);
            }
            // Above 128 records, with or without a wrong length.
            3 if random.percent(40) => {
                let wanted = random.range(129, 140) as usize;
                let record = bytes_of((0, 0, 0, 1));
                while log.len() < 9 * wanted {
                    log.extend(&record);
                }
                if random.percent(20) {
                    log.push(0);
                }
            }
            // One field of one record, often only just wrong.
            _ if count > 0 => {
                let at = 9 * random.range(0, count - 1) as usize;
                if at + 9 > log.len() {
                    return;
                }
                match random.range(0, 4) {
                    0 => log[at] ^= 1 << random.range(0, 7),
                    1 => log[at + 1] ^= 1 << random.range(0, 7),
                    2 => log[at + 2] = random.pick(&[8, 9, 255]),
                    3 => {
                        let (first, last) = (log[at + 3], log[at + 5]);
                        log[at + 3] = last;
                        log[at + 5] = first;
                    }
                    _ => {
                        let load: u16 = random.pick(&[1000, 1001, 1002, 1256, 65_535]);
                        log[at + 7..at + 9].copy_from_slice(&load.to_le_bytes());
                    }
                }
            }
            _ => {}
        }
    }
}

/// A kind, sometimes one that there is not.
pub fn kind(random: &mut Random) -> u8 {
    if random.percent(4) {
        random.pick(&[5, 6, 128, 255])
    } else {
        random.range(0, u64::from(reference::MOST_KIND)) as u8
    }
}

/// A width for some records, most often without a memory or with a short one; often just as long as a
/// gap between two records or as the frames behind one, one less or one more; and sometimes one that
/// there is not. Long ones are rare: they take the independent implementation long.
pub fn width(random: &mut Random, records: &[Fields]) -> u16 {
    let near = |number: u64, random: &mut Random| {
        let width = random.range(number.saturating_sub(1), number + 1);
        width.clamp(1, 4096) as u16
    };
    match random.range(0, 999) {
        0..=399 => 1,
        400..=599 => random.range(2, 9) as u16,
        // As long as a gap, one less or one more: the frames between two records of a group.
        600..=749 if records.len() > 1 => {
            let (group, _, last, _) = random.pick(records);
            let behind = records
                .iter()
                .filter(|other| other.0 == group && other.1 > last);
            match behind.map(|other| other.1 - last).min() {
                Some(step) => near(u64::from(step), random),
                None => random.range(2, 9) as u16,
            }
        }
        // As many frames as there are from a record's last one on, that included.
        750..=819 if !records.is_empty() => {
            let (_, _, last, _) = random.pick(records);
            match 65_536 - u64::from(last) {
                frames @ 1..=200 => near(frames, random),
                _ => random.range(2, 30) as u16,
            }
        }
        600..=899 => random.pick(&[2, 3, 10, 30, 59, 60, 61, 120]),
        900..=939 => random.range(10, 200) as u16,
        940..=949 => random.pick(&[4095, 4096, 4096]),
        950..=954 => random.range(1, 4096) as u16,
        _ => random.pick(&[0, 0, 4097, 4097, 4098, 8192, 32_768, 65_535]),
    }
}

/// A rule and a bound for some segments, often at a place where the answer changes.
pub fn bound(random: &mut Random, segments: &[Stretch], kind: u8) -> (u8, u16) {
    let n = segments.len() as u64;
    let m = reference::runs(segments) as u64;
    match random.range(0, 99) {
        0..=1 => (random.next() as u8, random.range(0, 64) as u16),
        2..=3 => (reference::ROWS, random.pick(&[64, 65, 66, 256, 65_535])),
        4..=5 => (
            reference::SHARE,
            random.pick(&[999, 1000, 1001, 1024, 65_535]),
        ),
        6..=25 => (reference::ROWS, random.range(0, 64) as u16),
        26..=37 => (
            reference::ROWS,
            random.range(m.saturating_sub(1), m + 1) as u16,
        ),
        38..=53 => (reference::ROWS, random.range(0, n + 1).min(64) as u16),
        54..=69 => (reference::SHARE, random.range(0, 1000) as u16),
        70..=75 => (reference::SHARE, random.pick(&[0, 1, 2, 999, 1000])),
        76..=81 => (reference::SHARE, random.range(0, 30) as u16),
        // The least share that some number of rows meets, or one beside it.
        _ if n > 0 && n <= 48 && m <= n => {
            let k = random.range(m, n) as usize;
            let mut table = Table::new(segments, kind, Half::Upper);
            while table.rows() < k {
                table.grow();
            }
            let most = table.error(m as usize).unwrap_or(0);
            let share = if most == 0 {
                0
            } else {
                let error = u128::from(table.error(k).unwrap_or(0));
                (error * 1000).div_ceil(u128::from(most)) as u64
            };
            let share = random.range(share.saturating_sub(1), share + 1);
            (reference::SHARE, share as u16)
        }
        _ => (reference::SHARE, random.range(0, 1000) as u16),
    }
}

/// A frame near the beginning or the end of a record, or anywhere.
fn edge(random: &mut Random, records: &[Fields]) -> u16 {
    if records.is_empty() || random.percent(10) {
        let anywhere = random.next() as u16;
        return random.pick(&[0, 1, 32_768, 65_534, 65_535, anywhere]);
    }
    let (_, first, last, _) = random.pick(records);
    let frame = u64::from(random.pick(&[first, last])) + random.range(0, 4);
    frame.saturating_sub(2).min(65_535) as u16
}

/// Beats or scenes for some records, often ones that begin or end where a record does, sometimes
/// with a fault. Beats of one or two frames are rare: they take the independent implementation
/// long.
pub fn windows(random: &mut Random, records: &[Fields]) -> Windows {
    if random.percent(45) {
        let start = if random.percent(30) {
            0
        } else {
            edge(random, records)
        };
        let length = match random.range(0, 99) {
            0..=3 => 0,
            4..=5 => 1,
            6..=7 => 2,
            8..=69 => random.range(3, 20),
            70..=84 => random.range(20, 600),
            85..=92 => random.range(600, 65_535),
            _ => random.pick(&[32_767, 32_768, 65_534, 65_535]),
        };
        return Windows::Beats(length as u16, start);
    }
    let count = match random.range(0, 99) {
        0..=3 => 0,
        4..=8 => 16,
        9..=12 => 17,
        13..=15 => random.range(18, 40),
        _ => random.range(1, 9),
    };
    // First and last frames in turns, in rising order, some of them equal.
    let mut frames: Vec<u16> = (0..2 * count).map(|_| edge(random, records)).collect();
    frames.sort_unstable();
    let mut firsts: Vec<u16> = frames.iter().copied().step_by(2).collect();
    let mut lasts: Vec<u16> = frames.iter().copied().skip(1).step_by(2).collect();
    if random.percent(80) {
        // Where a scene begins with the last frame of the one before, it begins one frame later,
        // and so on; without room for that the list stays wrong.
        for i in 1..firsts.len() {
            if firsts[i] <= lasts[i - 1] {
                firsts[i] = lasts[i - 1].saturating_add(1);
                lasts[i] = lasts[i].max(firsts[i]);
            }
        }
    }
    if count > 0 && random.percent(20) {
        let at = random.range(0, count - 1) as usize;
        match random.range(0, 5) {
            0 => firsts[at] = lasts[at].wrapping_add(1),
            1 => lasts[at] = lasts[at].wrapping_add(1),
            2 => firsts.swap(0, at),
            3 => firsts.truncate(at),
            4 => lasts.truncate(at),
            _ => lasts.push(65_535),
        }
    }
    Windows::Scenes(firsts, lasts)
}

/// A length near the least allowed one.
pub fn length(random: &mut Random, least: u64) -> usize {
    let length = match random.range(0, 99) {
        0..=69 => least,
        70..=94 => random.range(least.saturating_sub(8), least + 8),
        _ => random.pick(&[0, 1, least / 2, least - 1, least + 1, 2 * least]),
    };
    length as usize
}

/// A slot that no query wrote: rows in order, most often right, sometimes with a fault.
pub fn slot(random: &mut Random) -> Vec<u8> {
    let wanted = match random.range(0, 9) {
        0 => 64,
        1 => 63,
        2 => 0,
        _ => random.range(0, 64),
    };
    let mut rows: Vec<Stretch> = Vec::new();
    let (mut group, mut frame) = (random.range(0, 1), 0);
    while (rows.len() as u64) < wanted {
        if random.percent(12) && group < 7 {
            group += 1;
            frame = 0;
        }
        let first = frame + random.range(0, 3);
        let last = first + random.range(0, 5) * random.range(0, 200);
        if last > 65_535 {
            if group == 7 {
                break;
            }
            group += 1;
            frame = 0;
            continue;
        }
        rows.push(Stretch {
            group: group as u8,
            first: first as u16,
            last: last as u16,
            value: random.range(0, 128_000) as u32,
        });
        frame = last + 1;
        if random.percent(2) {
            frame = 65_535;
        }
    }
    if !rows.is_empty() && random.percent(30) {
        let at = random.range(0, rows.len() as u64 - 1) as usize;
        match random.range(0, 5) {
            0 => rows[at].value = random.pick(&[127_999, 128_000, 128_001, 128_256, u32::MAX]),
            1 => rows[at].group = random.pick(&[7, 8, 255]),
            2 => rows[at].first = rows[at].last.wrapping_add(1),
            3 => rows[at].first = rows[at].first.wrapping_sub(1),
            4 => rows[at].last = rows[at].last.wrapping_add(random.pick(&[1, 2, 3])),
            _ => {
                let other = random.range(0, rows.len() as u64 - 1) as usize;
                rows.swap(at, other);
            }
        }
    }
    let kind = random.range(0, u64::from(reference::MOST_KIND)) as u8;
    let mark = random.pick(&[reference::BY_BOUND, reference::BY_WINDOWS]);
    // Under the header of windows most often none.
    let error = if mark == reference::BY_WINDOWS && random.percent(80) {
        0
    } else {
        random.pick(&[0, 1, 11_280, 1 << 56, u64::MAX])
    };
    reference::layout(mark, kind, error, &rows)
}

/// Makes some bytes of a slot wrong, or leaves it as it is.
pub fn damage_slot(random: &mut Random, slot: &mut [u8]) {
    if slot.len() < 768 || random.percent(40) {
        return;
    }
    for _ in 0..random.range(1, 2) {
        let rows = usize::from(slot[3]).min(64);
        let end = 12 + 11 * rows;
        match random.range(0, 10) {
            0 if random.percent(50) => {
                // The other header.
                slot[1] = if slot[1] == reference::BY_BOUND {
                    reference::BY_WINDOWS
                } else {
                    reference::BY_BOUND
                };
            }
            0 => slot[random.range(0, 1) as usize] ^= 1 << random.range(0, 7),
            1 => slot[2] = random.pick(&[0, 3, 4, 5, 255]),
            2 => slot[3] = random.pick(&[0, 63, 64, 65, 255]),
            3 => slot[3] = slot[3].wrapping_add(random.pick(&[1, 255])),
            4 => slot[random.range(4, 11) as usize] = random.next() as u8,
            5 => slot[random.range(end as u64, 767) as usize] = random.next() as u8,
            6 => slot[random.pick(&[end, 767])] = 1,
            _ if rows > 0 => {
                let at = 12 + 11 * random.range(0, rows as u64 - 1) as usize;
                let byte = at + random.range(0, 10) as usize;
                slot[byte] = match random.range(0, 2) {
                    0 => slot[byte] ^ (1 << random.range(0, 7)),
                    1 => slot[byte].wrapping_add(1),
                    _ => random.next() as u8,
                };
            }
            _ => {}
        }
    }
}
