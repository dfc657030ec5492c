//! The same algorithm in plain safe Rust, written for speed: the measure for the proved library.
//!
//! Segments are found from event to event, the split table is filled with incremental block
//! totals and left early, and the same questions are asked. The table has the paper's 64 times
//! 256 entries, all 'no cut' at first. Equal records are found by comparing a record, as one
//! number, with all before it. A slot is held to its log by walking rows and segments together. Many
//! lookups ask the slot once; there are two versions of them, one finds each pair's row by halving the
//! rows, which are in order, the other as a single lookup does. With a
//! memory a record counts in some frames behind its last one: its last frame is moved as it is read.
//!
//! There are two versions of the query. They differ in where a block's error comes from: [`Anew`]
//! works it out whenever a candidate asks for it, [`Kept`] works each out once per query.

/// The greatest kind.
pub const MOST_KIND: u8 = 4;

/// The kind of the greatest load, whose rows hold the greatest value of their block.
const GREATEST: u8 = 3;

/// The greatest width of a memory.
const MOST_WIDTH: u16 = 4096;

/// The second byte of a slot's header: rows by a bound.
const BY_BOUND: u8 = 0x48;

/// The second byte of a slot's header: rows by windows, with error 0.
pub const BY_WINDOWS: u8 = 0x53;

/// A query's answer, with question 0 if it is accepted.
#[derive(Clone, Copy, Debug, Default, PartialEq, Eq)]
pub struct QueryAnswer {
    pub question: u8,
    pub index: usize,
    pub rows: usize,
    pub error: u64,
    pub weighed: u64,
}

/// The reader's answer.
#[derive(Clone, Copy, Debug, Default, PartialEq, Eq)]
pub struct ReadAnswer {
    pub question: u8,
    pub index: usize,
    pub kind: u8,
    pub mark: u8,
    pub rows: usize,
    pub error: u64,
}

/// A refusal: question and index.
pub type No = (u8, usize);

#[derive(Clone, Copy, Default)]
pub struct Segment {
    pub group: u8,
    pub first: u16,
    pub last: u16,
    pub value: u32,
}

/// Length, sum of length × value, sum of length × value² and greatest value of a block.
#[derive(Clone, Copy, Default)]
pub struct Totals {
    length: u64,
    sum: u64,
    squares: u64,
    greatest: u64,
}

impl Totals {
    fn of(segment: &Segment) -> Self {
        let length = u64::from(segment.last) - u64::from(segment.first) + 1;
        let value = u64::from(segment.value);
        Totals {
            length,
            sum: length * value,
            squares: length * value * value,
            greatest: value,
        }
    }

    fn add(&mut self, other: &Totals) {
        self.length += other.length;
        self.sum += other.sum;
        self.squares += other.squares;
        self.greatest = self.greatest.max(other.greatest);
    }

    /// The greatest value, or the whole number nearest to the mean, the upper one at a half.
    fn row_value(&self, kind: u8) -> u64 {
        if kind == GREATEST {
            self.greatest
        } else {
            (2 * self.sum + self.length) / (2 * self.length)
        }
    }

    fn error(&self, kind: u8) -> u64 {
        let r = self.row_value(kind);
        self.squares + r * r * self.length - 2 * r * self.sum
    }
}

pub fn two(bytes: &[u8], at: usize) -> u16 {
    u16::from_le_bytes([bytes[at], bytes[at + 1]])
}

/// Questions 4 and 5: gives the log's records.
fn records(log: &[u8]) -> Result<impl ExactSizeIterator<Item = &[u8]>, No> {
    if !log.len().is_multiple_of(9) {
        return Err((4, 0));
    }
    if log.len() / 9 > 128 {
        return Err((5, 0));
    }
    Ok(log.chunks_exact(9))
}

/// Questions 6 to 9 of a record: the first that gets 'no'.
fn ask_record(record: &[u8]) -> Option<u8> {
    if record[..2] != [0x4C, 0x44] {
        Some(6)
    } else if record[2] > 7 {
        Some(7)
    } else if two(record, 3) > two(record, 5) {
        Some(8)
    } else if two(record, 7) > 1000 {
        Some(9)
    } else {
        None
    }
}

/// All bytes of a record but the first, as one number. Question 6 says what the first is, so that
/// records with equal numbers are equal.
fn key(record: &[u8]) -> u64 {
    let mut bytes = [0; 8];
    bytes.copy_from_slice(&record[1..9]);
    u64::from_le_bytes(bytes)
}

/// Questions 4 to 9 and 21.
pub fn ask_log(log: &[u8]) -> Result<(), No> {
    let mut keys = [0; 128];
    for (index, record) in records(log)?.enumerate() {
        if let Some(question) = ask_record(record) {
            return Err((question, index));
        }
        let key = key(record);
        if keys[..index].contains(&key) {
            return Err((21, index));
        }
        keys[index] = key;
    }
    Ok(())
}

/// The call for logs on file: question, index and the bytes written. It asks 1 and 4 to 9 and keeps
/// the first of equal records.
pub fn without_twins(log: &[u8], buffer: &mut [u8]) -> (u8, usize, usize) {
    match try_without_twins(log, buffer) {
        Ok(length) => (0, 0, length),
        Err((question, index)) => (question, index, 0),
    }
}

fn try_without_twins(log: &[u8], buffer: &mut [u8]) -> Result<usize, No> {
    let buffer = buffer.get_mut(..log.len()).ok_or((1, 0))?;
    for (index, record) in records(log)?.enumerate() {
        if let Some(question) = ask_record(record) {
            return Err((question, index));
        }
    }
    let mut kept = [0; 128];
    let mut count = 0;
    for record in log.chunks_exact(9) {
        let key = key(record);
        if !kept[..count].contains(&key) {
            kept[count] = key;
            buffer[9 * count..][..9].copy_from_slice(record);
            count += 1;
        }
    }
    Ok(9 * count)
}

/// Question 25.
fn ask_width(width: u16) -> Result<(), No> {
    if width == 0 || width > MOST_WIDTH {
        return Err((25, 0));
    }
    Ok(())
}

/// The records of one group, as columns; `end` is the frame after the last in which a record counts.
struct Columns {
    first: [i32; 128],
    end: [i32; 128],
    load: [i32; 128],
}

/// Finds the segments of an accepted log, with a right width, and gives their count.
fn find_segments(log: &[u8], kind: u8, width: u16, list: &mut [Segment; 255]) -> usize {
    let mut columns = Columns {
        first: [0; 128],
        end: [0; 128],
        load: [0; 128],
    };
    let mut n = 0;
    for group in 0..8u8 {
        let mut count = 0;
        for record in log.chunks_exact(9).filter(|record| record[2] == group) {
            columns.first[count] = i32::from(two(record, 3));
            columns.end[count] = (i32::from(two(record, 5)) + i32::from(width)).min(65_536);
            columns.load[count] = i32::from(two(record, 7));
            count += 1;
        }
        let first = &columns.first[..count];
        let end = &columns.end[..count];
        let load = &columns.load[..count];
        let start = n;
        let mut a = first.iter().copied().min().unwrap_or(65_536);
        while a < 65_536 {
            // The next event after a, and the tally of the records that contain a.
            let mut next = 65_536;
            let (mut records, mut sum, mut least, mut greatest) = (0, 0, 1000, 0);
            for ((&first, &end), &load) in first.iter().zip(end).zip(load) {
                let holds = first <= a && a < end;
                next = next.min(if first > a { first } else { 65_536 });
                next = next.min(if end > a { end } else { 65_536 });
                records += i32::from(holds);
                sum += if holds { load } else { 0 };
                least = least.min(if holds { load } else { 1000 });
                greatest = greatest.max(if holds { load } else { 0 });
            }
            if records > 0 {
                let value = match kind {
                    0 => sum,
                    1 => records,
                    2 => least,
                    3 => greatest,
                    _ => 100 * sum / records,
                } as u32;
                let last = (next - 1) as u16;
                match list[start..n].last_mut() {
                    Some(open) if i32::from(open.last) + 1 == a && open.value == value => {
                        open.last = last;
                    }
                    _ => {
                        list[n] = Segment {
                            group,
                            first: a as u16,
                            last,
                            value,
                        };
                        n += 1;
                    }
                }
            }
            a = next;
        }
    }
    n
}

/// The segment call: question, index and count.
pub fn segments(log: &[u8], kind: u8, width: u16, list: &mut [Segment]) -> (u8, usize, usize) {
    let Some(places) = list.first_chunk_mut::<255>() else {
        return (1, 0, 0);
    };
    if kind > MOST_KIND {
        return (2, 0, 0);
    }
    if let Err((question, index)) = ask_width(width).and_then(|()| ask_log(log)) {
        return (question, index, 0);
    }
    (0, 0, find_segments(log, kind, width, places))
}

/// Where a query's block errors come from.
pub trait BlockErrors {
    /// Begins a query over segments with these totals; `gap` has the last gap below i at place i.
    fn begin(&mut self, totals: &[Totals], gap: &[u8; 256], kind: u8);

    /// The errors of the blocks that end with segment i, from segment i alone to those from
    /// segment `low` + 1 on.
    fn ending_at(
        &self,
        totals: &[Totals],
        low: usize,
        i: usize,
        kind: u8,
    ) -> impl Iterator<Item = u64>;
}

/// The errors of the blocks that end with the last of these segments, the shortest block first.
fn widening(totals: &[Totals], kind: u8) -> impl ExactSizeIterator<Item = u64> + '_ {
    let mut block = Totals::default();
    totals.iter().rev().map(move |total| {
        block.add(total);
        block.error(kind)
    })
}

/// Works a block's error out whenever it is asked for.
pub struct Anew;

impl BlockErrors for Anew {
    fn begin(&mut self, _: &[Totals], _: &[u8; 256], _: u8) {}

    fn ending_at(
        &self,
        totals: &[Totals],
        low: usize,
        i: usize,
        kind: u8,
    ) -> impl Iterator<Item = u64> {
        widening(&totals[low..i], kind)
    }
}

/// Works the error of every block that crosses no gap out once per query. The list is the
/// caller's and serves for many queries: each begins with the empty list and its old memory, so
/// that nothing is cleared and nothing allocated once the list has grown.
pub struct Kept {
    errors: Vec<u64>,
    /// The place of the first error of the blocks that end with segment i, at place i.
    start: [usize; 256],
}

impl Kept {
    pub fn new() -> Self {
        Kept {
            errors: Vec::new(),
            start: [0; 256],
        }
    }
}

impl BlockErrors for Kept {
    fn begin(&mut self, totals: &[Totals], gap: &[u8; 256], kind: u8) {
        self.errors.clear();
        for i in 1..=totals.len() {
            self.start[i] = self.errors.len();
            self.errors
                .extend(widening(&totals[usize::from(gap[i])..i], kind));
        }
    }

    fn ending_at(&self, _: &[Totals], low: usize, i: usize, _: u8) -> impl Iterator<Item = u64> {
        self.errors[self.start[i]..][..i - low].iter().copied()
    }
}

/// Above every error; the sum of two does not overflow.
const NONE: u64 = 1 << 62;

/// The query call.
pub fn query(
    blocks: &mut impl BlockErrors,
    kind: u8,
    rule: u8,
    bound: u16,
    width: u16,
    log: &[u8],
    slot: &mut [u8],
) -> QueryAnswer {
    match try_query(blocks, kind, rule, bound, width, log, slot) {
        Ok(answer) => answer,
        Err((question, index)) => QueryAnswer {
            question,
            index,
            ..QueryAnswer::default()
        },
    }
}

fn try_query(
    blocks: &mut impl BlockErrors,
    kind: u8,
    rule: u8,
    bound: u16,
    width: u16,
    log: &[u8],
    slot: &mut [u8],
) -> Result<QueryAnswer, No> {
    let slot = slot.first_chunk_mut::<768>().ok_or((1, 0))?;
    if kind > MOST_KIND {
        return Err((2, 0));
    }
    let limited = rule == 0x52;
    if !((limited && bound <= 64) || (rule == 0x45 && bound <= 1000)) {
        return Err((3, 0));
    }
    ask_width(width)?;
    ask_log(log)?;
    let mut list = [Segment::default(); 255];
    let n = find_segments(log, kind, width, &mut list);
    let segments = &list[..n];

    let totals: Vec<Totals> = segments.iter().map(Totals::of).collect();
    // The last gap below i, at place i; and the count of runs.
    let mut gap = [0u8; 256];
    let mut m = usize::from(n > 0);
    for (j, pair) in segments.windows(2).enumerate() {
        let adjacent = pair[0].group == pair[1].group
            && u32::from(pair[0].last) + 1 == u32::from(pair[1].first);
        gap[j + 2] = if adjacent { gap[j + 1] } else { (j + 1) as u8 };
        m += usize::from(!adjacent);
    }
    let top = n.min(if limited { usize::from(bound) } else { 64 });
    if m > top {
        return Err((10, 0));
    }

    let mut table = [0u8; 64 * 256];
    // E(k - 1, i) and E(k, i), at place i; the two change places from row to row.
    let mut before = &mut [NONE; 256];
    let mut now = &mut [NONE; 256];
    let mut errors = [NONE; 65];
    let mut weighed = 0;
    let mut tried = 0;
    let mut met = n == 0;
    if n > 0 {
        let mut block = Totals::default();
        for (i, total) in totals.iter().enumerate() {
            if gap[i + 1] > 0 {
                break;
            }
            block.add(total);
            before[i + 1] = block.error(kind);
        }
        tried = 1;
        errors[1] = before[n];
        met = m == 1 && errors[1] * 1000 <= u64::from(bound) * errors[1];
    }
    if top > 1 && (limited || !met) {
        blocks.begin(&totals, &gap, kind);
    }
    for k in 2..=top {
        if met && !limited {
            break;
        }
        now[k - 1] = NONE;
        let cuts = &mut table[(k - 1) * 256..][..256];
        for i in k..=n {
            let low = usize::from(gap[i]).max(k - 1);
            let (mut best, mut cut) = (NONE, 0);
            let mut left = i - low;
            let fronts = before[low..i].iter().rev();
            for (error, front) in blocks.ending_at(&totals, low, i, kind).zip(fronts) {
                left -= 1;
                if front + error < best {
                    best = front + error;
                    cut = low + left;
                }
                if error > best {
                    break;
                }
            }
            weighed += (i - low - left) as u64;
            now[i] = best;
            cuts[i] = cut as u8;
        }
        std::mem::swap(&mut before, &mut now);
        tried = k;
        errors[k] = before[n];
        met = k >= m && errors[k] * 1000 <= u64::from(bound) * errors[m];
    }
    if !limited && !met {
        return Err((10, 0));
    }
    // With a limit, the fewest rows that have the least error.
    let rows = if limited {
        let least = errors[tried];
        (m..tried).find(|k| errors[*k] == least).unwrap_or(tried)
    } else {
        tried
    };
    let error = if rows == 0 { 0 } else { errors[rows] };

    slot.fill(0);
    slot[..4].copy_from_slice(&[0x50, BY_BOUND, kind, rows as u8]);
    slot[4..12].copy_from_slice(&error.to_le_bytes());
    let mut end = n;
    for k in (1..=rows).rev() {
        let start = usize::from(table[(k - 1) * 256 + end]);
        let mut block = Totals::default();
        for total in &totals[start..end] {
            block.add(total);
        }
        let row = &mut slot[12 + 11 * (k - 1)..][..11];
        row[..3].copy_from_slice(&[0x50, 0x52, segments[start].group]);
        row[3..5].copy_from_slice(&segments[start].first.to_le_bytes());
        row[5..7].copy_from_slice(&segments[end - 1].last.to_le_bytes());
        row[7..].copy_from_slice(&(block.row_value(kind) as u32).to_le_bytes());
        end = start;
    }
    Ok(QueryAnswer {
        question: 0,
        index: 0,
        rows,
        error,
        weighed,
    })
}

/// Questions 1 and 11 to 17; gives the rows' bytes.
fn ask_slot(slot: &[u8]) -> Result<(&[u8; 768], &[u8]), No> {
    let slot = slot.first_chunk::<768>().ok_or((1, 0))?;
    if slot[0] != 0x50 || (slot[1] != BY_BOUND && slot[1] != BY_WINDOWS) {
        return Err((11, 0));
    }
    if slot[2] > MOST_KIND {
        return Err((12, 0));
    }
    if slot[3] > 64 {
        return Err((13, 0));
    }
    let (rows, rest) = slot[12..].split_at(11 * usize::from(slot[3]));
    // The least first frame that the next row may have, with its group above it.
    let mut least = 0;
    for (index, row) in rows.chunks_exact(11).enumerate() {
        let (first, last) = (two(row, 3), two(row, 5));
        let value = u32::from_le_bytes([row[7], row[8], row[9], row[10]]);
        if row[..2] != [0x50, 0x52] {
            return Err((14, index));
        }
        if row[2] > 7 || first > last || value > 128_000 {
            return Err((15, index));
        }
        let place = u32::from(row[2]) << 17;
        if place + u32::from(first) < least {
            return Err((16, index));
        }
        least = place + u32::from(last) + 1;
    }
    if rest.iter().fold(0, |all, byte| all | byte) != 0 {
        return Err((17, 0));
    }
    if slot[1] == BY_WINDOWS && slot[4..12] != [0; 8] {
        return Err((17, 0));
    }
    Ok((slot, rows))
}

/// The reader.
pub fn read(slot: &[u8]) -> ReadAnswer {
    match ask_slot(slot) {
        Ok((slot, _)) => {
            let mut error = [0; 8];
            error.copy_from_slice(&slot[4..12]);
            ReadAnswer {
                question: 0,
                index: 0,
                kind: slot[2],
                mark: slot[1],
                rows: usize::from(slot[3]),
                error: u64::from_le_bytes(error),
            }
        }
        Err((question, index)) => ReadAnswer {
            question,
            index,
            ..ReadAnswer::default()
        },
    }
}

/// The value of the row that contains a frame of a group, among the rows' bytes: one row after the
/// other is asked.
pub fn find_value(rows: &[u8], group: u8, frame: u16) -> Option<u32> {
    rows.chunks_exact(11)
        .find(|row| row[2] == group && two(row, 3) <= frame && frame <= two(row, 5))
        .map(|row| u32::from_le_bytes([row[7], row[8], row[9], row[10]]))
}

/// The same by halving: only the first row that does not end before the frame can contain it.
pub fn find_by_halving(rows: &[u8], group: u8, frame: u16) -> Option<u32> {
    let (rows, _) = rows.as_chunks::<11>();
    let place = u32::from(group) << 16 | u32::from(frame);
    let at = rows.partition_point(|row| (u32::from(row[2]) << 16 | u32::from(two(row, 5))) < place);
    let row = rows.get(at)?;
    (row[2] == group && two(row, 3) <= frame)
        .then(|| u32::from_le_bytes([row[7], row[8], row[9], row[10]]))
}

/// Lookup: question, index, and the value if the frame is covered.
pub fn lookup(slot: &[u8], group: u8, frame: u16) -> (u8, usize, Option<u32>) {
    let rows = match ask_slot(slot) {
        Ok((_, rows)) => rows,
        Err((question, index)) => return (question, index, None),
    };
    if group > 7 {
        return (7, 0, None);
    }
    (0, 0, find_value(rows, group, frame))
}

/// Many lookups as a set, where a pair's row is found so: the first 'no', if any.
pub fn lookups(
    find: impl Fn(&[u8], u8, u16) -> Option<u32>,
    slot: &[u8],
    groups: &[u8],
    frames: &[u16],
    values: &mut [u32],
    covered: &mut [u8],
) -> Result<(), No> {
    let pairs = groups.len();
    let frames = frames.get(..pairs).ok_or((1, 0))?;
    let values = values.get_mut(..pairs).ok_or((1, 0))?;
    let covered = covered.get_mut(..pairs).ok_or((1, 0))?;
    let (_, rows) = ask_slot(slot)?;
    if pairs > 64 {
        return Err((26, 0));
    }
    if let Some(index) = groups.iter().position(|group| *group > 7) {
        return Err((7, index));
    }
    let places = values.iter_mut().zip(covered);
    for ((group, frame), (value, covered)) in groups.iter().zip(frames).zip(places) {
        let found = find(rows, *group, *frame);
        *value = found.unwrap_or(0);
        *covered = u8::from(found.is_some());
    }
    Ok(())
}

/// A slot against its log: question and index.
pub fn check(log: &[u8], width: u16, slot: &[u8]) -> No {
    match try_check(log, width, slot) {
        Ok(()) => (0, 0),
        Err(no) => no,
    }
}

fn try_check(log: &[u8], width: u16, slot: &[u8]) -> Result<(), No> {
    let front = slot.first_chunk::<768>().ok_or((1, 0))?;
    ask_width(width)?;
    ask_log(log)?;
    if front[1] == BY_WINDOWS {
        return Err((11, 0));
    }
    let (slot, rows) = ask_slot(front)?;
    let kind = slot[2];
    let mut list = [Segment::default(); 255];
    let n = find_segments(log, kind, width, &mut list);

    // A frame with its group above it.
    let place = |group: u8, frame: u16| u32::from(group) << 17 | u32::from(frame);
    let mut segments = list[..n].iter();
    let mut rows = rows.chunks_exact(11);
    let (mut segment, mut row) = (segments.next(), rows.next());
    // Where the rest of the segment begins, and of the row, if the walk has gone into it.
    let (mut in_segment, mut in_row) = (None, None);
    let (mut error, mut below) = (0, false);
    while let (Some(s), Some(r)) = (segment, row) {
        let from = in_segment.unwrap_or(place(s.group, s.first));
        if from != in_row.unwrap_or(place(r[2], two(r, 3))) {
            return Err((22, 0));
        }
        let (last, row_last) = (place(s.group, s.last), place(r[2], two(r, 5)));
        let to = last.min(row_last);
        let value = u32::from_le_bytes([r[7], r[8], r[9], r[10]]);
        let apart = u64::from(s.value.abs_diff(value));
        error += u64::from(to - from + 1) * apart * apart;
        below |= value < s.value;
        if to == last {
            (segment, in_segment) = (segments.next(), None);
        } else {
            in_segment = Some(to + 1);
        }
        if to == row_last {
            (row, in_row) = (rows.next(), None);
        } else {
            in_row = Some(to + 1);
        }
    }
    if segment.is_some() || row.is_some() {
        return Err((22, 0));
    }
    if kind == GREATEST && below {
        return Err((23, 0));
    }
    if slot[4..12] != error.to_le_bytes() {
        return Err((24, 0));
    }
    Ok(())
}
