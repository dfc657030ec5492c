//! The functions of the C interface, each behind a safe function that takes slices.
//!
//! This is the only module with `unsafe` code. Nothing compares its declarations with the
//! library's source; they repeat `include/pacer.h`. A Rust slice always meets what the header
//! asks of a pointer and its length, and a shared and an exclusive slice never overlap, so these
//! functions are safe for every argument.

/// The bound is a row limit.
pub const ROWS: u8 = 0x52;
/// The bound is an error share.
pub const SHARE: u8 = 0x45;

/// The width without a memory: a value is over the records that contain the frame itself.
pub const ONE_FRAME: u16 = 1;
/// The greatest width.
pub const MOST_WIDTH: u16 = 4096;

/// The mark of a slot's header: the rows were made by a bound.
pub const BY_BOUND: u8 = 0x48;
/// The mark of a slot's header: the rows were made by windows.
pub const BY_WINDOWS: u8 = 0x53;

/// The answer of [`write_record`].
#[repr(C)]
#[derive(Clone, Copy, Debug, PartialEq, Eq)]
pub struct RecordAnswer {
    pub question: u8,
    pub index: usize,
}

/// The answer of [`without_twins`]; `length` is 0 in a refusal.
#[repr(C)]
#[derive(Clone, Copy, Debug, PartialEq, Eq)]
pub struct LogAnswer {
    pub question: u8,
    pub index: usize,
    pub length: usize,
}

/// The answer of [`segments`].
#[repr(C)]
#[derive(Clone, Copy, Debug, PartialEq, Eq)]
pub struct SegmentsAnswer {
    pub question: u8,
    pub index: usize,
    pub count: usize,
}

/// The answer of [`query`], [`query_beats`] and [`query_scenes`].
#[repr(C)]
#[derive(Clone, Copy, Debug, PartialEq, Eq)]
pub struct QueryAnswer {
    pub question: u8,
    pub index: usize,
    pub rows: usize,
    pub error: u64,
    pub weighed: u64,
}

/// The answer of [`read`] and [`read_rows`]; `mark` is [`BY_BOUND`] or [`BY_WINDOWS`], and 0 in a
/// refusal.
#[repr(C)]
#[derive(Clone, Copy, Debug, PartialEq, Eq)]
pub struct ReadAnswer {
    pub question: u8,
    pub index: usize,
    pub kind: u8,
    pub mark: u8,
    pub rows: usize,
    pub error: u64,
}

/// The answer of [`check`].
#[repr(C)]
#[derive(Clone, Copy, Debug, PartialEq, Eq)]
pub struct CheckAnswer {
    pub question: u8,
    pub index: usize,
}

/// The answer of [`row_at`]; `found` is 1 for a row and 0 at the end and in a refusal.
#[repr(C)]
#[derive(Clone, Copy, Debug, PartialEq, Eq)]
pub struct StepAnswer {
    pub question: u8,
    pub index: usize,
    pub found: u8,
    pub group: u8,
    pub first: u16,
    pub last: u16,
    pub value: u32,
    pub next: usize,
}

/// The answer of [`lookup`]; `covered` is 1 if a row of the group contains the frame.
#[repr(C)]
#[derive(Clone, Copy, Debug, PartialEq, Eq)]
pub struct LookupAnswer {
    pub question: u8,
    pub index: usize,
    pub covered: u8,
    pub value: u32,
}

/// The answer of [`lookups`].
#[repr(C)]
#[derive(Clone, Copy, Debug, PartialEq, Eq)]
pub struct LookupsAnswer {
    pub question: u8,
    pub index: usize,
}

/// A longest stretch of consecutive covered frames of one group with equal value.
///
/// Both frames are included. The layout is that of the C interface, so that a list of segments
/// can be lent to the library as it is.
#[repr(C)]
#[derive(Clone, Copy, Debug, Default, PartialEq, Eq, Hash)]
pub struct Segment {
    /// The group, 0 to 7.
    pub group: u8,
    /// The first frame.
    pub first: u16,
    /// The last frame.
    pub last: u16,
    /// The value of every frame of the segment.
    pub value: u32,
}

/// A row of a slot: some consecutive frames of a group and the value that stands for them.
///
/// The layout is that of the C interface, so that a list of rows can be lent to the library as it
/// is.
#[repr(C)]
#[derive(Clone, Copy, Debug, Default, PartialEq, Eq, Hash)]
pub struct Row {
    /// The group, 0 to 7.
    pub group: u8,
    /// The first frame.
    pub first: u16,
    /// The last frame, included.
    pub last: u16,
    /// By a bound: the whole number nearest to the mean of the frames' values, the upper one at a
    /// half, and of kind 3 the greatest of them. By windows: the kind's value over the records of
    /// the group that contain at least one of the frames.
    pub value: u32,
}

mod declared {
    use super::*;

    extern "C" {
        pub fn pacer_write_record(
            group: u8,
            first: u16,
            last: u16,
            load: u16,
            buffer: *mut u8,
            length: usize,
        ) -> RecordAnswer;
        pub fn pacer_without_twins(
            log: *const u8,
            log_length: usize,
            buffer: *mut u8,
            buffer_length: usize,
        ) -> LogAnswer;
        pub fn pacer_query(
            kind: u8,
            rule: u8,
            bound: u16,
            width: u16,
            log: *const u8,
            log_length: usize,
            slot: *mut u8,
            slot_length: usize,
        ) -> QueryAnswer;
        pub fn pacer_query_beats(
            kind: u8,
            length: u16,
            start: u16,
            log: *const u8,
            log_length: usize,
            slot: *mut u8,
            slot_length: usize,
        ) -> QueryAnswer;
        pub fn pacer_query_scenes(
            kind: u8,
            firsts: *const u16,
            first_count: usize,
            lasts: *const u16,
            last_count: usize,
            log: *const u8,
            log_length: usize,
            slot: *mut u8,
            slot_length: usize,
        ) -> QueryAnswer;
        pub fn pacer_segments(
            log: *const u8,
            log_length: usize,
            kind: u8,
            width: u16,
            list: *mut Segment,
            places: usize,
        ) -> SegmentsAnswer;
        pub fn pacer_read(slot: *const u8, length: usize) -> ReadAnswer;
        pub fn pacer_read_rows(
            slot: *const u8,
            length: usize,
            list: *mut Row,
            places: usize,
        ) -> ReadAnswer;
        pub fn pacer_row_at(slot: *const u8, length: usize, number: usize) -> StepAnswer;
        pub fn pacer_lookup(slot: *const u8, length: usize, group: u8, frame: u16) -> LookupAnswer;
        pub fn pacer_lookups(
            slot: *const u8,
            length: usize,
            groups: *const u8,
            pairs: usize,
            frames: *const u16,
            frame_count: usize,
            values: *mut u32,
            value_places: usize,
            covered: *mut u8,
            covered_places: usize,
        ) -> LookupsAnswer;
        pub fn pacer_check(
            log: *const u8,
            log_length: usize,
            width: u16,
            slot: *const u8,
            slot_length: usize,
        ) -> CheckAnswer;
    }
}

/// Calls `pacer_write_record`.
#[inline]
pub fn write_record(
    group: u8,
    first: u16,
    last: u16,
    load: u16,
    buffer: &mut [u8],
) -> RecordAnswer {
    // SAFETY: pointer and length are those of an exclusive slice.
    unsafe {
        declared::pacer_write_record(group, first, last, load, buffer.as_mut_ptr(), buffer.len())
    }
}

/// Calls `pacer_without_twins`.
#[inline]
pub fn without_twins(log: &[u8], buffer: &mut [u8]) -> LogAnswer {
    // SAFETY: pointers and lengths are those of a shared and an exclusive slice, which do not
    // overlap.
    unsafe {
        declared::pacer_without_twins(log.as_ptr(), log.len(), buffer.as_mut_ptr(), buffer.len())
    }
}

/// Calls `pacer_query`. The rule is [`ROWS`] or [`SHARE`]; any other is question 3's 'no'. The width
/// is [`ONE_FRAME`] to [`MOST_WIDTH`]; any other is question 25's.
#[inline]
pub fn query(
    kind: u8,
    rule: u8,
    bound: u16,
    width: u16,
    log: &[u8],
    slot: &mut [u8],
) -> QueryAnswer {
    // SAFETY: pointers and lengths are those of a shared and an exclusive slice, which do not
    // overlap.
    unsafe {
        declared::pacer_query(
            kind,
            rule,
            bound,
            width,
            log.as_ptr(),
            log.len(),
            slot.as_mut_ptr(),
            slot.len(),
        )
    }
}

/// Calls `pacer_query_beats`.
#[inline]
pub fn query_beats(kind: u8, length: u16, start: u16, log: &[u8], slot: &mut [u8]) -> QueryAnswer {
    // SAFETY: pointers and lengths are those of a shared and an exclusive slice, which do not
    // overlap.
    unsafe {
        declared::pacer_query_beats(
            kind,
            length,
            start,
            log.as_ptr(),
            log.len(),
            slot.as_mut_ptr(),
            slot.len(),
        )
    }
}

/// Calls `pacer_query_scenes`. Lists of unequal length are question 19's 'no'.
#[inline]
pub fn query_scenes(
    kind: u8,
    firsts: &[u16],
    lasts: &[u16],
    log: &[u8],
    slot: &mut [u8],
) -> QueryAnswer {
    // SAFETY: pointers and lengths are those of shared slices and an exclusive one, which none of
    // them overlaps.
    unsafe {
        declared::pacer_query_scenes(
            kind,
            firsts.as_ptr(),
            firsts.len(),
            lasts.as_ptr(),
            lasts.len(),
            log.as_ptr(),
            log.len(),
            slot.as_mut_ptr(),
            slot.len(),
        )
    }
}

/// Calls `pacer_segments`. The width is as with [`query`].
#[inline]
pub fn segments(log: &[u8], kind: u8, width: u16, list: &mut [Segment]) -> SegmentsAnswer {
    // SAFETY: pointers and lengths are those of a shared and an exclusive slice, which do not
    // overlap; every content of a segment's fields is valid.
    unsafe {
        declared::pacer_segments(
            log.as_ptr(),
            log.len(),
            kind,
            width,
            list.as_mut_ptr(),
            list.len(),
        )
    }
}

/// Calls `pacer_read`.
#[inline]
pub fn read(slot: &[u8]) -> ReadAnswer {
    // SAFETY: pointer and length are those of a slice.
    unsafe { declared::pacer_read(slot.as_ptr(), slot.len()) }
}

/// Calls `pacer_read_rows`.
#[inline]
pub fn read_rows(slot: &[u8], list: &mut [Row]) -> ReadAnswer {
    // SAFETY: pointers and lengths are those of a shared and an exclusive slice, which do not
    // overlap; every content of a row's fields is valid.
    unsafe { declared::pacer_read_rows(slot.as_ptr(), slot.len(), list.as_mut_ptr(), list.len()) }
}

/// Calls `pacer_row_at`.
#[inline]
pub fn row_at(slot: &[u8], number: usize) -> StepAnswer {
    // SAFETY: pointer and length are those of a slice.
    unsafe { declared::pacer_row_at(slot.as_ptr(), slot.len(), number) }
}

/// Calls `pacer_lookup`.
#[inline]
pub fn lookup(slot: &[u8], group: u8, frame: u16) -> LookupAnswer {
    // SAFETY: pointer and length are those of a slice.
    unsafe { declared::pacer_lookup(slot.as_ptr(), slot.len(), group, frame) }
}

/// Calls `pacer_lookups`. There are as many pairs as groups; a list of frames, values or flags that is
/// shorter is question 1's 'no'.
#[inline]
pub fn lookups(
    slot: &[u8],
    groups: &[u8],
    frames: &[u16],
    values: &mut [u32],
    covered: &mut [u8],
) -> LookupsAnswer {
    // SAFETY: pointers and lengths are those of shared slices and of two exclusive ones, which overlap
    // neither each other nor any of the shared ones.
    unsafe {
        declared::pacer_lookups(
            slot.as_ptr(),
            slot.len(),
            groups.as_ptr(),
            groups.len(),
            frames.as_ptr(),
            frames.len(),
            values.as_mut_ptr(),
            values.len(),
            covered.as_mut_ptr(),
            covered.len(),
        )
    }
}

/// Calls `pacer_check`. The width is that of the query that wrote the slot.
#[inline]
pub fn check(log: &[u8], width: u16, slot: &[u8]) -> CheckAnswer {
    // SAFETY: pointers and lengths are those of shared slices. The call writes nothing, so that they
    // may overlap.
    unsafe { declared::pacer_check(log.as_ptr(), log.len(), width, slot.as_ptr(), slot.len()) }
}
