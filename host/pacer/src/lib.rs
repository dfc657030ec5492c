//! Load profiles for the pacer.
//!
//! A log of loads over frames is reduced to at most 64 rows, the best that so few rows can give,
//! and the rows are written into a slot of 768 bytes that the pacer reads. The rows can also be
//! those of windows: every so many frames, or of a list of scenes. The work is done by a proved
//! library; this crate gives its C interface the types that a Rust program expects.
//!
//! ```
//! use pacer::{Bound, Kind, Query, Record, Row, SLOT_BYTES};
//!
//! # fn main() -> Result<(), pacer::Refusal> {
//! // Log G: five records in two groups.
//! let log = pacer::log(&[
//!     Record { group: 0, first: 0, last: 3, load: 100 },
//!     Record { group: 0, first: 2, last: 5, load: 200 },
//!     Record { group: 0, first: 6, last: 6, load: 210 },
//!     Record { group: 0, first: 9, last: 10, load: 50 },
//!     Record { group: 1, first: 0, last: 0, load: 7 },
//! ])?;
//! let mut slot = [0; SLOT_BYTES];
//! let query = Query::new(Kind::SUM, Bound::Rows(4));
//! let answer = pacer::query(query, &log, &mut slot)?;
//! assert_eq!((answer.rows, answer.error, answer.weighed), (4, 11_280, 16));
//!
//! let profile = pacer::read(&slot)?;
//! assert_eq!(profile.kind(), Kind::SUM);
//! assert_eq!(profile.error(), 11_280);
//! assert_eq!(
//!     profile.rows(),
//!     [
//!         Row { group: 0, first: 0, last: 1, value: 100 },
//!         Row { group: 0, first: 2, last: 6, value: 242 },
//!         Row { group: 0, first: 9, last: 10, value: 50 },
//!         Row { group: 1, first: 0, last: 0, value: 7 },
//!     ]
//! );
//!
//! assert_eq!(pacer::lookup(&slot, 0, 4)?, Some(242));
//! assert_eq!(pacer::lookup(&slot, 0, 7)?, None);
//! # Ok(())
//! # }
//! ```
//!
//! A frame's value is over the records that contain it, or, with a memory, over those that contain
//! at least one of the last frames, as many as a width says: [`Query::with_memory`],
//! [`segments_with_memory`], [`check_with_memory`].
//!
//! Many pairs of group and frame are looked up as a set by [`lookups`]: all of them are answered, or
//! none is.
//!
//! Every call asks its questions in order. The first that gets 'no' is the [`Refusal`], and then
//! nothing lent to the call is changed. A log that holds a record twice is refused by question 21;
//! [`without_twins`] is for such logs on file. A slot that comes with its log, made by whichever
//! tool, is held to it by [`check`].
//!
//! Records may stand in any order, as where two consoles feed one log. Logs that pass questions 4
//! to 9 and 21 and hold the same records, in whatever order, have the same [`segments`]; and every
//! [`query`] in order itself, with a slot long enough, gives the same [`Reduction`], cuts weighed
//! included, and the same 768 bytes of the slot, or is refused with the same one of 10 and 20; and
//! [`check`] gives a slot the same answer. That is so with every width. A log that does not pass is
//! refused with its first 'no' in the order as lent, and the index is that of the log as lent.

#![deny(unsafe_code)]
#![warn(missing_docs)]

use std::error::Error;
use std::fmt;

#[allow(unsafe_code)]
#[allow(missing_docs)]
pub mod c;

pub use c::{Row, Segment};

/// The length of a record in a log, in bytes.
pub const RECORD_BYTES: usize = 9;
/// The greatest number of records in a log.
pub const RECORDS: usize = 128;
/// The least number of places in a list lent for segments, and the greatest number of segments.
pub const SEGMENT_PLACES: usize = 255;
/// The length of a slot, in bytes.
pub const SLOT_BYTES: usize = 768;
/// The least number of places in a list lent for rows, and the greatest number of rows in a slot.
pub const ROWS: usize = 64;
/// The greatest number of scenes in a query.
pub const SCENES: usize = 16;
/// The greatest number of pairs in a call of [`lookups`].
pub const PAIRS: usize = 64;
/// The greatest width of a memory, in frames.
pub const MOST_WIDTH: u16 = c::MOST_WIDTH;

/// What a frame's value is, over the records of its group that contain it or, with a memory, at least
/// one of the last frames; and the value of a window's row, over those that contain at least one of
/// its frames.
///
/// Any number can be asked for; one above 4 is question 2's 'no'.
#[derive(Clone, Copy, Debug, PartialEq, Eq, PartialOrd, Ord, Hash)]
pub struct Kind(pub u8);

impl Kind {
    /// The sum of the loads.
    ///
    /// By a bound, a row holds the whole number nearest to the mean of its frames' values, and the
    /// upper one where two are equally near.
    ///
    /// ```
    /// use pacer::{Bound, Kind, Query, Record};
    ///
    /// # fn main() -> Result<(), pacer::Refusal> {
    /// // Loads 0 and 1 in one row: their mean is a half, and halves go up.
    /// let log = pacer::log(&[
    ///     Record { group: 0, first: 0, last: 0, load: 0 },
    ///     Record { group: 0, first: 1, last: 1, load: 1 },
    /// ])?;
    /// let mut slot = [0; pacer::SLOT_BYTES];
    /// let query = Query::new(Kind::SUM, Bound::Rows(1));
    /// assert_eq!(pacer::query(query, &log, &mut slot)?.error, 1);
    /// assert_eq!(pacer::lookup(&slot, 0, 0)?, Some(1));
    /// # Ok(())
    /// # }
    /// ```
    pub const SUM: Kind = Kind(0);
    /// The count of records.
    pub const COUNT: Kind = Kind(1);
    /// The least load.
    pub const LEAST: Kind = Kind(2);
    /// The greatest load.
    ///
    /// By a bound, a row of this kind holds the greatest value in it, and its error is taken from
    /// that, so that no frame needs more than its row says. Rows of every other kind hold the
    /// whole number nearest to the mean, the upper one at a half.
    ///
    /// ```
    /// use pacer::{Bound, Kind, Query, Record};
    ///
    /// # fn main() -> Result<(), pacer::Refusal> {
    /// // A load of 200 with a peak of 900, in one row.
    /// let log = pacer::log(&[
    ///     Record { group: 0, first: 0, last: 59, load: 200 },
    ///     Record { group: 0, first: 30, last: 31, load: 900 },
    /// ])?;
    /// let mut slot = [0; pacer::SLOT_BYTES];
    /// let query = Query::new(Kind::GREATEST, Bound::Rows(1));
    /// let answer = pacer::query(query, &log, &mut slot)?;
    /// assert_eq!(answer.error, 58 * 700 * 700);
    /// assert_eq!(pacer::lookup(&slot, 0, 30)?, Some(900));
    /// # Ok(())
    /// # }
    /// ```
    pub const GREATEST: Kind = Kind(3);
    /// The mean load in hundredths of a thousandth, rounded down: 100 times the sum of the loads
    /// divided by the count of records.
    ///
    /// ```
    /// use pacer::{Kind, Record, Segment, SEGMENT_PLACES};
    ///
    /// # fn main() -> Result<(), pacer::Refusal> {
    /// // Loads 0, 0 and 1 at frame 0, and 0 and 1 at frame 1.
    /// let log = pacer::log(&[
    ///     Record { group: 0, first: 0, last: 0, load: 0 },
    ///     Record { group: 0, first: 0, last: 1, load: 0 },
    ///     Record { group: 0, first: 0, last: 1, load: 1 },
    /// ])?;
    /// let mut list = [Segment::default(); SEGMENT_PLACES];
    /// let found = pacer::segments(&log, Kind::MEAN, &mut list)?;
    /// let values: Vec<u32> = found.iter().map(|segment| segment.value).collect();
    /// assert_eq!(values, [33, 50]);
    /// # Ok(())
    /// # }
    /// ```
    pub const MEAN: Kind = Kind(4);
}

/// One load of a subsystem over some frames.
#[derive(Clone, Copy, Debug, PartialEq, Eq, Hash)]
pub struct Record {
    /// The subsystem, 0 to 7.
    pub group: u8,
    /// The first frame.
    pub first: u16,
    /// The last frame, included; not below the first.
    pub last: u16,
    /// The load in thousandths of a frame's time, 0 to 1,000.
    pub load: u16,
}

/// Some consecutive frames that get a row of their own, whatever the loads in them are.
#[derive(Clone, Copy, Debug, PartialEq, Eq, Hash)]
pub struct Scene {
    /// The first frame.
    pub first: u16,
    /// The last frame, included; not below the first.
    pub last: u16,
}

impl Scene {
    /// The scene from a first frame to a last one, both included.
    pub const fn new(first: u16, last: u16) -> Self {
        Scene { first, last }
    }
}

/// What a query's rows are made by: a bound, to which the log's segments are merged, or windows.
///
/// Each window gives each group a row with the window's own first and last frame and the kind's
/// value over all records of the group that contain at least one of its frames, each counted once.
/// A window that no record of a group meets gives that group no row.
///
/// ```
/// use pacer::{Kind, Query, Record, Row, Rule};
///
/// # fn main() -> Result<(), pacer::Refusal> {
/// // Two seconds at 60 frames each, and a peak over their border.
/// let log = pacer::log(&[
///     Record { group: 0, first: 0, last: 119, load: 200 },
///     Record { group: 0, first: 58, last: 61, load: 900 },
/// ])?;
/// let mut slot = [0; pacer::SLOT_BYTES];
/// let query = Query::new(Kind::GREATEST, Rule::Every { length: 60, start: 0 });
/// pacer::query(query, &log, &mut slot)?;
/// assert_eq!(
///     pacer::read(&slot)?.rows(),
///     [
///         Row { group: 0, first: 0, last: 59, value: 900 },
///         Row { group: 0, first: 60, last: 119, value: 900 },
///     ]
/// );
/// # Ok(())
/// # }
/// ```
#[derive(Clone, Copy, Debug, PartialEq, Eq, Hash)]
pub enum Rule<'a> {
    /// A row limit, 0 to 64: the least error that so many rows or fewer can have.
    Rows(u16),
    /// An error share, 0 to 1,000 thousandths: the fewest rows whose error is at most this share
    /// of the least error at the fewest possible rows.
    Share(u16),
    /// Beats: windows of so many frames, one after the other. Frames before the start lie in none.
    Every {
        /// The frames of a window, at least 1; the last window is cut off at frame 65,535.
        length: u16,
        /// The first frame of the first window.
        start: u16,
    },
    /// 1 to 16 scenes, each wholly after the one before. They may touch, and need not.
    Scenes(&'a [Scene]),
}

/// The rule of a query by its other name, for queries by a bound.
pub type Bound<'a> = Rule<'a>;

/// What is asked of a log.
#[derive(Clone, Copy, Debug, PartialEq, Eq, Hash)]
pub struct Query<'a> {
    /// The aggregate over the records that contain a frame or one of the last frames, or meet a
    /// window.
    pub kind: Kind,
    /// The row limit or the error share; or the windows, which stand in place of a bound.
    pub bound: Rule<'a>,
    /// Over how many of the last frames, the frame itself included, its value looks back: 1 to
    /// [`MOST_WIDTH`]. A query by windows does not read it.
    pub width: u16,
}

impl<'a> Query<'a> {
    /// A query without a memory: the width is 1, so that a frame's value is over the records that
    /// contain the frame itself.
    ///
    /// ```
    /// use pacer::{Kind, Query, Rule};
    ///
    /// let query = Query::new(Kind::SUM, Rule::Rows(4));
    /// assert_eq!(query, Query { kind: Kind::SUM, bound: Rule::Rows(4), width: 1 });
    /// ```
    pub const fn new(kind: Kind, bound: Rule<'a>) -> Self {
        Query {
            kind,
            bound,
            width: c::ONE_FRAME,
        }
    }

    /// The same query with a memory of so many frames, as heat follows the last seconds of play: a
    /// frame's value is over the records of its group that contain at least one of the last `width`
    /// frames, the frame itself included, and a frame is covered if there is such a record. Frames
    /// past 65,535 do not exist.
    ///
    /// Any width can be asked for; 0 and one above [`MOST_WIDTH`] are question 25's 'no'. A query by
    /// windows reads no width, and is not asked 25. A slot does not say which width it was made with.
    ///
    /// ```
    /// use pacer::{Kind, Query, Record, Row, Rule};
    ///
    /// // One frame of load 900, and another one three frames later.
    /// let log = pacer::log(&[
    ///     Record { group: 0, first: 10, last: 10, load: 900 },
    ///     Record { group: 0, first: 13, last: 13, load: 600 },
    /// ])?;
    /// let query = Query::new(Kind::GREATEST, Rule::Rows(2));
    /// let rows = |width| -> Result<Vec<Row>, pacer::Refusal> {
    ///     let mut slot = [0; pacer::SLOT_BYTES];
    ///     pacer::query(query.with_memory(width), &log, &mut slot)?;
    ///     Ok(pacer::read(&slot)?.rows().to_vec())
    /// };
    /// let row = |first, last, value| Row { group: 0, first, last, value };
    /// assert_eq!(rows(1)?, [row(10, 10, 900), row(13, 13, 600)]);
    /// assert_eq!(rows(2)?, [row(10, 11, 900), row(13, 14, 600)]);
    /// // Three frames close the gap, and with four the first load still counts at frame 13.
    /// assert_eq!(rows(3)?, [row(10, 12, 900), row(13, 15, 600)]);
    /// assert_eq!(rows(4)?, [row(10, 13, 900), row(14, 16, 600)]);
    ///
    /// for wrong in [0, pacer::MOST_WIDTH + 1] {
    ///     assert_eq!(rows(wrong).unwrap_err().question, 25);
    /// }
    /// // By windows the width is not read.
    /// let beats = Query::new(Kind::GREATEST, Rule::Every { length: 60, start: 0 });
    /// let mut slot = [0; pacer::SLOT_BYTES];
    /// assert_eq!(pacer::query(beats.with_memory(0), &log, &mut slot)?.rows, 1);
    /// # Ok::<(), pacer::Refusal>(())
    /// ```
    pub const fn with_memory(self, width: u16) -> Self {
        Query { width, ..self }
    }
}

/// What a query wrote into the slot.
#[derive(Clone, Copy, Debug, PartialEq, Eq, Hash)]
pub struct Reduction {
    /// The count of rows.
    pub rows: usize,
    /// The squared error of the rows, summed frame by frame; 0 for rows by windows.
    pub error: u64,
    /// The number of cuts that the search weighed; 0 for rows by windows.
    pub weighed: u64,
}

/// The first question that got 'no'.
///
/// ```
/// use pacer::{Bound, Kind, Query};
///
/// let query = Query::new(Kind(5), Bound::Rows(65));
/// let mut slot = [0; pacer::SLOT_BYTES];
/// let refusal = pacer::query(query, &[], &mut slot).unwrap_err();
/// assert_eq!((refusal.question, refusal.index), (2, 0));
/// assert_eq!(refusal.to_string(), "question 2 got 'no': Is the kind 0 to 4?");
/// ```
#[derive(Clone, Copy, Debug, PartialEq, Eq, Hash)]
pub struct Refusal {
    /// The question's number, 1 to 26.
    pub question: u8,
    /// The index from 0 of the record, row or pair concerned, for questions 6 to 9, 14 to 16 and 21; 0
    /// for the others.
    pub index: usize,
}

impl Refusal {
    /// The question's words.
    ///
    /// ```
    /// let refusal = pacer::read(&[0; 768]).unwrap_err();
    /// assert_eq!(
    ///     refusal.words(),
    ///     "Header mark right (50 48 or 50 53; against a log 50 48 alone)?"
    /// );
    /// ```
    pub fn words(&self) -> &'static str {
        match self.question {
            1 => "Is the lent buffer or list long enough (slot 768, segments 255, rows 64, record 9, for a log without its twins as long as the log, and for many lookups as long as the pairs)?",
            2 => "Is the kind 0 to 4?",
            3 => "Is c at most 64, or p at most 1,000?",
            4 => "Is the log's length a multiple of 9?",
            5 => "Has it at most 128 records?",
            6 => "Does the record begin with its mark?",
            7 => "Is the group 0 to 7?",
            8 => "Is first at most last?",
            9 => "Is the load at most 1,000?",
            10 => "Is c at least m; with a share, do 64 rows or fewer meet it?",
            11 => "Header mark right (50 48 or 50 53; against a log 50 48 alone)?",
            12 => "Slot's kind 0 to 4?",
            13 => "Row count at most 64?",
            14 => "Row mark right?",
            15 => "Row's group 0 to 7, first at most last, value at most 128,000?",
            16 => "Is its group above the previous row's, or equal with first above the previous last?",
            17 => "Are all bytes after the last row, to 768, zero, and with the header 50 53 the error too?",
            18 => "Is the length of the beats at least 1?",
            19 => "Are there 1 to 16 scenes, as many firsts as lasts, each first at most its last, and each scene wholly after the one before?",
            20 => "Are there at most 64 rows?",
            21 => "Does no earlier record have the same nine bytes?",
            22 => "Do the rows cover, group by group, just the covered frames?",
            23 => "Is no row of kind 3 below the value of a covered frame in it?",
            24 => "Is the header's error the squared error of the rows, summed frame by frame?",
            25 => "Is the width 1 to 4,096?",
            26 => "Are there at most 64 pairs?",
            _ => "unknown question",
        }
    }

    fn from_answer(question: u8, index: usize) -> Result<(), Refusal> {
        if question == 0 {
            Ok(())
        } else {
            Err(Refusal { question, index })
        }
    }
}

impl fmt::Display for Refusal {
    fn fmt(&self, f: &mut fmt::Formatter<'_>) -> fmt::Result {
        write!(f, "question {}", self.question)?;
        if matches!(self.question, 6..=9 | 14..=16 | 21) {
            write!(f, " at index {}", self.index)?;
        }
        write!(f, " got 'no': {}", self.words())
    }
}

impl Error for Refusal {}

/// Writes one record into the first 9 bytes of a buffer; the other bytes keep their content.
///
/// Asks questions 1, 7, 8 and 9.
///
/// ```
/// use pacer::Record;
///
/// let mut buffer = [0xEE; 10];
/// pacer::write_record(Record { group: 0, first: 0, last: 3, load: 100 }, &mut buffer)?;
/// assert_eq!(buffer, [0x4C, 0x44, 0, 0, 0, 3, 0, 0x64, 0, 0xEE]);
///
/// let late = Record { group: 0, first: 4, last: 3, load: 100 };
/// assert_eq!(pacer::write_record(late, &mut buffer).unwrap_err().question, 8);
/// # Ok::<(), pacer::Refusal>(())
/// ```
pub fn write_record(record: Record, buffer: &mut [u8]) -> Result<(), Refusal> {
    let answer = c::write_record(record.group, record.first, record.last, record.load, buffer);
    Refusal::from_answer(answer.question, answer.index)
}

/// The bytes of a log of some records.
///
/// Asks questions 7, 8 and 9 of every record; the refusal's index is the record's. The number of
/// records is not limited here, but no other call accepts more than 128; nor are equal records
/// refused here, but by every other call except [`without_twins`]. The order of the records is the
/// caller's choice: a log that those calls accept, they answer alike in every order.
///
/// ```
/// use pacer::Record;
///
/// let good = Record { group: 0, first: 0, last: 3, load: 100 };
/// let next = Record { first: 4, last: 7, ..good };
/// assert_eq!(pacer::log(&[good, next])?.len(), 18);
/// let heavy = Record { load: 1_001, ..good };
/// let refusal = pacer::log(&[good, heavy]).unwrap_err();
/// assert_eq!((refusal.question, refusal.index), (9, 1));
/// # Ok::<(), pacer::Refusal>(())
/// ```
pub fn log(records: &[Record]) -> Result<Vec<u8>, Refusal> {
    let mut bytes = vec![0; RECORD_BYTES * records.len()];
    for (index, (record, place)) in records
        .iter()
        .zip(bytes.chunks_exact_mut(RECORD_BYTES))
        .enumerate()
    {
        write_record(*record, place).map_err(|refusal| Refusal { index, ..refusal })?;
    }
    Ok(bytes)
}

/// Writes a log without its twins to the front of a buffer, which is at least as long as the log,
/// and gives the number of bytes written: the first of equal records and the others, in their
/// order. The other bytes of the buffer keep their content.
///
/// This is for logs on file. A logger restarted in a scene writes its last record twice, so that
/// the sum doubles; every other call refuses such a log by question 21. Records are equal if all
/// nine bytes are.
///
/// Asks questions 1 and 4 to 9, and not 21.
///
/// ```
/// use pacer::{Bound, Kind, Query, Record};
///
/// let start = Record { group: 0, first: 0, last: 59, load: 200 };
/// let peak = Record { group: 0, first: 58, last: 61, load: 900 };
/// let on_file = pacer::log(&[start, peak, peak])?;
///
/// // The third record is the second one's twin.
/// let query = Query::new(Kind::SUM, Bound::Rows(1));
/// let mut slot = [0; pacer::SLOT_BYTES];
/// let refusal = pacer::query(query, &on_file, &mut slot).unwrap_err();
/// assert_eq!((refusal.question, refusal.index), (21, 2));
///
/// let mut buffer = vec![0xEE; on_file.len()];
/// let length = pacer::without_twins(&on_file, &mut buffer)?;
/// assert_eq!(buffer[..length], pacer::log(&[start, peak])?);
/// assert_eq!(buffer[length..], [0xEE; 9]);
/// assert_eq!(pacer::query(query, &buffer[..length], &mut slot)?.rows, 1);
/// # Ok::<(), pacer::Refusal>(())
/// ```
pub fn without_twins(log: &[u8], buffer: &mut [u8]) -> Result<usize, Refusal> {
    let answer = c::without_twins(log, buffer);
    Refusal::from_answer(answer.question, answer.index)?;
    Ok(answer.length)
}

/// Writes a log's segments into a list of at least 255 places and gives those written, by group
/// and then by first frame. The other places keep their content. A frame's value is over the records
/// that contain it; with a memory it is [`segments_with_memory`].
///
/// Asks questions 1, 2, 4 to 9 and 21, the last after 9 of the same record.
///
/// A log that passes 4 to 9 and 21 has the same segments with its records in any other order.
///
/// ```
/// use pacer::{Kind, Record, Segment, SEGMENT_PLACES};
///
/// let log = pacer::log(&[
///     Record { group: 0, first: 0, last: 3, load: 100 },
///     Record { group: 0, first: 2, last: 5, load: 200 },
/// ])?;
/// let mut list = [Segment::default(); SEGMENT_PLACES];
/// assert_eq!(
///     pacer::segments(&log, Kind::SUM, &mut list)?,
///     [
///         Segment { group: 0, first: 0, last: 1, value: 100 },
///         Segment { group: 0, first: 2, last: 3, value: 300 },
///         Segment { group: 0, first: 4, last: 5, value: 200 },
///     ]
/// );
/// # Ok::<(), pacer::Refusal>(())
/// ```
pub fn segments<'a>(
    log: &[u8],
    kind: Kind,
    list: &'a mut [Segment],
) -> Result<&'a [Segment], Refusal> {
    segments_with_memory(log, kind, c::ONE_FRAME, list)
}

/// Writes a log's segments with a memory into a list, as [`segments`] does without one: a frame's
/// value is over the records of its group that contain at least one of the last `width` frames, the
/// frame itself included, and a frame is covered if there is such a record. Frames past 65,535 do not
/// exist. Width 1 is no memory.
///
/// Asks questions 1, 2, 25, 4 to 9 and 21, the last after 9 of the same record.
///
/// A log that passes 4 to 9 and 21 has the same segments with its records in any other order.
///
/// ```
/// use pacer::{Kind, Record, Segment, SEGMENT_PLACES};
///
/// let log = pacer::log(&[
///     Record { group: 0, first: 0, last: 3, load: 100 },
///     Record { group: 0, first: 2, last: 5, load: 200 },
///     Record { group: 7, first: 65_534, last: 65_534, load: 50 },
/// ])?;
/// let mut list = [Segment::default(); SEGMENT_PLACES];
/// assert_eq!(
///     pacer::segments_with_memory(&log, Kind::SUM, 3, &mut list)?,
///     [
///         Segment { group: 0, first: 0, last: 1, value: 100 },
///         Segment { group: 0, first: 2, last: 5, value: 300 },
///         Segment { group: 0, first: 6, last: 7, value: 200 },
///         Segment { group: 7, first: 65_534, last: 65_535, value: 50 },
///     ]
/// );
///
/// let refusal = pacer::segments_with_memory(&log, Kind::SUM, 0, &mut list).unwrap_err();
/// assert_eq!(refusal.to_string(), "question 25 got 'no': Is the width 1 to 4,096?");
/// # Ok::<(), pacer::Refusal>(())
/// ```
pub fn segments_with_memory<'a>(
    log: &[u8],
    kind: Kind,
    width: u16,
    list: &'a mut [Segment],
) -> Result<&'a [Segment], Refusal> {
    let answer = c::segments(log, kind.0, width, list);
    Refusal::from_answer(answer.question, answer.index)?;
    Ok(&list[..answer.count])
}

/// Reduces a log to the rows that the query asks for and writes them into the first 768 bytes of
/// a slot; the other bytes keep their content.
///
/// Asks questions 1 to 10, with 25 directly after 3, and 21 of a record after its 9. By windows it
/// asks 18 or 19 in place of 3 and 25, and 20 in place of 10.
///
/// A log that passes 4 to 9 and 21 gives the same answer, refusals by 10 and 20 included, and the
/// same 768 bytes with its records in any other order.
///
/// ```
/// use pacer::{Bound, Kind, Query, Record};
///
/// // Loads 0, 4 and 8 in frames 0, 1 and 2.
/// let log = pacer::log(&[0u16, 1, 2].map(|frame| Record {
///     group: 0,
///     first: frame,
///     last: frame,
///     load: 4 * frame,
/// }))?;
/// let mut slot = [0; pacer::SLOT_BYTES];
/// let query = Query::new(Kind::SUM, Bound::Rows(2));
/// assert_eq!(pacer::query(query, &log, &mut slot)?.error, 8);
///
/// let query = Query::new(Kind::SUM, Bound::Rows(0));
/// assert_eq!(pacer::query(query, &log, &mut slot).unwrap_err().question, 10);
/// # Ok::<(), pacer::Refusal>(())
/// ```
///
/// Rows by scenes; the frames between them lie in no row:
///
/// ```
/// use pacer::{Header, Kind, Query, Record, Row, Rule, Scene};
///
/// let log = pacer::log(&[
///     Record { group: 2, first: 0, last: 900, load: 150 },
///     Record { group: 2, first: 890, last: 1_300, load: 400 },
/// ])?;
/// let scenes = [Scene::new(0, 599), Scene::new(600, 999), Scene::new(2_000, 2_499)];
/// let query = Query::new(Kind::MEAN, Rule::Scenes(&scenes));
/// let mut slot = [0; pacer::SLOT_BYTES];
/// assert_eq!(pacer::query(query, &log, &mut slot)?.rows, 2);
///
/// let profile = pacer::read(&slot)?;
/// assert_eq!(profile.header(), Header::ByWindows);
/// assert_eq!(
///     profile.rows(),
///     [
///         Row { group: 2, first: 0, last: 599, value: 15_000 },
///         Row { group: 2, first: 600, last: 999, value: 27_500 },
///     ]
/// );
/// assert_eq!(profile.lookup(2, 2_000)?, None);
///
/// // Scenes in the wrong order.
/// let query = Query { bound: Rule::Scenes(&[scenes[1], scenes[0]]), ..query };
/// assert_eq!(pacer::query(query, &log, &mut slot).unwrap_err().question, 19);
/// # Ok::<(), pacer::Refusal>(())
/// ```
///
/// A log backwards gives the same slot, by a bound and by beats, and the same refusal:
///
/// ```
/// use pacer::{Bound, Kind, Query, Record, Rule};
///
/// let mut records = [
///     Record { group: 1, first: 0, last: 59, load: 200 },
///     Record { group: 0, first: 30, last: 89, load: 350 },
///     Record { group: 0, first: 20, last: 79, load: 310 },
/// ];
/// let log = pacer::log(&records)?;
/// records.reverse();
/// let backwards = pacer::log(&records)?;
/// for bound in [Bound::Rows(3), Rule::Every { length: 60, start: 0 }, Bound::Rows(1)] {
///     let query = Query::new(Kind::MEAN, bound);
///     let mut slots = [[0; pacer::SLOT_BYTES]; 2];
///     let answer = pacer::query(query, &log, &mut slots[0]);
///     assert_eq!(pacer::query(query, &backwards, &mut slots[1]), answer);
///     assert_eq!(slots[0], slots[1]);
/// }
///
/// // The index of a wrong record is that of the log as lent: the same record, with group 8.
/// for (mut damaged, index) in [(log, 0), (backwards, 2)] {
///     damaged[9 * index + 2] = 8;
///     let mut slot = [0; pacer::SLOT_BYTES];
///     let query = Query::new(Kind::MEAN, Bound::Rows(3));
///     let refusal = pacer::query(query, &damaged, &mut slot).unwrap_err();
///     assert_eq!((refusal.question, refusal.index), (7, index));
/// }
/// # Ok::<(), pacer::Refusal>(())
/// ```
pub fn query(query: Query, log: &[u8], slot: &mut [u8]) -> Result<Reduction, Refusal> {
    let kind = query.kind.0;
    let answer = match query.bound {
        Rule::Rows(limit) => c::query(kind, c::ROWS, limit, query.width, log, slot),
        Rule::Share(share) => c::query(kind, c::SHARE, share, query.width, log, slot),
        Rule::Every { length, start } => c::query_beats(kind, length, start, log, slot),
        Rule::Scenes(scenes) => {
            // One scene too many is as wrong a count as several.
            let mut firsts = [0; SCENES + 1];
            let mut lasts = [0; SCENES + 1];
            let count = scenes.len().min(SCENES + 1);
            for (place, scene) in scenes[..count].iter().enumerate() {
                firsts[place] = scene.first;
                lasts[place] = scene.last;
            }
            c::query_scenes(kind, &firsts[..count], &lasts[..count], log, slot)
        }
    };
    Refusal::from_answer(answer.question, answer.index)?;
    Ok(Reduction {
        rows: answer.rows,
        error: answer.error,
        weighed: answer.weighed,
    })
}

/// Reads a slot with all of its rows.
///
/// Asks questions 1 and 11 to 17. Every error number is accepted, under the header of windows 0
/// alone. Whether the slot belongs to some log is not asked here, but by [`check`].
///
/// ```
/// let mut slot = [0; pacer::SLOT_BYTES];
/// slot[..2].copy_from_slice(&[0x50, 0x48]);
/// let profile = pacer::read(&slot)?;
/// assert_eq!((profile.len(), profile.error()), (0, 0));
///
/// slot[767] = 1;
/// assert_eq!(pacer::read(&slot).unwrap_err().question, 17);
/// # Ok::<(), pacer::Refusal>(())
/// ```
///
/// At boot, a title's slots one after the other. All of a slot is asked, its empty places too:
///
/// ```
/// let mut slots = vec![[0; pacer::SLOT_BYTES]; 400];
/// for slot in &mut slots {
///     slot[..2].copy_from_slice(&[0x50, 0x48]);
/// }
/// slots[123][500] = 1;
/// let damaged = slots.iter().position(|slot| pacer::read(slot).is_err());
/// assert_eq!(damaged, Some(123));
/// ```
pub fn read(slot: &[u8]) -> Result<Profile<'_>, Refusal> {
    let mut list = [Row::default(); ROWS];
    let answer = c::read_rows(slot, &mut list);
    Refusal::from_answer(answer.question, answer.index)?;
    Ok(Profile {
        slot,
        header: if answer.mark == c::BY_WINDOWS {
            Header::ByWindows
        } else {
            Header::ByBound
        },
        kind: Kind(answer.kind),
        error: answer.error,
        list,
        count: answer.rows,
    })
}

/// Which header a slot has: what its rows were made by.
#[derive(Clone, Copy, Debug, PartialEq, Eq, Hash)]
pub enum Header {
    /// `50 48`: a row limit or an error share.
    ByBound,
    /// `50 53`: beats or scenes. The error is 0.
    ByWindows,
}

/// An accepted slot, with the rows read from it.
#[derive(Clone, Copy, Debug)]
pub struct Profile<'a> {
    slot: &'a [u8],
    header: Header,
    kind: Kind,
    error: u64,
    list: [Row; ROWS],
    count: usize,
}

impl Profile<'_> {
    /// The header that the slot has.
    ///
    /// ```
    /// use pacer::Header;
    ///
    /// let mut slot = [0; pacer::SLOT_BYTES];
    /// slot[..2].copy_from_slice(&[0x50, 0x48]);
    /// assert_eq!(pacer::read(&slot)?.header(), Header::ByBound);
    /// slot[1] = 0x53;
    /// assert_eq!(pacer::read(&slot)?.header(), Header::ByWindows);
    ///
    /// // Rows by windows have no error.
    /// slot[4] = 1;
    /// assert_eq!(pacer::read(&slot).unwrap_err().question, 17);
    /// # Ok::<(), pacer::Refusal>(())
    /// ```
    pub fn header(&self) -> Header {
        self.header
    }

    /// The kind that the slot names.
    pub fn kind(&self) -> Kind {
        self.kind
    }

    /// The error that the slot names.
    pub fn error(&self) -> u64 {
        self.error
    }

    /// The count of rows.
    pub fn len(&self) -> usize {
        self.count
    }

    /// Whether there is no row.
    pub fn is_empty(&self) -> bool {
        self.count == 0
    }

    /// The rows, by group and then by first frame.
    pub fn rows(&self) -> &[Row] {
        &self.list[..self.count]
    }

    /// The value of the row that contains a frame of a group, if there is one. Asks question 7.
    pub fn lookup(&self, group: u8, frame: u16) -> Result<Option<u32>, Refusal> {
        lookup(self.slot, group, frame)
    }

    /// The values of many pairs of group and frame as a set, as [`lookups`] gives them. Asks questions
    /// 26 and 7.
    ///
    /// ```
    /// # use pacer::{Kind, Query, Record, Rule};
    /// # let log = pacer::log(&[Record { group: 3, first: 5, last: 9, load: 40 }])?;
    /// # let mut slot = [0; pacer::SLOT_BYTES];
    /// # pacer::query(Query::new(Kind::SUM, Rule::Rows(1)), &log, &mut slot)?;
    /// let profile = pacer::read(&slot)?;
    /// assert_eq!(profile.lookups(&[(3, 9), (3, 10), (2, 9)])?, [Some(40), None, None]);
    /// # Ok::<(), pacer::Refusal>(())
    /// ```
    pub fn lookups(&self, pairs: &[(u8, u16)]) -> Result<Vec<Option<u32>>, Refusal> {
        lookups(self.slot, pairs)
    }

    /// The same into a lent list, as [`lookups_into`] writes them. Asks questions 1 of the list, 26 and
    /// 7.
    pub fn lookups_into(
        &self,
        pairs: &[(u8, u16)],
        answers: &mut [Option<u32>],
    ) -> Result<(), Refusal> {
        lookups_into(self.slot, pairs, answers)
    }

    /// Whether the rows and the error are those of a log, as [`check`] says.
    pub fn check(&self, log: &[u8]) -> Result<(), Refusal> {
        check(log, self.slot)
    }

    /// Whether the rows and the error are those of a log with a memory of so many frames, as
    /// [`check_with_memory`] says.
    ///
    /// ```
    /// use pacer::{Kind, Query, Record, Rule};
    ///
    /// let log = pacer::log(&[Record { group: 0, first: 0, last: 59, load: 200 }])?;
    /// let mut slot = [0; pacer::SLOT_BYTES];
    /// let query = Query::new(Kind::SUM, Rule::Rows(1)).with_memory(60);
    /// pacer::query(query, &log, &mut slot)?;
    /// let profile = pacer::read(&slot)?;
    /// assert_eq!(profile.rows()[0].last, 118);
    /// assert_eq!(profile.check_with_memory(&log, query.width), Ok(()));
    /// assert_eq!(profile.check(&log).unwrap_err().question, 22);
    /// # Ok::<(), pacer::Refusal>(())
    /// ```
    pub fn check_with_memory(&self, log: &[u8], width: u16) -> Result<(), Refusal> {
        check_with_memory(log, width, self.slot)
    }
}

impl<'a> IntoIterator for &'a Profile<'_> {
    type Item = &'a Row;
    type IntoIter = std::slice::Iter<'a, Row>;

    fn into_iter(self) -> Self::IntoIter {
        self.rows().iter()
    }
}

/// A walk over a slot: the slot and the number of the next row.
///
/// Unlike [`read`] it takes any bytes; every step asks the slot's questions.
///
/// ```
/// use pacer::Walker;
///
/// let mut slot = [0; pacer::SLOT_BYTES];
/// assert_eq!(Walker::new(&slot).step().unwrap_err().question, 11);
/// slot[..2].copy_from_slice(&[0x50, 0x48]);
/// assert_eq!(Walker::new(&slot).step(), Ok(None));
/// ```
#[derive(Clone, Debug)]
pub struct Walker<'a> {
    slot: &'a [u8],
    number: usize,
}

impl<'a> Walker<'a> {
    /// A walk from row 0.
    pub fn new(slot: &'a [u8]) -> Self {
        Walker { slot, number: 0 }
    }

    /// The number of the next row.
    pub fn number(&self) -> usize {
        self.number
    }

    /// Hands out the next row, or `None` at the end. The end and a refusal change nothing.
    pub fn step(&mut self) -> Result<Option<Row>, Refusal> {
        let answer = c::row_at(self.slot, self.number);
        self.number = answer.next;
        row_in(answer)
    }
}

/// The row with a number, from 0; `None` if the number is not below the count of rows.
///
/// Asks questions 1 and 11 to 17.
///
/// ```
/// let mut slot = [0; pacer::SLOT_BYTES];
/// slot[..2].copy_from_slice(&[0x50, 0x48]);
/// assert_eq!(pacer::row_at(&slot, 0), Ok(None));
/// ```
pub fn row_at(slot: &[u8], number: usize) -> Result<Option<Row>, Refusal> {
    row_in(c::row_at(slot, number))
}

/// The row of a step's answer.
fn row_in(answer: c::StepAnswer) -> Result<Option<Row>, Refusal> {
    Refusal::from_answer(answer.question, answer.index)?;
    Ok((answer.found == 1).then_some(Row {
        group: answer.group,
        first: answer.first,
        last: answer.last,
        value: answer.value,
    }))
}

/// The value of the row of a group that contains a frame; `None` if the frame is uncovered.
///
/// Asks questions 1 and 11 to 17, then 7 of the group asked for.
///
/// ```
/// # use pacer::{Bound, Kind, Query, Record};
/// # let log = pacer::log(&[Record { group: 3, first: 5, last: 9, load: 40 }])?;
/// # let mut slot = [0; pacer::SLOT_BYTES];
/// # pacer::query(Query::new(Kind::SUM, Bound::Rows(1)), &log, &mut slot)?;
/// assert_eq!(pacer::lookup(&slot, 3, 9)?, Some(40));
/// assert_eq!(pacer::lookup(&slot, 3, 10)?, None);
/// assert_eq!(pacer::lookup(&slot, 8, 9).unwrap_err().question, 7);
/// # Ok::<(), pacer::Refusal>(())
/// ```
pub fn lookup(slot: &[u8], group: u8, frame: u16) -> Result<Option<u32>, Refusal> {
    let answer = c::lookup(slot, group, frame);
    Refusal::from_answer(answer.question, answer.index)?;
    Ok((answer.covered == 1).then_some(answer.value))
}

/// Looks up many pairs of group and frame as a set: the answer of each, as [`lookup`] gives it, in the
/// order of the pairs; or a refusal, and no answer at all.
///
/// Asks questions 1 and 11 to 17 of the slot, with no pairs too, then 26 (at most [`PAIRS`]), and then 7
/// of pair after pair; the refusal's index is the pair's.
///
/// The answers are in a list that is made for them; [`lookups_into`] makes none.
///
/// ```
/// use pacer::{Kind, Query, Record, Rule, PAIRS};
///
/// // Two groups at frame 2, and one of them where it is uncovered.
/// let log = pacer::log(&[
///     Record { group: 0, first: 0, last: 3, load: 100 },
///     Record { group: 5, first: 2, last: 2, load: 0 },
/// ])?;
/// let mut slot = [0; pacer::SLOT_BYTES];
/// pacer::query(Query::new(Kind::SUM, Rule::Rows(2)), &log, &mut slot)?;
/// let answers = pacer::lookups(&slot, &[(5, 2), (0, 2), (0, 4)])?;
/// assert_eq!(answers, [Some(0), Some(100), None]);
///
/// // The third pair is the first with a group that there is not.
/// let refusal = pacer::lookups(&slot, &[(5, 2), (0, 2), (8, 2), (9, 2)]).unwrap_err();
/// assert_eq!((refusal.question, refusal.index), (7, 2));
///
/// assert_eq!(pacer::lookups(&slot, &[(0, 3); PAIRS])?, [Some(100); PAIRS]);
/// let refusal = pacer::lookups(&slot, &[(0, 3); PAIRS + 1]).unwrap_err();
/// assert_eq!(refusal.to_string(), "question 26 got 'no': Are there at most 64 pairs?");
/// # Ok::<(), pacer::Refusal>(())
/// ```
pub fn lookups(slot: &[u8], pairs: &[(u8, u16)]) -> Result<Vec<Option<u32>>, Refusal> {
    let mut answers = vec![None; pairs.len()];
    lookups_into(slot, pairs, &mut answers)?;
    Ok(answers)
}

/// Looks up many pairs of group and frame as a set, as [`lookups`] does, into a list of at least as many
/// places; later places keep their content, and in a refusal all do. Nothing is allocated.
///
/// Asks question 1 of the slot and of the list, then what [`lookups`] asks.
///
/// ```
/// # use pacer::{Kind, Query, Record, Rule};
/// # let log = pacer::log(&[Record { group: 3, first: 5, last: 9, load: 40 }])?;
/// # let mut slot = [0; pacer::SLOT_BYTES];
/// # pacer::query(Query::new(Kind::SUM, Rule::Rows(1)), &log, &mut slot)?;
/// // Eight groups for one frame. What they are mixed from is set as a whole or stays as it was.
/// let at = |frame| [0, 1, 2, 3, 4, 5, 6, 7].map(|group| (group, frame));
/// let mut mixed = [Some(1); 8];
/// pacer::lookups_into(&slot, &at(9), &mut mixed)?;
/// assert_eq!(mixed, [None, None, None, Some(40), None, None, None, None]);
///
/// let mut pairs = at(10);
/// pairs[4].0 = 8;
/// let refusal = pacer::lookups_into(&slot, &pairs, &mut mixed).unwrap_err();
/// assert_eq!((refusal.question, refusal.index), (7, 4));
/// assert_eq!(mixed[3], Some(40));
///
/// let refusal = pacer::lookups_into(&slot, &at(9), &mut mixed[..7]).unwrap_err();
/// assert_eq!(refusal.question, 1);
/// # Ok::<(), pacer::Refusal>(())
/// ```
pub fn lookups_into(
    slot: &[u8],
    pairs: &[(u8, u16)],
    answers: &mut [Option<u32>],
) -> Result<(), Refusal> {
    // One pair too many is as wrong a count as several, and one place too few as short a list.
    let count = pairs.len().min(PAIRS + 1);
    let places = if answers.len() < pairs.len() {
        count - 1
    } else {
        count
    };
    let (mut groups, mut frames) = ([0; PAIRS + 1], [0; PAIRS + 1]);
    for (place, (group, frame)) in pairs[..count].iter().enumerate() {
        groups[place] = *group;
        frames[place] = *frame;
    }
    let (mut values, mut covered) = ([0; PAIRS + 1], [0; PAIRS + 1]);
    let answer = c::lookups(
        slot,
        &groups[..count],
        &frames[..count],
        &mut values[..places],
        &mut covered[..places],
    );
    Refusal::from_answer(answer.question, answer.index)?;
    for (place, answer) in answers[..count].iter_mut().enumerate() {
        *answer = (covered[place] == 1).then_some(values[place]);
    }
    Ok(())
}

/// Holds a slot by a bound, made by whichever tool, to the log that it comes with: `Ok` exactly if
/// the rows cover, group by group, just the covered frames, no row of kind 3 is below the value of a
/// covered frame in it, and the error is the squared error of the rows, summed frame by frame.
/// Values are those of the slot's kind.
///
/// A frame's value is over the records that contain it. A slot that was made with a memory is held to
/// its log by [`check_with_memory`].
///
/// Asks questions 1, 4 to 9 and 21 of the log, 11 to 17 of the slot, whose header is `50 48` alone
/// here, and then 22, 23 (of kind 3 alone) and 24.
///
/// Every slot that [`query`] writes by a bound without a memory passes with its log. Rows need not be the best: those
/// cut finer than needed pass too, and with any values. But no slot that passes is better than the
/// query's own answer: [`query`] of its kind, with [`Rule::Rows`] of its count of rows, is accepted,
/// with at most as many rows and at most its error. The answer for a log that passes 4 to 9 and 21 is
/// the same with its records in any other order.
///
/// ```
/// use pacer::{Bound, Kind, Query, Record};
///
/// // A load of 200 with a peak of 900, in one row.
/// let mut records = [
///     Record { group: 0, first: 0, last: 59, load: 200 },
///     Record { group: 0, first: 30, last: 31, load: 900 },
/// ];
/// let log = pacer::log(&records)?;
/// let mut slot = [0; pacer::SLOT_BYTES];
/// let query = Query::new(Kind::GREATEST, Bound::Rows(1));
/// pacer::query(query, &log, &mut slot)?;
/// assert_eq!(pacer::check(&log, &slot), Ok(()));
/// assert_eq!(pacer::read(&slot)?.check(&log), Ok(()));
///
/// // In any order of its records, and not with another log.
/// records.reverse();
/// assert_eq!(pacer::check(&pacer::log(&records)?, &slot), Ok(()));
/// let question = |log: &[u8], slot: &[u8]| pacer::check(log, slot).unwrap_err().question;
/// assert_eq!(question(&pacer::log(&records[..1])?, &slot), 22);
///
/// // The row's value is at byte 19, its last frame at byte 17, and the error at byte 4.
/// for (byte, expected) in [(19, 23), (17, 22), (4, 24)] {
///     let mut damaged = slot;
///     damaged[byte] -= 1;
///     assert_eq!(question(&log, &damaged), expected);
/// }
/// # Ok::<(), pacer::Refusal>(())
/// ```
pub fn check(log: &[u8], slot: &[u8]) -> Result<(), Refusal> {
    check_with_memory(log, c::ONE_FRAME, slot)
}

/// Holds a slot by a bound to its log as [`check`] does, with a memory: covered frames and values are
/// by the width, as with [`Query::with_memory`]. A slot does not say which width it was made with, so
/// that the caller has to: every slot that a query by a bound writes passes with its log and the
/// query's own width. With another width it may be refused, by 22, 23 or 24, or pass where the two
/// widths say the same of the log.
///
/// Asks questions 1 and 25, then 4 to 9 and 21 of the log, 11 to 17 of the slot, whose header is
/// `50 48` alone here, and then 22, 23 (of kind 3 alone) and 24.
///
/// No slot that passes is better than the answer to the query of its kind and the same width, with
/// [`Rule::Rows`] of its count of rows. The answer for a log that passes 4 to 9 and 21 is the same
/// with its records in any other order.
///
/// ```
/// use pacer::{Kind, Query, Record, Rule};
///
/// // A load of 200 with a peak of 900 that is felt for ten frames.
/// let log = pacer::log(&[
///     Record { group: 0, first: 0, last: 65_535, load: 200 },
///     Record { group: 0, first: 30, last: 31, load: 900 },
/// ])?;
/// let question = |width, slot: &[u8]| {
///     pacer::check_with_memory(&log, width, slot).map_err(|refusal| refusal.question)
/// };
/// let mut slot = [0; pacer::SLOT_BYTES];
/// for (kind, wider) in [(Kind::GREATEST, Err(23)), (Kind::SUM, Err(24))] {
///     let query = Query::new(kind, Rule::Rows(3)).with_memory(10);
///     pacer::query(query, &log, &mut slot)?;
///     assert_eq!(question(10, &slot), Ok(()));
///     assert_eq!(question(9, &slot), Err(24));
///     assert_eq!(question(11, &slot), wider);
///     assert_eq!(question(0, &slot), Err(25));
/// }
/// # Ok::<(), pacer::Refusal>(())
/// ```
pub fn check_with_memory(log: &[u8], width: u16, slot: &[u8]) -> Result<(), Refusal> {
    let answer = c::check(log, width, slot);
    Refusal::from_answer(answer.question, answer.index)
}
