//! The two sides whose calls are compared.

use flonterri::words;
use plain::face as plain_face;

use crate::opening::Opening;

/// A call that opens.
pub type Open = fn(&mut [u64], &mut [u64], &Opening) -> u32;
/// An append by full tick.
pub type Append = fn(&mut [u64], &mut [u64], u64, u32, u32, &mut [u64]) -> u32;
/// An append by stamp.
pub type AppendStamp = fn(&mut [u64], &mut [u64], u32, u32, u32, &mut [u64]) -> u32;
/// An append by stamp and then a trim.
pub type AppendTrim = fn(&mut [u64], &mut [u64], u32, u32, u32, u64, &mut [u64]) -> u32;
/// A trim.
pub type Trim = fn(&mut [u64], &mut [u64], u64) -> u32;
/// A verdict at a clock.
pub type Verdict = fn(&[u64], &[u64], u64, &mut [u64]) -> u32;
/// A verdict of the whole period.
pub type VerdictWhole = fn(&[u64], &[u64], &mut [u64]) -> u32;
/// The availability of a number.
pub type Availability = fn(&[u64], &[u64], u64, &mut [i64]) -> u32;
/// Whether a number is available at a clock.
pub type AvailableAt = fn(&[u64], &[u64], u64, u64, &mut [u64]) -> u32;
/// The covered edge.
pub type CoveredEdge = fn(&[u64], &[u64], &mut [u64]) -> u32;
/// The full tick of a stamp.
pub type FullTick = fn(&[u64], &[u64], u32, &mut [u64]) -> u32;
/// The runs that touch a span.
pub type Touching = fn(&[u64], &[u64], u64, u64, &mut [u64]) -> u32;
/// A reading.
pub type Read = fn(&[u8], &mut [u64], &mut [u64], &mut [u64]) -> u32;
/// A writing.
pub type Write = fn(&[u64], &[u64], &mut [u8], &mut [u64]) -> u32;

/// All calls of one side, over words and numbers.
#[derive(Clone, Copy)]
pub struct Face {
    /// What reports call this side.
    pub name: &'static str,
    /// Opening.
    pub open: Open,
    /// Appending by full tick.
    pub append: Append,
    /// Appending by stamp.
    pub append_stamp: AppendStamp,
    /// Appending by stamp and then trimming, as one call.
    pub append_trim: AppendTrim,
    /// Trimming.
    pub trim: Trim,
    /// The verdict at a clock.
    pub verdict: Verdict,
    /// The verdict of the whole period.
    pub verdict_whole: VerdictWhole,
    /// The availability of a number.
    pub availability: Availability,
    /// Whether a number is available at a clock.
    pub available_at: AvailableAt,
    /// The covered edge.
    pub covered_edge: CoveredEdge,
    /// The full tick of a stamp.
    pub full_tick: FullTick,
    /// The runs that touch a span.
    pub touching: Touching,
    /// Reading a file.
    pub read: Read,
    /// Writing a file.
    pub write: Write,
}

/// The proved archive.
pub const ARCHIVE: Face = Face {
    name: "archive",
    open: |record, table, opening| open_by_fields(words::open, record, table, opening),
    append: words::append,
    append_stamp: words::append_stamp,
    append_trim: words::append_trim,
    trim: words::trim,
    verdict: words::verdict,
    verdict_whole: words::verdict_whole,
    availability: words::availability,
    available_at: words::available_at,
    covered_edge: words::covered_edge,
    full_tick: words::full_tick,
    touching: words::touching,
    read: words::read,
    write: words::write,
};

/// The plain implementation.
pub const PLAIN: Face = Face {
    name: "plain",
    open: |record, table, opening| open_by_fields(plain_face::open, record, table, opening),
    append: plain_face::append,
    append_stamp: plain_face::append_stamp,
    append_trim: plain_face::append_trim,
    trim: plain_face::trim,
    verdict: plain_face::verdict,
    verdict_whole: plain_face::verdict_whole,
    availability: plain_face::availability,
    available_at: plain_face::available_at,
    covered_edge: plain_face::covered_edge,
    full_tick: plain_face::full_tick,
    touching: plain_face::touching,
    read: plain_face::read,
    write: plain_face::write,
};

/// An opening as the sides have it, each field by itself.
type OpenByFields = fn(&mut [u64], &mut [u64], u32, u64, u64, u64, u64, u32, u64, u64) -> u32;

fn open_by_fields(
    open: OpenByFields,
    record: &mut [u64],
    table: &mut [u64],
    opening: &Opening,
) -> u32 {
    open(
        record,
        table,
        opening.timescale,
        opening.offset,
        opening.start,
        opening.duration,
        opening.depth,
        opening.first_number,
        opening.update,
        opening.first_tick,
    )
}

/// Two sides that must answer alike.
#[derive(Clone, Copy)]
pub struct Faces {
    /// The side that is judged.
    pub judged: Face,
    /// The side that it is held against.
    pub plain: Face,
}

impl Faces {
    /// The archive against the plain implementation.
    pub const ARCHIVE_AND_PLAIN: Faces = Faces {
        judged: ARCHIVE,
        plain: PLAIN,
    };
}
