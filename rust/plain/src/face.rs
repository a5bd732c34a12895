//! The whole paper over words and numbers, one function a call.
//!
//! Each function answers the paper's refusal number, 0 where accepted. A record is 12 words:
//! timescale, offset, start, duration, depth, first number, update period, accepted, dropped, next
//! tick, greatest clock, runs used. A record of another length is 2; then an `out` of another
//! length than the function's is 15; both leave all memory as it came.
//!
//! On another refusal `out` stays as it came, but for a refused reading, which tells the line and
//! the distance, and for an append that is 4 or 5, which tells the distance. Opening refused: record
//! zeroed, table as it came. Reading refused: record and table zeroed. Any other refused call
//! changes no record and no table.

use crate::availability::Availability;
use crate::file;
use crate::record::{capacity, decode, encode, RECORD_WORDS, RUN_WORDS};
use crate::refusal::Refusal;
use crate::timeline::Timeline;
use crate::units::{Distance, Millis, Tick};
use crate::verdict::Verdict;
use crate::window::HeadFields;

/// Words that tell the distance of a start and the next tick.
const DISTANCE_WORDS: usize = 1;

/// Words that tell of a reading: line, distance.
const READ_WORDS: usize = 2;

/// The number of an outcome: 0 where accepted.
fn number_of(outcome: Result<(), Refusal>) -> u32 {
    outcome.map_or_else(Refusal::number, |()| 0)
}

/// Judges the lengths: first the record's (2), then that of `out` (15).
fn judge_lengths<T>(record: &[u64], out: &[T], out_length: usize) -> Result<(), Refusal> {
    if record.len() != RECORD_WORDS {
        Err(Refusal::Disagree)
    } else if out.len() != out_length {
        Err(Refusal::OutputTooShort)
    } else {
        Ok(())
    }
}

/// Opens a timeline. Refusal 1.
#[allow(clippy::too_many_arguments)]
pub fn open(
    record: &mut [u64],
    table: &mut [u64],
    timescale: u32,
    offset: u64,
    start: u64,
    duration: u64,
    depth: u64,
    first_number: u32,
    update: u64,
    first_tick: u64,
) -> u32 {
    if record.len() != RECORD_WORDS {
        return Refusal::Disagree.number();
    }
    let fields = HeadFields {
        timescale: u64::from(timescale),
        offset,
        start,
        duration,
        depth,
        first_number,
        update,
    };
    match Timeline::open(fields, first_tick, capacity(table.len())) {
        Ok(timeline) => {
            encode(&timeline, record, table);
            0
        }
        Err(refusal) => {
            record.fill(0);
            refusal.number()
        }
    }
}

/// Decodes, changes and encodes; a refusal changes nothing.
fn change(
    record: &mut [u64],
    table: &mut [u64],
    call: impl FnOnce(&mut Timeline) -> Result<(), Refusal>,
) -> Result<(), Refusal> {
    let mut timeline = decode(record, table)?;
    call(&mut timeline)?;
    encode(&timeline, record, table);
    Ok(())
}

/// Changes by an append. The distance of a refusal 4 or 5 goes into `out`; with any other answer
/// `out` stays as it came.
fn change_or_tell(
    record: &mut [u64],
    table: &mut [u64],
    out: &mut [u64],
    call: impl FnOnce(&mut Timeline) -> Result<(), Refusal>,
) -> u32 {
    let outcome =
        judge_lengths(record, out, DISTANCE_WORDS).and_then(|()| change(record, table, call));
    if let Some(distance) = outcome.err().and_then(Refusal::distance) {
        out[0] = distance.get();
    }
    number_of(outcome)
}

/// Appends by full tick. Refusals 2, 3, 4 or 5, 6, 7, 8, 9. `out` is 1 word: the distance of start
/// and next tick, written only where the answer is 4 or 5.
pub fn append(
    record: &mut [u64],
    table: &mut [u64],
    start: u64,
    duration: u32,
    count: u32,
    out: &mut [u64],
) -> u32 {
    change_or_tell(record, table, out, |timeline| {
        timeline.append(start, duration, count)
    })
}

/// Appends by stamp. Refusals and `out` as for [`append`].
pub fn append_stamp(
    record: &mut [u64],
    table: &mut [u64],
    stamp: u32,
    duration: u32,
    count: u32,
    out: &mut [u64],
) -> u32 {
    change_or_tell(record, table, out, |timeline| {
        timeline.append_stamp(stamp, duration, count)
    })
}

/// Trims. Refusals 2, 10.
pub fn trim(record: &mut [u64], table: &mut [u64], clock: u64) -> u32 {
    number_of(change(record, table, |timeline| timeline.trim(clock)))
}

/// Appends by stamp and then trims, as one call. Refusals 2, 10, 3, 4 or 5, 6, 7, 8, 9, in this
/// order; `out` as for [`append`].
pub fn append_trim(
    record: &mut [u64],
    table: &mut [u64],
    stamp: u32,
    duration: u32,
    count: u32,
    clock: u64,
    out: &mut [u64],
) -> u32 {
    change_or_tell(record, table, out, |timeline| {
        timeline.append_trim(stamp, duration, count, clock)
    })
}

/// Asks a timeline and puts the answer's words into `out`; a refusal leaves `out` as it came.
fn ask<T: Copy, const N: usize>(
    record: &[u64],
    table: &[u64],
    out: &mut [T],
    call: impl FnOnce(&Timeline) -> Result<[T; N], Refusal>,
) -> u32 {
    number_of(judge_lengths(record, out, N).and_then(|()| {
        let answer = call(&decode(record, table)?)?;
        out.copy_from_slice(&answer);
        Ok(())
    }))
}

/// Kind (0 nothing needed, 1 complete, 2 lacking), needed, covered, lowest, percent; what does
/// not apply is 0.
fn verdict_words(verdict: Verdict) -> [u64; 5] {
    let percent = verdict.percent().unwrap_or(0);
    match verdict {
        Verdict::NothingNeeded => [0; 5],
        Verdict::Complete { needed } => [1, needed, needed, 0, percent],
        Verdict::Lacking {
            needed,
            covered,
            lowest,
        } => {
            let lowest = u64::try_from(lowest.get()).expect("no needed tick is below the offset");
            [2, needed, covered, lowest, percent]
        }
    }
}

/// The verdict at a clock. Refusals 2, 10, 11. `out` is 5 words: kind (0 nothing needed, 1
/// complete, 2 lacking), needed, covered, lowest, percent.
pub fn verdict(record: &[u64], table: &[u64], clock: u64, out: &mut [u64]) -> u32 {
    ask(record, table, out, |timeline| {
        timeline.verdict_at(clock).map(verdict_words)
    })
}

/// The whole-period verdict. Refusals 2, 19. `out` as for [`verdict`].
pub fn verdict_whole(record: &[u64], table: &[u64], out: &mut [u64]) -> u32 {
    ask(record, table, out, |timeline| {
        timeline.verdict_whole().map(verdict_words)
    })
}

/// Kind (0 never ends, 1 ends), start, end (0 for never).
fn availability_words(availability: Availability) -> [i64; 3] {
    let word = |grains: i128| i64::try_from(grains).expect("the limits keep this below 2^63");
    let start = word(availability.start.get());
    match availability.end {
        None => [0, start, 0],
        Some(end) => [1, start, word(end.get())],
    }
}

/// The availability of a number, which may be any: one over 2^32 - 1 is not kept. Refusals 2, 13.
/// `out` is 3 words: kind (0 never ends, 1 ends), start, end (0 for never).
pub fn availability(record: &[u64], table: &[u64], number: u64, out: &mut [i64]) -> u32 {
    ask(record, table, out, |timeline| {
        let number = u32::try_from(number).map_err(|_| Refusal::NumberNotKept)?;
        timeline.availability(number).map(availability_words)
    })
}

/// Whether the reference of a number, which may be any, is available at a clock. Refusals 2, 10, 13.
/// `out` is 1 word: 1 where it is, else 0.
pub fn available_at(
    record: &[u64],
    table: &[u64],
    number: u64,
    clock: u64,
    out: &mut [u64],
) -> u32 {
    ask(record, table, out, |timeline| {
        Millis::new(clock).ok_or(Refusal::ClockOverLimit)?;
        let number = u32::try_from(number).map_err(|_| Refusal::NumberNotKept)?;
        let available = timeline.available_at(number, clock)?;
        Ok([u64::from(available)])
    })
}

/// The covered edge. Refusal 2. `out` is 2 words: kind (0 none, 1 a clock), clock.
pub fn covered_edge(record: &[u64], table: &[u64], out: &mut [u64]) -> u32 {
    ask(record, table, out, |timeline| {
        Ok(there_or_none(timeline.covered_edge().map(Millis::get)))
    })
}

/// The full tick of a stamp. Refusal 2. `out` is 2 words: kind (0 none, 1 a tick), tick.
pub fn full_tick(record: &[u64], table: &[u64], stamp: u32, out: &mut [u64]) -> u32 {
    ask(record, table, out, |timeline| {
        Ok(there_or_none(timeline.full_tick(stamp).map(Tick::get)))
    })
}

/// Kind (0 none, 1 there is one), and what there is, 0 for none.
fn there_or_none(found: Option<u64>) -> [u64; 2] {
    found.map_or([0, 0], |word| [1, word])
}

/// The runs that touch a span. Refusals 2, 14. `out` is 2 words: the first word and one past the
/// last word of those runs in the table, both 0 if none do.
pub fn touching(record: &[u64], table: &[u64], a: u64, b: u64, out: &mut [u64]) -> u32 {
    ask(record, table, out, |timeline| {
        let runs = timeline.touching(a, b)?;
        let word = |run: usize| (run * RUN_WORDS) as u64;
        Ok([word(runs.start), word(runs.end)])
    })
}

/// Reads a whole file. Refusals 1, 3 to 9, 16, 17, 18. `out` is 2 words: the refused line, 0 where
/// accepted, and the distance of its start and the next tick, 0 where the answer is not 4 or 5.
pub fn read(bytes: &[u8], record: &mut [u64], table: &mut [u64], out: &mut [u64]) -> u32 {
    if let Err(refusal) = judge_lengths(record, out, READ_WORDS) {
        return refusal.number();
    }
    match file::read(bytes, capacity(table.len())) {
        Ok(timeline) => {
            encode(&timeline, record, table);
            out.fill(0);
            0
        }
        Err(refused) => {
            record.fill(0);
            table.fill(0);
            let distance = refused.refusal.distance();
            out.copy_from_slice(&[refused.line, distance.map_or(0, Distance::get)]);
            refused.refusal.number()
        }
    }
}

/// Writes the whole file. Refusals 2, 12, 15. `out` is 1 word: the length written; the bytes
/// behind it stay as they came.
pub fn write(record: &[u64], table: &[u64], bytes: &mut [u8], out: &mut [u64]) -> u32 {
    ask(record, table, out, |timeline| {
        timeline.write_to(bytes).map(|length| [length as u64])
    })
}
