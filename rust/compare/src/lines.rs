//! The kinds of a file's lines: which head it has, and which line is refused with what.

use crate::limits;
use crate::opening::Opening;
use crate::text::{head_fields, s_fields};

/// The numbers that a file's line can be refused with, by the kind of the line.
pub const REFUSED_LINES: [&str; 37] = [
    "1 head 01",
    "1 head 05",
    "1 update period",
    "1 S",
    "1 S with negative r",
    "3 S",
    "3 S with negative r",
    "4 S",
    "4 S with negative r",
    "5 S",
    "5 S with negative r",
    "6 S",
    "6 S with negative r",
    "7 S",
    "7 S with negative r",
    "8 S",
    "8 S with negative r",
    "9 S",
    "9 S with negative r",
    "16 head 01",
    "16 head 01 as long as 05",
    "16 head 05",
    "16 head 05 as long as 01",
    "16 S",
    "16 end",
    "16 other kind",
    "16 unended",
    "16 missing",
    "16 behind the end",
    "17 head 01",
    "17 head 05",
    "17 S",
    "17 S with negative r",
    "17 S behind negative r",
    "17 end too early",
    "17 end with wrong count",
    "18 S with negative r",
];

/// The heads that a file can have.
pub const HEADS: &[&str] = &["01", "05 with update period 0", "05 with another"];

/// Digits of a head line of kind 01, and of one of kind 05.
const OLD_HEAD: usize = 82;
const HEAD: usize = 98;

/// The lines of a file without their line feeds; what stands behind the last feed is one too.
pub fn lines(bytes: &[u8]) -> impl Iterator<Item = &[u8]> {
    bytes.split(|byte| *byte == b'\n')
}

/// Which of the heads a file has; none where its first line is no head.
pub fn head_of(file: &[u8]) -> Option<&'static str> {
    let line = lines(file).next()?;
    let head = head_fields(line)?;
    Some(match head.update {
        _ if line.starts_with(b"01") => HEADS[0],
        0 => HEADS[1],
        _ => HEADS[2],
    })
}

/// The number and the kind of a refused line of a file.
pub fn refused_line(file: &[u8], line: u64, number: u32) -> String {
    let at = line as usize - 1;
    let all: Vec<&[u8]> = lines(file).collect();
    // What stands behind the last line feed is no ended line; it may be empty.
    let text = all.get(at).copied().unwrap_or(b"");
    let before = at.checked_sub(1).and_then(|at| all.get(at).copied());
    let kind = match number {
        16 if before.map_or(false, |before| before.starts_with(b"03")) => "behind the end",
        16 => kind_of_no_frame(text, at + 1 >= all.len()),
        17 => kind_out_of_order(text, before, line),
        _ => kind_by_fields(text),
    };
    format!("{} {}", number, kind)
}

/// The kind of a line that is no frame.
fn kind_of_no_frame(text: &[u8], last: bool) -> &'static str {
    match (text, text.len()) {
        (b"", _) if last => "missing",
        _ if last => "unended",
        ([b'0', b'1', ..], HEAD) => "head 01 as long as 05",
        ([b'0', b'5', ..], OLD_HEAD) => "head 05 as long as 01",
        ([b'0', b'1', ..], _) => "head 01",
        ([b'0', b'5', ..], _) => "head 05",
        ([b'0', b'2', ..], _) => "S",
        ([b'0', b'3', ..], _) => "end",
        _ => "other kind",
    }
}

/// The kind of a frame that may not stand where it stands.
fn kind_out_of_order(text: &[u8], before: Option<&[u8]>, line: u64) -> &'static str {
    let behind_negative = before.and_then(s_fields).map_or(false, |s| s.2 < 0);
    match kind_by_fields(text) {
        "S" | "S with negative r" if behind_negative => "S behind negative r",
        "update period" => "head 05",
        "other kind" if line <= 2 => "end too early",
        "other kind" => "end with wrong count",
        kind => kind,
    }
}

/// The kind of a frame that is refused by its fields.
fn kind_by_fields(text: &[u8]) -> &'static str {
    match (s_fields(text), head_fields(text)) {
        (Some((_, _, r)), _) if r < 0 => "S with negative r",
        (Some(_), _) => "S",
        (_, Some(_)) if text.starts_with(b"01") => "head 01",
        (_, Some(head)) if over_by_update_alone(&head) => "update period",
        (_, Some(_)) => "head 05",
        _ => "other kind",
    }
}

/// True where the update period is the one field over its limit.
fn over_by_update_alone(head: &Opening) -> bool {
    head.update > limits::MILLIS
        && (1..=limits::TIMESCALE).contains(&u64::from(head.timescale))
        && head.offset <= limits::TICK
        && [head.start, head.duration, head.depth]
            .iter()
            .all(|millis| *millis <= limits::MILLIS)
}
