//! The lines of a file and of the program's input. Paper: "The file".

use crate::opening::Opening;

/// The t of an S line that has none, and the clock that asks for the whole period.
pub const ALL_ONES: u64 = u64::MAX;

/// One line.
#[derive(Clone, Debug, PartialEq, Eq)]
pub enum Line {
    /// A head; the first tick of the opening is not in it.
    Head(Opening),
    /// A head of the old kind: the update period is not in it either.
    OldHead(Opening),
    /// An S line.
    S {
        /// Start.
        t: u64,
        /// Duration.
        d: u32,
        /// Repeats.
        r: i32,
    },
    /// An end line with its number of S lines.
    End(u32),
    /// A clock line.
    Clock(u64),
}

impl Line {
    /// The line without its line feed.
    pub fn text(&self) -> String {
        match self {
            Line::Head(head) => format!("05{}{:016x}", old_fields(head), head.update),
            Line::OldHead(head) => format!("01{}", old_fields(head)),
            Line::S { t, d, r } => format!("02{:016x}{:08x}{:08x}", t, d, r),
            Line::End(s_lines) => format!("03{:08x}", s_lines),
            Line::Clock(clock) => format!("04{:016x}", clock),
        }
    }
}

/// The fields that both kinds of head have.
fn old_fields(head: &Opening) -> String {
    format!(
        "{:08x}{:016x}{:016x}{:016x}{:016x}{:08x}",
        head.timescale, head.offset, head.start, head.duration, head.depth, head.first_number
    )
}

/// The lines with their line feeds.
pub fn bytes_of(lines: &[Line]) -> Vec<u8> {
    let mut bytes = Vec::new();
    for line in lines {
        bytes.extend(line.text().bytes());
        bytes.push(b'\n');
    }
    bytes
}

/// The bytes of a clock line.
pub fn clock_line(clock: u64) -> Vec<u8> {
    bytes_of(&[Line::Clock(clock)])
}

/// The fields of a line of lower-case digits that has the kind and just these widths, in digits.
fn fields<const N: usize>(line: &[u8], kind: &str, widths: [usize; N]) -> Option<[u64; N]> {
    let text = std::str::from_utf8(line).ok()?;
    let good = |byte: u8| byte.is_ascii_digit() || (b'a'..=b'f').contains(&byte);
    let digits = text.strip_prefix(kind)?;
    if digits.len() != widths.iter().sum::<usize>() || !digits.bytes().all(good) {
        return None;
    }
    let mut rest = digits;
    Some(widths.map(|width| {
        let (field, behind) = rest.split_at(width);
        rest = behind;
        u64::from_str_radix(field, 16).expect("at most 16 digits")
    }))
}

/// The fields of an S line: t, d, r.
pub fn s_fields(line: &[u8]) -> Option<(u64, u32, i32)> {
    let [t, d, r] = fields(line, "02", [16, 8, 8])?;
    Some((t, d as u32, r as u32 as i32))
}

/// The fields of a head line of either kind.
pub fn head_fields(line: &[u8]) -> Option<Opening> {
    let without_update = || {
        let [a, b, c, d, e, f] = fields(line, "01", [8, 16, 16, 16, 16, 8])?;
        Some([a, b, c, d, e, f, 0])
    };
    let [timescale, offset, start, duration, depth, first_number, update] =
        fields(line, "05", [8, 16, 16, 16, 16, 8, 16]).or_else(without_update)?;
    Some(Opening {
        timescale: timescale as u32,
        offset,
        start,
        duration,
        depth,
        first_number: first_number as u32,
        update,
        first_tick: 0,
    })
}

/// Bytes as a report shows them.
pub fn shown(bytes: &[u8]) -> String {
    let mut text = String::new();
    for byte in bytes {
        match byte {
            b'\n' => text.push_str("\\n\n"),
            byte => text.extend(byte.escape_ascii().map(char::from)),
        }
    }
    text
}
