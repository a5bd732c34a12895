//! Reading and writing the hexadecimal file. Paper: "The file".

use crate::refusal::Refusal;
use crate::timeline::Timeline;
use crate::units::Tick;
use crate::window::{Head, HeadFields};

/// Kind of a head line without an update period: it is read, and never written.
const KIND_OLD_HEAD: u8 = 0x01;
/// Kind of an S line.
const KIND_S: u8 = 0x02;
/// Kind of the end line.
const KIND_END: u8 = 0x03;
/// Kind of the program's clock line; in a file it is unknown.
const KIND_CLOCK: u8 = 0x04;
/// Kind of a head line.
const KIND_HEAD: u8 = 0x05;

/// Bytes of the update period, which stands last in a head line.
const UPDATE_BYTES: usize = 8;

/// All ones in a field of 8 bytes: t absent, or the whole period on a clock line.
const ALL_ONES: u64 = u64::MAX;

/// A refusal with the line that was refused.
#[derive(Clone, Copy, Debug, PartialEq, Eq)]
pub struct RefusedLine {
    /// Why.
    pub refusal: Refusal,
    /// Which line, counted in the file from 1.
    pub line: u64,
}

/// The fields of an S line.
#[derive(Clone, Copy)]
struct S {
    /// Start; none where absent.
    t: Option<u64>,
    /// Duration.
    d: u32,
    /// Repeats.
    r: i32,
}

/// One line of a file, well-formed but not judged further.
enum Frame {
    Head(HeadFields),
    S(S),
    End { s_lines: u32 },
}

/// How far the reading of a file has come.
enum Stage {
    /// The head line stands next.
    BeforeHead,
    /// The first S line stands next.
    BeforeFirstS(Head),
    /// An S line or the end line stands next.
    AfterS {
        timeline: Timeline,
        s_lines: u64,
        /// The last S line had a negative r, so the end line stands next.
        closed: bool,
    },
    /// Nothing stands next.
    Ended(Timeline),
}

/// Reads a whole file for a table of so many runs: opening plus appends. Lines are judged in
/// order and the first refused line decides.
pub fn read(bytes: &[u8], capacity: usize) -> Result<Timeline, RefusedLine> {
    let mut stage = Stage::BeforeHead;
    let mut rest = bytes;
    let mut line = 1;
    loop {
        let refused = |refusal| RefusedLine { refusal, line };
        if let Stage::Ended(timeline) = stage {
            return if rest.is_empty() {
                Ok(timeline)
            } else {
                Err(refused(Refusal::BadLine))
            };
        }
        let (text, behind) = split_line(rest).map_err(refused)?;
        let frame = frame_of(text).map_err(refused)?;
        stage = stage.judge(frame, capacity).map_err(refused)?;
        rest = behind;
        line += 1;
    }
}

impl Stage {
    /// What a well-formed line makes of the stage: its order first (17), then its fields.
    fn judge(self, frame: Frame, capacity: usize) -> Result<Stage, Refusal> {
        match (self, frame) {
            (Stage::BeforeHead, Frame::Head(fields)) => Ok(Stage::BeforeFirstS(fields.judge()?)),
            (Stage::BeforeFirstS(head), Frame::S(s)) => after_first_s(head, s, capacity),
            (
                Stage::AfterS {
                    timeline,
                    s_lines,
                    closed: false,
                },
                Frame::S(s),
            ) => after_s(timeline, s_lines, s),
            (
                Stage::AfterS {
                    timeline, s_lines, ..
                },
                Frame::End { s_lines: said },
            ) if s_lines == u64::from(said) => Ok(Stage::Ended(timeline)),
            _ => Err(Refusal::OutOfOrder),
        }
    }
}

/// The first S line: the opening tick is its own t, or 0 where absent. A t over its limit is 1.
fn after_first_s(head: Head, s: S, capacity: usize) -> Result<Stage, Refusal> {
    let first_tick = Tick::new(s.t.unwrap_or(0)).ok_or(Refusal::OverLimit)?;
    after_s(Timeline::opened(head, first_tick, capacity), 0, s)
}

/// An S line is an append. Absent t means the previous end; r of 0 or more means r + 1
/// references.
fn after_s(mut timeline: Timeline, s_lines: u64, s: S) -> Result<Stage, Refusal> {
    let start = s.t.unwrap_or_else(|| timeline.next_tick().get());
    match u32::try_from(s.r) {
        Ok(repeats) => timeline.append(start, s.d, repeats + 1)?,
        Err(_) => timeline.append_to_period_end(start, s.d)?,
    }
    Ok(Stage::AfterS {
        timeline,
        s_lines: s_lines + 1,
        closed: s.r < 0,
    })
}

/// The first line without its line feed, and what stands behind it. Refusal 16 where the line is
/// missing or unended.
fn split_line(bytes: &[u8]) -> Result<(&[u8], &[u8]), Refusal> {
    let feed = bytes.iter().position(|byte| *byte == b'\n');
    feed.map(|at| (&bytes[..at], &bytes[at + 1..]))
        .ok_or(Refusal::BadLine)
}

/// The frame of a line. Refusal 16 where it is not lower-case hexadecimal, of an unknown kind, or
/// not of its kind's length.
fn frame_of(text: &[u8]) -> Result<Frame, Refusal> {
    let (kind, content) = kind_and_content(text)?;
    match kind {
        KIND_OLD_HEAD => old_head_of(&content),
        KIND_HEAD => head_of(&content),
        KIND_S => s_of(&content),
        KIND_END => end_of(&content),
        _ => Err(Refusal::BadLine),
    }
}

/// The old kind lacks the update period and nothing else; it is read with 0.
fn old_head_of(content: &[u8]) -> Result<Frame, Refusal> {
    head_of(&[content, &[0; UPDATE_BYTES]].concat())
}

fn head_of(content: &[u8]) -> Result<Frame, Refusal> {
    let [timescale, offset, start, duration, depth, first_number, update] =
        fields(content, [4, 8, 8, 8, 8, 4, UPDATE_BYTES])?;
    Ok(Frame::Head(HeadFields {
        timescale,
        offset,
        start,
        duration,
        depth,
        first_number: low_half(first_number),
        update,
    }))
}

fn s_of(content: &[u8]) -> Result<Frame, Refusal> {
    let [t, d, r] = fields(content, [8, 4, 4])?;
    Ok(Frame::S(S {
        t: Some(t).filter(|t| *t != ALL_ONES),
        d: low_half(d),
        r: i32::from_be_bytes(low_half(r).to_be_bytes()),
    }))
}

fn end_of(content: &[u8]) -> Result<Frame, Refusal> {
    let [s_lines] = fields(content, [4])?;
    Ok(Frame::End {
        s_lines: low_half(s_lines),
    })
}

/// The program's clock line: its clock, none for the whole period, and the file behind it.
/// Refusal 16; the clock's limit is not judged here.
pub(crate) fn split_clock_line(input: &[u8]) -> Result<(Option<u64>, &[u8]), Refusal> {
    let (text, file) = split_line(input)?;
    let (kind, content) = kind_and_content(text)?;
    if kind != KIND_CLOCK {
        return Err(Refusal::BadLine);
    }
    let [clock] = fields(&content, [8])?;
    Ok((Some(clock).filter(|clock| *clock != ALL_ONES), file))
}

/// The bytes of a line: its kind, and its content behind the kind.
fn kind_and_content(text: &[u8]) -> Result<(u8, Vec<u8>), Refusal> {
    let bytes = bytes_of_hex(text).ok_or(Refusal::BadLine)?;
    let (kind, content) = bytes.split_first().ok_or(Refusal::BadLine)?;
    Ok((*kind, content.to_vec()))
}

/// The bytes that lower-case hexadecimal digits stand for, two digits a byte.
fn bytes_of_hex(text: &[u8]) -> Option<Vec<u8>> {
    if text.len() % 2 != 0 {
        return None;
    }
    text.chunks_exact(2)
        .map(|pair| Some(digit(pair[0])? * 16 + digit(pair[1])?))
        .collect()
}

fn digit(character: u8) -> Option<u8> {
    match character {
        b'0'..=b'9' => Some(character - b'0'),
        b'a'..=b'f' => Some(character - b'a' + 10),
        _ => None,
    }
}

/// Big-endian fields of the given widths in bytes, which must fill the content exactly.
fn fields<const N: usize>(content: &[u8], widths: [usize; N]) -> Result<[u64; N], Refusal> {
    if content.len() != widths.iter().sum::<usize>() {
        return Err(Refusal::BadLine);
    }
    let mut rest = content;
    Ok(widths.map(|width| {
        let (field, behind) = rest.split_at(width);
        rest = behind;
        field
            .iter()
            .fold(0, |value, byte| value * 256 + u64::from(*byte))
    }))
}

/// A field of 4 bytes as a number of 32 bits.
fn low_half(field: u64) -> u32 {
    u32::try_from(field).expect("a field of 4 bytes")
}

impl Timeline {
    /// The whole file: a head with its update period and the number of the first kept reference, one
    /// S for each used run, t on the first only. Refusal 12.
    pub fn write(&self) -> Result<Vec<u8>, Refusal> {
        let runs = self.runs();
        if runs.is_empty() {
            return Err(Refusal::NothingKept);
        }
        let mut text = self.head_line();
        for (index, run) in runs.iter().enumerate() {
            let t = if index == 0 {
                run.start.get()
            } else {
                ALL_ONES
            };
            let (d, r) = (run.duration.get(), run.count - 1);
            text += &format!("{:02x}{:016x}{:08x}{:08x}\n", KIND_S, t, d, r);
        }
        text += &format!("{:02x}{:08x}\n", KIND_END, runs.len());
        Ok(text.into_bytes())
    }

    fn head_line(&self) -> String {
        let head = self.head();
        format!(
            "{:02x}{:08x}{:016x}{:016x}{:016x}{:016x}{:08x}{:016x}\n",
            KIND_HEAD,
            head.timescale.get(),
            head.offset.get(),
            head.start.get(),
            head.duration.get(),
            head.depth.get(),
            self.first_kept_number().get(),
            head.update.get(),
        )
    }

    /// Writes the whole file to the beginning of an output and answers its length; what lies
    /// behind stays. Refusals 12, 15; a refusal changes nothing.
    pub fn write_to(&self, output: &mut [u8]) -> Result<usize, Refusal> {
        let file = self.write()?;
        let place = output
            .get_mut(..file.len())
            .ok_or(Refusal::OutputTooShort)?;
        place.copy_from_slice(&file);
        Ok(file.len())
    }
}
