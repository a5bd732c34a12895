//! What the tests share: a small seeded generator, lent memory, and the lines of a file.

use super::literal::Ticks;
use crate::face;
use crate::record::RECORD_WORDS;
use crate::units::{Millis, Tick};
use crate::window::HeadFields;

/// A small generator of evenly spread 64-bit numbers (splitmix), the same for the same seed.
pub struct Generator(u64);

impl Generator {
    pub fn new(seed: u64) -> Self {
        Generator(seed)
    }

    pub fn next(&mut self) -> u64 {
        self.0 = self.0.wrapping_add(0x9e37_79b9_7f4a_7c15);
        let mut mixed = self.0;
        mixed = (mixed ^ (mixed >> 30)).wrapping_mul(0xbf58_476d_1ce4_e5b9);
        mixed = (mixed ^ (mixed >> 27)).wrapping_mul(0x94d0_49bb_1331_11eb);
        mixed ^ (mixed >> 31)
    }

    /// A number below a bound that is not 0.
    pub fn below(&mut self, bound: u64) -> u64 {
        self.next() % bound
    }

    /// A number from the first to the last, both included.
    pub fn between(&mut self, first: u64, last: u64) -> u64 {
        first + self.below(last - first + 1)
    }

    pub fn one_in(&mut self, many: u64) -> bool {
        self.below(many) == 0
    }

    pub fn pick<T: Copy>(&mut self, values: &[T]) -> T {
        values[self.below(values.len() as u64) as usize]
    }
}

/// A record and a table, with the face's calls upon them. Every method holds the call to what
/// the face promises of memory on a refusal.
#[derive(Clone, Debug, PartialEq, Eq)]
pub struct Lent {
    pub record: Vec<u64>,
    pub table: Vec<u64>,
}

pub const TIMESCALE: usize = 0;
pub const OFFSET: usize = 1;
pub const START: usize = 2;
pub const DURATION: usize = 3;
pub const DEPTH: usize = 4;
pub const FIRST_NUMBER: usize = 5;
pub const UPDATE: usize = 6;
pub const ACCEPTED: usize = 7;
pub const DROPPED: usize = 8;
pub const NEXT_TICK: usize = 9;
pub const GREATEST_CLOCK: usize = 10;
pub const RUNS_USED: usize = 11;

impl Lent {
    /// Memory that holds anything.
    pub fn anything(table_words: usize) -> Self {
        Lent {
            record: vec![77; RECORD_WORDS],
            table: vec![99; table_words],
        }
    }

    /// Memory with a timeline opened in it.
    pub fn opened(head: HeadFields, first_tick: u64, table_words: usize) -> Self {
        let mut lent = Lent::anything(table_words);
        assert_eq!(lent.open(head, first_tick), 0);
        lent
    }

    pub fn open(&mut self, head: HeadFields, first_tick: u64) -> u32 {
        let before = self.clone();
        let answer = face::open(
            &mut self.record,
            &mut self.table,
            u32::try_from(head.timescale).expect("a timescale of 32 bits"),
            head.offset,
            head.start,
            head.duration,
            head.depth,
            head.first_number,
            head.update,
            first_tick,
        );
        if answer == 0 {
            assert!(self.table.iter().all(|word| *word == 0));
        } else {
            assert_eq!(self.record, vec![0; RECORD_WORDS]);
            assert_eq!(self.table, before.table);
        }
        answer
    }

    fn change(&mut self, call: impl FnOnce(&mut [u64], &mut [u64]) -> u32) -> u32 {
        let before = self.clone();
        let answer = call(&mut self.record, &mut self.table);
        if answer != 0 {
            assert_eq!(*self, before);
        }
        answer
    }

    pub fn append(&mut self, start: u64, duration: u32, count: u32) -> u32 {
        self.append_by(start, duration, count).0
    }

    pub fn append_stamp(&mut self, stamp: u32, duration: u32, count: u32) -> u32 {
        self.append_stamp_by(stamp, duration, count).0
    }

    /// The number of an append with the distance that it tells, 0 where it tells none.
    pub fn append_by(&mut self, start: u64, duration: u32, count: u32) -> By {
        told(|out| {
            self.change(|record, table| face::append(record, table, start, duration, count, out))
        })
    }

    pub fn append_stamp_by(&mut self, stamp: u32, duration: u32, count: u32) -> By {
        told(|out| {
            self.change(|record, table| {
                face::append_stamp(record, table, stamp, duration, count, out)
            })
        })
    }

    /// An append by stamp and then a trim, as one call.
    pub fn append_trim(&mut self, stamp: u32, duration: u32, count: u32, clock: u64) -> u32 {
        self.append_trim_by(stamp, duration, count, clock).0
    }

    pub fn append_trim_by(&mut self, stamp: u32, duration: u32, count: u32, clock: u64) -> By {
        told(|out| {
            self.change(|record, table| {
                face::append_trim(record, table, stamp, duration, count, clock, out)
            })
        })
    }

    /// An append that joins, whatever the next tick.
    pub fn join(&mut self, duration: u32, count: u32) -> u32 {
        self.append(self.record[NEXT_TICK], duration, count)
    }

    /// An append that joins and then a trim, as one call.
    pub fn join_trim(&mut self, duration: u32, count: u32, clock: u64) -> u32 {
        self.append_trim(self.record[NEXT_TICK] as u32, duration, count, clock)
    }

    pub fn trim(&mut self, clock: u64) -> u32 {
        self.change(|record, table| face::trim(record, table, clock))
    }

    pub fn verdict(&self, clock: u64) -> Result<[u64; 5], u32> {
        asked(5555, |out| {
            face::verdict(&self.record, &self.table, clock, out)
        })
    }

    pub fn covered_edge(&self) -> Result<[u64; 2], u32> {
        asked(5555, |out| {
            face::covered_edge(&self.record, &self.table, out)
        })
    }

    pub fn full_tick(&self, stamp: u32) -> Result<[u64; 2], u32> {
        asked(5555, |out| {
            face::full_tick(&self.record, &self.table, stamp, out)
        })
    }

    pub fn verdict_whole(&self) -> Result<[u64; 5], u32> {
        asked(5555, |out| {
            face::verdict_whole(&self.record, &self.table, out)
        })
    }

    pub fn availability(&self, number: u64) -> Result<[i64; 3], u32> {
        asked(5555, |out| {
            face::availability(&self.record, &self.table, number, out)
        })
    }

    pub fn touching(&self, a: u64, b: u64) -> Result<[u64; 2], u32> {
        asked(5555, |out| {
            face::touching(&self.record, &self.table, a, b, out)
        })
    }

    pub fn available_at(&self, number: u64, clock: u64) -> Result<bool, u32> {
        let [available] = asked(5555, |out| {
            face::available_at(&self.record, &self.table, number, clock, out)
        })?;
        assert!(available <= 1);
        Ok(available == 1)
    }

    /// The references that the used runs stand for.
    pub fn kept(&self) -> Vec<Ticks> {
        let used = self.record[RUNS_USED] as usize;
        let runs = self.table.chunks(3).take(used);
        runs.flat_map(|run| {
            let [start, duration, count] = [run[0], run[1], run[2]].map(i128::from);
            (0..count).map(move |index| (start + index * duration, start + (index + 1) * duration))
        })
        .collect()
    }

    /// Writes into an output of so many bytes.
    pub fn write_into(&self, output_bytes: usize) -> Result<Vec<u8>, u32> {
        let mut bytes = vec![b'#'; output_bytes];
        let answer: Result<[u64; 1], u32> = asked(5555, |out| {
            face::write(&self.record, &self.table, &mut bytes, out)
        });
        let length = answer.map_or(0, |[length]| length as usize);
        assert!(bytes[length..].iter().all(|byte| *byte == b'#'));
        bytes.truncate(length);
        answer.map(|_| bytes)
    }

    pub fn write(&self) -> Result<Vec<u8>, u32> {
        self.write_into(200 + 100 * self.table.len())
    }

    /// Reads a file; a refusal comes with its line.
    pub fn read(&mut self, bytes: &[u8]) -> Result<(), (u32, u64)> {
        self.read_by(bytes).map_err(|refused| refused.0)
    }

    /// Reads a file; a refusal comes with its line and its distance.
    pub fn read_by(&mut self, bytes: &[u8]) -> Result<(), LineBy> {
        let mut out = [5555; 2];
        let answer = face::read(bytes, &mut self.record, &mut self.table, &mut out);
        let [line, distance] = out;
        if answer == 0 {
            assert_eq!(out, [0, 0]);
            return Ok(());
        }
        assert_eq!(self.record, vec![0; RECORD_WORDS]);
        assert!(self.table.iter().all(|word| *word == 0));
        assert_eq!(distance != 0, has_distance(answer));
        Err(((answer, line), distance))
    }
}

/// A number with its distance, 0 where it has none.
pub type By = (u32, u64);

/// A number and the refused line, with the distance.
pub type LineBy = ((u32, u64), u64);

/// The refusals that tell a distance: a gap and an overlap.
fn has_distance(number: u32) -> bool {
    number == 4 || number == 5
}

/// The number of an append with the distance in its `out`, which any answer but 4 and 5 leaves as it
/// came.
fn told(call: impl FnOnce(&mut [u64]) -> u32) -> By {
    const BEFORE: u64 = 0xaaaa_aaaa_aaaa_aaaa;
    let mut out = [BEFORE];
    let number = call(&mut out);
    if has_distance(number) {
        assert!(out[0] != BEFORE && out[0] != 0);
        return (number, out[0]);
    }
    assert_eq!(out, [BEFORE]);
    (number, 0)
}

/// The answer of a call with an out: the words, or the refusal with the out as it came.
fn asked<T, const N: usize>(before: T, call: impl FnOnce(&mut [T]) -> u32) -> Result<[T; N], u32>
where
    T: Copy + PartialEq + std::fmt::Debug,
{
    let mut out = [before; N];
    match call(&mut out) {
        0 => Ok(out),
        refusal => {
            assert_eq!(out, [before; N]);
            Err(refusal)
        }
    }
}

/// A head line of the kind that is written.
pub fn head_line(head: HeadFields) -> String {
    format!("05{}{:016x}\n", old_fields(head), head.update)
}

/// A head line of the old kind, which has no update period.
pub fn old_head_line(head: HeadFields) -> String {
    format!("01{}\n", old_fields(head))
}

/// The fields that both kinds have.
fn old_fields(head: HeadFields) -> String {
    format!(
        "{:08x}{:016x}{:016x}{:016x}{:016x}{:08x}",
        head.timescale, head.offset, head.start, head.duration, head.depth, head.first_number
    )
}

pub fn s_line(t: u64, d: u32, r: i32) -> String {
    format!("02{:016x}{:08x}{:08x}\n", t, d, r)
}

/// The t of an S line that has none.
pub const ABSENT: u64 = u64::MAX;

pub fn end_line(s_lines: u32) -> String {
    format!("03{:08x}\n", s_lines)
}

pub fn clock_line(clock: u64) -> String {
    format!("04{:016x}\n", clock)
}

/// The clock of a clock line that asks for the whole period.
pub const WHOLE: u64 = u64::MAX;

/// A file from its head and its S lines.
pub fn file(head: HeadFields, s_lines: &[(u64, u32, i32)]) -> String {
    file_behind(head_line(head), s_lines)
}

/// A file whose head line is of the old kind.
pub fn old_file(head: HeadFields, s_lines: &[(u64, u32, i32)]) -> String {
    file_behind(old_head_line(head), s_lines)
}

fn file_behind(head_line: String, s_lines: &[(u64, u32, i32)]) -> String {
    let mut text = head_line;
    for (t, d, r) in s_lines {
        text += &s_line(*t, *d, *r);
    }
    text + &end_line(s_lines.len() as u32)
}

/// Reads a file for a table of so many words.
pub fn read_into(table_words: usize, text: &str) -> Result<Lent, (u32, u64)> {
    let mut lent = Lent::anything(table_words);
    lent.read(text.as_bytes()).map(|()| lent)
}

/// The refusal, the line and the distance of a file in a table of 30 words.
pub fn refused_by(text: &str) -> LineBy {
    let outcome = Lent::anything(30).read_by(text.as_bytes());
    outcome.expect_err("a file that is refused")
}

/// The refusal and the line of a file in a table of 30 words.
pub fn refused(text: &str) -> (u32, u64) {
    read_into(30, text).expect_err("a file that is refused")
}

/// Files that the program's table refuses and a table of 30 words too, each with its refusal and
/// its line, and its distance.
pub fn refused_files() -> Vec<(String, LineBy)> {
    let mut files = files_with_a_distance();
    let others = files_without_a_distance().into_iter();
    files.extend(others.map(|(text, refusal)| (text, (refusal, 0))));
    files
}

/// Those that are a gap or an overlap.
fn files_with_a_distance() -> Vec<(String, LineBy)> {
    let behind_one = |t, r| file(OPEN_ENDED, &[(0, 1, 0), (t, 1, r)]);
    vec![
        (behind_one(2, 0), ((4, 3), 1)),
        (behind_one(2, -1), ((4, 3), 1)),
        (behind_one(Tick::MAX + 1, 0), ((4, 3), Tick::MAX)),
        (behind_one(ABSENT - 1, 0), ((4, 3), ABSENT - 2)),
        (behind_one(0, 0), ((5, 3), 1)),
        (behind_one(0, -1), ((5, 3), 1)),
        (
            file(SHORT, &[(500, 7, 1), (ABSENT, 4, 0), (20, 1, 0)]),
            ((5, 4), 498),
        ),
    ]
}

/// The others.
fn files_without_a_distance() -> Vec<(String, (u32, u64))> {
    vec![
        (file(NO_TIMESCALE, &[(0, 1, 0)]), (1, 1)),
        (old_file(NO_TIMESCALE, &[(0, 1, 0)]), (1, 1)),
        (file(FAR_UPDATE, &[(0, 1, 0)]), (1, 1)),
        (file(SHORT, &[(Tick::MAX + 1, 1, 0)]), (1, 2)),
        (file(SHORT, &[(0, 0, 0)]), (3, 2)),
        (file(SHORT, &[(0, 1, 0), (9, 0, 0)]), (3, 3)),
        (file(SHORT, &[(0, 1, 0), (9, 0, -1)]), (3, 3)),
        (file(OPEN_ENDED, &[(Tick::MAX, 1, 0)]), (6, 2)),
        (file(NUMBERED, &[(0, 1, 0)]), (7, 2)),
        (file(SHORT, &[(1_000, 1, 0)]), (8, 2)),
        (String::new(), (16, 1)),
        (end_line(0), (17, 1)),
        (file(SHORT, &[(0, 1, -1), (ABSENT, 1, 0)]), (17, 3)),
        (file(OPEN_ENDED, &[(0, 1, -1)]), (18, 2)),
    ]
}

/// A head with neither an end nor a depth, one tick a millisecond.
pub const OPEN_ENDED: HeadFields = HeadFields {
    timescale: 1000,
    offset: 0,
    start: 0,
    duration: 0,
    depth: 0,
    first_number: 0,
    update: 0,
};

/// The same with a period of 1,000 ms.
pub const SHORT: HeadFields = HeadFields {
    duration: 1_000,
    ..OPEN_ENDED
};

/// A head with no number left for any reference.
pub const NUMBERED: HeadFields = HeadFields {
    first_number: u32::MAX,
    ..OPEN_ENDED
};

/// A head that is refused.
pub const NO_TIMESCALE: HeadFields = HeadFields {
    timescale: 0,
    ..OPEN_ENDED
};

/// Another one.
pub const FAR_UPDATE: HeadFields = HeadFields {
    update: Millis::MAX + 1,
    ..OPEN_ENDED
};

pub const CASE_A: HeadFields = HeadFields {
    timescale: 10,
    offset: 100,
    start: 30_000,
    duration: 10_000,
    ..OPEN_ENDED
};

pub const CASE_B: HeadFields = HeadFields {
    depth: 10_000,
    first_number: 1,
    ..OPEN_ENDED
};

/// Case B whose window reaches two seconds past the clock.
pub const CASE_B_UPDATE: HeadFields = HeadFields {
    update: 2_000,
    ..CASE_B
};

pub const CASE_D: HeadFields = HeadFields {
    timescale: 3,
    duration: 500,
    ..OPEN_ENDED
};
