//! One call with its arguments and the memory lent to it, and what it answers.

use flonterri::words::{self, RECORD_WORDS};

use crate::face::Face;
use crate::opening::Opening;

/// What stands in each word of an `out` before a call.
pub const OUT_CAME: u64 = 5555;

/// A call and its arguments.
#[derive(Clone, Debug, PartialEq, Eq)]
#[allow(missing_docs)]
pub enum Call {
    Open(Opening),
    Append {
        start: u64,
        duration: u32,
        count: u32,
    },
    AppendStamp {
        stamp: u32,
        duration: u32,
        count: u32,
    },
    AppendTrim {
        stamp: u32,
        duration: u32,
        count: u32,
        clock: u64,
    },
    Trim {
        clock: u64,
    },
    Verdict {
        clock: u64,
    },
    VerdictWhole,
    Availability {
        number: u64,
    },
    AvailableAt {
        number: u64,
        clock: u64,
    },
    CoveredEdge,
    FullTick {
        stamp: u32,
    },
    Touching {
        a: u64,
        b: u64,
    },
    Read {
        bytes: Vec<u8>,
    },
    Write {
        room: usize,
    },
}

impl Call {
    /// The call's name.
    pub fn name(&self) -> &'static str {
        match self {
            Call::Open(_) => "open",
            Call::Append { .. } => "append",
            Call::AppendStamp { .. } => "append_stamp",
            Call::AppendTrim { .. } => "append_trim",
            Call::Trim { .. } => "trim",
            Call::Verdict { .. } => "verdict",
            Call::VerdictWhole => "verdict_whole",
            Call::Availability { .. } => "availability",
            Call::AvailableAt { .. } => "available_at",
            Call::CoveredEdge => "covered_edge",
            Call::FullTick { .. } => "full_tick",
            Call::Touching { .. } => "touching",
            Call::Read { .. } => "read",
            Call::Write { .. } => "write",
        }
    }

    /// How many words the call's `out` should have.
    pub fn out_words(&self) -> usize {
        match self {
            Call::Verdict { .. } | Call::VerdictWhole => words::VERDICT_WORDS,
            Call::Availability { .. } => words::AVAILABILITY_WORDS,
            Call::AvailableAt { .. } => words::AVAILABLE_WORDS,
            Call::CoveredEdge => words::EDGE_WORDS,
            Call::FullTick { .. } => words::FULL_TICK_WORDS,
            Call::Touching { .. } => words::TOUCHING_WORDS,
            Call::Append { .. } | Call::AppendStamp { .. } | Call::AppendTrim { .. } => {
                words::DISTANCE_WORDS
            }
            Call::Read { .. } => words::READ_WORDS,
            Call::Write { .. } => words::WRITE_WORDS,
            Call::Open(_) | Call::Trim { .. } => 0,
        }
    }

    /// The duration and the count that an append gives.
    pub fn given(&self) -> Option<(u32, u32)> {
        match self {
            Call::Append {
                duration, count, ..
            }
            | Call::AppendStamp {
                duration, count, ..
            }
            | Call::AppendTrim {
                duration, count, ..
            } => Some((*duration, *count)),
            _ => None,
        }
    }

    /// True where the call judges no record: it makes one.
    pub fn makes_record(&self) -> bool {
        matches!(self, Call::Open(_) | Call::Read { .. })
    }
}

/// A place in the lent memory.
#[derive(Clone, Copy, Debug, PartialEq, Eq)]
pub enum Place {
    /// A word of the record.
    Record(usize),
    /// A word of the table.
    Table(usize),
}

/// A word that is changed before a call.
#[derive(Clone, Copy, Debug, PartialEq, Eq)]
pub struct Damage {
    /// Where.
    pub place: Place,
    /// To what.
    pub word: u64,
}

/// A record and a table.
#[derive(Clone, Debug, PartialEq, Eq)]
pub struct Lent {
    /// The words of the record.
    pub record: Vec<u64>,
    /// The words of the table.
    pub table: Vec<u64>,
}

impl Lent {
    /// Memory that holds no timeline yet, and is not 0 either.
    pub fn anything(table_words: usize) -> Self {
        Lent {
            record: vec![u64::MAX - 77; RECORD_WORDS],
            table: vec![99; table_words],
        }
    }

    /// The memory with some words changed.
    pub fn damaged(&self, damage: &[Damage]) -> Lent {
        let mut lent = self.clone();
        for change in damage {
            match change.place {
                Place::Record(at) => lent.record[at] = change.word,
                Place::Table(at) => lent.table[at] = change.word,
            }
        }
        lent
    }

    /// The words to change so that an older record stands here, and the table as it is.
    pub fn older(&self, record: &[u64]) -> Vec<Damage> {
        (0..RECORD_WORDS)
            .filter(|at| record[*at] != self.record[*at])
            .map(|at| Damage {
                place: Place::Record(at),
                word: record[at],
            })
            .collect()
    }
}

/// A call and how memory is lent to it.
#[derive(Clone, Debug, PartialEq, Eq)]
pub struct Step {
    /// The call.
    pub call: Call,
    /// Words changed before it.
    pub damage: Vec<Damage>,
    /// True where these words are those of an older record.
    pub older: bool,
    /// How many words of a record it is lent.
    pub record_words: usize,
    /// How many words of an `out` it is lent.
    pub out_words: usize,
}

impl Step {
    /// The call on memory as it is, with everything of its right length.
    pub fn of(call: Call) -> Self {
        Step {
            damage: Vec::new(),
            older: false,
            record_words: RECORD_WORDS,
            out_words: call.out_words(),
            call,
        }
    }

    /// True where the record has another length than it should.
    pub fn has_other_record(&self) -> bool {
        self.record_words != RECORD_WORDS
    }

    /// True where the `out` has another length than it should.
    pub fn has_other_out(&self) -> bool {
        self.out_words != self.call.out_words()
    }

    /// True where memory is changed for this call alone.
    pub fn spoils_memory(&self) -> bool {
        !self.damage.is_empty() || self.has_other_record()
    }

    /// Makes the call on a copy of the memory, through one side.
    pub fn perform(&self, face: &Face, lent: &Lent) -> Answer {
        let mut lent = lent.damaged(&self.damage);
        lent.record.resize(self.record_words, 4242);
        let mut answer = Answer {
            number: 0,
            record: lent.record,
            table: lent.table,
            out: vec![OUT_CAME; self.out_words],
            bytes: match self.call {
                Call::Write { room } => vec![b'#'; room],
                _ => Vec::new(),
            },
        };
        answer.number = answer.make(face, &self.call);
        answer
    }

    /// The memory after the call: what it left, unless memory was changed for it alone and it was
    /// refused.
    pub fn after(&self, before: &Lent, answer: &Answer) -> Lent {
        if self.spoils_memory() && answer.number != 0 {
            before.clone()
        } else {
            Lent {
                record: answer.record.clone(),
                table: answer.table.clone(),
            }
        }
    }
}

/// Everything that a call leaves.
#[derive(Clone, Debug, PartialEq, Eq)]
pub struct Answer {
    /// The refusal number, 0 where accepted.
    pub number: u32,
    /// The record.
    pub record: Vec<u64>,
    /// The table.
    pub table: Vec<u64>,
    /// The `out`; signed words stand here by their bits.
    pub out: Vec<u64>,
    /// The output of a writing.
    pub bytes: Vec<u8>,
}

impl Answer {
    fn make(&mut self, face: &Face, call: &Call) -> u32 {
        let (record, table, out) = (&mut self.record, &mut self.table, &mut self.out);
        match call {
            Call::Open(opening) => (face.open)(record, table, opening),
            Call::Append {
                start,
                duration,
                count,
            } => (face.append)(record, table, *start, *duration, *count, out),
            Call::AppendStamp {
                stamp,
                duration,
                count,
            } => (face.append_stamp)(record, table, *stamp, *duration, *count, out),
            Call::AppendTrim {
                stamp,
                duration,
                count,
                clock,
            } => (face.append_trim)(record, table, *stamp, *duration, *count, *clock, out),
            Call::Trim { clock } => (face.trim)(record, table, *clock),
            Call::Verdict { clock } => (face.verdict)(record, table, *clock, out),
            Call::VerdictWhole => (face.verdict_whole)(record, table, out),
            Call::Availability { number } => {
                let mut signed: Vec<i64> = out.iter().map(|word| *word as i64).collect();
                let answer = (face.availability)(record, table, *number, &mut signed);
                *out = signed.iter().map(|word| *word as u64).collect();
                answer
            }
            Call::AvailableAt { number, clock } => {
                (face.available_at)(record, table, *number, *clock, out)
            }
            Call::CoveredEdge => (face.covered_edge)(record, table, out),
            Call::FullTick { stamp } => (face.full_tick)(record, table, *stamp, out),
            Call::Touching { a, b } => (face.touching)(record, table, *a, *b, out),
            Call::Read { bytes } => (face.read)(bytes, record, table, out),
            Call::Write { .. } => (face.write)(record, table, &mut self.bytes, out),
        }
    }

    /// The first difference from another answer, in words; none where they are alike.
    pub fn difference(&self, other: &Answer) -> Option<String> {
        let differing = |what: &str, ours: &[u64], others: &[u64]| {
            if ours.len() != others.len() {
                return Some(format!(
                    "{} of {} and {} words",
                    what,
                    ours.len(),
                    others.len()
                ));
            }
            let at = (0..ours.len()).find(|at| ours[*at] != others[*at])?;
            Some(format!("{} {}: {} and {}", what, at, ours[at], others[at]))
        };
        if self.number != other.number {
            return Some(format!("number: {} and {}", self.number, other.number));
        }
        let widen = |bytes: &[u8]| -> Vec<u64> { bytes.iter().map(|b| u64::from(*b)).collect() };
        differing("record word", &self.record, &other.record)
            .or_else(|| differing("table word", &self.table, &other.table))
            .or_else(|| differing("out word", &self.out, &other.out))
            .or_else(|| differing("byte", &widen(&self.bytes), &widen(&other.bytes)))
    }
}
