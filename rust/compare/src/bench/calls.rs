//! Mixed appends and trims through the archive and through a plain vector of references; and segments, an
//! append and a trim each, by one call of the archive, by two, and through the vector.

use flonterri::words::{word, RECORD_WORDS};

use super::vector::Vector;
use super::{race, Side, Unit};
use crate::face::ARCHIVE;
use crate::limits::PROGRAM_TABLE_WORDS;
use crate::opening::Opening;

/// A reference that is appended, and then a trim at its end.
#[derive(Clone, Copy)]
struct Segment {
    start: u64,
    duration: u32,
}

impl Segment {
    fn end(self) -> u64 {
        self.start + u64::from(self.duration)
    }
}

/// A channel: how deep its window is, after how many references the duration changes, and the
/// words of its table.
struct Channel {
    name: &'static str,
    depth: u64,
    references_a_run: u64,
    table_words: usize,
}

const CHANNELS: [Channel; 3] = [
    Channel {
        name: "few runs: 300 references kept in 4 runs or 5, a table of 10 runs",
        depth: 600_000,
        references_a_run: 100,
        table_words: 30,
    },
    Channel {
        name: "few runs: 3,600 references kept in 4 runs or 5, a table of 10 runs",
        depth: 7_200_000,
        references_a_run: 1_000,
        table_words: 30,
    },
    Channel {
        name: "1,000 alternating durations: as many runs kept, a table of 1,024 runs",
        depth: 2_001_000,
        references_a_run: 1,
        table_words: PROGRAM_TABLE_WORDS,
    },
];

/// Times every channel: so many appends and trims, and then so many segments.
pub fn run(calls: u64, rounds: u64) -> Result<(), String> {
    for channel in &CHANNELS {
        println!("{} appends and trims, {}", calls, channel.name);
        let segments = channel.segments(calls / 2);
        let sides = [
            Side {
                name: "archive",
                work: &|| Ok(channel.through_archive(&segments, by_tick)),
            },
            Side {
                name: "vector",
                work: &|| Ok(channel.through_vector(&segments)),
            },
        ];
        race(rounds, &Unit::nanos("ns a call", calls), &sides)?;
    }
    for channel in &CHANNELS {
        println!("{} segments, {}", calls, channel.name);
        let segments = channel.segments(calls);
        let sides = [
            Side {
                name: "one call",
                work: &|| Ok(channel.through_archive(&segments, by_one_call)),
            },
            Side {
                name: "two calls",
                work: &|| Ok(channel.through_archive(&segments, by_two_calls)),
            },
            Side {
                name: "vector",
                work: &|| Ok(channel.through_vector(&segments)),
            },
        ];
        race(rounds, &Unit::nanos("ns a segment", calls), &sides)?;
    }
    Ok(())
}

/// A segment through the archive by its full tick; 0 where both calls are accepted.
fn by_tick(record: &mut [u64], table: &mut [u64], segment: Segment) -> u32 {
    let Segment { start, duration } = segment;
    (ARCHIVE.append)(record, table, start, duration, 1, &mut [0])
        | (ARCHIVE.trim)(record, table, segment.end())
}

/// The same by its stamp.
fn by_two_calls(record: &mut [u64], table: &mut [u64], segment: Segment) -> u32 {
    let Segment { start, duration } = segment;
    (ARCHIVE.append_stamp)(record, table, start as u32, duration, 1, &mut [0])
        | (ARCHIVE.trim)(record, table, segment.end())
}

/// The same as one call.
fn by_one_call(record: &mut [u64], table: &mut [u64], segment: Segment) -> u32 {
    let Segment { start, duration } = segment;
    let (stamp, clock) = (start as u32, segment.end());
    (ARCHIVE.append_trim)(record, table, stamp, duration, 1, clock, &mut [0])
}

impl Channel {
    fn head(&self) -> Opening {
        Opening {
            depth: self.depth,
            first_number: 1,
            ..Opening::OPEN_ENDED
        }
    }

    /// References of about two seconds, one behind the other.
    fn segments(&self, many: u64) -> Vec<Segment> {
        let mut start = 0;
        let segment = |at| {
            let duration = 2000 + 2 * (at / self.references_a_run % 2) as u32;
            let segment = Segment { start, duration };
            start = segment.end();
            segment
        };
        (0..many).map(segment).collect()
    }

    /// Accepted, dropped, next tick and greatest clock after all segments through the archive, each
    /// taken by some calls.
    fn through_archive(
        &self,
        segments: &[Segment],
        take: impl Fn(&mut [u64], &mut [u64], Segment) -> u32,
    ) -> [u64; 4] {
        let mut record = [0; RECORD_WORDS];
        let mut table = vec![0; self.table_words];
        let mut numbers = (ARCHIVE.open)(&mut record, &mut table, &self.head());
        for segment in segments {
            numbers |= take(&mut record, &mut table, *segment);
        }
        assert_eq!(numbers, 0, "every call is accepted");
        [
            record[word::ACCEPTED],
            record[word::DROPPED],
            record[word::NEXT_TICK],
            record[word::GREATEST_CLOCK],
        ]
    }

    /// The same through a vector.
    fn through_vector(&self, segments: &[Segment]) -> [u64; 4] {
        let mut vector = Vector::open(self.head());
        let mut numbers = 0;
        for segment in segments {
            numbers |= vector.append(segment.start, segment.duration, 1);
            numbers |= vector.trim(segment.end());
        }
        assert_eq!(numbers, 0, "every call is accepted");
        vector.words()
    }
}
