//! Few references of one run that are spent at one call, and many: each count is a division, so the
//! time of the call is the same.

use std::time::{Duration, Instant};

use flonterri::words::{word, RECORD_WORDS};

use crate::face::ARCHIVE;
use crate::opening::Opening;

/// How often a call is made for one figure: one alone is too short to be timed.
const REPEATS: u32 = 100_000;

/// As many references as a timeline may accept.
const MOST: u32 = 1 << 31;

/// How many references the calls drop.
const SPENT: [u32; 4] = [2, 2_000, 2_000_000, MOST];

/// The words of a table of ten runs.
const TABLE_WORDS: usize = 30;

/// A feed whose references are all of one tick, and whose window is one millisecond deep.
const FEED: Opening = Opening {
    depth: 1,
    ..Opening::OPEN_ENDED
};

/// Record and table, copied before each call, so that every call finds the same.
#[derive(Clone, Copy)]
struct State {
    record: [u64; RECORD_WORDS],
    table: [u64; TABLE_WORDS],
}

impl State {
    fn opened() -> State {
        let mut state = State {
            record: [0; RECORD_WORDS],
            table: [0; TABLE_WORDS],
        };
        assert_eq!(
            (ARCHIVE.open)(&mut state.record, &mut state.table, &FEED),
            0
        );
        state
    }

    fn append(&mut self, count: u32) {
        let number = (ARCHIVE.append)(&mut self.record, &mut self.table, 0, 1, count, &mut [0]);
        assert_eq!(number, 0, "the append is accepted");
    }

    /// Trims at the clock at which so many references are spent.
    fn trim(&mut self, spent: u32) {
        let clock = u64::from(spent) + FEED.depth;
        let number = (ARCHIVE.trim)(&mut self.record, &mut self.table, clock);
        assert_eq!(number, 0, "the trim is accepted");
    }
}

/// Times trims and appends, each kind over all counts side by side.
pub fn run(rounds: u64) {
    println!("one trim of a run of 2^31 references");
    let mut whole = State::opened();
    whole.append(MOST);
    race(rounds, "trim", whole, State::trim);
    println!("one append of references that are spent at once");
    let mut late = State::opened();
    late.trim(MOST);
    race(rounds, "append", late, State::append);
}

/// Makes a call that drops few references and more of them, in turns, in so many rounds, and prints the
/// best time of each.
fn race(rounds: u64, name: &str, before: State, call: fn(&mut State, u32)) {
    let mut best = SPENT.map(|_| Duration::MAX);
    for _ in 0..rounds {
        for (best, spent) in best.iter_mut().zip(SPENT) {
            *best = timed(before, call, spent).min(*best);
        }
    }
    for (best, spent) in best.iter().zip(SPENT) {
        let nanos = best.as_secs_f64() * 1e9 / f64::from(REPEATS);
        println!("  {} that drops {:>10}  {:8.1} ns", name, spent, nanos);
    }
}

/// How long the repeats of a call take. Each must drop so many references.
fn timed(before: State, call: fn(&mut State, u32), spent: u32) -> Duration {
    let began = Instant::now();
    for _ in 0..REPEATS {
        let mut state = before;
        call(&mut state, spent);
        assert_eq!(state.record[word::DROPPED], u64::from(spent));
    }
    began.elapsed()
}
