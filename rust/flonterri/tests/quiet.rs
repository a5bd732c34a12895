//! A long quiet channel: one run of as many references as a timeline may have. No call may take a step
//! for each of them, so each must be over in a moment.

use std::time::{Duration, Instant};

use flonterri::words::{
    self, word, AVAILABILITY_WORDS, AVAILABLE_WORDS, EDGE_WORDS, FULL_TICK_WORDS, READ_WORDS,
    RECORD_WORDS, TOUCHING_WORDS, VERDICT_WORDS,
};

/// As many references as a timeline may accept, each of one tick.
const MOST: u32 = 1 << 31;

/// A step for each of them takes longer than this on any machine, and a division never does.
const MOMENT: Duration = Duration::from_millis(100);

/// How often a call may be held up by something else on the machine.
const TRIES: u32 = 5;

type Words = ([u64; RECORD_WORDS], [u64; 30]);

/// A millisecond a tick, no period end, a window one millisecond deep.
fn opened() -> Words {
    let (mut record, mut table) = ([0; RECORD_WORDS], [0; 30]);
    let number = words::open(&mut record, &mut table, 1000, 0, 0, 0, 1, 0, 0, 0);
    assert_eq!(number, 0);
    (record, table)
}

fn filled() -> Words {
    let (mut record, mut table) = opened();
    fill(&mut record, &mut table);
    assert_eq!(table[..3], [0, 1, u64::from(MOST)]);
    (record, table)
}

fn fill(record: &mut [u64], table: &mut [u64]) {
    assert_eq!(words::append(record, table, 0, 1, MOST, &mut [0]), 0);
}

/// Makes a call until it is over in a moment, and gives what it comes to.
fn soon<T>(mut call: impl FnMut() -> T) -> T {
    for _ in 0..TRIES {
        let began = Instant::now();
        let end = call();
        if began.elapsed() < MOMENT {
            return end;
        }
    }
    panic!("a call took longer than {:?}, {} times", MOMENT, TRIES);
}

#[test]
fn calls_that_change() {
    let stamped = |(mut record, mut table): Words| {
        let number = words::append_stamp(&mut record, &mut table, 0, 1, MOST, &mut [0]);
        (number, record[word::DROPPED], record[word::RUNS_USED])
    };
    let trimmed = |(mut record, mut table): Words, clock| {
        let number = words::trim(&mut record, &mut table, clock);
        (number, record[word::DROPPED], record[word::RUNS_USED])
    };
    assert_eq!(soon(|| stamped(opened())), (0, 0, 1));
    assert_eq!(soon(|| trimmed(filled(), 3)), (0, 2, 1));
    assert_eq!(soon(|| trimmed(filled(), 2_000_001)), (0, 2_000_000, 1));
    let last = u64::from(MOST);
    assert_eq!(soon(|| trimmed(filled(), last)), (0, last - 1, 1));
    assert_eq!(soon(|| trimmed(filled(), last + 1)), (0, last, 0));
    // what is spent at once is counted and not stored
    let late = |clock| {
        let (mut record, mut table) = opened();
        assert_eq!(words::trim(&mut record, &mut table, clock), 0);
        (record, table)
    };
    assert_eq!(soon(|| stamped(late(last + 1))), (0, last, 0));
    assert_eq!(soon(|| stamped(late(last))), (0, last - 1, 1));
    // both at once: all stored and then dropped, or the last alone
    let stamped_and_trimmed = |(mut record, mut table): Words, clock| {
        let number = words::append_trim(&mut record, &mut table, 0, 1, MOST, clock, &mut [0]);
        (number, record[word::DROPPED], record[word::RUNS_USED])
    };
    let both = |words, clock| soon(|| stamped_and_trimmed(words, clock));
    assert_eq!(both(opened(), last), (0, last - 1, 1));
    assert_eq!(both(opened(), last + 1), (0, last, 0));
    assert_eq!(both(late(last), last + 1), (0, last, 0));
}

#[test]
fn calls_that_look() {
    let (record, table) = filled();
    let (last, ahead) = (u64::from(MOST) - 1, u64::from(MOST));
    let mut verdict = [0; VERDICT_WORDS];
    assert_eq!(
        soon(|| words::verdict(&record, &table, ahead, &mut verdict)),
        0
    );
    assert_eq!(verdict, [1, 1, 1, 0, 100]);
    let mut times = [0; AVAILABILITY_WORDS];
    assert_eq!(
        soon(|| words::availability(&record, &table, last, &mut times)),
        0
    );
    assert_eq!(times[1], i64::from(MOST) * 1000);
    let mut available = [0; AVAILABLE_WORDS];
    let mut asked = || words::available_at(&record, &table, last, ahead, &mut available);
    assert_eq!(soon(&mut asked), 0);
    assert_eq!(available, [1]);
    let mut touching = [7; TOUCHING_WORDS];
    let mut asked = || words::touching(&record, &table, last, ahead, &mut touching);
    assert_eq!(soon(&mut asked), 0);
    assert_eq!(touching, [0, 3]);
    let mut edge = [0; EDGE_WORDS];
    assert_eq!(soon(|| words::covered_edge(&record, &table, &mut edge)), 0);
    assert_eq!(edge, [1, ahead]);
    let mut full = [0; FULL_TICK_WORDS];
    assert_eq!(
        soon(|| words::full_tick(&record, &table, MOST, &mut full)),
        0
    );
    assert_eq!(full, [1, ahead]);
}

#[test]
fn the_whole_period() {
    let (mut record, mut table) = ([0; RECORD_WORDS], [0; 30]);
    let last = u64::from(MOST);
    let number = words::open(&mut record, &mut table, 1000, 0, 0, last, 0, 0, 0, 0);
    assert_eq!(number, 0);
    fill(&mut record, &mut table);
    let mut verdict = [0; VERDICT_WORDS];
    assert_eq!(
        soon(|| words::verdict_whole(&record, &table, &mut verdict)),
        0
    );
    assert_eq!(verdict, [1, last, last, 0, 100]);
}

#[test]
fn a_file() {
    let (record, table) = filled();
    let (mut bytes, mut length) = ([0; 200], [0]);
    assert_eq!(
        soon(|| words::write(&record, &table, &mut bytes, &mut length)),
        0
    );
    assert_eq!(length, [145]);
    let (mut read, mut words_read, mut out) = ([7; RECORD_WORDS], [7; 30], [7; READ_WORDS]);
    let mut reading = || words::read(&bytes[..145], &mut read, &mut words_read, &mut out);
    assert_eq!(soon(&mut reading), 0);
    assert_eq!((read, words_read, out), (record, table, [0, 0]));
}
