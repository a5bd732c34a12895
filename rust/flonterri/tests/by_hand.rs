//! The paper's cases through the safe calls, and what the safe calls add to the archive's.

use flonterri::words::{self, word, RECORD_WORDS};
use flonterri::{
    Availability, Distance, Grain, Head, Millis, Number, OpenError, ReadError, Refusal,
    RefusedFile, Run, Span, Stamp, Tick, Timeline, Timescale, Verdict,
};

type Outcome = Result<(), OpenError>;

const WORKED_FILE: &str = "\
05000003e80000000000000000000000000000000000000000000000000000000000002710000000030000000000000000
020000000000001f4000000fa000000002
0300000001
";

/// The same file as it was written before there was an update period.
fn old_worked_file() -> String {
    let without_update = WORKED_FILE.replace("0000000000000000\n", "\n");
    without_update.replacen("05", "01", 1)
}

fn case_a() -> Result<Timeline, OpenError> {
    let head = Head {
        offset: Tick(100),
        start: Millis(30_000),
        duration: Millis(10_000),
        ..Head::new(Timescale(10))
    };
    let mut timeline = Timeline::open(head, Tick(111), 10)?;
    timeline.append(Tick(111), Span(40), 1)?;
    timeline.append(Tick(151), Span(10), 1)?;
    assert_eq!(timeline.head(), head);
    Ok(timeline)
}

fn case_b() -> Result<Timeline, OpenError> {
    case_b_with_update(0)
}

/// Case B with an update period.
fn case_b_with_update(millis: u64) -> Result<Timeline, OpenError> {
    let head = Head {
        depth: Millis(10_000),
        first_number: Number(1),
        update: Millis(millis),
        ..Head::new(Timescale(1000))
    };
    let mut timeline = Timeline::open(head, Tick(0), 10)?;
    timeline.append(Tick(0), Span(4000), 5)?;
    assert_eq!(timeline.head(), head);
    Ok(timeline)
}

fn case_d() -> Result<Timeline, OpenError> {
    let head = Head {
        duration: Millis(500),
        ..Head::new(Timescale(3))
    };
    Timeline::open(head, Tick(0), 10)
}

#[test]
fn a_next_tick_and_gap() -> Outcome {
    let mut timeline = case_a()?;
    assert_eq!(timeline.next_tick(), Tick(161));
    let before = timeline.clone();
    for (start, refusal) in [
        (170, Refusal::Gap(Distance(9))),
        (160, Refusal::Overlap(Distance(1))),
        (0, Refusal::Overlap(Distance(161))),
    ] {
        let refused = timeline.append(Tick(start), Span(10), 1);
        assert_eq!(refused, Err(refusal));
        assert_eq!(timeline, before);
    }
    // Nothing to append has no distance, however far the start is off.
    let refused = timeline.append(Tick(170), Span(0), 1);
    assert_eq!(refused, Err(Refusal::NothingGiven));
    Ok(())
}

/// The distance of full ticks is a number of 64 bits, also where the start lies far over its limit.
#[test]
fn a_start_beyond_all_ticks() -> Outcome {
    let mut timeline = Timeline::open(Head::new(Timescale(1)), Tick(0), 10)?;
    timeline.append(Tick(0), Span(1), 1)?;
    let refused = timeline.append(Tick(u64::MAX - 1), Span(1), 1);
    let distance = Distance(18_446_744_073_709_551_613);
    assert_eq!(refused, Err(Refusal::Gap(distance)));
    Ok(())
}

/// A file behind case A's head that has its first reference and one from another tick on.
fn file_of_a(start: u64, repeats: u32) -> String {
    let first = "02000000000000006f0000002800000000";
    let head = "010000000a000000000000006400000000000075300000000000002710000000000000000000000000";
    let second = format!("02{:016x}0000000a{:08x}", start, repeats);
    format!("{}\n{}\n{}\n0300000002\n", head, first, second)
}

#[test]
fn a_file_with_a_gap_or_an_overlap() {
    let refused = |start, repeats| Timeline::read(file_of_a(start, repeats).as_bytes(), 10);
    let at_line_3 = |refusal| Err(ReadError::Refused(RefusedFile { refusal, line: 3 }));
    assert_eq!(refused(160, 0), at_line_3(Refusal::Gap(Distance(9))));
    assert_eq!(refused(150, 0), at_line_3(Refusal::Overlap(Distance(1))));
    // A negative r changes nothing in it.
    assert_eq!(refused(160, u32::MAX), at_line_3(Refusal::Gap(Distance(9))));
    let shown = refused(160, 0).expect_err("a gap").to_string();
    let by_9 = "line 3: refusal 4: the start lies after the next tick by 9";
    assert_eq!(shown, by_9);
    assert!(refused(151, 0).is_ok());
}

#[test]
fn a_availability_and_whole_period() -> Outcome {
    let timeline = case_a()?;
    assert_eq!(
        timeline.availability(Number(0))?,
        Availability {
            start: Grain(351_000),
            end: None
        }
    );
    let verdict = timeline.verdict_whole()?;
    assert_eq!(
        verdict,
        Verdict::Lacking {
            needed: 100,
            covered: 50,
            lowest: Tick(100),
            percent: 50
        }
    );
    assert_eq!(verdict.to_string(), "lacking 100 50/100 50%");
    Ok(())
}

#[test]
fn a_runs_that_touch() -> Outcome {
    let timeline = case_a()?;
    let first = Run {
        start: Tick(111),
        duration: Span(40),
        count: 1,
    };
    let second = Run {
        start: Tick(151),
        duration: Span(10),
        count: 1,
    };
    let touching =
        |a, b| -> Result<Vec<Run>, Refusal> { Ok(timeline.touching(Tick(a)..Tick(b))?.collect()) };
    assert_eq!(touching(0, 111)?, []);
    assert_eq!(touching(0, 112)?, [first]);
    assert_eq!(touching(150, 152)?, [first, second]);
    assert_eq!(touching(151, u64::MAX)?, [second]);
    assert_eq!(touching(161, 200)?, []);
    assert_eq!(touching(5, 5), Err(Refusal::EmptySpan));
    assert_eq!(timeline.runs().len(), 2);
    assert_eq!(timeline.runs().collect::<Vec<_>>(), [first, second]);
    Ok(())
}

/// An update period moves no trim.
#[test]
fn b_trims() -> Outcome {
    trims_of_case_b(case_b()?)?;
    trims_of_case_b(case_b_with_update(2000)?)
}

fn trims_of_case_b(mut timeline: Timeline) -> Outcome {
    for (clock, dropped) in [(13_999, 0), (14_000, 1), (14_001, 1), (18_000, 2), (1, 2)] {
        timeline.trim(Millis(clock))?;
        assert_eq!(timeline.dropped(), dropped);
        assert_eq!(timeline.accepted(), 5);
        let run = Run {
            start: Tick(dropped * 4000),
            duration: Span(4000),
            count: 5 - dropped,
        };
        assert_eq!(timeline.runs().collect::<Vec<_>>(), [run]);
    }
    assert_eq!(timeline.greatest_clock(), Millis(18_000));
    assert_eq!(timeline.verdict(Millis(17_999)), Err(Refusal::EarlierClock));
    Ok(())
}

#[test]
fn b_verdicts() -> Outcome {
    let timeline = case_b()?;
    assert_eq!(timeline.verdict(Millis(0))?, Verdict::NothingNeeded);
    let complete = timeline.verdict(Millis(14_000))?;
    assert_eq!(complete, Verdict::Complete { needed: 10_000 });
    assert!(complete.is_complete());
    let lacking = timeline.verdict(Millis(20_001))?;
    assert_eq!(lacking.to_string(), "lacking 20000 9999/10000 99%");
    assert!(!lacking.is_complete());
    assert_eq!(lacking.percent(), Some(99));
    assert_eq!(
        timeline.verdict(Millis(Millis::LARGEST.0 + 1)),
        Err(Refusal::ClockLimit)
    );
    assert_eq!(timeline.verdict_whole(), Err(Refusal::EndUnknown));
    Ok(())
}

#[test]
fn b_availability_of_number_3() -> Outcome {
    let timeline = case_b()?;
    let available = timeline.availability(Number(3))?;
    assert_eq!(available.start, Grain(12_000_000));
    assert_eq!(available.end, Some(Grain(26_000_000)));
    assert_eq!(timeline.availability(Number(6)), Err(Refusal::NotKept));
    Ok(())
}

#[test]
fn b_the_worked_file() -> Outcome {
    let mut timeline = case_b()?;
    timeline.trim(Millis(18_000))?;
    assert_eq!(timeline.write()?, WORKED_FILE.as_bytes());

    let mut output = [b'#'; 150];
    let length = timeline.write_into(&mut output)?;
    assert_eq!((length, WORKED_FILE.len()), (145, 145));
    assert_eq!(&output[..length], WORKED_FILE.as_bytes());
    assert!(output[length..].iter().all(|byte| *byte == b'#'));
    assert_eq!(
        timeline.write_into(&mut output[..length - 1]),
        Err(Refusal::ShortOutput)
    );

    for file in [WORKED_FILE, &old_worked_file()] {
        let again = Timeline::read(file.as_bytes(), 10).expect("an accepted file");
        assert_eq!(again.table_words(), timeline.table_words());
        assert_eq!(again.first_kept_number(), timeline.first_kept_number());
        assert_eq!(again.next_tick(), timeline.next_tick());
        assert_eq!(again.head().update, Millis(0));
        assert_eq!(again.write()?, WORKED_FILE.as_bytes());
    }
    Ok(())
}

/// With an update period of two seconds the window reaches so far past the clock.
#[test]
fn b_with_an_update_period() -> Outcome {
    let mut timeline = case_b_with_update(2000)?;
    for (clock, line) in [
        (0, "complete 2000/2000 100%"),
        (14_000, "complete 12000/12000 100%"),
        (18_000, "complete 12000/12000 100%"),
        (18_001, "lacking 20000 11999/12000 99%"),
    ] {
        assert_eq!(timeline.verdict(Millis(clock))?.to_string(), line);
    }
    assert_eq!(timeline.covered_edge(), Some(Millis(18_000)));
    let available = timeline.availability(Number(3))?;
    assert_eq!(available.start, Grain(12_000_000));
    assert_eq!(available.end, Some(Grain(26_000_000)));

    timeline.trim(Millis(18_000))?;
    assert!(timeline.verdict(Millis(18_000))?.is_complete());
    assert_eq!(timeline.verdict(Millis(17_999)), Err(Refusal::EarlierClock));
    let file = WORKED_FILE.replace("0000000000000000\n", "00000000000007d0\n");
    assert_eq!(timeline.write()?, file.as_bytes());
    Ok(())
}

/// A period start that the clock has not reached, and the update period has.
#[test]
fn a_window_that_opens_before_the_period_start() -> Outcome {
    let head = Head {
        start: Millis(10),
        update: Millis(15),
        ..Head::new(Timescale(1000))
    };
    let mut timeline = Timeline::open(head, Tick(0), 10)?;
    let lacking = timeline.verdict(Millis(0))?;
    assert_eq!(lacking.to_string(), "lacking 0 0/5 0%");
    timeline.append(Tick(0), Span(5), 1)?;
    let complete = timeline.verdict(Millis(0))?;
    assert_eq!(complete, Verdict::Complete { needed: 5 });
    Ok(())
}

#[test]
fn b_emptied_and_nothing_to_write() -> Outcome {
    let mut timeline = case_b()?;
    timeline.trim(Millis(1_000_000))?;
    assert_eq!(timeline.runs_used(), 0);
    assert_eq!(timeline.next_tick(), Tick(20_000));
    assert_eq!(timeline.first_kept_number(), Number(6));
    assert_eq!(timeline.write(), Err(Refusal::NothingKept));
    Ok(())
}

#[test]
fn c_stamps() -> Outcome {
    let head = Head::new(Timescale(1000));
    let opened = Timeline::open(head, Tick(4_294_970_000), 10)?;
    for (stamp, outcome) in [
        (2704, Ok(())),
        (2705, Err(Refusal::Gap(Distance(1)))),
        (2703, Err(Refusal::Overlap(Distance(1)))),
        (2_147_486_351, Err(Refusal::Gap(Distance(2_147_483_647)))),
        (
            2_147_486_352,
            Err(Refusal::Overlap(Distance(2_147_483_648))),
        ),
    ] {
        let answer = opened.clone().append_stamp(Stamp(stamp), Span(1), 1);
        assert_eq!(answer, outcome);
    }
    Ok(())
}

#[test]
fn d_a_period_end_inside_a_tick() -> Outcome {
    let mut timeline = case_d()?;
    assert_eq!(timeline.verdict_whole()?.to_string(), "lacking 0 0/2 0%");
    timeline.append(Tick(0), Span(1), 1)?;
    assert_eq!(timeline.verdict_whole()?.to_string(), "lacking 1 1/2 50%");
    timeline.append(Tick(1), Span(1), 1)?;
    assert_eq!(timeline.verdict_whole()?, Verdict::Complete { needed: 2 });
    assert_eq!(timeline.append(Tick(2), Span(1), 1), Err(Refusal::PastEnd));
    Ok(())
}

#[test]
fn d_a_negative_r_gives_two() {
    let file = "\
01000000030000000000000000000000000000000000000000000001f4000000000000000000000000
02000000000000000000000001ffffffff
0300000001
";
    let timeline = Timeline::read(file.as_bytes(), 10).expect("an accepted file");
    assert_eq!(timeline.accepted(), 2);
    let refused = Timeline::read(file.replace("1f4", "000").as_bytes(), 10);
    let expected = RefusedFile {
        refusal: Refusal::NoEndToReach,
        line: 2,
    };
    assert_eq!(refused, Err(ReadError::Refused(expected)));
    assert_eq!(
        expected.to_string(),
        "line 2: refusal 18: a negative r, and the period end is unknown"
    );
}

#[test]
fn an_opening_over_its_limit() {
    assert_eq!(
        Timeline::open(Head::new(Timescale(0)), Tick(0), 10),
        Err(OpenError::Refused(Refusal::OverLimit))
    );
    assert_eq!(
        Timeline::open(Head::new(Timescale(1)), Tick(Tick::LARGEST.0 + 1), 10),
        Err(OpenError::Refused(Refusal::OverLimit))
    );
    for update in [Millis::LARGEST.0 + 1, u64::MAX] {
        let head = Head {
            update: Millis(update),
            ..Head::new(Timescale(1))
        };
        assert_eq!(
            Timeline::open(head, Tick(0), 10),
            Err(OpenError::Refused(Refusal::OverLimit))
        );
    }
}

#[test]
fn no_room() -> Outcome {
    let mut timeline = Timeline::open(Head::new(Timescale(1)), Tick(0), 1)?;
    timeline.append(Tick(0), Span(7), 3)?;
    assert_eq!(
        timeline.append(Tick(21), Span(8), 1),
        Err(Refusal::NoRunLeft)
    );
    timeline.append(Tick(21), Span(7), 1)?;
    let mut none = Timeline::open(Head::new(Timescale(1)), Tick(0), 0)?;
    assert_eq!(none.append(Tick(0), Span(7), 1), Err(Refusal::NoRunLeft));
    Ok(())
}

/// Numbers of runs that no memory holds. Those of the first row pass 64 bits as words and would wrap
/// round, the second of them to a table of 2 words; those of the second row do so as bytes; those of
/// the last row fit, and pass any address space.
#[test]
fn no_memory_for_so_many_runs() {
    let rows = [
        [usize::MAX, usize::MAX / 3 + 1],
        [usize::MAX / 3, usize::MAX / 24 + 1],
        [1 << 57, 1 << 55],
    ];
    for runs in rows.concat() {
        let opened = Timeline::open(Head::new(Timescale(1000)), Tick(0), runs);
        assert_eq!(opened, Err(OpenError::NoMemory { runs }));
        let read = Timeline::read(WORKED_FILE.as_bytes(), runs);
        assert_eq!(read, Err(ReadError::NoMemory { runs }));
    }
    let error: OpenError = OpenError::NoMemory { runs: 1 << 55 };
    assert_eq!(
        error.to_string(),
        "no memory for a table of 36028797018963968 runs"
    );
}

#[test]
fn errors_are_shown_as_what_they_hold() {
    let refused = OpenError::from(Refusal::OverLimit);
    assert_eq!(refused.to_string(), Refusal::OverLimit.to_string());
    let refused = Timeline::read(b"", 1).expect_err("a missing line");
    assert!(refused.to_string().starts_with("line 1: refusal 16: "));
    let error: Box<dyn std::error::Error> = refused.into();
    assert!(error.source().is_some());
}

#[test]
fn words_kept_elsewhere() -> Outcome {
    let timeline = case_b()?;
    let record = *timeline.record_words();
    let table = timeline.table_words().to_vec();
    assert_eq!(Timeline::of_words(record, table.clone())?, timeline);

    // Words that an accessor would have to cut, or that are no timeline for another reason.
    for (at, damage) in [
        (word::TIMESCALE, 1000 + (1 << 32)),
        (word::FIRST_NUMBER, 1 + (1 << 32)),
        (word::UPDATE_PERIOD, Millis::LARGEST.0 + 1),
        (word::UPDATE_PERIOD, u64::MAX),
        (word::DROPPED, u64::MAX),
        (word::NEXT_TICK, 1 << 52),
        (word::RUNS_USED, 1 + (1 << 32)),
        (word::RUNS_USED, u64::MAX),
    ] {
        let mut damaged = record;
        damaged[at] = damage;
        let made = Timeline::of_words(damaged, table.clone());
        assert_eq!(made, Err(Refusal::Disagreement));
        assert!(!words::agree(&damaged, &table));
        let mut length = [0; words::WRITE_WORDS];
        assert_eq!(words::write(&damaged, &table, &mut [], &mut length), 2);
    }
    let mut damaged = table;
    damaged[1] += 1 << 32;
    let made = Timeline::of_words(record, damaged);
    assert_eq!(made, Err(Refusal::Disagreement));

    let nothing = Timeline::of_words([0; RECORD_WORDS], Vec::new());
    assert_eq!(nothing, Err(Refusal::Disagreement));
    assert!(!words::agree(&record[..11], timeline.table_words()));
    Ok(())
}

/// What is as wide as its limit allows comes back whole.
#[test]
fn the_widest_words() -> Outcome {
    let head = Head {
        offset: Tick::LARGEST,
        start: Millis::LARGEST,
        duration: Millis::LARGEST,
        depth: Millis::LARGEST,
        first_number: Number(u32::MAX - 2),
        update: Millis::LARGEST,
        timescale: Timescale::LARGEST,
    };
    let duration = Span(u32::MAX);
    let first = Tick(Tick::LARGEST.0 - 2 * u64::from(duration.0));
    let mut timeline = Timeline::open(head, first, 10)?;
    timeline.append(first, duration, 2)?;
    assert_eq!(timeline.dropped(), 2);
    assert_eq!(timeline.head(), head);
    assert_eq!(timeline.next_tick(), Tick::LARGEST);
    assert_eq!(timeline.first_kept_number(), Number(u32::MAX));

    let mut timeline = Timeline::open(
        Head {
            offset: first,
            ..head
        },
        first,
        10,
    )?;
    timeline.append(first, duration, 2)?;
    let run = Run {
        start: first,
        duration,
        count: 2,
    };
    assert_eq!(timeline.runs().collect::<Vec<_>>(), [run]);
    assert_eq!(timeline.runs_used(), 1);
    Ok(())
}

/// The names of the words of an `out`, by the paper's case B.
#[test]
fn words_of_an_answer() -> Outcome {
    use words::{availability_kind, availability_word, touching_word, verdict_kind, verdict_word};

    let timeline = case_b()?;
    let (record, table) = (timeline.record_words(), timeline.table_words());

    let mut verdict = [0; words::VERDICT_WORDS];
    assert_eq!(words::verdict(record, table, 20_001, &mut verdict), 0);
    assert_eq!(verdict[verdict_word::KIND], verdict_kind::LACKING);
    assert_eq!(verdict[verdict_word::NEEDED], 10_000);
    assert_eq!(verdict[verdict_word::COVERED], 9_999);
    assert_eq!(verdict[verdict_word::LOWEST], 20_000);
    assert_eq!(verdict[verdict_word::PERCENT], 99);

    let mut availability = [0; words::AVAILABILITY_WORDS];
    let answer = words::availability(record, table, 3, &mut availability);
    assert_eq!(answer, 0);
    assert_eq!(
        availability[availability_word::KIND],
        availability_kind::ENDS
    );
    assert_eq!(availability[availability_word::START], 12_000_000);
    assert_eq!(availability[availability_word::END], 26_000_000);

    let mut touching = [7; words::TOUCHING_WORDS];
    assert_eq!(words::touching(record, table, 0, 1, &mut touching), 0);
    assert_eq!(touching[touching_word::FROM], 0);
    assert_eq!(touching[touching_word::TO], 3);
    Ok(())
}

#[test]
fn a_number_over_32_bits_is_not_kept() -> Outcome {
    let timeline = case_b()?;
    let (record, table) = (timeline.record_words(), timeline.table_words());
    let before = [-7; words::AVAILABILITY_WORDS];
    for number in [(1 << 32) + 3, (1 << 63) + 3, u64::MAX] {
        let mut out = before;
        assert_eq!(words::availability(record, table, number, &mut out), 13);
        assert_eq!(out, before);
    }
    Ok(())
}

/// What a refused opening and a refused reading leave.
#[test]
fn words_that_a_refusal_leaves() {
    let (came, table_came) = ([9; RECORD_WORDS], [9; 3]);

    let (mut record, mut table) = (came, table_came);
    let number = words::open(&mut record, &mut table, 0, 0, 0, 0, 0, 0, 0, 0);
    assert_eq!((number, record, table), (1, [0; RECORD_WORDS], table_came));
    let (mut record, mut table) = (came, table_came);
    let number = words::open(&mut record[1..], &mut table, 1, 0, 0, 0, 0, 0, 0, 0);
    assert_eq!((number, record, table), (2, came, table_came));

    let (mut record, mut table, mut out) = (came, table_came, [9, 9]);
    let number = words::read(b"", &mut record, &mut table, &mut out);
    assert_eq!((number, record, table), (16, [0; RECORD_WORDS], [0; 3]));
    assert_eq!(out, [1, 0]);
    let (mut record, mut table, mut out) = (came, table_came, [9]);
    let number = words::read(b"", &mut record[1..], &mut table, &mut out);
    assert_eq!((number, record, table, out), (2, came, table_came, [9]));
    let number = words::read(b"", &mut record, &mut table, &mut out);
    assert_eq!((number, record, table, out), (15, came, table_came, [9]));
    let bytes = file_of_a(160, 0).into_bytes();
    let (mut record, mut table, mut out) = (came, table_came, [9, 9]);
    let number = words::read(&bytes, &mut record, &mut table, &mut out);
    assert_eq!((number, record, table), (4, [0; RECORD_WORDS], [0; 3]));
    assert_eq!(out, [3, 9]);
}

/// An append of one reference that takes its `out`; the start's low 32 bits are its stamp.
type AppendOne = fn(&mut [u64], &mut [u64], u64, u32, &mut [u64]) -> u32;

/// By full tick, by stamp, and by stamp with a trim that changes nothing.
const APPENDS: [AppendOne; 3] = [
    |record, table, start, duration, out| words::append(record, table, start, duration, 1, out),
    |record, table, start, duration, out| {
        words::append_stamp(record, table, start as u32, duration, 1, out)
    },
    |record, table, start, duration, out| {
        words::append_trim(record, table, start as u32, duration, 1, 0, out)
    },
];

/// An append writes its `out` where it is 4 or 5, and nowhere else.
#[test]
fn words_of_a_distance() -> Outcome {
    let timeline = case_a()?;
    let (came, table_came) = (*timeline.record_words(), timeline.table_words());
    for (start, duration, expected) in [
        (161, 10, (0, 77)),
        (170, 0, (3, 77)),
        (170, 10, (4, 9)),
        (160, 10, (5, 1)),
        (161, u32::MAX, (0, 77)),
    ] {
        for append in APPENDS {
            let (mut record, mut table, mut out) = (came, table_came.to_vec(), [77]);
            let number = append(&mut record, &mut table, start, duration, &mut out);
            assert_eq!((number, out[0]), expected);
            assert_eq!(record == came, number != 0);
        }
    }
    Ok(())
}

/// The lengths are judged before all else, and leave all as it came.
#[test]
fn a_distance_of_another_length() {
    let (mut record, mut table, mut out) = ([9; RECORD_WORDS], [9; 3], [77; 2]);
    for length in [0, 2] {
        let out = &mut out[..length];
        for append in APPENDS {
            assert_eq!(append(&mut record, &mut table, 5, 0, out), 15);
            assert_eq!(append(&mut record[1..], &mut table, 5, 0, out), 2);
        }
    }
    assert_eq!((record, table, out), ([9; RECORD_WORDS], [9; 3], [77; 2]));
}

#[test]
fn refusals_have_their_numbers() {
    let distance = Distance(9);
    for number in 1..=19 {
        let refusal = Refusal::from_number(number, distance).expect("a refusal");
        assert_eq!(refusal.number(), number);
        let far = number == 4 || number == 5;
        assert_eq!(refusal.distance(), Some(distance).filter(|_| far));
        let by = if far { " by 9" } else { "" };
        let shown = format!("refusal {}: {}{}", number, refusal.message(), by);
        assert_eq!(refusal.to_string(), shown);
    }
    assert_eq!(Refusal::from_number(0, distance), None);
    assert_eq!(Refusal::from_number(20, distance), None);
}
