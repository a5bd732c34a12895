//! A live channel, as the README tells an operator to run it: which clock to ask, how the table grows,
//! what is kept.

use flonterri::words::{self, RECORD_WORDS};
use flonterri::{
    Distance, Grain, Head, Millis, Number, OpenError, Reference, Refusal, Span, Stamp, Tick,
    Timeline, Timescale, Verdict,
};

type Outcome = Result<(), OpenError>;

/// A head of 1000 ticks a second with a rewind window of ten seconds.
fn ten_seconds() -> Head {
    Head {
        depth: Millis(10_000),
        first_number: Number(1),
        ..Head::new(Timescale(1000))
    }
}

/// The verdicts of ten minutes, one a second, each so many milliseconds before now. Segments last 4 s
/// and come 700 ms after their end.
fn ten_minutes(head: Head, back: u64) -> Result<Vec<Verdict>, OpenError> {
    let mut timeline = Timeline::open(head, Tick(0), 10)?;
    let mut verdicts = Vec::new();
    for now in (0..600_000).step_by(1000) {
        while timeline.next_tick().0 + 4000 + 700 <= now {
            timeline.append(timeline.next_tick(), Span(4000), 1)?;
        }
        let clock = Millis(now.saturating_sub(back));
        timeline.trim(clock)?;
        verdicts.push(timeline.verdict(clock)?);
    }
    Ok(verdicts)
}

#[test]
fn asked_at_now_nothing_is_ever_complete() -> Outcome {
    let verdicts = ten_minutes(ten_seconds(), 0)?;
    assert!(!verdicts.iter().any(|verdict| verdict.is_complete()));
    Ok(())
}

#[test]
fn asked_as_late_as_segments_come_all_is_complete() -> Outcome {
    let verdicts = ten_minutes(ten_seconds(), 4700)?;
    let empty = |verdict: &&Verdict| **verdict == Verdict::NothingNeeded;
    assert_eq!(verdicts.iter().take_while(empty).count(), 5);
    assert!(verdicts[5..].iter().all(|verdict| verdict.is_complete()));
    Ok(())
}

/// What is complete up to the clock is not, with an update period, until that much more has come.
#[test]
fn with_an_update_period_it_is_asked_so_much_earlier() -> Outcome {
    let head = Head {
        update: Millis(2000),
        ..ten_seconds()
    };
    let complete = |back| -> Result<usize, OpenError> {
        let verdicts = ten_minutes(head, back)?;
        let late = &verdicts[10..];
        Ok(late.iter().filter(|verdict| verdict.is_complete()).count())
    };
    assert_eq!(complete(4700 + 2000)?, 590);
    // Segments are 4 s long: two seconds of each four the update period is not all there.
    assert_eq!(complete(4700)?, 295);
    Ok(())
}

/// Up to the covered edge all is complete, and a millisecond later it is not.
#[test]
fn the_covered_edge() -> Outcome {
    let mut timeline = Timeline::open(ten_seconds(), Tick(0), 10)?;
    assert_eq!(timeline.covered_edge(), Some(Millis(0)));
    timeline.append(Tick(0), Span(4000), 5)?;
    let edge = timeline.covered_edge().expect("a clock");
    assert!(timeline.verdict(edge)?.is_complete());
    assert!(!timeline.verdict(Millis(edge.0 + 1))?.is_complete());
    timeline.trim(Millis(25_000))?;
    assert_eq!(timeline.covered_edge(), Some(edge));
    assert_eq!(timeline.verdict(edge), Err(Refusal::EarlierClock));

    let offset = Head {
        offset: Tick(5),
        ..ten_seconds()
    };
    assert_eq!(Timeline::open(offset, Tick(0), 10)?.covered_edge(), None);
    Ok(())
}

/// An update period takes so much off the edge.
#[test]
fn the_covered_edge_with_an_update_period() -> Outcome {
    let head = Head {
        update: Millis(2000),
        ..ten_seconds()
    };
    let mut timeline = Timeline::open(head, Tick(0), 10)?;
    assert_eq!(timeline.covered_edge(), None);
    timeline.append(Tick(0), Span(4000), 5)?;
    assert_eq!(timeline.covered_edge(), Some(Millis(18_000)));
    assert!(timeline.verdict(Millis(18_000))?.is_complete());
    assert!(!timeline.verdict(Millis(18_001))?.is_complete());
    Ok(())
}

/// The edge of a period that is covered to its end is the last clock of all: now is the earlier one.
#[test]
fn the_covered_edge_of_a_period_that_has_ended() -> Outcome {
    let head = Head {
        duration: Millis(20_000),
        ..ten_seconds()
    };
    let mut timeline = Timeline::open(head, Tick(0), 10)?;
    timeline.append(Tick(0), Span(4000), 5)?;
    let edge = timeline.covered_edge().expect("a clock");
    assert_eq!(edge, Millis::LARGEST);
    assert_eq!(timeline.verdict(edge)?, Verdict::NothingNeeded);
    assert!(timeline.verdict(edge.min(Millis(24_600)))?.is_complete());
    Ok(())
}

#[test]
fn available_from_its_start_up_to_its_end() -> Outcome {
    let mut timeline = Timeline::open(ten_seconds(), Tick(0), 10)?;
    timeline.append(Tick(0), Span(4000), 5)?;
    let three = Number(3);
    for (clock, available) in [
        (0, false),
        (11_999, false),
        (12_000, true),
        (25_999, true),
        (26_000, false),
    ] {
        let answer = timeline.available_at(three, Millis(clock))?;
        assert_eq!(answer, available);
    }
    let late = Millis(Millis::LARGEST.0 + 1);
    let refused = |number, clock| timeline.available_at(Number(number), clock);
    assert_eq!(refused(3, late), Err(Refusal::ClockLimit));
    assert_eq!(refused(6, late), Err(Refusal::ClockLimit));
    assert_eq!(refused(6, Millis(0)), Err(Refusal::NotKept));
    Ok(())
}

/// The paper's case C: where each stamp lies, and a tick that would be below 0 or over its limit.
#[test]
fn full_ticks() -> Outcome {
    let next = 4_294_970_000;
    let at = |first, stamp| -> Result<Option<u64>, OpenError> {
        let timeline = Timeline::open(Head::new(Timescale(1000)), Tick(first), 10)?;
        Ok(timeline.full_tick(Stamp(stamp)).map(|tick| tick.0))
    };
    assert_eq!(at(next, 2704)?, Some(next));
    assert_eq!(at(next, 2705)?, Some(next + 1));
    assert_eq!(at(next, 2703)?, Some(next - 1));
    assert_eq!(at(next, 2_147_486_351)?, Some(next + (1 << 31) - 1));
    assert_eq!(at(next, 2_147_486_352)?, Some(next - (1 << 31)));
    assert_eq!(at(0, u32::MAX)?, None);
    assert_eq!(at(0, 1 << 31)?, None);
    assert_eq!(at(1, 0)?, Some(0));
    assert_eq!(at(Tick::LARGEST.0, 0)?, None);
    assert_eq!(at(Tick::LARGEST.0, u32::MAX)?, Some(Tick::LARGEST.0));
    Ok(())
}

/// On after a gap: lacking as long as the window reaches into the gap, complete once it does not.
#[test]
fn on_after_a_gap() -> Outcome {
    let mut timeline = Timeline::open(ten_seconds(), Tick(0), 10)?;
    timeline.append(Tick(0), Span(4000), 5)?;
    timeline.trim(Millis(20_000))?;
    let stamp = Stamp(24_000);
    let refused = timeline.append_stamp(stamp, Span(4000), 3);
    assert_eq!(refused, Err(Refusal::Gap(Distance(4000))));

    let start = timeline.full_tick(stamp).expect("a tick");
    let head = Head {
        first_number: timeline.next_number(),
        ..timeline.head()
    };
    let mut after = Timeline::open(head, start, timeline.capacity())?;
    after.trim(timeline.greatest_clock())?;
    after.append(start, Span(4000), 3)?;
    assert_eq!(after.first_kept_number(), Number(6));
    assert_eq!(after.verdict(Millis(19_999)), Err(Refusal::EarlierClock));
    let lacking = after.verdict(Millis(33_999))?;
    assert_eq!(lacking.to_string(), "lacking 23999 9999/10000 99%");
    assert!(after.verdict(Millis(34_000))?.is_complete());
    Ok(())
}

/// Ten minutes of segments, a call for each: after every one what two calls leave.
#[test]
fn one_call_a_segment() -> Outcome {
    let mut one_call = Timeline::open(ten_seconds(), Tick(0), 10)?;
    let mut two_calls = one_call.clone();
    for segment in 0..150 {
        let (stamp, end) = (Stamp(segment * 4000), u64::from(segment + 1) * 4000);
        one_call.append_trim(stamp, Span(4000), 1, Millis(end))?;
        two_calls.append_stamp(stamp, Span(4000), 1)?;
        two_calls.trim(Millis(end))?;
        assert_eq!(one_call, two_calls);
    }
    assert_eq!((one_call.accepted(), one_call.dropped()), (150, 147));
    Ok(())
}

/// Refused, one call leaves all as it came: a gap does not trim, and a clock over its limit, which is
/// judged first, does not append.
#[test]
fn one_call_is_both_or_neither() -> Outcome {
    let mut timeline = Timeline::open(ten_seconds(), Tick(0), 10)?;
    timeline.append_trim(Stamp(0), Span(4000), 5, Millis(18_000))?;
    assert_eq!((timeline.accepted(), timeline.dropped()), (5, 2));
    let before = timeline.clone();
    let (later, over) = (Millis(28_000), Millis(Millis::LARGEST.0 + 1));
    for (stamp, duration, clock, refusal) in [
        (24_000, 4000, later, Refusal::Gap(Distance(4000))),
        (16_000, 4000, later, Refusal::Overlap(Distance(4000))),
        (20_000, 0, later, Refusal::NothingGiven),
        (20_000, 4000, over, Refusal::ClockLimit),
        (24_000, 4000, over, Refusal::ClockLimit),
        (20_000, 0, over, Refusal::ClockLimit),
    ] {
        let refused = timeline.append_trim(Stamp(stamp), Span(duration), 1, clock);
        assert_eq!(refused, Err(refusal));
        assert_eq!(timeline, before);
    }
    timeline.append_trim(Stamp(20_000), Span(4000), 1, later)?;
    assert_eq!((timeline.accepted(), timeline.dropped()), (6, 4));
    Ok(())
}

/// At 14 s the only run is spent, at 19 s what is appended too: a trim before the append makes room, and
/// one behind it does not.
#[test]
fn one_call_judges_room_before_it_trims() -> Outcome {
    let mut timeline = Timeline::open(ten_seconds(), Tick(0), 1)?;
    timeline.append(Tick(0), Span(4000), 1)?;
    let before = timeline.clone();
    for clock in [14_000, 19_000, Millis::LARGEST.0] {
        let full = timeline.append_trim(Stamp(4000), Span(5000), 1, Millis(clock));
        assert_eq!(full, Err(Refusal::NoRunLeft));
        assert_eq!(timeline, before);
    }
    timeline.trim(Millis(14_000))?;
    timeline.append_trim(Stamp(4000), Span(5000), 1, Millis(19_000))?;
    assert_eq!((timeline.accepted(), timeline.dropped()), (2, 2));
    Ok(())
}

/// A clock that steps back: the segment is appended, and nothing is trimmed.
#[test]
fn one_call_with_an_earlier_clock() -> Outcome {
    let mut timeline = Timeline::open(ten_seconds(), Tick(0), 10)?;
    timeline.append_trim(Stamp(0), Span(4000), 5, Millis(18_000))?;
    for (stamp, clock) in [(20_000, 17_999), (24_000, 0), (28_000, 18_000)] {
        timeline.append_trim(Stamp(stamp), Span(4000), 1, Millis(clock))?;
        assert_eq!(timeline.next_tick(), Tick(u64::from(stamp) + 4000));
        assert_eq!(timeline.greatest_clock(), Millis(18_000));
        assert_eq!(timeline.dropped(), 2);
    }
    Ok(())
}

/// What the three calls leave where they are refused, and the lengths that they take.
#[test]
fn words_of_edge_full_tick_and_available() {
    let (mut record, mut table) = ([0; RECORD_WORDS], [0; 3]);
    let mut out = [7; 3];
    assert_eq!(words::covered_edge(&record, &table, &mut out[..2]), 2);
    assert_eq!(words::full_tick(&record, &table, 0, &mut out[..2]), 2);
    assert_eq!(words::available_at(&record, &table, 0, 0, &mut out[..1]), 2);
    words::open(&mut record, &mut table, 1000, 0, 0, 0, 0, 0, 0, 0);
    assert_eq!(words::covered_edge(&record, &table, &mut out), 15);
    assert_eq!(words::full_tick(&record, &table, 0, &mut out), 15);
    assert_eq!(words::available_at(&record, &table, 0, 0, &mut out), 15);
    let number = 1 << 32;
    let answer = words::available_at(&record, &table, number, 0, &mut out[..1]);
    assert_eq!((answer, out), (13, [7; 3]));
}

/// A clock that steps back: a trim takes it and changes nothing, a verdict refuses it, and the later of
/// it and the greatest clock is answered.
#[test]
fn a_clock_that_steps_back() -> Outcome {
    let mut timeline = Timeline::open(ten_seconds(), Tick(0), 10)?;
    timeline.append(Tick(0), Span(4000), 5)?;
    timeline.trim(Millis(18_000))?;
    let before = timeline.clone();
    let back = Millis(17_000);
    timeline.trim(back)?;
    assert_eq!(timeline, before);
    assert_eq!(timeline.verdict(back), Err(Refusal::EarlierClock));
    let verdict = timeline.verdict(back.max(timeline.greatest_clock()))?;
    assert!(verdict.is_complete());
    Ok(())
}

/// Read back after a restart, a clock before the last trim is answered, by what is left.
#[test]
fn a_restart_forgets_the_greatest_clock() -> Outcome {
    let mut timeline = Timeline::open(ten_seconds(), Tick(0), 10)?;
    timeline.append(Tick(0), Span(4000), 5)?;
    assert!(timeline.verdict(Millis(14_000))?.is_complete());
    timeline.trim(Millis(18_000))?;
    let mut again = Timeline::read(&timeline.write()?, 10).expect("a file that was written");
    let early = again.verdict(Millis(14_000))?;
    assert_eq!(early.to_string(), "lacking 4000 6000/10000 60%");
    again.trim(Millis(18_000))?;
    let early = again.verdict(Millis(14_000));
    assert_eq!(early, Err(Refusal::EarlierClock));
    Ok(())
}

/// A later origin: the same milliseconds taken off the period start and off the clock change no verdict.
#[test]
fn a_later_origin_changes_no_verdict() -> Outcome {
    let origin = 99_000_000_000;
    let from_then = Head {
        start: Millis(origin + 30_000),
        ..ten_seconds()
    };
    let from_origin = Head {
        start: Millis(30_000),
        ..ten_seconds()
    };
    let mut then = Timeline::open(from_then, Tick(0), 10)?;
    let mut rebased = Timeline::open(from_origin, Tick(0), 10)?;
    for timeline in [&mut then, &mut rebased] {
        timeline.append(Tick(0), Span(4000), 5)?;
    }
    for clock in [0, 30_000, 30_001, 44_000, 50_000, 50_001, 80_000] {
        let verdict = rebased.verdict(Millis(clock))?;
        assert_eq!(then.verdict(Millis(origin + clock))?, verdict);
    }
    Ok(())
}

/// A period that began in 1970: the origin is its start, and the tick that stands there its offset.
#[test]
fn a_period_that_began_long_ago() -> Outcome {
    let origin_seconds = 1_789_000_000;
    let head = Head {
        offset: Tick(origin_seconds * 90_000),
        depth: Millis(10_000),
        ..Head::new(Timescale(90_000))
    };
    let first = Tick((origin_seconds + 1_000_000) * 90_000);
    let mut timeline = Timeline::open(head, first, 10)?;
    timeline.append_stamp(Stamp(first.0 as u32), Span(180_000), 10)?;
    let now = (origin_seconds + 1_000_020) * 1000;
    let clock = Millis(now - origin_seconds * 1000);
    let verdict = timeline.verdict(clock)?;
    assert_eq!(verdict, Verdict::Complete { needed: 900_000 });
    assert_eq!(timeline.verdict(Millis(now)), Err(Refusal::ClockLimit));
    Ok(())
}

/// Durations that alternate cost a run each: 1,024 runs hold 34 minutes of two-second segments.
#[test]
fn alternating_durations_fill_a_table() -> Outcome {
    let mut timeline = Timeline::open(Head::new(Timescale(90_000)), Tick(0), 1024)?;
    for duration in [180_000, 180_180].into_iter().cycle().take(1024) {
        timeline.append(timeline.next_tick(), Span(duration), 1)?;
    }
    assert_eq!(timeline.next_tick().0 / 90_000 / 60, 34);
    let next = timeline.next_tick();
    let full = timeline.append(next, Span(180_000), 1);
    assert_eq!(full, Err(Refusal::NoRunLeft));
    timeline.grow(2048)?;
    timeline.append(next, Span(180_000), 1)?;
    assert_eq!(timeline.runs_used(), 1025);
    Ok(())
}

#[test]
fn a_grown_table_holds_the_same() -> Outcome {
    let mut timeline = Timeline::open(ten_seconds(), Tick(0), 2)?;
    timeline.append(Tick(0), Span(4000), 5)?;
    timeline.append(Tick(20_000), Span(1000), 2)?;
    timeline.trim(Millis(18_000))?;
    let before = timeline.clone();
    for runs in [0, 1, 2] {
        timeline.grow(runs)?;
        assert_eq!(timeline, before);
    }
    timeline.grow(100)?;
    assert_eq!(
        (timeline.capacity(), timeline.table_words().len()),
        (100, 300)
    );
    assert!(words::agree(
        timeline.record_words(),
        timeline.table_words()
    ));
    assert_eq!(timeline.record_words(), before.record_words());
    assert!(timeline.runs().eq(before.runs()));
    assert_eq!(timeline.write()?, before.write()?);
    Ok(())
}

/// A table may have a word or two that make no run.
#[test]
fn a_table_of_odd_length_grows() -> Outcome {
    for odd in [1, 2] {
        let (mut record, mut table) = ([0; RECORD_WORDS], vec![0; odd]);
        let opened = words::open(&mut record, &mut table, 1000, 0, 0, 0, 0, 1, 0, 0);
        assert_eq!(opened, 0);
        let mut timeline = Timeline::of_words(record, table)?;
        timeline.grow(0)?;
        assert_eq!(timeline.table_words().len(), odd);
        timeline.grow(1)?;
        timeline.append(Tick(0), Span(4000), 5)?;
        assert_eq!(timeline.table_words(), [0, 4000, 5]);
    }
    Ok(())
}

#[test]
fn no_memory_to_grow() -> Outcome {
    let mut timeline = Timeline::open(ten_seconds(), Tick(0), 2)?;
    timeline.append(Tick(0), Span(4000), 5)?;
    let before = timeline.clone();
    for runs in [usize::MAX, usize::MAX / 3 + 1, usize::MAX / 24 + 1, 1 << 55] {
        assert_eq!(timeline.grow(runs), Err(OpenError::NoMemory { runs }));
        assert_eq!(timeline, before);
    }
    Ok(())
}

#[test]
fn kept_references_by_number_and_tick() -> Outcome {
    let mut timeline = Timeline::open(ten_seconds(), Tick(0), 10)?;
    assert_eq!(timeline.references().next(), None);
    timeline.append(Tick(0), Span(4000), 5)?;
    timeline.append(Tick(20_000), Span(1000), 2)?;
    timeline.trim(Millis(22_000))?;
    let all = [
        (4, 12_000, 4000),
        (5, 16_000, 4000),
        (6, 20_000, 1000),
        (7, 21_000, 1000),
    ];
    let expected = all.map(|(number, start, duration)| Reference {
        number: Number(number),
        start: Tick(start),
        duration: Span(duration),
    });
    let mut references = timeline.references();
    for (at, reference) in expected.into_iter().enumerate() {
        assert_eq!(references.len(), expected.len() - at);
        assert_eq!(references.next(), Some(reference));
        let available = timeline.availability(reference.number)?;
        assert_eq!(available.start, Grain(reference.end().0 as i64 * 1000));
    }
    assert_eq!((references.len(), references.next()), (0, None));
    assert_eq!(expected[3].end(), timeline.next_tick());
    Ok(())
}
