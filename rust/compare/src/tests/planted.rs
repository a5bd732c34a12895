//! Wrong sides, each wrong in one way, and whether random calls find it.

use flonterri::words::word;

use crate::calls::random_calls;
use crate::face::{Append, AppendStamp, AppendTrim, Face, Faces, Read, Trim, PLAIN};
use crate::generator::Generator;
use crate::opening::Opening;
use crate::sequence::Sequence;
use crate::tally::Tally;
use crate::{by_hand, kinds, limits};

/// Calls within which each planted fault must be found.
const CALLS: u64 = 100_000;

fn against_plain(planted: Face) -> Faces {
    Faces {
        judged: Face {
            name: "planted",
            ..planted
        },
        plain: PLAIN,
    }
}

fn run(planted: Face) -> Result<u64, String> {
    let mut tally = Tally::default();
    random_calls(&against_plain(planted), 1, 0, CALLS, &mut tally)
}

/// The fault is found, and the report names what differs and how to see it again.
fn found(planted: Face, difference: &str) {
    let report = run(planted).expect_err("a planted fault");
    assert!(
        report.contains(&format!("planted and plain differ in {}", difference)),
        "{}",
        report
    );
    assert!(report.contains("again with --seed 1 --from "), "{}", report);
}

/// A side that appends so by stamp, and is right besides.
fn stamping(append_stamp: AppendStamp) -> Face {
    Face {
        append_stamp,
        ..PLAIN
    }
}

#[test]
fn plain_does_not_differ_from_itself() {
    assert!(run(PLAIN).is_ok());
}

#[test]
fn an_opening_that_takes_an_offset_over_its_limit() {
    let open = |record: &mut [u64], table: &mut [u64], opening: &Opening| {
        let opening = Opening {
            offset: opening.offset.min(limits::TICK),
            ..*opening
        };
        (PLAIN.open)(record, table, &opening)
    };
    found(Face { open, ..PLAIN }, "number: 0 and 1");
}

#[test]
fn a_refused_opening_that_leaves_the_record() {
    let open = |record: &mut [u64], table: &mut [u64], opening: &Opening| {
        let before = record.to_vec();
        let number = (PLAIN.open)(record, table, opening);
        if number == 1 {
            record.copy_from_slice(&before);
        }
        number
    };
    found(Face { open, ..PLAIN }, "record word 0");
}

#[test]
fn an_append_that_makes_up_what_it_accepted() {
    let append: Append = |record, table, start, duration, count, out| {
        let number = (PLAIN.append)(record, table, start, duration, count, out);
        if number == 0 && record[word::DROPPED] > 0 {
            record[word::ACCEPTED] += 1;
        }
        number
    };
    found(Face { append, ..PLAIN }, "record word 7");
}

#[test]
fn an_append_that_changes_the_table_when_refused() {
    let append: Append = |record, table, start, duration, count, out| {
        let number = (PLAIN.append)(record, table, start, duration, count, out);
        if number == 9 && !table.is_empty() {
            let last = table.len() - 1;
            table[last] += 1;
        }
        number
    };
    found(Face { append, ..PLAIN }, "table word");
}

#[test]
fn a_stamp_for_which_half_the_circle_is_a_gap() {
    let append_stamp: AppendStamp = |record, table, stamp, duration, count, out| {
        let next = record.get(word::NEXT_TICK).copied().unwrap_or(0) as u32;
        match (PLAIN.append_stamp)(record, table, stamp, duration, count, out) {
            5 if stamp.wrapping_sub(next) == 1 << 31 => 4,
            number => number,
        }
    };
    found(stamping(append_stamp), "number: 4 and 5");
}

#[test]
fn a_distance_in_the_other_direction() {
    let append: Append = |record, table, start, duration, count, out| {
        let number = (PLAIN.append)(record, table, start, duration, count, out);
        if let (4 | 5, [distance]) = (number, out) {
            *distance = distance.wrapping_neg();
        }
        number
    };
    found(Face { append, ..PLAIN }, "out word 0");
}

#[test]
fn a_distance_of_a_stamp_that_is_taken_for_a_full_tick() {
    let append_stamp: AppendStamp = |record, table, stamp, duration, count, out| {
        let number = (PLAIN.append_stamp)(record, table, stamp, duration, count, out);
        if let (4 | 5, [distance]) = (number, out) {
            *distance = record[word::NEXT_TICK].abs_diff(u64::from(stamp));
        }
        number
    };
    found(stamping(append_stamp), "out word 0");
}

#[test]
fn a_distance_told_where_there_is_none() {
    let append: Append = |record, table, start, duration, count, out| {
        let number = (PLAIN.append)(record, table, start, duration, count, out);
        if let (3, [distance]) = (number, out) {
            *distance = 0;
        }
        number
    };
    found(Face { append, ..PLAIN }, "out word 0: 0 and 5555");
}

#[test]
fn an_append_that_takes_an_out_of_any_length() {
    let append_stamp: AppendStamp = |record, table, stamp, duration, count, _| {
        (PLAIN.append_stamp)(record, table, stamp, duration, count, &mut [0])
    };
    assert!(run(stamping(append_stamp)).is_err());
}

/// A side that appends and trims so in one call, and is right besides.
fn pairing(append_trim: AppendTrim) -> Face {
    Face {
        append_trim,
        ..PLAIN
    }
}

#[test]
fn an_append_with_a_trim_that_trims_first() {
    let append_trim: AppendTrim = |record, table, stamp, duration, count, clock, out| {
        let mut pair = |record: &mut [u64], table: &mut [u64]| {
            (PLAIN.append_trim)(record, table, stamp, duration, count, clock, out)
        };
        let number = pair(record, table);
        let (mut trimmed, mut runs) = (record.to_vec(), table.to_vec());
        (PLAIN.trim)(&mut trimmed, &mut runs, clock);
        if number != 9 || pair(&mut trimmed, &mut runs) != 0 {
            return number;
        }
        record.copy_from_slice(&trimmed);
        table.copy_from_slice(&runs);
        0
    };
    found(pairing(append_trim), "number: 0 and 9");
}

#[test]
fn a_refused_append_that_still_trims() {
    let append_trim: AppendTrim = |record, table, stamp, duration, count, clock, out| {
        let number = (PLAIN.append_trim)(record, table, stamp, duration, count, clock, out);
        if (3..=9).contains(&number) {
            (PLAIN.trim)(record, table, clock);
        }
        number
    };
    found(pairing(append_trim), "record word ");
}

#[test]
fn a_clock_that_is_judged_behind_the_append() {
    let append_trim: AppendTrim = |record, table, stamp, duration, count, clock, out| {
        let (mut appended, mut runs) = (record.to_vec(), table.to_vec());
        match (PLAIN.append_stamp)(&mut appended, &mut runs, stamp, duration, count, out) {
            0 => (PLAIN.append_trim)(record, table, stamp, duration, count, clock, out),
            number => number,
        }
    };
    found(pairing(append_trim), "number: ");
}

#[test]
fn a_clock_over_its_limit_that_leaves_the_append_standing() {
    let append_trim: AppendTrim = |record, table, stamp, duration, count, clock, out| {
        let number = (PLAIN.append_trim)(record, table, stamp, duration, count, clock, out);
        if number == 10 {
            (PLAIN.append_stamp)(record, table, stamp, duration, count, &mut [0]);
        }
        number
    };
    found(pairing(append_trim), "record word 7");
}

#[test]
fn an_append_with_a_trim_that_sets_the_clock_back() {
    let append_trim: AppendTrim = |record, table, stamp, duration, count, clock, out| {
        let number = (PLAIN.append_trim)(record, table, stamp, duration, count, clock, out);
        if number == 0 {
            record[word::GREATEST_CLOCK] = clock;
        }
        number
    };
    found(pairing(append_trim), "record word 10");
}

/// The bytes of a file without one of its lines, counted from 1.
fn without_line(bytes: &[u8], line: u64) -> Vec<u8> {
    let lines = (1..).zip(bytes.split_inclusive(|byte| *byte == b'\n'));
    let others = lines.filter(|(at, _)| *at != line);
    others.flat_map(|(_, text)| text.to_vec()).collect()
}

#[test]
fn a_reading_that_tells_the_distance_of_another_line() {
    let read: Read = |bytes, record, table, out| {
        let number = (PLAIN.read)(bytes, record, table, out);
        if let (4 | 5, [line, distance]) = (number, out) {
            let mut other = [0; 2];
            let rest = without_line(bytes, *line);
            (PLAIN.read)(&rest, &mut record.to_vec(), &mut table.to_vec(), &mut other);
            *distance = if other[1] == 0 { *distance } else { other[1] };
        }
        number
    };
    found(Face { read, ..PLAIN }, "out word 1");
}

#[test]
fn a_trim_that_does_nothing() {
    let trim = |record: &mut [u64], table: &mut [u64], clock| {
        let before = (record.to_vec(), table.to_vec());
        let number = (PLAIN.trim)(record, table, clock);
        record.copy_from_slice(&before.0);
        table.copy_from_slice(&before.1);
        number
    };
    found(Face { trim, ..PLAIN }, "record word");
}

#[test]
fn a_trim_that_forgets_the_next_tick_of_an_emptied_table() {
    let trim = |record: &mut [u64], table: &mut [u64], clock| {
        let kept = record.get(word::RUNS_USED).copied().unwrap_or(0);
        let number = (PLAIN.trim)(record, table, clock);
        if number == 0 && kept > 0 && record[word::RUNS_USED] == 0 {
            record[word::NEXT_TICK] = 0;
        }
        number
    };
    found(Face { trim, ..PLAIN }, "record word 9");
}

/// A trim that goes by the clock plus the update period.
fn trim_by_update(record: &mut [u64], table: &mut [u64], clock: u64) -> u32 {
    let at = |place: usize| record.get(place).copied().unwrap_or(0);
    let later = clock.saturating_add(at(word::UPDATE_PERIOD));
    if clock <= at(word::GREATEST_CLOCK) || later > limits::MILLIS {
        return (PLAIN.trim)(record, table, clock);
    }
    let number = (PLAIN.trim)(record, table, later);
    if number == 0 {
        record[word::GREATEST_CLOCK] = clock;
    }
    number
}

#[test]
fn a_trim_that_goes_by_the_clock_plus_the_update_period() {
    let trim = trim_by_update;
    found(Face { trim, ..PLAIN }, "record word 8");
}

/// The fault is found although both sides have it: by a twin that is never trimmed.
fn found_by_twin(trim: Trim, difference: &str) {
    let planted = Face {
        name: "planted",
        trim,
        ..PLAIN
    };
    let faces = Faces {
        judged: planted,
        plain: planted,
    };
    let run = random_calls(&faces, 1, 0, CALLS, &mut Tally::default());
    let report = run.expect_err("a planted fault");
    let differ = format!(
        "planted and its twin without trims differ in {}",
        difference
    );
    for said in [differ.as_str(), "again with --seed 1 --from "] {
        assert!(report.contains(said), "{}", report);
    }
}

#[test]
fn a_trim_that_drops_too_much_on_both_sides() {
    found_by_twin(trim_by_update, "out word ");
}

#[test]
fn a_trim_that_gives_dropped_numbers_anew_on_both_sides() {
    let trim: Trim = |record, table, clock| {
        let number = (PLAIN.trim)(record, table, clock);
        if number == 0 {
            record[word::ACCEPTED] -= record[word::DROPPED];
            record[word::DROPPED] = 0;
        }
        number
    };
    found_by_twin(trim, "number: 0 and 13");
}

/// Only an older record keeps nothing over a table of two runs.
#[test]
fn a_trim_that_takes_the_record_of_the_opening() {
    let trim = |record: &mut [u64], table: &mut [u64], clock: u64| {
        let opened = record.get(word::ACCEPTED) == Some(&0) && record[word::TIMESCALE] != 0;
        let used = table.len() >= 6 && table[..6].iter().skip(1).all(|word| *word != 0);
        match (PLAIN.trim)(record, table, clock) {
            2 if opened && used && record[word::RUNS_USED] == 0 => 0,
            number => number,
        }
    };
    let report = run(Face { trim, ..PLAIN }).expect_err("a planted fault");
    let differ = "planted and plain differ in number: 0 and 2";
    for said in ["    on an older record of 12 words", differ] {
        assert!(report.contains(said), "{}", report);
    }
}

#[test]
fn a_verdict_that_always_says_complete() {
    let verdict = |record: &[u64], table: &[u64], clock, out: &mut [u64]| {
        let number = (PLAIN.verdict)(record, table, clock, out);
        if number == 0 && out[0] == 2 {
            out.copy_from_slice(&[1, out[1], out[1], 0, 100]);
        }
        number
    };
    found(Face { verdict, ..PLAIN }, "out word 0: 1 and 2");
}

/// The same memory with an update period of 0; one over its limit stays.
fn without_update(record: &[u64]) -> Vec<u64> {
    let mut record = record.to_vec();
    if let Some(update) = record.get_mut(word::UPDATE_PERIOD) {
        if *update <= limits::MILLIS {
            *update = 0;
        }
    }
    record
}

#[test]
fn a_verdict_that_ignores_the_update_period() {
    let verdict = |record: &[u64], table: &[u64], clock, out: &mut [u64]| {
        (PLAIN.verdict)(&without_update(record), table, clock, out)
    };
    found(Face { verdict, ..PLAIN }, "out word ");
}

#[test]
fn an_edge_that_ignores_the_update_period() {
    let covered_edge = |record: &[u64], table: &[u64], out: &mut [u64]| {
        (PLAIN.covered_edge)(&without_update(record), table, out)
    };
    let planted = Face {
        covered_edge,
        ..PLAIN
    };
    found(planted, "out word ");
}

#[test]
fn a_percent_rounded_up() {
    let verdict_whole = |record: &[u64], table: &[u64], out: &mut [u64]| {
        let number = (PLAIN.verdict_whole)(record, table, out);
        if number == 0 && out[2] * 100 % out[1] != 0 {
            out[4] += 1;
        }
        number
    };
    found(
        Face {
            verdict_whole,
            ..PLAIN
        },
        "out word 4",
    );
}

#[test]
fn an_availability_that_ends_without_the_own_duration() {
    let availability = |record: &[u64], table: &[u64], number, out: &mut [i64]| {
        let answer = (PLAIN.availability)(record, table, number, out);
        if answer == 0 && out[0] == 1 {
            out[2] -= 1000;
        }
        answer
    };
    found(
        Face {
            availability,
            ..PLAIN
        },
        "out word 2",
    );
}

#[test]
fn an_edge_a_millisecond_too_late() {
    let covered_edge = |record: &[u64], table: &[u64], out: &mut [u64]| {
        let number = (PLAIN.covered_edge)(record, table, out);
        if number == 0 && out[0] == 1 && out[1] < limits::MILLIS {
            out[1] += 1;
        }
        number
    };
    found(
        Face {
            covered_edge,
            ..PLAIN
        },
        "out word 1",
    );
}

#[test]
fn a_stamp_half_a_circle_away_that_lies_ahead() {
    let full_tick = |record: &[u64], table: &[u64], stamp, out: &mut [u64]| {
        let number = (PLAIN.full_tick)(record, table, stamp, out);
        if number == 0 && out[0] == 1 && out[1] + (1 << 31) == record[word::NEXT_TICK] {
            out[1] += 1 << 32;
        }
        number
    };
    found(Face { full_tick, ..PLAIN }, "out word 1");
}

#[test]
fn a_reference_available_at_its_end() {
    let available_at = |record: &[u64], table: &[u64], number, clock: u64, out: &mut [u64]| {
        let answer = (PLAIN.available_at)(record, table, number, clock, out);
        let mut span = [0; 3];
        (PLAIN.availability)(record, table, number, &mut span);
        let at = i128::from(clock) * i128::from(record.first().copied().unwrap_or(0));
        if answer == 0 && span[0] == 1 && at == i128::from(span[2]) {
            out[0] = 1;
        }
        answer
    };
    found(
        Face {
            available_at,
            ..PLAIN
        },
        "out word 0: 1 and 0",
    );
}

#[test]
fn a_number_cut_to_32_bits() {
    let availability = |record: &[u64], table: &[u64], number, out: &mut [i64]| {
        (PLAIN.availability)(record, table, number & limits::NUMBER, out)
    };
    found(
        Face {
            availability,
            ..PLAIN
        },
        "number: 0 and 13",
    );
}

#[test]
fn a_span_whose_end_is_included() {
    let touching = |record: &[u64], table: &[u64], a, b: u64, out: &mut [u64]| {
        (PLAIN.touching)(record, table, a, b.saturating_add(1), out)
    };
    assert!(run(Face { touching, ..PLAIN }).is_err());
}

#[test]
fn a_reading_that_leaves_words_when_refused() {
    let read = |bytes: &[u8], record: &mut [u64], table: &mut [u64], out: &mut [u64]| {
        let before = table.to_vec();
        let number = (PLAIN.read)(bytes, record, table, out);
        if number != 0 {
            table.copy_from_slice(&before);
        }
        number
    };
    found(Face { read, ..PLAIN }, "table word 0");
}

#[test]
fn a_reading_that_forgets_the_update_period() {
    let read = |bytes: &[u8], record: &mut [u64], table: &mut [u64], out: &mut [u64]| {
        let number = (PLAIN.read)(bytes, record, table, out);
        if number == 0 {
            record[word::UPDATE_PERIOD] = 0;
        }
        number
    };
    found(Face { read, ..PLAIN }, "record word 6");
}

#[test]
fn a_reading_that_makes_up_the_update_period_of_an_old_head() {
    let read = |bytes: &[u8], record: &mut [u64], table: &mut [u64], out: &mut [u64]| {
        let number = (PLAIN.read)(bytes, record, table, out);
        if number == 0 && bytes.starts_with(b"01") {
            record[word::UPDATE_PERIOD] = 2_000;
        }
        number
    };
    found(Face { read, ..PLAIN }, "record word 6: 2000 and 0");
}

#[test]
fn a_reading_that_counts_lines_from_0() {
    let read = |bytes: &[u8], record: &mut [u64], table: &mut [u64], out: &mut [u64]| {
        let number = (PLAIN.read)(bytes, record, table, out);
        if number > 15 {
            out[0] -= 1;
        }
        number
    };
    found(Face { read, ..PLAIN }, "out word 0");
}

#[test]
fn a_writing_that_writes_behind_the_file() {
    let write = |record: &[u64], table: &[u64], bytes: &mut [u8], out: &mut [u64]| {
        let number = (PLAIN.write)(record, table, bytes, out);
        if number == 0 && bytes.len() as u64 > out[0] {
            bytes[out[0] as usize] = 0;
        }
        number
    };
    found(Face { write, ..PLAIN }, "byte ");
}

#[test]
fn a_side_that_panics() {
    let trim = |_: &mut [u64], _: &mut [u64], _| panic!("planted");
    let report = run(Face { trim, ..PLAIN }).expect_err("a panic");
    assert!(report.contains("again with --seed 1 --from "), "{}", report);
}

#[test]
fn the_paper_s_cases_are_held_to_the_paper_and_not_only_to_each_other() {
    let verdict = |record: &[u64], table: &[u64], clock, out: &mut [u64]| {
        let number = (PLAIN.verdict)(record, table, clock, out);
        if number == 0 && out[4] == 99 {
            out[4] = 100;
        }
        number
    };
    let wrong = Face { verdict, ..PLAIN };
    let both_wrong = Faces {
        judged: wrong,
        plain: wrong,
    };
    let report = by_hand::judge_calls(&both_wrong).expect_err("both say 100%");
    assert!(report.contains("by hand, B without trims"), "{}", report);
    assert!(by_hand::judge_calls(&against_plain(PLAIN)).is_ok());
}

#[test]
fn a_failing_sequence_is_shortened() {
    let trim = |record: &mut [u64], table: &mut [u64], clock| match clock {
        limits::MILLIS => 0,
        clock => (PLAIN.trim)(record, table, clock),
    };
    let faces = against_plain(Face { trim, ..PLAIN });
    let failing = (0..).map(|case| Sequence::random(&mut Generator::of_case(7, case)));
    let failing = failing
        .filter(|sequence| sequence.run(&faces, |_| ()).is_err())
        .find(|sequence| sequence.steps.len() > 20)
        .expect("a long sequence with a trim at the last clock");
    let short = failing.shortened(&faces);
    assert!(short.run(&faces, |_| ()).is_err());
    assert!(short.steps.len() <= 3, "{:?}", short);
}

#[test]
fn an_older_record_is_one_of_the_same_timeline() {
    let mut older = 0;
    for case in 0..1_000 {
        let mut earlier = Vec::new();
        let sequence = Sequence::random(&mut Generator::of_case(7, case));
        let run = sequence.run(&against_plain(PLAIN), |made| {
            if made.step.older {
                let passed = made.before.damaged(&made.step.damage);
                assert!(earlier.contains(&passed.record), "{:?}", made.step);
                assert_ne!(passed.record, made.before.record);
                assert_eq!(passed.table, made.before.table);
                older += 1;
            }
            earlier.push(made.before.record.clone());
            if made.step.call.makes_record() {
                earlier.clear();
            }
        });
        assert!(run.is_ok());
    }
    assert!(older > 100, "{}", older);
}

#[test]
fn the_calls_of_the_gate_meet_every_kind() {
    let mut tally = Tally::default();
    kinds::announce_calls(&mut tally);
    let faces = against_plain(PLAIN);
    let seed = crate::arguments::SEED;
    assert!(random_calls(&faces, seed, 0, CALLS, &mut tally).is_ok());
    assert_eq!(tally.never_met(), [""; 0]);
    assert_eq!(tally.surprises(), [""; 0]);
}
