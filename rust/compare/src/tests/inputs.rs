//! Wrong programs, and whether inputs find them.

use std::cell::Cell;

use crate::arguments::SEED;
use crate::generator::Generator;
use crate::inputs::{inputs_of, judge, plain_answer};
use crate::opening::Opening;
use crate::program::Outcome;
use crate::random::inputs::light_input;
use crate::tally::Tally;
use crate::text::{bytes_of, head_fields, Line};
use crate::{kinds, limits};

fn wrote(answer: &str) -> Outcome {
    Outcome {
        wrote: answer.as_bytes().to_vec(),
        said: Vec::new(),
        status: Some(0),
    }
}

#[test]
fn an_outcome_is_held_to_all_that_is_asked() {
    let right = wrote("nothing needed\n");
    assert_eq!(right.difference("nothing needed\n"), None);
    assert!(right.difference("nothing needed").is_some());
    assert!(wrote("").difference("nothing needed\n").is_some());
    let failing = Outcome {
        status: Some(1),
        ..right.clone()
    };
    assert!(failing.difference("nothing needed\n").is_some());
    let killed = Outcome {
        status: None,
        ..right.clone()
    };
    assert!(killed.difference("nothing needed\n").is_some());
    let talking = Outcome {
        said: b"oh".to_vec(),
        ..right
    };
    assert!(talking.difference("nothing needed\n").is_some());
}

/// The first report that a wrong program gets on random inputs: short ones, since each line more
/// is a try more in shortening the report.
fn first_report(wrong: impl Fn(&[u8]) -> Outcome) -> Option<String> {
    let wrong = |input: &[u8]| Ok(wrong(input));
    let inputs = (0..2_000).map(|case| light_input(&mut Generator::of_case(SEED, case)).0);
    let mut short = inputs.filter(|input| input.len() < 2_000);
    short.find_map(|input| judge(&wrong, &input, &mut Tally::default()).err())
}

#[test]
fn a_program_that_is_right_gets_no_report() {
    assert_eq!(first_report(|input| wrote(&plain_answer(input))), None);
}

#[test]
fn a_program_that_rounds_up() {
    let wrong = |input: &[u8]| wrote(&plain_answer(input).replace(" 99%", " 100%"));
    assert!(first_report(wrong).is_some());
}

#[test]
fn a_program_that_counts_lines_from_0_and_its_report_is_short() {
    let wrong = |input: &[u8]| wrote(&plain_answer(input).replace("line 2", "line 1"));
    let report = first_report(wrong).expect("a report");
    // The clock line, the head and at most one more line are enough.
    assert!(report.matches("\\n\n").count() <= 3, "{}", report);
}

#[test]
fn a_program_that_tells_no_distance() {
    let wrong = |input: &[u8]| {
        let answer = plain_answer(input);
        wrote(&match answer.split_once(" by ") {
            Some((refused, _)) => format!("{}\n", refused),
            None => answer,
        })
    };
    assert!(first_report(wrong).is_some());
}

#[test]
fn a_program_that_tells_a_distance_of_0() {
    let wrong = |input: &[u8]| wrote(&plain_answer(input).replace(" line 3\n", " line 3 by 0\n"));
    assert!(first_report(wrong).is_some());
}

#[test]
fn a_program_that_takes_a_carriage_return() {
    let wrong = |input: &[u8]| {
        let without: Vec<u8> = input
            .iter()
            .copied()
            .filter(|byte| *byte != b'\r')
            .collect();
        wrote(&plain_answer(&without))
    };
    assert!(first_report(wrong).is_some());
}

#[test]
fn a_program_that_takes_upper_case() {
    let wrong = |input: &[u8]| wrote(&plain_answer(&input.to_ascii_lowercase()));
    assert!(first_report(wrong).is_some());
}

/// An input whose heads have update period 0, whichever they had.
fn without_update(input: &[u8]) -> Vec<u8> {
    let lines = input.split_inclusive(|byte| *byte == b'\n');
    let without = lines.map(
        |line| match line.strip_suffix(b"\n").and_then(head_fields) {
            Some(head) if line.starts_with(b"05") && head.update <= limits::MILLIS => {
                bytes_of(&[Line::Head(Opening { update: 0, ..head })])
            }
            _ => line.to_vec(),
        },
    );
    without.collect::<Vec<_>>().concat()
}

#[test]
fn a_program_that_knows_no_update_period() {
    let wrong = |input: &[u8]| wrote(&plain_answer(&without_update(input)));
    let report = first_report(wrong).expect("a report");
    // The clock line, the head, an S line and the end line are enough.
    assert!(report.matches("\\n\n").count() <= 4, "{}", report);
}

#[test]
fn a_program_that_takes_an_05_for_an_unknown_kind() {
    let wrong = |input: &[u8]| {
        let first = input.split(|byte| *byte == b'\n').nth(1);
        let is_new = first.map_or(false, |line| line.starts_with(b"05"));
        wrote(&if is_new {
            "refused 16 line 1\n".to_string()
        } else {
            plain_answer(input)
        })
    };
    assert!(first_report(wrong).is_some());
}

#[test]
fn a_program_that_does_not_see_an_unended_last_line() {
    let wrong = |input: &[u8]| {
        let mut ended = input.to_vec();
        if !ended.ends_with(b"\n") {
            ended.push(b'\n');
        }
        wrote(&plain_answer(&ended))
    };
    assert!(first_report(wrong).is_some());
}

#[test]
fn a_program_that_does_not_end_is_reported_at_once_with_the_whole_input() {
    let asked = Cell::new(0);
    let hangs = |_: &[u8]| {
        asked.set(asked.get() + 1);
        Err("desk did not end".to_string())
    };
    let report = judge(&hangs, b"04\n01\n", &mut Tally::default());
    let report = report.expect_err("a program that hangs");
    assert_eq!(report, "desk did not end on\n04\\n\n01\\n\n");
    assert_eq!(asked.get(), 1);
}

#[test]
fn a_program_that_hangs_on_a_shorter_input_still_gets_its_report() {
    let asked = Cell::new(0);
    let wrong = |input: &[u8]| match input {
        b"04\n01\n" => Ok(wrote("wrong\n")),
        _ => {
            asked.set(asked.get() + 1);
            Err("desk did not end".to_string())
        }
    };
    let report = judge(&wrong, b"04\n01\n", &mut Tally::default());
    let report = report.expect_err("a program that is wrong");
    assert!(report.starts_with("desk wrote \"wrong\\n\""), "{}", report);
    assert!(report.ends_with("on\n04\\n\n01\\n\n"), "{}", report);
    assert_eq!(asked.get(), 1);
}

#[test]
fn a_case_file_is_given_with_and_without_its_clock_line() {
    let inputs = inputs_of(b"040000000000000000\n0300000001\n");
    assert!(inputs.contains(&b"040000000000000000\n0300000001\n".to_vec()));
    assert!(inputs.contains(&b"04ffffffffffffffff\n0300000001\n".to_vec()));
    let inputs = inputs_of(b"0300000001\n");
    assert!(inputs.contains(&b"0300000001\n".to_vec()));
    assert!(inputs.contains(&b"04ffffffffffffffff\n0300000001\n".to_vec()));
}

/// The fewest inputs that a gate runs.
const FEWEST_INPUTS: u64 = 3_000;

#[test]
fn the_inputs_of_the_gate_meet_every_kind() {
    let mut tally = Tally::default();
    kinds::announce_inputs(&mut tally);
    for case in 0..FEWEST_INPUTS {
        let (input, _) = light_input(&mut Generator::of_case(SEED, case));
        kinds::meet_input(&mut tally, &input, plain_answer(&input).trim_end());
    }
    assert_eq!(tally.never_met(), [""; 0]);
    assert_eq!(tally.surprises(), [""; 0]);
}
