//! The paper's cases as inputs of the program.

use super::{old_worked_file, CASE_A, CASE_B, CASE_B_UPDATE, CASE_D, WORKED_FILE};
use crate::inputs::{hold, on_input, plain_answer, Programs};
use crate::opening::Opening;
use crate::text::{bytes_of, clock_line, Line, ALL_ONES};

/// Lines behind a clock line.
fn asked(clock: u64, lines: &[Line]) -> Vec<u8> {
    [clock_line(clock), bytes_of(lines)].concat()
}

/// The five references of case B behind a head.
fn five_behind(head: Line) -> [Line; 3] {
    let s = Line::S {
        t: 0,
        d: 4000,
        r: 4,
    };
    [head, s, Line::End(1)]
}

/// Inputs of the program with the line that the paper has for each.
fn program_cases() -> Vec<(Vec<u8>, &'static str)> {
    let case_b = five_behind(Line::Head(CASE_B));
    let case_d = |r| {
        let s = Line::S { t: 0, d: 1, r };
        [Line::Head(CASE_D), s, Line::End(1)]
    };
    let worked = |clock: u64| [&clock_line(clock), WORKED_FILE.as_bytes()].concat();
    let upper = String::from_utf8_lossy(&asked(0, &case_b)).replace("fa0", "FA0");
    let mut cases = vec![
        (asked(0, &case_b), "nothing needed"),
        (asked(14_000, &case_b), "complete 10000/10000 100%"),
        (asked(20_001, &case_b), "lacking 20000 9999/10000 99%"),
        (upper.into_bytes(), "refused 16 line 2"),
        (asked(ALL_ONES, &case_b), "refused 19 line 0"),
        (asked(ALL_ONES, &case_d(0)), "lacking 1 1/2 50%"),
        (asked(ALL_ONES, &case_d(-1)), "complete 2/2 100%"),
        (asked(ALL_ONES, &case_d(2)), "refused 8 line 2"),
        (worked(18_000), "complete 10000/10000 100%"),
        (worked(20_001), "lacking 20000 9999/10000 99%"),
        (worked(100_000_000_001), "refused 10 line 0"),
        (Vec::new(), "refused 16 line 0"),
        (asked(0, &[]), "refused 16 line 1"),
        (asked(0, &[Line::Clock(0)]), "refused 16 line 1"),
        (asked(0, &[Line::End(0)]), "refused 17 line 1"),
    ];
    cases.extend(update_cases());
    cases.extend(head_cases());
    cases.extend(cases_with_a_distance());
    cases
}

/// Case B with an update period, and with a head that has none.
fn update_cases() -> Vec<(Vec<u8>, &'static str)> {
    let update = five_behind(Line::Head(CASE_B_UPDATE));
    let old = five_behind(Line::OldHead(CASE_B_UPDATE));
    vec![
        (asked(0, &update), "complete 2000/2000 100%"),
        (asked(14_000, &update), "complete 12000/12000 100%"),
        (asked(18_000, &update), "complete 12000/12000 100%"),
        (asked(18_001, &update), "lacking 20000 11999/12000 99%"),
        (asked(0, &old), "nothing needed"),
        (asked(18_001, &old), "complete 10000/10000 100%"),
        (asked(20_001, &old), "lacking 20000 9999/10000 99%"),
    ]
}

/// Case A with a third S line that does not join: how far it is off stands behind the line.
fn cases_with_a_distance() -> Vec<(Vec<u8>, &'static str)> {
    let third = |t, d, r| {
        let s = |t, d, r| Line::S { t, d, r };
        let lines = [s(111, 40, 0), s(ALL_ONES, 10, 0), s(t, d, r), Line::End(3)];
        let mut file = vec![Line::Head(CASE_A)];
        file.extend(lines);
        asked(0, &file)
    };
    vec![
        (third(170, 10, 0), "refused 4 line 4 by 9"),
        (third(170, 10, -1), "refused 4 line 4 by 9"),
        (third(160, 10, 0), "refused 5 line 4 by 1"),
        (third(170, 0, 0), "refused 3 line 4"),
        (
            third(ALL_ONES - 1, 10, 0),
            "refused 4 line 4 by 18446744073709551453",
        ),
    ]
}

/// Heads where they may not stand, of the other kind's length, or with too long an update period.
fn head_cases() -> Vec<(Vec<u8>, &'static str)> {
    let (new, old) = (Line::Head(CASE_B), Line::OldHead(CASE_B));
    let two = |one: &Line, other: &Line| asked(0, &[one.clone(), other.clone()]);
    let recut = |head: &Line, kind: &str| {
        let text = format!("{}{}\n", kind, &head.text()[2..]);
        [clock_line(0), text.into_bytes()].concat()
    };
    let with = |update| Line::Head(Opening { update, ..CASE_B });
    vec![
        (WORKED_FILE.into(), "refused 16 line 0"),
        (old_worked_file(), "refused 16 line 0"),
        (two(&new, &new), "refused 17 line 2"),
        (two(&new, &old), "refused 17 line 2"),
        (two(&old, &new), "refused 17 line 2"),
        (two(&old, &old), "refused 17 line 2"),
        (recut(&new, "01"), "refused 16 line 1"),
        (recut(&old, "05"), "refused 16 line 1"),
        // Within its limit the update period is taken, and the next line is missing.
        (asked(0, &[with(100_000_000_000)]), "refused 16 line 2"),
        (asked(0, &[with(100_000_000_001)]), "refused 1 line 1"),
        (asked(0, &[with(ALL_ONES)]), "refused 1 line 1"),
    ]
}

/// Holds the program and the plain one to the paper's lines, and answers how many inputs there
/// were.
pub fn judge_inputs(programs: &Programs) -> Result<u64, String> {
    let by_hand = |failure| format!("by hand: {}", failure);
    let mut inputs = 0;
    for (input, line) in program_cases() {
        let answer = format!("{}\n", line);
        let plain = plain_answer(&input);
        if plain != answer {
            let what = format!("plain answers {:?} and not {:?}", plain, answer);
            return Err(by_hand(on_input(&what, &input)));
        }
        hold(&programs.desk, &input, &answer).map_err(by_hand)?;
        inputs += 1;
    }
    Ok(inputs)
}
