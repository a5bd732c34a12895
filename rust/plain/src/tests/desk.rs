//! The program's answers.

use super::support::*;
use crate::desk::answer;
use crate::units::Millis;

fn ask(clock: u64, text: &str) -> String {
    answer((clock_line(clock) + text).as_bytes())
}

fn case_b_file() -> String {
    file(CASE_B, &[(0, 4000, 4)])
}

#[test]
fn the_answers_of_case_b() {
    assert_eq!(ask(0, &case_b_file()), "nothing needed\n");
    assert_eq!(ask(14_000, &case_b_file()), "complete 10000/10000 100%\n");
    assert_eq!(
        ask(20_001, &case_b_file()),
        "lacking 20000 9999/10000 99%\n"
    );
}

#[test]
fn the_answers_of_case_b_with_an_update_period() {
    let text = file(CASE_B_UPDATE, &[(0, 4000, 4)]);
    assert_eq!(ask(0, &text), "complete 2000/2000 100%\n");
    assert_eq!(ask(14_000, &text), "complete 12000/12000 100%\n");
    assert_eq!(ask(18_000, &text), "complete 12000/12000 100%\n");
    assert_eq!(ask(18_001, &text), "lacking 20000 11999/12000 99%\n");
}

#[test]
fn a_file_of_the_old_kind_has_no_update_period() {
    let text = old_file(CASE_B_UPDATE, &[(0, 4000, 4)]);
    for clock in [0, 14_000, 18_001, 20_001, WHOLE] {
        assert_eq!(ask(clock, &text), ask(clock, &case_b_file()));
    }
}

#[test]
fn the_whole_period() {
    let text = file(CASE_A, &[(111, 40, 0), (ABSENT, 10, 0)]);
    assert_eq!(ask(WHOLE, &text), "lacking 100 50/100 50%\n");
    let text = file(CASE_D, &[(0, 1, -1)]);
    assert_eq!(ask(WHOLE, &text), "complete 2/2 100%\n");
}

#[test]
fn a_refused_line_of_the_file() {
    let text = case_b_file();
    assert_eq!(ask(0, &text[..100]), "refused 16 line 2\n");
    assert_eq!(ask(0, &text.replace('f', "F")), "refused 16 line 2\n");
    assert_eq!(ask(0, &(text + "00")), "refused 16 line 4\n");
    assert_eq!(ask(0, &end_line(0)), "refused 17 line 1\n");
}

#[test]
fn the_clock_line() {
    let text = case_b_file();
    for bad in [
        "\n".to_string(),
        clock_line(0).trim_end().to_string(),
        clock_line(0).trim_end().to_string() + "0\n",
        clock_line(0)[1..].to_string(),
        clock_line(0).replace('4', "5"),
        clock_line(255).replace('f', "F"),
        clock_line(0).replace('\n', "\r\n"),
        String::new(),
    ] {
        assert_eq!(answer((bad + &text).as_bytes()), "refused 16 line 0\n");
    }
    assert_eq!(answer(b""), "refused 16 line 0\n");
    assert_eq!(
        answer(clock_line(0).trim_end().as_bytes()),
        "refused 16 line 0\n"
    );
    assert_eq!(answer(clock_line(0).as_bytes()), "refused 16 line 1\n");
}

#[test]
fn kinds_on_the_clock_line() {
    for kind in (0..=255).filter(|kind| *kind != 4) {
        let line = format!("{:02x}{}", kind, &clock_line(0)[2..]);
        assert_eq!(
            answer((line + &case_b_file()).as_bytes()),
            "refused 16 line 0\n"
        );
    }
    for line in [head_line(CASE_B), old_head_line(CASE_B), s_line(0, 1, 0)] {
        assert_eq!(
            answer((line + &case_b_file()).as_bytes()),
            "refused 16 line 0\n"
        );
    }
}

#[test]
fn the_clock_is_judged_before_the_file() {
    let over = Millis::MAX + 1;
    assert_eq!(ask(over, &case_b_file()), "refused 10 line 0\n");
    assert_eq!(ask(over, ""), "refused 10 line 0\n");
    assert_eq!(ask(WHOLE - 1, &end_line(0)), "refused 10 line 0\n");
    assert_eq!(ask(Millis::MAX, &end_line(0)), "refused 17 line 1\n");
    assert_eq!(
        ask(Millis::MAX, &case_b_file()),
        "lacking 99999990000 0/10000 0%\n"
    );
}

#[test]
fn the_verdict_is_judged_after_the_file() {
    assert_eq!(ask(WHOLE, &case_b_file()), "refused 19 line 0\n");
    assert_eq!(ask(WHOLE, &head_line(CASE_B)), "refused 16 line 2\n");
    assert_eq!(ask(WHOLE, ""), "refused 16 line 1\n");
}

#[test]
fn each_refusal_of_a_file() {
    for (text, ((number, line), distance)) in refused_files() {
        let by = match distance {
            0 => String::new(),
            distance => format!(" by {}", distance),
        };
        let answer = format!("refused {} line {}{}\n", number, line, by);
        assert_eq!(ask(0, &text), answer);
    }
}

#[test]
fn a_hole_and_how_big_it_is() {
    let behind_a = |t| file(CASE_A, &[(111, 40, 0), (ABSENT, 10, 0), (t, 10, 0)]);
    assert_eq!(ask(0, &behind_a(170)), "refused 4 line 4 by 9\n");
    assert_eq!(ask(0, &behind_a(160)), "refused 5 line 4 by 1\n");
    assert_eq!(ask(WHOLE, &behind_a(0)), "refused 5 line 4 by 161\n");
    let far = file(OPEN_ENDED, &[(0, 1, 0), (ABSENT - 1, 1, 0)]);
    assert_eq!(ask(0, &far), "refused 4 line 3 by 18446744073709551613\n");
}

#[test]
fn the_1025th_run_is_9_on_its_line() {
    let lines = |many: u32| -> Vec<(u64, u32, i32)> {
        (0..many).map(|at| (ABSENT, at % 2 + 1, 0)).collect()
    };
    assert_eq!(
        ask(1_536, &file(OPEN_ENDED, &lines(1_024))),
        "complete 1536/1536 100%\n"
    );
    assert_eq!(
        ask(0, &file(OPEN_ENDED, &lines(1_025))),
        "refused 9 line 1026\n"
    );
    // At once: what stands behind that line is not looked at.
    let cut = file(OPEN_ENDED, &lines(1_025));
    assert_eq!(
        ask(0, cut.trim_end_matches(&end_line(1_025))),
        "refused 9 line 1026\n"
    );
}

#[test]
fn many_lines_of_one_run() {
    let lines: Vec<(u64, u32, i32)> = vec![(ABSENT, 2, 1); 20_000];
    assert_eq!(
        ask(80_000, &file(OPEN_ENDED, &lines)),
        "complete 80000/80000 100%\n"
    );
}
