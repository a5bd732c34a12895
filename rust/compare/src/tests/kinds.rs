//! The kinds that are counted are the right ones.

use crate::face::{Faces, PLAIN};
use crate::kinds::{announce_calls, meet_call, meet_input};
use crate::limits;
use crate::lines::{head_of, refused_line};
use crate::opening::Opening;
use crate::sequence::{compare_step, Made};
use crate::step::{Call, Lent, Step};
use crate::tally::Tally;
use crate::text::clock_line;

const HEAD: &str =
    "05000003e80000000000000000000000000000000000000000000000000000000000002710000000030000000000000000\n";
const OLD_HEAD: &str =
    "01000003e8000000000000000000000000000000000000000000000000000000000000271000000003\n";
const S: &str = "020000000000001f4000000fa000000002\n";
const NEGATIVE: &str = "02000000000000000000000001ffffffff\n";
const END: &str = "0300000001\n";

fn kind(lines: &[&str], line: u64, number: u32) -> String {
    refused_line(lines.concat().as_bytes(), line, number)
}

#[test]
fn kinds_of_refused_lines() {
    assert_eq!(kind(&[HEAD, S, END], 1, 1), "1 head 05");
    assert_eq!(kind(&[OLD_HEAD, S, END], 1, 1), "1 head 01");
    assert_eq!(kind(&[HEAD, S, END], 2, 1), "1 S");
    assert_eq!(kind(&[HEAD, NEGATIVE, END], 2, 18), "18 S with negative r");
    assert_eq!(kind(&[HEAD, S, S], 3, 5), "5 S");
    assert_eq!(kind(&[HEAD, HEAD], 2, 17), "17 head 05");
    assert_eq!(kind(&[HEAD, OLD_HEAD], 2, 17), "17 head 01");
    assert_eq!(kind(&[S], 1, 17), "17 S");
    assert_eq!(kind(&[NEGATIVE], 1, 17), "17 S with negative r");
    assert_eq!(kind(&[HEAD, NEGATIVE, S], 3, 17), "17 S behind negative r");
    assert_eq!(kind(&[HEAD, END], 2, 17), "17 end too early");
    assert_eq!(kind(&[HEAD, S, S, END], 4, 17), "17 end with wrong count");
}

#[test]
fn kinds_of_bad_lines() {
    assert_eq!(kind(&[], 1, 16), "16 missing");
    assert_eq!(kind(&[HEAD], 2, 16), "16 missing");
    assert_eq!(kind(&[HEAD, "02000"], 2, 16), "16 unended");
    assert_eq!(kind(&[HEAD, "02000\n"], 2, 16), "16 S");
    assert_eq!(kind(&["01\n", S], 1, 16), "16 head 01");
    assert_eq!(kind(&["05\n", S], 1, 16), "16 head 05");
    assert_eq!(kind(&[HEAD, S, "03\n"], 3, 16), "16 end");
    assert_eq!(kind(&[HEAD, "\n"], 2, 16), "16 other kind");
    assert_eq!(kind(&[HEAD, "04\n"], 2, 16), "16 other kind");
    assert_eq!(kind(&[HEAD, S, END, "0"], 4, 16), "16 behind the end");
    assert_eq!(kind(&[HEAD, S, END, "\n"], 4, 16), "16 behind the end");
    assert_eq!(kind(&[HEAD, S, END, S], 4, 16), "16 behind the end");
}

#[test]
fn kinds_of_heads() {
    let over = HEAD.replace("0000000000000000\n", "ffffffffffffffff\n");
    assert_eq!(kind(&[&over], 1, 1), "1 update period");
    assert_eq!(kind(&[HEAD, &over], 2, 17), "17 head 05");
    let no_timescale = over.replace("03e8", "0000");
    assert_eq!(kind(&[&no_timescale], 1, 1), "1 head 05");
    let long = HEAD.replacen("05", "01", 1);
    assert_eq!(kind(&[&long], 1, 16), "16 head 01 as long as 05");
    let short = OLD_HEAD.replacen("01", "05", 1);
    assert_eq!(kind(&[&short], 1, 16), "16 head 05 as long as 01");
    assert_eq!(head_of(HEAD.as_bytes()), Some("05 with update period 0"));
    assert_eq!(head_of(over.as_bytes()), Some("05 with another"));
    assert_eq!(head_of(OLD_HEAD.as_bytes()), Some("01"));
    assert_eq!(head_of(S.as_bytes()), None);
}

#[test]
fn a_head_on_the_clock_line() {
    let mut tally = Tally::default();
    tally.announce("desk refused, line 0", &["16", "16 head 01", "16 head 05"]);
    for line in [HEAD, OLD_HEAD, S] {
        meet_input(&mut tally, line.as_bytes(), "refused 16 line 0");
    }
    assert_eq!(tally.never_met(), [""; 0]);
    assert_eq!(tally.surprises(), [""; 0]);
}

#[test]
fn distances_of_the_program() {
    let answer = |answer: &str| {
        let mut tally = Tally::default();
        tally.announce("desk refused", &["4 S", "5 S", "16 S"]);
        tally.announce("desk off by", &["4 by 1", "5 by 2^32 or more"]);
        let input = [&clock_line(0), HEAD.as_bytes(), S.as_bytes(), S.as_bytes()].concat();
        meet_input(&mut tally, &input, answer);
        tally.surprises()
    };
    assert_eq!(answer("refused 4 line 3 by 1"), [""; 0]);
    assert_eq!(answer("refused 5 line 3 by 4294967296"), [""; 0]);
    assert_eq!(answer("refused 16 line 3"), [""; 0]);
    let none = "desk refused: refused 4 line 3";
    assert_eq!(answer("refused 4 line 3"), [none]);
    assert_eq!(answer("refused 4 line 3 by 0"), ["desk off by: 4 by 0"]);
    let other = "desk off by: 16 by 1";
    assert_eq!(answer("refused 16 line 3 by 1"), [other]);
}

/// What a call is counted as in a table of so many words, which has one reference of four seconds if
/// there is room, in a window of ten.
fn counted(table_words: usize, call: Call) -> String {
    let faces = Faces {
        judged: PLAIN,
        plain: PLAIN,
    };
    let opening = Opening {
        depth: 10_000,
        ..Opening::OPEN_ENDED
    };
    let append = Call::Append {
        start: 0,
        duration: 4000,
        count: 1,
    };
    let mut lent = Lent::anything(table_words);
    let mut tally = Tally::default();
    for call in [Call::Open(opening), append, call] {
        tally = Tally::default();
        announce_calls(&mut tally);
        let step = Step::of(call);
        let answer = compare_step(&faces, &step, &lent).expect("a side that is like itself");
        let made = Made {
            before: &lent,
            step: &step,
            answer: &answer,
            untrimmed: false,
        };
        meet_call(&mut tally, &made);
        lent = step.after(&lent, &answer);
    }
    assert_eq!(tally.surprises(), [""; 0]);
    tally.to_string()
}

#[test]
fn kinds_of_an_append_with_a_trim() {
    let over = limits::MILLIS + 1;
    for (table_words, stamp, duration, clock, kind) in [
        (3, 4000, 5000, 14_000, "9, the trim would empty a run"),
        (3, 4000, 5000, 13_999, "9, the trim would not help"),
        (0, 0, 4000, 14_000, "9, the trim would not help"),
        (0, 0, 4000, 18_000, "9, the trim would spend what is given"),
        (6, 4000, 5000, over, "10 alone"),
        (3, 4000, 5000, over, "10, and the append too"),
        (6, 4001, 5000, 14_000, "3 to 8, the trim would drop"),
        (6, 4001, 5000, 13_999, "3 to 8, the trim would drop nothing"),
        (6, 4000, 5000, 18_999, "kept"),
        (6, 4000, 5000, 19_000, "dropped in part"),
        (6, 4000, 5000, 24_000, "dropped"),
        (6, 4000, 5000, 0, "nothing, clock not later"),
        (6, 4000, 4000, 14_000, "part of a run"),
        (6, 4000, 5000, 14_000, "whole runs"),
    ] {
        let call = Call::AppendTrim {
            stamp,
            duration,
            count: 2,
            clock,
        };
        let counted = counted(table_words, call);
        assert!(counted.contains(&format!("  {} (1)", kind)), "{}", counted);
    }
}

/// What a look with the record from before the last of some calls is counted as, in a window of ten seconds.
fn counted_older(calls: &[Call]) -> String {
    let opening = Opening {
        depth: 10_000,
        ..Opening::OPEN_ENDED
    };
    let (mut before, mut lent) = (Lent::anything(3), Lent::anything(3));
    for call in [Call::Open(opening)].iter().chain(calls) {
        let step = Step::of(call.clone());
        before = lent;
        lent = step.after(&before, &step.perform(&PLAIN, &before));
    }
    let look = Step {
        damage: lent.older(&before.record),
        older: true,
        ..Step::of(Call::CoveredEdge)
    };
    let mut tally = Tally::default();
    announce_calls(&mut tally);
    let made = Made {
        before: &lent,
        answer: &look.perform(&PLAIN, &lent),
        step: &look,
        untrimmed: false,
    };
    meet_call(&mut tally, &made);
    tally.to_string()
}

#[test]
fn kinds_of_an_older_record() {
    let append = Call::Append {
        start: 0,
        duration: 4000,
        count: 1,
    };
    let append_trim = Call::AppendTrim {
        stamp: 0,
        duration: 4000,
        count: 1,
        clock: 14_000,
    };
    let trim = |clock| Call::Trim { clock };
    let (early, late) = (trim(13_999), trim(14_000));
    for (calls, told, clock, spent, emptied) in [
        (vec![append.clone()], 1, 0, 0, 0),
        (vec![append.clone(), early], 0, 1, 0, 0),
        (vec![late.clone(), append.clone()], 0, 0, 1, 0),
        (vec![append_trim], 0, 0, 0, 1),
        // The older record keeps something, and the table nothing any more.
        (vec![append, late], 1, 0, 0, 0),
    ] {
        let line = format!(
            "  told ({})  taken ({})  clock lost ({})  spent lost ({})  emptied ({})",
            told,
            1 - told,
            clock,
            spent,
            emptied
        );
        let counted = counted_older(&calls);
        assert!(counted.contains(&line), "{:?}\n{}", calls, counted);
    }
}

#[test]
fn what_is_met_or_not() {
    let mut tally = Tally::default();
    tally.announce("desk at a clock", &["nothing needed", "complete"]);
    meet_input(&mut tally, b"040000000000000000\n", "nothing needed");
    assert_eq!(tally.never_met(), ["desk at a clock: complete"]);
    assert_eq!(tally.surprises(), [""; 0]);
    meet_input(&mut tally, b"04ffffffffffffffff\n", "nothing needed");
    assert_eq!(tally.surprises(), ["desk, whole period: nothing needed"]);
    meet_input(&mut tally, b"040000000000000000\n", "refused 11 line 0");
    assert_eq!(tally.surprises().len(), 2);
    assert!(tally.to_string().contains("nothing needed (1)"));
}
