//! The parts that a comparison is made of.

use crate::arguments::{Arguments, Part, SEED};
use crate::generator::Generator;
use crate::opening::Opening;
use crate::shorten::shorten;
use crate::step::{Answer, Call, Damage, Lent, Place, Step};
use crate::text::{bytes_of, head_fields, s_fields, shown, Line};
use crate::weight::kept_by_reading;

fn answer() -> Answer {
    Answer {
        number: 4,
        record: vec![1, 2],
        table: vec![3],
        out: vec![5, 6],
        bytes: vec![7],
    }
}

#[test]
fn answers_differ_in_every_part() {
    assert_eq!(answer().difference(&answer()), None);
    type Change = fn(&mut Answer);
    let changes: [(Change, &str); 7] = [
        (|answer| answer.number = 5, "number: 4 and 5"),
        (|answer| answer.record[1] = 0, "record word 1: 2 and 0"),
        (|answer| answer.table[0] = 0, "table word 0: 3 and 0"),
        (|answer| answer.out[1] = 0, "out word 1: 6 and 0"),
        (|answer| answer.bytes[0] = 0, "byte 0: 7 and 0"),
        (|answer| answer.table.push(0), "table word of 1 and 2 words"),
        (|answer| answer.bytes.clear(), "byte of 1 and 0 words"),
    ];
    for (change, difference) in changes {
        let mut other = answer();
        change(&mut other);
        assert_eq!(answer().difference(&other).as_deref(), Some(difference));
    }
}

#[test]
fn damage_is_for_one_refused_call() {
    let before = Lent::anything(3);
    let step = Step {
        damage: vec![
            Damage {
                place: Place::Record(2),
                word: 8,
            },
            Damage {
                place: Place::Table(1),
                word: 9,
            },
        ],
        ..Step::of(Call::Trim { clock: 0 })
    };
    let answer = step.perform(&crate::face::PLAIN, &before);
    assert_eq!(
        (answer.number, answer.record[2], answer.table[1]),
        (2, 8, 9)
    );
    assert_eq!(step.after(&before, &answer), before);
}

#[test]
fn shortening_keeps_what_is_needed() {
    let case: Vec<u32> = (0..100).collect();
    let mut asked = 0;
    let short = shorten(case, |case| {
        asked += 1;
        Some(case.contains(&17) && case.contains(&80))
    });
    assert_eq!(short, [17, 80]);
    assert!(asked < 200);
    assert_eq!(shorten(vec![1, 2, 3], |_| Some(true)), [0; 0]);
}

#[test]
fn shortening_stops_where_nothing_can_be_told() {
    let mut asked = 0;
    let short = shorten(vec![1, 2, 3, 4], |case| {
        asked += 1;
        match case.len() {
            0 => Some(false),
            2 => Some(true),
            _ => None,
        }
    });
    assert_eq!((short, asked), (vec![3, 4], 4));
}

#[test]
fn a_case_of_a_seed_is_always_the_same() {
    let mut one = Generator::of_case(3, 4);
    let mut same = Generator::of_case(3, 4);
    let mut other = Generator::of_case(4, 3);
    let first = one.number();
    assert_eq!(first, same.number());
    assert_ne!(first, other.number());
    assert!((0..1_000).all(|_| (5..=7).contains(&one.between(5, 7))));
    assert_eq!(one.between(5, 5), 5);
    one.between(0, u64::MAX);
}

#[test]
fn lines_are_made_and_read() {
    let s = Line::S {
        t: 8000,
        d: 4000,
        r: -2,
    };
    assert_eq!(s.text(), "020000000000001f4000000fa0fffffffe");
    assert_eq!(s_fields(s.text().as_bytes()), Some((8000, 4000, -2)));
    assert_eq!(s_fields(b"020000000000001F4000000fa0fffffffe"), None);
    assert_eq!(s_fields(b"020000000000001f4000000fa0ffffffe"), None);
    assert_eq!(head_fields(s.text().as_bytes()), None);
    let head = Opening {
        first_number: 3,
        update: 2_000,
        ..Opening::OPEN_ENDED
    };
    let (new, old) = (Line::Head(head).text(), Line::OldHead(head).text());
    assert!(new.starts_with("05000003e8") && new.ends_with("0000000300000000000007d0"));
    assert!(old.starts_with("01000003e8") && old.ends_with("00000003"));
    assert_eq!((new.len(), old.len()), (98, 82));
    assert_eq!(head_fields(new.as_bytes()), Some(head));
    let none = Opening { update: 0, ..head };
    assert_eq!(head_fields(old.as_bytes()), Some(none));
    assert_eq!(head_fields(new.replacen("05", "01", 1).as_bytes()), None);
    assert_eq!(head_fields(old.replacen("01", "05", 1).as_bytes()), None);
    assert_eq!(bytes_of(&[Line::End(1)]), b"0300000001\n");
    assert_eq!(shown(b"0\r\n\xff"), "0\\r\\n\n\\xff");
}

#[test]
fn heavy_files_are_seen() {
    let head = Line::Head(Opening {
        offset: 1000,
        ..Opening::OPEN_ENDED
    });
    let kept = |t, d, r| {
        let s = Line::S { t, d, r };
        kept_by_reading(&bytes_of(&[head.clone(), s, Line::End(1)]))
    };
    assert_eq!(kept(1000, 1, i32::MAX), 1 << 31);
    assert_eq!(kept(0, 1, 1001), 2);
    assert_eq!(kept(0, 1, 999), 0);
    // Past the limit of ticks: refused, so nothing is kept.
    assert_eq!(kept(1000, u32::MAX, i32::MAX), 0);
    // A negative r with no known end: refused.
    assert_eq!(kept(1000, 1, -1), 0);
    assert_eq!(kept_by_reading(b"no head\n"), 0);
}

fn arguments(words: &[&str]) -> Result<Arguments, String> {
    Arguments::of(words.iter().map(|word| word.to_string()))
}

#[test]
fn words_of_the_command_line() {
    let all = arguments(&["--desk", "x"]).expect("good words");
    assert_eq!(all.parts.len(), 4);
    assert_eq!((all.seed, all.inputs), (SEED, 10_000));
    let calls = arguments(&["calls", "--calls", "1_000", "--seed", "9"]).expect("good words");
    assert_eq!(calls.parts, [Part::Calls]);
    assert_eq!((calls.seed, calls.calls), (9, Some(1_000)));
    for bad in [&["--seed"][..], &["--seed", "x"], &["--unknown"], &["desk"]] {
        assert!(arguments(bad).is_err());
    }
}
