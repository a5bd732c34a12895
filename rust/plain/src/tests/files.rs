//! Reading and writing: forms of lines, their order, and random files.

use super::sequences::{random_head, tick_base};
use super::support::*;
use crate::timeline::Timeline;
use crate::units::Millis;
use crate::window::HeadFields;

const GOOD: &[(u64, u32, i32)] = &[(0, 10, 4), (ABSENT, 20, 0)];

fn good() -> String {
    file(SHORT, GOOD)
}

/// The same file behind each kind of head.
fn good_ones() -> [String; 2] {
    [good(), old_file(SHORT, GOOD)]
}

/// The same head of each kind.
fn heads(head: HeadFields) -> [String; 2] {
    [head_line(head), old_head_line(head)]
}

#[test]
fn a_good_file() {
    for text in good_ones() {
        let lent = read_into(8, &text).expect("an accepted file");
        assert_eq!(lent.record, [1000, 0, 0, 1_000, 0, 0, 0, 6, 0, 70, 0, 2]);
        assert_eq!(lent.table, [0, 10, 5, 50, 20, 1, 0, 0]);
    }
}

#[test]
fn a_head_has_the_update_period_last() {
    let head = HeadFields {
        update: 0x174876e800,
        ..SHORT
    };
    let text = file(head, GOOD);
    assert_eq!(text[82..98], *"000000174876e800");
    let lent = read_into(8, &text).expect("an accepted file");
    assert_eq!(lent.record[UPDATE], Millis::MAX);
    assert_eq!(lent.write(), Ok(text.into_bytes()));
}

#[test]
fn an_update_period_over_its_limit_is_1_and_all_ones_are_not_absent() {
    for update in [Millis::MAX + 1, 1 << 63, u64::MAX] {
        let head = HeadFields { update, ..SHORT };
        assert_eq!(refused(&file(head, GOOD)), (1, 1));
        // The head is judged on its own line.
        assert_eq!(refused(&head_line(head)), (1, 1));
    }
}

#[test]
fn a_missing_line_has_the_number_it_would_have_had() {
    let text = good();
    let lines: Vec<&str> = text.split_inclusive('\n').collect();
    for kept in 0..4 {
        let text = lines[..kept].concat();
        assert_eq!(refused(&text), (16, kept as u64 + 1));
    }
}

#[test]
fn an_unended_line_is_16_whatever_it_holds() {
    for text in good_ones() {
        for length in 0..text.len() {
            let line = text[..length].matches('\n').count() as u64 + 1;
            assert_eq!(refused(&text[..length]), (16, line));
        }
    }
}

#[test]
fn each_line_one_digit_or_two_too_short_or_too_long() {
    for text in good_ones() {
        let lines: Vec<&str> = text.lines().collect();
        for at in 0..lines.len() {
            for changed in shorter_and_longer(lines[at]) {
                let mut lines = lines.clone();
                lines[at] = &changed;
                assert_eq!(refused(&(lines.join("\n") + "\n")), (16, at as u64 + 1));
            }
        }
    }
}

fn shorter_and_longer(line: &str) -> Vec<String> {
    let shorter = [&line[..line.len() - 1], &line[..line.len() - 2], &line[..2]];
    let longer = [format!("{}0", line), format!("{}00", line), line.repeat(2)];
    let shorter = shorter.iter().map(|text| text.to_string());
    shorter.chain(longer).collect()
}

#[test]
fn bytes_that_are_no_lower_case_digits() {
    for text in good_ones().map(String::into_bytes) {
        for bad in *b"AFGg /:@`\r\t\0\x80\xff-+x" {
            for at in 0..text.len() {
                let mut bytes = text.clone();
                bytes[at] = bad;
                let line = text[..at].iter().filter(|byte| **byte == b'\n').count() as u64 + 1;
                assert_eq!(Lent::anything(30).read(&bytes), Err((16, line)));
            }
        }
    }
}

#[test]
fn carriage_returns_blanks_and_empty_lines() {
    for text in good_ones() {
        assert_eq!(refused(&text.replace('\n', "\r\n")), (16, 1));
        assert_eq!(refused(&text.replace('\n', " \n")), (16, 1));
        assert_eq!(refused(&text.replace('\n', "\n\n")), (16, 2));
        assert_eq!(refused(&format!("\n{}", text)), (16, 1));
        assert_eq!(refused(&format!(" {}", text)), (16, 1));
    }
    assert_eq!(refused("\n"), (16, 1));
}

#[test]
fn unknown_kinds() {
    let known = [1, 2, 3, 5];
    for kind in (0..=255).filter(|kind| !known.contains(kind)) {
        let head = head_line(SHORT);
        let [line, old] = heads(SHORT);
        for line in [line, old, s_line(0, 1, 0), end_line(0)] {
            let unknown = format!("{:02x}{}", kind, &line[2..]);
            assert_eq!(refused(&unknown), (16, 1));
            assert_eq!(refused(&format!("{}{}", head, unknown)), (16, 2));
        }
    }
    assert_eq!(refused(&clock_line(0)), (16, 1));
    assert_eq!(refused(&(head_line(SHORT) + &clock_line(0))), (16, 2));
}

#[test]
fn a_length_goes_by_its_own_kind() {
    // The digits of a line under the kind of another.
    let lines = [
        head_line(SHORT),
        old_head_line(SHORT),
        s_line(0, 1, 0),
        end_line(1),
    ];
    for line in &lines {
        for other in lines.iter().filter(|other| other[..2] != line[..2]) {
            let mixed = format!("{}{}", &other[..2], &line[2..]);
            assert_eq!(refused(&mixed), (16, 1));
            assert_eq!(refused(&(head_line(SHORT) + &mixed)), (16, 2));
        }
    }
}

#[test]
fn a_head_of_one_kind_with_the_length_of_the_other() {
    let old_and_long = head_line(SHORT).replacen("05", "01", 1);
    let new_and_short = old_head_line(SHORT).replacen("01", "05", 1);
    assert_eq!((old_and_long.len(), new_and_short.len()), (99, 83));
    for head in [old_and_long, new_and_short] {
        assert_eq!(refused(&head), (16, 1));
        // As a second head it is no frame either, which is judged before its place.
        assert_eq!(refused(&(head_line(SHORT) + &head)), (16, 2));
        assert_eq!(refused(&(old_head_line(SHORT) + &head)), (16, 2));
    }
}

#[test]
fn frames_out_of_order() {
    let s = s_line(0, 1, 0);
    for head in heads(SHORT) {
        assert_eq!(refused(&(s.clone() + &head)), (17, 1));
        assert_eq!(refused(&(end_line(1) + &head)), (17, 1));
        assert_eq!(refused(&(head.clone() + &end_line(0))), (17, 2));
        assert_eq!(refused(&(head + &end_line(1))), (17, 2));
    }
}

#[test]
fn a_second_head_of_either_kind() {
    let s = s_line(0, 1, 0);
    for head in heads(SHORT) {
        for second in heads(SHORT) {
            assert_eq!(refused(&format!("{}{}", head, second)), (17, 2));
            assert_eq!(refused(&format!("{}{}{}", head, s, second)), (17, 3));
        }
    }
}

#[test]
fn head_and_nothing() {
    for head in heads(SHORT) {
        assert_eq!(refused(&head), (16, 2));
    }
}

#[test]
fn a_wrong_count_of_s_lines() {
    let lines = head_line(SHORT) + &s_line(0, 1, 0) + &s_line(ABSENT, 1, 0);
    for count in [0, 1, 3, u32::MAX] {
        assert_eq!(refused(&(lines.clone() + &end_line(count))), (17, 4));
    }
    // Two lines that merged into one run are two lines.
    let lent = read_into(3, &(lines + &end_line(2))).expect("an accepted file");
    assert_eq!(lent.table, [0, 1, 2]);
}

#[test]
fn anything_after_the_end() {
    for extra in ["0", "\n", "\0", &end_line(2), &good()] {
        assert_eq!(refused(&(good() + extra)), (16, 5));
    }
    for extra in heads(SHORT) {
        assert_eq!(refused(&(good() + &extra)), (16, 5));
    }
    assert_eq!(refused(&(good() + &s_line(ABSENT, 1, 0))), (16, 5));
}

#[test]
fn an_s_after_a_negative_r() {
    let closed = head_line(SHORT) + &s_line(0, 300, -1);
    assert_eq!(refused(&(closed.clone() + &s_line(ABSENT, 1, 0))), (17, 3));
    assert_eq!(refused(&(closed.clone() + &s_line(ABSENT, 1, -1))), (17, 3));
    for head in heads(SHORT) {
        assert_eq!(refused(&(closed.clone() + &head)), (17, 3));
    }
    let lent = read_into(3, &(closed + &end_line(1))).expect("an accepted file");
    assert_eq!(lent.table, [0, 300, 4]);
    assert_eq!(lent.record[NEXT_TICK], 1_200);
}

#[test]
fn all_negative_r_are_alike() {
    let minus_one = read_into(3, &file(SHORT, &[(0, 300, -1)]));
    for r in [-2, -1_000, i32::MIN, i32::MIN + 1] {
        assert_eq!(read_into(3, &file(SHORT, &[(0, 300, r)])), minus_one);
    }
}

#[test]
fn a_negative_r_takes_at_least_one_and_stops_at_the_end() {
    for (t, d, count) in [
        (0, 1_000, 1),
        (0, 999, 2),
        (0, 5_000, 1),
        (999, 1, 1),
        (0, 1, 1_000),
    ] {
        let lent = read_into(3, &file(SHORT, &[(t, d, -1)])).expect("an accepted file");
        assert_eq!(lent.record[ACCEPTED], count);
    }
}

#[test]
fn an_absent_first_t_is_tick_0_whatever_the_offset() {
    let head = HeadFields {
        offset: 25,
        ..SHORT
    };
    // The first two references end at or before the period start.
    let lent = read_into(3, &file(head, &[(ABSENT, 10, 3)])).expect("an accepted file");
    assert_eq!(lent.record[ACCEPTED], 4);
    assert_eq!(lent.record[DROPPED], 2);
    assert_eq!(lent.table, [20, 10, 2]);
}

#[test]
fn a_file_of_which_nothing_is_kept() {
    let head = HeadFields {
        offset: 40,
        ..SHORT
    };
    let lent = read_into(0, &file(head, &[(0, 10, 3)])).expect("an accepted file");
    assert_eq!(lent.record[ACCEPTED], 4);
    assert_eq!(lent.record[DROPPED], 4);
    assert_eq!(lent.record[NEXT_TICK], 40);
    assert_eq!(lent.write(), Err(12));
}

#[test]
fn the_greatest_r_is_two_to_the_31_references() {
    let head = HeadFields {
        offset: 1 << 40,
        ..OPEN_ENDED
    };
    let text = file(head, &[(0, 1, i32::MAX)]);
    let lent = read_into(0, &text).expect("an accepted file");
    assert_eq!(lent.record[ACCEPTED], 1 << 31);
    assert_eq!(
        refused(&file(head, &[(0, 1, i32::MAX), (ABSENT, 1, 0)])),
        (7, 3)
    );
}

#[test]
fn a_given_t_may_join() {
    let with_t = read_into(9, &file(SHORT, &[(5, 10, 0), (15, 20, 0)]));
    let without = read_into(9, &file(SHORT, &[(5, 10, 0), (ABSENT, 20, 0)]));
    assert!(with_t.is_ok());
    assert_eq!(with_t, without);
}

#[test]
fn the_written_t_of_the_first_s_is_explicit() {
    let lent = read_into(9, &good()).expect("an accepted file");
    let written = lent.write().expect("a written file");
    assert_eq!(written, good().into_bytes());
    let absent = file(SHORT, &[(ABSENT, 10, 4), (ABSENT, 20, 0)]);
    assert_eq!(read_into(9, &absent), Ok(lent));
}

#[test]
fn the_core_writes_as_the_face_does() {
    let timeline = crate::file::read(good().as_bytes(), 10).expect("an accepted file");
    assert_eq!(timeline.write(), Ok(good().into_bytes()));
    assert_eq!(timeline.runs().len(), 2);
}

/// Random S lines, most of them good.
fn random_s_lines(generator: &mut Generator, head: HeadFields) -> Vec<(u64, u32, i32)> {
    let mut next = tick_base(head) + generator.below(70);
    let mut lines = Vec::new();
    for at in 0..generator.between(1, 6) {
        let t = match generator.below(8) {
            0 if at > 0 => next + 1,
            1 if at > 0 => next.saturating_sub(1),
            2 | 3 if at > 0 || next == 0 => ABSENT,
            _ => next,
        };
        let d = generator.pick(&[0, 1, 2, 5, 5, 5, 9, 12]);
        let r = generator.pick(&[0, 0, 0, 1, 2, 3]);
        next += u64::from(d) * (r as u64 + 1);
        lines.push((t, d, r));
    }
    lines
}

#[test]
fn random_files_are_openings_plus_appends() {
    let (mut accepted, mut far) = (0, 0);
    for seed in 0..1_500 {
        let mut generator = Generator::new(600_000 + seed);
        let head = random_head(&mut generator);
        let lines = random_s_lines(&mut generator, head);
        let words = generator.pick(&[0, 3, 4, 9, 30]);
        let first_t = lines[0].0;
        let mut expected = Lent::opened(head, if first_t == ABSENT { 0 } else { first_t }, words);
        let mut refusal = None;
        for (at, (t, d, r)) in lines.iter().enumerate() {
            let start = match *t {
                ABSENT => expected.record[NEXT_TICK],
                t => t,
            };
            let (answer, distance) = expected.append_by(start, *d, *r as u32 + 1);
            if answer != 0 {
                refusal = Some(((answer, at as u64 + 2), distance));
                break;
            }
        }
        let mut found = Lent::anything(words);
        let outcome = found.read_by(file(head, &lines).as_bytes());
        match refusal {
            Some(refusal) => {
                assert_eq!(outcome, Err(refusal));
                far += usize::from(refusal.1 != 0);
            }
            None => {
                assert_eq!((outcome, found), (Ok(()), expected));
                accepted += 1;
            }
        }
    }
    assert!(accepted > 100 && far > 100, "{} {}", accepted, far);
}

#[test]
fn a_file_of_the_old_kind_is_read_with_update_period_0() {
    let mut with_another = 0;
    for seed in 0..500 {
        let mut generator = Generator::new(650_000 + seed);
        let head = random_head(&mut generator);
        let lines = random_s_lines(&mut generator, head);
        let none = HeadFields { update: 0, ..head };
        let old = read_into(9, &old_file(head, &lines));
        assert_eq!(old, read_into(9, &file(none, &lines)));
        let new = read_into(9, &file(head, &lines));
        // An update period decides nothing in reading: it is kept, and that is all.
        let without = new.map(|mut lent| {
            with_another += usize::from(lent.record[UPDATE] != 0);
            lent.record[UPDATE] = 0;
            lent
        });
        assert_eq!(without, old);
    }
    assert!(with_another > 100, "{}", with_another);
}

#[test]
fn a_negative_r_is_an_append_of_its_count() {
    let (mut accepted, mut refused) = (0, 0);
    for seed in 0..500 {
        let mut generator = Generator::new(700_000 + seed);
        let head = random_head(&mut generator);
        let t = tick_base(head) + generator.below(70);
        let d = generator.between(1, 30) as u32;
        let found = read_into(9, &file(head, &[(t, d, -1)]));
        let mut timeline = Timeline::open(head, t, 3).expect("an accepted opening");
        let answer = timeline.append_to_period_end(t, d);
        match (found, answer) {
            (Ok(lent), Ok(())) => {
                accepted += 1;
                let count = lent.record[ACCEPTED] as i32;
                let same = read_into(9, &file(head, &[(t, d, count - 1)]));
                assert_eq!(same, Ok(lent));
            }
            (Err((number, 2)), Err(refusal)) => {
                refused += 1;
                assert_eq!(number, refusal.number());
            }
            (found, answer) => panic!("{:?} {:?}", found, answer),
        }
    }
    assert!(accepted > 100 && refused > 100, "{} {}", accepted, refused);
}

/// Changes, takes out or puts in one byte at a place from the first to the last, or the end.
fn change_byte(generator: &mut Generator, bytes: &mut Vec<u8>, first: u64, last: u64) {
    let at = generator.between(first, last.min(bytes.len() as u64 - 1)) as usize;
    match generator.below(4) {
        0 => bytes[at] = b'0',
        1 => bytes[at] = generator.pick(b"012f\nA"),
        2 => {
            bytes.remove(at);
        }
        _ => bytes.insert(at, generator.pick(b"0\n")),
    }
}

#[test]
fn files_with_changed_bytes() {
    // Whatever the bytes, memory is zeroed on a refusal (which `Lent::read` asserts), the line
    // is one that the file has or the next, and what is accepted agrees. The period has an end,
    // and either the head is changed or the rest, so that no r can make a file store many
    // references. The head is of either kind.
    let mut accepted = 0;
    for seed in 0..3_000 {
        let mut generator = Generator::new(800_000 + seed);
        let head = HeadFields {
            duration: generator.between(1, 700),
            ..random_head(&mut generator)
        };
        let lines = random_s_lines(&mut generator, head);
        let kind = if generator.one_in(2) { file } else { old_file };
        let mut bytes = kind(head, &lines).into_bytes();
        let feed = bytes.iter().position(|byte| *byte == b'\n');
        let feed = feed.expect("an ended head") as u64;
        if generator.one_in(3) {
            change_byte(&mut generator, &mut bytes, 0, feed);
        } else {
            change_byte(&mut generator, &mut bytes, feed + 1, u64::MAX);
            change_byte(&mut generator, &mut bytes, feed + 1, u64::MAX);
        }
        let feeds = bytes.iter().filter(|byte| **byte == b'\n').count() as u64;
        let mut lent = Lent::anything(12);
        match lent.read(&bytes) {
            Ok(()) => {
                accepted += 1;
                assert_eq!(lent.trim(0), 0);
            }
            Err((number, line)) => {
                assert!((1..=18).contains(&number) && number != 2);
                assert!(1 <= line && line <= feeds + 1);
            }
        }
    }
    assert!(accepted > 30);
}
