//! Each refusal number, met in each call that can give it.

use super::by_hand::case_b;
use super::support::*;
use crate::face;
use crate::units::{Millis, Tick, Timescale};
use crate::window::HeadFields;

/// Memory whose record and table disagree.
fn damaged() -> Lent {
    let mut lent = case_b();
    lent.record[ACCEPTED] += 1;
    lent
}

/// What all appends refuse alike, with the start that joins for each.
fn appends_refuse(append: impl Fn(&mut Lent, u64, u32, u32) -> u32) {
    assert_eq!(append(&mut damaged(), 20_000, 1, 1), 2);
    let mut lent = case_b();
    assert_eq!(append(&mut lent, 20_000, 0, 1), 3);
    assert_eq!(append(&mut lent, 20_000, 1, 0), 3);
    assert_eq!(append(&mut lent, 20_001, 1, 1), 4);
    assert_eq!(append(&mut lent, 19_999, 1, 1), 5);
    let mut high = Lent::opened(OPEN_ENDED, Tick::MAX, 30);
    assert_eq!(append(&mut high, Tick::MAX, 1, 1), 6);
    assert_eq!(append(&mut Lent::opened(NUMBERED, 0, 30), 0, 1, 1), 7);
    assert_eq!(append(&mut Lent::opened(SHORT, 1_000, 30), 1_000, 1, 1), 8);
    assert_eq!(append(&mut Lent::opened(SHORT, 0, 2), 0, 1, 1), 9);
}

#[test]
fn open() {
    let over: [fn(&mut HeadFields); 8] = [
        |head| head.timescale = 0,
        |head| head.timescale = u64::from(Timescale::MAX) + 1,
        |head| head.offset = Tick::MAX + 1,
        |head| head.start = Millis::MAX + 1,
        |head| head.duration = Millis::MAX + 1,
        |head| head.depth = Millis::MAX + 1,
        |head| head.update = Millis::MAX + 1,
        |head| head.update = u64::MAX,
    ];
    for change in over {
        let mut head = OPEN_ENDED;
        change(&mut head);
        assert_eq!(Lent::anything(30).open(head, 0), 1);
    }
    for first_tick in [Tick::MAX + 1, u64::MAX] {
        assert_eq!(Lent::anything(30).open(OPEN_ENDED, first_tick), 1);
    }
}

#[test]
fn append() {
    appends_refuse(|lent, start, duration, count| lent.append(start, duration, count));
}

#[test]
fn append_stamp() {
    appends_refuse(|lent, start, duration, count| lent.append_stamp(start as u32, duration, count));
}

#[test]
fn append_trim() {
    for clock in [0, 30_000, Millis::MAX] {
        appends_refuse(|lent, start, duration, count| {
            lent.append_trim(start as u32, duration, count, clock)
        });
    }
    assert_eq!(case_b().join_trim(4000, 1, Millis::MAX + 1), 10);
    assert_eq!(case_b().join_trim(4000, 1, u64::MAX), 10);
    assert_eq!(case_b().join_trim(4000, 1, Millis::MAX), 0);
}

#[test]
fn trim() {
    assert_eq!(damaged().trim(0), 2);
    assert_eq!(case_b().trim(Millis::MAX + 1), 10);
}

#[test]
fn verdict() {
    assert_eq!(damaged().verdict(0), Err(2));
    let mut lent = case_b();
    assert_eq!(lent.verdict(Millis::MAX + 1), Err(10));
    assert_eq!(lent.trim(14_000), 0);
    assert_eq!(lent.verdict(13_999), Err(11));
    assert_eq!(lent.verdict(14_000), Ok([1, 10_000, 10_000, 0, 100]));
}

#[test]
fn verdict_whole() {
    assert_eq!(damaged().verdict_whole(), Err(2));
    assert_eq!(case_b().verdict_whole(), Err(19));
}

#[test]
fn verdict_whole_is_never_11() {
    let mut lent = Lent::opened(SHORT, 0, 30);
    assert_eq!(lent.trim(5_000), 0);
    assert_eq!(lent.verdict_whole(), Ok([2, 1_000, 0, 0, 0]));
}

#[test]
fn covered_edge() {
    assert_eq!(damaged().covered_edge(), Err(2));
    assert_eq!(case_b().covered_edge(), Ok([1, 20_000]));
}

#[test]
fn full_tick() {
    assert_eq!(damaged().full_tick(0), Err(2));
    assert_eq!(case_b().full_tick(20_001), Ok([1, 20_001]));
    assert_eq!(case_b().full_tick(u32::MAX), Ok([0, 0]));
}

#[test]
fn availability() {
    assert_eq!(damaged().availability(1), Err(2));
    let mut lent = case_b();
    assert_eq!(lent.availability(0), Err(13));
    assert_eq!(lent.availability(6), Err(13));
    assert_eq!(lent.availability(u32::MAX.into()), Err(13));
    assert_eq!(lent.trim(14_000), 0);
    assert_eq!(lent.availability(1), Err(13));
    assert!(lent.availability(2).is_ok());
    assert!(lent.availability(5).is_ok());
    assert_eq!(lent.availability((1 << 32) + 2), Err(13));
    assert_eq!(lent.availability(u64::MAX), Err(13));
}

#[test]
fn available_at() {
    assert_eq!(damaged().available_at(1, u64::MAX), Err(2));
    let lent = case_b();
    assert_eq!(lent.available_at(1, Millis::MAX + 1), Err(10));
    assert_eq!(lent.available_at(u64::MAX, Millis::MAX + 1), Err(10));
    assert_eq!(lent.available_at(6, 0), Err(13));
    assert_eq!(lent.available_at((1 << 32) + 3, 12_000), Err(13));
    assert_eq!(lent.available_at(3, 12_000), Ok(true));
}

#[test]
fn touching() {
    assert_eq!(damaged().touching(0, 1), Err(2));
    let lent = case_b();
    assert_eq!(lent.touching(5, 5), Err(14));
    assert_eq!(lent.touching(6, 5), Err(14));
    assert_eq!(lent.touching(u64::MAX, 0), Err(14));
}

#[test]
fn touching_needs_a_common_stretch() {
    let mut lent = Lent::opened(OPEN_ENDED, 100, 30);
    for (duration, count) in [(10, 3), (20, 1), (5, 2)] {
        assert_eq!(lent.join(duration, count), 0);
    }
    // The runs stand from 100 to 130, 150 and 160.
    for (a, b, words) in [
        (0, 100, [0, 0]),
        (0, 101, [0, 3]),
        (100, 130, [0, 3]),
        (129, 131, [0, 6]),
        (130, 150, [3, 6]),
        (149, 151, [3, 9]),
        (0, u64::MAX, [0, 9]),
        (159, 160, [6, 9]),
        (160, u64::MAX, [0, 0]),
        (u64::MAX - 1, u64::MAX, [0, 0]),
    ] {
        assert_eq!(lent.touching(a, b), Ok(words), "from {} to {}", a, b);
    }
}

#[test]
fn write() {
    assert_eq!(damaged().write(), Err(2));
    assert_eq!(Lent::opened(CASE_B, 0, 30).write(), Err(12));
    assert_eq!(case_b().write_into(0), Err(15));
    assert_eq!(case_b().write_into(99 + 35 + 10), Err(15));
    assert_eq!(
        case_b().write_into(99 + 35 + 11).map(|file| file.len()),
        Ok(145)
    );
}

#[test]
fn read() {
    for (text, refusal) in refused_files() {
        assert_eq!(refused_by(&text), refusal);
    }
    let eleven: Vec<_> = (1..=11).map(|d| (ABSENT, d, 0)).collect();
    assert_eq!(refused(&file(SHORT, &eleven)), (9, 12));
}

#[test]
fn a_record_of_another_length_is_2_and_changes_nothing() {
    for words in [0, 1, 11, 13, 24] {
        let mut record = vec![7; words];
        let mut table = vec![8; 6];
        let mut out = [9; 5];
        let mut signed = [9; 3];
        let mut bytes = [b'#'; 200];
        let opened = face::open(&mut record, &mut table, 0, 0, 0, 0, 0, 0, 0, 0);
        assert_eq!(opened, 2);
        for length in [0, 1, 2] {
            let out = &mut out[..length];
            assert_eq!(face::append(&mut record, &mut table, 0, 0, 0, out), 2);
            assert_eq!(face::append_stamp(&mut record, &mut table, 0, 0, 0, out), 2);
            let pair = face::append_trim(&mut record, &mut table, 0, 0, 0, u64::MAX, out);
            assert_eq!(pair, 2);
        }
        assert_eq!(face::trim(&mut record, &mut table, u64::MAX), 2);
        assert_eq!(face::verdict(&record, &table, u64::MAX, &mut out), 2);
        assert_eq!(face::verdict(&record, &table, 0, &mut out[..4]), 2);
        assert_eq!(face::verdict_whole(&record, &table, &mut out), 2);
        assert_eq!(face::availability(&record, &table, 0, &mut signed), 2);
        assert_eq!(
            face::available_at(&record, &table, 0, u64::MAX, &mut out[..1]),
            2
        );
        assert_eq!(face::covered_edge(&record, &table, &mut out[..2]), 2);
        assert_eq!(face::full_tick(&record, &table, 0, &mut out[..2]), 2);
        assert_eq!(face::touching(&record, &table, 1, 0, &mut out[..2]), 2);
        assert_eq!(face::read(b"", &mut record, &mut table, &mut out[..2]), 2);
        assert_eq!(face::read(b"", &mut record, &mut table, &mut []), 2);
        assert_eq!(face::write(&record, &table, &mut bytes, &mut out[..1]), 2);
        assert_eq!(record, vec![7; words]);
        assert_eq!(table, vec![8; 6]);
        assert_eq!((out, signed), ([9; 5], [9; 3]));
        assert_eq!(bytes, [b'#'; 200]);
    }
}

#[test]
fn an_out_of_another_length_is_15_before_agreement() {
    for lent in [case_b(), damaged()] {
        let Lent {
            mut record,
            mut table,
        } = lent.clone();
        let mut out = [9; 8];
        let mut signed = [9; 8];
        let mut bytes = [b'#'; 200];
        for words in (0..8).filter(|words| *words != 5) {
            let out = &mut out[..words];
            assert_eq!(face::verdict(&record, &table, u64::MAX, out), 15);
            assert_eq!(face::verdict_whole(&record, &table, out), 15);
        }
        for words in (0..8).filter(|words| *words != 3) {
            let out = &mut signed[..words];
            assert_eq!(face::availability(&record, &table, 0, out), 15);
        }
        for words in (0..8).filter(|words| *words != 2) {
            let out = &mut out[..words];
            assert_eq!(face::touching(&record, &table, 1, 0, out), 15);
            assert_eq!(face::covered_edge(&record, &table, out), 15);
            assert_eq!(face::full_tick(&record, &table, 0, out), 15);
            assert_eq!(face::read(b"", &mut record, &mut table, out), 15);
        }
        for words in (0..8).filter(|words| *words != 1) {
            let out = &mut out[..words];
            assert_eq!(face::available_at(&record, &table, 0, u64::MAX, out), 15);
            assert_eq!(face::append(&mut record, &mut table, 9, 0, 1, out), 15);
            assert_eq!(
                face::append_stamp(&mut record, &mut table, 9, 1, 1, out),
                15
            );
            let pair = face::append_trim(&mut record, &mut table, 9, 0, 1, u64::MAX, out);
            assert_eq!(pair, 15);
            assert_eq!(face::write(&record, &table, &mut bytes, out), 15);
        }
        assert_eq!(Lent { record, table }, lent);
        assert_eq!((out, signed), ([9; 8], [9; 8]));
        assert_eq!(bytes, [b'#'; 200]);
    }
}
