//! The paper's cases of calls.

use flonterri::words::word;

use super::said::{accepted, gap, out, overlap, refused, Said};
use super::{old_worked_file, CASE_A, CASE_B, CASE_B_UPDATE, CASE_C, CASE_D, WORKED_FILE};
use crate::face::Faces;
use crate::opening::Opening;
use crate::sequence::compare_step;
use crate::step::{Call, Lent, Step, OUT_CAME};
use crate::text::{bytes_of, Line, ALL_ONES};

/// A case: an opening, and calls with what the paper says of each.
struct Case {
    name: &'static str,
    opening: Opening,
    calls: Vec<(Call, Said)>,
}

/// Words of the table in every case.
const TABLE_WORDS: usize = 30;

fn append(start: u64, duration: u32, count: u32) -> Call {
    Call::Append {
        start,
        duration,
        count,
    }
}

fn stamp(stamp: u32) -> Call {
    Call::AppendStamp {
        stamp,
        duration: 1,
        count: 1,
    }
}

fn append_trim(stamp: u32, duration: u32, clock: u64) -> Call {
    Call::AppendTrim {
        stamp,
        duration,
        count: 1,
        clock,
    }
}

fn trim(clock: u64) -> Call {
    Call::Trim { clock }
}

fn verdict(clock: u64) -> Call {
    Call::Verdict { clock }
}

/// Case A, with its two references.
fn case_a() -> Case {
    Case {
        name: "A",
        opening: CASE_A,
        calls: vec![
            (append(111, 40, 1), accepted()),
            (append(151, 10, 1), accepted().record(word::NEXT_TICK, 161)),
            (append(170, 10, 1), gap(9)),
            (append(160, 10, 1), overlap(1)),
            (append(170, 0, 1), refused(3).told(&[OUT_CAME])),
            (Call::Availability { number: 0 }, out(&[0, 351_000, 0])),
            (Call::VerdictWhole, out(&[2, 100, 50, 100, 50])),
        ],
    }
}

/// Case B without trims, and number 3's availability.
fn case_b_verdicts() -> Case {
    Case {
        name: "B without trims",
        opening: CASE_B,
        calls: vec![
            (append(0, 4000, 5), accepted().front(&[0, 4000, 5])),
            (verdict(14_000), out(&[1, 10_000, 10_000, 0, 100])),
            (verdict(20_001), out(&[2, 10_000, 9_999, 20_000, 99])),
            (verdict(0), out(&[0; 5])),
            (
                Call::Availability { number: 3 },
                out(&[1, 12_000_000, 26_000_000]),
            ),
            (Call::VerdictWhole, refused(19)),
        ],
    }
}

/// The five references of case B, and its trims, which no update period moves.
fn trims_of_case_b() -> Vec<(Call, Said)> {
    let dropped = |many: u64| {
        accepted()
            .record(word::DROPPED, many)
            .record(word::ACCEPTED, 5)
            .front(&[many * 4000, 4000, 5 - many])
    };
    vec![
        (append(0, 4000, 5), accepted()),
        (trim(13_999), dropped(0)),
        (trim(14_000), dropped(1)),
        (trim(18_000), dropped(2)),
        (trim(14_000), dropped(2)),
        (verdict(17_999), refused(11)),
    ]
}

/// Case B with its trims, and the worked file, written and read with a head of each kind.
fn case_b_trims() -> Case {
    let length = WORKED_FILE.len();
    let read = |bytes: Vec<u8>| {
        let said = out(&[0, 0])
            .front(&[8000, 4000, 3])
            .record(word::FIRST_NUMBER, 3)
            .record(word::UPDATE_PERIOD, 0)
            .record(word::ACCEPTED, 3)
            .record(word::NEXT_TICK, 20_000);
        (Call::Read { bytes }, said)
    };
    let written = || out(&[145]).written(WORKED_FILE.as_bytes());
    let mut calls = trims_of_case_b();
    calls.extend([
        (Call::Write { room: length }, written()),
        (Call::Write { room: length - 1 }, refused(15)),
        read(WORKED_FILE.into()),
        read(old_worked_file()),
        (Call::Write { room: length }, written()),
    ]);
    Case {
        name: "B with trims, and the worked file",
        opening: CASE_B,
        calls,
    }
}

/// Case B by a call for each reference, which also trims at its end. What is refused does neither: a gap
/// does not trim, and a clock over its limit, which is judged before the append, does not append.
fn case_b_a_call_for_each() -> Case {
    let kept = |said: Said, accepted: u64, dropped: u64, clock: u64| {
        said.record(word::ACCEPTED, accepted)
            .record(word::DROPPED, dropped)
            .record(word::GREATEST_CLOCK, clock)
            .front(&[dropped * 4000, 4000, accepted - dropped])
    };
    let next = |start: u64, dropped: u64| {
        let (stamp, end) = (start as u32, start + 4000);
        let said = kept(accepted(), end / 4000, dropped, end);
        (append_trim(stamp, 4000, end), said)
    };
    let as_it_came = |said: Said| kept(said, 5, 2, 20_000);
    let untold = |number: u32| as_it_came(refused(number).told(&[OUT_CAME]));
    let (last, over) = (100_000_000_000, 100_000_000_001);
    Case {
        name: "B, a call for each reference",
        opening: CASE_B,
        calls: vec![
            next(0, 0),
            next(4000, 0),
            next(8000, 0),
            next(12_000, 1),
            next(16_000, 2),
            (append_trim(24_000, 4000, 28_000), as_it_came(gap(4000))),
            (append_trim(16_000, 4000, 28_000), as_it_came(overlap(4000))),
            (append_trim(20_000, 0, 28_000), untold(3)),
            (append_trim(20_000, 4000, over), untold(10)),
            (append_trim(20_000, 0, over), untold(10)),
            (append_trim(24_000, 4000, ALL_ONES), untold(10)),
            (append_trim(20_000, 4000, 0), kept(accepted(), 6, 2, 20_000)),
            (
                append_trim(24_000, 4000, last),
                accepted().record(word::DROPPED, 7).front(&[]),
            ),
        ],
    }
}

/// Ten runs fill the table, and at 1,000 ms all of them are spent: room is judged before that, and so is
/// what is spent at once.
fn room_before_the_trim() -> Case {
    let runs = (0..10).map(|at: u64| {
        (
            append(at / 2 * 3 + at % 2, 1 + at as u32 % 2, 1),
            accepted(),
        )
    });
    let mut calls: Vec<(Call, Said)> = runs.collect();
    let full = refused(9).told(&[OUT_CAME]).record(word::GREATEST_CLOCK, 0);
    calls.extend([
        (append_trim(15, 3, 1_000), full.clone()),
        (append_trim(15, 3, 0), full),
        (
            append_trim(15, 2, 0),
            accepted().record(word::RUNS_USED, 10),
        ),
        (trim(1_000), accepted().front(&[])),
        (
            append_trim(17, 3, 0),
            accepted().record(word::DROPPED, 12).front(&[]),
        ),
    ]);
    Case {
        name: "a full table, and a clock at which it is empty",
        opening: Opening {
            depth: 10,
            ..Opening::OPEN_ENDED
        },
        calls,
    }
}

/// Case B with an update period of 2,000: verdicts without trims, then the trims, and the file.
fn case_b_update() -> Vec<Case> {
    let written = WORKED_FILE.replace("0000000000000000\n", "00000000000007d0\n");
    let complete = out(&[1, 12_000, 12_000, 0, 100]);
    let mut trims = trims_of_case_b();
    trims.extend([
        (verdict(18_000), complete.clone()),
        (
            Call::Write { room: 200 },
            out(&[145]).written(written.as_bytes()),
        ),
        (
            Call::Read {
                bytes: written.into(),
            },
            out(&[0, 0]).record(word::UPDATE_PERIOD, 2_000),
        ),
    ]);
    let verdicts = vec![
        (append(0, 4000, 5), accepted()),
        (verdict(0), out(&[1, 2_000, 2_000, 0, 100])),
        (verdict(14_000), complete.clone()),
        (verdict(18_000), complete),
        (verdict(18_001), out(&[2, 12_000, 11_999, 20_000, 99])),
        (Call::CoveredEdge, out(&[1, 18_000])),
        (
            Call::Availability { number: 3 },
            out(&[1, 12_000_000, 26_000_000]),
        ),
    ];
    let case = |name, calls| Case {
        name,
        opening: CASE_B_UPDATE,
        calls,
    };
    vec![
        case("B with update period 2,000", verdicts),
        case("B with update period 2,000 and trims", trims),
    ]
}

/// A clock before the period start, and an update period that reaches past it: five ticks.
fn window_before_the_period() -> Case {
    Case {
        name: "start 10, clock 0, update period 15",
        opening: Opening {
            start: 10,
            update: 15,
            ..Opening::OPEN_ENDED
        },
        calls: vec![
            (verdict(0), out(&[2, 5, 0, 0, 0])),
            (append(0, 5, 1), accepted()),
            (verdict(0), out(&[1, 5, 5, 0, 100])),
            (Call::CoveredEdge, out(&[1, 0])),
        ],
    }
}

/// Clock and update period at their limits: the sum is neither refused nor cut, but by a known end.
fn update_at_its_limit() -> Vec<Case> {
    let opening = Opening {
        update: 100_000_000_000,
        ..Opening::OPEN_ENDED
    };
    let ended = Opening {
        duration: 1_000,
        ..opening
    };
    let asked = |name, opening, needed| Case {
        name,
        opening,
        calls: vec![(verdict(100_000_000_000), out(&[2, needed, 0, 0, 0]))],
    };
    let without_end = "clock and update period at their limits";
    let with_end = "clock and update period at their limits, with a known end";
    vec![
        asked(without_end, opening, 200_000_000_000),
        asked(with_end, ended, 1_000),
    ]
}

/// Case C, a case for each stamp.
fn cases_c() -> Vec<Case> {
    let stamps = [
        (2704, accepted().front(&[4_294_970_000, 1, 1])),
        (2705, gap(1)),
        (2703, overlap(1)),
        (2_147_486_351, gap(2_147_483_647)),
        (2_147_486_352, overlap(2_147_483_648)),
    ];
    let case = |(number, said)| Case {
        name: "C",
        opening: CASE_C,
        calls: vec![(stamp(number), said)],
    };
    IntoIterator::into_iter(stamps).map(case).collect()
}

/// Full ticks are subtracted as numbers of 64 bits. A stamp goes round the circle, and may so name no
/// tick at all: behind tick 1, an overlap by 2.
fn behind_one_tick() -> Case {
    Case {
        name: "one reference of a tick from 0",
        opening: Opening::OPEN_ENDED,
        calls: vec![
            (append(0, 1, 1), accepted().told(&[OUT_CAME])),
            (append(ALL_ONES - 1, 1, 1), gap(18_446_744_073_709_551_613)),
            (append(0, 1, 1), overlap(1)),
            (stamp(u32::MAX), overlap(2)),
            (stamp(2_147_483_648), gap(2_147_483_647)),
            (stamp(2_147_483_649), overlap(2_147_483_648)),
        ],
    }
}

/// Files with lines that do not join: the first of them decides, a negative r changes nothing in it,
/// a duration of 0 comes before it, and the first S line never has a distance.
fn files_that_do_not_join() -> Case {
    let read = |lines: &[(u64, u32, i32)], said: Said| {
        let s_lines = lines.iter().map(|&(t, d, r)| Line::S { t, d, r });
        let mut file = vec![Line::Head(Opening::OPEN_ENDED)];
        file.extend(s_lines);
        file.push(Line::End(lines.len() as u32));
        let bytes = bytes_of(&file);
        (Call::Read { bytes }, said)
    };
    let (first, far) = ((0, 1, 0), 18_446_744_073_709_551_613);
    Case {
        name: "files whose lines do not join",
        opening: Opening::OPEN_ENDED,
        calls: vec![
            read(&[first, (10, 1, 0), (15, 1, 0)], refused(4).told(&[3, 9])),
            read(&[first, (10, 1, -1)], refused(4).told(&[3, 9])),
            read(&[first, (1, 1, -1)], refused(18).told(&[3, 0])),
            read(&[first, (10, 0, 0)], refused(3).told(&[3, 0])),
            read(&[first, (0, 1, 0)], refused(5).told(&[3, 1])),
            read(&[first, (ALL_ONES - 1, 1, 0)], refused(4).told(&[3, far])),
            read(&[(ALL_ONES - 1, 1, 0)], refused(1).told(&[2, 0])),
            read(&[(9, 1, 0)], out(&[0, 0])),
        ],
    }
}

/// Case D: a period end inside a tick.
fn case_d() -> Case {
    let negative = bytes_of(&[
        Line::Head(CASE_D),
        Line::S { t: 0, d: 1, r: -1 },
        Line::End(1),
    ]);
    Case {
        name: "D",
        opening: CASE_D,
        calls: vec![
            (Call::VerdictWhole, out(&[2, 2, 0, 0, 0])),
            (append(0, 1, 1), accepted()),
            (Call::VerdictWhole, out(&[2, 2, 1, 1, 50])),
            (append(1, 1, 1), accepted()),
            (Call::VerdictWhole, out(&[1, 2, 2, 0, 100])),
            (append(2, 1, 1), refused(8)),
            (
                Call::Read { bytes: negative },
                accepted().record(word::ACCEPTED, 2).front(&[0, 1, 2]),
            ),
        ],
    }
}

/// A window from 3.5 to 10.5 ticks needs ticks 3 to 10: at timescale 500, from 7 to 21 ms.
fn half_ticks() -> Case {
    Case {
        name: "a window from 3.5 to 10.5 ticks",
        opening: Opening {
            timescale: 500,
            depth: 14,
            ..Opening::OPEN_ENDED
        },
        calls: vec![(verdict(21), out(&[2, 8, 0, 3, 0]))],
    }
}

/// An expected error: judging a reference by its start.
fn judged_by_its_end() -> Case {
    Case {
        name: "B trimmed at 14,001 keeps the reference from 4,000",
        opening: CASE_B,
        calls: vec![
            (append(0, 4000, 5), accepted()),
            (trim(14_001), accepted().front(&[4000, 4000, 4])),
        ],
    }
}

/// An expected error: dropping by end alone.
fn spent_with_the_period() -> Case {
    Case {
        name: "what hangs over the period end is spent with the period",
        opening: Opening {
            duration: 1_000,
            depth: 100,
            ..Opening::OPEN_ENDED
        },
        calls: vec![
            (append(0, 750, 2), accepted()),
            (trim(1_099), accepted().front(&[750, 750, 1])),
            (trim(1_100), accepted().front(&[])),
        ],
    }
}

/// The quotient alone is not the count: at 10 ms it is two of three, at 11 the lower edge reaches the
/// period end and the last one is spent too, which that end cuts. So it is with an append at that clock.
fn cut_by_the_period_end() -> Vec<Case> {
    let opening = Opening {
        duration: 10,
        depth: 1,
        ..Opening::OPEN_ENDED
    };
    let dropped = |many: u64, front: &[u64]| {
        accepted()
            .record(word::ACCEPTED, 3)
            .record(word::DROPPED, many)
            .record(word::NEXT_TICK, 12)
            .front(front)
    };
    let at_once = |clock, said| Case {
        name: "three of 4, the last cut by the period end, appended at the clock",
        opening,
        calls: vec![(trim(clock), accepted()), (append(0, 4, 3), said)],
    };
    let trims = Case {
        name: "three of 4, the last cut by the period end",
        opening,
        calls: vec![
            (append(0, 4, 3), accepted()),
            (trim(10), dropped(2, &[8, 4, 1])),
            (trim(11), dropped(3, &[])),
        ],
    };
    vec![
        trims,
        at_once(10, dropped(2, &[8, 4, 1])),
        at_once(11, dropped(3, &[])),
    ]
}

/// An expected error: forgetting the next tick or number when a trim empties the table.
fn emptied_table() -> Case {
    Case {
        name: "next tick and number outlive an emptied table",
        opening: CASE_B,
        calls: vec![
            (append(0, 4000, 5), accepted()),
            (
                trim(1_000_000),
                accepted().front(&[]).record(word::NEXT_TICK, 20_000),
            ),
            (append(20_001, 4000, 1), gap(1)),
            (append(19_999, 4000, 1), overlap(1)),
            (append(20_000, 980_000, 1), accepted()),
            (Call::Availability { number: 5 }, refused(13)),
            (
                Call::Availability { number: 6 },
                out(&[1, 1_000_000_000, 1_990_000_000]),
            ),
        ],
    }
}

/// All cases of calls. The other expected errors, a rounded period end and a rounded percent, are
/// shown by D and by B.
fn cases() -> Vec<Case> {
    let mut cases = vec![
        case_a(),
        case_b_verdicts(),
        case_b_trims(),
        case_b_a_call_for_each(),
        room_before_the_trim(),
        case_d(),
        half_ticks(),
        window_before_the_period(),
        judged_by_its_end(),
        spent_with_the_period(),
        emptied_table(),
        behind_one_tick(),
        files_that_do_not_join(),
    ];
    cases.extend(cases_c());
    cases.extend(case_b_update());
    cases.extend(update_at_its_limit());
    cases.extend(cut_by_the_period_end());
    cases
}

/// Holds every case to the paper on both sides, and answers how many calls that were.
pub fn judge_calls(faces: &Faces) -> Result<u64, String> {
    let mut calls = 0;
    for case in cases() {
        let mut lent = Lent::anything(TABLE_WORDS);
        let opening = [(Call::Open(case.opening), accepted())];
        for (call, said) in opening.iter().chain(&case.calls) {
            let in_case = |what| format!("by hand, {}: {:?}: {}", case.name, call, what);
            let step = Step::of(call.clone());
            let answer = compare_step(faces, &step, &lent).map_err(in_case)?;
            if let Some(what) = said.differs(&answer) {
                return Err(in_case(what));
            }
            lent = step.after(&lent, &answer);
            calls += 1;
        }
    }
    Ok(calls)
}
