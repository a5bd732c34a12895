//! The kinds of things that a comparison must meet, and which of them a case has met.
//!
//! What cannot be met is left out of the lists, and meeting it is a failure:
//!
//! - 2 for disagreement in opening and reading, which judge no record: their 2 is a record of
//!   another length;
//! - 15 in calls that have neither an `out` nor an output;
//! - a distance of 0, one of another number than 4 and 5, one of a stamp over half the circle, and 2^63
//!   or more before the next tick, which is below 2^52;
//! - nothing needed in the whole period: a known period lasts a millisecond at least, and so
//!   needs a tick;
//! - in a file, 2, 10 to 15 and 19, which belong to other calls; 4 and 5 on the first S line; 18
//!   but for a negative r; every field's number on a line of another kind;
//! - in the program, 11, since reading leaves the greatest clock at 0, and whatever a file cannot
//!   have.

use flonterri::words::{word, RUN_WORDS};

use crate::face::PLAIN;
use crate::limits;
use crate::lines::{head_of, lines, refused_line, HEADS, REFUSED_LINES};
use crate::sequence::Made;
use crate::state::State;
use crate::step::{Call, Damage, Lent, Place, Step, OUT_CAME};
use crate::tally::Tally;
use crate::text::{clock_line, s_fields, ALL_ONES};

/// The numbers that an append can answer.
const APPENDS: &[&str] = &["0", "2", "3", "4", "5", "6", "7", "8", "9", "15"];

/// The numbers that each call can answer.
const NUMBERS: [(&str, &[&str]); 14] = [
    ("open", &["0", "1", "2"]),
    ("append", APPENDS),
    ("append_stamp", APPENDS),
    (
        "append_trim",
        &["0", "2", "3", "4", "5", "6", "7", "8", "9", "10", "15"],
    ),
    ("trim", &["0", "2", "10"]),
    ("verdict", &["0", "2", "10", "11", "15"]),
    ("verdict_whole", &["0", "2", "15", "19"]),
    ("availability", &["0", "2", "13", "15"]),
    ("available_at", &["0", "2", "10", "13", "15"]),
    ("covered_edge", &["0", "2", "15"]),
    ("full_tick", &["0", "2", "15"]),
    ("touching", &["0", "2", "14", "15"]),
    (
        "read",
        &[
            "0", "1", "2", "3", "4", "5", "6", "7", "8", "9", "15", "16", "17", "18",
        ],
    ),
    ("write", &["0", "2", "12", "15"]),
];

/// What an append can do with its references.
const TAKEN: &[&str] = &[
    "all stored",
    "spent in part",
    "spent at once",
    "into a new run",
    "into the last run",
];

/// How far a full tick can be off.
const TICKS_OFF: &[&str] = &[
    "4 by 1",
    "4 by 2 or more",
    "4 by 2^32 or more",
    "4 by 2^63 or more",
    "5 by 1",
    "5 by 2 or more",
    "5 by 2^32 or more",
];

/// How far a stamp can be off.
const STAMPS_OFF: &[&str] = &[
    "4 by 1",
    "4 by 2 or more",
    "4 by 2^31 - 1",
    "5 by 1",
    "5 by 2 or more",
    "5 by 2^31 - 1",
    "5 by 2^31",
    "5 before tick 0",
];

/// What a trim can drop.
const DROPPED: &[&str] = &[
    "nothing, clock not later",
    "nothing",
    "part of a run",
    "whole runs",
    "whole runs and part",
    "all",
];

/// Why an append with a trim can be refused, and what its two calls do by themselves.
const STOPPED: &[&str] = &[
    "10 alone",
    "10, and the append too",
    "3 to 8, the trim would drop",
    "3 to 8, the trim would drop nothing",
    "9, the trim would empty a run",
    "9, the trim would spend what is given",
    "9, the trim would not help",
];

/// Where the window of a verdict can end and begin.
const WINDOWS: &[&str] = &[
    "ends at the clock",
    "ends past the clock",
    "ends with the period",
    "update period passes the period",
    "clock before the period",
    "clock plus update over the limit",
];

/// What can become of an older record: it is told by 2, or taken. Three of those that are taken are counted
/// once more: the clock alone is lost; nothing is kept, and appends that were spent at once are lost; nothing
/// is kept, and a clock with what it has dropped is lost.
const OLDER: &[&str] = &["told", "taken", "clock lost", "spent lost", "emptied"];

/// The ways in which calls can go besides their numbers.
const WAYS: [(&str, &[&str]); 32] = [
    ("lengths", &["another record", "another out"]),
    ("damaged words", &["agree", "disagree"]),
    ("damaged update", &["agree", "disagree"]),
    ("older record", OLDER),
    (
        "open update",
        &["0", "1 or more", "the limit", "over the limit", "all ones"],
    ),
    ("append out", &["a distance", "as it came"]),
    ("append off by", TICKS_OFF),
    ("append_stamp off by", STAMPS_OFF),
    ("append_trim off by", STAMPS_OFF),
    ("read off by", TICKS_OFF),
    ("append taken", TAKEN),
    ("append_stamp taken", TAKEN),
    ("append_trim taken", TAKEN),
    ("trim dropped", DROPPED),
    ("append_trim dropped", DROPPED),
    (
        "append_trim stored",
        &["kept", "dropped in part", "dropped"],
    ),
    ("append_trim refused", STOPPED),
    ("verdict kind", &["nothing needed", "complete", "lacking"]),
    ("verdict window", WINDOWS),
    ("verdict_whole kind", &["complete", "lacking"]),
    ("availability kind", &["never ends", "ends"]),
    ("availability number", &["within 32 bits", "over 32 bits"]),
    ("available_at answer", &["yes", "no"]),
    (
        "covered_edge kind",
        &[
            "none",
            "none with update",
            "a clock",
            "a clock with update",
            "the limit",
        ],
    ),
    ("full_tick kind", &["none", "joins", "a gap", "an overlap"]),
    (
        "touching part",
        &["no run", "one of several runs", "some runs", "all runs"],
    ),
    (
        "read accepted",
        &[
            "keeps all",
            "drops some",
            "keeps nothing",
            "lines share a run",
            "negative r",
        ],
    ),
    ("read head", HEADS),
    ("read refused", &REFUSED_LINES),
    (
        "write accepted",
        &[
            "one S line",
            "several S lines",
            "just the room",
            "room left",
            "update 0",
            "update above 0",
        ],
    ),
    (
        "verdict, no trims",
        &["nothing needed", "complete", "lacking", "10"],
    ),
    (
        "others, no trims",
        &["availability", "available_at", "covered_edge"],
    ),
];

/// Announces what the calls must meet.
pub fn announce_calls(tally: &mut Tally) {
    for (group, items) in NUMBERS.iter().chain(&WAYS) {
        tally.announce(group, items);
    }
}

/// Announces what the program's inputs must meet.
pub fn announce_inputs(tally: &mut Tally) {
    tally.announce(
        "desk at a clock",
        &["nothing needed", "complete", "lacking"],
    );
    tally.announce("desk, whole period", &["complete", "lacking"]);
    tally.announce("desk head", HEADS);
    let line_0 = &["10", "16", "16 head 01", "16 head 05", "19"];
    tally.announce("desk refused, line 0", line_0);
    tally.announce("desk refused", &REFUSED_LINES);
    tally.announce("desk off by", TICKS_OFF);
}

/// Counts what a call has met.
pub fn meet_call(tally: &mut Tally, made: &Made) {
    let step = made.step;
    let number = made.answer.number;
    tally.meet(step.call.name(), &number.to_string());
    meet_memory(tally, made);
    meet_asked(tally, step);
    if number == 0 {
        meet_accepted(tally, made);
    }
    if !step.has_other_record() && !step.has_other_out() {
        meet_told(tally, made);
    }
    if made.untrimmed {
        meet_untrimmed(tally, made);
    }
}

/// Counts what a twin tells alike, although it keeps what was dropped.
fn meet_untrimmed(tally: &mut Tally, made: &Made) {
    let (number, out) = (made.answer.number, &made.answer.out);
    match &made.step.call {
        Call::Verdict { .. } if number == 0 => {
            tally.meet("verdict, no trims", verdict_kind(out[0]));
        }
        Call::Verdict { .. } => tally.meet("verdict, no trims", &number.to_string()),
        call => tally.meet("others, no trims", call.name()),
    }
}

/// Counts what an append and a reading tell where they are refused.
fn meet_told(tally: &mut Tally, made: &Made) {
    let (number, out) = (made.answer.number, &made.answer.out);
    match &made.step.call {
        Call::Append { .. } | Call::AppendStamp { .. } => meet_out(tally, made, out[0]),
        Call::AppendTrim { .. } => {
            meet_out(tally, made, out[0]);
            meet_stopped(tally, made);
        }
        Call::Read { bytes } if number != 0 => {
            tally.meet("read refused", &refused_line(bytes, out[0], number));
            if out[1] != 0 || tells_distance(number) {
                tally.meet("read off by", &ticks_off(number, out[1]));
            }
        }
        _ => {}
    }
}

/// Counts what stands in the `out` of an append: a distance, or what stood there before.
fn meet_out(tally: &mut Tally, made: &Made, word: u64) {
    let number = made.answer.number;
    if !tells_distance(number) {
        let came = word == OUT_CAME;
        tally.meet("append out", if came { "as it came" } else { "changed" });
        return;
    }
    tally.meet("append out", "a distance");
    let group = format!("{} off by", made.step.call.name());
    if let Call::Append { .. } = made.step.call {
        tally.meet(&group, &ticks_off(number, word));
        return;
    }
    tally.meet(&group, &stamp_off(number, word));
    if number == 5 && word > made.answer.record[word::NEXT_TICK] {
        tally.meet(&group, "5 before tick 0");
    }
}

/// True for a gap and an overlap.
fn tells_distance(number: u32) -> bool {
    number == 4 || number == 5
}

/// How far a full tick is off.
fn ticks_off(number: u32, by: u64) -> String {
    let size = match by {
        0 | 1 => return format!("{} by {}", number, by),
        2..=0xffff_ffff => "2",
        0x1_0000_0000..=0x7fff_ffff_ffff_ffff => "2^32",
        _ => "2^63",
    };
    format!("{} by {} or more", number, size)
}

/// How far a stamp is off, of the circle of 2^32 ticks.
fn stamp_off(number: u32, by: u64) -> String {
    match by {
        0x7fff_ffff => format!("{} by 2^31 - 1", number),
        0x8000_0000 => format!("{} by 2^31", number),
        _ if by > 1 << 31 => format!("{} by more than half the circle", number),
        _ => ticks_off(number, by),
    }
}

/// Counts sizes of what is asked for, whatever is answered.
fn meet_asked(tally: &mut Tally, step: &Step) {
    match &step.call {
        Call::Availability { number } => {
            let over = *number > limits::NUMBER;
            let size = if over {
                "over 32 bits"
            } else {
                "within 32 bits"
            };
            tally.meet("availability number", size);
        }
        Call::Open(opening) => {
            let size = match opening.update {
                0 => "0",
                limits::MILLIS => "the limit",
                u64::MAX => "all ones",
                update if update > limits::MILLIS => "over the limit",
                _ => "1 or more",
            };
            tally.meet("open update", size);
        }
        _ => {}
    }
}

fn meet_memory(tally: &mut Tally, made: &Made) {
    let (step, number) = (made.step, made.answer.number);
    if step.has_other_record() {
        tally.meet("lengths", "another record");
    } else if step.has_other_out() {
        tally.meet("lengths", "another out");
    } else if step.older {
        meet_older(tally, made);
    } else if !step.damage.is_empty() && !step.call.makes_record() {
        let item = if number == 2 { "disagree" } else { "agree" };
        tally.meet("damaged words", item);
        if changes_only(step, word::UPDATE_PERIOD) {
            tally.meet("damaged update", item);
        }
    }
}

/// True where no other word of record and table is changed before the call.
fn changes_only(step: &Step, at: usize) -> bool {
    let is_there = |damage: &Damage| damage.place == Place::Record(at);
    step.damage.iter().all(is_there)
}

/// Counts whether an older record is told, and what is lost where it is not.
fn meet_older(tally: &mut Tally, made: &Made) {
    if made.answer.number == 2 {
        tally.meet("older record", "told");
        return;
    }
    tally.meet("older record", "taken");
    let present = before(made);
    let older = State::of(&made.before.damaged(&made.step.damage));
    let keeps_nothing = older.runs.is_empty() && older.accepted < present.accepted;
    if keeps_nothing && older.greatest_clock == present.greatest_clock {
        tally.meet("older record", "spent lost");
    } else if keeps_nothing {
        tally.meet("older record", "emptied");
    } else if changes_only(made.step, word::GREATEST_CLOCK)
        && older.greatest_clock < present.greatest_clock
    {
        tally.meet("older record", "clock lost");
    }
}

fn meet_accepted(tally: &mut Tally, made: &Made) {
    let out = &made.answer.out;
    match &made.step.call {
        Call::Append { count, .. } => meet_append(tally, made, "append taken", *count),
        Call::AppendStamp { count, .. } => meet_append(tally, made, "append_stamp taken", *count),
        Call::AppendTrim { count, clock, .. } => meet_append_trim(tally, made, *count, *clock),
        Call::Trim { clock } => {
            let dropped = dropped_by(&before(made), &after(made), *clock);
            tally.meet("trim dropped", dropped);
        }
        Call::Verdict { clock } => {
            tally.meet("verdict kind", verdict_kind(out[0]));
            meet_window(tally, &after(made), *clock);
        }
        Call::VerdictWhole => tally.meet("verdict_whole kind", verdict_kind(out[0])),
        Call::Availability { .. } => {
            let kind = if out[0] == 0 { "never ends" } else { "ends" };
            tally.meet("availability kind", kind);
        }
        Call::AvailableAt { .. } => {
            let available = if out[0] == 1 { "yes" } else { "no" };
            tally.meet("available_at answer", available);
        }
        Call::CoveredEdge => {
            let update = made.answer.record[word::UPDATE_PERIOD];
            tally.meet("covered_edge kind", edge_kind(out, update));
        }
        Call::FullTick { .. } => {
            let next = made.answer.record[word::NEXT_TICK];
            tally.meet("full_tick kind", full_tick_kind(out, next));
        }
        Call::Touching { .. } => tally.meet("touching part", part(made, out)),
        Call::Read { bytes } => meet_read(tally, &after(made), bytes),
        Call::Write { room } => meet_write(tally, &after(made), *room as u64 == out[0]),
        Call::Open(_) => {}
    }
}

fn meet_write(tally: &mut Tally, written: &State, just: bool) {
    let item = |yes: bool, item: &'static str, other: &'static str| if yes { item } else { other };
    let several = item(written.runs.len() > 1, "several S lines", "one S line");
    let left = item(just, "just the room", "room left");
    let update = item(written.update > 0, "update above 0", "update 0");
    for item in [several, left, update] {
        tally.meet("write accepted", item);
    }
}

/// Counts where the window of a verdict ends, and what else is rare of it.
fn meet_window(tally: &mut Tally, state: &State, clock: u64) {
    let upper = clock + state.update;
    let end = match state.duration {
        0 => u64::MAX,
        duration => state.start + duration,
    };
    let ends = if end <= clock {
        "ends with the period"
    } else if end <= upper {
        "update period passes the period"
    } else if state.update > 0 {
        "ends past the clock"
    } else {
        "ends at the clock"
    };
    tally.meet("verdict window", ends);
    if clock < state.start && state.start < upper {
        tally.meet("verdict window", "clock before the period");
    }
    if upper > limits::MILLIS {
        tally.meet("verdict window", "clock plus update over the limit");
    }
}

fn edge_kind(out: &[u64], update: u64) -> &'static str {
    match (out, update) {
        ([0, _], 0) => "none",
        ([0, _], _) => "none with update",
        ([_, limits::MILLIS], _) => "the limit",
        (_, 0) => "a clock",
        _ => "a clock with update",
    }
}

fn full_tick_kind(out: &[u64], next: u64) -> &'static str {
    match out {
        [0, _] => "none",
        [_, tick] if *tick == next => "joins",
        [_, tick] if *tick > next => "a gap",
        _ => "an overlap",
    }
}

/// What stood in memory before the call, its damage aside. Where the damage was accepted, the
/// kinds say what the call did to about this memory.
fn before(made: &Made) -> State {
    State::of(made.before)
}

fn after(made: &Made) -> State {
    State::of(&made.step.after(made.before, made.answer))
}

fn meet_append(tally: &mut Tally, made: &Made, group: &str, count: u32) {
    if !made.step.damage.is_empty() {
        return;
    }
    let (before, after) = (before(made), after(made));
    let spent = after.dropped - before.dropped;
    let stored = u64::from(count) - spent;
    let taken = match (spent, stored) {
        (0, _) => "all stored",
        (_, 0) => "spent at once",
        _ => "spent in part",
    };
    tally.meet(group, taken);
    if stored > 0 {
        let longer = after.runs.len() == before.runs.len();
        let run = if longer {
            "into the last run"
        } else {
            "into a new run"
        };
        tally.meet(group, run);
    }
}

/// Counts an accepted append with a trim as these two calls, one behind the other.
fn meet_append_trim(tally: &mut Tally, made: &Made, count: u32, clock: u64) {
    if let Some((append, _)) = halves(made) {
        let appended = Made {
            before: made.before,
            answer: &append.perform(&PLAIN, made.before),
            step: &append,
            untrimmed: false,
        };
        meet_append(tally, &appended, "append_trim taken", count);
        let (between, after) = (after(&appended), after(made));
        let dropped = dropped_by(&between, &after, clock);
        tally.meet("append_trim dropped", dropped);
        meet_stored(tally, &before(made), &between, &after);
    }
}

/// Counts what a trim leaves of the references that the append before it, in the same call, has stored.
fn meet_stored(tally: &mut Tally, before: &State, between: &State, after: &State) {
    let stored = between.kept() - before.kept();
    if stored > 0 {
        let left = match after.kept() {
            0 => "dropped",
            kept if kept < stored => "dropped in part",
            _ => "kept",
        };
        tally.meet("append_trim stored", left);
    }
}

/// Counts what stopped an append with a trim, by what its two calls do by themselves.
fn meet_stopped(tally: &mut Tally, made: &Made) {
    let number = made.answer.number;
    if let (3..=10, Some((append, trim))) = (number, halves(made)) {
        let accepted_in = |lent: &Lent| append.perform(&PLAIN, lent).number == 0;
        let trimmed = trim.after(made.before, &trim.perform(&PLAIN, made.before));
        let drops = trimmed.table != made.before.table;
        let why = match number {
            10 if accepted_in(made.before) => "10 alone",
            10 => "10, and the append too",
            3..=8 if drops => "3 to 8, the trim would drop",
            3..=8 => "3 to 8, the trim would drop nothing",
            _ if !accepted_in(&trimmed) => "9, the trim would not help",
            _ if drops => "9, the trim would empty a run",
            _ => "9, the trim would spend what is given",
        };
        tally.meet("append_trim refused", why);
    }
}

/// The append and the trim of an append with a trim, each by itself; none where words were changed.
fn halves(made: &Made) -> Option<(Step, Step)> {
    match made.step.call {
        Call::AppendTrim {
            stamp,
            duration,
            count,
            clock,
        } if made.step.damage.is_empty() => {
            let append = Call::AppendStamp {
                stamp,
                duration,
                count,
            };
            Some((Step::of(append), Step::of(Call::Trim { clock })))
        }
        _ => None,
    }
}

fn dropped_by(before: &State, after: &State, clock: u64) -> &'static str {
    if clock <= before.greatest_clock {
        return "nothing, clock not later";
    }
    if after.dropped == before.dropped {
        return "nothing";
    }
    if after.runs.is_empty() {
        return "all";
    }
    let whole = before.runs.len().saturating_sub(after.runs.len());
    let starts_anew = before.runs.get(whole).map(|run| run.start) == Some(after.runs[0].start);
    match (whole, starts_anew) {
        (0, _) => "part of a run",
        (_, true) => "whole runs",
        (_, false) => "whole runs and part",
    }
}

fn verdict_kind(word: u64) -> &'static str {
    match word {
        0 => "nothing needed",
        1 => "complete",
        _ => "lacking",
    }
}

fn part(made: &Made, out: &[u64]) -> &'static str {
    let runs = (out[1] - out[0]) / RUN_WORDS as u64;
    let all = before(made).runs.len() as u64;
    match runs {
        0 => "no run",
        runs if runs >= all => "all runs",
        1 => "one of several runs",
        _ => "some runs",
    }
}

fn meet_read(tally: &mut Tally, after: &State, bytes: &[u8]) {
    let s_lines: Vec<(u64, u32, i32)> = lines(bytes).filter_map(s_fields).collect();
    let kept = match (after.dropped, after.kept()) {
        (0, _) => "keeps all",
        (_, 0) => "keeps nothing",
        _ => "drops some",
    };
    tally.meet("read accepted", kept);
    tally.meet("read head", head_of(bytes).unwrap_or("none"));
    if s_lines.len() > after.runs.len() && after.dropped == 0 {
        tally.meet("read accepted", "lines share a run");
    }
    if s_lines.last().map_or(false, |line| line.2 < 0) {
        tally.meet("read accepted", "negative r");
    }
}

/// Counts what an input of the program has met, by the line that it answers.
pub fn meet_input(tally: &mut Tally, input: &[u8], answer: &str) {
    let file = input.splitn(2, |byte| *byte == b'\n').nth(1).unwrap_or(b"");
    let words: Vec<&str> = answer.split_whitespace().collect();
    match words[..] {
        ["nothing", "needed"] => meet_line(tally, input, file, "nothing needed"),
        ["complete", ..] => meet_line(tally, input, file, "complete"),
        ["lacking", ..] => meet_line(tally, input, file, "lacking"),
        ["refused", number, "line", "0"] => {
            tally.meet("desk refused, line 0", &at_line_0(input, number));
        }
        ["refused", number, "line", line] if !["4", "5"].contains(&number) => {
            meet_refused(tally, file, number, line);
        }
        ["refused", number, "line", line, "by", by] => {
            meet_refused(tally, file, number, line);
            let off = match (number.parse(), by.parse()) {
                (Ok(number), Ok(by)) => ticks_off(number, by),
                _ => answer.to_string(),
            };
            tally.meet("desk off by", &off);
        }
        _ => tally.meet("desk refused", answer),
    }
}

/// Counts a refused line of the file by the words that the program has for it.
fn meet_refused(tally: &mut Tally, file: &[u8], number: &str, line: &str) {
    let kind = match (number.parse(), line.parse()) {
        (Ok(number), Ok(line)) => refused_line(file, line, number),
        _ => format!("refused {} line {}", number, line),
    };
    tally.meet("desk refused", &kind);
}

/// Counts the line of a verdict, and the head of the file that it judges.
fn meet_line(tally: &mut Tally, input: &[u8], file: &[u8], kind: &str) {
    let whole = input.starts_with(&clock_line(ALL_ONES));
    let group = if whole {
        "desk, whole period"
    } else {
        "desk at a clock"
    };
    tally.meet(group, kind);
    if let Some(head) = head_of(file) {
        tally.meet("desk head", head);
    }
}

/// What is refused at line 0: a head that stands where the clock line should, or anything else.
fn at_line_0(input: &[u8], number: &str) -> String {
    match (number, head_of(input)) {
        ("16", Some(head)) => format!("16 head {}", &head[..2]),
        _ => number.to_string(),
    }
}
