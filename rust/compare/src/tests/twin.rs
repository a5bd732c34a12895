//! What a twin follows, what it is asked, and where it gives up.

use flonterri::words::word;

use crate::face::{Face, PLAIN};
use crate::limits;
use crate::opening::Opening;
use crate::step::{Call, Damage, Lent, Place, Step};
use crate::twin::Twin;

/// What the twin, through a side, tells of the last of some steps that the plain side makes.
fn last_of(face: &Face, steps: &[Step]) -> Result<bool, String> {
    let mut lent = Lent::anything(30);
    let mut twin = Twin::default();
    let mut told = Ok(false);
    for step in steps {
        let answer = step.perform(&PLAIN, &lent);
        told = Ok(twin.follow(face, &lent, step, &answer)?);
        lent = step.after(&lent, &answer);
    }
    told
}

/// An opening with a window of ten seconds.
fn open() -> Step {
    Step::of(Call::Open(Opening {
        depth: 10_000,
        ..Opening::OPEN_ENDED
    }))
}

/// An append of references of four seconds.
fn append(count: u32) -> Step {
    Step::of(Call::Append {
        start: 0,
        duration: 4000,
        count,
    })
}

/// A trim that drops the first of them.
fn trim() -> Step {
    Step::of(Call::Trim { clock: 14_000 })
}

fn verdict(clock: u64) -> Step {
    Step::of(Call::Verdict { clock })
}

/// A look in a record with one word changed.
fn look_in(at: usize, word: u64) -> Step {
    let place = Place::Record(at);
    Step {
        damage: vec![Damage { place, word }],
        ..Step::of(Call::CoveredEdge)
    }
}

#[test]
fn what_is_asked_of_a_twin() {
    let over = limits::MILLIS + 1;
    let at_14 = |number| Call::AvailableAt {
        number,
        clock: 14_000,
    };
    for (call, asked) in [
        (Call::Verdict { clock: 14_000 }, true),
        (Call::Verdict { clock: 13_999 }, false),
        (Call::Verdict { clock: over }, true),
        (Call::VerdictWhole, false),
        (Call::CoveredEdge, true),
        (Call::Availability { number: 1 }, true),
        (Call::Availability { number: 0 }, false),
        (at_14(1), true),
        (at_14(0), false),
    ] {
        let kept = [open(), append(2), Step::of(call.clone())];
        assert_eq!(last_of(&PLAIN, &kept), Ok(false), "{:?}", call);
        let dropped = [open(), append(2), trim(), Step::of(call.clone())];
        assert_eq!(last_of(&PLAIN, &dropped), Ok(asked), "{:?}", call);
    }
}

#[test]
fn what_a_twin_follows() {
    let file = "05000003e80000000000000000000000000000000000000000000000000000000000002710\
                000000030000000000000000\n02000000000000000000000fa000000001\n0300000001\n";
    let read = Step::of(Call::Read {
        bytes: file.as_bytes().to_vec(),
    });
    let append_stamp = Step::of(Call::AppendStamp {
        stamp: 0,
        duration: 4000,
        count: 2,
    });
    let append_trim = Step::of(Call::AppendTrim {
        stamp: 0,
        duration: 4000,
        count: 2,
        clock: 14_000,
    });
    let told = look_in(word::DROPPED, 7);
    let taken = look_in(word::GREATEST_CLOCK, 14_001);
    let closed = Step::of(Call::Open(Opening {
        timescale: 0,
        ..Opening::OPEN_ENDED
    }));
    for (mut steps, follows) in [
        (vec![read, trim()], true),
        (vec![open(), append_stamp, trim()], true),
        (vec![open(), append_trim], true),
        (vec![open(), trim(), append(2)], true),
        (vec![open(), append(2), trim(), told], true),
        (vec![open(), append(2), trim(), taken], false),
        (vec![open(), append(2), trim(), closed], false),
        (vec![open(), append(1_001), trim()], false),
    ] {
        steps.push(verdict(14_001));
        assert_eq!(last_of(&PLAIN, &steps), Ok(follows), "{:?}", steps);
    }
}

#[test]
fn a_twin_that_is_refused() {
    let without_room = Face {
        append: |_, _, _, _, _, _| 9,
        ..PLAIN
    };
    let refusing = Face {
        append: |_, _, _, _, _, _| 8,
        ..PLAIN
    };
    let steps = [open(), append(2), trim(), verdict(14_000)];
    assert_eq!(last_of(&without_room, &steps), Ok(false));
    let refused = "the twin without trims of plain refuses append with 8";
    assert_eq!(last_of(&refusing, &steps), Err(refused.to_string()));
}
