//! The cases that the paper gives with their answers: "By hand", the worked file, the window of
//! "Window, needed, spent", and "Errors we expect someone to make". Each goes through both sides
//! and through the program, and is held to what the paper says.

mod calls;
mod inputs;
mod said;

pub use calls::judge_calls;
pub use inputs::judge_inputs;

use crate::opening::Opening;
use crate::text::{bytes_of, Line};

/// The file of case B after its trim at 18,000.
const WORKED_FILE: &str = "\
05000003e80000000000000000000000000000000000000000000000000000000000002710000000030000000000000000
020000000000001f4000000fa000000002
0300000001
";

/// The same with a head of the old kind, which has no update period.
fn old_worked_file() -> Vec<u8> {
    let head = Opening {
        first_number: 3,
        ..CASE_B
    };
    let s = Line::S {
        t: 8000,
        d: 4000,
        r: 2,
    };
    bytes_of(&[Line::OldHead(head), s, Line::End(1)])
}

const CASE_A: Opening = Opening {
    timescale: 10,
    offset: 100,
    start: 30_000,
    duration: 10_000,
    first_tick: 111,
    ..Opening::OPEN_ENDED
};

const CASE_B: Opening = Opening {
    depth: 10_000,
    first_number: 1,
    ..Opening::OPEN_ENDED
};

/// Case B with a window that reaches two seconds past the clock.
const CASE_B_UPDATE: Opening = Opening {
    update: 2_000,
    ..CASE_B
};

const CASE_C: Opening = Opening {
    first_tick: 4_294_970_000,
    ..Opening::OPEN_ENDED
};

const CASE_D: Opening = Opening {
    timescale: 3,
    duration: 500,
    ..Opening::OPEN_ENDED
};
