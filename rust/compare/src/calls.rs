//! Random sequences of calls through the archive and through the plain implementation.

use std::panic::{self, AssertUnwindSafe};

use crate::face::Faces;
use crate::generator::Generator;
use crate::inputs::file_of;
use crate::kinds;
use crate::limits::PROGRAM_TABLE_WORDS;
use crate::sequence::{compare_step, Sequence};
use crate::step::{Call, Lent, Step};
use crate::tally::Tally;
use crate::text::shown;

/// Sequences until so many calls have been made, from a first one on. The number of sequences, or
/// the first difference, shortened.
pub fn random_calls(
    faces: &Faces,
    seed: u64,
    from: u64,
    calls: u64,
    tally: &mut Tally,
) -> Result<u64, String> {
    let mut made = 0;
    let mut case = from;
    while made < calls {
        let mut generator = Generator::of_case(seed ^ 0xca11, case);
        let sequence = Sequence::random(&mut generator);
        let failure = run_or_panic(|| {
            let run = sequence.run(faces, |call| {
                made += 1;
                kinds::meet_call(tally, call);
            });
            run.err().map(|_| shortened(&sequence, faces))
        });
        if let Some(failure) = failure {
            return Err(format!(
                "{}\nseed {}, sequence {}: again with --seed {} --from {} --calls 1",
                failure, seed, case, seed, case
            ));
        }
        case += 1;
    }
    Ok(case - from)
}

/// The difference at the end of the shortened sequence.
fn shortened(sequence: &Sequence, faces: &Faces) -> String {
    match sequence.shortened(faces).run(faces, |_| ()) {
        Err(difference) => difference.to_string(),
        Ok(()) => "a difference that comes and goes".to_string(),
    }
}

/// A panic of the plain side is a failure like any other, so that its seed is told.
fn run_or_panic(run: impl FnOnce() -> Option<String>) -> Option<String> {
    let run = panic::catch_unwind(AssertUnwindSafe(run));
    run.unwrap_or_else(|_| Some("the plain side panicked".to_string()))
}

/// Words of the tables that case files are read into.
const TABLES: [usize; 5] = [0, 3, 7, 40, PROGRAM_TABLE_WORDS];

/// Reads a case file through both sides into several tables, and writes what was read.
pub fn judge_case_file(faces: &Faces, bytes: &[u8]) -> Result<u64, String> {
    let file = file_of(bytes);
    let mut calls = 0;
    for table_words in TABLES {
        let read = Step::of(Call::Read {
            bytes: file.to_vec(),
        });
        let lent = Lent::anything(table_words);
        let answer = compare_step(faces, &read, &lent)
            .map_err(|what| format!("{} in reading\n{}", what, shown(file)))?;
        let write = Step::of(Call::Write {
            room: file.len() + 200,
        });
        compare_step(faces, &write, &read.after(&lent, &answer))
            .map_err(|what| format!("{} in writing what was read of\n{}", what, shown(file)))?;
        calls += 2;
    }
    Ok(calls)
}
