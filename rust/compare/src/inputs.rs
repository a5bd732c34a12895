//! Inputs through the program and through the plain implementation.

use std::fs;
use std::io;
use std::panic;
use std::path::{Path, PathBuf};

use crate::generator::Generator;
use crate::kinds;
use crate::limits;
use crate::program::{Outcome, Program};
use crate::random::inputs::light_input;
use crate::shorten::shorten;
use crate::tally::Tally;
use crate::text::{clock_line, shown, ALL_ONES};

/// One in so many inputs is also given to the plain program, run as a process.
const PLAIN_PROCESS_EVERY: u64 = 10;

/// The programs that take an input.
pub struct Programs {
    /// The proved program.
    pub desk: Program,
    /// The plain one; it is also called as a function.
    pub plain_desk: Option<Program>,
}

/// Which random inputs to make.
#[derive(Clone, Copy, Debug)]
pub struct Range {
    /// The seed of all.
    pub seed: u64,
    /// The first input.
    pub from: u64,
    /// How many.
    pub many: u64,
}

/// Gives random inputs to both. The number of those left out since the plain side cannot keep
/// their references, or the first that is answered differently.
pub fn random_inputs(programs: &Programs, range: Range, tally: &mut Tally) -> Result<u64, String> {
    let mut all_left_out = 0;
    for case in range.from..range.from + range.many {
        let mut generator = Generator::of_case(range.seed, case);
        let (input, left_out) = light_input(&mut generator);
        all_left_out += left_out;
        let piece = piece_for(&mut generator, &input);
        let desk = |input: &[u8]| programs.desk.run(input, piece);
        let mut outcome = judge(&desk, &input, tally);
        if case % PLAIN_PROCESS_EVERY == 0 {
            outcome = outcome.and_then(|()| judge_plain_process(programs, &input));
        }
        outcome.map_err(|failure| {
            format!(
                "{}\nseed {}, input {}: again with --seed {} --from {} --inputs 1",
                failure, range.seed, case, range.seed, case
            )
        })?;
    }
    Ok(all_left_out)
}

/// The size of the pieces in which an input comes; a long one byte by byte would take too long.
fn piece_for(generator: &mut Generator, input: &[u8]) -> usize {
    let piece = generator.pick(&[usize::MAX, usize::MAX, 1, 7, 96, 4096]);
    let least = if input.len() > 2_000 { 96 } else { 1 };
    piece.max(least)
}

/// The plain answer to an input. A panic is an answer too, one that no program gives.
pub fn plain_answer(input: &[u8]) -> String {
    panic::catch_unwind(|| plain::desk::answer(input))
        .unwrap_or_else(|_| "plain panicked".to_string())
}

/// Gives one input to both and counts what it met. A difference is shown on the fewest lines that
/// have it; an input that gets no answer is shown whole, since each try would take the full time.
pub fn judge(
    desk: &dyn Fn(&[u8]) -> Result<Outcome, String>,
    input: &[u8],
    tally: &mut Tally,
) -> Result<(), String> {
    let difference = |input: &[u8]| -> Result<Option<String>, String> {
        Ok(desk(input)?.difference(&plain_answer(input)))
    };
    let differs = difference(input).map_err(|failure| on_input(&failure, input))?;
    if differs.is_some() {
        let lines = input.split_inclusive(|byte| *byte == b'\n').collect();
        let fewer = shorten(lines, |lines: &[&[u8]]| {
            let differs = difference(&lines.concat());
            differs.ok().map(|what| what.is_some())
        });
        let shorter = fewer.concat();
        let what = difference(&shorter)?.unwrap_or_else(|| "differs now and then".to_string());
        return Err(on_input(&format!("desk {}", what), &shorter));
    }
    kinds::meet_input(tally, input, plain_answer(input).trim_end());
    Ok(())
}

fn judge_plain_process(programs: &Programs, input: &[u8]) -> Result<(), String> {
    match &programs.plain_desk {
        Some(program) => hold(program, input, &plain_answer(input)),
        None => Ok(()),
    }
}

/// Holds what a program answers to what it should.
pub fn hold(program: &Program, input: &[u8], answer: &str) -> Result<(), String> {
    let outcome = program.run(input, usize::MAX);
    let outcome = outcome.map_err(|failure| on_input(&failure, input))?;
    match outcome.difference(answer) {
        None => Ok(()),
        Some(what) => Err(on_input(&format!("{} {}", program.name, what), input)),
    }
}

/// A failure and the input that it was met on.
pub fn on_input(failure: &str, input: &[u8]) -> String {
    format!("{} on\n{}", failure, shown(input))
}

/// The case files of the project: the examples, what its programs read, and their data.
pub fn case_files(root: &Path) -> io::Result<Vec<PathBuf>> {
    let mut files = Vec::new();
    for path in entries(&root.join("examples"))? {
        if path
            .extension()
            .map_or(false, |extension| extension == "hex")
        {
            files.push(path);
        }
    }
    for crate_folder in entries(&root.join("crates"))? {
        let stdin = crate_folder.join("stdin");
        if stdin.is_file() {
            files.push(stdin);
        }
        let data = entries(&crate_folder.join("data"))?;
        files.extend(data.into_iter().filter(|path| path.is_file()));
    }
    Ok(files)
}

/// What a folder holds, in order; nothing where there is no such folder.
fn entries(folder: &Path) -> io::Result<Vec<PathBuf>> {
    if !folder.is_dir() {
        return Ok(Vec::new());
    }
    let mut paths = Vec::new();
    for entry in fs::read_dir(folder)? {
        paths.push(entry?.path());
    }
    paths.sort();
    Ok(paths)
}

/// The file of a case file: all but a clock line.
pub fn file_of(bytes: &[u8]) -> &[u8] {
    let first_line = bytes.split_inclusive(|byte| *byte == b'\n').next();
    match first_line {
        Some(line) if line.starts_with(b"04") => &bytes[line.len()..],
        _ => bytes,
    }
}

/// The inputs that a case file makes: itself, and its file behind several clock lines.
pub fn inputs_of(bytes: &[u8]) -> Vec<Vec<u8>> {
    let clocks = [
        0,
        500,
        14_000,
        18_000,
        18_001,
        20_000,
        20_001,
        limits::MILLIS,
        limits::MILLIS + 1,
        ALL_ONES,
    ];
    let with_clock = |clock: &u64| [&clock_line(*clock), file_of(bytes)].concat();
    let mut inputs = vec![bytes.to_vec()];
    inputs.extend(clocks.iter().map(with_clock));
    inputs
}

/// Gives a case file to both, and answers how many inputs that made.
pub fn judge_case_file(programs: &Programs, bytes: &[u8]) -> Result<u64, String> {
    // What the case files meet is not counted: the random inputs must meet all by themselves.
    let mut uncounted = Tally::default();
    let desk = |input: &[u8]| programs.desk.run(input, usize::MAX);
    let mut many = 0;
    for input in inputs_of(bytes) {
        judge(&desk, &input, &mut uncounted)?;
        judge_plain_process(programs, &input)?;
        many += 1;
    }
    Ok(many)
}
