//! One large file through the program and through the plain program.

use std::env;
use std::fs::{self, File};
use std::io::{self, BufWriter, Write};
use std::path::Path;
use std::process;

use super::{race, Side, Unit};
use crate::arguments::Arguments;
use crate::opening::Opening;
use crate::program::Program;
use crate::text::{bytes_of, Line, ALL_ONES};

/// How many runs the lines make.
const RUNS: u64 = 8;

/// Times both programs on one file.
pub fn run(desk: &Program, plain_desk: &Program, arguments: &Arguments) -> Result<(), String> {
    let path = env::temp_dir().join(format!("compare-bench-{}.hex", process::id()));
    let outcome = write_input(&path, arguments.lines)
        .map_err(|error| format!("{}: {}", path.display(), error))
        .and_then(|()| time_both(desk, plain_desk, &path, arguments.rounds))
        .map_err(|failure| format!("{}, on a file of {} lines", failure, arguments.lines));
    // The file is in the system's folder for such files; that it stays is no failure.
    let _ = fs::remove_file(&path);
    outcome
}

/// A clock line, and so many S lines that make a few runs.
fn write_input(path: &Path, lines: u64) -> io::Result<()> {
    let mut output = BufWriter::new(File::create(path)?);
    let head = Opening {
        first_number: 1,
        ..Opening::OPEN_ENDED
    };
    let clock = lines * 2 - 1;
    output.write_all(&bytes_of(&[Line::Clock(clock), Line::Head(head)]))?;
    let lines_a_run = (lines / RUNS).max(1);
    for at in 0..lines {
        let d = 2 + (at / lines_a_run % 2) as u32;
        output.write_all(&bytes_of(&[Line::S {
            t: ALL_ONES,
            d,
            r: 0,
        }]))?;
    }
    output.write_all(&bytes_of(&[Line::End(lines as u32)]))?;
    output.flush()
}

fn time_both(desk: &Program, plain_desk: &Program, path: &Path, rounds: u64) -> Result<(), String> {
    let run = |program: &Program| {
        let file = File::open(path).map_err(|error| error.to_string())?;
        program.run_on_file(file)
    };
    let bytes = fs::metadata(path).map_err(|error| error.to_string())?.len();
    println!("one file of {:.1} MB", bytes as f64 / 1e6);
    let unit = Unit {
        name: "ms",
        in_a_second: 1e3,
    };
    let sides = [
        Side {
            name: desk.name,
            work: &|| run(desk),
        },
        Side {
            name: plain_desk.name,
            work: &|| run(plain_desk),
        },
    ];
    let answer = race(rounds, &unit, &sides)?;
    let answer = String::from_utf8_lossy(&answer);
    println!("  both answer {:?}", answer.trim_end());
    Ok(())
}
