//! A whole comparison and what it prints.

use std::fs;
use std::path::PathBuf;
use std::time::{Duration, Instant};

use crate::arguments::{Arguments, Part};
use crate::face::Faces;
use crate::inputs::{self, Programs, Range};
use crate::program::{Program, LIMIT};
use crate::tally::Tally;
use crate::weight::is_light_input;
use crate::{by_hand, calls, kinds};

/// How many calls are made where nothing else is asked for.
const CALLS: u64 = 1_000_000;

/// Runs the parts that are asked for; the first failure in words.
pub fn compare(arguments: &Arguments, faces: &Faces) -> Result<(), String> {
    let mut tally = Tally::default();
    println!("compare: seed {}", arguments.seed);
    if arguments.has(Part::Hand) {
        hand(arguments, faces)?;
    }
    if arguments.has(Part::Files) {
        files(arguments, faces)?;
    }
    if arguments.has(Part::Inputs) {
        random_inputs(arguments, &mut tally)?;
    }
    if arguments.has(Part::Calls) {
        random_calls(arguments, faces, &mut tally)?;
    }
    print!("{}", tally);
    judge_tally(arguments, &tally)
}

fn hand(arguments: &Arguments, faces: &Faces) -> Result<(), String> {
    let calls = by_hand::judge_calls(faces)?;
    let inputs = by_hand::judge_inputs(&programs(arguments, LIMIT)?)?;
    println!(
        "by hand: {} calls and {} inputs as the paper says, on both sides",
        calls, inputs
    );
    Ok(())
}

fn files(arguments: &Arguments, faces: &Faces) -> Result<(), String> {
    let root = &arguments.root;
    let files =
        inputs::case_files(root).map_err(|error| format!("{} below {}", error, root.display()))?;
    let programs = programs(arguments, LIMIT)?;
    let (mut inputs, mut calls) = (0, 0);
    for path in &files {
        let of_file = |failure| format!("{}\nof {}", failure, path.display());
        let bytes = fs::read(path).map_err(|error| of_file(error.to_string()))?;
        if !inputs::inputs_of(&bytes)
            .iter()
            .all(|input| is_light_input(input))
        {
            println!("case files: {} is left out for its size", path.display());
            continue;
        }
        inputs += inputs::judge_case_file(&programs, &bytes).map_err(of_file)?;
        calls += calls::judge_case_file(faces, &bytes).map_err(of_file)?;
    }
    println!(
        "case files: {} files, {} inputs and {} calls alike",
        files.len(),
        inputs,
        calls
    );
    Ok(())
}

fn random_inputs(arguments: &Arguments, tally: &mut Tally) -> Result<(), String> {
    let began = Instant::now();
    kinds::announce_inputs(tally);
    let range = Range {
        seed: arguments.seed,
        from: arguments.from,
        many: arguments.inputs,
    };
    let left_out = inputs::random_inputs(&programs(arguments, LIMIT)?, range, tally)?;
    println!(
        "inputs: {} alike, {} left out for their size, {:.1} s",
        range.many,
        left_out,
        began.elapsed().as_secs_f64()
    );
    Ok(())
}

fn random_calls(arguments: &Arguments, faces: &Faces, tally: &mut Tally) -> Result<(), String> {
    let began = Instant::now();
    kinds::announce_calls(tally);
    let calls = arguments.calls.unwrap_or(CALLS);
    let sequences = calls::random_calls(faces, arguments.seed, arguments.from, calls, tally)?;
    println!(
        "calls: {} or a few more in {} sequences alike, {:.1} s",
        calls,
        sequences,
        began.elapsed().as_secs_f64()
    );
    Ok(())
}

/// What was never met, or met against expectation, is a failure.
fn judge_tally(arguments: &Arguments, tally: &Tally) -> Result<(), String> {
    let surprises = tally.surprises();
    if !surprises.is_empty() {
        return Err(format!("met what cannot be met: {}", surprises.join("; ")));
    }
    let never_met = tally.never_met();
    if !never_met.is_empty() && !arguments.allow_unmet {
        return Err(format!("never met: {}", never_met.join("; ")));
    }
    Ok(())
}

/// The programs that the arguments name, and how long each may take for an input.
pub fn programs(arguments: &Arguments, limit: Duration) -> Result<Programs, String> {
    let program = |name, path: &PathBuf| Program {
        name,
        path: path.clone(),
        limit,
    };
    let desk = arguments.desk.as_ref().ok_or("--desk is needed")?;
    let plain_desk = arguments.plain_desk.as_ref();
    Ok(Programs {
        desk: program("desk", desk),
        plain_desk: plain_desk.map(|path| program("plain-desk", path)),
    })
}
