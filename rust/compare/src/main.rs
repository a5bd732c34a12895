//! The comparison and the benchmark as a program.

use std::env;
use std::process::exit;

use compare::arguments::{Arguments, Part, USAGE};
use compare::face::Faces;
use compare::{bench, report};

fn main() {
    let arguments = Arguments::of(env::args().skip(1)).unwrap_or_else(|wrong| {
        eprintln!("compare: {}\n{}", wrong, USAGE);
        exit(2)
    });
    let outcome = if arguments.has(Part::Bench) {
        bench::run(&arguments)
    } else {
        report::compare(&arguments, &Faces::ARCHIVE_AND_PLAIN)
    };
    if let Err(failure) = outcome {
        eprintln!("compare: FAILED\n{}", failure);
        exit(1)
    }
}
