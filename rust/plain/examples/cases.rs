//! Prints what the program `crates/cases` must print: the same steps through the plain
//! implementation. It reads that crate's `stdin`, and its output is stored as the crate's `stdout`:
//!
//! ```text
//! cargo run --example cases < ../../crates/cases/stdin > ../../crates/cases/stdout
//! ```
use std::io::{self, Read};

use plain::desk::by;
use plain::face;
use plain::record::{self, RECORD_WORDS};
use plain::units::Distance;

/// As many numbers as the longest call has, an opening.
type Numbers = [u64; 8];

/// The numbers behind the name of a call; those that it does not have are 0.
fn numbers(step: &str) -> Numbers {
    let mut numbers = Numbers::default();
    for (place, number) in numbers.iter_mut().zip(step.split(' ').skip(1)) {
        *place = number.parse().expect("a number of 64 bits");
    }
    numbers
}

/// The number of a call that changes and the distance that it tells, or nothing for one that looks.
fn change(name: &str, record: &mut [u64], table: &mut [u64], numbers: Numbers) -> Option<String> {
    let [a, b, c, d, e, f, g, h] = numbers;
    let mut out = [0];
    // with a capital, our record is lent to the call; here it is lent in any case
    let number = match name.to_lowercase().as_str() {
        "open" => face::open(record, table, a as u32, b, c, d, e, f as u32, g, h),
        "append" => face::append(record, table, a, b as u32, c as u32, &mut out),
        "stamp" => face::append_stamp(record, table, a as u32, b as u32, c as u32, &mut out),
        "trim" => face::trim(record, table, a),
        "pair" => face::append_trim(record, table, a as u32, b as u32, c as u32, d, &mut out),
        _ => return None,
    };
    Some(format!("{}{}", number, by(Distance::new(out[0]))))
}

fn words(list: &[u64]) -> String {
    list.iter().map(|word| format!(" {}", word)).collect()
}

/// The words of a verdict, or of a call that fits the same row.
fn row(number: u32, out: &[u64]) -> String {
    format!(" {} |{}", number, words(out))
}

/// Whether an availability ends; its points are asked by `clock`, at the clocks around them.
fn availability(record: &[u64], table: &[u64], number: u64) -> String {
    let mut out = [0i64; 3];
    let answer = face::availability(record, table, number, &mut out);
    row(answer, &[out[0] as u64, 0, 0, 0, 0])
}

/// The row of a call that looks.
fn look(name: &str, record: &[u64], table: &[u64], numbers: Numbers) -> String {
    let [a, b, ..] = numbers;
    let mut out = [0u64; 5];
    match name {
        "verdict" => row(face::verdict(record, table, a, &mut out), &out),
        "whole" => row(face::verdict_whole(record, table, &mut out), &out),
        "number" => availability(record, table, a),
        "runs" => {
            let number = face::touching(record, table, a, b, &mut out[..2]);
            out[2] = out[1] - out[0];
            row(number, &out)
        }
        "clock" => match record::available_at(record, table, a as u32, b) {
            Ok(yes) => row(0, &[yes as u64, 0, 0, 0, 0]),
            Err(refusal) => row(refusal.number(), &[0; 5]),
        },
        _ => panic!("no call is named {}", name),
    }
}

/// The row of a call that changes.
fn changed(outcome: &str, record: &[u64], table: &[u64]) -> String {
    format!(" {} |{} |{}", outcome, words(record), words(table))
}

/// Two calls, and so two outcomes, both shown with what the second left.
fn follow(record: &mut [u64], table: &mut [u64], numbers: Numbers) -> String {
    let clock: Numbers = [numbers[3], 0, 0, 0, 0, 0, 0, 0];
    let appended = change("stamp", record, table, numbers).expect("an outcome");
    let trimmed = change("trim", record, table, clock).expect("an outcome");
    let rows = [appended, trimmed];
    let rows: Vec<String> = rows
        .iter()
        .map(|outcome| changed(outcome, record, table))
        .collect();
    rows.join("\n")
}

fn run(steps: &str, length: usize) {
    let mut table = vec![9; length];
    let mut record = [0; RECORD_WORDS];
    for step in steps.lines().filter(|step| !step.starts_with('#')) {
        let name = step.split(' ').next().expect("a name");
        let numbers = numbers(step);
        let answer = if name == "follow" {
            follow(&mut record, &mut table, numbers)
        } else {
            match change(name, &mut record, &mut table, numbers) {
                Some(outcome) => changed(&outcome, &record, &table),
                None => look(name, &record, &table, numbers),
            }
        };
        println!("{}:{}", step, answer);
    }
}

fn main() {
    let mut steps = String::new();
    io::stdin()
        .read_to_string(&mut steps)
        .expect("the steps on standard input");
    for length in [7, 3, 2, 0] {
        run(&steps, length);
    }
}
