//! The benchmark: how long the proved program and archive take, beside plain ones.

mod calls;
mod file;
mod spent;
mod vector;

use std::fmt::Debug;
use std::fs;
use std::time::{Duration, Instant};

use crate::arguments::Arguments;
use crate::report::programs;

/// How many appends and trims, and how many segments, where nothing else is asked for.
const CALLS: u64 = 1_000_000;

/// How long a program may take for the large file, which has as many lines as are asked for.
const LIMIT: Duration = Duration::from_secs(1_800);

/// Runs the benchmark and prints its figures.
pub fn run(arguments: &Arguments) -> Result<(), String> {
    println!(
        "bench: processor {}, the best of {} rounds",
        processor(),
        arguments.rounds
    );
    let programs = programs(arguments, LIMIT)?;
    let plain_desk = programs.plain_desk.ok_or("--plain-desk is needed")?;
    file::run(&programs.desk, &plain_desk, arguments)?;
    calls::run(arguments.calls.unwrap_or(CALLS), arguments.rounds)?;
    spent::run(arguments.rounds);
    Ok(())
}

/// The processor's name, as the system tells it.
fn processor() -> String {
    let told = fs::read_to_string("/proc/cpuinfo").unwrap_or_default();
    let line = told.lines().find(|line| line.starts_with("model name"));
    let name = line.and_then(|line| line.split(": ").nth(1));
    name.unwrap_or("of unknown name").to_string()
}

/// One of the sides that do the same work.
struct Side<'work, T> {
    name: &'static str,
    /// Does the work once, and answers what it comes to.
    work: &'work dyn Fn() -> Result<T, String>,
}

/// What times are shown in.
struct Unit {
    name: &'static str,
    in_a_second: f64,
}

impl Unit {
    /// Nanoseconds for each of so many equal parts of the work.
    fn nanos(name: &'static str, parts: u64) -> Unit {
        Unit {
            name,
            in_a_second: 1e9 / parts as f64,
        }
    }
}

/// Has all sides do their work in turns, in so many rounds, and prints the best time of each and how it
/// compares with those behind it. What all come to, or the first difference.
fn race<T: PartialEq + Debug>(rounds: u64, unit: &Unit, sides: &[Side<T>]) -> Result<T, String> {
    let mut best = vec![Duration::MAX; sides.len()];
    let mut end = None;
    for _ in 0..rounds {
        for (side, best) in sides.iter().zip(&mut best) {
            let (own_end, time) = side.timed()?;
            *best = time.min(*best);
            match &end {
                Some(end) if *end != own_end => {
                    return Err(format!(
                        "{} comes to {:?}, {} to {:?}",
                        sides[0].name, end, side.name, own_end
                    ));
                }
                _ => end = Some(own_end),
            }
        }
    }
    let timed: Vec<(&str, f64)> = sides
        .iter()
        .zip(best)
        .map(|(side, best)| (side.name, best.as_secs_f64()))
        .collect();
    for (name, time) in &timed {
        let time = time * unit.in_a_second;
        println!("  {:<10}  {:8.1} {}", name, time, unit.name);
    }
    for (at, (name, time)) in timed.iter().enumerate() {
        for (other, other_time) in &timed[at + 1..] {
            let times = time / other_time;
            println!("  {}: {:.2} times as long as {}", name, times, other);
        }
    }
    end.ok_or_else(|| "no round was asked for".to_string())
}

impl<T> Side<'_, T> {
    fn timed(&self) -> Result<(T, Duration), String> {
        let began = Instant::now();
        let end = (self.work)()?;
        Ok((end, began.elapsed()))
    }
}
