//! Running a program.

use std::env;
use std::fs::File;
use std::path::PathBuf;
use std::process;
use std::thread;
use std::time::{Duration, Instant};

use crate::inputs::hold;
use crate::program::{Outcome, Program, LIMIT};

/// A program that writes what it reads.
fn cat() -> Program {
    Program {
        name: "cat",
        path: PathBuf::from("/bin/cat"),
        limit: LIMIT,
    }
}

/// A program that does what its input says.
fn shell(limit: Duration) -> Program {
    Program {
        name: "sh",
        path: PathBuf::from("/bin/sh"),
        limit,
    }
}

#[test]
fn an_input_comes_whole_in_pieces_of_any_size() {
    let input: Vec<u8> = (0..10_000).map(|at| at as u8).collect();
    for piece in [0, 1, 7, 4_096, usize::MAX] {
        let outcome = cat().run(&input, piece).expect("a program that ends");
        assert_eq!(outcome.wrote, input);
        assert_eq!(outcome.status, Some(0));
        assert!(outcome.said.is_empty());
    }
}

#[test]
fn all_that_a_program_does_is_seen() {
    let run = |commands: &str| shell(LIMIT).run(commands.as_bytes(), usize::MAX);
    let outcome = |wrote: &str, said: &str, status| Outcome {
        wrote: wrote.into(),
        said: said.into(),
        status,
    };
    assert_eq!(run("echo oh"), Ok(outcome("oh\n", "", Some(0))));
    assert_eq!(run("echo oh >&2; exit 3"), Ok(outcome("", "oh\n", Some(3))));
    assert_eq!(run("kill -9 $$"), Ok(outcome("", "", None)));
}

#[test]
fn a_program_that_does_not_read_its_input() {
    let program = Program {
        name: "true",
        path: PathBuf::from("/bin/true"),
        limit: LIMIT,
    };
    let outcome = program.run(&[0; 1_000_000], usize::MAX);
    let outcome = outcome.expect("a program that ends");
    assert_eq!((outcome.wrote.len(), outcome.status), (0, Some(0)));
}

#[test]
fn a_program_that_writes_for_ever_fills_no_memory() {
    let outcome = shell(LIMIT).run(b"while :; do echo 0123456789abcdef; done", usize::MAX);
    let outcome = outcome.expect("a program that a closed pipe ends");
    assert_eq!(outcome.wrote.len(), 1 << 20);
    assert_eq!(outcome.status, None);
}

#[test]
fn a_program_that_is_not_there() {
    let program = Program {
        path: PathBuf::from("/bin/no such program"),
        ..cat()
    };
    // It does not start; under an emulator it starts, and ends with a status.
    assert!(hold(&program, b"", "").is_err());
}

/// A program that hangs is killed when its time is over, and the failure names it and the input.
fn hangs(commands: &str) {
    let began = Instant::now();
    let failure = hold(&shell(Duration::from_millis(200)), commands.as_bytes(), "")
        .expect_err("a program that hangs");
    assert!(began.elapsed() < Duration::from_secs(10));
    let named = failure.starts_with("sh did not end in 200ms on\nexec sleep 20");
    assert!(named, "{}", failure);
}

#[test]
fn a_program_that_sleeps() {
    hangs("exec sleep 20\n");
}

#[test]
fn a_program_that_sleeps_and_does_not_take_its_input() {
    hangs(&("exec sleep 20\n".to_string() + &"0".repeat(1_000_000)));
}

#[test]
fn a_program_that_sleeps_and_has_closed_its_streams() {
    hangs("exec sleep 20 <&- >&- 2>&-\n");
}

#[test]
fn a_program_whose_time_is_over_is_killed() {
    let file = env::temp_dir().join(format!("compare-killed-{}", process::id()));
    let commands = format!("sleep 1; : >'{}'\n", file.display());
    let late = shell(Duration::from_millis(100)).run(commands.as_bytes(), usize::MAX);
    assert!(late.is_err());
    thread::sleep(Duration::from_millis(1_500));
    assert!(!file.exists());
}

#[test]
fn a_file_as_standard_input() {
    let itself = || File::open("Cargo.toml").expect("the crate's own file");
    let wrote = cat().run_on_file(itself()).expect("a program that ends");
    assert!(wrote.starts_with(b"[package]"));
    let failure = shell(LIMIT).run_on_file(itself());
    let failure = failure.expect_err("a file of no commands");
    assert!(failure.starts_with("sh ended with status "), "{}", failure);
}
