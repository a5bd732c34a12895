//! Inputs of the program: a clock line and a file, good and hostile.

use crate::generator::Generator;
use crate::limits;
use crate::opening::Opening;
use crate::random::{clocks, files, mutations};
use crate::state::State;
use crate::text::{clock_line, ALL_ONES};
use crate::weight::is_light_input;

/// An input that the plain program can judge in little memory, and how many that it cannot were
/// made before it.
pub fn light_input(generator: &mut Generator) -> (Vec<u8>, u64) {
    let mut left_out = 0;
    loop {
        let input = input(generator);
        if is_light_input(&input) {
            return (input, left_out);
        }
        left_out += 1;
    }
}

fn input(generator: &mut Generator) -> Vec<u8> {
    match generator.below(40) {
        0 => noise(generator),
        1 => over_long(generator),
        2 => with_clock(generator, files::file_of_many_runs),
        3 => with_clock(generator, files::file_of_many_lines),
        4 => {
            let mut input = with_clock(generator, files::file);
            mutations::damage(generator, &mut input);
            input
        }
        // No clock line: a head stands in its place.
        5 => files::file(generator),
        _ => with_clock(generator, files::file),
    }
}

fn with_clock(generator: &mut Generator, file: fn(&mut Generator) -> Vec<u8>) -> Vec<u8> {
    let file = file(generator);
    let mut input = clock_line(clock_for(generator, &file));
    if generator.one_in(40) {
        mutations::damage(generator, &mut input);
    }
    input.extend(file);
    input
}

/// A clock at which a file may have something to say, the whole period, or a limit.
fn clock_for(generator: &mut Generator, file: &[u8]) -> u64 {
    match generator.below(10) {
        0 => generator.pick(&[0, limits::MILLIS, limits::MILLIS + 1, ALL_ONES - 1]),
        1..=3 => ALL_ONES,
        _ => {
            let read = State::after_reading(file);
            let state = read.unwrap_or_else(|| State::opened(&Opening::OPEN_ENDED));
            clocks::clock(generator, &state)
        }
    }
}

/// Bytes or digits of pure chance.
fn noise(generator: &mut Generator) -> Vec<u8> {
    let length = generator.below(300);
    let digits = generator.one_in(2);
    let mut input = if generator.one_in(2) {
        clock_line(0)
    } else {
        Vec::new()
    };
    input.extend((0..length).map(|_| {
        if digits {
            generator.pick(b"0123456789abcdef\n")
        } else {
            generator.number() as u8
        }
    }));
    input
}

/// A line far longer than any frame, as the clock line or as one of the file.
fn over_long(generator: &mut Generator) -> Vec<u8> {
    let mut input = if generator.one_in(4) {
        Vec::new()
    } else {
        with_clock(generator, files::file)
    };
    let length = generator.pick(&[81, 82, 83, 97, 98, 99, 100, 4_096, 70_000]);
    let line = vec![generator.pick(b"0af\0"); length];
    let feeds = (0..input.len()).filter(|at| input[*at] == b'\n');
    let places: Vec<usize> = feeds.map(|at| at + 1).chain([0]).collect();
    let at = generator.pick(&places);
    let behind = input.split_off(at);
    input.extend(line);
    if generator.one_in(2) {
        input.push(b'\n');
    }
    input.extend(behind);
    input
}
