//! Damage to the lines and the bytes of a file.

use crate::generator::Generator;
use crate::text::{Line, ALL_ONES};

/// Puts lines out of order: one taken out, doubled, put elsewhere or added, or a wrong number on
/// the end line.
pub fn reorder(generator: &mut Generator, lines: &mut Vec<Line>) {
    let at = generator.place(lines.len());
    match generator.below(11) {
        0 => {
            lines.remove(at);
        }
        1 => {
            let line = lines[at].clone();
            lines.insert(at, line);
        }
        2 => {
            let other = generator.place(lines.len());
            lines.swap(at, other);
        }
        3 => lines.insert(at, Line::End(generator.below(4) as u32)),
        4 => {
            let line = second_head(generator, &lines[0]);
            lines.insert(at, line);
        }
        5 => wrong_number(generator, lines),
        6 => lines.push(Line::End(1)),
        7 => lines.truncate(at),
        _ => {
            let at = generator.place(lines.len().min(3));
            let r = generator.pick(&[0, -1]);
            lines.insert(
                at,
                Line::S {
                    t: ALL_ONES,
                    d: 3,
                    r,
                },
            );
        }
    }
}

/// The first line once more. Where it is a head it may be of the other kind.
fn second_head(generator: &mut Generator, first: &Line) -> Line {
    match first {
        Line::Head(head) if generator.one_in(2) => Line::OldHead(*head),
        Line::OldHead(head) if generator.one_in(2) => Line::Head(*head),
        line => line.clone(),
    }
}

fn wrong_number(generator: &mut Generator, lines: &mut [Line]) {
    let wrong = generator.pick(&[0, 1, 2, u32::MAX]);
    let more = generator.one_in(2);
    for line in lines {
        if let Line::End(number) = line {
            *number = if more { number.wrapping_add(1) } else { wrong };
        }
    }
}

/// Changes, takes out or adds bytes.
pub fn damage(generator: &mut Generator, bytes: &mut Vec<u8>) {
    if bytes.is_empty() {
        bytes.extend(b"\n");
        return;
    }
    let at = generator.place(bytes.len());
    match generator.below(17) {
        0..=2 => bytes[at] = generator.pick(b"0123456789abcdef"),
        3 => bytes[at] = generator.pick(b"ABCDEFGg \t\r\n\0/:`\x7f\x80\xff-+xX"),
        4 => {
            bytes.remove(at);
        }
        5 => bytes.insert(at, generator.pick(b"0f\n\r ")),
        6 => bytes.truncate(at),
        7 => wrong_kind(generator, bytes),
        8 => carriage_return(generator, bytes),
        9 => upper_case(generator, bytes),
        10 => two_digits_more(generator, bytes, at),
        11 => cut_line(generator, bytes),
        12 => {
            bytes.pop();
        }
        13 => bytes.extend(extra(generator)),
        14 => digit_of_a_field(generator, bytes),
        15 => head_of_the_other_kind(bytes),
        _ => bytes.insert(0, generator.pick(b"\n0 ")),
    }
}

/// Where each line begins.
fn begins(bytes: &[u8]) -> Vec<usize> {
    let mut begins = vec![0];
    let feeds = bytes.iter().enumerate().filter(|(_, byte)| **byte == b'\n');
    begins.extend(feeds.map(|(at, _)| at + 1).filter(|at| *at < bytes.len()));
    begins
}

/// Another kind on a line; its length stays.
fn wrong_kind(generator: &mut Generator, bytes: &mut [u8]) {
    let begin = generator.pick(&begins(bytes));
    let kind = generator.pick(&[
        "00", "01", "02", "03", "04", "05", "06", "10", "20", "ff", "0g", "0A",
    ]);
    for (byte, digit) in bytes[begin..].iter_mut().zip(kind.bytes()) {
        *byte = digit;
    }
}

/// The other kind of head on the first head line; its length stays, and so does not fit.
fn head_of_the_other_kind(bytes: &mut [u8]) {
    for begin in begins(bytes) {
        let other = match bytes.get(begin..begin + 2) {
            Some(b"01") => b'5',
            Some(b"05") => b'1',
            _ => continue,
        };
        bytes[begin + 1] = other;
        return;
    }
}

/// A carriage return before a line feed, or before all of them.
fn carriage_return(generator: &mut Generator, bytes: &mut Vec<u8>) {
    let feeds: Vec<usize> = (0..bytes.len()).filter(|at| bytes[*at] == b'\n').collect();
    if feeds.is_empty() {
        return;
    }
    let one = generator.pick(&feeds);
    let all = generator.one_in(2);
    for at in feeds.into_iter().rev().filter(|at| all || *at == one) {
        bytes.insert(at, b'\r');
    }
}

/// One letter in upper case, or all.
fn upper_case(generator: &mut Generator, bytes: &mut [u8]) {
    let letters: Vec<usize> = (0..bytes.len())
        .filter(|at| bytes[*at].is_ascii_lowercase())
        .collect();
    if letters.is_empty() {
        return;
    }
    let one = generator.pick(&letters);
    let all = generator.one_in(2);
    for at in letters.into_iter().filter(|at| all || *at == one) {
        bytes[at].make_ascii_uppercase();
    }
}

fn two_digits_more(generator: &mut Generator, bytes: &mut Vec<u8>, at: usize) {
    for _ in 0..2 {
        bytes.insert(at, generator.pick(b"0f"));
    }
}

/// A line without its last digits.
fn cut_line(generator: &mut Generator, bytes: &mut Vec<u8>) {
    let begin = generator.pick(&begins(bytes));
    let length = bytes[begin..]
        .iter()
        .position(|byte| *byte == b'\n')
        .unwrap_or(bytes.len() - begin);
    let cut = generator.between(1, 4).min(length as u64) as usize;
    bytes.drain(begin + length - cut..begin + length);
}

/// What stands behind the end of a good file.
fn extra(generator: &mut Generator) -> &'static [u8] {
    generator.pick(&[
        &b"0"[..],
        b"\n",
        b"\0",
        b"0300000001\n",
        b"02ffffffffffffffff0000000100000000\n",
        b"\r\n",
        b"garbage without a line feed",
    ])
}

/// A high digit of some field of a line, so that the field passes its limit.
fn digit_of_a_field(generator: &mut Generator, bytes: &mut [u8]) {
    let begin = generator.pick(&begins(bytes));
    let field = generator.pick(&[2, 10, 18, 26, 34, 42, 58, 74, 82]);
    if let Some(byte) = bytes.get_mut(begin + field) {
        if *byte != b'\n' {
            *byte = generator.pick(b"0178f");
        }
    }
}
