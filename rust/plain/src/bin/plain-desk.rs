//! The program: a clock line and a file on standard input, one line on standard output.

use std::io::{self, Read, Write};

fn main() -> io::Result<()> {
    let mut input = Vec::new();
    io::stdin().lock().read_to_end(&mut input)?;
    io::stdout()
        .lock()
        .write_all(plain::desk::answer(&input).as_bytes())
}
