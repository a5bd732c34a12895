//! Prints what the program `crates/files` must print: case B's worked file, then what each file that
//! the arguments name comes to. Its output is stored as that crate's `stdout`. Run in the folder of
//! the files:
//!
//! ```text
//! cargo run --manifest-path ../../../rust/plain/Cargo.toml --example files -- $(cat ../args)
//! ```
use plain::desk::by;
use plain::face;
use plain::record::RECORD_WORDS;
use plain::units::Distance;

/// The program's table: two runs, and a word beside them.
const WORDS: usize = 7;

fn main() {
    case_b();
    for name in std::env::args().skip(1) {
        let bytes = std::fs::read(&name).expect("a file that the arguments name");
        judge(&name, &bytes);
    }
}

/// Case B after its trim at 18,000.
fn case_b() {
    let mut record = [0; RECORD_WORDS];
    let mut table = [0; WORDS];
    assert_eq!(
        face::open(&mut record, &mut table, 1000, 0, 0, 0, 10_000, 1, 0, 0),
        0
    );
    let filled = face::append(&mut record, &mut table, 0, 4000, 5, &mut [0]);
    assert_eq!(filled, 0);
    assert_eq!(face::trim(&mut record, &mut table, 18_000), 0);
    print_file(&record, &table);
}

/// The program reads each file three ways, which must come to the same.
fn judge(name: &str, bytes: &[u8]) {
    let mut record = [0; RECORD_WORDS];
    let mut table = [9; WORDS];
    let mut out = [0; 2];
    let number = face::read(bytes, &mut record, &mut table, &mut out);
    let [line, distance] = out;
    let answer = match number {
        0 => format!(
            "accepted {} dropped {} next {} runs {}",
            record[7], record[8], record[9], record[11]
        ),
        number => format!(
            "refused {} line {}{}",
            number,
            line,
            by(Distance::new(distance))
        ),
    };
    let words: String = table.iter().map(|word| format!(" {}", word)).collect();
    let one = format!(" {}{};", answer, words);
    println!("{}:{}", name, one.repeat(3));
    if line == 0 {
        print_file(&record, &table);
    }
}

fn print_file(record: &[u64], table: &[u64]) {
    let mut bytes = [0; 256];
    let mut length = [0];
    match face::write(record, table, &mut bytes, &mut length) {
        0 => print!("{}", String::from_utf8_lossy(&bytes[..length[0] as usize])),
        number => println!("refused {}", number),
    }
}
