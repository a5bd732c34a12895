//! The program itself: standard input, standard output, exit status.

use std::io::Write;
use std::process::{Command, Stdio};

/// What the program writes for an input; it must end with status 0 and say nothing else.
fn run(input: &[u8]) -> String {
    let mut program = Command::new(env!("CARGO_BIN_EXE_plain-desk"))
        .stdin(Stdio::piped())
        .stdout(Stdio::piped())
        .stderr(Stdio::piped())
        .spawn()
        .expect("the program starts");
    let mut stdin = program.stdin.take().expect("a piped input");
    stdin.write_all(input).expect("the program reads its input");
    drop(stdin);
    let output = program.wait_with_output().expect("the program ends");
    assert_eq!(output.status.code(), Some(0));
    assert!(output.stderr.is_empty());
    String::from_utf8(output.stdout).expect("plain text")
}

const FILE: &str = "\
05000003e80000000000000000000000000000000000000000000000000000000000002710000000030000000000000000
020000000000001f4000000fa000000002
0300000001
";

/// What the program writes for a file at a clock.
fn ask(clock: u64, file: &str) -> String {
    run(format!("04{:016x}\n{}", clock, file).as_bytes())
}

#[test]
fn the_worked_file() {
    // The same file with a head of the old kind: 01, and no update period.
    let old = FILE
        .replace("0000000000000000\n", "\n")
        .replacen("05", "01", 1);
    assert_eq!(old.lines().next().map(str::len), Some(82));
    for file in [FILE, &old] {
        assert_eq!(ask(0, file), "nothing needed\n");
        assert_eq!(ask(18_000, file), "complete 10000/10000 100%\n");
        assert_eq!(ask(20_001, file), "lacking 20000 9999/10000 99%\n");
        assert_eq!(ask(100_000_000_001, file), "refused 10 line 0\n");
        assert_eq!(ask(u64::MAX, file), "refused 19 line 0\n");
    }
}

#[test]
fn the_worked_file_with_an_update_period() {
    let file = FILE.replace("0000000000000000\n", "00000000000007d0\n");
    assert_eq!(ask(0, &file), "lacking 0 0/2000 0%\n");
    assert_eq!(ask(18_000, &file), "complete 12000/12000 100%\n");
    assert_eq!(ask(18_001, &file), "lacking 20000 11999/12000 99%\n");
}

#[test]
fn refusals_end_with_status_0_too() {
    assert_eq!(run(b""), "refused 16 line 0\n");
    assert_eq!(run(b"040000000000000000\n"), "refused 16 line 1\n");
    assert_eq!(run(&[0xff; 100_000]), "refused 16 line 0\n");
    let gap = FILE.replace("0300000001", "020000000000004e2900000fa000000000");
    assert_eq!(ask(0, &gap), "refused 4 line 3 by 9\n");
    let cut = format!("040000000000000000\n{}", &FILE[..110]);
    assert_eq!(run(cut.as_bytes()), "refused 16 line 2\n");
}
