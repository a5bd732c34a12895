//! Running a program on an input, within a limit of time.

use std::fs::File;
use std::io::{self, ErrorKind, Read, Write};
use std::path::PathBuf;
use std::process::{Child, ChildStdin, Command, ExitStatus, Stdio};
use std::sync::mpsc;
use std::thread;
use std::time::{Duration, Instant};

/// How long a program may take for one input of the comparison. It takes about a millisecond; the
/// rest is for emulators and busy machines.
pub const LIMIT: Duration = Duration::from_secs(60);

/// What is read of a program's output at most, so that one that writes for ever fills no memory.
const MOST_OUTPUT: u64 = 1 << 20;

/// A program to be run on inputs.
#[derive(Clone, Debug)]
pub struct Program {
    /// What reports call it.
    pub name: &'static str,
    /// Where it is.
    pub path: PathBuf,
    /// How long it may take for an input; then it is killed.
    pub limit: Duration,
}

/// What a program that has ended did with its input.
#[derive(Clone, Debug, PartialEq, Eq)]
pub struct Outcome {
    /// What it wrote.
    pub wrote: Vec<u8>,
    /// What it said on standard error.
    pub said: Vec<u8>,
    /// Its exit status; none where a signal ended it.
    pub status: Option<i32>,
}

impl Outcome {
    /// How the outcome differs from the answer that it should be: one line on standard output,
    /// nothing on standard error, exit status 0.
    pub fn difference(&self, answer: &str) -> Option<String> {
        if self.wrote != answer.as_bytes() {
            let wrote = String::from_utf8_lossy(&self.wrote);
            return Some(format!("wrote {:?} and not {:?}", wrote, answer));
        }
        self.trouble()
    }

    /// What is wrong with the way in which the program ended, whatever it wrote.
    fn trouble(&self) -> Option<String> {
        if self.status != Some(0) {
            return Some(format!("ended with status {:?}", self.status));
        }
        if !self.said.is_empty() {
            let said = String::from_utf8_lossy(&self.said);
            return Some(format!("said {:?} on standard error", said));
        }
        None
    }
}

impl Program {
    /// Runs the program on an input that comes through a pipe, in pieces of at most this size.
    /// Fails where it does not start or does not end in time.
    pub fn run(&self, input: &[u8], piece: usize) -> Result<Outcome, String> {
        let input = input.to_vec();
        self.follow(Stdio::piped(), move |stdin| feed(stdin, &input, piece))
    }

    /// Runs the program on a file as its standard input and answers what it wrote. Fails where it
    /// does not start, does not end in time, or does not end well.
    pub fn run_on_file(&self, file: File) -> Result<Vec<u8>, String> {
        let outcome = self.follow(Stdio::from(file), |_| Ok(()))?;
        match outcome.trouble() {
            None => Ok(outcome.wrote),
            Some(trouble) => Err(format!("{} {}", self.name, trouble)),
        }
    }

    /// Starts the program, has it fed, and follows it to its end. Where its time is over first it is
    /// killed.
    fn follow(
        &self,
        stdin: Stdio,
        feed: impl FnOnce(Option<ChildStdin>) -> io::Result<()> + Send + 'static,
    ) -> Result<Outcome, String> {
        let mut child = Command::new(&self.path)
            .stdin(stdin)
            .stdout(Stdio::piped())
            .stderr(Stdio::piped())
            .spawn()
            .map_err(|error| format!("{} does not start: {}", self.path.display(), error))?;
        outcome_by(Instant::now() + self.limit, &mut child, feed).map_err(|error| {
            // That fails only where the program has ended by itself meanwhile.
            let _ = child.kill();
            let _ = child.wait();
            match error.kind() {
                ErrorKind::TimedOut => format!("{} did not end in {:?}", self.name, self.limit),
                _ => format!("{} cannot be followed: {}", self.name, error),
            }
        })
    }
}

/// What a program does up to a moment. A thread that nobody has to wait for serves its streams, in
/// the order in which our programs use them; one that fills a pipe out of turn does not end.
fn outcome_by(
    end: Instant,
    child: &mut Child,
    feed: impl FnOnce(Option<ChildStdin>) -> io::Result<()> + Send + 'static,
) -> io::Result<Outcome> {
    let stdin = child.stdin.take();
    let stdout = child.stdout.take().expect("a piped output");
    let stderr = child.stderr.take().expect("a piped standard error");
    let (sender, served) = mpsc::channel();
    thread::spawn(move || {
        let streams = feed(stdin).and_then(|()| Ok((read_all(stdout)?, read_all(stderr)?)));
        // Once the time is over nobody listens.
        let _ = sender.send(streams);
    });
    let left = end.saturating_duration_since(Instant::now());
    let late = |_| Err(ErrorKind::TimedOut.into());
    let (wrote, said) = served.recv_timeout(left).unwrap_or_else(late)?;
    let status = status_by(end, child)?.code();
    Ok(Outcome {
        wrote,
        said,
        status,
    })
}

fn feed(stdin: Option<ChildStdin>, input: &[u8], piece: usize) -> io::Result<()> {
    let mut stdin = stdin.expect("a piped input");
    for piece in input.chunks(piece.max(1)) {
        match stdin.write_all(piece) {
            Ok(()) => {}
            // A program may answer before it has read all.
            Err(error) if error.kind() == ErrorKind::BrokenPipe => return Ok(()),
            Err(error) => return Err(error),
        }
    }
    Ok(())
}

fn read_all(output: impl Read) -> io::Result<Vec<u8>> {
    let mut bytes = Vec::new();
    output.take(MOST_OUTPUT).read_to_end(&mut bytes)?;
    Ok(bytes)
}

/// The status of a program whose streams have ended. As a rule it ends soon after them, so the
/// first pauses are short.
fn status_by(end: Instant, child: &mut Child) -> io::Result<ExitStatus> {
    let mut pause = Duration::from_micros(10);
    loop {
        if let Some(status) = child.try_wait()? {
            return Ok(status);
        }
        if Instant::now() >= end {
            return Err(ErrorKind::TimedOut.into());
        }
        thread::sleep(pause);
        pause = (pause * 2).min(Duration::from_millis(10));
    }
}
