//! The program's answer to its standard input. Paper: "The file".

use crate::file::{read, split_clock_line, RefusedLine};
use crate::record::capacity;
use crate::refusal::Refusal;
use crate::units::{Distance, Millis};
use crate::verdict::Verdict;

/// Words in the program's table: 1,024 runs.
pub const TABLE_WORDS: usize = 3072;

/// The one line that the program writes, with its line feed.
pub fn answer(input: &[u8]) -> String {
    match judge(input) {
        Ok(verdict) => verdict_line(verdict),
        Err(RefusedLine { refusal, line }) => {
            let by = by(refusal.distance());
            format!("refused {} line {}{}\n", refusal.number(), line, by)
        }
    }
}

/// What stands behind a refusal that has a distance; nothing behind one that has none.
pub fn by(distance: Option<Distance>) -> String {
    distance.map_or_else(String::new, |ticks| format!(" by {}", ticks.get()))
}

/// The clock line is judged first, its limit included, then the file, then the verdict. Line 0
/// stands for the clock line or a verdict refusal.
fn judge(input: &[u8]) -> Result<Verdict, RefusedLine> {
    let at_line_0 = |refusal| RefusedLine { refusal, line: 0 };
    let (clock, file) = judge_clock_line(input).map_err(at_line_0)?;
    let timeline = read(file, capacity(TABLE_WORDS))?;
    match clock {
        Some(clock) => timeline.verdict_at(clock).map_err(at_line_0),
        None => timeline.verdict_whole().map_err(at_line_0),
    }
}

/// The clock, none for the whole period, and the file behind the clock line. Refusals 16, 10.
fn judge_clock_line(input: &[u8]) -> Result<(Option<u64>, &[u8]), Refusal> {
    let (clock, file) = split_clock_line(input)?;
    match clock {
        Some(clock) if Millis::new(clock).is_none() => Err(Refusal::ClockOverLimit),
        _ => Ok((clock, file)),
    }
}

fn verdict_line(verdict: Verdict) -> String {
    match verdict {
        Verdict::NothingNeeded => "nothing needed\n".to_string(),
        Verdict::Complete { needed } => format!("complete {}/{} 100%\n", needed, needed),
        Verdict::Lacking {
            needed,
            covered,
            lowest,
        } => {
            let percent = verdict
                .percent()
                .expect("lacking means that some is needed");
            format!(
                "lacking {} {}/{} {}%\n",
                lowest.get(),
                covered,
                needed,
                percent
            )
        }
    }
}
