//! What the program is asked to do.

use std::path::PathBuf;

/// How the program is used.
pub const USAGE: &str = "\
usage: compare [WORD ...] --desk PROGRAM [--plain-desk PROGRAM] [--root DIR]
               [--seed N] [--from N] [--inputs N] [--calls N] [--allow-unmet]
       compare bench --desk PROGRAM --plain-desk PROGRAM [--lines N] [--calls N] [--rounds N]

WORD is hand (the paper's own cases), files (the case files of the project), inputs (random inputs
of the program) or calls (random calls of the archive). With no word all four are run. `calls`
alone needs no program.";

/// Parts of the comparison.
#[derive(Clone, Copy, Debug, PartialEq, Eq)]
pub enum Part {
    /// The paper's own cases.
    Hand,
    /// The case files of the project.
    Files,
    /// Random inputs of the program.
    Inputs,
    /// Random calls of the archive.
    Calls,
    /// The benchmark.
    Bench,
}

/// The seed of every run that names none.
pub const SEED: u64 = 20_200_131;

/// The arguments.
#[derive(Clone, Debug, PartialEq, Eq)]
pub struct Arguments {
    /// The parts to run.
    pub parts: Vec<Part>,
    /// The proved program.
    pub desk: Option<PathBuf>,
    /// The plain program.
    pub plain_desk: Option<PathBuf>,
    /// The top of the repository.
    pub root: PathBuf,
    /// The seed.
    pub seed: u64,
    /// The first random case.
    pub from: u64,
    /// How many random inputs.
    pub inputs: u64,
    /// How many calls.
    pub calls: Option<u64>,
    /// How many S lines the benchmark's file has.
    pub lines: u64,
    /// How often the benchmark measures.
    pub rounds: u64,
    /// Whether things that were never met are no failure.
    pub allow_unmet: bool,
}

impl Default for Arguments {
    fn default() -> Self {
        Arguments {
            parts: Vec::new(),
            desk: None,
            plain_desk: None,
            root: PathBuf::from("."),
            seed: SEED,
            from: 0,
            inputs: 10_000,
            calls: None,
            lines: 1_000_000,
            rounds: 5,
            allow_unmet: false,
        }
    }
}

impl Arguments {
    /// The arguments of these words, or what is wrong with them.
    pub fn of(words: impl IntoIterator<Item = String>) -> Result<Arguments, String> {
        let mut arguments = Arguments::default();
        let mut words = words.into_iter();
        while let Some(word) = words.next() {
            let mut value = || words.next().ok_or(format!("{} needs a value", word));
            match word.as_str() {
                "hand" => arguments.parts.push(Part::Hand),
                "files" => arguments.parts.push(Part::Files),
                "inputs" => arguments.parts.push(Part::Inputs),
                "calls" => arguments.parts.push(Part::Calls),
                "bench" => arguments.parts.push(Part::Bench),
                "--desk" => arguments.desk = Some(PathBuf::from(value()?)),
                "--plain-desk" => arguments.plain_desk = Some(PathBuf::from(value()?)),
                "--root" => arguments.root = PathBuf::from(value()?),
                "--seed" => arguments.seed = number(&word, &value()?)?,
                "--from" => arguments.from = number(&word, &value()?)?,
                "--inputs" => arguments.inputs = number(&word, &value()?)?,
                "--calls" => arguments.calls = Some(number(&word, &value()?)?),
                "--lines" => arguments.lines = number(&word, &value()?)?,
                "--rounds" => arguments.rounds = number(&word, &value()?)?.max(1),
                "--allow-unmet" => arguments.allow_unmet = true,
                _ => return Err(format!("{} is no argument", word)),
            }
        }
        if arguments.parts.is_empty() {
            arguments.parts = vec![Part::Hand, Part::Files, Part::Inputs, Part::Calls];
        }
        Ok(arguments)
    }

    /// Whether a part is asked for.
    pub fn has(&self, part: Part) -> bool {
        self.parts.contains(&part)
    }
}

fn number(word: &str, value: &str) -> Result<u64, String> {
    let digits: String = value.chars().filter(|digit| *digit != '_').collect();
    digits
        .parse()
        .map_err(|_| format!("{} takes a number, not {}", word, value))
}
