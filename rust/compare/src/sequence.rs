//! Sequences of calls through two sides.

use std::fmt;

use crate::face::Faces;
use crate::generator::Generator;
use crate::random::steps;
use crate::shorten::shorten;
use crate::step::{Answer, Call, Lent, Step};
use crate::text::shown;
use crate::twin::Twin;

/// A sequence: how large its table is, and a seed for each step.
#[derive(Clone, Debug)]
pub struct Sequence {
    /// Words of the table.
    pub table_words: usize,
    /// A seed for each step.
    pub steps: Vec<u64>,
}

impl Sequence {
    /// A random sequence with a table of 0 to 40 words, now and then a large one.
    pub fn random(generator: &mut Generator) -> Self {
        let table_words = match generator.below(100) {
            0 => generator.between(3_069, 3_078),
            1..=20 => generator.below(7),
            _ => generator.below(41),
        };
        let steps = generator.between(2, 60);
        Sequence {
            table_words: table_words as usize,
            steps: (0..steps).map(|_| generator.number()).collect(),
        }
    }

    /// Makes every call through both sides, has a twin follow and each call looked at, and stops at
    /// the first difference.
    pub fn run(&self, faces: &Faces, mut look: impl FnMut(&Made)) -> Result<(), Difference> {
        let mut before = Lent::anything(self.table_words);
        let mut twin = Twin::default();
        // The records of this timeline before the calls that changed them, the opening's first.
        let mut earlier = Vec::new();
        let mut made = Vec::new();
        for seed in &self.steps {
            let step = steps::step(*seed, &before, &earlier);
            let makes_record = step.call.makes_record();
            let after = compare_step(faces, &step, &before).and_then(|answer| {
                let untrimmed = twin.follow(&faces.judged, &before, &step, &answer)?;
                look(&Made {
                    before: &before,
                    step: &step,
                    answer: &answer,
                    untrimmed,
                });
                Ok(step.after(&before, &answer))
            });
            made.push(step);
            let after = after.map_err(|what| Difference {
                table_words: self.table_words,
                made: made.clone(),
                what,
            })?;
            if makes_record {
                earlier.clear();
            } else if after.record != before.record {
                earlier.push(before.record);
            }
            before = after;
        }
        Ok(())
    }

    /// The shortest sequence that dropping steps leads to and on which the sides still differ.
    pub fn shortened(&self, faces: &Faces) -> Sequence {
        let with = |steps: &[u64]| Sequence {
            table_words: self.table_words,
            steps: steps.to_vec(),
        };
        let steps = shorten(self.steps.clone(), |steps| {
            Some(with(steps).run(faces, |_| ()).is_err())
        });
        with(&steps)
    }
}

/// A call that both sides answered alike.
pub struct Made<'a> {
    /// The memory before it.
    pub before: &'a Lent,
    /// The call.
    pub step: &'a Step,
    /// What both left.
    pub answer: &'a Answer,
    /// True where a twin without trims, which keeps more, tells the same.
    pub untrimmed: bool,
}

/// Makes one call through both sides. What both leave, or the first difference.
pub fn compare_step(faces: &Faces, step: &Step, before: &Lent) -> Result<Answer, String> {
    let judged = step.perform(&faces.judged, before);
    let plain = step.perform(&faces.plain, before);
    if let Some(difference) = judged.difference(&plain) {
        return Err(format!(
            "{} and {} differ in {}",
            faces.judged.name, faces.plain.name, difference
        ));
    }
    Ok(plain)
}

/// Where two sides differ: at the last of some calls.
#[derive(Clone, Debug)]
pub struct Difference {
    /// Words of the table.
    pub table_words: usize,
    /// The calls up to the one that differs.
    pub made: Vec<Step>,
    /// What differs.
    pub what: String,
}

impl fmt::Display for Difference {
    fn fmt(&self, formatter: &mut fmt::Formatter<'_>) -> fmt::Result {
        writeln!(
            formatter,
            "in a table of {} words, after:",
            self.table_words
        )?;
        for step in &self.made {
            match &step.call {
                Call::Read { bytes } => writeln!(formatter, "  Read of\n{}", shown(bytes))?,
                call => writeln!(formatter, "  {:?}", call)?,
            }
            if step.spoils_memory() || step.has_other_out() {
                let record = if step.older {
                    "an older record"
                } else {
                    "a record"
                };
                writeln!(
                    formatter,
                    "    on {} of {} words, an out of {}, with {:?}",
                    record, step.record_words, step.out_words, step.damage
                )?;
            }
        }
        write!(formatter, "{}", self.what)
    }
}
