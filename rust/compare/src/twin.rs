//! A twin: a timeline that gets what another one gets, but for its trims.
//!
//! Trimming costs no coverage. So both must tell the same at every clock that is not before the
//! greatest one of the trims, and of every number that is still kept. Not asked is what a trim may
//! change: the verdict at an earlier clock (11) and of the whole period, and a dropped number (13).

use flonterri::words::RUN_WORDS;

use crate::face::Face;
use crate::random::appends;
use crate::state::State;
use crate::step::{Answer, Call, Lent, Step};

/// Words of a twin's table: 80 runs. A sequence has 60 steps at most, and an append adds a run at
/// most; only a file that was read can need more.
const TABLE_WORDS: usize = 80 * RUN_WORDS;

/// The memory of a twin; none where no timeline is open, or the twin has given up.
#[derive(Debug, Default)]
pub struct Twin(Option<Lent>);

impl Twin {
    /// Follows a call that was made in the trimmed memory, through one side. True where the twin was
    /// asked too and keeps what was dropped there; or what differs.
    pub fn follow(
        &mut self,
        face: &Face,
        before: &Lent,
        step: &Step,
        answer: &Answer,
    ) -> Result<bool, String> {
        match (&step.call, answer.number) {
            (Call::Open(_) | Call::Read { .. }, 0) => {
                self.make(face, step.call.clone(), &Lent::anything(TABLE_WORDS))?;
            }
            // The changed words stay where they are accepted: then it is another timeline.
            (_, 0) if step.spoils_memory() => self.0 = None,
            _ if step.spoils_memory() => {}
            (Call::Verdict { .. }, 0 | 10)
            | (Call::CoveredEdge | Call::Availability { .. } | Call::AvailableAt { .. }, 0) => {
                return self.ask(face, before, step, answer);
            }
            (call, 0) => {
                if let Some((duration, count)) = call.given() {
                    self.append(face, duration, count)?;
                }
            }
            _ => {}
        }
        Ok(false)
    }

    /// Appends at the twin's own next tick. It gives up where the plain side could not store that.
    fn append(&mut self, face: &Face, duration: u32, count: u32) -> Result<(), String> {
        let lent = match self.0.take() {
            Some(lent) => lent,
            None => return Ok(()),
        };
        let state = State::of(&lent);
        if !appends::is_light(&state, duration, count) {
            return Ok(());
        }
        let start = state.next_tick;
        let append = Call::Append {
            start,
            duration,
            count,
        };
        self.make(face, append, &lent)
    }

    /// Makes a call that must be accepted here too, and gives up where the table has no room (9).
    fn make(&mut self, face: &Face, call: Call, lent: &Lent) -> Result<(), String> {
        let step = Step::of(call);
        let answer = step.perform(face, lent);
        self.0 = match answer.number {
            0 => Some(step.after(lent, &answer)),
            9 => None,
            number => {
                let name = step.call.name();
                return Err(format!(
                    "the twin without trims of {} refuses {} with {}",
                    face.name, name, number
                ));
            }
        };
        Ok(())
    }

    /// Asks the same, which must have the same answer.
    fn ask(
        &self,
        face: &Face,
        before: &Lent,
        step: &Step,
        answer: &Answer,
    ) -> Result<bool, String> {
        let lent = match &self.0 {
            Some(lent) => lent,
            None => return Ok(false),
        };
        // Only what is told is compared: the memory of the two differs.
        let twin = Answer {
            record: answer.record.clone(),
            table: answer.table.clone(),
            ..step.perform(face, lent)
        };
        match answer.difference(&twin) {
            Some(difference) => Err(format!(
                "{} and its twin without trims differ in {}",
                face.name, difference
            )),
            None => Ok(State::of(lent).dropped < State::of(before).dropped),
        }
    }
}
