//! What the paper says of a call.

use crate::step::Answer;

/// The number, and what else the paper says; the rest is free.
#[derive(Clone, Debug, Default)]
pub struct Said {
    number: u32,
    out: Option<Vec<u64>>,
    record: Vec<(usize, u64)>,
    front: Option<Vec<u64>>,
    written: Option<Vec<u8>>,
}

/// Accepted.
pub fn accepted() -> Said {
    Said::default()
}

/// Refused with a number.
pub fn refused(number: u32) -> Said {
    Said {
        number,
        ..Said::default()
    }
}

/// Accepted, with these words in `out`.
pub fn out(words: &[u64]) -> Said {
    accepted().told(words)
}

/// A start so many ticks after the next tick.
pub fn gap(ticks: u64) -> Said {
    refused(4).told(&[ticks])
}

/// A start so many ticks before the next tick.
pub fn overlap(ticks: u64) -> Said {
    refused(5).told(&[ticks])
}

impl Said {
    /// And these words in `out`.
    pub fn told(mut self, words: &[u64]) -> Said {
        self.out = Some(words.to_vec());
        self
    }

    /// And this word of the record.
    pub fn record(mut self, at: usize, word: u64) -> Said {
        self.record.push((at, word));
        self
    }

    /// And these words at the front of the table, with zeros behind.
    pub fn front(mut self, words: &[u64]) -> Said {
        self.front = Some(words.to_vec());
        self
    }

    /// And this file written.
    pub fn written(mut self, file: &[u8]) -> Said {
        self.written = Some(file.to_vec());
        self
    }

    /// What an answer has otherwise; none where it is as the paper says.
    pub fn differs(&self, answer: &Answer) -> Option<String> {
        if answer.number != self.number {
            return Some(format!("number {}, not {}", answer.number, self.number));
        }
        if let Some(out) = &self.out {
            if *out != answer.out {
                return Some(format!("out {:?}, not {:?}", answer.out, out));
            }
        }
        for (at, word) in &self.record {
            if answer.record[*at] != *word {
                let found = answer.record[*at];
                return Some(format!("record word {}: {}, not {}", at, found, word));
            }
        }
        if let Some(front) = &self.front {
            let mut table = front.clone();
            table.resize(answer.table.len(), 0);
            if answer.table != table {
                return Some(format!("table {:?}, not {:?}", answer.table, table));
            }
        }
        match &self.written {
            Some(file) if !answer.bytes.starts_with(file) => Some(format!(
                "wrote {:?}",
                String::from_utf8_lossy(&answer.bytes)
            )),
            _ => None,
        }
    }
}
