//! How often each thing was met, and what was never met.

use std::collections::BTreeMap;
use std::fmt;

/// Counts of what must be met, in the order in which it was announced.
#[derive(Clone, Debug, Default)]
pub struct Tally {
    groups: Vec<Group>,
    /// What was met although nobody announced it.
    surprises: BTreeMap<String, u64>,
}

#[derive(Clone, Debug)]
struct Group {
    name: String,
    items: Vec<(String, u64)>,
}

impl Tally {
    /// Announces what must be met.
    pub fn announce(&mut self, group: &str, items: &[&str]) {
        self.groups.push(Group {
            name: group.to_string(),
            items: items.iter().map(|item| (item.to_string(), 0)).collect(),
        });
    }

    /// Counts something that was met.
    pub fn meet(&mut self, group: &str, item: &str) {
        let found = self
            .groups
            .iter_mut()
            .filter(|found| found.name == group)
            .flat_map(|found| &mut found.items)
            .find(|found| found.0 == item);
        match found {
            Some((_, count)) => *count += 1,
            None => *self.surprises.entry(full(group, item)).or_insert(0) += 1,
        }
    }

    /// What was announced and never met.
    pub fn never_met(&self) -> Vec<String> {
        let unmet = |group: &Group| -> Vec<String> {
            let items = group.items.iter().filter(|(_, count)| *count == 0);
            items.map(|(item, _)| full(&group.name, item)).collect()
        };
        self.groups.iter().flat_map(unmet).collect()
    }

    /// What was met although it was not announced.
    pub fn surprises(&self) -> Vec<String> {
        self.surprises.keys().cloned().collect()
    }
}

fn full(group: &str, item: &str) -> String {
    format!("{}: {}", group, item)
}

/// The widest line of the table.
const WIDTH: usize = 110;

impl fmt::Display for Tally {
    fn fmt(&self, formatter: &mut fmt::Formatter<'_>) -> fmt::Result {
        for group in &self.groups {
            let mut line = format!("  {:<20}", group.name);
            for (item, count) in &group.items {
                let entry = format!("  {} ({})", item, count);
                if line.len() + entry.len() > WIDTH {
                    writeln!(formatter, "{}", line)?;
                    line = " ".repeat(22);
                }
                line += &entry;
            }
            writeln!(formatter, "{}", line)?;
        }
        Ok(())
    }
}
