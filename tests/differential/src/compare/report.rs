//! A group of cases, what it counts, and the one line that it prints.

use differential::options::Length;
use differential::random::Random;
use std::collections::BTreeMap;
use std::fmt;

/// A call by name and the number that it returned, 0 for accepted.
pub type Outcome = (&'static str, u32);

/// The two sides disagree: the smallest such case that was found, in full.
pub struct Difference(pub String);

/// Cases of one kind. The run fails where an outcome or a mark is hit too rarely.
pub struct Group {
    pub name: &'static str,
    /// How often each outcome and each mark has to be hit.
    pub least: u64,
    pub outcomes: &'static [Outcome],
    /// Whatever else the cases must reach.
    pub marks: &'static [&'static str],
    pub run: fn(&mut Tally, &mut Random, Length) -> Result<(), Difference>,
}

/// How often each outcome was expected and each mark was hit.
pub struct Tally {
    outcomes: Vec<(Outcome, u64)>,
    marks: Vec<(&'static str, u64)>,
    least: u64,
    /// The first so many outcomes are those that have to be hit.
    named: usize,
}

impl Tally {
    #[must_use]
    pub fn new(group: &Group) -> Self {
        Self {
            outcomes: group.outcomes.iter().map(|&outcome| (outcome, 0)).collect(),
            marks: group.marks.iter().map(|&mark| (mark, 0)).collect(),
            least: group.least,
            named: group.outcomes.len(),
        }
    }

    pub fn count(&mut self, call: &'static str, number: u32) {
        raise(&mut self.outcomes, (call, number), 1);
    }

    pub fn mark(&mut self, mark: &'static str) {
        self.mark_times(mark, 1);
    }

    pub fn mark_times(&mut self, mark: &'static str, times: u64) {
        raise(&mut self.marks, mark, times);
    }

    #[must_use]
    pub fn cases(&self) -> u64 {
        self.outcomes.iter().map(|(_, count)| count).sum()
    }

    /// What the group had to hit more often than it did.
    #[must_use]
    pub fn too_rare(&self) -> Vec<String> {
        let named = self.outcomes[..self.named].iter();
        let outcomes = named.map(|((call, number), count)| {
            let name = format!("{call} {}", outcome_name(*number));
            (name, *count)
        });
        let marks = self
            .marks
            .iter()
            .map(|(mark, count)| ((*mark).to_string(), *count));
        outcomes
            .chain(marks)
            .filter(|(_, count)| *count < self.least)
            .map(|(name, count)| format!("{name} hit {count} times, not {}", self.least))
            .collect()
    }
}

impl fmt::Display for Tally {
    fn fmt(&self, formatter: &mut fmt::Formatter<'_>) -> fmt::Result {
        write!(formatter, "{} cases", self.cases())?;
        let mut by_number = BTreeMap::new();
        for ((_, number), count) in &self.outcomes {
            *by_number.entry(*number).or_insert(0) += count;
        }
        for (number, count) in by_number {
            write!(formatter, ", {} {count}", outcome_name(number))?;
        }
        for (mark, count) in &self.marks {
            write!(formatter, ", {mark} {count}")?;
        }
        Ok(())
    }
}

fn outcome_name(number: u32) -> String {
    match number {
        0 => "accepted".to_string(),
        refusal => format!("refused-{refusal}"),
    }
}

fn raise<K: PartialEq>(counts: &mut Vec<(K, u64)>, key: K, by: u64) {
    match counts.iter_mut().find(|(known, _)| *known == key) {
        Some((_, count)) => *count += by,
        None => counts.push((key, by)),
    }
}
