//! What the sources say of each number, and whether they agree.

use std::collections::{BTreeMap, BTreeSet};
use std::ops::Range;

use crate::source::Source;

/// What was found so far.
#[derive(Default)]
pub struct Check {
    said: BTreeMap<String, Vec<(String, String)>>,
    compared: BTreeSet<(String, usize)>,
    faults: Vec<String>,
}

impl Check {
    /// A place that says something of a number.
    pub fn say(&mut self, number: &str, place: String, value: impl ToString) {
        let said = self.said.entry(number.into()).or_default();
        said.push((place, value.to_string()));
    }

    /// The same of a number that stands in a source.
    pub fn say_numeral(&mut self, number: &str, source: &Source, numeral: usize, value: u64) {
        self.mark(source, numeral);
        self.say(number, source.place_of(numeral), value);
    }

    /// Notes that a number was compared.
    pub fn mark(&mut self, source: &Source, numeral: usize) {
        self.compared.insert((source.path.clone(), numeral));
    }

    pub fn fault(&mut self, words: String) {
        self.faults.push(words);
    }

    pub fn is_said(&self, number: &str) -> bool {
        self.said.contains_key(number)
    }

    /// What the first place says of a number.
    pub fn first(&self, number: &str) -> Option<u64> {
        let (_, value) = self.said.get(number)?.first()?;
        value.parse().ok()
    }

    /// The numbers of a source that were compared.
    pub fn compared<'a>(&'a self, source: &'a Source) -> impl Iterator<Item = usize> + 'a {
        let all = 0..source.numerals.len();
        all.filter(|&numeral| self.compared.contains(&(source.path.clone(), numeral)))
    }

    /// The numbers in a part of a source that were not, but for 0 and 1.
    pub fn left_out(&self, source: &Source, part: &Range<usize>) -> Vec<String> {
        let compared: Vec<usize> = self.compared(source).collect();
        let numerals = source.numerals_in(part).into_iter();
        let left = numerals.filter(|n| source.numerals[*n].value > 1 && !compared.contains(n));
        let shown = |n: usize| format!("{}: {}", source.place_of(n), source.numerals[n].value);
        left.map(shown).collect()
    }

    /// Everything that is wrong: each number on which places differ, with all
    /// of these places, and each that one place alone has.
    pub fn faults(&self) -> Vec<String> {
        let mut faults = self.faults.clone();
        for (number, said) in &self.said {
            let (place, value) = &said[0];
            if said.len() == 1 {
                faults.push(format!("{number}: {place} alone has it, {value}"));
            }
            if said.iter().any(|(_, other)| other != value) {
                let each = said
                    .iter()
                    .map(|(place, value)| format!("\n    {place} has {value}"));
                faults.push(format!(
                    "{number} is not the same everywhere:{}",
                    each.collect::<String>()
                ));
            }
        }
        faults
    }
}
