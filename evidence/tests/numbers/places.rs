//! The numbers of `places.txt`.

use crate::check::Check;
use crate::source::{Source, Sources};

const PLACES: &str = include_str!("places.txt");

/// A number, a source, and the words around the number there.
pub struct Place {
    number: &'static str,
    pub path: &'static str,
    words: &'static str,
}

pub fn all() -> Vec<Place> {
    let mut number = "";
    let mut places = Vec::new();
    let lines = PLACES.lines().filter(|line| !line.starts_with('#'));
    for line in lines.filter(|line| !line.is_empty()) {
        let Some(place) = line.strip_prefix("    ") else {
            number = line;
            continue;
        };
        let (path, words) = place.split_once(": ").expect("a path and words");
        places.push(Place {
            number,
            path,
            words,
        });
    }
    places
}

pub fn read(check: &mut Check, sources: &Sources) {
    for place in all() {
        let source = sources.get(place.path);
        let found = place.find(source);
        if found.is_empty() {
            let Place {
                number,
                path,
                words,
            } = place;
            check.fault(format!("{number}: {path} has nothing like `{words}`"));
        }
        for (numeral, value) in found {
            check.say_numeral(place.number, source, numeral, value);
        }
    }
}

impl Place {
    /// The words before the number, what is done to it, and the words behind it.
    /// Other braces, as code has them, are words.
    fn parts(&self) -> (&str, &str, &str) {
        let is_done = |done: &str| {
            done.chars()
                .all(|c| c.is_ascii_digit() || "+-/^".contains(c))
        };
        let parts = self.words.match_indices('{').find_map(|(at, _)| {
            let (done, after) = self.words[at + 1..].split_once('}')?;
            is_done(done).then_some((&self.words[..at], done, after))
        });
        parts.expect("braces for the number")
    }

    /// Where the words stand, with the number that they give.
    fn find(&self, source: &Source) -> Vec<(usize, u64)> {
        let (before, done, after) = self.parts();
        let here = |(at, numeral): (usize, &crate::source::Numeral)| {
            let flat = &source.flat;
            let fits = flat[..numeral.flat.start].ends_with(before)
                && flat[numeral.flat.end..].starts_with(after);
            fits.then(|| (at, outcome(done, numeral.value)))
        };
        source
            .numerals
            .iter()
            .enumerate()
            .filter_map(here)
            .collect()
    }
}

/// What is done to a number, by the words in the braces.
fn outcome(done: &str, value: u64) -> u64 {
    let operand = |rest: &str| rest.parse::<u64>().expect("a number in the braces");
    if let Some(rest) = done.strip_prefix("2^") {
        return 1 << outcome(rest, value).min(63);
    }
    match done.split_at(done.len().min(1)) {
        ("+", rest) => value + operand(rest),
        ("^", rest) => value.saturating_pow(operand(rest) as u32),
        ("-", rest) => value.saturating_sub(operand(rest)),
        // What does not divide stays as it is, and is like no other place.
        ("/", rest) if value.is_multiple_of(operand(rest)) => value / operand(rest),
        _ => value,
    }
}
