//! `order_cases script` prints the cases of a script about the order that
//! precedence pairs ask for (S-6), `order_cases answers` the same lines with the
//! answer behind each case. Every answer comes from trying all orders.
//!
//! A case is `small`, the number of accesses in two hexadecimal digits, and the
//! pairs, each two hexadecimal digits, its first access and its second. A line that
//! begins with `#` is a heading and has no answer.

use std::io::{self, Write};
use std::process::ExitCode;
use std::{env, fmt};

use lsq_ref::ordering::{brute_force, Precedence};
use lsq_ref::refusal;
use lsq_ref::rng::Rng;

/// Random cases for each number of accesses.
const RANDOM_CASES: usize = 300;
/// Most pairs of a random case.
const MOST_PAIRS: u32 = 12;

/// Some accesses and pairs; its text is the line of the script.
struct Case {
    accesses: u32,
    pairs: Vec<Precedence>,
}

impl fmt::Display for Case {
    fn fmt(&self, f: &mut fmt::Formatter) -> fmt::Result {
        write!(f, "small {:02X}", self.accesses)?;
        let mut pairs = self.pairs.iter();
        pairs.try_for_each(|pair| write!(f, " {:X}{:X}", pair.first, pair.second))
    }
}

impl Case {
    /// The number, how many accesses the order has, and the order if there is one.
    fn answer(&self) -> String {
        match brute_force(self.accesses, &self.pairs) {
            Ok(order) => {
                let mut text = format!("{}, count {}, order", refusal::ACCEPTED, order.len());
                text.extend(order.iter().map(|access| format!(" {access}")));
                text
            }
            Err(refused) => format!("{refused}, count 0"),
        }
    }
}

/// Every set of pairs on so many accesses, self-pairs among them: set number n has
/// the pairs whose bits are set in n, the lowest bit being that of 0 and 0.
fn every_set(accesses: u32) -> Vec<Case> {
    let firsts = 0..accesses;
    let pairs = firsts.flat_map(|first| (0..accesses).map(move |second| (first, second)));
    let pairs: Vec<Precedence> = pairs
        .map(|(first, second)| Precedence { first, second })
        .collect();
    let set = |number: u32| {
        let bits = pairs.iter().enumerate();
        let chosen = bits.filter(|(bit, _)| number >> bit & 1 == 1);
        let pairs = chosen.map(|(_, &pair)| pair).collect();
        Case { accesses, pairs }
    };
    (0..1 << pairs.len()).map(set).collect()
}

/// Random lists of 1 to 12 pairs, in any order and with repetitions. In every second
/// the pairs go along a row of the accesses, but for a self-pair now and then.
fn random_lists(accesses: u32) -> Vec<Case> {
    let mut rng = Rng::new(u64::from(accesses));
    let cases = (0..RANDOM_CASES).map(|_| random_list(&mut rng, accesses));
    cases.collect()
}

fn random_list(rng: &mut Rng, accesses: u32) -> Case {
    let mut row: Vec<u32> = (0..accesses).collect();
    rng.shuffle(&mut row);
    let along = rng.chance(1, 2);
    let count = rng.between(1, MOST_PAIRS);
    let pairs = (0..count).map(|_| random_pair(rng, &row, along)).collect();
    Case { accesses, pairs }
}

fn random_pair(rng: &mut Rng, row: &[u32], along: bool) -> Precedence {
    let later = 1 + rng.below(row.len() - 1);
    let (first, second) = (row[rng.below(later)], row[later]);
    if rng.chance(1, 80) {
        let second = first;
        Precedence { first, second }
    } else if along || rng.chance(1, 2) {
        Precedence { first, second }
    } else {
        let (first, second) = (second, first);
        Precedence { first, second }
    }
}

/// The lines of the script, with their answers or without.
fn text(answers: bool) -> String {
    let parts = [
        ("## every set of pairs on 3 accesses", every_set(3)),
        ("## lists of pairs on 4 accesses", random_lists(4)),
        ("## lists of pairs on 5 accesses", random_lists(5)),
    ];
    let mut text = String::new();
    for (heading, cases) in parts {
        text += &format!("{heading}\n");
        for case in cases {
            text += &match answers {
                true => format!("{case}: {}\n", case.answer()),
                false => format!("{case}\n"),
            };
        }
    }
    text
}

fn main() -> ExitCode {
    let args: Vec<String> = env::args().skip(1).collect();
    let args: Vec<&str> = args.iter().map(String::as_str).collect();
    let answers = match args[..] {
        ["script"] => false,
        ["answers"] => true,
        _ => {
            eprintln!("usage: order_cases script|answers");
            return ExitCode::from(2);
        }
    };
    match io::stdout().write_all(text(answers).as_bytes()) {
        Ok(()) => ExitCode::SUCCESS,
        Err(error) => {
            eprintln!("order_cases: {error}");
            ExitCode::FAILURE
        }
    }
}
