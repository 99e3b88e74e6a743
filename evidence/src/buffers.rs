//! What a replay is lent, inside larger runs whose margins nobody may touch.

use lsq_ref::replay::Lent;
use lsq_ref::rng::Rng;

/// Elements before and behind what is lent.
const MARGIN: usize = 8;

/// A run of numbers with margins.
#[derive(Clone, Debug, PartialEq, Eq)]
pub struct Guarded<T> {
    whole: Vec<T>,
}

impl<T: Copy + PartialEq> Guarded<T> {
    /// A run of `length` numbers, and margins, all from `next`.
    pub fn new(length: usize, mut next: impl FnMut() -> T) -> Self {
        let whole = (0..length + 2 * MARGIN).map(|_| next()).collect();
        Self { whole }
    }

    /// The length without the margins.
    #[must_use]
    pub fn length(&self) -> usize {
        self.whole.len() - 2 * MARGIN
    }

    /// The run without the margins.
    #[must_use]
    pub fn run(&self) -> &[T] {
        &self.whole[MARGIN..MARGIN + self.length()]
    }

    /// The run without the margins, to be lent.
    pub fn lend(&mut self) -> &mut [T] {
        let length = self.length();
        &mut self.whole[MARGIN..MARGIN + length]
    }

    /// Whether every element, margins included, is this one.
    #[must_use]
    pub fn is_all(&self, element: T) -> bool {
        self.whole.iter().all(|&each| each == element)
    }

    /// Whether the margins are those of `other`, which is as long.
    #[must_use]
    pub fn same_margins(&self, other: &Self) -> bool {
        let behind = MARGIN + self.length();
        self.whole[..MARGIN] == other.whole[..MARGIN]
            && self.whole[behind..] == other.whole[behind..]
    }

    /// Where this and `other`, margins included, first differ: the place (below
    /// 0 or from the length on in a margin) and both elements.
    #[must_use]
    pub fn difference(&self, other: &Self) -> Option<(isize, T, T)> {
        let mut pairs = self.whole.iter().zip(&other.whole).enumerate();
        let (place, (&mine, &others)) = pairs.find(|(_, (mine, others))| mine != others)?;
        Some((place as isize - MARGIN as isize, mine, others))
    }
}

/// Everything that a replay is lent.
#[derive(Clone, Debug, PartialEq, Eq)]
pub struct Buffers {
    /// The memory, with any words.
    pub memory: Guarded<u32>,
    /// Loads and forwarded, with any numbers.
    pub counts: Guarded<u32>,
    /// The answers.
    pub answers: Guarded<u8>,
    /// Whether a value was given.
    pub given: Guarded<u8>,
    /// The values.
    pub values: Guarded<u32>,
}

/// The lengths of what is lent.
#[derive(Clone, Copy, Debug, PartialEq, Eq)]
pub struct Lengths {
    /// Words of memory.
    pub memory: usize,
    /// Places of counts.
    pub counts: usize,
    /// Places of answers.
    pub answers: usize,
    /// Places of given.
    pub given: usize,
    /// Places of values.
    pub values: usize,
}

impl Buffers {
    /// Buffers with random contents: words of memory large and small, counts
    /// mostly small or near the last number.
    pub fn random(rng: &mut Rng, lengths: Lengths) -> Self {
        let memory = Guarded::new(lengths.memory, || any_word(rng));
        let counts = Guarded::new(lengths.counts, || any_count(rng));
        let answers = Guarded::new(lengths.answers, || rng.word() as u8);
        let given = Guarded::new(lengths.given, || rng.word() as u8);
        let values = Guarded::new(lengths.values, || rng.word());
        Self {
            memory,
            counts,
            answers,
            given,
            values,
        }
    }

    /// What a replay is lent.
    pub fn lend(&mut self) -> Lent<'_> {
        Lent {
            memory: self.memory.lend(),
            counts: self.counts.lend(),
            answers: self.answers.lend(),
            given: self.given.lend(),
            values: self.values.lend(),
        }
    }

    /// The same, for the wrapper.
    pub fn lend_to_wrapper(&mut self) -> lsq::Lent<'_> {
        lsq::Lent {
            memory: self.memory.lend(),
            counts: self.counts.lend(),
            answers: self.answers.lend(),
            given: self.given.lend(),
            values: self.values.lend(),
        }
    }
}

fn any_word(rng: &mut Rng) -> u32 {
    let any = rng.word();
    rng.pick(&[any, any, any, 0, 1, u32::MAX])
}

/// "When either stands at 4294967295 both stop."
fn any_count(rng: &mut Rng) -> u32 {
    let soon = u32::MAX - rng.between(0, 40);
    let any = rng.word();
    rng.pick(&[0, 0, 0, 7, soon, soon, u32::MAX, any])
}
