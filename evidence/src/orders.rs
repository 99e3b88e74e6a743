//! A group's order from pairs, held to the reference: cases from seeds, and every
//! set of pairs on a few accesses, whose orders are all tried.

use std::collections::BTreeMap;
use std::fmt;

use lsq::record::{Accesses, Ordered, Precedence, Precedences, Table, ACCESSES, PAIRS};
use lsq::{Access, Refusal};
use lsq_ref::gen;
use lsq_ref::ordering::{brute_force, order, Precedence as HeldPrecedence, MAX_LISTED};
use lsq_ref::refusal::CIRCLE;
use lsq_ref::rng::Rng;

use crate::compare::{same, Difference};
use crate::live::subject::{Library, Wrapper};

/// Who orders accesses.
pub trait Orders {
    /// `lsq_order`.
    fn order(&self, accesses: u32, pairs: Precedences) -> Ordered;
    /// `lsq_table_in_order`; none where the subject has no such order.
    fn table(&self, order: Ordered, accesses: Accesses) -> Option<Table>;
}

impl Orders for Library {
    fn order(&self, accesses: u32, pairs: Precedences) -> Ordered {
        lsq::direct::order(accesses, pairs)
    }

    fn table(&self, order: Ordered, accesses: Accesses) -> Option<Table> {
        Some(lsq::direct::table_in_order(order, accesses))
    }
}

/// A count for which no slice is made stands for the longest that is.
const LONGEST: usize = 2 * PAIRS;

impl Orders for Wrapper {
    fn order(&self, accesses: u32, pairs: Precedences) -> Ordered {
        let count = (pairs.count as usize).min(LONGEST);
        let slice: Vec<Precedence> = pairs.pairs.into_iter().cycle().take(count).collect();
        match lsq::order(accesses, &slice) {
            Ok(order) => recorded(Ok(order.accesses())),
            Err(Refusal(number)) => recorded(Err(number as u8)),
        }
    }

    /// An order is had from pairs alone: here each access comes before the next.
    fn table(&self, order: Ordered, accesses: Accesses) -> Option<Table> {
        let numbers = order.accesses.get(..order.count.into())?;
        let pair = |two: &[u8]| Precedence {
            first: two[0].into(),
            second: two[1].into(),
        };
        let chain: Vec<Precedence> = numbers.windows(2).map(pair).collect();
        let given = lsq::order(order.count.into(), &chain).ok()?;
        let whole = order == recorded(Ok(given.accesses()));
        whole.then(|| {
            let access = |number: usize| match (accesses.kinds[number], accesses.ports[number]) {
                (0, port) => Access::Load(port),
                (_, port) => Access::Store(port),
            };
            let accesses: Vec<Access> = (0..numbers.len()).map(access).collect();
            given.table(&accesses).expect("as many accesses")
        })
    }
}

/// The whole record of an outcome: places beyond the order are 0.
#[must_use]
pub fn recorded(outcome: Result<&[u8], u8>) -> Ordered {
    let order = outcome.unwrap_or(&[]);
    let mut accesses = [0; ACCESSES];
    accesses[..order.len()].copy_from_slice(order);
    Ordered {
        answer: outcome.err().unwrap_or(0),
        count: order.len() as u8,
        accesses,
    }
}

/// Accesses, and a record of pairs.
#[derive(Clone, Debug)]
pub struct OrderCase {
    /// How many accesses.
    pub accesses: u32,
    /// What the subject is handed.
    pub pairs: Precedences,
}

impl OrderCase {
    /// The case of this seed: pairs of the generator, now and then with a count
    /// that is above 64, or any numbers. Beyond the count stands anything.
    #[must_use]
    pub fn new(seed: u64) -> Self {
        let mut rng = Rng::new(seed);
        if rng.chance(1, 32) {
            return noise(&mut rng);
        }
        let (accesses, held) = gen::ordering(&mut rng);
        let mut pairs = filled(&mut rng, accesses, &held);
        if rng.chance(1, 12) {
            pairs.count = count_above(&mut rng, pairs.count);
        }
        Self { accesses, pairs }
    }

    /// The pairs of a set on [`SET_ACCESSES`] accesses. Beyond the count stands
    /// anything.
    #[must_use]
    pub fn of_set(set: u32) -> Self {
        let pair = |place: u32| HeldPrecedence {
            first: place / SET_ACCESSES,
            second: place % SET_ACCESSES,
        };
        let places = (0..SET_ACCESSES * SET_ACCESSES).filter(|place| set >> place & 1 == 1);
        let held: Vec<HeldPrecedence> = places.map(pair).collect();
        let mut rng = Rng::new(set.into());
        Self {
            accesses: SET_ACCESSES,
            pairs: filled(&mut rng, SET_ACCESSES, &held),
        }
    }

    /// The pairs that the reference takes the record for. A count that the record
    /// has no places for is one pair too many, whichever it is.
    #[must_use]
    pub fn held(&self) -> Vec<HeldPrecedence> {
        let count = (self.pairs.count as usize).min(PAIRS + 1);
        let pairs = self.pairs.pairs.iter().cycle().take(count);
        pairs.map(held_pair).collect()
    }

    /// What the reference gives.
    #[must_use]
    pub fn expected(&self) -> Outcome {
        order(self.accesses, &self.held())
    }

    /// What is found by trying every order, of few accesses.
    #[must_use]
    pub fn tried(&self) -> Outcome {
        brute_force(self.accesses, &self.held())
    }

    /// 32 accesses and 64 pairs: these chains, each access before the next, and as
    /// many more pairs as there are places, of accesses of the first chain that
    /// stand two apart, three apart, and so on.
    ///
    /// # Panics
    /// Where the chains have more than 64 pairs.
    #[must_use]
    pub fn of_chains(chains: &[Vec<u32>]) -> Self {
        let pair = |two: &[u32]| Precedence {
            first: two[0],
            second: two[two.len() - 1],
        };
        let mut pairs: Vec<Precedence> = Vec::new();
        for chain in chains {
            pairs.extend(chain.windows(2).map(pair));
        }
        assert!(pairs.len() <= PAIRS, "too many pairs");
        let apart = (3..).flat_map(|length| chains[0].windows(length).map(pair));
        pairs.extend(apart.take(PAIRS - pairs.len()));
        Self {
            accesses: MAX_LISTED,
            pairs: Precedences::new(&pairs),
        }
    }

    fn all_places(&self) -> Vec<HeldPrecedence> {
        self.pairs.pairs.iter().map(held_pair).collect()
    }
}

/// Accesses of the sets of pairs that are all tried.
pub const SET_ACCESSES: u32 = 4;

/// How many sets of pairs they have.
pub const SETS: u32 = 1 << (SET_ACCESSES * SET_ACCESSES);

fn held_pair(pair: &Precedence) -> HeldPrecedence {
    let Precedence { first, second } = *pair;
    HeldPrecedence { first, second }
}

fn library_pair(pair: &HeldPrecedence) -> Precedence {
    let HeldPrecedence { first, second } = *pair;
    Precedence { first, second }
}

/// A record of these pairs, of which it may have places for the first ones only.
/// What stands beyond them would often change the answer, if it were looked at.
fn filled(rng: &mut Rng, accesses: u32, held: &[HeldPrecedence]) -> Precedences {
    let handed: Vec<Precedence> = held.iter().map(library_pair).collect();
    let mut pairs = Precedences::new(&handed);
    let kind = rng.below(4);
    for place in handed.len()..PAIRS {
        let listed = rng.below(accesses.clamp(1, MAX_LISTED) as usize) as u32;
        let other = handed.get(rng.below(PAIRS)).copied().unwrap_or_default();
        let (first, second) = match kind {
            0 => (0, 0),
            1 => (listed, listed),
            2 => (other.second, other.first),
            _ => (rng.word(), rng.word()),
        };
        pairs.pairs[place] = Precedence { first, second };
    }
    pairs
}

/// A count above 64: just above, one that ends in the bits of `count`, or any.
fn count_above(rng: &mut Rng, count: u32) -> u32 {
    let most = PAIRS as u32;
    let low = count.min(most);
    let any = rng.word().max(most + 1);
    let cut = rng.pick(&[256, 1 << 16, 1 << 31]) + low;
    rng.pick(&[most + 1, most + 2, cut, cut, any, u32::MAX])
}

/// Any numbers of any length.
fn noise(rng: &mut Rng) -> OrderCase {
    let least = rng.below(32);
    let mut number = || rng.word() >> (least + rng.below(32 - least));
    let (accesses, count) = (number(), number());
    let pair = |_| Precedence {
        first: number(),
        second: number(),
    };
    let pairs = std::array::from_fn(pair);
    OrderCase {
        accesses,
        pairs: Precedences { count, pairs },
    }
}

/// An order, or the refusal number.
pub type Outcome = Result<Vec<u8>, u8>;

/// Compares the whole record that a subject gives with what is expected.
///
/// # Errors
/// The first difference.
pub fn compare(
    subject: &dyn Orders,
    case: &OrderCase,
    expected: &Outcome,
) -> Result<(), Difference> {
    let expected = recorded(expected.as_deref().map_err(|&number| number));
    let found = subject.order(case.accesses, case.pairs);
    same("answer", expected.answer, found.answer)?;
    same("count", expected.count, found.count)?;
    let mut places = expected.accesses.iter().zip(&found.accesses).enumerate();
    places.try_for_each(|(place, (mine, others))| same(&format!("accesses[{place}]"), mine, others))
}

/// The answers that a run must come by.
const IN_ORDERS: &[u8] = &[0, 43, 44];

/// What it must reach besides.
const STATES: [&str; 16] = [
    NO_ACCESS,
    MOST_ACCESSES,
    MOST_PAIRS,
    REPEATED,
    OTHER_ORDER,
    BEYOND,
    SELF_PAIR,
    LONG_CIRCLE,
    LAST_PAIR,
    HIGHEST,
    MANY_ACCESSES,
    ONE_PAIR_MORE,
    MANY_PAIRS,
    GREATEST_COUNT,
    FIRST_UNLISTED,
    SECOND_UNLISTED,
];

const NO_ACCESS: &str = "orders of no access";
const MOST_ACCESSES: &str = "orders of 32 accesses";
const MOST_PAIRS: &str = "orders by 64 pairs";
const REPEATED: &str = "orders by a repeated pair";
const OTHER_ORDER: &str = "orders that are not by access number alone";
const BEYOND: &str = "places beyond the count that would change the answer";
const SELF_PAIR: &str = "circles of one access alone";
const LONG_CIRCLE: &str = "circles of several accesses alone";
const LAST_PAIR: &str = "circles that the last of 64 pairs closes";
const HIGHEST: &str = "circles of 30 and 31 that no other access waits for";
const MANY_ACCESSES: &str = "more than 32 accesses and nothing else wrong";
const ONE_PAIR_MORE: &str = "65 pairs and nothing else wrong";
const MANY_PAIRS: &str = "a count that ends in the bits of one that may be";
const GREATEST_COUNT: &str = "a count of 4294967295";
const FIRST_UNLISTED: &str = "pairs whose first access alone is not listed";
const SECOND_UNLISTED: &str = "pairs whose second access alone is not listed";

/// How often each number was answered, and why.
#[derive(Clone, Debug, Default)]
pub struct OrderTally {
    answers: BTreeMap<u8, u64>,
    states: BTreeMap<&'static str, u64>,
}

impl OrderTally {
    /// Counts a case by what the reference gives.
    pub fn note(&mut self, case: &OrderCase, outcome: &Outcome) {
        let answer = outcome.as_ref().err().copied().unwrap_or(0);
        *self.answers.entry(answer).or_default() += 1;
        let held = &case.held();
        match outcome {
            Ok(given) => self.ordered(case, held, given),
            Err(CIRCLE) => self.circular(case, held),
            Err(_) => self.outside(case, held),
        }
        let looked_at = order(case.accesses, &case.all_places());
        self.reach(held.len() < PAIRS && looked_at != *outcome, BEYOND);
    }

    fn ordered(&mut self, case: &OrderCase, held: &[HeldPrecedence], given: &[u8]) {
        self.reach(case.accesses == 0, NO_ACCESS);
        self.reach(case.accesses == MAX_LISTED, MOST_ACCESSES);
        self.reach(held.len() == PAIRS, MOST_PAIRS);
        self.reach(
            (1..held.len()).any(|i| held[..i].contains(&held[i])),
            REPEATED,
        );
        self.reach(!given.is_sorted(), OTHER_ORDER);
    }

    fn circular(&mut self, case: &OrderCase, held: &[HeldPrecedence]) {
        let (apart, paired): (Vec<HeldPrecedence>, Vec<_>) =
            held.iter().partition(|pair| pair.first != pair.second);
        let long = order(case.accesses, &apart) == Err(CIRCLE);
        self.reach(!long, SELF_PAIR);
        self.reach(paired.is_empty(), LONG_CIRCLE);
        let without_last = &held[..held.len() - 1];
        let closes = order(case.accesses, without_last).is_ok();
        self.reach(held.len() == PAIRS && closes, LAST_PAIR);
        let (high, others): (Vec<HeldPrecedence>, Vec<_>) = held
            .iter()
            .partition(|pair| pair.first >= 30 && pair.second >= 30);
        let circle = order(case.accesses, &high) == Err(CIRCLE);
        let none_waits = others.iter().all(|pair| pair.first < 30);
        let others_order = order(case.accesses, &others).is_ok();
        self.reach(circle && none_waits && others_order, HIGHEST);
    }

    fn outside(&mut self, case: &OrderCase, held: &[HeldPrecedence]) {
        let OrderCase { accesses, pairs } = case;
        let below = |access: u32| access < (*accesses).min(MAX_LISTED);
        let listed = held
            .iter()
            .all(|pair| below(pair.first) && below(pair.second));
        let fits = pairs.count as usize <= PAIRS;
        let few = *accesses <= MAX_LISTED;
        self.reach(!few && fits && listed, MANY_ACCESSES);
        self.reach(
            few && listed && pairs.count as usize == PAIRS + 1,
            ONE_PAIR_MORE,
        );
        let low = [
            pairs.count & 0xFF,
            pairs.count & 0xFFFF,
            pairs.count << 1 >> 1,
        ];
        let cut = low.into_iter().any(|low| low as usize <= PAIRS);
        self.reach(few && listed && !fits && cut, MANY_PAIRS);
        self.reach(few && listed && pairs.count == u32::MAX, GREATEST_COUNT);
        if few && fits {
            let mut seconds = held.iter().map(|pair| below(pair.second));
            let mut firsts = held.iter().map(|pair| below(pair.first));
            self.reach(seconds.all(|listed| listed), FIRST_UNLISTED);
            self.reach(firsts.all(|listed| listed), SECOND_UNLISTED);
        }
    }

    fn reach(&mut self, reached: bool, state: &'static str) {
        *self.states.entry(state).or_default() += u64::from(reached);
    }

    fn states(&self) -> impl Iterator<Item = (&'static str, u64)> + '_ {
        let count = |state| self.states.get(state).copied().unwrap_or(0);
        STATES.into_iter().map(move |state| (state, count(state)))
    }

    /// What can occur and did not.
    #[must_use]
    pub fn missing(&self) -> Vec<String> {
        let never = |number: &&u8| !self.answers.contains_key(number);
        let numbers = IN_ORDERS.iter().filter(never).map(u8::to_string);
        let states = self.states().filter(|&(_, count)| count == 0);
        let states = states.map(|(state, _)| state.to_string());
        numbers.chain(states).collect()
    }
}

impl fmt::Display for OrderTally {
    fn fmt(&self, f: &mut fmt::Formatter) -> fmt::Result {
        writeln!(f, "How often each number was answered, and in what cases:")?;
        for (number, count) in &self.answers {
            writeln!(f, "{count:>9}   {number:>2}")?;
        }
        let mut states = self.states();
        states.try_for_each(|(state, count)| writeln!(f, "{count:>9} {state}"))
    }
}
