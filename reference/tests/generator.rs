//! The generator: equal seeds give equal bytes, whole scenarios are accepted,
//! tables have empty groups, shift records reach every edge, padding comes now
//! and then, precedence pairs get each answer often, serves of scenarios and of
//! records end S-7's walk in every way, and together the pairs of files reach every
//! answer that `play` can print.

use std::collections::BTreeSet;

use lsq_ref::event::{read_header, EventReader};
use lsq_ref::gen::{self, Lean, Scenario};
use lsq_ref::ordering::order;
use lsq_ref::play::{play, MAX_FILE};
use lsq_ref::queue::StoreEntry;
use lsq_ref::rng::Rng;
use lsq_ref::table::Group;
use lsq_ref::{Counts, Event, Precedence, Queue, ShiftRecord, Table};

#[test]
fn equal_seeds_give_equal_pairs() {
    for seed in 0..200 {
        assert_eq!(gen::pair(seed), gen::pair(seed));
    }
    assert_ne!(gen::pair(0), gen::pair(1));
}

#[test]
fn scenarios_come_back_from_their_bytes() {
    for seed in 0..500 {
        let scenario = Scenario::random(&mut Rng::new(seed));
        assert_eq!(scenario.table.check(), 0);
        let (table, trace) = scenario.bytes();
        assert_eq!(Table::read(&table), Ok(scenario.table.clone()));
        let (header, at) = read_header(&trace).expect("a header");
        assert_eq!(header, scenario.header);
        assert!(Queue::open(scenario.table, header).is_ok());
        let events = EventReader { bytes: &trace, at }.rest();
        assert_eq!(events, Ok(scenario.events));
    }
}

#[test]
fn spoiled_tables_are_wrong() {
    let mut met = BTreeSet::new();
    for seed in 0..500 {
        let mut rng = Rng::new(seed);
        let mut table = gen::table(&mut rng);
        gen::spoil_table(&mut rng, &mut table);
        met.insert(table.check());
    }
    assert_eq!(met, BTreeSet::from([4, 5, 6, 7, 8]));
}

#[test]
fn tables_have_empty_groups() {
    let tables: Vec<Table> = (0..3000)
        .map(|seed| gen::table(&mut Rng::new(seed)))
        .collect();
    assert!(tables.iter().all(|table| table.check() == 0));
    let count = |test: fn(&Table) -> bool| tables.iter().filter(|table| test(table)).count();
    let some = count(|table| table.groups.iter().any(Group::is_empty));
    assert!((900..1200).contains(&some), "{some} with empty groups");
    let alone = count(|table| table.groups.iter().all(Group::is_empty));
    assert!((30..120).contains(&alone), "{alone} with no others");
    let sixteen = count(|table| table.groups == vec![Group::default(); 16]);
    assert!(sixteen > 0);
}

/// Nothing that is made from a table needs a port of it.
#[test]
fn tables_without_a_port_are_enough() {
    let leans = [
        Lean::MIXED,
        Lean::FULL,
        Lean::FORWARDED,
        Lean::CONFLICTS,
        Lean::STORES,
        Lean::SOONER,
        Lean::NEIGHBOURS,
    ];
    for (groups, seed) in (1..=16).flat_map(|groups| (0..20).map(move |seed| (groups, seed))) {
        let mut rng = Rng::new(seed);
        let table = gen::table_of(&mut rng, groups, 0, 0);
        assert_eq!(table.groups, vec![Group::default(); groups]);
        let header = gen::header(&mut rng, &table);
        for lean in &leans {
            let events = gen::events_leaning(&mut rng, &table, header, 50, lean);
            assert_eq!(events.len(), 50);
        }
        let opened = Queue::open(table.clone(), header).expect("a header that opens");
        for kind in 0..7 {
            gen::call_of_kind(&mut rng, &opened, kind);
        }
        let mut other = table.clone();
        gen::nudge_table(&mut rng, &mut other);
        assert_eq!(other, table); // there is no pair to change
        gen::add_empty_groups(&mut rng, &mut other);
        assert_eq!(other.check(), 0);
        gen::spoil_table(&mut rng, &mut other);
        assert!([4, 5].contains(&other.check()));
    }
}

/// The numbers of digits, and which of 0, 1, 4294967294 and 4294967295 occur.
fn spread(numbers: &[u32]) -> (BTreeSet<usize>, BTreeSet<u32>) {
    let digits = numbers.iter().map(|number| number.to_string().len());
    let edges = [0, 1, u32::MAX - 1, u32::MAX];
    let met = numbers.iter().filter(|number| edges.contains(number));
    (digits.collect(), met.copied().collect())
}

#[test]
fn shift_records_hold_anything() {
    let records: Vec<_> = (0..200)
        .map(|seed| gen::shift_record(&mut Rng::new(seed)))
        .collect();
    let takes: Vec<u32> = records.iter().flat_map(|record| record.takes).collect();
    let values: Vec<u32> = records.iter().flat_map(|record| record.values).collect();
    let every_length: BTreeSet<usize> = (1..=10).collect();
    let edges = BTreeSet::from([0, 1, u32::MAX - 1, u32::MAX]);
    assert_eq!(spread(&takes), (every_length.clone(), edges));
    let (digits, met) = spread(&values);
    assert_eq!(digits, every_length);
    assert!(met.contains(&0) && met.contains(&u32::MAX));
    for port in 0..32 {
        let at_stop = records.iter().filter(|r| r.takes[port] == u32::MAX);
        assert!(at_stop.count() > 10, "port {port}");
        let odd = |r: &&ShiftRecord| r.takes[port] == 0 && r.values[port] > 0;
        assert!(records.iter().filter(odd).count() > 10, "port {port}");
    }
    assert!(records.contains(&ShiftRecord::default()));
}

/// A trace that is lengthened stays right up to the limit: the bytes that make
/// its length even or odd are not padding.
#[test]
fn stretched_traces_stay_right() {
    let mut met = BTreeSet::new();
    for seed in 0..200 {
        let mut rng = Rng::new(seed);
        let (table, mut trace) = Scenario::of_length(&mut rng, 40).bytes();
        let odd = trace.len() % 2;
        gen::stretch(&mut rng, &mut trace);
        let (_, at) = read_header(&trace).expect("a header");
        let bytes = &trace;
        assert!(EventReader { bytes, at }.rest().is_ok());
        let too_long = play(Some(&table), Some(&trace)) == "trace 36\n";
        assert_eq!(too_long, trace.len() > MAX_FILE);
        met.insert((odd, trace.len()));
    }
    let lengths = [MAX_FILE - 1, MAX_FILE, MAX_FILE + 1];
    let each = lengths
        .iter()
        .flat_map(|&length| [(0, length), (1, length)]);
    assert_eq!(met, each.collect());
}

/// Where reading a pair gets 42: in the table, a leading number or an event.
fn padded_in(table: &[u8], trace: &[u8]) -> Option<usize> {
    let read = match Table::read(table) {
        Ok(table) => table,
        Err(refusal) => return (refusal == 42).then_some(0),
    };
    let (header, at) = match read_header(trace) {
        Ok(read) => read,
        Err(refusal) => return (refusal == 42).then_some(1),
    };
    Queue::open(read, header).ok()?;
    let bytes = trace;
    let events = EventReader { bytes, at }.rest();
    (events == Err(42)).then_some(2)
}

/// Padded pairs come in each place, and most pairs are not padded: whatever
/// stands behind a padded number is never tried.
#[test]
fn pairs_are_padded_now_and_then() {
    let mut places = [0; 3];
    for (table, trace) in (0..4_000).map(gen::pair) {
        if let Some(place) = padded_in(&table, &trace) {
            places[place] += 1;
        }
    }
    assert!(places.iter().all(|&count| count > 40), "{places:?}");
    let padded: usize = places.iter().sum();
    assert!((400..800).contains(&padded), "{padded} of 4000 padded");
}

/// Damage alone comes by padding in each place too.
#[test]
fn damage_pads_now_and_then() {
    let mut places = [0; 3];
    for seed in 0..4_000 {
        let mut rng = Rng::new(seed);
        let (mut table, mut trace) = Scenario::of_length(&mut rng, 8).bytes();
        match rng.chance(1, 2) {
            true => gen::damage(&mut rng, &mut table),
            false => gen::damage(&mut rng, &mut trace),
        }
        if let Some(place) = padded_in(&table, &trace) {
            places[place] += 1;
        }
    }
    assert!(places.iter().all(|&count| count > 40), "{places:?}");
    let padded: usize = places.iter().sum();
    assert!(padded < 800, "{padded} of 4000 padded");
}

/// The number in a line's second field.
fn second(line: &str) -> u8 {
    let field = line.split(' ').nth(1).expect("a second field");
    field.parse().expect("an answer")
}

#[test]
fn pairs_reach_every_answer() {
    let mut tables = BTreeSet::new();
    let mut traces = BTreeSet::new();
    let mut answers = BTreeSet::new();
    let mut played = 0;
    for seed in 0..12_000 {
        let (table, trace) = gen::pair(seed);
        let text = play(Some(&table), Some(&trace));
        if text.starts_with("table") {
            tables.insert(second(text.trim_end()));
        } else if text.starts_with("trace") {
            traces.insert(second(text.trim_end()));
        } else {
            played += 1;
            let is_event = |line: &&str| line.starts_with(|c: char| c.is_ascii_digit());
            answers.extend(text.lines().filter(is_event).map(second));
        }
    }
    assert_eq!(tables, BTreeSet::from([1, 2, 3, 4, 5, 6, 7, 8, 9, 36, 42]));
    assert_eq!(traces, BTreeSet::from([1, 2, 11, 12, 13, 14, 35, 36, 42]));
    let calls = [0, 20, 21, 22, 23, 24, 25, 26, 27, 28, 29, 31, 32, 33, 34];
    assert_eq!(answers, BTreeSet::from(calls));
    assert!(played > 6_000, "only {played} pairs were played");
}

/// An input for an order, with its answer.
struct Ordering {
    accesses: u32,
    pairs: Vec<Precedence>,
    answer: u8,
}

impl Ordering {
    fn of_seed(seed: u64) -> Self {
        let (accesses, pairs) = gen::ordering(&mut Rng::new(seed));
        let answer = order(accesses, &pairs).err().unwrap_or(0);
        Self {
            accesses,
            pairs,
            answer,
        }
    }

    fn listed(&self) -> bool {
        let mut named = self.pairs.iter().flat_map(|p| [p.first, p.second]);
        named.all(|access| access < self.accesses)
    }

    fn repeats(&self) -> bool {
        let different: BTreeSet<_> = self.pairs.iter().collect();
        different.len() < self.pairs.len()
    }

    fn self_pair(&self) -> bool {
        self.pairs.iter().any(|pair| pair.first == pair.second)
    }

    /// Whether the pairs hold a chain through all accesses, rising or falling.
    fn chain(&self, falling: bool) -> bool {
        let mut steps = (1..self.accesses).map(|access| match falling {
            false => (access - 1, access),
            true => (access, access - 1),
        });
        steps.all(|(first, second)| self.pairs.contains(&Precedence { first, second }))
    }
}

#[test]
fn precedence_pairs_get_every_answer() {
    let cases: Vec<Ordering> = (0..20_000).map(Ordering::of_seed).collect();
    let count = |test: &dyn Fn(&Ordering) -> bool| cases.iter().filter(|c| test(c)).count();
    let accepted = count(&|c| c.answer == 0);
    let range = count(&|c| c.answer == 43);
    let circles = count(&|c| c.answer == 44);
    assert_eq!(accepted + range + circles, cases.len());
    assert!((6_500..9_500).contains(&accepted), "{accepted} orders");
    assert!((6_500..9_500).contains(&circles), "{circles} circles");
    assert!((3_000..6_000).contains(&range), "{range} out of range");
    // Each of the three ways to 43 alone, and each just outside.
    let listed = |c: &Ordering| c.listed();
    assert!(count(&|c| c.accesses == 33 && c.pairs.len() <= 64 && listed(c)) > 100);
    assert!(count(&|c| c.accesses <= 32 && c.pairs.len() == 65 && listed(c)) > 100);
    assert!(count(&|c| c.accesses <= 32 && c.pairs.len() == 66 && listed(c)) > 100);
    assert!(count(&|c| c.accesses <= 32 && c.pairs.len() <= 64 && !listed(c)) > 500);
    let names = |c: &Ordering, access| {
        let mut both = c.pairs.iter().flat_map(|p| [p.first, p.second]);
        both.any(|named| named == access)
    };
    assert!(count(&|c| c.accesses <= 32 && names(c, c.accesses)) > 100);
    assert!(count(&|c| c.accesses <= 32 && names(c, u32::MAX)) > 100);
    assert!(count(&|c| c.accesses == u32::MAX) > 10);
    assert!(count(&|c| c.accesses == 256) > 10);
    // The edges of what is in range, with both answers.
    for answer in [0, 44] {
        let of = |test: &dyn Fn(&Ordering) -> bool| count(&|c| c.answer == answer && test(c));
        for accesses in [1, 2, 31, 32] {
            assert!(of(&|c| c.accesses == accesses) > 100, "{answer} {accesses}");
        }
        for pairs in [1, 2, 63, 64] {
            assert!(of(&|c| c.pairs.len() == pairs) > 100, "{answer} {pairs}");
        }
        assert!(of(&|c| c.accesses == 32 && c.pairs.len() == 64) > 100);
        assert!(of(&Ordering::repeats) > 1_000);
    }
    assert!(count(&|c| c.answer == 0 && c.accesses == 0) > 100);
    assert!(count(&|c| c.answer == 43 && c.accesses == 0) > 10);
    assert!(count(&|c| c.answer == 0 && c.pairs.is_empty()) > 100);
    for falling in [false, true] {
        let chain = |c: &Ordering| c.answer == 0 && c.accesses == 32 && c.chain(falling);
        assert!(count(&chain) > 10, "falling {falling}");
    }
    // Circles: of one access, of more, and all of it far from access 0.
    assert!(count(&|c| c.answer == 44 && c.self_pair()) > 1_000);
    assert!(count(&|c| c.answer == 44 && !c.self_pair()) > 1_000);
    let far = |c: &Ordering| {
        let near = c.pairs.iter().filter(|p| p.first.min(p.second) < 25);
        let near: Vec<Precedence> = near.copied().collect();
        c.answer == 44 && order(c.accesses, &near).is_ok()
    };
    assert!(count(&far) > 500);
}

#[test]
fn equal_seeds_give_equal_precedence_pairs() {
    for seed in 0..200 {
        let again = || gen::ordering(&mut Rng::new(seed));
        assert_eq!(again(), again());
    }
}

// The walk of a serve (S-7).

/// A serve that is past 27 and whose walk ends at a store.
struct Walk {
    answer: Result<u32, u8>,
    end: StoreEntry,
    /// The stores behind it that could have ended the walk too.
    behind: Vec<StoreEntry>,
}

impl Walk {
    fn of(queue: &Queue, event: &Event) -> Option<Self> {
        let serial = match *event {
            Event::Serve { serial } if queue.sound() => serial,
            _ => return None,
        };
        let load = queue.loads.entries[queue.loads.index_of(serial)?];
        let memory = vec![0; queue.memory_length as usize];
        let answer = queue.clone().serve(serial, &memory, &mut Counts::default());
        if !matches!(answer, Ok(_) | Err(28 | 29)) {
            return None;
        }
        let earlier = queue.stores.entries.range(..load.stores_before).rev();
        let could_end = |s: &&StoreEntry| s.address.is_none() || s.address == load.address;
        let mut ends = earlier.filter(could_end).copied();
        Some(Self {
            answer,
            end: ends.next()?,
            behind: ends.collect(),
        })
    }

    fn unknown_behind(&self) -> bool {
        self.behind.iter().any(|store| store.address.is_none())
    }

    fn unwritten_match_behind(&self) -> bool {
        let mut matches = self.behind.iter().filter(|store| store.address.is_some());
        matches.any(|store| !store.written)
    }
}

/// How often the walk ended in each way that S-7 is about.
#[derive(Debug, Default)]
struct Walks {
    /// Served by a store, or 29, with a store without address behind.
    served_sooner: u32,
    hidden_28: u32,
    /// 28 with an unwritten store to the load's address behind.
    match_behind: u32,
    /// Sent to memory by a written store, and with these behind it.
    written: u32,
    written_before_match: u32,
    written_before_unknown: u32,
    /// 28 for a written store.
    written_unknown: u32,
}

impl Walks {
    fn count(&mut self, walk: &Walk) {
        let unknown = u32::from(walk.unknown_behind());
        let matched = u32::from(walk.unwritten_match_behind());
        match walk.answer {
            Err(28) => {
                self.match_behind += matched;
                self.written_unknown += u32::from(walk.end.written);
            }
            Err(_) => self.hidden_28 += unknown,
            Ok(_) if walk.end.written => {
                self.written += 1;
                self.written_before_match += matched;
                self.written_before_unknown += unknown;
            }
            Ok(_) => self.served_sooner += unknown,
        }
    }
}

#[test]
fn scenarios_reach_the_ends_of_the_walk() {
    let mut walks = Walks::default();
    for seed in 0..2_000 {
        let scenario = Scenario::random(&mut Rng::new(seed));
        let mut memory = vec![0; scenario.header.memory_length as usize];
        let opened = Queue::open(scenario.table, scenario.header);
        let mut queue = opened.expect("a header that opens");
        for event in &scenario.events {
            if let Some(walk) = Walk::of(&queue, event) {
                walks.count(&walk);
            }
            let _ = queue.apply(event, &mut memory, &mut Counts::default());
        }
    }
    assert!(walks.served_sooner > 800, "{walks:?}");
    assert!(
        walks.hidden_28 > 200 && walks.match_behind > 400,
        "{walks:?}"
    );
    assert!(walks.written > 150, "{walks:?}");
    // What no opening leads to.
    assert_eq!(walks.written_before_match, 0);
    assert_eq!(walks.written_before_unknown, 0);
    assert_eq!(walks.written_unknown, 0);
}

#[test]
fn records_reach_the_ends_of_the_walk() {
    let mut walks = Walks::default();
    for seed in 0..4_000 {
        let mut rng = Rng::new(seed);
        let queue = gen::record(&mut rng);
        for _ in 0..24 {
            let event = gen::call_on(&mut rng, &queue);
            if let Some(walk) = Walk::of(&queue, &event) {
                walks.count(&walk);
            }
        }
    }
    assert!(walks.served_sooner > 200, "{walks:?}");
    assert!(
        walks.hidden_28 > 60 && walks.match_behind > 250,
        "{walks:?}"
    );
    assert!(
        walks.written > 500 && walks.written_unknown > 200,
        "{walks:?}"
    );
    assert!(walks.written_before_match > 200, "{walks:?}");
    assert!(walks.written_before_unknown > 100, "{walks:?}");
}
