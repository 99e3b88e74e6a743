//! A group's order from precedence pairs (S-6): against trying all orders, and
//! where those are too many against what must hold of the order; 43 before 44, the
//! edges, circles, the group that an order gives, and the program `order_cases`.

use std::collections::BTreeSet;
use std::process::{Command, Output};

use lsq_ref::gen;
use lsq_ref::ordering::{brute_force, group, order, MAX_BRUTE_FORCE};
use lsq_ref::refusal::{CIRCLE, UNLISTED};
use lsq_ref::rng::Rng;
use lsq_ref::table::Access::{self, Load, Store};
use lsq_ref::table::{Group, Pair};
use lsq_ref::{Precedence, Table};

fn pair(first: u32, second: u32) -> Precedence {
    Precedence { first, second }
}

fn pairs(of: &[(u32, u32)]) -> Vec<Precedence> {
    of.iter()
        .map(|&(first, second)| pair(first, second))
        .collect()
}

/// The pairs that ask for this order and no other.
fn chain(row: &[u32]) -> Vec<Precedence> {
    row.windows(2).map(|two| pair(two[0], two[1])).collect()
}

/// A chain that comes back to its beginning.
fn circle(row: &[u32]) -> Vec<Precedence> {
    let mut pairs = chain(row);
    pairs.push(pair(row[row.len() - 1], row[0]));
    pairs
}

fn rising(accesses: u32) -> Vec<u8> {
    (0..accesses as u8).collect()
}

// Against trying all orders.

/// Set number `number` of pairs on so many accesses, a bit for each pair.
fn set(accesses: u32, number: u32) -> Vec<Precedence> {
    let bits = (0..accesses * accesses).filter(|bit| number >> bit & 1 == 1);
    bits.map(|bit| pair(bit / accesses, bit % accesses))
        .collect()
}

/// Compares both on every set of pairs and gives how many are accepted.
fn every_set(accesses: u32) -> usize {
    let mut accepted = 0;
    for number in 0..1 << (accesses * accesses) {
        let pairs = set(accesses, number);
        let given = order(accesses, &pairs);
        assert_eq!(given, brute_force(accesses, &pairs), "{accesses} {pairs:?}");
        accepted += usize::from(given.is_ok());
    }
    accepted
}

/// 1, 1, 3, 25 and 543 are the numbers of directed graphs without a circle on so
/// many labelled points.
#[test]
fn every_set_of_pairs_on_few_accesses() {
    assert_eq!(every_set(0), 1);
    assert_eq!(every_set(1), 1);
    assert_eq!(every_set(2), 3);
    assert_eq!(every_set(3), 25);
}

#[test]
fn every_set_of_pairs_on_four_accesses() {
    assert_eq!(every_set(4), 543);
}

#[test]
fn random_pairs_on_more_accesses() {
    let mut rng = Rng::new(6);
    for (accesses, cases) in [(5, 20_000), (6, 20_000), (7, 1_000), (8, 200)] {
        let mut accepted = 0;
        for _ in 0..cases {
            let count = rng.below(accesses as usize * 2);
            let mut some = || {
                let (first, second) = (rng.below(accesses as usize), rng.below(accesses as usize));
                let again = second == first && rng.chance(3, 4);
                let second = (second + usize::from(again)) % accesses as usize;
                pair(first as u32, second as u32)
            };
            let pairs: Vec<Precedence> = (0..count).map(|_| some()).collect();
            let given = order(accesses, &pairs);
            assert_eq!(given, brute_force(accesses, &pairs), "{accesses} {pairs:?}");
            accepted += usize::from(given.is_ok());
        }
        let share = accepted * 100 / cases;
        assert!((15..85).contains(&share), "{share} in 100 of {accesses}");
    }
}

/// Trying gets to each of the 120 orders of five accesses.
#[test]
fn every_order_is_tried() {
    let mut tried = BTreeSet::new();
    for number in 0..5u32.pow(5) {
        let digits = (0..5).map(|place| number / 5u32.pow(4 - place) % 5);
        let row: Vec<u32> = digits.collect();
        if row.iter().collect::<BTreeSet<_>>().len() < 5 {
            continue;
        }
        let asked: Vec<u8> = row.iter().map(|&access| access as u8).collect();
        assert_eq!(brute_force(5, &chain(&row)), Ok(asked.clone()));
        assert_eq!(order(5, &chain(&row)), Ok(asked.clone()));
        tried.insert(asked);
    }
    assert_eq!(tried.len(), 120);
}

#[test]
#[should_panic(expected = "too many orders to try")]
fn trying_is_for_few_accesses() {
    let _ = brute_force(MAX_BRUTE_FORCE + 1, &[]);
}

// What holds of the order of any number of accesses.

/// Whether some access can be come back to by following pairs.
fn has_circle(accesses: u32, pairs: &[Precedence]) -> bool {
    (0..accesses).any(|start| {
        let mut met = BTreeSet::new();
        let mut ahead = vec![start];
        while let Some(at) = ahead.pop() {
            for pair in pairs.iter().filter(|pair| pair.first == at) {
                if met.insert(pair.second) {
                    ahead.push(pair.second);
                }
            }
        }
        met.contains(&start)
    })
}

/// Each access stands in the order once, the first of each pair before the second;
/// and no smaller access could stand anywhere instead, for some access behind must
/// come before it.
fn assert_first(accesses: u32, pairs: &[Precedence], order: &[u8]) {
    let mut sorted = order.to_vec();
    sorted.sort_unstable();
    assert_eq!(sorted, rising(accesses));
    let place = |access: u32| order.iter().position(|&a| u32::from(a) == access).unwrap();
    assert!(pairs.iter().all(|p| place(p.first) < place(p.second)));
    for (at, &here) in order.iter().enumerate() {
        for smaller in (0..u32::from(here)).filter(|&access| place(access) > at) {
            let held = |p: &Precedence| p.second == smaller && place(p.first) >= at;
            assert!(pairs.iter().any(held), "{smaller} before {here}");
        }
    }
}

/// "A circle is reported if one exists, and only then", in what passes 43.
#[test]
fn generated_pairs_get_the_first_order_or_the_circle() {
    for seed in 0..20_000 {
        let (accesses, pairs) = gen::ordering(&mut Rng::new(seed));
        let unlisted = |p: &Precedence| p.first >= accesses || p.second >= accesses;
        let out_of_range = accesses > 32 || pairs.len() > 64 || pairs.iter().any(unlisted);
        match order(accesses, &pairs) {
            Ok(order) => {
                assert!(!out_of_range && !has_circle(accesses, &pairs));
                assert_first(accesses, &pairs, &order);
            }
            Err(UNLISTED) => assert!(out_of_range),
            Err(CIRCLE) => assert!(!out_of_range && has_circle(accesses, &pairs)),
            Err(other) => panic!("{other}"),
        }
        if accesses <= 6 || out_of_range {
            assert_eq!(order(accesses, &pairs), brute_force(accesses, &pairs));
        }
    }
}

/// "A repeated pair asks no more than one does", and the pairs have no order.
#[test]
fn repetition_and_the_order_of_pairs_do_not_matter() {
    for seed in 0..5_000 {
        let mut rng = Rng::new(seed);
        let (accesses, mut pairs) = gen::ordering(&mut rng);
        let given = order(accesses, &pairs);
        rng.shuffle(&mut pairs);
        assert_eq!(order(accesses, &pairs), given);
        if given != Err(UNLISTED) {
            pairs.sort_unstable();
            pairs.dedup();
            assert_eq!(order(accesses, &pairs), given);
        }
    }
}

// Cases written out.

/// Compared from the left, place by place: an access that may come early does,
/// though a smaller one then comes later than it could.
#[test]
fn orders_are_compared_from_the_left() {
    for (accesses, asked, given) in [
        (3, pairs(&[(2, 0)]), vec![1, 2, 0]),
        (3, pairs(&[(2, 1)]), vec![0, 2, 1]),
        (4, pairs(&[(3, 0)]), vec![1, 2, 3, 0]),
        (4, pairs(&[(3, 0), (3, 1)]), vec![2, 3, 0, 1]),
        (4, pairs(&[(1, 0), (3, 2)]), vec![1, 0, 3, 2]),
        (5, pairs(&[(4, 0), (0, 1), (3, 2)]), vec![3, 2, 4, 0, 1]),
    ] {
        assert_eq!(order(accesses, &asked), Ok(given.clone()));
        assert_eq!(brute_force(accesses, &asked), Ok(given));
    }
}

#[test]
fn chains_of_32_accesses() {
    let row: Vec<u32> = (0..32).collect();
    let back: Vec<u32> = row.iter().rev().copied().collect();
    assert_eq!(chain(&back).len(), 31);
    assert_eq!(order(32, &chain(&row)), Ok(rising(32)));
    assert_eq!(order(32, &chain(&back)), Ok((0..32).rev().collect()));
    assert_eq!(order(32, &circle(&row)), Err(CIRCLE));
    assert_eq!(order(32, &circle(&back)), Err(CIRCLE));
    // 31 before 0 and nothing else: 0 comes last.
    let mut last = rising(32);
    last.rotate_left(1);
    assert_eq!(order(32, &[pair(31, 0)]), Ok(last));
}

#[test]
fn circles_beside_free_accesses() {
    for row in [
        vec![29, 30, 31],
        vec![31, 30],
        vec![31],
        vec![16],
        vec![5, 20, 9],
    ] {
        assert_eq!(order(32, &circle(&row)), Err(CIRCLE), "{row:?}");
        let mut more = chain(&(0..29).collect::<Vec<_>>());
        more.extend(circle(&row));
        assert_eq!(order(32, &more), Err(CIRCLE), "{row:?}");
        // Without the pair that closes it there is no circle.
        if row.len() > 1 {
            assert!(order(32, &chain(&row)).is_ok(), "{row:?}");
        }
    }
    for (accesses, row) in [(1, vec![0]), (2, vec![0, 1]), (4, vec![1, 2]), (4, vec![3])] {
        assert_eq!(order(accesses, &circle(&row)), Err(CIRCLE));
        assert_eq!(brute_force(accesses, &circle(&row)), Err(CIRCLE));
    }
    // Two pairs that meet again are none.
    let diamond = pairs(&[(3, 1), (3, 2), (1, 0), (2, 0)]);
    assert_eq!(order(4, &diamond), Ok(vec![3, 1, 2, 0]));
}

/// "Each counts towards the 64."
#[test]
fn repeated_pairs_count_each_time() {
    for (one, answer) in [
        (pair(1, 0), Ok(vec![1, 0])),
        (pair(0, 1), Ok(vec![0, 1])),
        (pair(1, 1), Err(CIRCLE)),
    ] {
        for count in [1, 2, 63, 64] {
            assert_eq!(order(2, &vec![one; count]), answer, "{count} times");
            assert_eq!(brute_force(2, &vec![one; count]), answer, "{count} times");
        }
        for count in [65, 66, 1000] {
            assert_eq!(order(2, &vec![one; count]), Err(UNLISTED));
            assert_eq!(brute_force(2, &vec![one; count]), Err(UNLISTED));
        }
    }
    // The circle is closed by the 64th pair, and by the 65th.
    let mut many = vec![pair(1, 0); 63];
    many.push(pair(0, 1));
    assert_eq!(order(2, &many), Err(CIRCLE));
    many.insert(0, pair(1, 0));
    assert_eq!(order(2, &many), Err(UNLISTED));
}

/// "44: a circle, after 43."
#[test]
fn range_comes_before_circles() {
    for accesses in [33, 64, 255, 256, 257, 1 << 16, 1 << 31, u32::MAX] {
        assert_eq!(order(accesses, &[]), Err(UNLISTED));
        assert_eq!(order(accesses, &circle(&[0, 1])), Err(UNLISTED));
        assert_eq!(order(accesses, &[pair(0, 0)]), Err(UNLISTED));
        assert_eq!(brute_force(accesses, &[]), Err(UNLISTED));
    }
    for accesses in [0, 1, 2, 8, 31, 32] {
        for other in [accesses, accesses + 1, 32, 33, 256, 1 << 16, u32::MAX] {
            for unlisted in [pair(other, 0), pair(0, other), pair(other, other)] {
                let behind = [pair(0, 0), pair(0, 0), unlisted];
                for pairs in [&[unlisted][..], &[unlisted, pair(0, 0)], &behind] {
                    assert_eq!(order(accesses, pairs), Err(UNLISTED));
                    assert_eq!(brute_force(accesses, pairs), Err(UNLISTED));
                }
            }
        }
    }
    // The last one listed is listed.
    assert_eq!(order(32, &[pair(31, 31)]), Err(CIRCLE));
    assert_eq!(order(31, &[pair(30, 30)]), Err(CIRCLE));
}

#[test]
fn few_accesses_and_none() {
    assert_eq!(order(0, &[]), Ok(vec![]));
    assert_eq!(brute_force(0, &[]), Ok(vec![]));
    assert_eq!(order(0, &[pair(0, 0)]), Err(UNLISTED));
    assert_eq!(order(0, &[pair(0, 1)]), Err(UNLISTED));
    assert_eq!(brute_force(0, &[pair(0, 0)]), Err(UNLISTED));
    assert_eq!(order(1, &[]), Ok(vec![0]));
    assert_eq!(order(1, &[pair(0, 0)]), Err(CIRCLE));
    for accesses in 0..=32 {
        assert_eq!(order(accesses, &[]), Ok(rising(accesses)));
    }
}

#[test]
fn names_are_the_papers_numbers() {
    assert_eq!((UNLISTED, CIRCLE), (43, 44));
}

// The group that an order gives.

/// K5: "load 4, store 3, store 4, load 5", from accesses that are listed otherwise.
#[test]
fn k5_from_pairs() {
    let accesses = [Store(4), Load(5), Store(3), Load(4)];
    let order = order(4, &pairs(&[(3, 2), (2, 0), (0, 1)])).expect("an order");
    assert_eq!(order, [3, 2, 0, 1]);
    let table = Table {
        groups: vec![group(&order, &accesses)],
    };
    assert_eq!(table.numbers(), [2, 1, 2, 2, 0, 4, 2, 5, 1, 3, 1, 4]);
    assert_eq!(table.check(), 0);
}

/// Some accesses of each kind on ports of their own, mixed.
fn mixed_accesses(rng: &mut Rng, loads: u32, stores: u32) -> Vec<Access> {
    let mut accesses: Vec<Access> = (0..loads).map(Load).collect();
    accesses.extend((0..stores).map(Store));
    rng.shuffle(&mut accesses);
    accesses
}

/// The offsets by their definition, for one kind: each access of the kind with the
/// number of those of the other kind before it.
fn counted(in_order: &[Access], kind: fn(&Access) -> Option<u32>) -> Vec<Pair> {
    let places = in_order.iter().enumerate();
    let of_kind = places.filter_map(|(at, access)| Some((at, kind(access)?)));
    let others = |at: usize| in_order[..at].iter().filter(|a| kind(a).is_none()).count();
    of_kind
        .map(|(at, port)| Pair {
            offset: others(at) as u32,
            port,
        })
        .collect()
}

fn load_port(access: &Access) -> Option<u32> {
    match *access {
        Load(port) => Some(port),
        Store(_) => None,
    }
}

fn store_port(access: &Access) -> Option<u32> {
    match *access {
        Load(_) => None,
        Store(port) => Some(port),
    }
}

#[test]
fn groups_come_in_the_order_given() {
    let mut reached = 0;
    for seed in 0..6_000 {
        let mut rng = Rng::new(seed);
        let (accesses, pairs) = gen::ordering(&mut rng);
        let Ok(order) = order(accesses, &pairs) else {
            continue;
        };
        reached += 1;
        let least = accesses.saturating_sub(16);
        let loads = rng.between(least, accesses.min(16));
        let kinds = mixed_accesses(&mut rng, loads, accesses - loads);
        let group = group(&order, &kinds);
        let in_order: Vec<Access> = order.iter().map(|&a| kinds[a as usize]).collect();
        assert_eq!(group.program_order(), in_order);
        assert_eq!(group.loads, counted(&in_order, load_port));
        assert_eq!(group.stores, counted(&in_order, store_port));
        let table = Table {
            groups: vec![group],
        };
        assert_eq!(table.check(), 0);
        let mut bytes = [0; 512];
        let count = table.write(&mut bytes).expect("room");
        assert_eq!(Table::read(&bytes[..count]), Ok(table));
    }
    assert!(reached > 1_500, "{reached} of 6000");
}

/// The order knows nothing of kinds and ports: what a table refuses is refused
/// there.
#[test]
fn groups_that_the_table_refuses() {
    let check = |accesses: &[Access]| {
        let order = order(accesses.len() as u32, &[]).expect("an order");
        let groups = vec![group(&order, accesses)];
        Table { groups }.check()
    };
    let loads: Vec<Access> = (0..32).map(Load).collect();
    let stores: Vec<Access> = (0..32).map(Store).collect();
    assert_eq!(check(&loads), 5);
    assert_eq!(check(&stores[..17]), 5);
    assert_eq!(check(&loads[..16]), 0);
    assert_eq!(check(&[&loads[..16], &stores[16..]].concat()), 0);
    assert_eq!(check(&[Load(32)]), 6);
    assert_eq!(check(&[Load(7), Store(7), Load(7)]), 7);
    assert_eq!(check(&[]), 0);
    assert_eq!(group(&[], &[]), Group::default());
}

// The program.

fn run(args: &[&str]) -> Output {
    let mut command = Command::new(env!("CARGO_BIN_EXE_order_cases"));
    command.args(args).output().expect("a program that runs")
}

fn lines(args: &[&str]) -> Vec<String> {
    let output = run(args);
    assert!(output.status.success());
    let text = String::from_utf8(output.stdout).expect("text");
    assert!(text.is_ascii() && text.ends_with('\n'));
    text.lines().map(String::from).collect()
}

/// A case line read back.
fn case_of(line: &str) -> (u32, Vec<Precedence>) {
    let mut fields = line.split(' ');
    assert_eq!(fields.next(), Some("small"));
    let mut number = || {
        let field = fields.next()?;
        assert_eq!(field.len(), 2);
        assert_eq!(field, field.to_uppercase());
        Some(u32::from_str_radix(field, 16).expect("two hexadecimal digits"))
    };
    let accesses = number().expect("a number of accesses");
    let mut pairs = Vec::new();
    while let Some(digits) = number() {
        pairs.push(pair(digits >> 4, digits & 15));
    }
    (accesses, pairs)
}

fn answer_of(given: Result<Vec<u8>, u8>) -> String {
    match given {
        Ok(order) => {
            let numbers: String = order.iter().map(|access| format!(" {access}")).collect();
            format!("0, count {}, order{numbers}", order.len())
        }
        Err(refusal) => format!("{refusal}, count 0"),
    }
}

#[test]
fn case_scripts_and_their_answers() {
    let script = lines(&["script"]);
    let answers = lines(&["answers"]);
    assert_eq!(script.len(), answers.len());
    let bytes: usize = script.iter().map(|line| line.len() + 1).sum();
    assert!(bytes < 40_000, "{bytes} bytes");
    let mut cases = Vec::new();
    let mut headings = Vec::new();
    for (line, answer) in script.iter().zip(&answers) {
        if line.starts_with('#') {
            assert_eq!(line, answer);
            headings.push(line.as_str());
            continue;
        }
        let (accesses, pairs) = case_of(line);
        let expected = answer_of(order(accesses, &pairs));
        assert_eq!(*answer, format!("{line}: {expected}"));
        cases.push((accesses, pairs, expected.starts_with("0,")));
    }
    let expected = [
        "## every set of pairs on 3 accesses",
        "## lists of pairs on 4 accesses",
        "## lists of pairs on 5 accesses",
    ];
    assert_eq!(headings, expected);
    assert_eq!([&script[0], &script[513], &script[814]], expected);
    assert_eq!(cases.len(), 512 + 300 + 300);
    for (number, (accesses, pairs, _)) in cases[..512].iter().enumerate() {
        assert_eq!((*accesses, pairs), (3, &set(3, number as u32)));
    }
    for (accesses, part) in [(4, &cases[512..812]), (5, &cases[812..])] {
        assert!(part.iter().all(|case| case.0 == accesses));
        assert!(part.iter().all(|case| (1..=12).contains(&case.1.len())));
        let accepted = part.iter().filter(|case| case.2).count();
        assert!((100..225).contains(&accepted), "{accepted} on {accesses}");
    }
    assert_eq!(answers[1], "small 03: 0, count 3, order 0 1 2");
    assert_eq!(answers[2], "small 03 00: 44, count 0");
}

#[test]
fn other_arguments_are_refused() {
    for args in [&[][..], &["order"], &["script", "answers"]] {
        let output = run(args);
        assert_eq!(output.status.code(), Some(2));
        assert!(output.stdout.is_empty());
    }
}
