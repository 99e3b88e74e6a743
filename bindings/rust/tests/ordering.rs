//! A group's order from pairs: orders, circles, and each reason for 43; and the
//! table of the group in an order.

use lsq::record::{Accesses, Ordered, Pair, Precedences, Span, Table, ACCESSES, PAIRS};
use lsq::Access::{Load, Store};
use lsq::{direct, order, write_table, Access, Buffer, Error, Order, Precedence, Queue, Refusal};

const MOST: u32 = ACCESSES as u32;

fn pair(first: u32, second: u32) -> Precedence {
    Precedence { first, second }
}

/// The order of so many accesses by these pairs.
fn ordered(accesses: u32, pairs: &[Precedence]) -> Result<Vec<u8>, Refusal> {
    order(accesses, pairs).map(|order| order.accesses().to_vec())
}

/// Each access of a row before the next.
fn chain(row: &[u32]) -> Vec<Precedence> {
    row.windows(2).map(|two| pair(two[0], two[1])).collect()
}

#[test]
fn the_first_order_that_respects_all_pairs() {
    assert_eq!(ordered(4, &[]), Ok(vec![0, 1, 2, 3]));
    let pairs = [pair(3, 0), pair(2, 1)];
    assert_eq!(ordered(4, &pairs), Ok(vec![2, 1, 3, 0]));
    // 4 has to come before 0, and 3 need not.
    assert_eq!(ordered(5, &[pair(4, 0)]), Ok(vec![1, 2, 3, 4, 0]));
    assert_eq!(ordered(3, &[pair(2, 0), pair(2, 0)]), Ok(vec![1, 2, 0]));
}

#[test]
fn no_accesses_have_the_empty_order() {
    assert_eq!(ordered(0, &[]), Ok(vec![]));
    assert_eq!(ordered(1, &[]), Ok(vec![0]));
}

#[test]
fn as_many_as_there_may_be() {
    let row: Vec<u32> = (0..MOST).rev().collect();
    let mut pairs = chain(&row);
    assert_eq!(
        ordered(MOST, &pairs),
        Ok((0..ACCESSES as u8).rev().collect())
    );
    pairs.resize(PAIRS, pair(31, 0));
    assert_eq!(
        ordered(MOST, &pairs),
        Ok((0..ACCESSES as u8).rev().collect())
    );
    *pairs.last_mut().expect("a last pair") = pair(0, 31);
    assert_eq!(ordered(MOST, &pairs), Err(Refusal::CIRCLE));
}

#[test]
fn a_circle_is_refused() {
    let circles = [
        vec![pair(2, 2)],
        vec![pair(0, 1), pair(1, 0)],
        chain(&[0, 3, 1, 2, 0]),
    ];
    for circle in circles {
        assert_eq!(ordered(4, &circle), Err(Refusal::CIRCLE), "{circle:?}");
    }
}

#[test]
fn too_many_accesses_are_refused() {
    assert!(ordered(MOST, &[]).is_ok());
    for accesses in [MOST + 1, 256, 1 << 16, u32::MAX] {
        assert_eq!(ordered(accesses, &[]), Err(Refusal::UNLISTED));
    }
}

#[test]
fn an_access_that_is_not_listed_is_refused() {
    assert_eq!(ordered(0, &[pair(0, 0)]), Err(Refusal::UNLISTED));
    for unlisted in [4, MOST, 256, u32::MAX] {
        for pair in [pair(unlisted, 0), pair(0, unlisted)] {
            assert_eq!(ordered(4, &[pair]), Err(Refusal::UNLISTED), "{pair:?}");
        }
    }
    // Before a circle.
    let pairs = [pair(1, 1), pair(0, 4)];
    assert_eq!(ordered(4, &pairs), Err(Refusal::UNLISTED));
}

/// Copies of one pair, which ask no more than one does: the count alone decides.
#[test]
fn too_many_pairs_are_refused() {
    assert_eq!(ordered(2, &[pair(1, 0); PAIRS]), Ok(vec![1, 0]));
    assert_eq!(ordered(2, &[pair(1, 1); PAIRS]), Err(Refusal::CIRCLE));
    for count in [PAIRS + 1, PAIRS + 2, 256, 257, 1 << 16, (1 << 16) + 1] {
        let copies = vec![pair(1, 0); count];
        assert_eq!(ordered(2, &copies), Err(Refusal::UNLISTED), "{count}");
    }
    // A chain, its last pair too many.
    let mut pairs = chain(&(0..MOST).collect::<Vec<_>>());
    pairs.resize(PAIRS + 1, pair(0, 31));
    assert_eq!(ordered(MOST, &pairs), Err(Refusal::UNLISTED));
}

/// What the library hands back, whole: places beyond a count mean nothing in what
/// it is handed, and are 0 in what it gives.
#[test]
fn places_beyond_the_count() {
    let mut pairs = Precedences::new(&[pair(2, 1)]);
    pairs.pairs[1..].fill(pair(0, 0));
    let given = direct::order(3, pairs);
    let mut expected = Ordered {
        answer: 0,
        count: 3,
        accesses: [0; ACCESSES],
    };
    expected.accesses[..3].copy_from_slice(&[0, 2, 1]);
    assert_eq!(given, expected);
    pairs.count = u32::MAX;
    let given = direct::order(3, pairs);
    let refused = Ordered {
        answer: 43,
        count: 0,
        accesses: [0; ACCESSES],
    };
    assert_eq!(given, refused);
}

#[test]
fn an_order_needs_no_more_than_it_has() {
    let given = order(3, &[pair(1, 0)]).expect("an order");
    assert_eq!(given.accesses(), [1, 0, 2]);
    assert_eq!(given, order(3, &[pair(1, 0); 2]).expect("the same"));
}

/// K5's group: load 4, store 3, store 4, load 5.
const K5: [u8; 12] = [2, 1, 2, 2, 0, 4, 2, 5, 1, 3, 1, 4];

/// The table's bytes.
fn bytes(table: &Table) -> Result<Vec<u8>, Refusal> {
    let mut out = [0; 256];
    let count = write_table(table, &mut out)?;
    Ok(out[..count].to_vec())
}

/// The order of these accesses as they are listed.
fn as_listed(accesses: &[Access]) -> Order {
    order(accesses.len() as u32, &[]).expect("an order")
}

/// The bytes of the table of these accesses as they are listed.
fn listed_bytes(accesses: &[Access]) -> Result<Vec<u8>, Refusal> {
    let table = as_listed(accesses).table(accesses);
    bytes(&table.expect("as many accesses"))
}

#[test]
fn k5_from_pairs() {
    // Both loads, then both stores: 0 comes before 2 and 3, and these before 1.
    let accesses = [Load(4), Load(5), Store(3), Store(4)];
    let pairs = [pair(0, 2), pair(2, 3), pair(3, 1)];
    let order = order(4, &pairs).expect("an order");
    assert_eq!(order.accesses(), [0, 2, 3, 1]);
    let table = order.table(&accesses).expect("four accesses");
    assert_eq!(bytes(&table), Ok(K5.to_vec()));
    let mut queue = Queue::open(&K5, 2, 2, 0, 4).expect("K5 opens");
    assert_eq!(queue.frame.table, table);
    assert_eq!(queue.activate(0), Ok(()));
}

/// The whole record: one group at the front, all other places 0.
#[test]
fn offsets_count_the_other_kind() {
    let accesses = [Store(9), Load(7), Load(0), Store(31), Load(31)];
    let table = as_listed(&accesses).table(&accesses).expect("as many");
    let parts = table.parts();
    let pair = |(offset, port)| Pair { offset, port };
    assert_eq!(parts.count, 1);
    let span = Span {
        first_load: 0,
        loads: 3,
        first_store: 0,
        stores: 2,
    };
    assert_eq!(parts.groups[0], span);
    assert_eq!(parts.loads[..3], [(1, 7), (1, 0), (2, 31)].map(pair));
    assert_eq!(parts.stores[..2], [(0, 9), (2, 31)].map(pair));
    assert!(parts.groups[1..]
        .iter()
        .all(|&span| span == Span::default()));
    let mut beyond = parts.loads[3..].iter().chain(&parts.stores[2..]);
    assert!(beyond.all(|&pair| pair == Pair::default()));
}

#[test]
fn a_group_of_no_access_is_right() {
    assert_eq!(listed_bytes(&[]), Ok(vec![2, 1, 0, 0]));
}

#[test]
fn at_most_sixteen_of_each_kind() {
    let loads: Vec<Access> = (0..17).map(Load).collect();
    let stores: Vec<Access> = (0..17).map(Store).collect();
    assert_eq!(listed_bytes(&loads), Err(Refusal::ACCESS_COUNTS));
    assert_eq!(listed_bytes(&stores), Err(Refusal::ACCESS_COUNTS));
    let both = [&loads[..16], &stores[..16]].concat();
    assert!(listed_bytes(&both).is_ok());
    // Before a port that is seen again.
    assert_eq!(listed_bytes(&[Load(0); 32]), Err(Refusal::ACCESS_COUNTS));
}

#[test]
fn ports_are_in_range_and_each_once_among_its_kind() {
    assert!(listed_bytes(&[Load(31), Store(31)]).is_ok());
    for wrong in [32, 33, 64, 255] {
        let (load, store) = ([Store(0), Load(wrong)], [Load(0), Store(wrong)]);
        assert_eq!(listed_bytes(&load), Err(Refusal::PORT_RANGE));
        assert_eq!(listed_bytes(&store), Err(Refusal::PORT_RANGE));
    }
    let (load, store) = ([Load(3), Store(3), Load(3)], [Store(3), Load(3), Store(3)]);
    assert_eq!(listed_bytes(&load), Err(Refusal::PORT_SEEN));
    assert_eq!(listed_bytes(&store), Err(Refusal::PORT_SEEN));
    assert!(listed_bytes(&load[..2]).is_ok());
}

#[test]
fn as_many_accesses_as_the_order_has() {
    let order = order(3, &[pair(2, 0)]).expect("an order");
    assert!(order.table(&[Load(0), Load(1), Store(0)]).is_ok());
    for lent in [0, 1, 2, 4, 32, 33, 300] {
        let wrong = Error::Length {
            buffer: Buffer::Accesses,
            lent,
            needed: 3,
        };
        assert_eq!(order.table(&vec![Load(0); lent]), Err(wrong));
    }
}

/// A load and a store, and any bytes behind them.
fn any_accesses() -> Accesses {
    let mut accesses = Accesses {
        kinds: [200; ACCESSES],
        ports: [100; ACCESSES],
    };
    accesses.kinds[..2].copy_from_slice(&[0, 255]);
    accesses.ports[..2].copy_from_slice(&[5, 6]);
    accesses
}

#[test]
fn a_refusal_gives_the_table_of_no_groups() {
    let refusals = [
        direct::order(2, Precedences::new(&[pair(1, 1)])),
        direct::order(33, Precedences::new(&[])),
    ];
    for (refused, answer) in refusals.into_iter().zip([44, 43]) {
        assert_eq!(refused.answer, answer);
        let table = direct::table_in_order(refused, any_accesses());
        assert_eq!(table, Table::default());
        assert_eq!(bytes(&table), Err(Refusal::GROUP_COUNT));
    }
}

/// Records that no ordering gave, straight to the library.
#[test]
fn a_record_that_is_no_order_gives_the_table_of_no_groups() {
    let right = direct::order(2, Precedences::new(&[pair(1, 0)]));
    let given = |order: Ordered| direct::table_in_order(order, any_accesses());
    // Store 6, load 5.
    assert_eq!(bytes(&given(right)), Ok(vec![2, 1, 1, 1, 1, 5, 0, 6]));
    for answer in [1, 43, 44, 255] {
        assert_eq!(given(Ordered { answer, ..right }), Table::default());
    }
    for count in [33, 34, 64, 128, 255] {
        assert_eq!(given(Ordered { count, ..right }), Table::default());
    }
    for (place, access) in [(0, 32), (1, 32), (0, 255), (1, 64)] {
        let mut wrong = right;
        wrong.accesses[place] = access;
        assert_eq!(given(wrong), Table::default(), "{access} at {place}");
    }
    // Beyond the count it means nothing.
    let mut same = right;
    same.accesses[2..].fill(255);
    assert_eq!(given(same), given(right));
}

/// A record may name an access twice: the group then has it twice.
#[test]
fn an_access_twice() {
    let mut order = direct::order(2, Precedences::new(&[]));
    order.accesses[1] = 0;
    let table = direct::table_in_order(order, any_accesses());
    let twice = Pair { offset: 0, port: 5 };
    assert_eq!(table.parts().groups[0].loads, 2);
    assert_eq!(table.parts().loads[..2], [twice; 2]);
    assert_eq!(bytes(&table), Err(Refusal::PORT_SEEN));
}
