//! Makes a group from what a compiler knows of a circuit: its accesses, and pairs
//! of which the first must come before the second. Prints the order, the group's
//! loads and stores with their offsets, and the table's bytes; then opens a queue
//! on those bytes and activates the group once. Last, one pair more closes a
//! circle, and the list is refused. Fails where a call is refused that must not
//! be, or the other way round.

use std::error::Error;

use lsq::record::{Pair, Table};
use lsq::Access::{Load, Store};
use lsq::{order, write_table, Access, Precedence, Queue, Refusal};

const COUNT: u32 = 5;
const DEPTH: u32 = 8;
const WORDS: u32 = 16;
/// The most bytes that a table of one group takes.
const TABLE_BYTES: usize = 68;

/// The circuit, by access number: x = a[i] is 2, a[i] = .. is 1, b[j] = .. is 3;
/// 0 and 4 read a and b again.
const ACCESSES: [Access; COUNT as usize] = [Load(0), Store(0), Load(3), Store(1), Load(5)];

/// a[i] is read before a[i] and b[j] are written, and each of these is written
/// before it is read again. The last pair, left out at first, closes a circle.
const PAIRS: [Precedence; 5] = [
    before(2, 1),
    before(1, 0),
    before(2, 3),
    before(3, 4),
    before(4, 2),
];
const RIGHT_PAIRS: usize = 4;

const fn before(first: u32, second: u32) -> Precedence {
    Precedence { first, second }
}

fn print_circuit() {
    for (number, access) in ACCESSES.iter().enumerate() {
        match access {
            Load(port) => println!("access {number}: load port {port}"),
            Store(port) => println!("access {number}: store port {port}"),
        }
    }
    for Precedence { first, second } in &PAIRS[..RIGHT_PAIRS] {
        println!("{first} before {second}");
    }
}

fn print_accesses(kind: &str, accesses: &[Pair], count: u8) {
    for Pair { offset, port } in &accesses[..count.into()] {
        println!("{kind} port {port}, offset {offset}");
    }
}

/// The one group's accesses stand at the front.
fn print_group(table: &Table) {
    let parts = table.parts();
    print_accesses("load", &parts.loads, parts.groups[0].loads);
    print_accesses("store", &parts.stores, parts.groups[0].stores);
}

fn main() -> Result<(), Box<dyn Error>> {
    print_circuit();
    let given = order(COUNT, &PAIRS[..RIGHT_PAIRS])?;
    let shown = given.accesses().iter().map(|access| format!(" {access}"));
    println!("order:{}", shown.collect::<String>());
    let table = given.table(&ACCESSES)?;
    print_group(&table);

    let mut out = [0; TABLE_BYTES];
    let count = write_table(&table, &mut out)?;
    let bytes = &out[..count];
    let shown = bytes.iter().map(|byte| format!(" {byte:02X}"));
    println!("table:{}", shown.collect::<String>());

    let mut queue = Queue::open(bytes, DEPTH, DEPTH, 0, WORDS)?;
    queue.activate(0)?;
    let (loads, stores) = (queue.frame.loads.count, queue.frame.stores.count);
    println!("activated: {loads} loads and {stores} stores queued");

    let Precedence { first, second } = PAIRS[RIGHT_PAIRS];
    let refused = order(COUNT, &PAIRS).map(|_| ());
    assert_eq!(refused, Err(Refusal::CIRCLE));
    println!(
        "with {first} before {second}: refused with {}",
        Refusal::CIRCLE.0
    );
    Ok(())
}
