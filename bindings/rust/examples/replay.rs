//! Replays the scope paper's case K1: two activations of a group of one load
//! and one store, whose second load gets the first store's data, and prints the
//! page of what was taken. Fails where the end is not what the paper says.

use lsq::{event_count, memory_length, replay_recorded, share, text, value};
use lsq::{Error, Lent, ShiftRecord, PAGE_BYTES, TEXT_BYTES};

const TABLE: [u8; 8] = [0x02, 0x01, 0x01, 0x01, 0x00, 0x00, 0x01, 0x00];

const TRACE: [u8; 44] = [
    0x02, 0x02, 0xFF, 0xFF, 0xFF, 0xFF, 0x0F, 0x04, // depths, first serial, memory length
    0x00, 0x00, // activate
    0x00, 0x00, // activate
    0x01, 0x00, 0x03, // load address
    0x01, 0x00, 0x03, // load address
    0x04, 0x00, // serve: an earlier store has no address
    0x04, 0xFF, 0xFF, 0xFF, 0xFF, 0x0F, // serve
    0x06, 0x00, // take
    0x02, 0x00, 0x03, // store address
    0x03, 0x00, 0x01, // store data
    0x04, 0x00, // serve: forwarded
    0x05, 0xFF, 0xFF, 0xFF, 0xFF, 0x0F, // write
    0x06, 0x00, // take
];

fn main() -> Result<(), Error> {
    let events = event_count(&TABLE, &TRACE) as usize;
    let mut memory = vec![0; memory_length(&TABLE, &TRACE) as usize];
    let mut counts = [0; 2];
    let mut answers = vec![0; events];
    let mut given = vec![0; events];
    let mut values = vec![0; events];
    let lent = Lent {
        memory: &mut memory,
        counts: &mut counts,
        answers: &mut answers,
        given: &mut given,
        values: &mut values,
    };
    let mut taken = ShiftRecord::default();
    let played = replay_recorded(&TABLE, &TRACE, lent, &mut taken)?;
    for (i, answer) in answers.iter().enumerate() {
        let shown = value(given[i], values[i]).map_or("-".into(), |value| value.to_string());
        println!("{} {answer} {shown}", i + 1);
    }
    println!("word 3 {}", memory[3]);
    let [loads, forwarded] = counts;
    let share = share(loads, forwarded);
    println!("loads {loads} forwarded {forwarded} share {share}");
    let mut page = [0; PAGE_BYTES];
    taken.page(&mut page)?;
    print!("{}", String::from_utf8_lossy(&page));
    assert_eq!((played, memory[3], share), (12, 1, 500));
    assert_eq!((taken.takes[0], taken.values[0]), (2, 1));

    let mut out = vec![0; TEXT_BYTES];
    let printed = text(&TABLE, &TRACE, &mut out)?;
    assert!(printed.ends_with(b"word 3 1\nloads 2 forwarded 1 share 500\n"));
    Ok(())
}
