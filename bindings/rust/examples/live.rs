//! Runs the loop `h[x[i]] += 1` on a live queue: a group of a load and a store
//! is activated for each i, addresses and data arrive call by call, and
//! whatever is ready is served or written. Midway the queue is saved as bytes
//! and goes on from them. Prints what came out, and the page of what was taken;
//! fails where it is not what the plain loop gives.

use lsq::record::ENTRIES;
use lsq::{share, Counts, Queue, Refusal, ShiftRecord, PAGE_BYTES};

const ITERATIONS: u32 = 200;
const WORDS: usize = 16;
const DEPTH: u32 = 8;
const FIRST_SERIAL: u32 = 4_294_967_290;
/// Stores are written in one step of so many, so that loads get ahead of them.
const WRITE_EVERY: u32 = 3;

/// One group: load port 0, then store port 0.
const TABLE: [u8; 8] = [0x02, 0x01, 0x01, 0x01, 0x00, 0x00, 0x01, 0x00];

struct Loop {
    queue: Queue,
    h: [u32; WORDS],
    counts: Counts,
    taken: ShiftRecord,
    /// Iterations that were activated, got their addresses, got their data.
    activated: u32,
    addressed: u32,
    added: u32,
}

fn x(i: u32) -> u32 {
    i.wrapping_mul(1_103_515_245).wrapping_add(12_345) >> 16 & (WORDS as u32 - 1)
}

impl Loop {
    fn open() -> Result<Self, Refusal> {
        Ok(Self {
            queue: Queue::open(&TABLE, DEPTH, DEPTH, FIRST_SERIAL, WORDS as u32)?,
            h: [0; WORDS],
            counts: Counts::default(),
            taken: ShiftRecord::default(),
            activated: 0,
            addressed: 0,
            added: 0,
        })
    }

    /// Activates the group as often as there is room.
    fn activate(&mut self) -> Result<(), Refusal> {
        while self.activated < ITERATIONS {
            match self.queue.activate(0) {
                Err(Refusal::NO_PLACE) => break,
                activated => activated?,
            }
            self.activated += 1;
        }
        Ok(())
    }

    /// Gives two iterations the addresses that they wait for.
    fn give_addresses(&mut self) -> Result<(), Refusal> {
        for i in self.addressed..self.activated.min(self.addressed + 2) {
            self.queue.load_address(0, x(i))?;
            self.queue.store_address(0, x(i))?;
            self.addressed += 1;
        }
        Ok(())
    }

    fn serve_ready(&mut self) -> Result<(), Refusal> {
        let mut serials = [0; ENTRIES];
        for serial in self.queue.ready_loads(&mut serials)? {
            self.queue.serve(&self.h, &mut self.counts, *serial)?;
        }
        Ok(())
    }

    /// Takes the values that were loaded, and hands on each with 1 added.
    fn add(&mut self) -> Result<(), Refusal> {
        loop {
            let value = match self.queue.take_recorded(&mut self.taken, 0) {
                Err(Refusal::NONE_UNTAKEN | Refusal::NOT_SERVED) => return Ok(()),
                taken => taken?,
            };
            self.queue.store_data(0, value + 1)?;
            self.added += 1;
        }
    }

    fn write_ready(&mut self) -> Result<(), Refusal> {
        let mut serials = [0; ENTRIES];
        for serial in self.queue.ready_stores(&mut serials)? {
            self.queue.write(&mut self.h, *serial)?;
        }
        Ok(())
    }

    fn save_and_go_on(&mut self) {
        let frame = &self.queue.frame;
        let (loads, stores) = (frame.loads.count, frame.stores.count);
        println!("saved midway: {loads} loads and {stores} stores queued");
        let saved = self.queue.to_bytes();
        self.queue = Queue::from_bytes(&saved);
        assert!(self.queue.sound());
    }

    fn run(&mut self) -> Result<(), Refusal> {
        let mut saved = false;
        let mut step = 0;
        while self.queue.frame.stores.count > 0 || self.added < ITERATIONS {
            self.activate()?;
            self.give_addresses()?;
            self.serve_ready()?;
            self.add()?;
            if !saved && self.added >= ITERATIONS / 2 {
                self.save_and_go_on();
                saved = true;
            }
            if step % WRITE_EVERY == 0 {
                self.write_ready()?;
            }
            step += 1;
        }
        Ok(())
    }
}

fn main() -> Result<(), Refusal> {
    let mut live = Loop::open()?;
    live.run()?;
    let mut plain = [0; WORDS];
    (0..ITERATIONS).for_each(|i| plain[x(i) as usize] += 1);
    let shown: String = live.h.iter().map(|count| format!(" {count}")).collect();
    println!("h{shown}");
    let Counts { loads, forwarded } = live.counts;
    let share = share(loads, forwarded);
    println!("loads {loads} forwarded {forwarded} share {share}");
    assert_eq!(live.h, plain);
    println!("as the plain loop gives");
    let mut page = [0; PAGE_BYTES];
    live.taken.page(&mut page)?;
    print!("{}", String::from_utf8_lossy(&page));
    assert!(loads == ITERATIONS && forwarded > 0);
    assert_eq!(live.taken.takes[0], ITERATIONS);
    Ok(())
}
