//! Helpers shared by the tests.
#![allow(dead_code)]

use std::path::{Path, PathBuf};
use std::process::Command;
use std::{env, fs, process};

use lsq_ref::queue::TrustingQueue;
use lsq_ref::table::{Access, Group};
use lsq_ref::{Header, Queue, Table};

/// K1's table.
pub const K1_TABLE: [u8; 8] = [0x02, 0x01, 0x01, 0x01, 0x00, 0x00, 0x01, 0x00];

/// K1's trace.
pub const K1_TRACE: [u8; 44] = [
    0x02, 0x02, 0xFF, 0xFF, 0xFF, 0xFF, 0x0F, 0x04, //
    0x00, 0x00, // 1 activate
    0x00, 0x00, // 2 activate
    0x01, 0x00, 0x03, // 3 load address
    0x01, 0x00, 0x03, // 4 load address
    0x04, 0x00, // 5 serve
    0x04, 0xFF, 0xFF, 0xFF, 0xFF, 0x0F, // 6 serve
    0x06, 0x00, // 7 take
    0x02, 0x00, 0x03, // 8 store address
    0x03, 0x00, 0x01, // 9 store data
    0x04, 0x00, // 10 serve
    0x05, 0xFF, 0xFF, 0xFF, 0xFF, 0x0F, // 11 write
    0x06, 0x00, // 12 take
];

/// K1's trace up to and with event `count`, then `more`.
pub fn k1_trace(count: usize, more: &[u8]) -> Vec<u8> {
    let ends = [8, 10, 12, 15, 18, 20, 26, 28, 31, 34, 36, 42, 44];
    [&K1_TRACE[..ends[count]], more].concat()
}

/// K5's group.
pub fn k5_group() -> Group {
    let order = [
        Access::Load(4),
        Access::Store(3),
        Access::Store(4),
        Access::Load(5),
    ];
    Group::from_order(&order)
}

/// A table of one group with this program order.
pub fn table_of(order: &[Access]) -> Table {
    Table {
        groups: vec![Group::from_order(order)],
    }
}

/// A header.
pub fn header(load_depth: u32, store_depth: u32, first_serial: u32, memory_length: u32) -> Header {
    Header {
        load_depth,
        store_depth,
        first_serial,
        memory_length,
    }
}

/// An opened queue over a table of one group.
pub fn open(order: &[Access], header: Header) -> Queue {
    Queue::open(table_of(order), header).expect("an opening that is accepted")
}

/// The same record without check 40.
pub fn trusting(queue: &Queue) -> TrustingQueue {
    TrustingQueue {
        table: queue.table.clone(),
        load_depth: queue.load_depth,
        store_depth: queue.store_depth,
        memory_length: queue.memory_length,
        loads: queue.loads.clone(),
        stores: queue.stores.clone(),
    }
}

/// An empty folder, gone again at the end of the test.
pub struct Folder(pub PathBuf);

impl Folder {
    /// A folder named for the test.
    pub fn new(name: &str) -> Self {
        let folder = env::temp_dir().join(format!("lsq_ref_{}_{name}", process::id()));
        fs::create_dir(&folder).expect("a new folder");
        Self(folder)
    }
}

impl Drop for Folder {
    fn drop(&mut self) {
        let _ = fs::remove_dir_all(&self.0);
    }
}

/// What a program of this crate prints in a folder.
pub fn text_in(folder: &Path, program: &str) -> String {
    let output = Command::new(program).current_dir(folder).output();
    let output = output.expect("a program that runs");
    assert!(output.status.success());
    String::from_utf8(output.stdout).expect("text")
}
