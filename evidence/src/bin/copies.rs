//! `copies` counts what a call on the queue copies: every memcpy, memmove and
//! memset that a replay, or live calls in a row, make, by size, divided by the
//! calls on the queue. Copies that the compiler makes inline are not seen.

use std::ffi::c_void;
use std::sync::atomic::{AtomicU64, Ordering::Relaxed};

use evidence::timing::{Implementation, Run};
use evidence::workloads::{named, Workload, MAIN};

/// Sizes up to this are counted one by one, larger ones together.
const SIZES: usize = 16_384;

static COPIES: [AtomicU64; SIZES] = [const { AtomicU64::new(0) }; SIZES];
static FILLS: [AtomicU64; SIZES] = [const { AtomicU64::new(0) }; SIZES];

fn note(counts: &[AtomicU64; SIZES], size: usize) {
    counts[size.min(SIZES - 1)].fetch_add(1, Relaxed);
}

// The linker's `--wrap` gives callers of memcpy these functions, and the
// original under the name `__real_memcpy`. Sound: arguments go on unchanged.
unsafe extern "C" {
    fn __real_memcpy(to: *mut c_void, from: *const c_void, size: usize) -> *mut c_void;
    fn __real_memmove(to: *mut c_void, from: *const c_void, size: usize) -> *mut c_void;
    fn __real_memset(to: *mut c_void, byte: i32, size: usize) -> *mut c_void;
}

#[unsafe(no_mangle)]
unsafe extern "C" fn __wrap_memcpy(
    to: *mut c_void,
    from: *const c_void,
    size: usize,
) -> *mut c_void {
    note(&COPIES, size);
    unsafe { __real_memcpy(to, from, size) }
}

#[unsafe(no_mangle)]
unsafe extern "C" fn __wrap_memmove(
    to: *mut c_void,
    from: *const c_void,
    size: usize,
) -> *mut c_void {
    note(&COPIES, size);
    unsafe { __real_memmove(to, from, size) }
}

#[unsafe(no_mangle)]
unsafe extern "C" fn __wrap_memset(to: *mut c_void, byte: i32, size: usize) -> *mut c_void {
    note(&FILLS, size);
    unsafe { __real_memset(to, byte, size) }
}

fn main() {
    println!("| Workload | Implementation | Bytes copied a call | Copies a call | Largest shares: size in bytes x copies a call | Bytes filled a call |");
    println!("|---|---|---|---|---|---|");
    for name in MAIN {
        let workload = named(name).expect("a workload of this name");
        print_row(&workload, Implementation::Proved);
        print_row(&workload, Implementation::Checked);
        print_row(&workload, Implementation::Live);
    }
}

fn print_row(workload: &Workload, implementation: Implementation) {
    let mut run = Run::new(workload);
    let [copies, fills] = [&COPIES, &FILLS].map(taken);
    run.play(implementation, workload);
    let copies = since(&copies, &taken(&COPIES));
    let fills = since(&fills, &taken(&FILLS));
    let calls = workload.calls as f64;
    let count = copies.iter().sum::<u64>() as f64 / calls;
    println!(
        "| {} | {implementation:?} | {:.0} | {count:.2} | {} | {:.0} |",
        workload.title,
        bytes(&copies) as f64 / calls,
        largest(&copies, calls),
        bytes(&fills) as f64 / calls,
    );
}

fn taken(counts: &[AtomicU64; SIZES]) -> Vec<u64> {
    counts.iter().map(|count| count.load(Relaxed)).collect()
}

fn since(before: &[u64], after: &[u64]) -> Vec<u64> {
    after.iter().zip(before).map(|(a, b)| a - b).collect()
}

fn bytes(counts: &[u64]) -> u64 {
    let sizes = counts.iter().enumerate();
    sizes.map(|(size, count)| size as u64 * count).sum()
}

/// The sizes that make up most of the bytes.
fn largest(counts: &[u64], calls: f64) -> String {
    let mut sizes: Vec<usize> = (0..SIZES).filter(|&size| counts[size] > 0).collect();
    sizes.sort_by_key(|&size| u64::MAX - size as u64 * counts[size]);
    let shown = sizes.iter().take(6);
    let shown = shown.map(|&size| format!("{size} x {:.2}", counts[size] as f64 / calls));
    shown.collect::<Vec<_>>().join(", ")
}
