//! Four threads look numbers up in one table that was filled before, at the same time and with no lock.
//!
//!     cd rust && cargo run --example readers

use proved_congee::{Map, OutOfMemory, Readers};
use std::thread;

const THREADS: u64 = 4;
const SQUARES: u64 = 10_000;

/// The sum of the roots of the squares from a number on, as many as a thread's share has.
fn add_roots(readers: &Readers, first: u64) -> Result<u64, OutOfMemory> {
    let reader = readers.reader()?;
    let share = first..first + SQUARES / THREADS;
    Ok(share.filter_map(|i| reader.get(i * i)).sum())
}

fn main() -> Result<(), OutOfMemory> {
    let roots = Map::try_from_iter((0..SQUARES).map(|i| (i * i, i)))?;
    let readers = Readers::new(roots.freeze()?);
    let sum = thread::scope(|scope| {
        let threads: Vec<_> = (0..THREADS)
            .map(|i| i * (SQUARES / THREADS))
            .map(|first| {
                scope.spawn({
                    let readers = &readers;
                    move || add_roots(readers, first)
                })
            })
            .collect();
        threads
            .into_iter()
            .map(|thread| thread.join().expect("the thread doesn't panic"))
            .sum::<Result<u64, OutOfMemory>>()
    })?;
    println!("{THREADS} threads found roots that sum up to {sum}");
    // Each thread has dropped its reader, so this is the last one.
    if let Ok(roots) = readers.into_inner().thaw() {
        println!("the table of {} squares may change again", roots.len());
    }
    Ok(())
}
