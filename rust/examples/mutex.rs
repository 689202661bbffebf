//! Four threads count words' numbers in one map, under a mutex.
//!
//!     cd rust && cargo run --example mutex

use proved_congee::{Map, OutOfMemory};
use std::sync::Mutex;
use std::thread;

const THREADS: usize = 4;
const EACH: u64 = 10_000;
const WORDS: u64 = 100;

fn count_words(counts: &Mutex<Map>) -> Result<(), OutOfMemory> {
    for i in 0..EACH {
        counts.lock().expect("no thread panics").add(i % WORDS, 1)?;
    }
    Ok(())
}

fn main() -> Result<(), OutOfMemory> {
    let counts = Mutex::new(Map::new()?);
    thread::scope(|scope| {
        let threads: Vec<_> = (0..THREADS)
            .map(|_| scope.spawn(|| count_words(&counts)))
            .collect();
        threads
            .into_iter()
            .try_for_each(|thread| thread.join().expect("no thread panics"))
    })?;
    // The other threads are joined, so no lock is needed any more.
    let counts = counts.into_inner().expect("no thread panics");
    let of_the_last = counts.get(WORDS - 1).unwrap_or(0);
    println!(
        "{} words, the last of them {of_the_last} times",
        counts.len()
    );
    Ok(())
}
