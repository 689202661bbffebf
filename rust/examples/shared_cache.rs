//! A cache of answers that threads share, within a limit of memory. Where that is reached, the answers to the least numbers go.
//!
//!     cd rust && cargo run --example shared_cache

use proved_congee::{Guard, OutOfMemory, SharedMap};
use std::thread;

const THREADS: u64 = 4;
const QUESTIONS: u64 = 20_000;
const NUMBERS: u64 = 5000;
const LIMIT: u64 = 20_000;

/// The steps from a number down to 1, where an even one is halved, and an odd one is tripled and raised by 1.
fn count_steps(mut number: u64) -> u64 {
    let mut steps = 0;
    while number > 1 {
        number = if number % 2 == 1 {
            3 * number + 1
        } else {
            number / 2
        };
        steps += 1;
    }
    steps
}

/// The same, out of the cache where it is there.
fn steps_of(cache: &Guard, number: u64) -> u64 {
    if let Some(steps) = cache.get(number) {
        return steps;
    }
    let steps = count_steps(number);
    while cache.insert(number, steps).is_err() && cache.pop_first().is_some() {}
    steps
}

/// The sum of a thread's answers.
fn ask(cache: &SharedMap, mut state: u64) -> Result<u64, OutOfMemory> {
    let guard = cache.pin()?;
    let mut sum = 0;
    for _ in 0..QUESTIONS {
        state = state
            .wrapping_mul(6364136223846793005)
            .wrapping_add(1442695040888963407);
        sum += steps_of(&guard, 1 + (state >> 33) % NUMBERS);
    }
    Ok(sum)
}

fn main() -> Result<(), OutOfMemory> {
    let cache = SharedMap::with_limit(LIMIT)?;
    let sum: u64 = thread::scope(|scope| {
        let threads: Vec<_> = (0..THREADS)
            .map(|number| {
                let cache = &cache;
                scope.spawn(move || ask(cache, number))
            })
            .collect();
        threads
            .into_iter()
            .map(|thread| thread.join().expect("the thread doesn't panic"))
            .sum::<Result<u64, OutOfMemory>>()
    })?;
    let answers = THREADS * QUESTIONS;
    println!("{THREADS} threads got {answers} answers, {sum} steps in all");
    let is_within = cache.pin()?.charged() <= LIMIT;
    let place = if is_within { "within" } else { "past" };
    println!("the cache is {place} its {LIMIT} bytes");
    Ok(())
}
