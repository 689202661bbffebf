//! A cache of objects that threads share. Who finds an object reads it by a loan, which counts no reference, or keeps an `Arc`. Now
//! and then a thread removes an object that others may be reading. It is dropped once nobody has it.
//!
//!     cd rust && cargo run --example object_cache

use proved_congee::{LiveArcGuard, LiveArcMap, PinError};
use std::error::Error;
use std::sync::atomic::{AtomicU64, Ordering};
use std::sync::Arc;
use std::thread;

const THREADS: u64 = 4;
const QUESTIONS: u64 = 20_000;
const NUMBERS: u64 = 2000;

static MADE: AtomicU64 = AtomicU64::new(0);
static DROPPED: AtomicU64 = AtomicU64::new(0);

/// What the cache has for a number.
struct Answer {
    number: u64,
    steps: u64,
}

impl Answer {
    /// The steps from a number down to 1, where an even one is halved, and an odd one is tripled and raised by 1.
    fn new(number: u64) -> Answer {
        let (mut at, mut steps) = (number, 0);
        while at > 1 {
            at = if at % 2 == 1 { 3 * at + 1 } else { at / 2 };
            steps += 1;
        }
        MADE.fetch_add(1, Ordering::SeqCst);
        Answer { number, steps }
    }

    fn is_longer(&self, other: &Answer) -> bool {
        self.steps > other.steps || (self.steps == other.steps && self.number < other.number)
    }
}

impl Drop for Answer {
    fn drop(&mut self) {
        DROPPED.fetch_add(1, Ordering::SeqCst);
    }
}

/// The steps of a number, out of the cache where it is there.
fn steps_of(cache: &mut LiveArcGuard<Answer>, number: u64) -> u64 {
    if let Some(answer) = cache.get(number) {
        return answer.steps;
    }
    let answer = Arc::new(Answer::new(number));
    let steps = answer.steps;
    // (without memory the answer isn't kept)
    let _ = cache.insert_absent(number, answer);
    steps
}

/// The longer one of an answer so far and that of a number.
fn longer(
    cache: &mut LiveArcGuard<Answer>,
    number: u64,
    before: Option<Arc<Answer>>,
) -> Arc<Answer> {
    let found = cache
        .get_arc(number)
        .unwrap_or_else(|| Arc::new(Answer::new(number)));
    match before {
        Some(before) if !found.is_longer(&before) => before,
        _ => found,
    }
}

/// The sum of a thread's answers, and the longest of them.
fn ask(mut cache: LiveArcGuard<Answer>, mut state: u64) -> (u64, Option<Arc<Answer>>) {
    let (mut sum, mut longest) = (0, None);
    for i in 0..QUESTIONS {
        state = state
            .wrapping_mul(6364136223846793005)
            .wrapping_add(1442695040888963407);
        let number = 1 + (state >> 33) % NUMBERS;
        sum += steps_of(&mut cache, number);
        longest = Some(longer(&mut cache, number, longest));
        if i % 16 == 0 {
            cache.remove(number);
        }
    }
    (sum, longest)
}

fn main() -> Result<(), Box<dyn Error>> {
    let cache = LiveArcMap::new()?;
    let guards = (0..THREADS)
        .map(|_| cache.pin())
        .collect::<Result<Vec<_>, PinError>>()?;
    drop(cache);
    let threads: Vec<_> = (0..)
        .zip(guards)
        .map(|(number, guard)| thread::spawn(move || ask(guard, number)))
        .collect();
    let (mut sum, mut longest) = (0, None::<Arc<Answer>>);
    for thread in threads {
        let (of_thread, answer) = thread.join().expect("the thread doesn't panic");
        sum += of_thread;
        longest = [longest, answer]
            .into_iter()
            .flatten()
            .reduce(|one, other| if other.is_longer(&one) { other } else { one });
    }
    let answers = THREADS * QUESTIONS;
    println!("{THREADS} threads got {answers} answers, {sum} steps in all");
    // (the cache has ended with its last guard, and an `Arc` outlives it)
    if let Some(Answer { number, steps }) = longest.as_deref() {
        println!("the longest is of {number}, with {steps} steps");
    }
    drop(longest);
    let is_each = MADE.load(Ordering::SeqCst) == DROPPED.load(Ordering::SeqCst);
    println!(
        "{} object is freed",
        if is_each { "each" } else { "not each" }
    );
    Ok(())
}
