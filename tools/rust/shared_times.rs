//! What calls cost on a map that threads share: nanoseconds of wall time for each call of all threads together, the least of so
//! many rounds, beside a `Map` and a `BTreeMap` in a `Mutex`.

use proved_congee::{Map, OutOfMemory, SharedMap};
use std::collections::BTreeMap;
use std::sync::{Barrier, Mutex};
use std::thread;
use std::time::Instant;

const CALLS: u32 = 200_000;
const ROUNDS: u32 = 5;

fn next(state: &mut u64) -> u64 {
    // (splitmix64)
    *state = state.wrapping_add(0x9e3779b97f4a7c15);
    let z = (*state ^ (*state >> 30)).wrapping_mul(0xbf58476d1ce4e5b9);
    let z = (z ^ (z >> 27)).wrapping_mul(0x94d049bb133111eb);
    z ^ (z >> 31)
}

/// The time of all calls, from the first thread's start to the last one's end. Each thread makes a call of its own first, and
/// then calls that with a key and whether it writes.
fn run<C: FnMut(u64, bool) -> u64>(
    threads: u32,
    writes: bool,
    keys: &[u64],
    call_of: impl Fn() -> C + Sync,
) -> f64 {
    let start = Barrier::new(threads as usize);
    let spans: Vec<(Instant, Instant)> = thread::scope(|scope| {
        let spawned: Vec<_> = (0..threads)
            .map(|number| {
                let (start, call_of) = (&start, &call_of);
                scope.spawn(move || {
                    let (mut call, mut seed, mut sum) = (call_of(), u64::from(number), 0u64);
                    start.wait();
                    let began = Instant::now();
                    for _ in 0..CALLS {
                        let it = next(&mut seed);
                        let key = keys[(it % keys.len() as u64) as usize];
                        sum = sum.wrapping_add(call(key, writes && it >> 63 == 1));
                    }
                    std::hint::black_box(sum);
                    (began, Instant::now())
                })
            })
            .collect();
        spawned
            .into_iter()
            .map(|it| it.join().expect("no thread panics"))
            .collect()
    });
    let began = spans.iter().map(|it| it.0).min().expect("a thread");
    let ended = spans.iter().map(|it| it.1).max().expect("a thread");
    (ended - began).as_nanos() as f64 / f64::from(CALLS) / f64::from(threads)
}

fn times(count: u64, is_dense: bool) -> Result<(), OutOfMemory> {
    let mut seed = 1;
    let keys: Vec<u64> = (0..count)
        .map(|i| if is_dense { i } else { next(&mut seed) })
        .collect();
    let plain = Mutex::new(BTreeMap::new());
    let (locked, shared) = (Mutex::new(Map::new()?), SharedMap::new()?);
    let guard = shared.pin()?;
    for key in &keys {
        plain.lock().expect("no thread panics").insert(*key, *key);
        locked
            .lock()
            .expect("no thread panics")
            .insert(*key, *key)?;
        guard.insert(*key, *key)?;
    }
    let in_btree = || {
        |key, writes| {
            let mut map = plain.lock().expect("no thread panics");
            let before = if writes {
                map.insert(key, key)
            } else {
                map.get(&key).copied()
            };
            before.unwrap_or(0)
        }
    };
    let in_mutex = || {
        |key, writes| {
            let mut map = locked.lock().expect("no thread panics");
            let before = if writes {
                map.insert(key, key).unwrap_or(None)
            } else {
                map.get(key)
            };
            before.unwrap_or(0)
        }
    };
    let by_guard = || {
        let guard = shared.pin().expect("there is memory");
        move |key, writes| {
            let before = if writes {
                guard.insert(key, key).unwrap_or(None)
            } else {
                guard.get(key)
            };
            before.unwrap_or(0)
        }
    };
    let kind = if is_dense { "dense" } else { "random" };
    for (writes, what) in [(false, "look-ups"), (true, "half writes")] {
        for threads in [1, 2, 4] {
            let mut least = [f64::MAX; 3];
            for _ in 0..ROUNDS {
                let round = [
                    run(threads, writes, &keys, in_btree),
                    run(threads, writes, &keys, in_mutex),
                    run(threads, writes, &keys, by_guard),
                ];
                least = std::array::from_fn(|at| least[at].min(round[at]));
            }
            let [btree, mutex, shared] = least;
            println!(
                "Rust  {count:8} {kind:6}  {what:11} by {threads}: Mutex<BTreeMap> {btree:7.1}  Mutex<Map> {mutex:7.1}  SharedMap {shared:7.1}"
            );
        }
    }
    Ok(())
}

fn main() -> Result<(), OutOfMemory> {
    for count in [10_000, 1_000_000] {
        times(count, true)?;
        times(count, false)?;
    }
    Ok(())
}
