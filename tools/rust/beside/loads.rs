//! The loads: which keys each thread calls with, and how long that takes.

use std::sync::Barrier;
use std::thread;
use std::time::Instant;

/// What one thread calls a map by. Values are above 0, and 0 is no value.
pub trait Calls {
    fn get(&mut self, key: u64) -> u64;

    /// Returns the value before, where the map returns it.
    fn insert(&mut self, key: u64, value: u64) -> u64;

    /// Returns the value that was removed.
    fn remove(&mut self, key: u64) -> u64;

    /// The sum of the keys and values of the first hundred pairs from this key on.
    fn range(&mut self, start: u64) -> u64;

    /// Adds 1 to the key's value by a closure, and returns the value before.
    fn compute(&mut self, _key: u64) -> u64 {
        unreachable!("it takes no closures")
    }
}

/// A map that threads share.
pub trait Shared: Sync {
    /// Whether it is ordered.
    const HAS_RANGES: bool = true;
    /// Whether it changes a value by a closure.
    const TAKES_CLOSURES: bool = false;
    /// Whether an insertion returns the value before.
    const RETURNS_BEFORE: bool = true;
    /// Whether look-ups of one key by all threads are timed.
    const HAS_HOT_KEY: bool = false;
    type Caller<'a>: Calls
    where
        Self: 'a;

    fn empty() -> Self;

    fn caller(&self) -> Self::Caller<'_>;
}

/// The keys of all loads.
pub struct Plan {
    /// In the order in which they are inserted: the first seven tenths before anything is timed.
    keys: Vec<u64>,
    /// All of them, shuffled.
    shuffled: Vec<u64>,
    /// The one load that is done. None for all.
    pub only: Option<String>,
}

fn next(state: &mut u64) -> u64 {
    // (splitmix64)
    *state = state.wrapping_add(0x9e3779b97f4a7c15);
    let z = (*state ^ (*state >> 30)).wrapping_mul(0xbf58476d1ce4e5b9);
    let z = (z ^ (z >> 27)).wrapping_mul(0x94d049bb133111eb);
    z ^ (z >> 31)
}

impl Plan {
    pub fn dense(count: usize) -> Plan {
        Plan::of((0..count as u64).collect())
    }

    pub fn random(count: usize) -> Plan {
        let mut seed = 1;
        Plan::of((0..count).map(|_| next(&mut seed)).collect())
    }

    fn of(keys: Vec<u64>) -> Plan {
        let (mut shuffled, mut seed) = (keys.clone(), 2);
        for at in (1..shuffled.len()).rev() {
            shuffled.swap(at, (next(&mut seed) % (at as u64 + 1)) as usize);
        }
        Plan {
            keys,
            shuffled,
            only: None,
        }
    }

    /// The keys of this load: none where it isn't done.
    fn of_load<'a>(&self, load: &str, keys: &'a [u64]) -> &'a [u64] {
        match &self.only {
            Some(only) if only != load => &[],
            _ => keys,
        }
    }
}

/// A load, how many calls it had, the nanoseconds of each, and the sum of what they returned, where that is one for all maps.
#[derive(Clone)]
pub struct Timed {
    pub load: &'static str,
    pub calls: usize,
    /// From the first thread's start to the last one's end.
    pub wall: f64,
    /// Of the processors, for all threads together.
    pub processor: f64,
    pub sum: Option<u64>,
}

/// What one thread did: from when to when, in how many nanoseconds of its processor, and the sum of what its calls returned.
struct Part {
    began: Instant,
    ended: Instant,
    processor: u64,
    sum: u64,
}

/// C's `struct timespec` on Linux.
#[repr(C)]
struct Timespec {
    seconds: i64,
    nanoseconds: i64,
}

extern "C" {
    fn clock_gettime(clock: i32, time: *mut Timespec) -> i32;
}

/// The nanoseconds that this thread has had of a processor.
fn processor_time() -> u64 {
    const CLOCK_THREAD_CPUTIME_ID: i32 = 3;
    let mut time = Timespec {
        seconds: 0,
        nanoseconds: 0,
    };
    // SAFETY: it writes to the place alone.
    unsafe { clock_gettime(CLOCK_THREAD_CPUTIME_ID, &mut time) };
    time.seconds as u64 * 1_000_000_000 + time.nanoseconds as u64
}

/// The value that the round with this number stores. Each round has one of its own.
fn value(key: u64, round: u64) -> u64 {
    key.wrapping_mul(5).wrapping_add(round) | 1 << 40
}

/// One call for each of these keys, and the sum of what they return. (A function of its own, so that its instructions can be counted.)
#[inline(never)]
fn each_key<C>(caller: &mut C, keys: &[u64], call: impl Fn(&mut C, usize, u64) -> u64) -> u64 {
    let each = keys.iter().enumerate();
    each.fold(0, |sum, (at, key)| sum.wrapping_add(call(caller, at, *key)))
}

/// A map, and by how many threads it is called.
struct Run<'a, M> {
    plan: &'a Plan,
    map: M,
    threads: usize,
}

impl<M: Shared> Run<'_, M> {
    /// Times one call for each of these keys, each thread with a part of them. `call` is handed how many keys come before its key,
    /// too. What it returns is summed up where that is one for all maps.
    fn timed(
        &self,
        load: &'static str,
        (keys, is_one): (&[u64], bool),
        call: impl Fn(&mut M::Caller<'_>, usize, u64) -> u64 + Sync,
    ) -> Timed {
        let keys = self.plan.of_load(load, keys);
        let start = Barrier::new(self.threads);
        let part = keys.len().div_ceil(self.threads).max(1);
        let parts: Vec<Part> = thread::scope(|scope| {
            let spawned: Vec<_> = (0..self.threads)
                .map(|number| {
                    let (start, call) = (&start, &call);
                    let own = keys.chunks(part).nth(number).unwrap_or(&[]);
                    scope.spawn(move || {
                        let mut caller = self.map.caller();
                        start.wait();
                        let (began, before) = (Instant::now(), processor_time());
                        let sum = each_key(&mut caller, own, call);
                        Part {
                            processor: processor_time() - before,
                            ended: Instant::now(),
                            began,
                            sum,
                        }
                    })
                })
                .collect();
            spawned
                .into_iter()
                .map(|it| it.join().expect("no thread panics"))
                .collect()
        });
        let began = parts.iter().map(|it| it.began).min().expect("a thread");
        let ended = parts.iter().map(|it| it.ended).max().expect("a thread");
        let each = |nanoseconds: u128| nanoseconds as f64 / keys.len() as f64;
        Timed {
            load,
            calls: keys.len(),
            wall: each((ended - began).as_nanos()),
            processor: each(parts.iter().map(|it| u128::from(it.processor)).sum()),
            sum: is_one.then_some(parts.iter().fold(0, |sum, it| sum.wrapping_add(it.sum))),
        }
    }

    /// Times one call for each of these keys, of which one in so many overwrites and the others read.
    fn mixed(&self, load: &'static str, keys: &[u64], one_in: usize, round: u64) -> Timed {
        self.timed(load, (keys, M::RETURNS_BEFORE), |it, at, key| {
            if at % one_in == 0 {
                it.insert(key, value(key, round))
            } else {
                it.get(key)
            }
        })
    }
}

/// A fresh map with these keys.
fn filled<M: Shared>(keys: &[u64]) -> M {
    let map = M::empty();
    let mut caller = map.caller();
    for key in keys {
        caller.insert(*key, value(*key, 0));
    }
    drop(caller);
    map
}

/// All loads on a fresh map with seven tenths of the keys, in their order: with all keys, where new ones aren't inserted.
pub fn take<M: Shared>(plan: &Plan, threads: usize) -> Vec<Timed> {
    let count = plan.keys.len();
    let (old, new) = plan.keys.split_at(count * 7 / 10);
    let has_new = !plan.of_load("new", new).is_empty();
    let run: Run<M> = Run {
        plan,
        map: filled(if has_new { old } else { &plan.keys }),
        threads,
    };
    let half = &plan.shuffled[..count / 2];
    let few = &half[..if M::HAS_RANGES { count / 200 } else { 0 }];
    let changed = &half[..if M::TAKES_CLOSURES { count / 2 } else { 0 }];
    let hot = vec![plan.shuffled[0]; if M::HAS_HOT_KEY { count / 2 } else { 0 }];
    let gone = &plan.shuffled[count * 7 / 10..];
    let before = M::RETURNS_BEFORE;
    vec![
        run.timed("new", (new, before), |it, _, key| {
            it.insert(key, value(key, 0))
        }),
        run.timed("get", (half, true), |it, _, key| it.get(key)),
        run.timed("overwrite", (half, before), |it, _, key| {
            it.insert(key, value(key, 1))
        }),
        run.timed("compute", (changed, true), |it, _, key| it.compute(key)),
        run.mixed("tenth", half, 10, 2),
        run.mixed("half", half, 2, 3),
        run.timed("range", (few, true), |it, _, key| it.range(key)),
        run.timed("hot", (&hot, true), |it, _, key| it.get(key)),
        run.timed("remove", (gone, true), |it, _, key| it.remove(key)),
    ]
}
