//! Times the drop-in and the crate `congee` by the same lines, each under its own name.
//!
//!     drop-in [--keys N] [--takes N] [--threads N].. [--map NAME] [--kind KIND] [--only LOAD]
//!
//! A line for each load, as `beside` has them: the kind of the keys, the map, the threads, the load, and for each call of all threads
//! together nanoseconds of wall time, and of the processors. With the last three words one map is called with one kind of keys, and all
//! keys are in it before its one load begins.

mod loads;

use congee::epoch;
use loads::{take, Calls, Plan, Shared, Timed};
use proved_congee::{LiveGuard, LiveMap, Pair};
use std::env;
use std::process::exit;

/// A thread with a map. It keeps its guard, and pins anew after 64 calls.
pub struct Caller<M> {
    map: M,
    guard: epoch::Guard,
    calls: usize,
}

impl<M> Caller<M> {
    fn of(map: M) -> Self {
        let guard = epoch::pin();
        let calls = 0;
        Caller { map, guard, calls }
    }

    fn pinned(&mut self) -> (&M, &epoch::Guard) {
        self.calls += 1;
        if self.calls % 64 == 0 {
            self.guard.repin();
        }
        (&self.map, &self.guard)
    }
}

/// What the drop-in calls. It needs no guard of an epoch, and its caller has one as the others do.
struct Beneath(LiveMap);

impl Calls for Caller<LiveGuard> {
    fn get(&mut self, key: u64) -> u64 {
        self.pinned().0.get(key).unwrap_or(0)
    }

    fn insert(&mut self, key: u64, value: u64) -> u64 {
        let before = self.pinned().0.insert(key, value);
        before.expect("there is memory").unwrap_or(0)
    }

    fn remove(&mut self, key: u64) -> u64 {
        self.pinned().0.remove(key).unwrap_or(0)
    }

    fn range(&mut self, start: u64) -> u64 {
        let mut page = [Pair::default(); 100];
        let found = self.pinned().0.read_range(start, u64::MAX, &mut page);
        page[..found].iter().fold(0, |sum, pair| {
            sum.wrapping_add(pair.key).wrapping_add(pair.value)
        })
    }
}

impl Shared for Beneath {
    type Caller<'a> = Caller<LiveGuard>;

    fn empty() -> Beneath {
        Beneath(LiveMap::new().expect("there is memory"))
    }

    fn caller(&self) -> Caller<LiveGuard> {
        Caller::of(self.0.pin().expect("there is memory"))
    }
}

/// The maps of a crate, of numbers and of owners of numbers.
macro_rules! maps_of {
    ($name:ident, $of:ident) => {
        mod $name {
            use crate::loads::{Calls, Shared};
            use crate::Caller;
            use std::sync::Arc;
            use $of::{Congee, CongeeArc};

            pub type Numbers = Congee<usize, usize>;

            impl Calls for Caller<&Numbers> {
                fn get(&mut self, key: u64) -> u64 {
                    let (map, guard) = self.pinned();
                    map.get(&(key as usize), guard).unwrap_or(0) as u64
                }

                fn insert(&mut self, key: u64, value: u64) -> u64 {
                    let (map, guard) = self.pinned();
                    let before = map.insert(key as usize, value as usize, guard);
                    before.expect("there is memory").unwrap_or(0) as u64
                }

                fn remove(&mut self, key: u64) -> u64 {
                    let (map, guard) = self.pinned();
                    map.remove(&(key as usize), guard).unwrap_or(0) as u64
                }

                fn range(&mut self, start: u64) -> u64 {
                    let mut page = [(0usize, 0usize); 100];
                    let (map, guard) = self.pinned();
                    let found = map.range(&(start as usize), &usize::MAX, &mut page, guard);
                    page[..found].iter().fold(0, |sum, (key, value)| {
                        sum.wrapping_add(*key as u64).wrapping_add(*value as u64)
                    })
                }

                fn compute(&mut self, key: u64) -> u64 {
                    let (map, guard) = self.pinned();
                    let one_more = |value: usize| Some(value.wrapping_add(1));
                    let both = map.compute_if_present(&(key as usize), one_more, guard);
                    both.map_or(0, |(before, _)| before as u64)
                }
            }

            impl Shared for Numbers {
                const TAKES_CLOSURES: bool = true;
                type Caller<'a> = Caller<&'a Numbers>;

                fn empty() -> Numbers {
                    Congee::default()
                }

                fn caller(&self) -> Caller<&Numbers> {
                    Caller::of(self)
                }
            }

            pub type Owners = CongeeArc<usize, u64>;

            impl Calls for Caller<&Owners> {
                fn get(&mut self, key: u64) -> u64 {
                    let (map, guard) = self.pinned();
                    map.get(key as usize, guard).map_or(0, |it| *it)
                }

                fn insert(&mut self, key: u64, value: u64) -> u64 {
                    let (map, guard) = self.pinned();
                    let before = map.insert(key as usize, Arc::new(value), guard);
                    before.expect("there is memory").map_or(0, |it| *it)
                }

                fn remove(&mut self, key: u64) -> u64 {
                    let (map, guard) = self.pinned();
                    map.remove(key as usize, guard).map_or(0, |it| *it)
                }

                fn range(&mut self, _start: u64) -> u64 {
                    unreachable!("it has no ranges")
                }

                fn compute(&mut self, key: u64) -> u64 {
                    let (map, guard) = self.pinned();
                    let one_more = |it: Arc<u64>| Some(Arc::new(it.wrapping_add(1)));
                    let before = map.compute_if_present(key as usize, one_more, guard);
                    before.map_or(0, |it| *it)
                }
            }

            impl Shared for Owners {
                const HAS_RANGES: bool = false;
                const TAKES_CLOSURES: bool = true;
                type Caller<'a> = Caller<&'a Owners>;

                fn empty() -> Owners {
                    CongeeArc::new()
                }

                fn caller(&self) -> Caller<&Owners> {
                    Caller::of(self)
                }
            }
        }
    };
}

maps_of!(of_drop_in, drop_in);
maps_of!(of_crate, congee);

/// One take of a map: its name, and all loads by so many threads.
type Take = (&'static str, fn(&Plan, usize) -> Vec<Timed>);

/// What is compared, the drop-in and the crate. The drop-in calls a guard, which takes no closures, and so is compared with none.
const SETS: [&[Take]; 3] = [
    &[("guard", take::<Beneath>)],
    &[
        ("numbers-here", take::<of_drop_in::Numbers>),
        ("numbers-there", take::<of_crate::Numbers>),
    ],
    &[
        ("owners-here", take::<of_drop_in::Owners>),
        ("owners-there", take::<of_crate::Owners>),
    ],
];

struct Asked {
    keys: usize,
    takes: usize,
    threads: Vec<usize>,
    map: Option<String>,
    kind: Option<String>,
    only: Option<String>,
}

fn usage() -> ! {
    eprintln!("usage: drop-in [--keys N] [--takes N] [--threads N].. [--map NAME] [--kind KIND] [--only LOAD]");
    exit(2)
}

fn asked() -> Asked {
    let mut asked = Asked {
        keys: 100_000,
        takes: 5,
        threads: vec![],
        map: None,
        kind: None,
        only: None,
    };
    let mut words = env::args().skip(1);
    while let Some(word) = words.next() {
        let Some(next) = words.next() else { usage() };
        match (word.as_str(), next.parse::<usize>()) {
            ("--keys", Ok(keys)) if keys >= 1000 => asked.keys = keys,
            ("--takes", Ok(takes)) if takes >= 1 => asked.takes = takes,
            ("--threads", Ok(threads)) if threads >= 1 => asked.threads.push(threads),
            ("--map", Err(_)) => asked.map = Some(next),
            ("--kind", Err(_)) => asked.kind = Some(next),
            ("--only", Err(_)) => asked.only = Some(next),
            _ => usage(),
        }
    }
    if asked.threads.is_empty() {
        asked.threads = vec![1, 2, 4];
    }
    asked
}

fn is_wanted(asked: &Option<String>, name: &str) -> bool {
    asked.as_deref().map_or(true, |it| it == name)
}

/// Whether two maps returned the same in each load that both did.
fn agree(one: &[Timed], other: &[Timed]) -> bool {
    let both = one
        .iter()
        .zip(other)
        .filter(|(a, b)| a.calls > 0 && b.calls > 0);
    both.into_iter().all(|(a, b)| a.sum == b.sum)
}

/// Times the maps of a set, each turn beginning with another one.
fn compare(set: &[Take], turn: usize, (kind, plan): (&str, &Plan), threads: usize, asked: &Asked) {
    let mut before: Vec<Vec<Timed>> = vec![];
    for at in 0..set.len() {
        let (name, take) = set[(at + turn) % set.len()];
        if !is_wanted(&asked.map, name) {
            continue;
        }
        let timed = take(plan, threads);
        for it in timed.iter().filter(|it| it.calls > 0) {
            let times = format!("{:.2} {:.2}", it.wall, it.processor);
            println!("{kind} {name} {threads} {} {times}", it.load);
        }
        if !before.iter().all(|it| agree(it, &timed)) {
            eprintln!("drop-in: wrong: {name} returns something else over {kind} keys, by {threads} threads");
            exit(1);
        }
        before.push(timed);
    }
}

fn main() {
    let asked = asked();
    for (kind, mut plan) in [
        ("dense", Plan::dense(asked.keys)),
        ("random", Plan::random(asked.keys)),
    ] {
        if !is_wanted(&asked.kind, kind) {
            continue;
        }
        plan.only.clone_from(&asked.only);
        for &threads in &asked.threads {
            for turn in 0..asked.takes {
                for set in SETS {
                    compare(set, turn, (kind, &plan), threads, &asked);
                }
            }
        }
    }
}
