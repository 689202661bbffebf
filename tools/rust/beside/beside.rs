//! Times maps that threads share by the same loads, all maps in one process and in turns.
//!
//!     beside [--keys N] [--takes N] [--threads N].. [--owners]
//!
//! A line for each load: the kind of the keys, the map, the threads, the load, and for each call of all threads together nanoseconds
//! of wall time, and of the processors. What the calls return is summed up, and the sums of all maps have to agree. A map that a
//! feature names is there where that is set (`tools/dev/compare-crates`). With `--owners` the maps of objects are timed alone.

// (without cargo nobody lists the features)
#![allow(unexpected_cfgs)]

mod loads;
mod maps;
mod owners;

use loads::{take, Plan, Timed};
use std::env;
use std::process::exit;

/// One take of a map: its name, and all loads by so many threads.
type Take = fn(&Plan, usize) -> Vec<Timed>;

const MAPS: &[(&str, Take)] = &[
    ("live", take::<proved_congee::LiveMap>),
    ("shards", take::<maps::Sharded>),
    ("lock", take::<maps::Locked>),
    #[cfg(feature = "congee")]
    ("congee", take::<maps::Crate>),
    #[cfg(feature = "crossbeam-skiplist")]
    ("skiplist", take::<maps::SkipList>),
    #[cfg(feature = "dashmap")]
    ("dashmap", take::<maps::Hashed>),
    ("btree", take::<maps::InMutex>),
];

/// The maps of objects.
const OWNERS: &[(&str, Take)] = &[
    ("lent", take::<owners::Lent>),
    ("counted", take::<owners::Counted>),
    #[cfg(feature = "congee")]
    ("congee-arc", take::<owners::Crate>),
    ("btree-arc", take::<owners::InMutex>),
];

struct Asked {
    maps: &'static [(&'static str, Take)],
    keys: usize,
    takes: usize,
    threads: Vec<usize>,
}

fn usage() -> ! {
    eprintln!("usage: beside [--keys N] [--takes N] [--threads N].. [--owners]");
    exit(2)
}

fn asked() -> Asked {
    let mut asked = Asked {
        maps: MAPS,
        keys: 1_000_000,
        takes: 5,
        threads: vec![],
    };
    let mut words = env::args().skip(1);
    while let Some(word) = words.next() {
        if word == "--owners" {
            asked.maps = OWNERS;
            continue;
        }
        let number: Option<usize> = words.next().and_then(|it| it.parse().ok());
        match (word.as_str(), number) {
            ("--keys", Some(keys)) if keys >= 1000 => asked.keys = keys,
            ("--takes", Some(takes)) if takes >= 1 => asked.takes = takes,
            ("--threads", Some(threads)) if threads >= 1 => asked.threads.push(threads),
            _ => usage(),
        }
    }
    if asked.threads.is_empty() {
        asked.threads = vec![1, 2, 4];
    }
    asked
}

/// Whether two maps returned the same in each load whose answers both sum up.
fn agree(one: &[Timed], other: &[Timed]) -> bool {
    one.iter().zip(other).all(|(a, b)| match (a.sum, b.sum) {
        (Some(sum), Some(wanted)) if a.calls > 0 && b.calls > 0 => sum == wanted,
        _ => true,
    })
}

fn main() {
    let asked = asked();
    for (kind, plan) in [
        ("dense", Plan::dense(asked.keys)),
        ("random", Plan::random(asked.keys)),
    ] {
        for &threads in &asked.threads {
            let mut first: Option<Vec<Timed>> = None;
            for turn in 0..asked.takes {
                for place in 0..asked.maps.len() {
                    // (each take begins with another map)
                    let (name, take) = asked.maps[(place + turn) % asked.maps.len()];
                    let timed = take(&plan, threads);
                    for it in timed.iter().filter(|it| it.calls > 0) {
                        let times = format!("{:.2} {:.2}", it.wall, it.processor);
                        println!("{kind} {name} {threads} {} {times}", it.load);
                    }
                    if !agree(&timed, first.get_or_insert_with(|| timed.clone())) {
                        eprintln!("beside: wrong: {name} returns something else over {kind} keys, by {threads} threads");
                        exit(1);
                    }
                }
            }
        }
    }
}
