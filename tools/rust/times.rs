//! What a call costs from Rust, in nanoseconds of the processor, and what it costs on a `BTreeMap`: the least of so many
//! rounds. Of the calls on all pairs, `retain` and `clear`, what they cost for each pair.

use proved_congee::{Map, Pair};
use std::collections::BTreeMap;
use std::hint::black_box;

const ROUNDS: usize = 7;
const PAGE: usize = 100;
const KINDS: [&str; 10] = [
    "insert",
    "get",
    "floor",
    "overwrite",
    "range of 100",
    "descending",
    "remove",
    "pop_first",
    "retain half",
    "clear",
];

extern "C" {
    /// The processor time of the program so far, in microseconds (C's `clock` on Linux).
    fn clock() -> i64;
}

fn now() -> f64 {
    // SAFETY: it takes nothing and may be called at any time.
    1000.0 * unsafe { clock() } as f64
}

fn next(state: &mut u64) -> u64 {
    // (splitmix64)
    *state = state.wrapping_add(0x9e3779b97f4a7c15);
    let z = (*state ^ (*state >> 30)).wrapping_mul(0xbf58476d1ce4e5b9);
    let z = (z ^ (z >> 27)).wrapping_mul(0x94d049bb133111eb);
    z ^ (z >> 31)
}

trait Timed {
    fn fresh() -> Self;
    fn put(&mut self, key: u64, value: u64) -> Option<u64>;
    fn look_up(&self, key: u64) -> Option<u64>;
    fn floor(&self, key: u64) -> Option<(u64, u64)>;
    fn read(&self, key: u64, page: &mut [Pair; PAGE]) -> usize;
    fn read_back(&self, key: u64, page: &mut [Pair; PAGE]) -> usize;
    fn pop(&mut self) -> Option<(u64, u64)>;
    fn take(&mut self, key: u64) -> Option<u64>;
    fn keep_odd_values(&mut self);
    fn empty(&mut self);
}

impl Timed for Map {
    fn fresh() -> Self {
        Map::new().unwrap()
    }
    fn put(&mut self, key: u64, value: u64) -> Option<u64> {
        self.insert(key, value).unwrap()
    }
    fn look_up(&self, key: u64) -> Option<u64> {
        self.get(key)
    }
    fn floor(&self, key: u64) -> Option<(u64, u64)> {
        Map::floor(self, key)
    }
    fn read(&self, key: u64, page: &mut [Pair; PAGE]) -> usize {
        self.read_range(key, u64::MAX, page)
    }
    fn read_back(&self, key: u64, page: &mut [Pair; PAGE]) -> usize {
        self.read_range_descending(0, key, page)
    }
    fn pop(&mut self) -> Option<(u64, u64)> {
        self.pop_first()
    }
    fn take(&mut self, key: u64) -> Option<u64> {
        self.remove(key)
    }
    fn keep_odd_values(&mut self) {
        self.retain(|_, value| value % 2 == 1)
    }
    fn empty(&mut self) {
        self.clear()
    }
}

impl Timed for BTreeMap<u64, u64> {
    fn fresh() -> Self {
        BTreeMap::new()
    }
    fn put(&mut self, key: u64, value: u64) -> Option<u64> {
        self.insert(key, value)
    }
    fn look_up(&self, key: u64) -> Option<u64> {
        self.get(&key).copied()
    }
    fn floor(&self, key: u64) -> Option<(u64, u64)> {
        let (&key, &value) = self.range(..=key).next_back()?;
        Some((key, value))
    }
    fn read_back(&self, key: u64, page: &mut [Pair; PAGE]) -> usize {
        let mut count = 0;
        for (place, (&key, &value)) in page.iter_mut().zip(self.range(..=key).rev()) {
            *place = Pair { key, value };
            count += 1;
        }
        count
    }
    fn pop(&mut self) -> Option<(u64, u64)> {
        self.pop_first()
    }
    fn read(&self, key: u64, page: &mut [Pair; PAGE]) -> usize {
        let mut count = 0;
        for (place, (&key, &value)) in page.iter_mut().zip(self.range(key..u64::MAX)) {
            *place = Pair { key, value };
            count += 1;
        }
        count
    }
    fn take(&mut self, key: u64) -> Option<u64> {
        self.remove(&key)
    }
    fn keep_odd_values(&mut self) {
        self.retain(|_, value| *value % 2 == 1)
    }
    fn empty(&mut self) {
        self.clear()
    }
}

fn make<M: Timed>(map: &mut M, kind: usize, keys: &[u64]) {
    let mut page = [Pair::default(); PAGE];
    for (i, &key) in keys.iter().enumerate() {
        match kind {
            0 | 3 => _ = black_box(map.put(key, i as u64)),
            1 => _ = black_box(map.look_up(key)),
            2 => _ = black_box(map.floor(key ^ 1)),
            4 => _ = black_box(map.read(key, &mut page)),
            5 => _ = black_box(map.read_back(key, &mut page)),
            6 => _ = black_box(map.take(key)),
            _ => _ = black_box(map.pop()),
        }
    }
}

fn times<M: Timed>(name: &str, keys: &[u64], what: &str) {
    let mut least = [f64::MAX; KINDS.len()];
    for _ in 0..ROUNDS {
        let mut map = M::fresh();
        for (kind, least) in least.iter_mut().enumerate() {
            if kind >= 7 {
                make(&mut map, 0, keys);
            }
            let calls = if kind == 4 || kind == 5 {
                keys.len().min(20000)
            } else {
                keys.len()
            };
            let start = now();
            match kind {
                8 => map.keep_odd_values(),
                9 => map.empty(),
                _ => make(&mut map, kind, &keys[..calls]),
            }
            *least = least.min((now() - start) / calls as f64);
        }
    }
    print!("{name:5} {:8} {what:6}", keys.len());
    for (kind, time) in KINDS.iter().zip(least) {
        print!("  {kind} {time:6.1}");
    }
    println!();
}

fn main() {
    for n in [10_000, 1_000_000] {
        let mut seed = 1;
        let dense: Vec<u64> = (0..n).collect();
        let random: Vec<u64> = (0..n).map(|_| next(&mut seed)).collect();
        for (keys, what) in [(&dense, "dense"), (&random, "random")] {
            times::<Map>("Rust", keys, what);
            times::<BTreeMap<u64, u64>>("BTree", keys, what);
        }
    }
}
