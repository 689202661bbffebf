//! Guards of a `SharedMap`: a million mixed calls by two of them in turn, each answer compared with that of a `BTreeMap`. Then
//! threads that change one map by every call, so that sums and counts have to agree. Each with a map under one lock, and with one
//! in shards.

use proved_congee::{Busy, Guard, Map, OutOfMemory, Pair, SharedMap, TryError};
use std::collections::BTreeMap;
use std::sync::atomic::{AtomicBool, AtomicU64, Ordering};
use std::sync::OnceLock;
use std::thread;

const CALLS: u64 = 1_000_000;
const FEWER: u64 = 100_000;
const THREADS: u64 = 4;
const EACH: u64 = 50_000;

fn next(state: &mut u64) -> u64 {
    // (splitmix64)
    *state = state.wrapping_add(0x9e3779b97f4a7c15);
    let z = (*state ^ (*state >> 30)).wrapping_mul(0xbf58476d1ce4e5b9);
    let z = (z ^ (z >> 27)).wrapping_mul(0x94d049bb133111eb);
    z ^ (z >> 31)
}

/// One of 4096 keys, 0 and `u64::MAX` among them.
fn key(state: &mut u64) -> u64 {
    (next(state) % 4096).wrapping_mul(0x0010010010010010) | (next(state) % 2 * 0xf)
}

type Plain = BTreeMap<u64, u64>;

fn pair(found: Option<(&u64, &u64)>) -> Option<(u64, u64)> {
    found.map(|(key, value)| (*key, *value))
}

/// What a call that compares returns, and whether it finds the expected value.
fn compared(plain: &Plain, at: u64, expected: u64) -> Result<(), Option<u64>> {
    match plain.get(&at).copied() {
        Some(current) if current == expected => Ok(()),
        current => Err(current),
    }
}

fn change(guard: &Guard, plain: &mut Plain, at: u64, value: u64, seed: &mut u64) {
    // (one thread calls, so no call is busy)
    let waits = next(seed) % 2 == 0;
    match next(seed) % 9 {
        0..=2 => {
            let wanted = plain.insert(at, value);
            match waits {
                true => assert_eq!(guard.insert(at, value), Ok(wanted)),
                false => assert_eq!(guard.try_insert(at, value), Ok(wanted)),
            }
        }
        3 => {
            let wanted = plain.remove(&at);
            match waits {
                true => assert_eq!(guard.remove(&at), wanted),
                false => assert_eq!(guard.try_remove(at), Ok(wanted)),
            }
        }
        4 => {
            let wanted = plain.get(&at).copied();
            let number = value.wrapping_sub(2);
            plain.insert(at, wanted.unwrap_or(0).wrapping_add(number));
            match waits {
                true => assert_eq!(guard.add(at, number), Ok(wanted)),
                false => assert_eq!(guard.try_add(at, number), Ok(wanted)),
            }
        }
        5 => {
            let before = plain.get(&at).copied();
            let wanted = *plain.entry(at).or_insert(value);
            match (waits, value) {
                (true, 0) => assert_eq!(guard.insert_absent(at, value), Ok(before)),
                (true, 1) => assert_eq!(guard.get_or_insert_with(at, || value), Ok(wanted)),
                (true, _) => assert_eq!(guard.get_or_insert(at, value), Ok(wanted)),
                (false, 0) => assert_eq!(guard.try_insert_absent(at, value), Ok(before)),
                (false, _) => assert_eq!(guard.try_get_or_insert(at, value), Ok(wanted)),
            }
        }
        6 => {
            let expected = next(seed) % 4;
            let wanted = compared(plain, at, expected);
            if wanted.is_ok() {
                plain.insert(at, value);
            }
            match waits {
                true => assert_eq!(guard.compare_exchange(at, expected, value), wanted),
                false => assert_eq!(guard.try_compare_exchange(at, expected, value), Ok(wanted)),
            }
        }
        7 => {
            let wanted = compared(plain, at, value);
            if wanted.is_ok() {
                plain.remove(&at);
            }
            match waits {
                true => assert_eq!(guard.compare_remove(at, value), wanted),
                false => assert_eq!(guard.try_compare_remove(at, value), Ok(wanted)),
            }
        }
        _ => {
            let halved = |current: Option<u64>| current.map(|it| it / 2).filter(|it| *it > 0);
            let wanted = plain.remove(&at);
            if let Some(half) = halved(wanted) {
                plain.insert(at, half);
            }
            match waits {
                true => assert_eq!(guard.compute(at, halved), Ok(wanted)),
                false => assert_eq!(guard.try_compute(at, halved), Ok(wanted)),
            }
        }
    }
}

fn look(guard: &Guard, plain: &Plain, at: u64, seed: &mut u64) {
    let waits = next(seed) % 2 == 0;
    let wanted = [
        pair(plain.first_key_value()),
        pair(plain.last_key_value()),
        pair(plain.range(..=at).next_back()),
        pair(plain.range(..at).next_back()),
        pair(plain.range(at..).next()),
        at.checked_add(1)
            .and_then(|above| pair(plain.range(above..).next())),
    ];
    let found = match waits {
        true => [
            guard.first(),
            guard.last(),
            guard.floor(at),
            guard.below(at),
            guard.ceiling(at),
            guard.above(at),
        ],
        false => [
            guard.try_first(),
            guard.try_last(),
            guard.try_floor(at),
            guard.try_below(at),
            guard.try_ceiling(at),
            guard.try_above(at),
        ]
        .map(|found| found.expect("no other thread calls")),
    };
    assert_eq!(found, wanted);
    let wanted = plain.get(&at).copied();
    assert_eq!((guard.get(at), guard.try_get(&at)), (wanted, Ok(wanted)));
    assert_eq!(guard.contains_key(&at), wanted.is_some());
    assert_eq!(
        (guard.len(), guard.try_len()),
        (plain.len(), Ok(plain.len()))
    );
    assert_eq!(guard.is_empty(), plain.is_empty());
    assert_eq!(guard.try_is_empty(), Ok(plain.is_empty()));
    assert_eq!(guard.try_charged(), Ok(guard.charged()));
}

fn scan(guard: &Guard, plain: &Plain, at: u64, seed: &mut u64) {
    let last = at.saturating_add(next(seed) % (1 << 60));
    let mut pages = [[Pair::default(); 20]; 4];
    let n = (next(seed) % 21) as usize;
    let [exclusive, inclusive, descending, tried] = &mut pages;
    let read = [
        guard.read_range(at, last, &mut exclusive[..n]),
        guard.read_range_inclusive(at, last, &mut inclusive[..n]),
        guard.read_range_descending(at, last, &mut descending[..n]),
        guard
            .try_read_range_descending(at, last, &mut tried[..n])
            .expect("no other thread calls"),
    ];
    let pairs = |page: usize| {
        pages[page][..read[page]]
            .iter()
            .map(|it| (it.key, it.value))
    };
    let wanted = || plain.range(at..=last).map(|(key, value)| (*key, *value));
    assert!(pairs(0).eq(wanted().filter(|it| it.0 < last).take(n)));
    assert!(pairs(1).eq(wanted().take(n)));
    assert!(pairs(2).eq(wanted().rev().take(n)) && pairs(3).eq(wanted().rev().take(n)));
    assert!(guard.range(at..=last).take(100).eq(wanted().take(100)));
    assert!(guard
        .range(at..=last)
        .rev()
        .take(100)
        .eq(wanted().rev().take(100)));
}

fn end(guard: &Guard, plain: &mut Plain, at: u64, seed: &mut u64) {
    match next(seed) % 512 {
        0 => {
            guard.clear();
            plain.clear();
        }
        10 => {
            let copy = guard.snapshot().expect("there is memory");
            assert!(copy.iter().eq(plain.iter().map(|it| (*it.0, *it.1))));
            assert_eq!(copy.limit(), u64::MAX);
        }
        11 => {
            let more = (0..100).map(|i| (at.wrapping_add(i << 30), i));
            assert!(guard.extend(more.clone()).is_ok());
            plain.extend(more);
        }
        1 => {
            guard.retain(|key, value| (key ^ value) % 4 > 0);
            plain.retain(|key, value| (*key ^ *value) % 4 > 0);
        }
        2..=9 => {
            let last = at.saturating_add(1 << 50);
            let keys: Vec<u64> = plain.range(at..=last).map(|(key, _)| *key).collect();
            assert_eq!(guard.remove_range(at..=last), keys.len() as u64);
            for key in keys {
                plain.remove(&key);
            }
        }
        it if it % 8 == 6 => {
            let wanted = plain.first_entry().filter(|it| *it.key() <= at);
            let wanted = wanted.map(|it| it.remove_entry());
            match it % 16 {
                6 => assert_eq!(guard.pop_first_to(at), wanted),
                _ => assert_eq!(guard.try_pop_first_to(at), Ok(wanted)),
            }
        }
        it if it % 8 == 7 => {
            let wanted = plain.last_entry().filter(|it| *it.key() >= at);
            let wanted = wanted.map(|it| it.remove_entry());
            match it % 16 {
                7 => assert_eq!(guard.pop_last_from(at), wanted),
                _ => assert_eq!(guard.try_pop_last_from(at), Ok(wanted)),
            }
        }
        it if it % 4 == 0 => assert_eq!(guard.pop_first(), plain.pop_first()),
        it if it % 4 == 1 => assert_eq!(guard.pop_last(), plain.pop_last()),
        it if it % 4 == 2 => assert_eq!(guard.try_pop_first(), Ok(plain.pop_first())),
        _ => assert_eq!(guard.try_pop_last(), Ok(plain.pop_last())),
    }
}

/// Pops that are tried, of the least key and the greatest one, and copies of both.
fn tried(guard: &Guard) {
    for (key, found) in [(0, Ok(Some((0, 5)))), (u64::MAX, Ok(Some((u64::MAX, 5))))] {
        for pop in [Guard::try_pop_first, Guard::try_pop_last] {
            assert_eq!(guard.insert(key, 5), Ok(None));
            assert!(guard
                .snapshot()
                .expect("there is memory")
                .iter()
                .eq([(key, 5)]));
            assert_eq!((pop(guard), pop(guard)), (found, Ok(None)));
        }
        for pop in [Guard::try_pop_first_to, Guard::try_pop_last_from] {
            assert_eq!(guard.insert(key, 5), Ok(None));
            assert_eq!((pop(guard, key), pop(guard, key)), (found, Ok(None)));
        }
        assert_eq!(guard.insert(7, 5), Ok(None));
        assert_eq!(
            (guard.try_pop_first_to(6), guard.try_pop_last_from(8)),
            (Ok(None), Ok(None))
        );
        assert_eq!(guard.remove(7), Some(5));
    }
}

fn is_busy<T>(answer: Result<T, impl Into<TryError>>) -> bool {
    matches!(answer.map_err(Into::into), Err(TryError::Busy))
}

/// Where each call of the library is busy, each call that is tried returns so at once.
fn all_busy(guard: &Guard) {
    let mut page = [Pair::default(); 4];
    let busy = [
        is_busy(guard.try_get(7)),
        is_busy(guard.try_insert(7, 70)),
        is_busy(guard.try_get_or_insert(7, 70)),
        is_busy(guard.try_insert_absent(7, 70)),
        is_busy(guard.try_add(7, 70)),
        is_busy(guard.try_compute(7, |it| it)),
        is_busy(guard.try_remove(7)),
        is_busy(guard.try_compare_exchange(7, 70, 71)),
        is_busy(guard.try_compare_remove(7, 70)),
        is_busy(guard.try_first()),
        is_busy(guard.try_last()),
        is_busy(guard.try_floor(7)),
        is_busy(guard.try_ceiling(7)),
        is_busy(guard.try_below(7)),
        is_busy(guard.try_above(7)),
        is_busy(guard.try_pop_first()),
        is_busy(guard.try_pop_last()),
        is_busy(guard.try_pop_first_to(7)),
        is_busy(guard.try_pop_last_from(7)),
        is_busy(guard.try_read_range(1, 9, &mut page)),
        is_busy(guard.try_read_range_inclusive(1, 9, &mut page)),
        is_busy(guard.try_read_range_descending(1, 9, &mut page)),
        is_busy(guard.try_is_empty()),
        is_busy(guard.try_len()),
        is_busy(guard.try_clear()),
        is_busy(guard.try_charged()),
        is_busy(guard.try_usage()),
    ];
    assert_eq!(busy.iter().position(|it| !it), None);
}

fn against_btree(map: SharedMap, calls: u64) -> Result<(), OutOfMemory> {
    let guards = [map.pin()?, map.try_clone()?.pin()?];
    let (mut plain, mut seed) = (Plain::new(), 7);
    for call in 0..calls {
        let guard = &guards[(call % 2) as usize];
        let (at, value) = (key(&mut seed), next(&mut seed) % 4);
        match next(&mut seed) % 16 {
            0..=11 => change(guard, &mut plain, at, value, &mut seed),
            12 => look(guard, &plain, at, &mut seed),
            13 => scan(guard, &plain, at, &mut seed),
            _ => end(guard, &mut plain, at, &mut seed),
        }
    }
    assert!(guards[0]
        .iter()
        .eq(plain.iter().map(|(key, value)| (*key, *value))));
    assert!(guards[1].keys().rev().eq(plain.keys().rev().copied()));
    assert_eq!(
        (map.charged(), map.usage()),
        (guards[0].charged(), guards[1].usage())
    );
    assert_eq!((map.limit(), guards[1].limit()), (u64::MAX, u64::MAX));
    drop(map);
    assert!(guards[1].values().eq(plain.values().copied()));
    Ok(())
}

/// A thread's calls. Each adds to a counter by one of the ways to, and a call that doesn't wait is made again while it is busy.
fn raise(guard: &Guard, number: u64) -> Result<(), OutOfMemory> {
    for i in 0..EACH {
        // (of 16 shards, where there are shards)
        let at = ((i * 7 + number) % 16) << 8;
        match i % 4 {
            0 => {
                guard.add(at, 1)?;
            }
            1 => {
                let raised = |current: Option<u64>| Some(current.unwrap_or(0) + 1);
                match guard.try_compute(at, raised) {
                    Err(TryError::Busy) => guard.compute(at, raised)?,
                    Err(TryError::OutOfMemory) => return Err(OutOfMemory),
                    Ok(before) => before,
                };
            }
            2 => loop {
                match guard.try_add(at, 1) {
                    Ok(_) => break,
                    Err(TryError::Busy) => thread::yield_now(),
                    Err(TryError::OutOfMemory) => return Err(OutOfMemory),
                }
            },
            _ => {
                let mut current = guard.get_or_insert(at, 0)?;
                while let Err(found) = guard.compare_exchange(at, current, current + 1) {
                    current = found.expect("no counter goes");
                }
            }
        }
        // (pages are of one moment each: keys ascend)
        if i % 64 == 0 {
            let keys: Vec<u64> = guard.keys().collect();
            assert!(keys.windows(2).all(|it| it[0] < it[1]) && keys.len() <= 16);
        }
        match guard.try_get(at) {
            Ok(value) => assert!(value.is_some()),
            Err(Busy) => {}
        }
    }
    Ok(())
}

fn side_by_side(map: SharedMap) -> Result<(), OutOfMemory> {
    thread::scope(|scope| {
        let threads: Vec<_> = (0..THREADS)
            .map(|number| {
                let map = &map;
                scope.spawn(move || raise(&map.pin()?, number))
            })
            .collect();
        threads
            .into_iter()
            .try_for_each(|it| it.join().expect("no thread panics"))
    })?;
    let guard = map.pin()?;
    // (a guard outlives the map that it is of, on any thread)
    drop(map);
    let sum = thread::spawn(move || guard.values().sum::<u64>());
    assert_eq!(sum.join().expect("no thread panics"), THREADS * EACH);
    Ok(())
}

/// Copies beside threads that count up the greater of two keys first: each page is of one moment, and a later page of a later one. So
/// each key of a copy is at least as far as the lower keys.
fn copies_beside(map: SharedMap) -> Result<(), OutOfMemory> {
    let guard = map.pin()?;
    guard.extend((0..200).map(|key| (key << 8, 0)))?;
    thread::scope(|scope| {
        let writer = map.pin()?;
        scope.spawn(move || {
            for round in 1..=300 {
                for key in (0..200).rev() {
                    assert_eq!(writer.insert(key << 8, round), Ok(Some(round - 1)));
                }
            }
        });
        for _ in 0..100 {
            let copy = guard.snapshot()?;
            let rounds: Vec<u64> = copy.values().collect();
            assert!(rounds.len() == 200 && rounds.windows(2).all(|it| it[0] <= it[1]));
        }
        Ok::<(), OutOfMemory>(())
    })?;
    assert_eq!(guard.snapshot(), Map::try_from_iter(&guard));
    Ok(())
}

/// Pops the keys up to a bound, or from it on, until none is found and no thread inserts any more.
fn pops(guard: &Guard, inserting: &AtomicBool, up: bool) -> Vec<(u64, u64)> {
    let mut got = Vec::new();
    loop {
        // (asked first: what was inserted before is there)
        let may_come = inserting.load(Ordering::SeqCst);
        let found = match (up, got.len() % 2) {
            (true, 0) => Ok(guard.pop_first_to(31)),
            (true, _) => guard.try_pop_first_to(31),
            (false, 0) => Ok(guard.pop_last_from(31)),
            (false, _) => guard.try_pop_last_from(31),
        };
        match found {
            Ok(Some(pair)) => {
                assert!(pair.0 == 31 || (pair.0 < 31) == up);
                got.push(pair);
            }
            Ok(None) if !may_come => return got,
            Ok(None) | Err(Busy) => thread::yield_now(),
        }
    }
}

/// Four threads pop with a bound, beside two that insert: each pair goes to one of them, and none is lost.
fn each_pair_to_one(map: SharedMap) -> Result<(), OutOfMemory> {
    let inserting = AtomicBool::new(true);
    let mut got = thread::scope(|scope| {
        let takers: Vec<_> = (0..4)
            .map(|id| {
                let (map, inserting) = (&map, &inserting);
                scope.spawn(move || pops(&map.pin().unwrap(), inserting, id % 2 == 0))
            })
            .collect();
        let makers: Vec<_> = (0..2)
            .map(|id| {
                let map = &map;
                scope.spawn(move || {
                    let (guard, mut seed) = (map.pin().unwrap(), id);
                    let mut own = 0;
                    while own < EACH / 10 {
                        // (a key comes again, with another value)
                        let at = next(&mut seed) % 64;
                        match guard.insert_absent(at, own * 2 + id).unwrap() {
                            None => own += 1,
                            Some(_) => thread::yield_now(),
                        }
                    }
                })
            })
            .collect();
        makers
            .into_iter()
            .for_each(|it| it.join().expect("no maker panics"));
        inserting.store(false, Ordering::SeqCst);
        let got = takers
            .into_iter()
            .flat_map(|it| it.join().expect("no taker panics"));
        got.collect::<Vec<_>>()
    });
    assert_eq!(got.len() as u64, EACH / 5);
    // (each value was stored once)
    got.sort_unstable_by_key(|pair| pair.1);
    assert!(got.windows(2).all(|it| it[0].1 < it[1].1));
    assert!(map.pin()?.is_empty());
    Ok(())
}

/// Pops with a bound beside threads that insert and remove other keys: none passes a key that is there throughout.
fn none_is_passed(map: SharedMap) -> Result<(), OutOfMemory> {
    let (guard, stirring) = (map.pin()?, AtomicBool::new(true));
    thread::scope(|scope| {
        for id in 0..2 {
            let (map, stirring) = (&map, &stirring);
            scope.spawn(move || {
                let (guard, mut seed) = (map.pin().unwrap(), id);
                while stirring.load(Ordering::SeqCst) {
                    let at = (next(&mut seed) % 1024) << 8;
                    if at != 512 << 8 {
                        guard.insert(at, id).unwrap();
                        guard.remove(at);
                    }
                }
            });
        }
        let mut found = Vec::new();
        for _ in 0..500 {
            guard.insert(512 << 8, 5)?;
            found.push(guard.pop_first_to(512 << 8).map(|pair| pair.0 <= 512 << 8));
            guard.insert(512 << 8, 5)?;
            found.push(guard.pop_last_from(512 << 8).map(|pair| pair.0 >= 512 << 8));
        }
        stirring.store(false, Ordering::SeqCst);
        assert!(found.iter().all(|it| *it == Some(true)));
        Ok(())
    })
}

/// Closures of `retain` during which another guard, or the same one, changes the key.
fn asked_again(map: SharedMap) -> Result<(), OutOfMemory> {
    let (guard, second) = (map.pin()?, map.pin()?);
    for other in [&second, &guard] {
        guard.clear();
        guard.extend([(7, 4), (8, 80), (9, 90), (600, 6000)])?;
        let mut asked = Vec::new();
        guard.retain(|key, value| {
            asked.push((key, value));
            match (key, value) {
                (7, 4) => assert_eq!(other.insert(7, 5), Ok(Some(4))),
                (8, 80..=81) => assert_eq!(other.insert(8, value + 1), Ok(Some(value))),
                (9, _) => assert_eq!(other.remove(9), Some(90)),
                (600, _) => assert_eq!(other.insert(600, 1), Ok(Some(6000))),
                _ => {}
            }
            key == 600 || value == 5
        });
        assert!(guard.iter().eq([(7, 5), (600, 1)]));
        let wanted = [
            (7, 4),
            (7, 5),
            (8, 80),
            (8, 81),
            (8, 82),
            (9, 90),
            (600, 6000),
        ];
        assert_eq!(asked, wanted);
    }
    Ok(())
}

/// Counters that are raised beside one that removes full ones by `retain`: no step is lost.
fn no_step_is_lost(map: SharedMap) -> Result<(), OutOfMemory> {
    let (guard, rounds) = (map.pin()?, AtomicU64::new(1));
    let mut removed = 0;
    thread::scope(|scope| {
        for id in 0..3 {
            let (map, rounds) = (&map, &rounds);
            scope.spawn(move || {
                let (guard, mut seed) = (map.pin().unwrap(), id);
                // (so many for each round)
                for step in 0..16 * 500 {
                    while step >= 16 * rounds.load(Ordering::SeqCst) {
                        thread::yield_now();
                    }
                    guard.add((next(&mut seed) % 8) << 8, 1).unwrap();
                }
            });
        }
        for _ in 0..500 {
            // (what was answered about a key in the end is what was removed, since nobody else removes)
            let mut last = BTreeMap::new();
            guard.retain(|key, value| {
                last.insert(key, value);
                value < 3
            });
            removed += last.values().filter(|it| **it >= 3).sum::<u64>();
            rounds.fetch_add(1, Ordering::SeqCst);
        }
    });
    assert_eq!(removed + guard.values().sum::<u64>(), 3 * 16 * 500);
    Ok(())
}

/// A shared map may be in a static, and a thread may keep its guard.
fn in_a_static() {
    static MAP: OnceLock<SharedMap> = OnceLock::new();
    thread_local!(static GUARD: Guard = MAP.get().expect("it is made first").pin().unwrap());
    MAP.get_or_init(|| SharedMap::new().unwrap());
    thread::scope(|scope| {
        let count = || {
            for _ in 0..100 {
                assert!(GUARD.with(|it| it.add(7, 1)).is_ok());
            }
        };
        // (a scope doesn't wait until a thread has dropped its guard, and `join` does)
        let all: Vec<_> = (0..THREADS).map(|_| scope.spawn(count)).collect();
        all.into_iter().for_each(|it| it.join().unwrap());
    });
    assert_eq!(GUARD.with(|it| it.get(7)), Some(100 * THREADS));
}

fn main() -> Result<(), OutOfMemory> {
    // (with a word it makes the calls of threads alone, which may be busy, or with `busy` those that all are)
    let word = std::env::args().nth(1);
    if word.as_deref() == Some("busy") {
        all_busy(&SharedMap::new()?.pin()?);
        return Ok(());
    }
    if word.is_none() {
        tried(&SharedMap::new()?.pin()?);
        tried(&SharedMap::sharded()?.pin()?);
        against_btree(SharedMap::new()?, CALLS)?;
        against_btree(SharedMap::sharded()?, FEWER)?;
    }
    side_by_side(SharedMap::new()?)?;
    side_by_side(SharedMap::sharded()?)?;
    copies_beside(SharedMap::new()?)?;
    copies_beside(SharedMap::sharded()?)?;
    each_pair_to_one(SharedMap::new()?)?;
    each_pair_to_one(SharedMap::sharded()?)?;
    none_is_passed(SharedMap::new()?)?;
    none_is_passed(SharedMap::sharded()?)?;
    asked_again(SharedMap::new()?)?;
    asked_again(SharedMap::sharded()?)?;
    no_step_is_lost(SharedMap::new()?)?;
    no_step_is_lost(SharedMap::sharded()?)?;
    in_a_static();
    println!(
        "{} calls by one thread, {} by {THREADS}",
        CALLS + FEWER,
        2 * THREADS * EACH
    );
    Ok(())
}
