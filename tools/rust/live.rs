//! Guards of a `LiveMap`: mixed calls by two of them in turn, each answer compared with that of a `BTreeMap`. Then threads that
//! add, remove, read ranges and count on one map, so that sums have to agree and keys that stay have to be read. Threads that
//! pop beside those that insert: each pair goes to one of them, and none is lost. A thread that clears beside others. Closures that
//! change their key by another guard.

use proved_congee::{Busy, LiveGuard, LiveMap, OutOfMemory, Pair, TryError};
use std::collections::BTreeMap;
use std::ops::{Bound, RangeBounds};
use std::sync::atomic::{AtomicBool, AtomicU64, Ordering};
use std::thread;

const CALLS: u64 = 500_000;
const THREADS: u64 = 4;
const EACH: u64 = 50_000;

fn next(state: &mut u64) -> u64 {
    // (splitmix64)
    *state = state.wrapping_add(0x9e3779b97f4a7c15);
    let z = (*state ^ (*state >> 30)).wrapping_mul(0xbf58476d1ce4e5b9);
    let z = (z ^ (z >> 27)).wrapping_mul(0x94d049bb133111eb);
    z ^ (z >> 31)
}

/// One of 4096 keys, 0 and `u64::MAX` among them.
fn key(state: &mut u64) -> u64 {
    (next(state) % 4096).wrapping_mul(0x0010010010010010) | (next(state) % 2 * 0xf)
}

type Plain = BTreeMap<u64, u64>;

/// What a call that compares returns, and whether it finds the expected value.
fn compared(plain: &Plain, at: u64, expected: u64) -> Result<(), Option<u64>> {
    match plain.get(&at).copied() {
        Some(current) if current == expected => Ok(()),
        current => Err(current),
    }
}

fn change(guard: &LiveGuard, plain: &mut Plain, at: u64, value: u64, seed: &mut u64) {
    // (one thread calls, so no call is busy)
    let waits = next(seed) % 2 == 0;
    match next(seed) % 9 {
        0..=2 => {
            let wanted = plain.insert(at, value);
            match waits {
                true => assert_eq!(guard.insert(at, value), Ok(wanted)),
                false => assert_eq!(guard.try_insert(at, value), Ok(wanted)),
            }
        }
        3 => {
            let wanted = plain.remove(&at);
            match waits {
                true => assert_eq!(guard.remove(at), wanted),
                false => assert_eq!(guard.try_remove(&at), Ok(wanted)),
            }
        }
        4 => {
            let wanted = plain.get(&at).copied();
            let sum = wanted.map_or(value, |before| before.wrapping_add(value));
            plain.insert(at, sum);
            match waits {
                true => assert_eq!(guard.add(at, value), Ok(wanted)),
                false => assert_eq!(guard.try_add(at, value), Ok(wanted)),
            }
        }
        5 => {
            let wanted = *plain.entry(at).or_insert(value);
            match waits {
                true => assert_eq!(guard.get_or_insert(at, value), Ok(wanted)),
                false => assert_eq!(guard.try_get_or_insert(at, value), Ok(wanted)),
            }
        }
        6 => {
            let wanted = compared(plain, at, 3);
            if wanted.is_ok() {
                plain.insert(at, value);
            }
            match waits {
                true => assert_eq!(guard.compare_exchange(at, 3, value), wanted),
                false => assert_eq!(guard.try_compare_exchange(at, 3, value), Ok(wanted)),
            }
        }
        7 => {
            let wanted = compared(plain, at, value);
            if wanted.is_ok() {
                plain.remove(&at);
            }
            match waits {
                true => assert_eq!(guard.compare_remove(at, value), wanted),
                false => assert_eq!(guard.try_compare_remove(at, value), Ok(wanted)),
            }
        }
        _ if waits => {
            let halved = |current: Option<u64>| current.map(|it| it / 2).filter(|it| *it > 0);
            let wanted = plain.remove(&at);
            if let Some(half) = halved(wanted) {
                plain.insert(at, half);
            }
            match value {
                0 => assert_eq!(guard.try_compute(at, halved), Ok(wanted)),
                _ => assert_eq!(guard.compute(at, halved), Ok(wanted)),
            }
        }
        _ => {
            let wanted = *plain.entry(at).or_insert(value);
            assert_eq!(guard.get_or_insert_with(at, || value), Ok(wanted));
        }
    }
}

/// Calls that remove pairs at the ends, or many.
fn end(guard: &LiveGuard, plain: &mut Plain, at: u64, seed: &mut u64) {
    match next(seed) % 512 {
        0 => {
            guard.clear();
            plain.clear();
        }
        11 => {
            let copy = guard.snapshot().expect("there is memory");
            assert!(copy.iter().eq(plain.iter().map(|it| (*it.0, *it.1))));
            assert_eq!(copy.limit(), u64::MAX);
        }
        1 => {
            guard.retain(|key, value| (key ^ value) % 4 > 0);
            plain.retain(|key, value| (*key ^ *value) % 4 > 0);
        }
        2 => {
            let more = (0..100).map(|i| (at.wrapping_add(i << 30), i));
            assert!(guard.extend(more.clone()).is_ok());
            plain.extend(more);
        }
        3..=10 => {
            let last = at.saturating_add(1 << 50);
            let keys: Vec<u64> = plain.range(at..=last).map(|(key, _)| *key).collect();
            assert_eq!(guard.remove_range(at..=last), keys.len() as u64);
            for key in keys {
                plain.remove(&key);
            }
        }
        it if it % 8 == 6 => {
            let key = plain.range(..=at).next().map(|(key, _)| *key);
            assert_eq!(
                guard.pop_first_to(at),
                key.and_then(|key| plain.remove_entry(&key))
            );
        }
        it if it % 8 == 7 => {
            let key = plain.range(at..).next_back().map(|(key, _)| *key);
            assert_eq!(
                guard.pop_last_from(at),
                key.and_then(|key| plain.remove_entry(&key))
            );
        }
        it if it % 4 == 0 => assert_eq!(guard.pop_first(), plain.pop_first()),
        it if it % 4 == 1 => assert_eq!(guard.pop_last(), plain.pop_last()),
        it if it % 4 == 2 => assert_eq!(guard.try_pop_first(), Ok(plain.pop_first())),
        _ => assert_eq!(guard.try_pop_last(), Ok(plain.pop_last())),
    }
}

/// Pages and iterators downwards, and an iterator from both ends.
fn read_down(guard: &LiveGuard, plain: &Plain, at: u64, seed: &mut u64) {
    let last = at.saturating_add(next(seed) % (1 << 60));
    let (mut page, n) = ([Pair::default(); 40], (next(seed) % 41) as usize);
    let count = match next(seed) % 2 {
        0 => guard.read_range_descending(at, last, &mut page[..n]),
        _ => guard
            .try_read_range_descending(at, last, &mut page[..n])
            .expect("no other thread calls"),
    };
    let wanted = || plain.range(at..=last).map(|(key, value)| (*key, *value));
    let written = page[..count].iter().map(|pair| (pair.key, pair.value));
    assert!(written.eq(wanted().rev().take(n)));
    assert_eq!(
        guard.read_range_descending(last, at, &mut page[..n]),
        usize::from(last == at && n > 0 && plain.contains_key(&at))
    );
    let backwards = guard.range(at..=last).rev();
    assert!(backwards.take(100).eq(wanted().rev().take(100)));
    let (mut ours, mut theirs) = (guard.range(at..=last), plain.range(at..=last));
    for _ in 0..200 {
        match next(seed) % 2 {
            0 => assert_eq!(ours.next(), pair(theirs.next())),
            _ => assert_eq!(ours.next_back(), pair(theirs.next_back())),
        }
    }
}

fn pair(found: Option<(&u64, &u64)>) -> Option<(u64, u64)> {
    found.map(|(key, value)| (*key, *value))
}

fn read(guard: &LiveGuard, plain: &Plain, at: u64, seed: &mut u64) {
    let last = key(seed);
    let mut page = [Pair::default(); 40];
    let above = plain.range(at..).find(|(key, _)| **key > at);
    match next(seed) % 11 {
        0 => assert_eq!(guard.get(at), plain.get(&at).copied()),
        1 => assert_eq!(guard.contains_key(&at), plain.contains_key(&at)),
        2 => assert_eq!(guard.first(), pair(plain.first_key_value())),
        3 => assert_eq!(guard.try_ceiling(at), Ok(pair(plain.range(at..).next()))),
        4 => assert_eq!(guard.above(at), pair(above)),
        5 => assert_eq!(guard.last(), pair(plain.last_key_value())),
        6 => assert_eq!(
            guard.try_floor(at),
            Ok(pair(plain.range(..=at).next_back()))
        ),
        7 => assert_eq!(guard.below(at), pair(plain.range(..at).next_back())),
        8 => {
            let wanted = plain.range(at..).take_while(|(key, _)| **key < last);
            assert!(guard
                .range(at..last.max(at))
                .eq(wanted.map(|(k, v)| (*k, *v))));
        }
        9 => {
            let count = guard.read_range_inclusive(at, last, &mut page);
            let wanted = plain.range(at..).take_while(|(key, _)| **key <= last);
            let written = page[..count].iter().map(|pair| (pair.key, pair.value));
            assert!(written.eq(wanted.take(40).map(|(k, v)| (*k, *v))));
        }
        _ => assert!(guard
            .iter()
            .take(30)
            .eq(plain.iter().take(30).map(|(k, v)| (*k, *v)))),
    }
}

fn count(guard: &LiveGuard, plain: &Plain) {
    assert_eq!(
        (guard.len(), guard.try_len()),
        (plain.len(), Ok(plain.len()))
    );
    assert_eq!(guard.is_empty(), plain.is_empty());
    assert_eq!(guard.try_is_empty(), Ok(plain.is_empty()));
}

fn beside_btree() -> Result<(), OutOfMemory> {
    let map = LiveMap::new()?;
    // (a clone is one more owner)
    let guards = [map.clone().pin()?, map.pin()?];
    let mut plain = Plain::new();
    let mut seed = 7;
    count(&guards[0], &plain);
    for call in 0..CALLS {
        let guard = &guards[(next(&mut seed) % 2) as usize];
        let (at, value) = (key(&mut seed), next(&mut seed) % 4);
        change(guard, &mut plain, at, value, &mut seed);
        match next(&mut seed) % 16 {
            0..=2 => read(guard, &plain, at, &mut seed),
            3 => read_down(guard, &plain, at, &mut seed),
            4..=5 => end(guard, &mut plain, at, &mut seed),
            _ => {}
        }
        if call % 5000 == 0 {
            count(guard, &plain);
        }
    }
    assert!(guards[0].keys().rev().eq(plain.keys().rev().copied()));
    assert!(guards[1].values().eq(plain.values().copied()));
    for (key, value) in &guards[0] {
        assert_eq!(plain.get(&key), Some(&value));
    }
    assert!(guards[0].iter().eq(plain));
    Ok(())
}

/// Pops that are tried, of the least key and the greatest one, and copies of both.
fn tried(guard: &LiveGuard) {
    for (key, found) in [(0, Ok(Some((0, 5)))), (u64::MAX, Ok(Some((u64::MAX, 5))))] {
        for pop in [LiveGuard::try_pop_first, LiveGuard::try_pop_last] {
            assert_eq!(guard.insert(key, 5), Ok(None));
            assert!(guard
                .snapshot()
                .expect("there is memory")
                .iter()
                .eq([(key, 5)]));
            assert_eq!((pop(guard), pop(guard)), (found, Ok(None)));
        }
        for pop in [LiveGuard::try_pop_first_to, LiveGuard::try_pop_last_from] {
            assert_eq!(guard.insert(key, 5), Ok(None));
            assert_eq!((pop(guard, key), pop(guard, key)), (found, Ok(None)));
        }
        assert_eq!(guard.insert(7, 5), Ok(None));
        assert_eq!(
            (guard.try_pop_first_to(6), guard.try_pop_last_from(8)),
            (Ok(None), Ok(None))
        );
        assert_eq!(guard.remove(7), Some(5));
    }
}

fn is_busy<T>(answer: Result<T, impl Into<TryError>>) -> bool {
    matches!(answer.map_err(Into::into), Err(TryError::Busy))
}

/// Where each call of the library is busy, each call that is tried returns so at once.
fn all_busy(guard: &LiveGuard) {
    let mut page = [Pair::default(); 4];
    let busy = [
        is_busy(guard.try_get(7)),
        is_busy(guard.try_insert(7, 70)),
        is_busy(guard.try_get_or_insert(7, 70)),
        is_busy(guard.try_insert_absent(7, 70)),
        is_busy(guard.try_add(7, 70)),
        is_busy(guard.try_compute(7, |it| it)),
        is_busy(guard.try_remove(7)),
        is_busy(guard.try_compare_exchange(7, 70, 71)),
        is_busy(guard.try_compare_remove(7, 70)),
        is_busy(guard.try_first()),
        is_busy(guard.try_last()),
        is_busy(guard.try_floor(7)),
        is_busy(guard.try_ceiling(7)),
        is_busy(guard.try_below(7)),
        is_busy(guard.try_above(7)),
        is_busy(guard.try_pop_first()),
        is_busy(guard.try_pop_last()),
        is_busy(guard.try_pop_first_to(7)),
        is_busy(guard.try_pop_last_from(7)),
        is_busy(guard.try_read_range(1, 9, &mut page)),
        is_busy(guard.try_read_range_inclusive(1, 9, &mut page)),
        is_busy(guard.try_read_range_descending(1, 9, &mut page)),
        is_busy(guard.try_is_empty()),
        is_busy(guard.try_len()),
    ];
    assert_eq!(busy.iter().position(|it| !it), None);
}

/// Adds to keys that all threads have, and stores and removes keys of its own between them. Each range has all keys that stay.
fn work(guard: &LiveGuard, id: u64) {
    let mut seed = id;
    for i in 0..EACH {
        guard.add(next(&mut seed) % 64 * 256, 1).unwrap();
        let own = next(&mut seed) % 64 * 256 + id;
        assert_eq!(guard.insert(own, i), Ok(None));
        assert_eq!(guard.remove(own), Some(i));
        if i % 256 == 0 {
            let shared = guard.range(..64 * 256).filter(|(key, _)| key % 256 == 0);
            assert!(shared.map(|(key, _)| key).eq((0..64).map(|key| key * 256)));
            // (the keys that stay, and at most all that the other threads store and remove)
            assert!((64..=64 * THREADS as usize).contains(&guard.len()));
        }
    }
}

fn by_threads() -> Result<(), OutOfMemory> {
    let map = LiveMap::new()?;
    let first = map.pin()?;
    for key in 0..64 {
        first.insert(key * 256, 0)?;
    }
    thread::scope(|scope| {
        for id in 1..=THREADS {
            let guard = map.pin()?;
            scope.spawn(move || work(&guard, id));
        }
        Ok::<(), OutOfMemory>(())
    })?;
    assert_eq!((first.iter().count(), first.len()), (64, 64));
    assert_eq!(
        first.iter().map(|(_, sum)| sum).sum::<u64>(),
        THREADS * EACH
    );
    Ok(())
}

/// Pops by one of the four calls, until the map is empty and no thread inserts any more. Returns what it got.
fn pops(guard: &LiveGuard, inserting: &AtomicBool, id: u64) -> Vec<(u64, u64)> {
    let mut got = Vec::new();
    loop {
        // (asked first: what was inserted before is there)
        let may_come = inserting.load(Ordering::SeqCst);
        let found = match id {
            0 => guard.pop_first(),
            1 => guard.pop_last(),
            _ => loop {
                let found = match id {
                    2 => guard.try_pop_first(),
                    _ => guard.try_pop_last(),
                };
                match found {
                    Ok(found) => break found,
                    Err(Busy) => thread::yield_now(),
                }
            },
        };
        match found {
            Some(pair) => got.push(pair),
            None if may_come => thread::yield_now(),
            None => return got,
        }
    }
}

/// Four threads pop beside two that insert, each with values of its own: each pair goes to one of them, and none is lost.
fn each_pair_to_one() -> Result<(), OutOfMemory> {
    let map = LiveMap::new()?;
    let inserting = AtomicBool::new(true);
    let mut got = thread::scope(|scope| {
        let takers: Vec<_> = (0..4)
            .map(|id| {
                let (map, inserting) = (&map, &inserting);
                scope.spawn(move || pops(&map.pin().unwrap(), inserting, id))
            })
            .collect();
        let makers: Vec<_> = (0..2)
            .map(|id| {
                let map = &map;
                scope.spawn(move || {
                    let (guard, mut seed) = (map.pin().unwrap(), id);
                    let mut own = 0;
                    while own < EACH / 2 {
                        // (a key comes again, with another value)
                        let at = key(&mut seed) & 0x3f;
                        match guard.insert_absent(at, own * 2 + id).unwrap() {
                            None => own += 1,
                            Some(_) => thread::yield_now(),
                        }
                    }
                })
            })
            .collect();
        makers
            .into_iter()
            .for_each(|it| it.join().expect("no maker panics"));
        inserting.store(false, Ordering::SeqCst);
        let got = takers
            .into_iter()
            .flat_map(|it| it.join().expect("no taker panics"));
        got.collect::<Vec<_>>()
    });
    assert_eq!(got.len() as u64, EACH);
    // (each value was stored once)
    got.sort_unstable_by_key(|pair| pair.1);
    assert!(got.windows(2).all(|it| it[0].1 < it[1].1));
    assert!(map.pin()?.is_empty());
    Ok(())
}

/// Threads count keys up by `compute` and let them go at a multiple of ten, beside one that reads downwards: no step is lost.
fn computes() -> Result<(), OutOfMemory> {
    let map = LiveMap::new()?;
    let gone = AtomicU64::new(0);
    thread::scope(|scope| {
        for id in 0..THREADS {
            let (guard, gone) = (map.pin()?, &gone);
            scope.spawn(move || {
                let mut seed = id;
                for i in 0..EACH {
                    let at = next(&mut seed) % 8;
                    let raised =
                        |it: Option<u64>| Some(it.unwrap_or(0) + 1).filter(|it| it % 10 > 0);
                    let raise = || match guard.try_compute(at, raised) {
                        // (by either form)
                        Err(TryError::Busy) => guard.compute(at, raised).unwrap(),
                        before => before.unwrap(),
                    };
                    if raise() == Some(9) {
                        gone.fetch_add(10, Ordering::Relaxed);
                    }
                    if i % 64 == 0 {
                        let keys: Vec<u64> = guard.keys().rev().collect();
                        assert!(keys.windows(2).all(|it| it[0] > it[1]) && keys.len() <= 8);
                    }
                }
            });
        }
        Ok::<(), OutOfMemory>(())
    })?;
    let left: u64 = map.pin()?.values().sum();
    assert_eq!(gone.into_inner() + left, THREADS * EACH);
    Ok(())
}

/// Calls that change many pairs, beside threads that store and remove others: each key that stays is removed, or is found.
fn many_beside_writers() -> Result<(), OutOfMemory> {
    let map = LiveMap::new()?;
    let guard = map.pin()?;
    thread::scope(|scope| {
        for id in 1..THREADS {
            let guard = map.pin()?;
            scope.spawn(move || {
                for i in 0..EACH {
                    let own = i % 64 * 256 + id;
                    guard.insert(own, i).unwrap();
                    let _ = guard.compare_remove(own, i);
                }
            });
        }
        for round in 0..100 {
            guard.extend((0..64).map(|key| (key * 256, round)))?;
            let mut page = [Pair::default(); 64 * THREADS as usize];
            let count = guard.read_range_descending(0, 64 * 256, &mut page);
            let found = page[..count].iter().map(|it| it.key);
            assert!(found
                .filter(|key| key % 256 == 0)
                .eq((0..64).rev().map(|key| key * 256)));
            let copied = guard.snapshot()?;
            assert!((0..64).all(|key| copied.get(key * 256) == Some(round)));
            match round % 3 {
                0 => guard.clear(),
                1 => guard.retain(|key, _| key % 256 > 0),
                _ => assert!(guard.remove_range(..=63 * 256) >= 64),
            }
            assert!((0..64).all(|key| guard.get(key * 256).is_none()));
        }
        Ok::<(), OutOfMemory>(())
    })?;
    guard.clear();
    assert!(guard.is_empty());
    Ok(())
}

/// Copies beside a thread that counts up the greatest key first. The moments follow the keys, so the rounds ascend in each copy.
fn copies_follow_the_keys() -> Result<(), OutOfMemory> {
    let map = LiveMap::new()?;
    let guard = map.pin()?;
    guard.extend((0..200).map(|key| (key << 8, 0)))?;
    thread::scope(|scope| {
        let writer = map.pin()?;
        scope.spawn(move || {
            for round in 1..=300 {
                for key in (0..200).rev() {
                    assert_eq!(writer.insert(key << 8, round), Ok(Some(round - 1)));
                }
            }
        });
        for _ in 0..100 {
            let rounds: Vec<u64> = guard.snapshot()?.values().collect();
            assert!(rounds.len() == 200 && rounds.windows(2).all(|it| it[0] <= it[1]));
        }
        Ok(())
    })
}

/// The answer of a change that doesn't wait, once its closure was called.
fn once_called(
    guard: &LiveGuard,
    key: u64,
    mut f: impl FnMut(Option<u64>) -> Option<u64>,
) -> Result<Option<u64>, TryError> {
    loop {
        let mut is_called = false;
        let changed = guard.try_compute(key, |value| {
            is_called = true;
            f(value)
        });
        if is_called {
            return changed;
        }
        assert_eq!(changed, Err(TryError::Busy));
    }
}

/// Closures during which another guard changes the key.
fn meddled() -> Result<(), OutOfMemory> {
    let map = LiveMap::new()?;
    let (guard, other) = (map.pin()?, map.pin()?);
    let late = || {
        assert_eq!(other.insert(7, 70), Ok(None));
        71
    };
    assert_eq!(guard.get_or_insert_with(7, late)?, 70);
    let mut seen = Vec::new();
    let before = guard.compute(7, |value| {
        seen.push(value);
        match seen.len() {
            1 => assert_eq!(other.insert(7, 80), Ok(Some(70))),
            2 => assert_eq!(other.remove(7), Some(80)),
            3 => assert_eq!(other.insert(7, 90), Ok(None)),
            _ => {}
        }
        Some(seen.len() as u64)
    });
    assert_eq!((before, guard.get(7)), (Ok(Some(90)), Some(4)));
    assert_eq!(seen, [Some(70), Some(80), None, Some(90)]);
    // (a change that doesn't wait is busy then, and changes nothing)
    let changed = once_called(&guard, 7, |value| {
        assert_eq!((value, other.insert(7, 5)), (Some(4), Ok(Some(4))));
        Some(6)
    });
    assert_eq!((changed, guard.get(7)), (Err(TryError::Busy), Some(5)));
    let removed = once_called(&guard, 7, |_| {
        assert_eq!(other.remove(7), Some(5));
        None
    });
    assert_eq!((removed, guard.get(7)), (Err(TryError::Busy), None));
    let inserted = once_called(&guard, 7, |value| {
        assert_eq!((value, other.insert(7, 8)), (None, Ok(None)));
        Some(9)
    });
    assert_eq!((inserted, guard.get(7)), (Err(TryError::Busy), Some(8)));
    assert_eq!(once_called(&guard, 70, |_| None), Ok(None));
    assert_eq!(guard.insert(7, 4), Ok(Some(8)));
    guard.extend([(8, 80), (9, 90), (600, 6000)])?;
    let mut asked = Vec::new();
    guard.retain(|key, value| {
        asked.push((key, value));
        match (key, value) {
            // (the new value stays, a third one goes, what is gone isn't asked about again, and what is to stay isn't either)
            (7, 4) => assert_eq!(other.insert(7, 5), Ok(Some(4))),
            (8, 80..=81) => assert_eq!(other.insert(8, value + 1), Ok(Some(value))),
            (9, _) => assert_eq!(other.remove(9), Some(90)),
            (600, _) => assert_eq!(other.insert(600, 1), Ok(Some(6000))),
            _ => {}
        }
        key == 600 || value == 5
    });
    assert!(guard.iter().eq([(7, 5), (600, 1)]));
    let wanted = [
        (7, 4),
        (7, 5),
        (8, 80),
        (8, 81),
        (8, 82),
        (9, 90),
        (600, 6000),
    ];
    assert_eq!(asked, wanted);
    Ok(())
}

/// Removes the pairs within the bounds from the keys below 600, 1000 and the greatest one. 256 keys are in each of the first two
/// leaves, and 64 are removed at once. Then compares how many were removed, and which.
fn removed(
    guard: &LiveGuard,
    bounds: impl RangeBounds<u64> + Clone,
    wanted: u64,
) -> Result<(), OutOfMemory> {
    let keys = || (0..600).chain([1000, u64::MAX]);
    assert!(guard.extend(keys().map(|key| (key, key))).is_ok());
    assert_eq!(guard.remove_range(bounds.clone()), wanted);
    assert_eq!(guard.len() as u64, 602 - wanted);
    assert!(guard.keys().eq(keys().filter(|key| !bounds.contains(key))));
    Ok(())
}

/// Removals of ranges, by each kind of bounds.
fn removals() -> Result<(), OutOfMemory> {
    let guard = &LiveMap::new()?.pin()?;
    // (within a leaf, a whole leaf, over several)
    removed(guard, 10..20, 10)?;
    removed(guard, 255..=255, 1)?;
    removed(guard, 256..512, 256)?;
    removed(guard, 250..=261, 12)?;
    // (64 at once, one more, and several times)
    removed(guard, ..64, 64)?;
    removed(guard, ..=64, 65)?;
    removed(guard, 3..=202, 200)?;
    // (up to the greatest key)
    removed(guard, 590.., 12)?;
    removed(guard, u64::MAX.., 1)?;
    removed(guard, ..u64::MAX, 601)?;
    removed(guard, .., 602)?;
    removed(guard, (Bound::Excluded(590), Bound::Unbounded), 11)?;
    removed(guard, (Bound::Excluded(9), Bound::Excluded(12)), 2)?;
    // (none)
    removed(guard, 600..1000, 0)?;
    removed(guard, 20..20, 0)?;
    removed(guard, ..0, 0)?;
    removed(guard, (Bound::Excluded(u64::MAX), Bound::Unbounded), 0)?;
    removed(guard, (Bound::Excluded(9), Bound::Excluded(10)), 0)?;
    removed(guard, (Bound::Included(300), Bound::Included(5)), 0)?;
    guard.clear();
    assert_eq!((guard.len(), guard.remove_range(..)), (0, 0));
    Ok(())
}

/// Four threads remove one range at once: each pair counts for one of them.
fn each_counts_for_one() -> Result<(), OutOfMemory> {
    let map = LiveMap::new()?;
    for _ in 0..20 {
        map.pin()?.extend((0..4096).map(|key| (key * 3, key)))?;
        let removed: u64 = thread::scope(|scope| {
            let removers: Vec<_> = (0..THREADS)
                .map(|_| scope.spawn(|| map.pin().unwrap().remove_range(..)))
                .collect();
            let counts = removers
                .into_iter()
                .map(|it| it.join().expect("no thread panics"));
            counts.sum()
        });
        assert_eq!((removed, map.pin()?.len()), (4096, 0));
    }
    Ok(())
}

fn main() -> Result<(), OutOfMemory> {
    // (with a word it makes the calls of threads alone, which may be busy, or with `busy` those that all are)
    let word = std::env::args().nth(1);
    if word.as_deref() == Some("busy") {
        all_busy(&LiveMap::new()?.pin()?);
        return Ok(());
    }
    if word.is_none() {
        tried(&LiveMap::new()?.pin()?);
        beside_btree()?;
    }
    removals()?;
    by_threads()?;
    each_pair_to_one()?;
    computes()?;
    many_beside_writers()?;
    copies_follow_the_keys()?;
    meddled()?;
    each_counts_for_one()?;
    println!("{CALLS} calls beside a BTreeMap, {THREADS} threads");
    Ok(())
}
