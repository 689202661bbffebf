//! A million mixed calls, each answer compared with that of a `BTreeMap`; ranges of all kinds of bounds too. Then pairs that are
//! inserted under a limit.

use proved_congee::{ExtendError, LiveMap, Map, Readers, SharedMap};
use std::collections::BTreeMap;
use std::ops::Bound;
use std::thread;

const CALLS: u64 = 1_000_000;

fn next(state: &mut u64) -> u64 {
    // (splitmix64)
    *state = state.wrapping_add(0x9e3779b97f4a7c15);
    let z = (*state ^ (*state >> 30)).wrapping_mul(0xbf58476d1ce4e5b9);
    let z = (z ^ (z >> 27)).wrapping_mul(0x94d049bb133111eb);
    z ^ (z >> 31)
}

/// One of 4096 keys, 0 and `u64::MAX` among them.
fn key(state: &mut u64) -> u64 {
    (next(state) % 4096).wrapping_mul(0x0010010010010010) | (next(state) % 2 * 0xf)
}

fn bound(state: &mut u64) -> Bound<u64> {
    let at = if next(state) % 16 == 0 {
        u64::MAX
    } else {
        key(state)
    };
    match next(state) % 5 {
        0 | 1 => Bound::Included(at),
        2 | 3 => Bound::Excluded(at),
        _ => Bound::Unbounded,
    }
}

/// Whether `BTreeMap::range` takes the bounds: it panics if they are reversed.
fn is_range(bounds: (Bound<u64>, Bound<u64>)) -> bool {
    match bounds {
        (Bound::Excluded(start), Bound::Excluded(end)) => start < end,
        (
            Bound::Included(start) | Bound::Excluded(start),
            Bound::Included(end) | Bound::Excluded(end),
        ) => start <= end,
        _ => true,
    }
}

fn check_range(map: &Map, plain: &BTreeMap<u64, u64>, seed: &mut u64) {
    let bounds = (bound(seed), bound(seed));
    let count = (next(seed) % 200) as usize;
    if is_range(bounds) {
        let mut wanted = plain.range(bounds).map(|(key, value)| (*key, *value));
        let mut given = map.range(bounds);
        // (from both ends, in any turn)
        for _ in 0..count {
            let pair = match next(seed) % 3 {
                0 => (given.next_back(), wanted.next_back()),
                _ => (given.next(), wanted.next()),
            };
            assert_eq!(pair.0, pair.1);
        }
        let (least, most) = given.size_hint();
        let left = wanted.count();
        assert!(least <= left && most.map_or(true, |most| left <= most));
    } else {
        assert_eq!(map.range(bounds).next(), None);
    }
}

fn check_removal(map: &mut Map, plain: &mut BTreeMap<u64, u64>, seed: &mut u64) {
    let start = key(seed);
    let end = start.saturating_add(next(seed) % 0x0020020020020020);
    let bounds = match next(seed) % 3 {
        0 => (Bound::Included(start), Bound::Excluded(end)),
        1 => (Bound::Excluded(start), Bound::Included(end)),
        _ => (Bound::Included(end), Bound::Excluded(start)),
    };
    let mut removed = 0;
    if is_range(bounds) {
        let keys: Vec<u64> = plain.range(bounds).map(|(key, _)| *key).collect();
        removed = keys.len();
        for key in keys {
            plain.remove(&key);
        }
    }
    assert_eq!(map.remove_range(bounds), removed as u64);
}

/// A window of keys moves on: the charge is never more than that of the first four windows.
fn move_window(apart: u64) {
    const WINDOW: u64 = 1024;
    let mut map = Map::new().unwrap();
    let mut most = 0;
    for i in 0..60_000 {
        assert_eq!(map.insert(i * apart, i), Ok(None));
        if i >= WINDOW {
            assert_eq!(map.remove((i - WINDOW) * apart), Some(i - WINDOW));
        }
        if i < 4 * WINDOW {
            most = most.max(map.charged());
        }
        assert!(map.charged() <= most);
    }
}

/// Four threads read the frozen map; then it thaws.
fn read_side_by_side(map: Map, plain: &BTreeMap<u64, u64>) -> Map {
    let readers = Readers::new(map.freeze().unwrap());
    thread::scope(|scope| {
        for first in 0..4 {
            let readers = &readers;
            scope.spawn(move || {
                let own = readers.reader().unwrap();
                let start = key(&mut { first });
                let wanted = plain.range(start..).map(|(key, value)| (*key, *value));
                assert!(own.range(start..).eq(wanted));
                assert!(own.keys().rev().eq(plain.keys().rev().copied()));
                assert!(own.iter().all(|(key, value)| own.get(key) == Some(value)));
                assert!(!own.contains_key(1) && own.len() == plain.len());
                let mut copy = own.snapshot().unwrap();
                assert!(copy.iter().eq(&own) && copy.limit() == u64::MAX);
                copy.clear();
                assert_eq!(own.len(), plain.len());
                let pair = |(key, value): (&u64, &u64)| (*key, *value);
                assert_eq!(own.first(), plain.first_key_value().map(pair));
                assert_eq!(own.last(), plain.last_key_value().map(pair));
                for at in plain.keys().flat_map(|key| [*key, key ^ 1]) {
                    assert_eq!(own.floor(at), plain.range(..=at).next_back().map(pair));
                    assert_eq!(own.below(at), plain.range(..at).next_back().map(pair));
                    assert_eq!(own.ceiling(at), plain.range(at..).next().map(pair));
                    let above = (Bound::Excluded(at), Bound::Unbounded);
                    assert_eq!(own.above(at), plain.range(above).next().map(pair));
                }
            });
        }
    });
    readers.into_inner().thaw().unwrap()
}

/// Where a pair is refused, the ones before it are in the map, and none behind it is tried.
fn refused() {
    let pairs = [(1, 10), (u64::MAX, 20), (2, 30)];
    let stopped = |it: Result<(), ExtendError>| it.map_err(|it| (it.inserted(), it.pair()));
    let mut map = Map::with_limit(2104 + 64).unwrap();
    let shared = SharedMap::with_limit(2104 + 64).unwrap().pin().unwrap();
    let live = LiveMap::with_limit(8192).unwrap().pin().unwrap();
    let spread = |i: u64| (i << 40, i);
    assert_eq!(stopped(map.extend(pairs)), Err((1, (u64::MAX, 20))));
    assert_eq!(stopped(shared.extend(pairs)), Err((1, (u64::MAX, 20))));
    let (stored, pair) = stopped(live.extend((0..1000).map(spread))).unwrap_err();
    assert!((1..1000).contains(&stored) && pair == spread(stored as u64));
    assert!(map.iter().eq([(1, 10)]) && shared.iter().eq(&map) && live.iter().eq((0..stored as u64).map(spread)));
}

fn main() {
    refused();
    move_window(1);
    move_window(256);
    let mut map = Map::new().unwrap();
    let mut plain = BTreeMap::new();
    let mut seed = 7;
    for call in 0..CALLS {
        let (at, value) = (key(&mut seed), next(&mut seed) % 4);
        match next(&mut seed) % 19 {
            0..=4 => assert_eq!(map.insert(at, value), Ok(plain.insert(at, value))),
            5 | 6 => assert_eq!(map.remove(at), plain.remove(&at)),
            7 | 8 => assert_eq!(map.get(at), plain.get(&at).copied()),
            11 => {
                let number = value.wrapping_sub(2);
                let wanted = plain.get(&at).copied();
                plain.insert(
                    at,
                    wanted.map_or(number, |current| current.wrapping_add(number)),
                );
                assert_eq!(map.add(at, number), Ok(wanted));
            }
            12 => {
                let before = plain.get(&at).copied();
                let wanted = *plain.entry(at).or_insert(value);
                match next(&mut seed) % 3 {
                    0 => assert_eq!(map.get_or_insert(at, value), Ok(wanted)),
                    1 => assert_eq!(map.get_or_insert_with(at, || value), Ok(wanted)),
                    _ => assert_eq!(map.insert_absent(at, value), Ok(before)),
                }
            }
            13 => {
                let wanted = match plain.get(&at).copied() {
                    Some(current) if current == value => Ok(()),
                    current => Err(current),
                };
                if wanted.is_ok() {
                    plain.remove(&at);
                }
                assert_eq!(map.compare_remove(at, value), wanted);
            }
            15 => {
                let pair = |found: Option<(&u64, &u64)>| found.map(|(key, value)| (*key, *value));
                assert_eq!(map.first(), pair(plain.first_key_value()));
                assert_eq!(map.last(), pair(plain.last_key_value()));
                assert_eq!(map.floor(at), pair(plain.range(..=at).next_back()));
                assert_eq!(map.below(at), pair(plain.range(..at).next_back()));
                assert_eq!(map.ceiling(at), pair(plain.range(at..).next()));
                assert_eq!(
                    map.above(at),
                    pair(plain.range(at..).find(|pair| *pair.0 != at))
                );
            }
            17 => {
                // (rarely all pairs, or every fourth)
                match next(&mut seed) % 512 {
                    0 => {
                        map.clear();
                        plain.clear();
                    }
                    1 => {
                        let mut asked = Vec::new();
                        map.retain(|key, value| {
                            asked.push(key);
                            (key ^ value) % 4 > 0
                        });
                        assert!(asked.iter().eq(plain.keys()));
                        plain.retain(|key, value| (*key ^ *value) % 4 > 0);
                    }
                    2..=4 => {
                        // (of two pairs with one key the later one counts)
                        let more = (0..100).map(|i| (at.wrapping_add(i / 2), i));
                        assert_eq!(map.extend(more.clone()), Ok(()));
                        plain.extend(more);
                    }
                    _ => check_removal(&mut map, &mut plain, &mut seed),
                }
            }
            16 if value == 0 => assert_eq!(map.pop_first(), plain.pop_first()),
            16 if value == 1 => assert_eq!(map.pop_last(), plain.pop_last()),
            16 if value == 2 => {
                let wanted = plain.first_entry().filter(|it| *it.key() <= at);
                assert_eq!(map.pop_first_to(at), wanted.map(|it| it.remove_entry()));
            }
            16 => {
                let wanted = plain.last_entry().filter(|it| *it.key() >= at);
                assert_eq!(map.pop_last_from(at), wanted.map(|it| it.remove_entry()));
            }
            14 => {
                let halved = |current: Option<u64>| current.map(|it| it / 2).filter(|it| *it > 0);
                let wanted = plain.remove(&at);
                if let Some(half) = halved(wanted) {
                    plain.insert(at, half);
                }
                assert_eq!(map.compute(at, halved), Ok(wanted));
            }
            9 | 10 => {
                let expected = next(&mut seed) % 4;
                let wanted = match plain.get_mut(&at) {
                    Some(current) if *current == expected => {
                        *current = value;
                        Ok(())
                    }
                    Some(current) => Err(Some(*current)),
                    None => Err(None),
                };
                assert_eq!(map.compare_exchange(at, expected, value), wanted);
            }
            _ => check_range(&map, &plain, &mut seed),
        }
        assert_eq!(map.len(), plain.len());
        if call == CALLS / 2 {
            // (a map may go on on another thread)
            map = thread::spawn(move || map).join().unwrap();
        }
    }
    let pairs = || plain.iter().map(|(key, value)| (*key, *value));
    assert!(map.iter().eq(pairs()));
    assert!(map.keys().eq(plain.keys().copied()) && map.values().eq(plain.values().copied()));
    assert_eq!(map.is_empty(), plain.is_empty());
    assert_eq!(map.usage(), (map.charged(), u64::MAX));
    assert_eq!(Map::try_from_iter(pairs()).as_ref(), Ok(&map));
    let map = read_side_by_side(map, &plain);
    println!(
        "{CALLS} calls, {} pairs at the end",
        map.into_iter().count()
    );
}
