//! Maps of typed keys beside std's, by calls at random: each type that has numbers, for each of the three maps.

use proved_congee::keyed::{Half, OrdLiveMap, OrdMap, OrdSharedMap, Word};
use proved_congee::{LiveMap, Map, SharedMap};
use std::collections::BTreeMap;
use std::fmt::Debug;
use std::ops::Bound::{self, Excluded, Included, Unbounded};

struct Dice(u64);

impl Dice {
    fn roll(&mut self, below: u64) -> u64 {
        self.0 ^= self.0 << 13;
        self.0 ^= self.0 >> 7;
        self.0 ^= self.0 << 17;
        (self.0 >> 11) % below
    }

    fn bound<K>(&mut self, key: K) -> Bound<K> {
        match self.roll(3) {
            0 => Included(key),
            1 => Excluded(key),
            _ => Unbounded,
        }
    }
}

fn copied<K: Copy>((key, value): (&K, &i16)) -> (K, i16) {
    (*key, *value)
}

/// The bounds of a range that std takes, if these keys have one.
fn range<K: Ord + Copy>(dice: &mut Dice, one: K, other: K) -> Option<(Bound<K>, Bound<K>)> {
    (one < other).then(|| (dice.bound(one), dice.bound(other)))
}

/// Calls that all three maps have.
macro_rules! common {
    ($map:expr, $std:expr, $dice:expr, $key:expr, $other:expr, $value:expr) => {
        match $dice.roll(29) {
            0..=4 => assert_eq!(
                $map.insert($key, $value).unwrap(),
                $std.insert($key, $value)
            ),
            5..=6 => assert_eq!($map.remove($key), $std.remove(&$key)),
            7 => assert_eq!($map.get($key), $std.get(&$key).copied()),
            8 => assert_eq!($map.contains_key($key), $std.contains_key(&$key)),
            9 => assert_eq!($map.first(), $std.first_key_value().map(copied)),
            10 => assert_eq!($map.last(), $std.last_key_value().map(copied)),
            11 => assert_eq!($map.below($key), $std.range(..$key).next_back().map(copied)),
            12 => assert_eq!(
                $map.floor($key),
                $std.range(..=$key).next_back().map(copied)
            ),
            13 => assert_eq!($map.ceiling($key), $std.range($key..).next().map(copied)),
            14 => assert_eq!(
                $map.get_or_insert($key, $value).unwrap(),
                *$std.entry($key).or_insert($value)
            ),
            15 => {
                let was = $std.get(&$key).copied();
                assert_eq!($map.insert_absent($key, $value).unwrap(), was);
                $std.entry($key).or_insert($value);
            }
            16 => assert_eq!($map.pop_first(), $std.pop_first()),
            17 => assert_eq!($map.pop_last(), $std.pop_last()),
            18 => {
                let halved = |it: Option<i16>| it.map(|it| it / 2).filter(|it| *it != 0);
                let was = $std.remove(&$key);
                assert_eq!($map.compute($key, halved).unwrap(), was);
                if let Some(half) = halved(was) {
                    $std.insert($key, half);
                }
            }
            19 => assert!($map.range($key..).rev().take(9).eq($std
                .range($key..)
                .rev()
                .take(9)
                .map(copied))),
            20 if $dice.roll(64) == 0 => {
                $map.retain(|_, it| it % 3 != 0);
                $std.retain(|_, it| *it % 3 != 0);
            }
            21 if $dice.roll(16) == 0 => {
                if let Some(of) = range(&mut $dice, $key, $other) {
                    let keys: Vec<_> = $std.range(of).map(|it| *it.0).collect();
                    assert_eq!($map.remove_range(of), keys.len() as u64);
                    $std.retain(|key, _| keys.binary_search(key).is_err());
                }
            }
            22 if $dice.roll(256) == 0 => {
                $map.clear();
                $std.clear();
            }
            23 => assert_eq!(
                $map.get_or_insert_with($key, || $value).unwrap(),
                *$std.entry($key).or_insert($value)
            ),
            24 if $dice.roll(16) == 0 => {
                let more = [($key, $value), ($other, 1), ($key, 2)];
                assert!($map.extend(more).is_ok());
                $std.extend(more);
            }
            25 if $dice.roll(16) == 0 => {
                assert!($map.keys().rev().eq($std.keys().rev().copied()));
                assert!($map.values().eq($std.values().copied()));
            }
            26 => assert_eq!($map.usage(), ($map.charged(), $map.limit())),
            27 => {
                let wanted = $std.first_entry().filter(|it| *it.key() <= $key);
                let wanted = wanted.map(|it| it.remove_entry());
                assert_eq!($map.pop_first_to($key), wanted);
            }
            28 => {
                let wanted = $std.last_entry().filter(|it| *it.key() >= $key);
                let wanted = wanted.map(|it| it.remove_entry());
                assert_eq!($map.pop_last_from($key), wanted);
            }
            _ => {
                if let Some(of) = range(&mut $dice, $key, $other) {
                    assert!($map.range(of).eq($std.range(of).map(copied)));
                }
            }
        }
        assert_eq!($map.len(), $std.len());
        if let Some(value) = $std.get(&$key) {
            assert_eq!($map.compare_exchange($key, !value, 1), Err(Some(*value)));
            assert_eq!($map.compare_exchange($key, *value, *value), Ok(()));
        } else {
            assert_eq!($map.compare_remove($key, $value), Err(None));
        }
        assert_eq!(
            $map.above($key),
            $std.range((Excluded($key), Unbounded)).next().map(copied)
        );
    };
}

/// Calls that `OrdMap` has beside those.
fn own<K: Word + Ord + Debug>(
    map: &mut OrdMap<K, i16>,
    std: &mut BTreeMap<K, i16>,
    dice: &mut Dice,
    key: K,
    value: i16,
) {
    match dice.roll(5) {
        0 => assert_eq!(map.remove_entry(key), std.remove_entry(&key)),
        1 => assert_eq!(map.get_key_value(key), std.get_key_value(&key).map(copied)),
        2 => {
            let it = map
                .entry(key)
                .and_modify(|it| it.wrapping_add(1))
                .or_insert(value);
            assert_eq!(
                it.unwrap(),
                *std.entry(key)
                    .and_modify(|it| *it = it.wrapping_add(1))
                    .or_insert(value)
            );
        }
        3 if dice.roll(64) == 0 => {
            let taken: Vec<(K, i16)> = map.extract_if(|_, it| it % 5 == 0).take(7).collect();
            assert!(taken.iter().copied().eq(std
                .iter()
                .map(copied)
                .filter(|it| it.1 % 5 == 0)
                .take(7)));
            std.retain(|key, _| taken.iter().all(|it| it.0 != *key));
        }
        _ => {}
    }
}

fn compare<K: Word + Ord + Debug>(calls: usize, mut key: impl FnMut(&mut Dice) -> K) {
    let mut dice = Dice(88172645463325252);
    let (mut map, mut std) = (OrdMap::<K, i16>::new().unwrap(), BTreeMap::new());
    let (shared, mut std_shared) = (
        OrdSharedMap::<K, i16>::new().unwrap().pin().unwrap(),
        BTreeMap::new(),
    );
    let (live, mut std_live) = (
        OrdLiveMap::<K, i16>::new().unwrap().pin().unwrap(),
        BTreeMap::new(),
    );
    for _ in 0..calls {
        let (k, other, value) = (
            key(&mut dice),
            key(&mut dice),
            dice.roll(1 << 16) as u16 as i16,
        );
        common!(map, std, dice, k, other, value);
        common!(shared, std_shared, dice, k, other, value);
        common!(live, std_live, dice, k, other, value);
        own(&mut map, &mut std, &mut dice, k, value);
        assert_eq!(map.iter().len(), std.len());
    }
    assert_eq!(format!("{map:?}"), format!("{std:?}"));
    assert!(shared
        .snapshot()
        .unwrap()
        .iter()
        .eq(std_shared.iter().map(copied)));
    assert!(live
        .snapshot()
        .unwrap()
        .iter()
        .eq(std_live.iter().map(copied)));
    assert!(shared.iter().rev().eq(std_shared.iter().rev().map(copied)));
    assert!(live.iter().rev().eq(std_live.iter().rev().map(copied)));
    assert_eq!(map, OrdMap::try_from_iter(std.iter().map(copied)).unwrap());
    assert!(map.into_iter().rev().eq(std.into_iter().rev()));
}

/// Owners, notes and meetings of typed maps for threads, and their limits.
macro_rules! threads {
    ($map:expr, $limit:expr) => {{
        let map = $map.unwrap();
        let (one, other) = (map.clone().pin().unwrap(), map.pin().unwrap());
        std::thread::scope(|scope| {
            let own = map.clone();
            scope.spawn(move || own.pin().unwrap().insert(-3i32, 'a').unwrap());
        });
        other.learn(&one.note().unwrap());
        one.meet(&other);
        assert_eq!((one.get(-3), other.first()), (Some('a'), Some((-3, 'a'))));
        assert_eq!((map.limit(), one.limit()), ($limit, $limit));
        assert_eq!((map.usage(), map.charged()), (one.usage(), one.charged()));
    }};
}

/// The least key and the greatest one in calls of many pairs, and in pops of the last pair that is left.
macro_rules! ends {
    ($map:expr) => {{
        #[allow(unused_mut)]
        let mut map = $map.unwrap();
        let all = [(0, 5), (7, 6), (u64::MAX, 8)];
        assert!(map.extend(all).is_ok());
        assert!(map.keys().eq([0, 7, u64::MAX]) && map.keys().rev().eq([u64::MAX, 7, 0]));
        assert!(map.values().eq([5, 6, 8]) && map.values().rev().eq([8, 6, 5]));
        assert!(map.iter().rev().take(2).eq([(u64::MAX, 8), (7, 6)]));
        map.retain(|key, _| key < u64::MAX);
        assert_eq!((map.last(), map.len()), (Some((7, 6)), 2));
        map.retain(|key, _| key > 0);
        assert!(map.iter().eq([(7, 6)]) && map.extend(all).is_ok());
        assert_eq!(map.pop_first_to(0), Some((0, 5)));
        assert_eq!(
            (map.pop_first_to(6), map.pop_last_from(8)),
            (None, Some((u64::MAX, 8)))
        );
        assert_eq!(
            (map.pop_last_from(8), map.pop_last_from(7)),
            (None, Some((7, 6)))
        );
        assert_eq!(map.insert(u64::MAX, 9), Ok(None));
        assert_eq!(
            (map.pop_first(), map.pop_last()),
            (Some((u64::MAX, 9)), None)
        );
        assert_eq!(map.insert(0, 9), Ok(None));
        assert_eq!((map.pop_last(), map.pop_first()), (Some((0, 9)), None));
        assert!(map.extend(all).is_ok());
        assert_eq!((map.remove_range(8..), map.remove_range(..=0)), (1, 1));
        assert_eq!((map.remove_range(..), map.is_empty()), (1, true));
        assert!(map.extend(all).is_ok());
        map.clear();
        assert!(map.is_empty() && map.iter().next().is_none());
    }};
}

/// That numbers keep the order, and lead back.
fn keep_the_order<K: Word + Ord + Debug>(values: &[K]) {
    for one in values {
        assert_eq!(K::from_u64(one.into_u64()), *one);
        for other in values {
            assert_eq!(
                one.cmp(other),
                one.into_u64().cmp(&other.into_u64()),
                "{one:?} {other:?}"
            );
        }
    }
}

/// A key of two lines.
#[derive(Clone, Copy, Debug, PartialEq, Eq, PartialOrd, Ord)]
struct Table(i16);

impl Half for Table {
    fn into_u32(self) -> u32 {
        self.0.into_u32()
    }

    fn from_u32(number: u32) -> Table {
        Table(i16::from_u32(number))
    }
}

fn main() {
    keep_the_order(&[0, 1, 127, 128, u8::MAX]);
    keep_the_order(&[0, 1, 1 << 15, u16::MAX]);
    keep_the_order(&[0, 1, 1 << 31, u32::MAX]);
    keep_the_order(&[0, 1, 1 << 63, u64::MAX]);
    keep_the_order(&[0, 1, usize::MAX]);
    keep_the_order(&[i8::MIN, -1, 0, 1, i8::MAX]);
    keep_the_order(&[i16::MIN, -256, -1, 0, 1, i16::MAX]);
    keep_the_order(&[i32::MIN, -256, -1, 0, 1, i32::MAX]);
    keep_the_order(&[i64::MIN, -256, -1, 0, 1, i64::MAX]);
    keep_the_order(&[isize::MIN, -1, 0, 1, isize::MAX]);
    keep_the_order(&[false, true]);
    keep_the_order(&['\0', 'a', '\u{d7ff}', '\u{e000}', char::MAX]);
    keep_the_order(&[()]);
    keep_the_order(&[
        [0; 8],
        [0, 0, 0, 0, 0, 0, 0, 1],
        [1, 0, 0, 0, 0, 0, 0, 0],
        [255; 8],
    ]);
    keep_the_order(&[[0; 4], [0, 0, 0, 1], [1, 0, 0, 0], [255; 4]]);
    keep_the_order(&[
        (i32::MIN, u32::MAX),
        (-1, 0),
        (-1, u32::MAX),
        (0, 0),
        (i32::MAX, 7),
    ]);
    keep_the_order(&[(false, 'x'), (true, '\0'), (true, 'x')]);
    ends!(Map::new());
    ends!(SharedMap::new().unwrap().pin());
    ends!(SharedMap::sharded().unwrap().pin());
    ends!(LiveMap::new().unwrap().pin());
    ends!(OrdMap::<u64, u64>::new());
    ends!(OrdSharedMap::<u64, u64>::new().unwrap().pin());
    ends!(OrdLiveMap::<u64, u64>::new().unwrap().pin());
    threads!(OrdSharedMap::with_limit(9_000), 9_000);
    threads!(OrdSharedMap::sharded_with_limit(64 * 9_000), 64 * 9_000);
    threads!(OrdLiveMap::with_limit(90_000), 90_000);
    let number = |dice: &mut Dice| dice.roll(1 << 53) << 11;
    compare(4_000, |dice| dice.roll(256) as u8 as i8);
    compare(4_000, |dice| dice.roll(4000) as i16 - 2000);
    compare(4_000, |dice| {
        dice.roll(1 << 32) as u32 as i32 >> dice.roll(32)
    });
    compare(4_000, |dice| number(dice) as i64 >> dice.roll(64));
    compare(4_000, |dice| dice.roll(1 << 20) as usize);
    compare(4_000, |dice| {
        char::from_u32(dice.roll(0x11_0000) as u32).unwrap_or('x')
    });
    compare(4_000, |dice| {
        (
            Table(dice.roll(8) as i16 - 4),
            dice.roll(1 << 32) as u32 as i32,
        )
    });
    compare(4_000, |dice| number(dice).to_be_bytes());
    compare(1_000, |dice| dice.roll(2) == 1);
}
