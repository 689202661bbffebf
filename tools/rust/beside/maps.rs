//! The maps, as a thread calls each.

use crate::loads::{Calls, Shared};
use proved_congee::{Guard, LiveGuard, LiveMap, Pair, SharedMap};
use std::collections::BTreeMap;
use std::sync::Mutex;

const PAGE: usize = 100;

fn sum_of(page: &[Pair]) -> u64 {
    page.iter().fold(0, |sum, pair| {
        sum.wrapping_add(pair.key).wrapping_add(pair.value)
    })
}

impl Calls for LiveGuard {
    fn get(&mut self, key: u64) -> u64 {
        LiveGuard::get(self, key).unwrap_or(0)
    }

    fn insert(&mut self, key: u64, value: u64) -> u64 {
        let before = LiveGuard::insert(self, key, value).expect("there is memory");
        before.unwrap_or(0)
    }

    fn remove(&mut self, key: u64) -> u64 {
        LiveGuard::remove(self, key).unwrap_or(0)
    }

    fn range(&mut self, start: u64) -> u64 {
        let mut page = [Pair::default(); PAGE];
        let found = self.read_range_inclusive(start, u64::MAX, &mut page);
        sum_of(&page[..found])
    }
}

impl Shared for LiveMap {
    type Caller<'a> = LiveGuard;

    fn empty() -> LiveMap {
        LiveMap::new().expect("there is memory")
    }

    fn caller(&self) -> LiveGuard {
        self.pin().expect("there is memory")
    }
}

impl Calls for Guard {
    fn get(&mut self, key: u64) -> u64 {
        Guard::get(self, key).unwrap_or(0)
    }

    fn insert(&mut self, key: u64, value: u64) -> u64 {
        let before = Guard::insert(self, key, value).expect("there is memory");
        before.unwrap_or(0)
    }

    fn remove(&mut self, key: u64) -> u64 {
        Guard::remove(self, key).unwrap_or(0)
    }

    fn range(&mut self, start: u64) -> u64 {
        let mut page = [Pair::default(); PAGE];
        let found = self.read_range_inclusive(start, u64::MAX, &mut page);
        sum_of(&page[..found])
    }
}

/// A map under one lock.
pub struct Locked(SharedMap);

impl Shared for Locked {
    type Caller<'a> = Guard;

    fn empty() -> Locked {
        Locked(SharedMap::new().expect("there is memory"))
    }

    fn caller(&self) -> Guard {
        self.0.pin().expect("there is memory")
    }
}

/// A map in 64 shards.
pub struct Sharded(SharedMap);

impl Shared for Sharded {
    type Caller<'a> = Guard;

    fn empty() -> Sharded {
        Sharded(SharedMap::sharded().expect("there is memory"))
    }

    fn caller(&self) -> Guard {
        self.0.pin().expect("there is memory")
    }
}

/// A `BTreeMap` in a mutex.
pub struct InMutex(Mutex<BTreeMap<u64, u64>>);

impl Calls for &InMutex {
    fn get(&mut self, key: u64) -> u64 {
        let map = self.0.lock().expect("no thread panics");
        map.get(&key).copied().unwrap_or(0)
    }

    fn insert(&mut self, key: u64, value: u64) -> u64 {
        let mut map = self.0.lock().expect("no thread panics");
        map.insert(key, value).unwrap_or(0)
    }

    fn remove(&mut self, key: u64) -> u64 {
        let mut map = self.0.lock().expect("no thread panics");
        map.remove(&key).unwrap_or(0)
    }

    fn range(&mut self, start: u64) -> u64 {
        let map = self.0.lock().expect("no thread panics");
        let page = map.range(start..).take(PAGE);
        page.fold(0, |sum, (key, value)| {
            sum.wrapping_add(*key).wrapping_add(*value)
        })
    }
}

impl Shared for InMutex {
    type Caller<'a> = &'a InMutex;

    fn empty() -> InMutex {
        InMutex(Mutex::new(BTreeMap::new()))
    }

    fn caller(&self) -> &InMutex {
        self
    }
}

/// The crate that was ported, a pin for each call.
#[cfg(feature = "congee")]
pub struct Crate(congee::Congee<usize, usize>);

#[cfg(feature = "congee")]
impl Calls for &Crate {
    fn get(&mut self, key: u64) -> u64 {
        let found = self.0.get(&(key as usize), &self.0.pin());
        found.unwrap_or(0) as u64
    }

    fn insert(&mut self, key: u64, value: u64) -> u64 {
        let before = self.0.insert(key as usize, value as usize, &self.0.pin());
        before.ok().expect("there is memory").unwrap_or(0) as u64
    }

    fn remove(&mut self, key: u64) -> u64 {
        let before = self.0.remove(&(key as usize), &self.0.pin());
        before.unwrap_or(0) as u64
    }

    fn range(&mut self, start: u64) -> u64 {
        let mut page = [(0usize, 0usize); PAGE];
        let found = self
            .0
            .range(&(start as usize), &usize::MAX, &mut page, &self.0.pin());
        page[..found].iter().fold(0, |sum, (key, value)| {
            sum.wrapping_add(*key as u64).wrapping_add(*value as u64)
        })
    }
}

#[cfg(feature = "congee")]
impl Shared for Crate {
    type Caller<'a> = &'a Crate;

    fn empty() -> Crate {
        Crate(congee::Congee::default())
    }

    fn caller(&self) -> &Crate {
        self
    }
}

/// A skip list without locks. An insertion returns the new entry.
#[cfg(feature = "crossbeam-skiplist")]
pub struct SkipList(crossbeam_skiplist::SkipMap<u64, u64>);

#[cfg(feature = "crossbeam-skiplist")]
impl Calls for &SkipList {
    fn get(&mut self, key: u64) -> u64 {
        self.0.get(&key).map_or(0, |it| *it.value())
    }

    fn insert(&mut self, key: u64, value: u64) -> u64 {
        *self.0.insert(key, value).value()
    }

    fn remove(&mut self, key: u64) -> u64 {
        self.0.remove(&key).map_or(0, |it| *it.value())
    }

    fn range(&mut self, start: u64) -> u64 {
        let page = self.0.range(start..).take(PAGE);
        page.fold(0, |sum, it| {
            sum.wrapping_add(*it.key()).wrapping_add(*it.value())
        })
    }
}

#[cfg(feature = "crossbeam-skiplist")]
impl Shared for SkipList {
    const RETURNS_BEFORE: bool = false;
    type Caller<'a> = &'a SkipList;

    fn empty() -> SkipList {
        SkipList(crossbeam_skiplist::SkipMap::new())
    }

    fn caller(&self) -> &SkipList {
        self
    }
}

/// A hash map in shards, each under a lock that readers share. It has no order.
#[cfg(feature = "dashmap")]
pub struct Hashed(dashmap::DashMap<u64, u64>);

#[cfg(feature = "dashmap")]
impl Calls for &Hashed {
    fn get(&mut self, key: u64) -> u64 {
        self.0.get(&key).map_or(0, |it| *it)
    }

    fn insert(&mut self, key: u64, value: u64) -> u64 {
        self.0.insert(key, value).unwrap_or(0)
    }

    fn remove(&mut self, key: u64) -> u64 {
        self.0.remove(&key).map_or(0, |(_, value)| value)
    }

    fn range(&mut self, _start: u64) -> u64 {
        unreachable!("it has no ranges")
    }
}

#[cfg(feature = "dashmap")]
impl Shared for Hashed {
    const HAS_RANGES: bool = false;
    type Caller<'a> = &'a Hashed;

    fn empty() -> Hashed {
        Hashed(dashmap::DashMap::new())
    }

    fn caller(&self) -> &Hashed {
        self
    }
}
