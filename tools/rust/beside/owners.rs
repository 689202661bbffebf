//! The maps of objects, as a thread calls each. A value is an object of its own, and a look-up reads it.

use crate::loads::{Calls, Shared};
use proved_congee::{LiveArcGuard, LiveArcMap};
use std::collections::BTreeMap;
use std::sync::{Arc, Mutex};

fn number_of(owner: Option<Arc<u64>>) -> u64 {
    owner.map_or(0, |it| *it)
}

/// A map whose look-up lends the object.
pub struct Lent(LiveArcMap<u64>);

/// A guard, by which an object is read while it is lent.
pub struct ByLoan(LiveArcGuard<u64>);

impl Calls for ByLoan {
    fn get(&mut self, key: u64) -> u64 {
        self.0.get(key).map_or(0, |it| *it)
    }

    fn insert(&mut self, key: u64, value: u64) -> u64 {
        let before = self.0.insert(key, Arc::new(value));
        before.expect("there is memory").map_or(0, |it| *it)
    }

    fn remove(&mut self, key: u64) -> u64 {
        self.0.remove(key).map_or(0, |it| *it)
    }

    fn range(&mut self, _start: u64) -> u64 {
        unreachable!("ranges aren't timed")
    }
}

impl Shared for Lent {
    const HAS_RANGES: bool = false;
    const HAS_HOT_KEY: bool = true;
    type Caller<'a> = ByLoan;

    fn empty() -> Lent {
        Lent(LiveArcMap::new().expect("there is memory"))
    }

    fn caller(&self) -> ByLoan {
        ByLoan(self.0.pin().expect("there is memory"))
    }
}

/// The same map. Each call that finds an object returns a further `Arc`, as those of the other maps do.
pub struct Counted(LiveArcMap<u64>);

/// A guard, by which each object that is found is counted.
pub struct ByArc(LiveArcGuard<u64>);

impl Calls for ByArc {
    fn get(&mut self, key: u64) -> u64 {
        number_of(self.0.get_arc(key))
    }

    fn insert(&mut self, key: u64, value: u64) -> u64 {
        let before = self.0.insert(key, Arc::new(value));
        number_of(before.expect("there is memory").map(|it| it.to_arc()))
    }

    fn remove(&mut self, key: u64) -> u64 {
        number_of(self.0.remove(key).map(|it| it.to_arc()))
    }

    fn range(&mut self, _start: u64) -> u64 {
        unreachable!("ranges aren't timed")
    }
}

impl Shared for Counted {
    const HAS_RANGES: bool = false;
    const HAS_HOT_KEY: bool = true;
    type Caller<'a> = ByArc;

    fn empty() -> Counted {
        Counted(LiveArcMap::new().expect("there is memory"))
    }

    fn caller(&self) -> ByArc {
        ByArc(self.0.pin().expect("there is memory"))
    }
}

/// A `BTreeMap` in a mutex, by which a look-up returns a further `Arc`.
pub struct InMutex(Mutex<BTreeMap<u64, Arc<u64>>>);

impl Calls for &InMutex {
    fn get(&mut self, key: u64) -> u64 {
        let found = self.0.lock().expect("no thread panics").get(&key).cloned();
        number_of(found)
    }

    fn insert(&mut self, key: u64, value: u64) -> u64 {
        let owner = Arc::new(value);
        let before = self.0.lock().expect("no thread panics").insert(key, owner);
        number_of(before)
    }

    fn remove(&mut self, key: u64) -> u64 {
        let before = self.0.lock().expect("no thread panics").remove(&key);
        number_of(before)
    }

    fn range(&mut self, _start: u64) -> u64 {
        unreachable!("ranges aren't timed")
    }
}

impl Shared for InMutex {
    const HAS_RANGES: bool = false;
    const HAS_HOT_KEY: bool = true;
    type Caller<'a> = &'a InMutex;

    fn empty() -> InMutex {
        InMutex(Mutex::new(BTreeMap::new()))
    }

    fn caller(&self) -> &InMutex {
        self
    }
}

/// The map of owners of the crate that was ported, a pin for each call.
#[cfg(feature = "congee")]
pub struct Crate(congee::CongeeArc<usize, u64>);

#[cfg(feature = "congee")]
impl Calls for &Crate {
    fn get(&mut self, key: u64) -> u64 {
        number_of(self.0.get(key as usize, &self.0.pin()))
    }

    fn insert(&mut self, key: u64, value: u64) -> u64 {
        let before = self.0.insert(key as usize, Arc::new(value), &self.0.pin());
        number_of(before.ok().expect("there is memory"))
    }

    fn remove(&mut self, key: u64) -> u64 {
        number_of(self.0.remove(key as usize, &self.0.pin()))
    }

    fn range(&mut self, _start: u64) -> u64 {
        unreachable!("it has no ranges")
    }
}

#[cfg(feature = "congee")]
impl Shared for Crate {
    const HAS_RANGES: bool = false;
    const HAS_HOT_KEY: bool = true;
    type Caller<'a> = &'a Crate;

    fn empty() -> Crate {
        Crate(congee::CongeeArc::new())
    }

    fn caller(&self) -> &Crate {
        self
    }
}
