//! Calls of guards, made of several calls of the map. Calls of other threads come in between.
//!
//! Calls of a [`Caller`] without `try_` wait while busy, and those with `try_` don't.

use crate::map::ExtendError;
use crate::pages::{Range, Source};
use crate::shared::{Busy, Guard, TryError};
use crate::{LiveGuard, Map, OutOfMemory};
use std::ops::RangeBounds;

/// A guard's calls, for the loops below.
pub(crate) trait Caller {
    fn source(&self) -> Source<'_>;
    fn get(&self, key: u64) -> Option<u64>;
    fn insert(&self, key: u64, value: u64) -> Result<Option<u64>, OutOfMemory>;
    fn insert_absent(&self, key: u64, value: u64) -> Result<Option<u64>, OutOfMemory>;
    fn remove(&self, key: u64) -> Option<u64>;
    fn compare_exchange(&self, key: u64, expected: u64, desired: u64) -> Result<(), Option<u64>>;
    fn compare_remove(&self, key: u64, expected: u64) -> Result<(), Option<u64>>;
    fn try_get(&self, key: u64) -> Result<Option<u64>, Busy>;
    fn try_insert_absent(&self, key: u64, value: u64) -> Result<Option<u64>, TryError>;
    fn try_exchange(&self, key: u64, expected: u64, to: Option<u64>) -> Result<bool, Busy>;
}

macro_rules! callers {
    ($($guard:ident: $source:ident),*) => {$(
        impl Caller for $guard {
            fn source(&self) -> Source<'_> {
                Source::$source(self)
            }

            fn get(&self, key: u64) -> Option<u64> {
                $guard::get(self, key)
            }

            fn insert(&self, key: u64, value: u64) -> Result<Option<u64>, OutOfMemory> {
                $guard::insert(self, key, value)
            }

            fn insert_absent(&self, key: u64, value: u64) -> Result<Option<u64>, OutOfMemory> {
                $guard::insert_absent(self, key, value)
            }

            fn remove(&self, key: u64) -> Option<u64> {
                $guard::remove(self, key)
            }

            fn compare_exchange(
                &self,
                key: u64,
                expected: u64,
                desired: u64,
            ) -> Result<(), Option<u64>> {
                $guard::compare_exchange(self, key, expected, desired)
            }

            fn compare_remove(&self, key: u64, expected: u64) -> Result<(), Option<u64>> {
                $guard::compare_remove(self, key, expected)
            }

            fn try_get(&self, key: u64) -> Result<Option<u64>, Busy> {
                $guard::try_get(self, key)
            }

            fn try_insert_absent(&self, key: u64, value: u64) -> Result<Option<u64>, TryError> {
                $guard::try_insert_absent(self, key, value)
            }

            fn try_exchange(&self, key: u64, expected: u64, to: Option<u64>) -> Result<bool, Busy> {
                let made = match to {
                    Some(value) => $guard::try_compare_exchange(self, key, expected, value)?,
                    None => $guard::try_compare_remove(self, key, expected)?,
                };
                Ok(made.is_ok())
            }
        }
    )*};
}

callers!(Guard: Shared, LiveGuard: Live);

pub(crate) fn range(caller: &impl Caller, bounds: impl RangeBounds<u64>) -> Range<'_> {
    Range::of(caller.source(), bounds)
}

pub(crate) fn extend(
    caller: &impl Caller,
    pairs: impl IntoIterator<Item = (u64, u64)>,
) -> Result<(), ExtendError> {
    for (inserted, pair) in pairs.into_iter().enumerate() {
        if caller.insert(pair.0, pair.1).is_err() {
            return Err(ExtendError { inserted, pair });
        }
    }
    Ok(())
}

pub(crate) fn get_or_insert_with(
    caller: &impl Caller,
    key: u64,
    f: impl FnOnce() -> u64,
) -> Result<u64, OutOfMemory> {
    if let Some(value) = caller.get(key) {
        return Ok(value);
    }
    let value = f();
    Ok(caller.insert_absent(key, value)?.unwrap_or(value))
}

pub(crate) fn compute(
    caller: &impl Caller,
    key: u64,
    mut f: impl FnMut(Option<u64>) -> Option<u64>,
) -> Result<Option<u64>, OutOfMemory> {
    let mut before = caller.get(key);
    loop {
        let made = match (before, f(before)) {
            (None, None) => Ok(()),
            (None, Some(value)) => match caller.insert_absent(key, value)? {
                None => Ok(()),
                found => Err(found),
            },
            (Some(current), None) => caller.compare_remove(key, current),
            (Some(current), Some(value)) => caller.compare_exchange(key, current, value),
        };
        match made {
            Ok(()) => return Ok(before),
            Err(current) => before = current,
        }
    }
}

pub(crate) fn try_compute(
    caller: &impl Caller,
    key: u64,
    f: impl FnOnce(Option<u64>) -> Option<u64>,
) -> Result<Option<u64>, TryError> {
    let before = caller.try_get(key)?;
    let is_made = match (before, f(before)) {
        (None, None) => true,
        (None, Some(value)) => caller.try_insert_absent(key, value)?.is_none(),
        (Some(current), after) => caller.try_exchange(key, current, after)?,
    };
    if is_made {
        Ok(before)
    } else {
        Err(TryError::Busy)
    }
}

pub(crate) fn remove_range(caller: &impl Caller, bounds: impl RangeBounds<u64>) -> u64 {
    range(caller, bounds)
        .map(|(key, _)| u64::from(caller.remove(key).is_some()))
        .sum()
}

pub(crate) fn snapshot(caller: &impl Caller) -> Result<Map, OutOfMemory> {
    Map::try_from_iter(range(caller, ..))
}

pub(crate) fn retain(caller: &impl Caller, mut keep: impl FnMut(u64, u64) -> bool) {
    for (key, mut value) in range(caller, ..) {
        while !keep(key, value) {
            match caller.compare_remove(key, value) {
                Err(Some(current)) => value = current,
                _ => break,
            }
        }
    }
}
