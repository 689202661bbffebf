//! A map that nobody changes, and its readers.

use crate::map::{as_length, Map};
use crate::pages::{Keys, Range, Source, Values};
use crate::sys::*;
use crate::{OutOfMemory, Pair};
use std::borrow::Borrow;
use std::cmp::Ordering;
use std::fmt;
use std::hash::{Hash, Hasher};
use std::mem::ManuallyDrop;
use std::ops::RangeBounds;
use std::sync::{Mutex, PoisonError};

/// A reader of a map that nobody changes, as [`Map::freeze`] returns it. A reader is one thread's at a time. Several
/// readers, each on a thread of its own, read the same map side by side. The map is freed with its last reader.
///
/// Proved of the library beneath: a reader reads exactly the pairs that the map had when it was frozen, all readers read
/// one map, and a thawed map has the same pairs. This wrapper is tested.
///
/// ```
/// # fn main() -> Result<(), proved_congee::OutOfMemory> {
/// let map = proved_congee::Map::try_from_iter((0..1000).map(|key| (key, key * key)))?;
/// let frozen = map.freeze()?;
/// let threads = (0..4)
///     .map(|first| {
///         let own = frozen.try_clone()?;
///         Ok(std::thread::spawn(move || own.range(first * 250..).next()))
///     })
///     .collect::<Result<Vec<_>, proved_congee::OutOfMemory>>()?;
/// for (first, thread) in (0..4).zip(threads) {
///     assert_eq!(thread.join().unwrap(), Some((first * 250, first * 250 * first * 250)));
/// }
/// # Ok(())
/// # }
/// ```
pub struct Frozen {
    reader: *mut OneReaderForEachThread,
    // (as of the map, which nobody changes)
    limit: u64,
    charged: u64,
}

// SAFETY: the library proves that a reader may go to another thread (`unsafe impl Send for FrozenHandle`).
unsafe impl Send for Frozen {}

// SAFETY of the calls below: as of those of `Map`, of a reader's address.
impl Frozen {
    pub(crate) fn of_address(
        reader: *mut OneReaderForEachThread,
        limit: u64,
        charged: u64,
    ) -> Frozen {
        Frozen {
            reader,
            limit,
            charged,
        }
    }

    fn handle(&self) -> FrozenHandle {
        FrozenHandle {
            reader: self.reader,
        }
    }

    /// Makes one more reader of the same map, for another thread. Takes a small block. Returns [`OutOfMemory`] if there is
    /// no memory for one.
    ///
    /// ```
    /// # fn main() -> Result<(), proved_congee::OutOfMemory> {
    /// let map = proved_congee::Map::try_from_iter([(7, 70)])?;
    /// let one = map.freeze()?;
    /// assert_eq!(one.try_clone()?.get(7), Some(70));
    /// # Ok(())
    /// # }
    /// ```
    #[doc(alias = "clone")]
    pub fn try_clone(&self) -> Result<Frozen, OutOfMemory> {
        let mut made = FrozenHandle::none();
        match unsafe { congee_c_frozen_another(&mut self.handle(), &mut made) } {
            0 => Ok(Frozen::of_address(made.reader, self.limit, self.charged)),
            _ => Err(OutOfMemory),
        }
    }

    /// Returns the map, to change it again, if this is its last reader. Otherwise the error has the reader. Takes no
    /// memory.
    ///
    /// ```
    /// # fn main() -> Result<(), proved_congee::OutOfMemory> {
    /// let map = proved_congee::Map::try_from_iter([(7, 70)])?;
    /// let one = map.freeze()?;
    /// let other = one.try_clone()?;
    /// let one = one.thaw().unwrap_err();
    /// drop(other);
    /// let mut map = one.thaw().unwrap();
    /// assert_eq!(map.remove(7), Some(70));
    /// # Ok(())
    /// # }
    /// ```
    pub fn thaw(self) -> Result<Map, Frozen> {
        let (limit, charged) = (self.limit, self.charged);
        // (the library owns the reader from here on, or returns it)
        let handle = ManuallyDrop::new(self).handle();
        let (mut made, mut back) = (Handle::none(), FrozenHandle::none());
        match unsafe { congee_c_thaw(handle, &mut made, &mut back) } {
            1 => Ok(Map::of_address(made.map)),
            _ => Err(Frozen::of_address(back.reader, limit, charged)),
        }
    }

    /// Copies the pairs into a map of their own, without a limit. Other readers go on. Returns [`OutOfMemory`] if there
    /// is no memory for the copy.
    ///
    /// ```
    /// # fn main() -> Result<(), proved_congee::OutOfMemory> {
    /// let frozen = proved_congee::Map::try_from_iter([(5, 50), (7, 70)])?.freeze()?;
    /// let mut copy = frozen.snapshot()?;
    /// assert_eq!(copy.remove(5), Some(50));
    /// assert!(frozen.contains_key(5) && copy.iter().eq([(7, 70)]));
    /// # Ok(())
    /// # }
    /// ```
    #[doc(alias = "to_owned")]
    pub fn snapshot(&self) -> Result<Map, OutOfMemory> {
        Map::try_from_iter(self)
    }

    /// Returns the value at the key, or `None` if the key is absent.
    ///
    /// ```
    /// # fn main() -> Result<(), proved_congee::OutOfMemory> {
    /// let map = proved_congee::Map::try_from_iter([(7, 70)])?;
    /// let frozen = map.freeze()?;
    /// assert_eq!((frozen.get(7), frozen.get(8)), (Some(70), None));
    /// # Ok(())
    /// # }
    /// ```
    #[doc(alias("find", "index", "view"))]
    pub fn get(&self, key: impl Borrow<u64>) -> Option<u64> {
        let mut value = 0;
        let code = unsafe { congee_c_frozen_get(&mut self.handle(), *key.borrow(), &mut value) };
        (code == 1).then_some(value)
    }

    /// Returns whether the map has the key.
    ///
    /// ```
    /// # fn main() -> Result<(), proved_congee::OutOfMemory> {
    /// let map = proved_congee::Map::try_from_iter([(7, 70), (9, 90)])?;
    /// let frozen = map.freeze()?;
    /// assert!(frozen.contains_key(7) && !frozen.contains_key(8));
    /// # Ok(())
    /// # }
    /// ```
    #[doc(alias = "contains")]
    pub fn contains_key(&self, key: impl Borrow<u64>) -> bool {
        self.get(key).is_some()
    }

    /// Writes the first pairs with `start <= key < end` to the buffer, keys ascending, and returns how many pairs fit.
    /// `u64::MAX` is in no such range. The rest of the buffer is unchanged.
    ///
    /// ```
    /// # fn main() -> Result<(), proved_congee::OutOfMemory> {
    /// let map = proved_congee::Map::try_from_iter([(7, 70), (9, 90)])?;
    /// let frozen = map.freeze()?;
    /// let mut page = [proved_congee::Pair::default(); 4];
    /// assert_eq!(frozen.read_range(0, 9, &mut page), 1);
    /// assert_eq!((page[0].key, page[0].value), (7, 70));
    /// # Ok(())
    /// # }
    /// ```
    #[doc(alias("page", "scan"))]
    pub fn read_range(&self, start: u64, end: u64, buffer: &mut [Pair]) -> usize {
        unsafe {
            congee_c_frozen_range(
                &mut self.handle(),
                start,
                end,
                buffer.as_mut_ptr(),
                buffer.len(),
            )
        }
    }

    /// Writes the first pairs with `start <= key <= last` to the buffer, keys ascending, and returns how many pairs fit.
    /// The rest of the buffer is unchanged.
    ///
    /// ```
    /// # fn main() -> Result<(), proved_congee::OutOfMemory> {
    /// let map = proved_congee::Map::try_from_iter([(7, 70), (u64::MAX, 90)])?;
    /// let frozen = map.freeze()?;
    /// let mut page = [proved_congee::Pair::default(); 2];
    /// assert_eq!(frozen.read_range_inclusive(0, u64::MAX, &mut page), 2);
    /// assert_eq!(page.map(|pair| pair.key), [7, u64::MAX]);
    /// # Ok(())
    /// # }
    /// ```
    pub fn read_range_inclusive(&self, start: u64, last: u64, buffer: &mut [Pair]) -> usize {
        let (place, n) = (buffer.as_mut_ptr(), buffer.len());
        unsafe { congee_c_frozen_range_inclusive(&mut self.handle(), start, last, place, n) }
    }

    /// Writes the last pairs with `start <= key <= last` to the buffer, keys descending, and returns how many pairs fit.
    /// The rest of the buffer is unchanged.
    ///
    /// ```
    /// # fn main() -> Result<(), proved_congee::OutOfMemory> {
    /// let map = proved_congee::Map::try_from_iter([(7, 70), (u64::MAX, 90)])?;
    /// let frozen = map.freeze()?;
    /// let mut page = [proved_congee::Pair::default(); 2];
    /// assert_eq!(frozen.read_range_descending(0, u64::MAX, &mut page), 2);
    /// assert_eq!(page.map(|pair| pair.key), [u64::MAX, 7]);
    /// # Ok(())
    /// # }
    /// ```
    pub fn read_range_descending(&self, start: u64, last: u64, buffer: &mut [Pair]) -> usize {
        let (place, n) = (buffer.as_mut_ptr(), buffer.len());
        unsafe { congee_c_frozen_range_descending(&mut self.handle(), start, last, place, n) }
    }

    /// Returns the pair with the least key, or `None` for an empty map.
    ///
    /// ```
    /// # fn main() -> Result<(), proved_congee::OutOfMemory> {
    /// let map = proved_congee::Map::try_from_iter([(5, 50), (7, 70), (9, 90)])?;
    /// let frozen = map.freeze()?;
    /// assert_eq!(frozen.first(), Some((5, 50)));
    /// # Ok(())
    /// # }
    /// ```
    #[doc(alias("first_entry", "first_key_value", "min", "peek"))]
    pub fn first(&self) -> Option<(u64, u64)> {
        self.ceiling(0)
    }

    /// Returns the pair with the greatest key, or `None` for an empty map.
    ///
    /// ```
    /// # fn main() -> Result<(), proved_congee::OutOfMemory> {
    /// let map = proved_congee::Map::try_from_iter([(5, 50), (7, 70), (9, 90)])?;
    /// let frozen = map.freeze()?;
    /// assert_eq!(frozen.last(), Some((9, 90)));
    /// # Ok(())
    /// # }
    /// ```
    #[doc(alias("last_entry", "last_key_value", "max"))]
    pub fn last(&self) -> Option<(u64, u64)> {
        self.floor(u64::MAX)
    }

    /// Returns the pair with the greatest key that is at most `key`, or `None` if no key fits.
    ///
    /// ```
    /// # fn main() -> Result<(), proved_congee::OutOfMemory> {
    /// let map = proved_congee::Map::try_from_iter([(5, 50), (7, 70), (9, 90)])?;
    /// let frozen = map.freeze()?;
    /// assert_eq!((frozen.floor(7), frozen.floor(4)), (Some((7, 70)), None));
    /// # Ok(())
    /// # }
    /// ```
    pub fn floor(&self, key: u64) -> Option<(u64, u64)> {
        let mut found = [Pair::default()];
        (self.read_range_descending(0, key, &mut found) == 1)
            .then_some((found[0].key, found[0].value))
    }

    /// Returns the pair with the least key that is at least `key`, or `None` if no key fits.
    ///
    /// ```
    /// # fn main() -> Result<(), proved_congee::OutOfMemory> {
    /// let map = proved_congee::Map::try_from_iter([(5, 50), (7, 70), (9, 90)])?;
    /// let frozen = map.freeze()?;
    /// assert_eq!((frozen.ceiling(8), frozen.ceiling(10)), (Some((9, 90)), None));
    /// # Ok(())
    /// # }
    /// ```
    #[doc(alias = "lower_bound")]
    pub fn ceiling(&self, key: u64) -> Option<(u64, u64)> {
        let mut found = [Pair::default()];
        (self.read_range_inclusive(key, u64::MAX, &mut found) == 1)
            .then_some((found[0].key, found[0].value))
    }

    /// Returns the pair with the greatest key below `key`, or `None` if no key fits.
    ///
    /// ```
    /// # fn main() -> Result<(), proved_congee::OutOfMemory> {
    /// let map = proved_congee::Map::try_from_iter([(5, 50), (7, 70), (9, 90)])?;
    /// let frozen = map.freeze()?;
    /// assert_eq!((frozen.below(7), frozen.below(0)), (Some((5, 50)), None));
    /// # Ok(())
    /// # }
    /// ```
    #[doc(alias = "predecessor")]
    pub fn below(&self, key: u64) -> Option<(u64, u64)> {
        self.floor(key.checked_sub(1)?)
    }

    /// Returns the pair with the least key above `key`, or `None` if no key fits.
    ///
    /// ```
    /// # fn main() -> Result<(), proved_congee::OutOfMemory> {
    /// let map = proved_congee::Map::try_from_iter([(5, 50), (7, 70), (9, 90)])?;
    /// let frozen = map.freeze()?;
    /// assert_eq!((frozen.above(7), frozen.above(u64::MAX)), (Some((9, 90)), None));
    /// # Ok(())
    /// # }
    /// ```
    #[doc(alias("successor", "upper_bound"))]
    pub fn above(&self, key: u64) -> Option<(u64, u64)> {
        self.ceiling(key.checked_add(1)?)
    }

    /// Returns the pairs whose keys are within the bounds, keys ascending, from either end.
    ///
    /// ```
    /// # fn main() -> Result<(), proved_congee::OutOfMemory> {
    /// let map = proved_congee::Map::try_from_iter([(5, 50), (7, 70), (9, 90)])?;
    /// let frozen = map.freeze()?;
    /// assert!(frozen.range(6..).eq([(7, 70), (9, 90)]));
    /// assert_eq!(frozen.range(..=8).next_back(), Some((7, 70)));
    /// # Ok(())
    /// # }
    /// ```
    #[doc(alias("cursor", "range_mut", "scan"))]
    pub fn range(&self, bounds: impl RangeBounds<u64>) -> Range<'_> {
        Range::of(Source::Frozen(self), bounds)
    }

    /// Returns all pairs, keys ascending, from either end.
    ///
    /// ```
    /// # fn main() -> Result<(), proved_congee::OutOfMemory> {
    /// let map = proved_congee::Map::try_from_iter([(7, 70), (9, 90)])?;
    /// let frozen = map.freeze()?;
    /// assert!(frozen.iter().eq([(7, 70), (9, 90)]));
    /// # Ok(())
    /// # }
    /// ```
    #[doc(alias("for_each", "iter_mut"))]
    pub fn iter(&self) -> Range<'_> {
        self.range(..)
    }

    /// Returns all keys, ascending, from either end.
    ///
    /// ```
    /// # fn main() -> Result<(), proved_congee::OutOfMemory> {
    /// let map = proved_congee::Map::try_from_iter([(7, 70), (9, 90)])?;
    /// let frozen = map.freeze()?;
    /// assert!(frozen.keys().eq([7, 9]));
    /// # Ok(())
    /// # }
    /// ```
    pub fn keys(&self) -> Keys<'_> {
        Keys { of: self.iter() }
    }

    /// Returns all values, by ascending keys, from either end.
    ///
    /// ```
    /// # fn main() -> Result<(), proved_congee::OutOfMemory> {
    /// let map = proved_congee::Map::try_from_iter([(7, 70), (9, 90)])?;
    /// let frozen = map.freeze()?;
    /// assert!(frozen.values().eq([70, 90]));
    /// # Ok(())
    /// # }
    /// ```
    #[doc(alias = "values_mut")]
    pub fn values(&self) -> Values<'_> {
        Values { of: self.iter() }
    }

    /// Returns whether the map has no pair, in constant time.
    ///
    /// ```
    /// # fn main() -> Result<(), proved_congee::OutOfMemory> {
    /// let map = proved_congee::Map::new()?;
    /// let frozen = map.freeze()?;
    /// assert!(frozen.is_empty());
    /// # Ok(())
    /// # }
    /// ```
    pub fn is_empty(&self) -> bool {
        self.len() == 0
    }

    /// Returns the number of pairs, in constant time.
    ///
    /// ```
    /// # fn main() -> Result<(), proved_congee::OutOfMemory> {
    /// let map = proved_congee::Map::try_from_iter([(7, 70), (9, 90)])?;
    /// let frozen = map.freeze()?;
    /// assert_eq!((frozen.len(), frozen.is_empty()), (2, false));
    /// # Ok(())
    /// # }
    /// ```
    #[doc(alias("count", "size", "value_count"))]
    pub fn len(&self) -> usize {
        as_length(unsafe { congee_c_frozen_count(&mut self.handle()) })
    }

    /// Returns the sum in bytes of the stated sizes of the map's nodes, as [`Map::charged`].
    ///
    /// ```
    /// # fn main() -> Result<(), proved_congee::OutOfMemory> {
    /// let map = proved_congee::Map::try_from_iter([(7, 70)])?;
    /// let charged = map.charged();
    /// assert_eq!(map.freeze()?.charged(), charged);
    /// # Ok(())
    /// # }
    /// ```
    #[doc(alias("bytes", "memory_usage", "stats"))]
    pub fn charged(&self) -> u64 {
        self.charged
    }

    /// Returns the limit in bytes that the map was made with, or `u64::MAX` for none.
    ///
    /// ```
    /// # fn main() -> Result<(), proved_congee::OutOfMemory> {
    /// let frozen = proved_congee::Map::with_limit(10_000)?.freeze()?;
    /// assert_eq!(frozen.try_clone()?.limit(), 10_000);
    /// assert_eq!(frozen.thaw().unwrap().limit(), 10_000);
    /// # Ok(())
    /// # }
    /// ```
    pub fn limit(&self) -> u64 {
        self.limit
    }

    /// Returns the sum in bytes of the stated sizes of the map's nodes, and the limit that the map was made with.
    ///
    /// ```
    /// # fn main() -> Result<(), Box<dyn std::error::Error>> {
    /// assert_eq!(proved_congee::Map::with_limit(5000)?.freeze()?.usage(), (2104, 5000));
    /// # Ok(())
    /// # }
    /// ```
    pub fn usage(&self) -> (u64, u64) {
        (self.charged, self.limit)
    }
}

impl Drop for Frozen {
    fn drop(&mut self) {
        // (the address isn't used again)
        unsafe { congee_c_frozen_free(self.handle()) }
    }
}

impl fmt::Debug for Frozen {
    fn fmt(&self, f: &mut fmt::Formatter<'_>) -> fmt::Result {
        f.debug_map().entries(self).finish()
    }
}

/// Whether both have the same pairs.
impl PartialEq for Frozen {
    fn eq(&self, other: &Frozen) -> bool {
        self.len() == other.len() && self.iter().eq(other)
    }
}

impl Eq for Frozen {}

/// As of the lists of pairs.
impl PartialOrd for Frozen {
    fn partial_cmp(&self, other: &Frozen) -> Option<Ordering> {
        Some(self.cmp(other))
    }
}

/// As of the lists of pairs.
impl Ord for Frozen {
    fn cmp(&self, other: &Frozen) -> Ordering {
        self.iter().cmp(other)
    }
}

impl Hash for Frozen {
    fn hash<H: Hasher>(&self, state: &mut H) {
        self.len().hash(state);
        self.iter().for_each(|pair| pair.hash(state));
    }
}

impl<'a> IntoIterator for &'a Frozen {
    type Item = (u64, u64);
    type IntoIter = Range<'a>;

    fn into_iter(self) -> Range<'a> {
        self.iter()
    }
}

/// A frozen map that threads share: each thread takes a reader of its own, and looks up without a lock from then on. The
/// type is `Sync`, by a mutex of one reader, and with no `unsafe`.
///
/// What is proved of a reader is at [`Frozen`]. This type is tested.
///
/// ```
/// use proved_congee::{Map, OutOfMemory, Readers};
///
/// # fn main() -> Result<(), OutOfMemory> {
/// let map = Map::try_from_iter((0..1000).map(|key| (key, key * key)))?;
/// let readers = Readers::new(map.freeze()?);
/// std::thread::scope(|scope| {
///     for first in 0..4 {
///         let readers = &readers;
///         scope.spawn(move || {
///             let own = readers.reader().unwrap();
///             assert!((first * 250..first * 250 + 250).all(|key| own.get(key) == Some(key * key)));
///         });
///     }
/// });
/// let mut map = readers.into_inner().thaw().unwrap();
/// assert_eq!(map.insert(7, 1)?, Some(49));
/// # Ok(())
/// # }
/// ```
#[derive(Debug)]
pub struct Readers(Mutex<Frozen>);

impl Readers {
    /// Makes readers of the map that this reader reads.
    ///
    /// ```
    /// # fn main() -> Result<(), proved_congee::OutOfMemory> {
    /// let map = proved_congee::Map::try_from_iter([(7, 70), (9, 90)])?;
    /// let frozen = map.freeze()?;
    /// let readers = proved_congee::Readers::new(frozen);
    /// assert_eq!(readers.reader()?.len(), 2);
    /// # Ok(())
    /// # }
    /// ```
    pub fn new(frozen: Frozen) -> Readers {
        Readers(Mutex::new(frozen))
    }

    /// Makes one more reader. Waits while another thread makes one. Returns [`OutOfMemory`] if there is no memory for a
    /// small block.
    ///
    /// ```
    /// # fn main() -> Result<(), proved_congee::OutOfMemory> {
    /// let map = proved_congee::Map::try_from_iter([(7, 70), (9, 90)])?;
    /// let frozen = map.freeze()?;
    /// let readers = proved_congee::Readers::new(frozen);
    /// let (one, other) = (readers.reader()?, readers.reader()?);
    /// assert_eq!(one.get(7), other.get(7));
    /// # Ok(())
    /// # }
    /// ```
    pub fn reader(&self) -> Result<Frozen, OutOfMemory> {
        // (a call that panicked left the reader as it was)
        self.0
            .lock()
            .unwrap_or_else(PoisonError::into_inner)
            .try_clone()
    }

    /// Returns the reader that this value was made from.
    ///
    /// ```
    /// # fn main() -> Result<(), proved_congee::OutOfMemory> {
    /// let map = proved_congee::Map::try_from_iter([(7, 70), (9, 90)])?;
    /// let frozen = map.freeze()?;
    /// let readers = proved_congee::Readers::new(frozen);
    /// assert_eq!(readers.into_inner().thaw().unwrap().len(), 2);
    /// # Ok(())
    /// # }
    /// ```
    pub fn into_inner(self) -> Frozen {
        self.0.into_inner().unwrap_or_else(PoisonError::into_inner)
    }
}
