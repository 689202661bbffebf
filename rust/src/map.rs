//! The map that one thread has.

use crate::frozen::Frozen;
use crate::pages::{ends, IntoIter, Keys, Range, Source, Values};
use crate::sys::*;
use crate::{OutOfMemory, Pair};
use std::borrow::Borrow;
use std::cmp::Ordering;
use std::collections::BTreeMap;
use std::fmt;
use std::hash::{Hash, Hasher};
use std::iter::FusedIterator;
use std::mem::ManuallyDrop;
use std::ops::RangeBounds;

/// An ordered map from `u64` to `u64`, for one thread. A call of one key reads one path through the tree, of at most eight
/// nodes.
///
/// Proved of the library beneath: each call returns what an ordered map returns, and leaves the map with exactly those
/// pairs, for all maps and arguments. A call that returns [`OutOfMemory`] has changed nothing. This wrapper is tested, as
/// are iterators and calls with closures, which make several calls of the library.
///
/// ```
/// use proved_congee::Map;
///
/// # fn main() -> Result<(), proved_congee::OutOfMemory> {
/// let mut levels = Map::try_from([(990, 5), (1_010, 7)])?;
/// levels.insert(1_005, 2)?;
/// assert_eq!(levels.ceiling(1_000), Some((1_005, 2)));
/// assert_eq!(levels.pop_first(), Some((990, 5)));
/// # Ok(())
/// # }
/// ```
pub struct Map {
    map: *mut OneThreadAtATime,
}

// SAFETY: the library proves that a map may go to another thread (`unsafe impl Send for Handle`).
unsafe impl Send for Map {}

// SAFETY of the calls below. The address is one that the library returned and that neither `drop` has freed nor `freeze`
// has taken. Nothing else uses the map during a call: a `Map` isn't `Sync`, so that no two threads are in a call on it, and
// the library calls nothing back. The handle and each place that the library writes to are locals or borrowed as `&mut`,
// and initialised.
impl Map {
    /// Makes an empty map without a limit. Returns [`OutOfMemory`] if there is no memory.
    ///
    /// ```
    /// # fn main() -> Result<(), proved_congee::OutOfMemory> {
    /// assert!(proved_congee::Map::new()?.is_empty());
    /// # Ok(())
    /// # }
    /// ```
    #[doc(alias = "default")]
    pub fn new() -> Result<Map, OutOfMemory> {
        Map::with_limit(u64::MAX)
    }

    /// Makes an empty map whose nodes take at most so many bytes by their stated sizes: 64, 168, 672 or 2104 bytes for a
    /// node of up to 4, 16, 48 or 256 entries. The first node has the largest size, so a limit below 2104 bytes makes no
    /// map. The limit doesn't bound the memory that `malloc` lends, which is up to 1.8 times the stated sizes.
    ///
    /// ```
    /// use proved_congee::{Map, OutOfMemory};
    ///
    /// let mut map = Map::with_limit(2104 + 64).unwrap();
    /// assert_eq!(map.insert(1, 10), Ok(None));
    /// assert_eq!(map.insert(u64::MAX, 11), Err(OutOfMemory));
    /// assert_eq!((map.len(), map.charged()), (1, 2168));
    /// assert!(Map::with_limit(2103).is_err());
    /// ```
    #[doc(alias("capacity", "with_capacity"))]
    pub fn with_limit(bytes: u64) -> Result<Map, OutOfMemory> {
        let mut made = Handle::none();
        match unsafe { congee_c_new(bytes, &mut made) } {
            0 => Ok(Map::of_address(made.map)),
            _ => Err(OutOfMemory),
        }
    }

    /// Makes a map of the pairs. Of two pairs with one key the later value remains. Returns [`OutOfMemory`] if there is no
    /// memory.
    ///
    /// ```
    /// # fn main() -> Result<(), proved_congee::OutOfMemory> {
    /// let map = proved_congee::Map::try_from_iter((0..100).map(|key| (key * key, key)))?;
    /// assert_eq!(map.get(81), Some(9));
    /// # Ok(())
    /// # }
    /// ```
    #[doc(alias("collect", "from_iter"))]
    pub fn try_from_iter(pairs: impl IntoIterator<Item = (u64, u64)>) -> Result<Map, OutOfMemory> {
        let mut map = Map::new()?;
        map.try_extend(pairs)?;
        Ok(map)
    }

    /// Returns a copy of the map, with the same limit. Returns [`OutOfMemory`] if there is no memory. A map near its limit
    /// may be refused, since a node that grows is charged beside the node that it replaces.
    ///
    /// ```
    /// # fn main() -> Result<(), proved_congee::OutOfMemory> {
    /// let map = proved_congee::Map::try_from_iter([(7, 70), (9, 90)])?;
    /// let mut other = map.try_clone()?;
    /// assert_eq!(other, map);
    /// other.remove(7);
    /// assert_eq!(map.get(7), Some(70));
    /// # Ok(())
    /// # }
    /// ```
    #[doc(alias = "clone")]
    pub fn try_clone(&self) -> Result<Map, OutOfMemory> {
        let mut other = Map::with_limit(self.limit())?;
        other.try_extend(self)?;
        Ok(other)
    }

    pub(crate) fn of_address(map: *mut OneThreadAtATime) -> Map {
        Map { map }
    }

    fn handle(&self) -> Handle {
        Handle { map: self.map }
    }

    /// Returns the value at the key, or `None` if the key is absent.
    ///
    /// ```
    /// # fn main() -> Result<(), proved_congee::OutOfMemory> {
    /// let mut map = proved_congee::Map::new()?;
    /// map.insert(7, 70)?;
    /// assert_eq!((map.get(7), map.get(8)), (Some(70), None));
    /// let found: Vec<u64> = [7, 8].iter().filter_map(|key| map.get(key)).collect();
    /// assert_eq!(found, [70]);
    /// # Ok(())
    /// # }
    /// ```
    #[doc(alias("find", "index", "view"))]
    pub fn get(&self, key: impl Borrow<u64>) -> Option<u64> {
        let mut value = 0;
        let code = unsafe { congee_c_get(&mut self.handle(), *key.borrow(), &mut value) };
        (code == 1).then_some(value)
    }

    /// Returns whether the map has the key.
    ///
    /// ```
    /// # fn main() -> Result<(), proved_congee::OutOfMemory> {
    /// let map = proved_congee::Map::try_from_iter([(7, 70)])?;
    /// assert!(map.contains_key(7) && !map.contains_key(8));
    /// # Ok(())
    /// # }
    /// ```
    #[doc(alias = "contains")]
    pub fn contains_key(&self, key: impl Borrow<u64>) -> bool {
        self.get(key).is_some()
    }

    /// Sets the key's value, and returns the previous value, or `None` for a new key. Returns [`OutOfMemory`], with the map
    /// unchanged, only for a new key that needs a new node or a larger one.
    ///
    /// ```
    /// # fn main() -> Result<(), proved_congee::OutOfMemory> {
    /// let mut map = proved_congee::Map::new()?;
    /// assert_eq!(map.insert(7, 70)?, None);
    /// assert_eq!(map.insert(7, 71)?, Some(70));
    /// # Ok(())
    /// # }
    /// ```
    #[doc(alias("put", "upsert"))]
    pub fn insert(&mut self, key: u64, value: u64) -> Result<Option<u64>, OutOfMemory> {
        let mut before = 0;
        let code = unsafe { congee_c_insert(&mut self.handle(), key, value, &mut before) };
        unless_refused(code, before)
    }

    /// Inserts the pairs one by one, so of two pairs with one key the later value remains. The first refused pair ends the
    /// call, and the pairs before are in the map. The error has their number and the refused pair.
    ///
    /// ```
    /// # fn main() -> Result<(), proved_congee::ExtendError> {
    /// let mut map = proved_congee::Map::new().unwrap();
    /// map.extend([(7, 70), (5, 50), (7, 71)])?;
    /// assert!(map.iter().eq([(5, 50), (7, 71)]));
    /// # Ok(())
    /// # }
    /// ```
    #[doc(alias = "insert_many")]
    pub fn extend(
        &mut self,
        pairs: impl IntoIterator<Item = (u64, u64)>,
    ) -> Result<(), ExtendError> {
        self.try_extend(pairs)
    }

    /// Inserts the pairs one by one, as [`extend`](Map::extend), which is the call's name in all forms. The first refused
    /// pair ends the call, and the pairs before are in the map. The error has their number and the refused pair.
    ///
    /// ```
    /// use proved_congee::Map;
    ///
    /// let mut map = Map::with_limit(2104 + 64).unwrap();
    /// let mut pairs = [(1, 10), (2, 20), (u64::MAX, 30), (3, 30)].into_iter();
    /// let refused = map.try_extend(&mut pairs).unwrap_err();
    /// assert_eq!((refused.inserted(), refused.pair()), (2, (u64::MAX, 30)));
    /// assert_eq!(map.iter().collect::<Vec<_>>(), [(1, 10), (2, 20)]);
    /// assert_eq!(pairs.next(), Some((3, 30)));
    /// ```
    #[doc(alias("extend", "insert_many"))]
    pub fn try_extend(
        &mut self,
        pairs: impl IntoIterator<Item = (u64, u64)>,
    ) -> Result<(), ExtendError> {
        for (inserted, pair) in pairs.into_iter().enumerate() {
            if self.insert(pair.0, pair.1).is_err() {
                return Err(ExtendError { inserted, pair });
            }
        }
        Ok(())
    }

    /// Moves all pairs of another map into this one. If both maps have a key, the other map's value remains. The first
    /// refused pair ends the call: the pairs before are in this map, and all further pairs stay in the other map.
    ///
    /// ```
    /// # fn main() -> Result<(), proved_congee::OutOfMemory> {
    /// let mut map = proved_congee::Map::try_from_iter([(5, 50), (7, 70)])?;
    /// let mut other = proved_congee::Map::try_from_iter([(7, 71), (9, 90)])?;
    /// map.try_append(&mut other)?;
    /// assert!(map.iter().eq([(5, 50), (7, 71), (9, 90)]) && other.is_empty());
    /// # Ok(())
    /// # }
    /// ```
    #[doc(alias = "append")]
    pub fn try_append(&mut self, other: &mut Map) -> Result<(), ExtendError> {
        let moved = self.try_extend(&*other);
        match &moved {
            Ok(()) => other.clear(),
            Err(refused) => {
                other.remove_range(..refused.pair.0);
            }
        }
        moved
    }

    /// Moves the pairs from the key on into a map of their own, with the same limit, and returns that map. Returns
    /// [`OutOfMemory`], with the map unchanged, if there is no memory or the limit is reached.
    ///
    /// ```
    /// # fn main() -> Result<(), proved_congee::OutOfMemory> {
    /// let mut map = proved_congee::Map::try_from_iter([(5, 50), (7, 70), (9, 90)])?;
    /// let from_seven = map.try_split_off(7)?;
    /// assert!(map.keys().eq([5]) && from_seven.keys().eq([7, 9]));
    /// # Ok(())
    /// # }
    /// ```
    #[doc(alias = "split_off")]
    pub fn try_split_off(&mut self, key: impl Borrow<u64>) -> Result<Map, OutOfMemory> {
        let start = *key.borrow();
        let mut other = Map::with_limit(self.limit())?;
        other.try_extend(self.range(start..))?;
        self.remove_range(start..);
        Ok(other)
    }

    /// Inserts the value if the key is absent, and returns the key's value after the call. Returns [`OutOfMemory`], with
    /// the map unchanged, only for a new key that needs a new node or a larger one.
    ///
    /// ```
    /// # fn main() -> Result<(), proved_congee::OutOfMemory> {
    /// let mut map = proved_congee::Map::new()?;
    /// assert_eq!(map.get_or_insert(7, 70)?, 70);
    /// assert_eq!(map.get_or_insert(7, 71)?, 70);
    /// # Ok(())
    /// # }
    /// ```
    #[doc(alias("entry", "or_default", "or_insert"))]
    pub fn get_or_insert(&mut self, key: u64, value: u64) -> Result<u64, OutOfMemory> {
        Ok(self.insert_absent(key, value)?.unwrap_or(value))
    }

    /// Inserts the value if the key is absent, and returns `None`. Otherwise changes nothing, and returns the present
    /// value. Returns [`OutOfMemory`], with the map unchanged, only for a new key that needs a new node or a larger one.
    ///
    /// ```
    /// # fn main() -> Result<(), proved_congee::OutOfMemory> {
    /// let mut map = proved_congee::Map::new()?;
    /// assert_eq!(map.insert_absent(7, 70)?, None);
    /// assert_eq!(map.insert_absent(7, 71)?, Some(70));
    /// assert_eq!(map.get(7), Some(70));
    /// # Ok(())
    /// # }
    /// ```
    #[doc(alias("insert_if_absent", "try_insert"))]
    pub fn insert_absent(&mut self, key: u64, value: u64) -> Result<Option<u64>, OutOfMemory> {
        let mut found = 0;
        let code = unsafe { congee_c_get_or_insert(&mut self.handle(), key, value, &mut found) };
        unless_refused(code, found)
    }

    /// Returns the key's value. For an absent key the closure is called once, and its value is inserted and returned. A new
    /// key takes two calls of the library. Returns [`OutOfMemory`], with the map unchanged, only for a new key that needs a
    /// new node or a larger one.
    ///
    /// ```
    /// # fn main() -> Result<(), proved_congee::OutOfMemory> {
    /// let mut map = proved_congee::Map::new()?;
    /// assert_eq!(map.get_or_insert_with(7, || 70)?, 70);
    /// assert_eq!(map.get_or_insert_with(7, || unreachable!())?, 70);
    /// # Ok(())
    /// # }
    /// ```
    #[doc(alias("entry", "or_insert_with"))]
    pub fn get_or_insert_with(
        &mut self,
        key: u64,
        f: impl FnOnce() -> u64,
    ) -> Result<u64, OutOfMemory> {
        match self.get(key) {
            Some(value) => Ok(value),
            None => {
                let value = f();
                self.insert(key, value)?;
                Ok(value)
            }
        }
    }

    /// Adds the number to the key's value, and returns the value before, or `None` for a new key, which gets the number as
    /// value. The sum wraps, as `u64::wrapping_add`. Returns [`OutOfMemory`], with the map unchanged, only for a new key
    /// that needs a new node or a larger one.
    ///
    /// ```
    /// # fn main() -> Result<(), proved_congee::OutOfMemory> {
    /// let mut counts = proved_congee::Map::new()?;
    /// for letter in b"banana" {
    ///     counts.add(u64::from(*letter), 1)?;
    /// }
    /// assert_eq!(counts.get(u64::from(b'a')), Some(3));
    /// assert_eq!(counts.add(u64::from(b'a'), u64::MAX)?, Some(3));
    /// assert_eq!(counts.get(u64::from(b'a')), Some(2));
    /// # Ok(())
    /// # }
    /// ```
    #[doc(alias("fetch_add", "increment"))]
    pub fn add(&mut self, key: u64, number: u64) -> Result<Option<u64>, OutOfMemory> {
        let mut before = 0;
        let code = unsafe { congee_c_add(&mut self.handle(), key, number, &mut before) };
        unless_refused(code, before)
    }

    /// Calls the closure once, with the key's value or `None`. Stores the value that the closure returns, or removes the
    /// key for `None`. Returns the previous value. Takes two calls of the library. Returns [`OutOfMemory`], with the map
    /// unchanged, only for a new key that needs a new node or a larger one.
    ///
    /// ```
    /// # fn main() -> Result<(), proved_congee::OutOfMemory> {
    /// let mut stock = proved_congee::Map::try_from_iter([(7, 2)])?;
    /// let mut take = |item| stock.compute(item, |left| left?.checked_sub(1).filter(|left| *left > 0));
    /// assert_eq!((take(7)?, take(7)?, take(7)?), (Some(2), Some(1), None));
    /// assert!(stock.is_empty());
    /// # Ok(())
    /// # }
    /// ```
    #[doc(alias(
        "alter",
        "and_modify",
        "compute_if_present",
        "compute_or_insert",
        "get_mut",
        "update"
    ))]
    pub fn compute(
        &mut self,
        key: u64,
        f: impl FnOnce(Option<u64>) -> Option<u64>,
    ) -> Result<Option<u64>, OutOfMemory> {
        match f(self.get(key)) {
            Some(value) => self.insert(key, value),
            None => Ok(self.remove(key)),
        }
    }

    /// Returns the pair with the least key, or `None` for an empty map.
    ///
    /// ```
    /// # fn main() -> Result<(), proved_congee::OutOfMemory> {
    /// let map = proved_congee::Map::try_from_iter([(5, 50), (7, 70), (9, 90)])?;
    /// assert_eq!(map.first(), Some((5, 50)));
    /// # Ok(())
    /// # }
    /// ```
    #[doc(alias("first_entry", "first_key_value", "min", "peek"))]
    pub fn first(&self) -> Option<(u64, u64)> {
        self.pair(|handle, pair| unsafe { congee_c_first(handle, pair) })
    }

    /// Returns the pair with the greatest key, or `None` for an empty map.
    ///
    /// ```
    /// # fn main() -> Result<(), proved_congee::OutOfMemory> {
    /// let map = proved_congee::Map::try_from_iter([(5, 50), (7, 70), (9, 90)])?;
    /// assert_eq!(map.last(), Some((9, 90)));
    /// # Ok(())
    /// # }
    /// ```
    #[doc(alias("last_entry", "last_key_value", "max"))]
    pub fn last(&self) -> Option<(u64, u64)> {
        self.pair(|handle, pair| unsafe { congee_c_last(handle, pair) })
    }

    /// Returns the pair with the greatest key that is at most `key`, or `None` if no key fits.
    ///
    /// ```
    /// # fn main() -> Result<(), proved_congee::OutOfMemory> {
    /// let map = proved_congee::Map::try_from_iter([(5, 50), (7, 70), (9, 90)])?;
    /// assert_eq!((map.floor(7), map.floor(8), map.floor(4)), (Some((7, 70)), Some((7, 70)), None));
    /// # Ok(())
    /// # }
    /// ```
    pub fn floor(&self, key: u64) -> Option<(u64, u64)> {
        self.pair(|handle, pair| unsafe { congee_c_floor(handle, key, pair) })
    }

    /// Returns the pair with the least key that is at least `key`, or `None` if no key fits.
    ///
    /// ```
    /// # fn main() -> Result<(), proved_congee::OutOfMemory> {
    /// let map = proved_congee::Map::try_from_iter([(5, 50), (7, 70), (9, 90)])?;
    /// assert_eq!((map.ceiling(7), map.ceiling(6), map.ceiling(10)), (Some((7, 70)), Some((7, 70)), None));
    /// # Ok(())
    /// # }
    /// ```
    #[doc(alias = "lower_bound")]
    pub fn ceiling(&self, key: u64) -> Option<(u64, u64)> {
        self.pair(|handle, pair| unsafe { congee_c_ceiling(handle, key, pair) })
    }

    /// Returns the pair with the greatest key below `key`, or `None` if no key fits.
    ///
    /// ```
    /// # fn main() -> Result<(), proved_congee::OutOfMemory> {
    /// let map = proved_congee::Map::try_from_iter([(5, 50), (7, 70), (9, 90)])?;
    /// assert_eq!((map.below(7), map.below(5)), (Some((5, 50)), None));
    /// # Ok(())
    /// # }
    /// ```
    #[doc(alias = "predecessor")]
    pub fn below(&self, key: u64) -> Option<(u64, u64)> {
        self.pair(|handle, pair| unsafe { congee_c_below(handle, key, pair) })
    }

    /// Returns the pair with the least key above `key`, or `None` if no key fits.
    ///
    /// ```
    /// # fn main() -> Result<(), proved_congee::OutOfMemory> {
    /// let map = proved_congee::Map::try_from_iter([(5, 50), (7, 70), (9, 90)])?;
    /// assert_eq!((map.above(7), map.above(9)), (Some((9, 90)), None));
    /// # Ok(())
    /// # }
    /// ```
    #[doc(alias("successor", "upper_bound"))]
    pub fn above(&self, key: u64) -> Option<(u64, u64)> {
        self.pair(|handle, pair| unsafe { congee_c_above(handle, key, pair) })
    }

    /// Removes the pair with the least key, and returns the pair, or `None` for an empty map. A pop never fails.
    ///
    /// ```
    /// # fn main() -> Result<(), proved_congee::OutOfMemory> {
    /// let mut map = proved_congee::Map::try_from_iter([(5, 50), (7, 70), (9, 90)])?;
    /// assert_eq!((map.pop_first(), map.first()), (Some((5, 50)), Some((7, 70))));
    /// # Ok(())
    /// # }
    /// ```
    #[doc(alias("pop", "pop_min"))]
    pub fn pop_first(&mut self) -> Option<(u64, u64)> {
        self.pair(|handle, pair| unsafe { congee_c_pop_first(handle, pair) })
    }

    /// Removes the pair with the greatest key, and returns the pair, or `None` for an empty map. A pop never fails.
    ///
    /// ```
    /// # fn main() -> Result<(), proved_congee::OutOfMemory> {
    /// let mut map = proved_congee::Map::try_from_iter([(5, 50), (7, 70), (9, 90)])?;
    /// assert_eq!((map.pop_last(), map.last()), (Some((9, 90)), Some((7, 70))));
    /// # Ok(())
    /// # }
    /// ```
    #[doc(alias = "pop_max")]
    pub fn pop_last(&mut self) -> Option<(u64, u64)> {
        self.pair(|handle, pair| unsafe { congee_c_pop_last(handle, pair) })
    }

    /// Removes the pair with the least key, if that key is at most `key`, and returns the pair, or `None` if the map
    /// has no such pair. A pop never fails.
    ///
    /// ```
    /// # fn main() -> Result<(), proved_congee::OutOfMemory> {
    /// let mut map = proved_congee::Map::try_from_iter([(5, 50), (7, 70), (9, 90)])?;
    /// assert_eq!((map.pop_first_to(6), map.pop_first_to(6)), (Some((5, 50)), None));
    /// # Ok(())
    /// # }
    /// ```
    pub fn pop_first_to(&mut self, key: u64) -> Option<(u64, u64)> {
        match self.first() {
            Some((found, _)) if found <= key => self.pop_first(),
            _ => None,
        }
    }

    /// Removes the pair with the greatest key, if that key is at least `key`, and returns the pair, or `None` if the
    /// map has no such pair. A pop never fails.
    ///
    /// ```
    /// # fn main() -> Result<(), proved_congee::OutOfMemory> {
    /// let mut map = proved_congee::Map::try_from_iter([(5, 50), (7, 70), (9, 90)])?;
    /// assert_eq!((map.pop_last_from(8), map.pop_last_from(8)), (Some((9, 90)), None));
    /// # Ok(())
    /// # }
    /// ```
    pub fn pop_last_from(&mut self, key: u64) -> Option<(u64, u64)> {
        match self.last() {
            Some((found, _)) if found >= key => self.pop_last(),
            _ => None,
        }
    }

    /// Removes all pairs, and returns the memory of their nodes. Never fails. If there is no memory for a new root, the
    /// call reads one path for each pair.
    ///
    /// ```
    /// # fn main() -> Result<(), proved_congee::OutOfMemory> {
    /// let mut map = proved_congee::Map::try_from_iter([(5, 50), (7, 70)])?;
    /// map.clear();
    /// assert!(map.is_empty() && map.charged() == 2104);
    /// # Ok(())
    /// # }
    /// ```
    pub fn clear(&mut self) {
        unsafe { congee_c_clear(&mut self.handle()) }
    }

    /// Returns memory that is held for removed nodes, by a move of the remaining nodes into a smaller table. A removal does
    /// the same once three quarters of a table are free. Without memory for the smaller table nothing changes. Pairs and
    /// charge stay the same, and the call never fails. The cost is that of reading each node once.
    ///
    /// ```
    /// # fn main() -> Result<(), proved_congee::OutOfMemory> {
    /// let mut map = proved_congee::Map::try_from_iter((0..100_000).map(|k| (k, 2 * k)))?;
    /// assert_eq!(map.remove_range(1_000..), 99_000);
    /// let charged = map.charged();
    /// map.shrink_to_fit();
    /// assert!(map.len() == 1_000 && map.get(999) == Some(1_998) && map.charged() == charged);
    /// # Ok(())
    /// # }
    /// ```
    pub fn shrink_to_fit(&mut self) {
        unsafe { congee_c_shrink_to_fit(&mut self.handle()) }
    }

    /// Calls `keep` with each pair, keys ascending, and removes the pairs for which `keep` returns false. Never fails. The
    /// pairs are read in pages of 64, and removed one by one.
    ///
    /// ```
    /// # fn main() -> Result<(), proved_congee::OutOfMemory> {
    /// let mut map = proved_congee::Map::try_from_iter((0..100).map(|key| (key, key * key)))?;
    /// map.retain(|key, value| key % 10 == 0 && value > 100);
    /// assert!(map.keys().eq([20, 30, 40, 50, 60, 70, 80, 90]));
    /// # Ok(())
    /// # }
    /// ```
    pub fn retain(&mut self, mut keep: impl FnMut(u64, u64) -> bool) {
        let mut page = [Pair::default(); 64];
        let mut next = Some(0);
        while let Some(start) = next {
            let read = self.read_range_inclusive(start, u64::MAX, &mut page);
            for pair in &page[..read] {
                if !keep(pair.key, pair.value) {
                    self.remove(pair.key);
                }
            }
            next = page[..read].last().and_then(|pair| pair.key.checked_add(1));
        }
    }

    // What a call writes to a pair's place, if it answers that it has.
    fn pair(&self, call: impl FnOnce(&mut Handle, &mut Pair) -> i32) -> Option<(u64, u64)> {
        let mut pair = Pair::default();
        (call(&mut self.handle(), &mut pair) == 1).then_some((pair.key, pair.value))
    }

    /// Removes the key, and returns the removed value, or `None` if the key was absent. A removal never fails.
    ///
    /// ```
    /// # fn main() -> Result<(), proved_congee::OutOfMemory> {
    /// let mut map = proved_congee::Map::try_from_iter([(7, 70)])?;
    /// assert_eq!((map.remove(7), map.remove(7)), (Some(70), None));
    /// # Ok(())
    /// # }
    /// ```
    #[doc(alias("delete", "erase"))]
    pub fn remove(&mut self, key: impl Borrow<u64>) -> Option<u64> {
        let mut before = 0;
        let code = unsafe { congee_c_remove(&mut self.handle(), *key.borrow(), &mut before) };
        (code == 1).then_some(before)
    }

    /// Removes the pairs whose keys are within the bounds, and returns how many pairs were removed. Never fails.
    ///
    /// ```
    /// # fn main() -> Result<(), proved_congee::OutOfMemory> {
    /// let mut map = proved_congee::Map::try_from_iter([5, 7, 9, u64::MAX].map(|key| (key, key / 2)))?;
    /// assert_eq!((map.remove_range(6..9), map.remove_range(9..6)), (1, 0));
    /// assert_eq!((map.remove_range(9..), map.len()), (2, 1));
    /// # Ok(())
    /// # }
    /// ```
    #[doc(alias = "drain")]
    pub fn remove_range(&mut self, bounds: impl RangeBounds<u64>) -> u64 {
        ends(bounds).map_or(0, |(start, last)| unsafe {
            congee_c_remove_range_inclusive(&mut self.handle(), start, last)
        })
    }

    /// Replaces the key's value by `desired` if the value is `expected`. Otherwise changes nothing, and returns as an error
    /// the present value, or `None` if the key is absent. Needs no memory.
    ///
    /// ```
    /// # fn main() -> Result<(), proved_congee::OutOfMemory> {
    /// let mut map = proved_congee::Map::try_from_iter([(7, 70)])?;
    /// assert_eq!(map.compare_exchange(7, 70, 71), Ok(()));
    /// assert_eq!(map.compare_exchange(7, 70, 72), Err(Some(71)));
    /// assert_eq!(map.compare_exchange(8, 70, 72), Err(None));
    /// # Ok(())
    /// # }
    /// ```
    #[doc(alias("cas", "compare_and_swap"))]
    pub fn compare_exchange(
        &mut self,
        key: u64,
        expected: u64,
        desired: u64,
    ) -> Result<(), Option<u64>> {
        let mut found = 0;
        let code = unsafe {
            congee_c_compare_exchange(&mut self.handle(), key, expected, desired, &mut found)
        };
        if_expected(code, found)
    }

    /// Removes the key if the key's value is `expected`. Otherwise changes nothing, and returns as an error the present
    /// value, or `None` if the key is absent. A removal never fails.
    ///
    /// ```
    /// # fn main() -> Result<(), proved_congee::OutOfMemory> {
    /// let mut map = proved_congee::Map::try_from_iter([(7, 70)])?;
    /// assert_eq!(map.compare_remove(7, 71), Err(Some(70)));
    /// assert_eq!(map.compare_remove(7, 70), Ok(()));
    /// assert_eq!(map.compare_remove(7, 70), Err(None));
    /// # Ok(())
    /// # }
    /// ```
    #[doc(alias = "remove_if")]
    pub fn compare_remove(&mut self, key: u64, expected: u64) -> Result<(), Option<u64>> {
        let mut found = 0;
        let code =
            unsafe { congee_c_compare_remove(&mut self.handle(), key, expected, &mut found) };
        if_expected(code, found)
    }

    /// Writes the first pairs with `start <= key < end` to the buffer, keys ascending, and returns how many pairs fit.
    /// `u64::MAX` is in no such range. The rest of the buffer is unchanged.
    ///
    /// ```
    /// use proved_congee::{Map, Pair};
    ///
    /// # fn main() -> Result<(), proved_congee::OutOfMemory> {
    /// let map = Map::try_from_iter([(5, 50), (7, 70), (9, 90)])?;
    /// let mut page = [Pair::default(); 2];
    /// assert_eq!(map.read_range(6, 9, &mut page), 1);
    /// assert_eq!(page, [Pair { key: 7, value: 70 }, Pair::default()]);
    /// # Ok(())
    /// # }
    /// ```
    #[doc(alias("page", "scan"))]
    pub fn read_range(&self, start: u64, end: u64, buffer: &mut [Pair]) -> usize {
        unsafe {
            congee_c_range(
                &mut self.handle(),
                start,
                end,
                buffer.as_mut_ptr(),
                buffer.len(),
            )
        }
    }

    /// Writes the first pairs with `start <= key <= last` to the buffer, keys ascending, and returns how many pairs fit.
    /// The rest of the buffer is unchanged.
    ///
    /// ```
    /// # fn main() -> Result<(), proved_congee::OutOfMemory> {
    /// let map = proved_congee::Map::try_from_iter([(5, 50), (7, 70), (9, 90)])?;
    /// let mut page = [proved_congee::Pair::default(); 2];
    /// assert_eq!(map.read_range_inclusive(0, u64::MAX, &mut page), 2);
    /// assert_eq!(page.map(|pair| (pair.key, pair.value)), [(5, 50), (7, 70)]);
    /// # Ok(())
    /// # }
    /// ```
    pub fn read_range_inclusive(&self, start: u64, last: u64, buffer: &mut [Pair]) -> usize {
        let (place, n) = (buffer.as_mut_ptr(), buffer.len());
        unsafe { congee_c_range_inclusive(&mut self.handle(), start, last, place, n) }
    }

    /// Writes the last pairs with `start <= key <= last` to the buffer, keys descending, and returns how many pairs fit.
    /// The rest of the buffer is unchanged.
    ///
    /// ```
    /// # fn main() -> Result<(), proved_congee::OutOfMemory> {
    /// let map = proved_congee::Map::try_from_iter([(5, 50), (7, 70), (9, 90)])?;
    /// let mut page = [proved_congee::Pair::default(); 2];
    /// assert_eq!(map.read_range_descending(0, u64::MAX, &mut page), 2);
    /// assert_eq!(page.map(|pair| (pair.key, pair.value)), [(9, 90), (7, 70)]);
    /// # Ok(())
    /// # }
    /// ```
    pub fn read_range_descending(&self, start: u64, last: u64, buffer: &mut [Pair]) -> usize {
        let (place, n) = (buffer.as_mut_ptr(), buffer.len());
        unsafe { congee_c_range_descending(&mut self.handle(), start, last, place, n) }
    }

    /// Returns the pairs whose keys are within the bounds, keys ascending, from either end. Reversed bounds have no pair.
    /// The pairs are read from the map in pages: at either end the first of 4 pairs, and later ones of up to 256.
    ///
    /// ```
    /// # fn main() -> Result<(), proved_congee::OutOfMemory> {
    /// let map = proved_congee::Map::try_from_iter([5, 7, 9, u64::MAX].map(|key| (key, key / 2)))?;
    /// assert_eq!(map.range(6..9).collect::<Vec<_>>(), [(7, 3)]);
    /// assert_eq!(map.range(9..).map(|(key, _)| key).collect::<Vec<_>>(), [9, u64::MAX]);
    /// assert_eq!(map.range(..=9).rev().map(|(key, _)| key).collect::<Vec<_>>(), [9, 7, 5]);
    /// assert_eq!(map.range(9..6).next(), None);
    /// # Ok(())
    /// # }
    /// ```
    #[doc(alias("cursor", "range_mut", "scan"))]
    pub fn range(&self, bounds: impl RangeBounds<u64>) -> Range<'_> {
        Range::of(Source::Map(self), bounds)
    }

    /// Returns all pairs, keys ascending, from either end.
    ///
    /// ```
    /// # fn main() -> Result<(), proved_congee::OutOfMemory> {
    /// let map = proved_congee::Map::try_from_iter([(9, 90), (7, 70)])?;
    /// assert!(map.iter().eq([(7, 70), (9, 90)]));
    /// # Ok(())
    /// # }
    /// ```
    #[doc(alias("for_each", "iter_mut"))]
    pub fn iter(&self) -> Range<'_> {
        self.range(..)
    }

    /// Returns all keys, ascending, from either end.
    ///
    /// ```
    /// # fn main() -> Result<(), proved_congee::OutOfMemory> {
    /// let map = proved_congee::Map::try_from_iter([(9, 90), (7, 70)])?;
    /// assert!(map.keys().eq([7, 9]));
    /// # Ok(())
    /// # }
    /// ```
    pub fn keys(&self) -> Keys<'_> {
        Keys { of: self.iter() }
    }

    /// Returns all values, by ascending keys, from either end.
    ///
    /// ```
    /// # fn main() -> Result<(), proved_congee::OutOfMemory> {
    /// let map = proved_congee::Map::try_from_iter([(9, 90), (7, 70)])?;
    /// assert!(map.values().eq([70, 90]));
    /// # Ok(())
    /// # }
    /// ```
    #[doc(alias = "values_mut")]
    pub fn values(&self) -> Values<'_> {
        Values { of: self.iter() }
    }

    /// Returns all keys, ascending, from either end. The map is freed with the iterator.
    ///
    /// ```
    /// # fn main() -> Result<(), proved_congee::OutOfMemory> {
    /// let map = proved_congee::Map::try_from_iter([(9, 90), (7, 70)])?;
    /// assert!(map.into_keys().eq([7, 9]));
    /// # Ok(())
    /// # }
    /// ```
    pub fn into_keys(self) -> impl DoubleEndedIterator<Item = u64> + FusedIterator {
        self.into_iter().map(|(key, _)| key)
    }

    /// Returns all values, by ascending keys, from either end. The map is freed with the iterator.
    ///
    /// ```
    /// # fn main() -> Result<(), proved_congee::OutOfMemory> {
    /// let map = proved_congee::Map::try_from_iter([(9, 90), (7, 70)])?;
    /// assert!(map.into_values().eq([70, 90]));
    /// # Ok(())
    /// # }
    /// ```
    pub fn into_values(self) -> impl DoubleEndedIterator<Item = u64> + FusedIterator {
        self.into_iter().map(|(_, value)| value)
    }

    /// Returns whether the map has no pair, in constant time.
    ///
    /// ```
    /// # fn main() -> Result<(), proved_congee::OutOfMemory> {
    /// assert!(!proved_congee::Map::try_from_iter([(7, 70)])?.is_empty());
    /// # Ok(())
    /// # }
    /// ```
    pub fn is_empty(&self) -> bool {
        unsafe { congee_c_is_empty(&mut self.handle()) }
    }

    /// Returns the number of pairs, in constant time.
    ///
    /// ```
    /// # fn main() -> Result<(), proved_congee::OutOfMemory> {
    /// assert_eq!(proved_congee::Map::try_from_iter([(7, 70), (9, 90), (7, 71)])?.len(), 2);
    /// # Ok(())
    /// # }
    /// ```
    #[doc(alias("count", "size", "value_count"))]
    pub fn len(&self) -> usize {
        as_length(unsafe { congee_c_count(&mut self.handle()) })
    }

    /// Returns the sum in bytes of the stated sizes of the map's nodes, in constant time: 2104 for an empty map.
    ///
    /// ```
    /// # fn main() -> Result<(), proved_congee::OutOfMemory> {
    /// let mut map = proved_congee::Map::try_from_iter([(7, 70)])?;
    /// assert_eq!(map.charged(), 2104 + 64);
    /// map.remove(7);
    /// assert_eq!(map.charged(), 2104);
    /// # Ok(())
    /// # }
    /// ```
    #[doc(alias("bytes", "memory_usage", "stats"))]
    pub fn charged(&self) -> u64 {
        unsafe { congee_c_charged(&mut self.handle()) }
    }

    /// Returns the limit in bytes that the map was made with, or `u64::MAX` for none. A frozen map and a thawed one have
    /// the same limit. The charged bytes are at most the limit, which is proved.
    ///
    /// ```
    /// # fn main() -> Result<(), proved_congee::OutOfMemory> {
    /// let map = proved_congee::Map::with_limit(10_000)?;
    /// assert!(map.limit() == 10_000 && map.charged() <= map.limit());
    /// assert_eq!(proved_congee::Map::new()?.limit(), u64::MAX);
    /// # Ok(())
    /// # }
    /// ```
    pub fn limit(&self) -> u64 {
        unsafe { congee_c_limit(&mut self.handle()) }
    }

    /// Returns the sum in bytes of the stated sizes of the map's nodes, and the limit, in constant time. The sum is at most
    /// the limit, which is proved.
    ///
    /// ```
    /// # fn main() -> Result<(), proved_congee::OutOfMemory> {
    /// assert_eq!(proved_congee::Map::with_limit(5000)?.usage(), (2104, 5000));
    /// # Ok(())
    /// # }
    /// ```
    pub fn usage(&self) -> (u64, u64) {
        (self.charged(), self.limit())
    }

    /// Freezes the map: nobody changes it from then on, and several readers look up side by side. No node moves or is
    /// copied. Without memory for two small blocks the error has the map as it was.
    ///
    /// ```
    /// # fn main() -> Result<(), proved_congee::OutOfMemory> {
    /// let map = proved_congee::Map::try_from_iter([(7, 70)])?;
    /// let one = map.freeze()?;
    /// let other = one.try_clone()?;
    /// let looked_up = std::thread::spawn(move || other.get(7));
    /// assert_eq!((one.get(7), looked_up.join().unwrap()), (Some(70), Some(70)));
    /// # Ok(())
    /// # }
    /// ```
    #[doc(alias("into_read_only", "snapshot"))]
    pub fn freeze(self) -> Result<Frozen, FreezeError> {
        let (limit, charged) = (self.limit(), self.charged());
        // (the library owns the map from here on, or returns it)
        let handle = ManuallyDrop::new(self).handle();
        let (mut made, mut back) = (FrozenHandle::none(), Handle::none());
        match unsafe { congee_c_freeze(handle, &mut made, &mut back) } {
            0 => Ok(Frozen::of_address(made.reader, limit, charged)),
            _ => Err(FreezeError {
                map: Map::of_address(back.map),
            }),
        }
    }
}

// What a call returns by its code: the value that it wrote, none, or a refusal.
fn unless_refused(code: i32, written: u64) -> Result<Option<u64>, OutOfMemory> {
    match code {
        0 => Ok(None),
        1 => Ok(Some(written)),
        _ => Err(OutOfMemory),
    }
}

// What a call that compares returns by its code: whether the value was the expected one, or what it found.
pub(crate) fn if_expected(code: i32, found: u64) -> Result<(), Option<u64>> {
    match code {
        1 => Ok(()),
        2 => Err(Some(found)),
        _ => Err(None),
    }
}

// (no machine holds more pairs than a `usize` counts)
pub(crate) fn as_length(count: u64) -> usize {
    usize::try_from(count).unwrap_or(usize::MAX)
}

impl Drop for Map {
    fn drop(&mut self) {
        // (the address isn't used again)
        unsafe { congee_c_free(self.handle()) }
    }
}

impl fmt::Debug for Map {
    fn fmt(&self, f: &mut fmt::Formatter<'_>) -> fmt::Result {
        f.debug_map().entries(self).finish()
    }
}

impl PartialEq for Map {
    fn eq(&self, other: &Map) -> bool {
        self.len() == other.len() && self.iter().eq(other)
    }
}

impl Eq for Map {}

/// As of the lists of pairs.
impl PartialOrd for Map {
    fn partial_cmp(&self, other: &Map) -> Option<Ordering> {
        Some(self.cmp(other))
    }
}

/// As of the lists of pairs.
impl Ord for Map {
    fn cmp(&self, other: &Map) -> Ordering {
        self.iter().cmp(other)
    }
}

impl Hash for Map {
    fn hash<H: Hasher>(&self, state: &mut H) {
        self.len().hash(state);
        self.iter().for_each(|pair| pair.hash(state));
    }
}

impl<const N: usize> TryFrom<[(u64, u64); N]> for Map {
    type Error = OutOfMemory;

    fn try_from(pairs: [(u64, u64); N]) -> Result<Map, OutOfMemory> {
        Map::try_from_iter(pairs)
    }
}

impl TryFrom<&[(u64, u64)]> for Map {
    type Error = OutOfMemory;

    fn try_from(pairs: &[(u64, u64)]) -> Result<Map, OutOfMemory> {
        Map::try_from_iter(pairs.iter().copied())
    }
}

impl TryFrom<Vec<(u64, u64)>> for Map {
    type Error = OutOfMemory;

    fn try_from(pairs: Vec<(u64, u64)>) -> Result<Map, OutOfMemory> {
        Map::try_from_iter(pairs)
    }
}

impl TryFrom<&BTreeMap<u64, u64>> for Map {
    type Error = OutOfMemory;

    fn try_from(pairs: &BTreeMap<u64, u64>) -> Result<Map, OutOfMemory> {
        Map::try_from_iter(pairs.iter().map(|(key, value)| (*key, *value)))
    }
}

impl<'a> IntoIterator for &'a Map {
    type Item = (u64, u64);
    type IntoIter = Range<'a>;

    fn into_iter(self) -> Range<'a> {
        self.iter()
    }
}

impl IntoIterator for Map {
    type Item = (u64, u64);
    type IntoIter = IntoIter;

    fn into_iter(self) -> IntoIter {
        IntoIter::of(self)
    }
}

/// The error of [`Map::try_extend`], and of `extend` of a guard: an insertion was out of memory.
#[derive(Clone, Copy, Debug, PartialEq, Eq)]
pub struct ExtendError {
    pub(crate) inserted: usize,
    pub(crate) pair: (u64, u64),
}

impl ExtendError {
    /// Returns how many pairs were inserted before the refused pair. They are in the map.
    ///
    /// ```
    /// let mut map = proved_congee::Map::with_limit(2104 + 64).unwrap();
    /// let refused = map.try_extend([(1, 10), (2, 20), (u64::MAX, 30)]).unwrap_err();
    /// assert_eq!(refused.inserted(), 2);
    /// ```
    pub fn inserted(&self) -> usize {
        self.inserted
    }

    /// Returns the refused pair.
    ///
    /// ```
    /// let mut map = proved_congee::Map::with_limit(2104 + 64).unwrap();
    /// let refused = map.try_extend([(1, 10), (2, 20), (u64::MAX, 30)]).unwrap_err();
    /// assert_eq!(refused.pair(), (u64::MAX, 30));
    /// ```
    pub fn pair(&self) -> (u64, u64) {
        self.pair
    }
}

impl fmt::Display for ExtendError {
    fn fmt(&self, f: &mut fmt::Formatter<'_>) -> fmt::Result {
        write!(f, "{OutOfMemory}, after {} pairs", self.inserted)
    }
}

impl std::error::Error for ExtendError {}

impl From<ExtendError> for OutOfMemory {
    fn from(_: ExtendError) -> OutOfMemory {
        OutOfMemory
    }
}

impl From<ExtendError> for std::io::Error {
    fn from(_: ExtendError) -> Self {
        OutOfMemory.into()
    }
}

/// The error of [`Map::freeze`]: there was no memory to freeze the map, which is as it was.
#[derive(Debug)]
pub struct FreezeError {
    map: Map,
}

impl FreezeError {
    /// Returns the map, as it was.
    ///
    /// ```
    /// use proved_congee::{Frozen, FreezeError, Map};
    ///
    /// fn frozen_or_kept(map: Map) -> Result<Frozen, Map> {
    ///     map.freeze().map_err(FreezeError::into_map)
    /// }
    /// assert!(frozen_or_kept(Map::new().unwrap()).is_ok());
    /// ```
    pub fn into_map(self) -> Map {
        self.map
    }
}

impl fmt::Display for FreezeError {
    fn fmt(&self, f: &mut fmt::Formatter<'_>) -> fmt::Result {
        OutOfMemory.fmt(f)
    }
}

impl std::error::Error for FreezeError {}

impl From<FreezeError> for OutOfMemory {
    fn from(_: FreezeError) -> OutOfMemory {
        OutOfMemory
    }
}

impl From<FreezeError> for std::io::Error {
    fn from(_: FreezeError) -> Self {
        OutOfMemory.into()
    }
}
