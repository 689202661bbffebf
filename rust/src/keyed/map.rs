//! The typed map that one thread has.

use super::{bounds, pair, IntoIter, Iter, Range, Word};
use crate::{ExtendError, Map, OutOfMemory};
use std::cmp::Ordering;
use std::fmt;
use std::hash::{Hash, Hasher};
use std::marker::PhantomData;
use std::ops::RangeBounds;

/// An ordered map from `K` to `V`, for one thread, over a [`Map`] of their numbers. Proved is the map of numbers beneath.
/// The numbers of keys and values are this wrapper's, and tested.
///
/// ```
/// use proved_congee::keyed::OrdMap;
///
/// # fn main() -> Result<(), proved_congee::OutOfMemory> {
/// let mut prices = OrdMap::<i64, u32>::try_from_iter([(-250, 3), (100, 9)])?;
/// assert_eq!(prices.insert(0, 5)?, None);
/// assert_eq!(prices.below(0), Some((-250, 3)));
/// assert_eq!(prices.entry(100).and_modify(|n| n + 1).or_insert(1)?, 10);
/// assert!(prices.extract_if(|price, _| price <= 0).eq([(-250, 3), (0, 5)]));
/// assert_eq!(prices.iter().len(), 1);
/// # Ok(())
/// # }
/// ```
pub struct OrdMap<K, V> {
    map: Map,
    _types: PhantomData<fn() -> (K, V)>,
}

impl<K: Word, V: Word> OrdMap<K, V> {
    /// Makes an empty map without a limit. Returns [`OutOfMemory`] if there is no memory.
    ///
    /// ```
    /// use proved_congee::keyed::OrdMap;
    ///
    /// # fn main() -> Result<(), proved_congee::OutOfMemory> {
    /// assert!(OrdMap::<i32, char>::new()?.is_empty());
    /// # Ok(())
    /// # }
    /// ```
    #[doc(alias = "default")]
    pub fn new() -> Result<Self, OutOfMemory> {
        Ok(Map::new()?.into())
    }

    /// Makes an empty map whose nodes take at most so many bytes by their stated sizes, as [`Map::with_limit`] counts them.
    ///
    /// ```
    /// use proved_congee::keyed::OrdMap;
    ///
    /// # fn main() -> Result<(), proved_congee::OutOfMemory> {
    /// assert_eq!(OrdMap::<i32, char>::with_limit(10_000)?.as_map().limit(), 10_000);
    /// # Ok(())
    /// # }
    /// ```
    #[doc(alias("capacity", "with_capacity"))]
    pub fn with_limit(bytes: u64) -> Result<Self, OutOfMemory> {
        Ok(Map::with_limit(bytes)?.into())
    }

    /// Makes a map of the pairs. Of two pairs with one key the later value remains. Returns [`OutOfMemory`] if there is no
    /// memory.
    ///
    /// ```
    /// use proved_congee::keyed::OrdMap;
    ///
    /// # fn main() -> Result<(), proved_congee::OutOfMemory> {
    /// let squares = OrdMap::try_from_iter((-9i32..9).map(|it| (it, it * it)))?;
    /// assert_eq!(squares.get(-3), Some(9));
    /// # Ok(())
    /// # }
    /// ```
    #[doc(alias("collect", "from_iter"))]
    pub fn try_from_iter(pairs: impl IntoIterator<Item = (K, V)>) -> Result<Self, OutOfMemory> {
        let mut map = Self::new()?;
        map.try_extend(pairs)?;
        Ok(map)
    }

    /// Inserts the pairs one by one, so of two pairs with one key the later value remains. The first refused pair ends
    /// the call, and the pairs before are in the map. The error has their number and the refused pair, as numbers.
    ///
    /// ```
    /// use proved_congee::keyed::OrdMap;
    ///
    /// # fn main() -> Result<(), Box<dyn std::error::Error>> {
    /// let mut map = OrdMap::try_from([(-5, 'a'), (7, 'b'), (9, 'c')])?;
    /// map.extend([(8, 'd'), (7, 'e')])?;
    /// assert!(map.range(7..9).eq([(7, 'e'), (8, 'd')]));
    /// # Ok(())
    /// # }
    /// ```
    #[doc(alias = "insert_many")]
    pub fn extend(&mut self, pairs: impl IntoIterator<Item = (K, V)>) -> Result<(), ExtendError> {
        self.try_extend(pairs)
    }

    /// Inserts the pairs one by one, as [`extend`](OrdMap::extend), which is the call's name in all forms. The first refused
    /// pair ends the call, and the pairs before are in the map. The error has their number and the refused pair, as
    /// numbers.
    ///
    /// ```
    /// use proved_congee::keyed::OrdMap;
    ///
    /// # fn main() -> Result<(), proved_congee::OutOfMemory> {
    /// let mut map = OrdMap::try_from([(-5, 'a'), (7, 'b'), (9, 'c')])?;
    /// map.try_extend([(8, 'd'), (7, 'e')])?;
    /// assert!(map.range(7..9).eq([(7, 'e'), (8, 'd')]));
    /// # Ok(())
    /// # }
    /// ```
    #[doc(alias("extend", "insert_many"))]
    pub fn try_extend(
        &mut self,
        pairs: impl IntoIterator<Item = (K, V)>,
    ) -> Result<(), ExtendError> {
        let numbers = pairs
            .into_iter()
            .map(|(key, value)| (key.into_u64(), value.into_u64()));
        self.map.try_extend(numbers)
    }

    /// Returns a copy of the map, with the same limit. Returns [`OutOfMemory`] if there is no memory. A map near its limit
    /// may be refused, since a node that grows is charged beside the node that it replaces.
    ///
    /// ```
    /// use proved_congee::keyed::OrdMap;
    ///
    /// # fn main() -> Result<(), proved_congee::OutOfMemory> {
    /// let map = OrdMap::try_from([(-5, 'a'), (7, 'b')])?;
    /// let mut other = map.try_clone()?;
    /// other.remove(7);
    /// assert_eq!((map.len(), other.len()), (2, 1));
    /// # Ok(())
    /// # }
    /// ```
    #[doc(alias = "clone")]
    pub fn try_clone(&self) -> Result<Self, OutOfMemory> {
        Ok(self.map.try_clone()?.into())
    }

    /// Moves all pairs of another map into this one. If both maps have a key, the other map's value remains. The first
    /// refused pair ends the call: the pairs before are in this map, and all further pairs stay in the other map.
    ///
    /// ```
    /// use proved_congee::keyed::OrdMap;
    ///
    /// # fn main() -> Result<(), proved_congee::OutOfMemory> {
    /// let mut map = OrdMap::try_from([(-5, 'a'), (7, 'b')])?;
    /// let mut other = OrdMap::try_from([(7, 'c'), (9, 'd')])?;
    /// map.try_append(&mut other)?;
    /// assert!(map.values().eq(['a', 'c', 'd']) && other.is_empty());
    /// # Ok(())
    /// # }
    /// ```
    #[doc(alias = "append")]
    pub fn try_append(&mut self, other: &mut Self) -> Result<(), ExtendError> {
        self.map.try_append(&mut other.map)
    }

    /// Moves the pairs from the key on into a map of their own, with the same limit, and returns that map. Returns
    /// [`OutOfMemory`], with the map unchanged, if there is no memory or the limit is reached.
    ///
    /// ```
    /// use proved_congee::keyed::OrdMap;
    ///
    /// # fn main() -> Result<(), proved_congee::OutOfMemory> {
    /// let mut map = OrdMap::try_from([(-5, 'a'), (7, 'b'), (9, 'c')])?;
    /// let from_seven = map.try_split_off(7)?;
    /// assert!(map.keys().eq([-5]) && from_seven.keys().eq([7, 9]));
    /// # Ok(())
    /// # }
    /// ```
    #[doc(alias = "split_off")]
    pub fn try_split_off(&mut self, key: K) -> Result<Self, OutOfMemory> {
        Ok(self.map.try_split_off(key.into_u64())?.into())
    }

    /// Returns the value at the key, or `None` if the key is absent.
    ///
    /// ```
    /// use proved_congee::keyed::OrdMap;
    ///
    /// # fn main() -> Result<(), proved_congee::OutOfMemory> {
    /// let map = OrdMap::try_from([(-5, 'a'), (7, 'b'), (9, 'c')])?;
    /// assert_eq!((map.get(7), map.get(8)), (Some('b'), None));
    /// # Ok(())
    /// # }
    /// ```
    #[doc(alias("find", "index", "view"))]
    #[inline]
    pub fn get(&self, key: K) -> Option<V> {
        self.map.get(key.into_u64()).map(V::from_u64)
    }

    /// Returns the key and its value, or `None` if the key is absent.
    ///
    /// ```
    /// use proved_congee::keyed::OrdMap;
    ///
    /// # fn main() -> Result<(), proved_congee::OutOfMemory> {
    /// let map = OrdMap::try_from([(-5, 'a'), (7, 'b'), (9, 'c')])?;
    /// assert_eq!(map.get_key_value(7), Some((7, 'b')));
    /// # Ok(())
    /// # }
    /// ```
    pub fn get_key_value(&self, key: K) -> Option<(K, V)> {
        Some((key, self.get(key)?))
    }

    /// Returns whether the map has the key.
    ///
    /// ```
    /// use proved_congee::keyed::OrdMap;
    ///
    /// # fn main() -> Result<(), proved_congee::OutOfMemory> {
    /// let map = OrdMap::try_from([(-5, 'a'), (7, 'b'), (9, 'c')])?;
    /// assert!(map.contains_key(-5) && !map.contains_key(5));
    /// # Ok(())
    /// # }
    /// ```
    #[doc(alias = "contains")]
    pub fn contains_key(&self, key: K) -> bool {
        self.map.contains_key(key.into_u64())
    }

    /// Sets the key's value, and returns the previous value, or `None` for a new key. Returns [`OutOfMemory`], with the map
    /// unchanged, only for a new key that needs a new node or a larger one.
    ///
    /// ```
    /// use proved_congee::keyed::OrdMap;
    ///
    /// # fn main() -> Result<(), proved_congee::OutOfMemory> {
    /// let mut map = OrdMap::try_from([(-5, 'a'), (7, 'b'), (9, 'c')])?;
    /// assert_eq!(map.insert(-6, 'd')?, None);
    /// assert_eq!(map.insert(-6, 'e')?, Some('d'));
    /// # Ok(())
    /// # }
    /// ```
    #[doc(alias("put", "upsert"))]
    #[inline]
    pub fn insert(&mut self, key: K, value: V) -> Result<Option<V>, OutOfMemory> {
        let before = self.map.insert(key.into_u64(), value.into_u64())?;
        Ok(before.map(V::from_u64))
    }

    /// Inserts the value if the key is absent, and returns the key's value after the call.
    /// [`insert_absent`](OrdMap::insert_absent) also reports who inserted the value. Returns [`OutOfMemory`], with the map
    /// unchanged, only for a new key that needs a new node or a larger one.
    ///
    /// ```
    /// use proved_congee::keyed::OrdMap;
    ///
    /// # fn main() -> Result<(), proved_congee::OutOfMemory> {
    /// let mut map = OrdMap::try_from([(-5, 'a'), (7, 'b'), (9, 'c')])?;
    /// assert_eq!(map.get_or_insert(8, 'd')?, 'd');
    /// assert_eq!(map.get_or_insert(8, 'e')?, 'd');
    /// # Ok(())
    /// # }
    /// ```
    #[doc(alias("entry", "or_default", "or_insert"))]
    pub fn get_or_insert(&mut self, key: K, value: V) -> Result<V, OutOfMemory> {
        let it = self.map.get_or_insert(key.into_u64(), value.into_u64())?;
        Ok(V::from_u64(it))
    }

    /// Inserts the value if the key is absent, and returns `None`. Otherwise changes nothing, and returns the present
    /// value. Returns [`OutOfMemory`], with the map unchanged, only for a new key that needs a new node or a larger one.
    ///
    /// ```
    /// use proved_congee::keyed::OrdMap;
    ///
    /// # fn main() -> Result<(), proved_congee::OutOfMemory> {
    /// let mut map = OrdMap::try_from([(-5, 'a'), (7, 'b'), (9, 'c')])?;
    /// assert_eq!(map.insert_absent(8, 'd')?, None);
    /// assert_eq!(map.insert_absent(8, 'e')?, Some('d'));
    /// # Ok(())
    /// # }
    /// ```
    #[doc(alias("insert_if_absent", "try_insert"))]
    pub fn insert_absent(&mut self, key: K, value: V) -> Result<Option<V>, OutOfMemory> {
        let found = self.map.insert_absent(key.into_u64(), value.into_u64())?;
        Ok(found.map(V::from_u64))
    }

    /// Returns the key's value. For an absent key the closure is called once, and its value is inserted and returned. A
    /// new key takes two calls of the library. Returns [`OutOfMemory`], with the map unchanged, only for a new key that
    /// needs a new node or a larger one.
    ///
    /// ```
    /// use proved_congee::keyed::OrdMap;
    ///
    /// # fn main() -> Result<(), Box<dyn std::error::Error>> {
    /// let mut map = OrdMap::try_from([(-5, 'a'), (7, 'b'), (9, 'c')])?;
    /// assert_eq!(map.get_or_insert_with(7, || unreachable!())?, 'b');
    /// assert_eq!(map.get_or_insert_with(8, || 'd')?, 'd');
    /// # Ok(())
    /// # }
    /// ```
    #[doc(alias("entry", "or_insert_with"))]
    pub fn get_or_insert_with(&mut self, key: K, f: impl FnOnce() -> V) -> Result<V, OutOfMemory> {
        let it = self
            .map
            .get_or_insert_with(key.into_u64(), || f().into_u64())?;
        Ok(V::from_u64(it))
    }

    /// Calls the closure once, with the key's value or `None`. Stores the value that the closure returns, or removes the
    /// key for `None`. Returns the previous value. Takes two calls of the library. Returns [`OutOfMemory`], with the map
    /// unchanged, only for a new key that needs a new node or a larger one.
    ///
    /// ```
    /// use proved_congee::keyed::OrdMap;
    ///
    /// # fn main() -> Result<(), proved_congee::OutOfMemory> {
    /// let mut map = OrdMap::try_from([(-5, 'a'), (7, 'b'), (9, 'c')])?;
    /// assert_eq!(map.compute(7, |value| value.map(|it| it.to_ascii_uppercase()))?, Some('b'));
    /// assert_eq!(map.compute(9, |_| None)?, Some('c'));
    /// assert!(map.iter().eq([(-5, 'a'), (7, 'B')]));
    /// # Ok(())
    /// # }
    /// ```
    #[doc(alias(
        "alter",
        "and_modify",
        "compute_if_present",
        "compute_or_insert",
        "get_mut",
        "update"
    ))]
    pub fn compute(
        &mut self,
        key: K,
        f: impl FnOnce(Option<V>) -> Option<V>,
    ) -> Result<Option<V>, OutOfMemory> {
        let before = self
            .map
            .compute(key.into_u64(), |it| f(it.map(V::from_u64)).map(V::into_u64))?;
        Ok(before.map(V::from_u64))
    }

    /// Returns the key's place, for [`Entry::or_insert`] and [`Entry::and_modify`]. Each of these calls looks the key up.
    ///
    /// ```
    /// use proved_congee::keyed::OrdMap;
    ///
    /// # fn main() -> Result<(), proved_congee::OutOfMemory> {
    /// let mut counts = OrdMap::<char, u32>::new()?;
    /// for letter in "banana".chars() {
    ///     counts.entry(letter).and_modify(|count| count + 1).or_insert(1)?;
    /// }
    /// assert!(counts.iter().eq([('a', 3), ('b', 1), ('n', 2)]));
    /// # Ok(())
    /// # }
    /// ```
    pub fn entry(&mut self, key: K) -> Entry<'_, K, V> {
        Entry { map: self, key }
    }

    /// Removes the key, and returns the removed value, or `None` if the key was absent. A removal never fails.
    ///
    /// ```
    /// use proved_congee::keyed::OrdMap;
    ///
    /// # fn main() -> Result<(), proved_congee::OutOfMemory> {
    /// let mut map = OrdMap::try_from([(-5, 'a'), (7, 'b'), (9, 'c')])?;
    /// assert_eq!((map.remove(7), map.remove(7)), (Some('b'), None));
    /// # Ok(())
    /// # }
    /// ```
    #[doc(alias("delete", "erase"))]
    #[inline]
    pub fn remove(&mut self, key: K) -> Option<V> {
        self.map.remove(key.into_u64()).map(V::from_u64)
    }

    /// Removes the key, and returns the key with the removed value, or `None` if the key was absent. A removal never fails.
    ///
    /// ```
    /// use proved_congee::keyed::OrdMap;
    ///
    /// # fn main() -> Result<(), proved_congee::OutOfMemory> {
    /// let mut map = OrdMap::try_from([(-5, 'a'), (7, 'b'), (9, 'c')])?;
    /// assert_eq!(map.remove_entry(7), Some((7, 'b')));
    /// # Ok(())
    /// # }
    /// ```
    pub fn remove_entry(&mut self, key: K) -> Option<(K, V)> {
        Some((key, self.remove(key)?))
    }

    /// Removes the pairs whose keys are within the bounds, and returns how many pairs were removed. Never fails.
    ///
    /// ```
    /// use proved_congee::keyed::OrdMap;
    ///
    /// # fn main() -> Result<(), proved_congee::OutOfMemory> {
    /// let mut map = OrdMap::try_from([(-5, 'a'), (7, 'b'), (9, 'c')])?;
    /// assert_eq!(map.remove_range(..=7), 2);
    /// assert!(map.iter().eq([(9, 'c')]));
    /// # Ok(())
    /// # }
    /// ```
    #[doc(alias = "drain")]
    pub fn remove_range(&mut self, of: impl RangeBounds<K>) -> u64 {
        self.map.remove_range(bounds(of))
    }

    /// Replaces the key's value by `desired` if the value is `expected`. Otherwise changes nothing, and returns as an error
    /// the present value, or `None` if the key is absent. Needs no memory.
    ///
    /// ```
    /// use proved_congee::keyed::OrdMap;
    ///
    /// # fn main() -> Result<(), proved_congee::OutOfMemory> {
    /// let mut map = OrdMap::try_from([(-5, 'a'), (7, 'b'), (9, 'c')])?;
    /// assert_eq!(map.compare_exchange(7, 'b', 'd'), Ok(()));
    /// assert_eq!(map.compare_exchange(7, 'b', 'e'), Err(Some('d')));
    /// assert_eq!(map.compare_exchange(8, 'b', 'e'), Err(None));
    /// # Ok(())
    /// # }
    /// ```
    #[doc(alias("cas", "compare_and_swap"))]
    pub fn compare_exchange(&mut self, key: K, expected: V, desired: V) -> Result<(), Option<V>> {
        self.map
            .compare_exchange(key.into_u64(), expected.into_u64(), desired.into_u64())
            .map_err(|found| found.map(V::from_u64))
    }

    /// Removes the key if the key's value is `expected`. Otherwise changes nothing, and returns as an error the present
    /// value, or `None` if the key is absent. A removal never fails.
    ///
    /// ```
    /// use proved_congee::keyed::OrdMap;
    ///
    /// # fn main() -> Result<(), proved_congee::OutOfMemory> {
    /// let mut map = OrdMap::try_from([(-5, 'a'), (7, 'b'), (9, 'c')])?;
    /// assert_eq!(map.compare_remove(7, 'd'), Err(Some('b')));
    /// assert_eq!(map.compare_remove(7, 'b'), Ok(()));
    /// assert_eq!(map.compare_remove(7, 'b'), Err(None));
    /// # Ok(())
    /// # }
    /// ```
    #[doc(alias = "remove_if")]
    pub fn compare_remove(&mut self, key: K, expected: V) -> Result<(), Option<V>> {
        self.map
            .compare_remove(key.into_u64(), expected.into_u64())
            .map_err(|found| found.map(V::from_u64))
    }

    /// Returns the pair with the least key, or `None` for an empty map.
    ///
    /// ```
    /// use proved_congee::keyed::OrdMap;
    ///
    /// # fn main() -> Result<(), proved_congee::OutOfMemory> {
    /// let map = OrdMap::try_from([(-5, 'a'), (7, 'b'), (9, 'c')])?;
    /// assert_eq!(map.first(), Some((-5, 'a')));
    /// # Ok(())
    /// # }
    /// ```
    #[doc(alias("first_entry", "first_key_value", "min", "peek"))]
    pub fn first(&self) -> Option<(K, V)> {
        self.map.first().map(pair)
    }

    /// Returns the pair with the greatest key, or `None` for an empty map.
    ///
    /// ```
    /// use proved_congee::keyed::OrdMap;
    ///
    /// # fn main() -> Result<(), proved_congee::OutOfMemory> {
    /// let map = OrdMap::try_from([(-5, 'a'), (7, 'b'), (9, 'c')])?;
    /// assert_eq!(map.last(), Some((9, 'c')));
    /// # Ok(())
    /// # }
    /// ```
    #[doc(alias("last_entry", "last_key_value", "max"))]
    pub fn last(&self) -> Option<(K, V)> {
        self.map.last().map(pair)
    }

    /// Returns the pair with the greatest key that is at most `key`, or `None` if no key fits.
    ///
    /// ```
    /// use proved_congee::keyed::OrdMap;
    ///
    /// # fn main() -> Result<(), proved_congee::OutOfMemory> {
    /// let map = OrdMap::try_from([(-5, 'a'), (7, 'b'), (9, 'c')])?;
    /// assert_eq!((map.floor(8), map.floor(-6)), (Some((7, 'b')), None));
    /// # Ok(())
    /// # }
    /// ```
    pub fn floor(&self, key: K) -> Option<(K, V)> {
        self.map.floor(key.into_u64()).map(pair)
    }

    /// Returns the pair with the least key that is at least `key`, or `None` if no key fits.
    ///
    /// ```
    /// use proved_congee::keyed::OrdMap;
    ///
    /// # fn main() -> Result<(), proved_congee::OutOfMemory> {
    /// let map = OrdMap::try_from([(-5, 'a'), (7, 'b'), (9, 'c')])?;
    /// assert_eq!((map.ceiling(-4), map.ceiling(10)), (Some((7, 'b')), None));
    /// # Ok(())
    /// # }
    /// ```
    #[doc(alias = "lower_bound")]
    pub fn ceiling(&self, key: K) -> Option<(K, V)> {
        self.map.ceiling(key.into_u64()).map(pair)
    }

    /// Returns the pair with the greatest key below `key`, or `None` if no key fits.
    ///
    /// ```
    /// use proved_congee::keyed::OrdMap;
    ///
    /// # fn main() -> Result<(), proved_congee::OutOfMemory> {
    /// let map = OrdMap::try_from([(-5, 'a'), (7, 'b'), (9, 'c')])?;
    /// assert_eq!((map.below(7), map.below(-5)), (Some((-5, 'a')), None));
    /// # Ok(())
    /// # }
    /// ```
    #[doc(alias = "predecessor")]
    pub fn below(&self, key: K) -> Option<(K, V)> {
        self.map.below(key.into_u64()).map(pair)
    }

    /// Returns the pair with the least key above `key`, or `None` if no key fits.
    ///
    /// ```
    /// use proved_congee::keyed::OrdMap;
    ///
    /// # fn main() -> Result<(), proved_congee::OutOfMemory> {
    /// let map = OrdMap::try_from([(-5, 'a'), (7, 'b'), (9, 'c')])?;
    /// assert_eq!((map.above(-5), map.above(9)), (Some((7, 'b')), None));
    /// # Ok(())
    /// # }
    /// ```
    #[doc(alias("successor", "upper_bound"))]
    pub fn above(&self, key: K) -> Option<(K, V)> {
        self.map.above(key.into_u64()).map(pair)
    }

    /// Removes the pair with the least key, and returns the pair, or `None` for an empty map. A pop never fails.
    ///
    /// ```
    /// use proved_congee::keyed::OrdMap;
    ///
    /// # fn main() -> Result<(), proved_congee::OutOfMemory> {
    /// let mut map = OrdMap::try_from([(-5, 'a'), (7, 'b'), (9, 'c')])?;
    /// assert_eq!(map.pop_first(), Some((-5, 'a')));
    /// assert_eq!(map.first(), Some((7, 'b')));
    /// # Ok(())
    /// # }
    /// ```
    #[doc(alias("pop", "pop_min"))]
    pub fn pop_first(&mut self) -> Option<(K, V)> {
        self.map.pop_first().map(pair)
    }

    /// Removes the pair with the greatest key, and returns the pair, or `None` for an empty map. A pop never fails.
    ///
    /// ```
    /// use proved_congee::keyed::OrdMap;
    ///
    /// # fn main() -> Result<(), proved_congee::OutOfMemory> {
    /// let mut map = OrdMap::try_from([(-5, 'a'), (7, 'b'), (9, 'c')])?;
    /// assert_eq!(map.pop_last(), Some((9, 'c')));
    /// assert_eq!(map.last(), Some((7, 'b')));
    /// # Ok(())
    /// # }
    /// ```
    #[doc(alias = "pop_max")]
    pub fn pop_last(&mut self) -> Option<(K, V)> {
        self.map.pop_last().map(pair)
    }

    /// Removes the pair with the least key, if that key is at most `key`, and returns the pair, or `None` if the map
    /// has no such pair. A pop never fails.
    ///
    /// ```
    /// use proved_congee::keyed::OrdMap;
    ///
    /// # fn main() -> Result<(), proved_congee::OutOfMemory> {
    /// let mut map = OrdMap::try_from([(-5, 'a'), (7, 'b'), (9, 'c')])?;
    /// assert_eq!(map.pop_first_to(6), Some((-5, 'a')));
    /// assert_eq!(map.pop_first_to(6), None);
    /// # Ok(())
    /// # }
    /// ```
    pub fn pop_first_to(&mut self, key: K) -> Option<(K, V)> {
        self.map.pop_first_to(key.into_u64()).map(pair)
    }

    /// Removes the pair with the greatest key, if that key is at least `key`, and returns the pair, or `None` if the
    /// map has no such pair. A pop never fails.
    ///
    /// ```
    /// use proved_congee::keyed::OrdMap;
    ///
    /// # fn main() -> Result<(), proved_congee::OutOfMemory> {
    /// let mut map = OrdMap::try_from([(-5, 'a'), (7, 'b'), (9, 'c')])?;
    /// assert_eq!(map.pop_last_from(8), Some((9, 'c')));
    /// assert_eq!(map.pop_last_from(8), None);
    /// # Ok(())
    /// # }
    /// ```
    pub fn pop_last_from(&mut self, key: K) -> Option<(K, V)> {
        self.map.pop_last_from(key.into_u64()).map(pair)
    }

    /// Calls `keep` with each pair, keys ascending, and removes the pairs for which `keep` returns false. Never fails. The
    /// pairs are read in pages of 64, and removed one by one.
    ///
    /// ```
    /// use proved_congee::keyed::OrdMap;
    ///
    /// # fn main() -> Result<(), proved_congee::OutOfMemory> {
    /// let mut map = OrdMap::try_from([(-5, 'a'), (7, 'b'), (9, 'c')])?;
    /// map.retain(|key, value| key > 0 && value != 'c');
    /// assert!(map.iter().eq([(7, 'b')]));
    /// # Ok(())
    /// # }
    /// ```
    pub fn retain(&mut self, mut keep: impl FnMut(K, V) -> bool) {
        self.map
            .retain(|key, value| keep(K::from_u64(key), V::from_u64(value)));
    }

    /// Removes the pairs for which the closure returns true, each as the iterator comes to it, keys ascending. All other
    /// pairs stay, and so do the pairs that the iterator hasn't come to.
    ///
    /// ```
    /// use proved_congee::keyed::OrdMap;
    ///
    /// # fn main() -> Result<(), proved_congee::OutOfMemory> {
    /// let mut map = OrdMap::try_from([(-5, 'a'), (7, 'b'), (9, 'c')])?;
    /// assert!(map.extract_if(|key, _| key > 0).eq([(7, 'b'), (9, 'c')]));
    /// assert!(map.iter().eq([(-5, 'a')]));
    /// # Ok(())
    /// # }
    /// ```
    pub fn extract_if<'a>(
        &'a mut self,
        mut taken: impl FnMut(K, V) -> bool + 'a,
    ) -> impl Iterator<Item = (K, V)> + 'a {
        let mut from = Some(0);
        std::iter::from_fn(move || loop {
            let (key, value) = self.map.ceiling(from?)?;
            from = key.checked_add(1);
            if taken(K::from_u64(key), V::from_u64(value)) {
                self.map.remove(key);
                return Some(pair((key, value)));
            }
        })
    }

    /// Removes all pairs, and returns the memory of their nodes. Never fails. If there is no memory for a new root, the
    /// call reads one path for each pair.
    ///
    /// ```
    /// use proved_congee::keyed::OrdMap;
    ///
    /// # fn main() -> Result<(), proved_congee::OutOfMemory> {
    /// let mut map = OrdMap::try_from([(-5, 'a'), (7, 'b'), (9, 'c')])?;
    /// map.clear();
    /// assert!(map.is_empty());
    /// # Ok(())
    /// # }
    /// ```
    pub fn clear(&mut self) {
        self.map.clear();
    }

    /// Returns the number of pairs, in constant time.
    ///
    /// ```
    /// use proved_congee::keyed::OrdMap;
    ///
    /// # fn main() -> Result<(), proved_congee::OutOfMemory> {
    /// let map = OrdMap::try_from([(-5, 'a'), (7, 'b'), (9, 'c')])?;
    /// assert_eq!(map.len(), 3);
    /// # Ok(())
    /// # }
    /// ```
    #[doc(alias("count", "size", "value_count"))]
    pub fn len(&self) -> usize {
        self.map.len()
    }

    /// Returns whether the map has no pair, in constant time.
    ///
    /// ```
    /// use proved_congee::keyed::OrdMap;
    ///
    /// # fn main() -> Result<(), proved_congee::OutOfMemory> {
    /// let map = OrdMap::try_from([(-5, 'a'), (7, 'b'), (9, 'c')])?;
    /// assert!(!map.is_empty());
    /// # Ok(())
    /// # }
    /// ```
    pub fn is_empty(&self) -> bool {
        self.map.is_empty()
    }

    /// Returns the pairs whose keys are within the bounds, keys ascending, from either end.
    ///
    /// ```
    /// use proved_congee::keyed::OrdMap;
    ///
    /// # fn main() -> Result<(), proved_congee::OutOfMemory> {
    /// let map = OrdMap::try_from([(-5, 'a'), (7, 'b'), (9, 'c')])?;
    /// assert!(map.range(-5..9).eq([(-5, 'a'), (7, 'b')]));
    /// # Ok(())
    /// # }
    /// ```
    #[doc(alias("cursor", "range_mut", "scan"))]
    pub fn range(&self, of: impl RangeBounds<K>) -> Range<'_, K, V> {
        Range::of(self.map.range(bounds(of)))
    }

    /// Returns all pairs, keys ascending, from either end. The iterator knows how many are left.
    ///
    /// ```
    /// use proved_congee::keyed::OrdMap;
    ///
    /// # fn main() -> Result<(), proved_congee::OutOfMemory> {
    /// let map = OrdMap::try_from([(-5, 'a'), (7, 'b'), (9, 'c')])?;
    /// assert!(map.iter().eq([(-5, 'a'), (7, 'b'), (9, 'c')]));
    /// # Ok(())
    /// # }
    /// ```
    #[doc(alias("for_each", "iter_mut"))]
    pub fn iter(&self) -> Iter<'_, K, V> {
        Iter::of(self.range(..), self.len())
    }

    /// Returns all keys, ascending, from either end.
    ///
    /// ```
    /// use proved_congee::keyed::OrdMap;
    ///
    /// # fn main() -> Result<(), proved_congee::OutOfMemory> {
    /// let map = OrdMap::try_from([(-5, 'a'), (7, 'b'), (9, 'c')])?;
    /// assert!(map.keys().eq([-5, 7, 9]));
    /// # Ok(())
    /// # }
    /// ```
    pub fn keys(&self) -> impl DoubleEndedIterator<Item = K> + ExactSizeIterator + '_ {
        self.iter().map(|it| it.0)
    }

    /// Returns all values, by ascending keys, from either end.
    ///
    /// ```
    /// use proved_congee::keyed::OrdMap;
    ///
    /// # fn main() -> Result<(), proved_congee::OutOfMemory> {
    /// let map = OrdMap::try_from([(-5, 'a'), (7, 'b'), (9, 'c')])?;
    /// assert!(map.values().rev().eq(['c', 'b', 'a']));
    /// # Ok(())
    /// # }
    /// ```
    #[doc(alias = "values_mut")]
    pub fn values(&self) -> impl DoubleEndedIterator<Item = V> + ExactSizeIterator + '_ {
        self.iter().map(|it| it.1)
    }

    /// Returns all keys, ascending, from either end. The map is freed with the iterator.
    ///
    /// ```
    /// use proved_congee::keyed::OrdMap;
    ///
    /// # fn main() -> Result<(), proved_congee::OutOfMemory> {
    /// let map = OrdMap::try_from([(-5, 'a'), (7, 'b'), (9, 'c')])?;
    /// assert!(map.into_keys().eq([-5, 7, 9]));
    /// # Ok(())
    /// # }
    /// ```
    pub fn into_keys(self) -> impl DoubleEndedIterator<Item = K> + ExactSizeIterator {
        self.into_iter().map(|it| it.0)
    }

    /// Returns all values, by ascending keys, from either end. The map is freed with the iterator.
    ///
    /// ```
    /// use proved_congee::keyed::OrdMap;
    ///
    /// # fn main() -> Result<(), proved_congee::OutOfMemory> {
    /// let map = OrdMap::try_from([(-5, 'a'), (7, 'b'), (9, 'c')])?;
    /// assert!(map.into_values().eq(['a', 'b', 'c']));
    /// # Ok(())
    /// # }
    /// ```
    pub fn into_values(self) -> impl DoubleEndedIterator<Item = V> + ExactSizeIterator {
        self.into_iter().map(|it| it.1)
    }

    /// Returns memory that is held for removed nodes, by a move of the remaining nodes into a smaller table. Without
    /// memory for the smaller table the call changes nothing.
    ///
    /// ```
    /// use proved_congee::keyed::OrdMap;
    ///
    /// # fn main() -> Result<(), Box<dyn std::error::Error>> {
    /// let mut map = OrdMap::try_from([(-5, 'a'), (7, 'b'), (9, 'c')])?;
    /// map.clear();
    /// map.shrink_to_fit();
    /// assert_eq!(map.charged(), 2104);
    /// # Ok(())
    /// # }
    /// ```
    pub fn shrink_to_fit(&mut self) {
        self.map.shrink_to_fit();
    }

    /// Returns the sum in bytes of the stated sizes of the map's nodes, in constant time: 2104 for an empty map.
    ///
    /// ```
    /// use proved_congee::keyed::OrdMap;
    ///
    /// # fn main() -> Result<(), Box<dyn std::error::Error>> {
    /// assert_eq!(OrdMap::<i32, char>::new()?.charged(), 2104);
    /// # Ok(())
    /// # }
    /// ```
    #[doc(alias("bytes", "memory_usage", "stats"))]
    pub fn charged(&self) -> u64 {
        self.map.charged()
    }

    /// Returns the limit in bytes that the map was made with, or `u64::MAX` for none.
    ///
    /// ```
    /// use proved_congee::keyed::OrdMap;
    ///
    /// # fn main() -> Result<(), Box<dyn std::error::Error>> {
    /// assert_eq!(OrdMap::<i32, char>::with_limit(5000)?.limit(), 5000);
    /// # Ok(())
    /// # }
    /// ```
    pub fn limit(&self) -> u64 {
        self.map.limit()
    }

    /// Returns the sum in bytes of the stated sizes of the map's nodes, and the limit, in constant time.
    ///
    /// ```
    /// use proved_congee::keyed::OrdMap;
    ///
    /// # fn main() -> Result<(), Box<dyn std::error::Error>> {
    /// assert_eq!(OrdMap::<i32, char>::with_limit(5000)?.usage(), (2104, 5000));
    /// # Ok(())
    /// # }
    /// ```
    pub fn usage(&self) -> (u64, u64) {
        self.map.usage()
    }

    /// Returns the map of numbers.
    ///
    /// ```
    /// use proved_congee::keyed::OrdMap;
    ///
    /// # fn main() -> Result<(), proved_congee::OutOfMemory> {
    /// let map = OrdMap::try_from([('a', 1u32)])?;
    /// assert_eq!(map.as_map().get(u64::from('a')), Some(1));
    /// # Ok(())
    /// # }
    /// ```
    pub fn as_map(&self) -> &Map {
        &self.map
    }

    /// Returns the map of numbers, for calls that the typed map lacks. A number that no value has is read as `from_u64`
    /// reads it.
    ///
    /// ```
    /// use proved_congee::keyed::OrdMap;
    ///
    /// # fn main() -> Result<(), proved_congee::OutOfMemory> {
    /// let mut map = OrdMap::try_from([('a', 1u32)])?;
    /// map.as_map_mut().add(u64::from('a'), 2)?;
    /// assert_eq!(map.get('a'), Some(3));
    /// # Ok(())
    /// # }
    /// ```
    pub fn as_map_mut(&mut self) -> &mut Map {
        &mut self.map
    }

    /// Returns the map of numbers.
    ///
    /// ```
    /// use proved_congee::keyed::OrdMap;
    ///
    /// # fn main() -> Result<(), proved_congee::OutOfMemory> {
    /// let map = OrdMap::try_from([('a', 1u32)])?;
    /// assert_eq!(map.into_map().first(), Some((u64::from('a'), 1)));
    /// # Ok(())
    /// # }
    /// ```
    pub fn into_map(self) -> Map {
        self.map
    }
}

/// A key's place in an [`OrdMap`], by [`OrdMap::entry`].
///
/// ```
/// use proved_congee::keyed::OrdMap;
///
/// # fn main() -> Result<(), proved_congee::OutOfMemory> {
/// let mut stock = OrdMap::<char, u32>::new()?;
/// stock.entry('a').and_modify(|left| left - 1).or_insert(5)?;
/// assert_eq!(stock.get('a'), Some(5));
/// # Ok(())
/// # }
/// ```
pub struct Entry<'a, K, V> {
    map: &'a mut OrdMap<K, V>,
    key: K,
}

impl<K: Word, V: Word> Entry<'_, K, V> {
    /// Returns the key.
    ///
    /// ```
    /// use proved_congee::keyed::OrdMap;
    ///
    /// # fn main() -> Result<(), proved_congee::OutOfMemory> {
    /// let mut map = OrdMap::<i32, char>::new()?;
    /// assert_eq!(map.entry(-5).key(), -5);
    /// # Ok(())
    /// # }
    /// ```
    pub fn key(&self) -> K {
        self.key
    }

    /// Sets the value of a present key to what the closure returns for it. An absent key stays absent.
    ///
    /// ```
    /// use proved_congee::keyed::OrdMap;
    ///
    /// # fn main() -> Result<(), proved_congee::OutOfMemory> {
    /// let mut map = OrdMap::try_from([(-5, 1u32)])?;
    /// map.entry(-5).and_modify(|value| value + 1);
    /// map.entry(7).and_modify(|value| value + 1);
    /// assert!(map.iter().eq([(-5, 2)]));
    /// # Ok(())
    /// # }
    /// ```
    pub fn and_modify(self, f: impl FnOnce(V) -> V) -> Self {
        if let Some(value) = self.map.get(self.key) {
            // (the key is there, so it takes no memory)
            let _ = self.map.insert(self.key, f(value));
        }
        self
    }

    /// Inserts the value if the key is absent, and returns the key's value after the call. Returns [`OutOfMemory`], with
    /// the map unchanged, only for a new key that needs a new node or a larger one.
    ///
    /// ```
    /// use proved_congee::keyed::OrdMap;
    ///
    /// # fn main() -> Result<(), proved_congee::OutOfMemory> {
    /// let mut map = OrdMap::<i32, char>::new()?;
    /// assert_eq!(map.entry(-5).or_insert('a')?, 'a');
    /// assert_eq!(map.entry(-5).or_insert('b')?, 'a');
    /// # Ok(())
    /// # }
    /// ```
    pub fn or_insert(self, value: V) -> Result<V, OutOfMemory> {
        self.map.get_or_insert(self.key, value)
    }

    /// Inserts the closure's value if the key is absent, and returns the key's value after the call. Returns
    /// [`OutOfMemory`], with the map unchanged, only for a new key that needs a new node or a larger one.
    ///
    /// ```
    /// use proved_congee::keyed::OrdMap;
    ///
    /// # fn main() -> Result<(), proved_congee::OutOfMemory> {
    /// let mut map = OrdMap::<i32, char>::new()?;
    /// assert_eq!(map.entry(-5).or_insert_with(|| 'a')?, 'a');
    /// assert_eq!(map.entry(-5).or_insert_with(|| unreachable!())?, 'a');
    /// # Ok(())
    /// # }
    /// ```
    pub fn or_insert_with(self, f: impl FnOnce() -> V) -> Result<V, OutOfMemory> {
        match self.map.get(self.key) {
            Some(value) => Ok(value),
            None => self.map.get_or_insert(self.key, f()),
        }
    }
}

impl<K: Word + fmt::Debug, V> fmt::Debug for Entry<'_, K, V> {
    fn fmt(&self, f: &mut fmt::Formatter<'_>) -> fmt::Result {
        f.debug_struct("Entry")
            .field("key", &self.key)
            .finish_non_exhaustive()
    }
}

impl<K, V> From<Map> for OrdMap<K, V> {
    fn from(map: Map) -> Self {
        OrdMap {
            map,
            _types: PhantomData,
        }
    }
}

impl<K: Word, V: Word> IntoIterator for OrdMap<K, V> {
    type Item = (K, V);
    type IntoIter = IntoIter<K, V>;

    fn into_iter(self) -> IntoIter<K, V> {
        let left = self.map.len();
        IntoIter::of(self.map.into_iter(), left)
    }
}

impl<'a, K: Word, V: Word> IntoIterator for &'a OrdMap<K, V> {
    type Item = (K, V);
    type IntoIter = Iter<'a, K, V>;

    fn into_iter(self) -> Iter<'a, K, V> {
        self.iter()
    }
}

impl<K: Word, V: Word, const N: usize> TryFrom<[(K, V); N]> for OrdMap<K, V> {
    type Error = OutOfMemory;

    fn try_from(pairs: [(K, V); N]) -> Result<Self, OutOfMemory> {
        Self::try_from_iter(pairs)
    }
}

impl<K: Word + fmt::Debug, V: Word + fmt::Debug> fmt::Debug for OrdMap<K, V> {
    fn fmt(&self, f: &mut fmt::Formatter<'_>) -> fmt::Result {
        f.debug_map().entries(self).finish()
    }
}

impl<K, V> PartialEq for OrdMap<K, V> {
    fn eq(&self, other: &Self) -> bool {
        self.map == other.map
    }
}

impl<K, V> Eq for OrdMap<K, V> {}

/// As of the lists of pairs.
impl<K, V> PartialOrd for OrdMap<K, V> {
    fn partial_cmp(&self, other: &Self) -> Option<Ordering> {
        Some(self.cmp(other))
    }
}

/// As of the lists of pairs.
impl<K, V> Ord for OrdMap<K, V> {
    fn cmp(&self, other: &Self) -> Ordering {
        self.map.cmp(&other.map)
    }
}

impl<K, V> Hash for OrdMap<K, V> {
    fn hash<H: Hasher>(&self, state: &mut H) {
        self.map.hash(state);
    }
}
