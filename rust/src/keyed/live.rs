//! The typed map that threads read without a lock.

use super::{bounds, pair, OrdMap, Range, Word};
use crate::{ExtendError, LiveGuard, LiveMap, LiveNote, OutOfMemory};
use std::fmt;
use std::marker::PhantomData;
use std::ops::RangeBounds;

/// A map from `K` to `V` that threads share, each by an [`OrdLiveGuard`] of its own, over a [`LiveMap`] of their numbers.
/// Proved is the map of numbers beneath. The numbers of keys and values are this wrapper's, and tested.
///
/// ```
/// use proved_congee::keyed::OrdLiveMap;
/// use std::thread;
///
/// # fn main() -> Result<(), proved_congee::OutOfMemory> {
/// let squares = OrdLiveMap::<i32, u32>::new()?;
/// thread::scope(|scope| {
///     for first in [-100, 0] {
///         let squares = squares.pin()?;
///         scope.spawn(move || {
///             for number in first..first + 100 {
///                 squares.insert(number, number.unsigned_abs().pow(2)).unwrap();
///             }
///         });
///     }
///     Ok::<(), proved_congee::OutOfMemory>(())
/// })?;
/// let squares = squares.pin()?;
/// assert_eq!((squares.len(), squares.first()), (200, Some((-100, 10_000))));
/// assert!(squares.range(-2..=1).eq([(-2, 4), (-1, 1), (0, 0), (1, 1)]));
/// # Ok(())
/// # }
/// ```
#[doc(alias("concurrent", "lock_free"))]
pub struct OrdLiveMap<K, V> {
    map: LiveMap,
    _types: PhantomData<fn() -> (K, V)>,
}

impl<K: Word, V: Word> OrdLiveMap<K, V> {
    /// Makes an empty map without a limit. Returns [`OutOfMemory`] if there is no memory.
    ///
    /// ```
    /// use proved_congee::keyed::OrdLiveMap;
    ///
    /// # fn main() -> Result<(), proved_congee::OutOfMemory> {
    /// assert!(OrdLiveMap::<i32, char>::new()?.pin()?.is_empty());
    /// # Ok(())
    /// # }
    /// ```
    #[doc(alias = "default")]
    pub fn new() -> Result<Self, OutOfMemory> {
        Ok(LiveMap::new()?.into())
    }

    /// Makes an empty map whose nodes take at most so many bytes, as [`LiveMap::with_limit`] counts them.
    ///
    /// ```
    /// use proved_congee::keyed::OrdLiveMap;
    ///
    /// # fn main() -> Result<(), proved_congee::OutOfMemory> {
    /// assert_eq!(OrdLiveMap::<i32, char>::with_limit(10_000)?.as_map().limit(), 10_000);
    /// # Ok(())
    /// # }
    /// ```
    #[doc(alias("capacity", "with_capacity"))]
    pub fn with_limit(bytes: u64) -> Result<Self, OutOfMemory> {
        Ok(LiveMap::with_limit(bytes)?.into())
    }

    /// Makes a guard, by which one thread at a time calls the map, as [`LiveMap::pin`]. Returns [`OutOfMemory`] if there is
    /// no memory for a guard.
    ///
    /// ```
    /// use proved_congee::keyed::OrdLiveMap;
    ///
    /// # fn main() -> Result<(), proved_congee::OutOfMemory> {
    /// let map = OrdLiveMap::<i32, char>::new()?;
    /// let (one, other) = (map.pin()?, map.pin()?);
    /// one.insert(-5, 'a')?;
    /// assert_eq!(other.get(-5), Some('a'));
    /// # Ok(())
    /// # }
    /// ```
    #[doc(alias("epoch", "handle"))]
    pub fn pin(&self) -> Result<OrdLiveGuard<K, V>, OutOfMemory> {
        Ok(self.map.pin()?.into())
    }

    /// Returns the bytes of all segments that the map has so far, which count against the limit. Waits while another
    /// thread makes a guard.
    ///
    /// ```
    /// use proved_congee::keyed::OrdLiveMap;
    ///
    /// # fn main() -> Result<(), Box<dyn std::error::Error>> {
    /// let map = OrdLiveMap::<i32, char>::with_limit(10_000)?;
    /// assert_eq!(map.charged(), 4096);
    /// # Ok(())
    /// # }
    /// ```
    #[doc(alias("bytes", "memory_usage", "stats"))]
    pub fn charged(&self) -> u64 {
        self.map.charged()
    }

    /// Returns the limit in bytes that the map was made with, or `u64::MAX` for none. Waits while another thread makes
    /// a guard.
    ///
    /// ```
    /// use proved_congee::keyed::OrdLiveMap;
    ///
    /// # fn main() -> Result<(), Box<dyn std::error::Error>> {
    /// let map = OrdLiveMap::<i32, char>::with_limit(10_000)?;
    /// assert_eq!(map.limit(), 10_000);
    /// # Ok(())
    /// # }
    /// ```
    pub fn limit(&self) -> u64 {
        self.map.limit()
    }

    /// Returns the bytes of all segments that the map has so far, which count against the limit, and the limit. Waits
    /// while another thread makes a guard.
    ///
    /// ```
    /// use proved_congee::keyed::OrdLiveMap;
    ///
    /// # fn main() -> Result<(), Box<dyn std::error::Error>> {
    /// let map = OrdLiveMap::<i32, char>::with_limit(10_000)?;
    /// assert_eq!(map.usage(), (4096, 10_000));
    /// # Ok(())
    /// # }
    /// ```
    pub fn usage(&self) -> (u64, u64) {
        self.map.usage()
    }

    /// Returns the map of numbers.
    ///
    /// ```
    /// use proved_congee::keyed::OrdLiveMap;
    ///
    /// # fn main() -> Result<(), proved_congee::OutOfMemory> {
    /// let map = OrdLiveMap::<char, u32>::new()?;
    /// map.pin()?.insert('a', 1)?;
    /// assert_eq!(map.as_map().pin()?.get(u64::from('a')), Some(1));
    /// # Ok(())
    /// # }
    /// ```
    pub fn as_map(&self) -> &LiveMap {
        &self.map
    }
}

/// A clone is one more owner of the same map, as a clone of an `Arc` is.
impl<K, V> Clone for OrdLiveMap<K, V> {
    fn clone(&self) -> Self {
        self.map.clone().into()
    }
}

impl<K, V> From<LiveMap> for OrdLiveMap<K, V> {
    fn from(map: LiveMap) -> Self {
        OrdLiveMap {
            map,
            _types: PhantomData,
        }
    }
}

impl<K, V> fmt::Debug for OrdLiveMap<K, V> {
    fn fmt(&self, f: &mut fmt::Formatter<'_>) -> fmt::Result {
        f.debug_struct("OrdLiveMap").finish_non_exhaustive()
    }
}

/// One caller of an [`OrdLiveMap`]: a thread's at a time. Calls wait as those of a [`LiveGuard`] do, and
/// [`as_guard`](OrdLiveGuard::as_guard) has the forms that don't wait. Proved is the map of numbers beneath. The numbers of
/// keys and values are this wrapper's, and tested.
pub struct OrdLiveGuard<K, V> {
    guard: LiveGuard,
    _types: PhantomData<fn() -> (K, V)>,
}

impl<K: Word, V: Word> OrdLiveGuard<K, V> {
    /// Makes one more guard of the same map, which begins with the history that this guard has seen. Returns
    /// [`OutOfMemory`] if there is no memory for one.
    ///
    /// ```
    /// use proved_congee::keyed::OrdLiveMap;
    ///
    /// # fn main() -> Result<(), proved_congee::OutOfMemory> {
    /// let guard = OrdLiveMap::<i32, char>::new()?.pin()?;
    /// guard.insert(-5, 'a')?;
    /// assert_eq!(guard.try_clone()?.get(-5), Some('a'));
    /// # Ok(())
    /// # }
    /// ```
    #[doc(alias = "clone")]
    pub fn try_clone(&self) -> Result<Self, OutOfMemory> {
        Ok(self.guard.try_clone()?.into())
    }

    /// Returns the value at the key, or `None` if the key is absent. Takes no lock and no memory. While writers lock or
    /// change the key's nodes, the call yields and tries again.
    ///
    /// ```
    /// use proved_congee::keyed::OrdLiveMap;
    ///
    /// # fn main() -> Result<(), proved_congee::OutOfMemory> {
    /// let guard = OrdLiveMap::<i32, char>::new()?.pin()?;
    /// for (key, value) in [(-5, 'a'), (7, 'b'), (9, 'c')] {
    ///     guard.insert(key, value)?;
    /// }
    /// assert_eq!((guard.get(7), guard.get(8)), (Some('b'), None));
    /// # Ok(())
    /// # }
    /// ```
    #[doc(alias("find", "index", "view"))]
    #[inline]
    pub fn get(&self, key: K) -> Option<V> {
        self.guard.get(key.into_u64()).map(V::from_u64)
    }

    /// Returns whether the map has the key. Takes no lock and no memory. While writers lock or change the key's nodes, the
    /// call yields and tries again.
    ///
    /// ```
    /// use proved_congee::keyed::OrdLiveMap;
    ///
    /// # fn main() -> Result<(), proved_congee::OutOfMemory> {
    /// let guard = OrdLiveMap::<i32, char>::new()?.pin()?;
    /// for (key, value) in [(-5, 'a'), (7, 'b'), (9, 'c')] {
    ///     guard.insert(key, value)?;
    /// }
    /// assert!(guard.contains_key(-5) && !guard.contains_key(5));
    /// # Ok(())
    /// # }
    /// ```
    #[doc(alias = "contains")]
    pub fn contains_key(&self, key: K) -> bool {
        self.guard.contains_key(key.into_u64())
    }

    /// Sets the key's value, and returns the previous value, or `None` for a new key. While writers lock or change the
    /// key's nodes, the call yields and tries again. Returns [`OutOfMemory`], with no pair changed, only for an absent key,
    /// if there is no memory or the limit is reached.
    ///
    /// ```
    /// use proved_congee::keyed::OrdLiveMap;
    ///
    /// # fn main() -> Result<(), proved_congee::OutOfMemory> {
    /// let guard = OrdLiveMap::<i32, char>::new()?.pin()?;
    /// for (key, value) in [(-5, 'a'), (7, 'b'), (9, 'c')] {
    ///     guard.insert(key, value)?;
    /// }
    /// assert_eq!(guard.insert(-6, 'd')?, None);
    /// assert_eq!(guard.insert(-6, 'e')?, Some('d'));
    /// # Ok(())
    /// # }
    /// ```
    #[doc(alias("put", "upsert"))]
    #[inline]
    pub fn insert(&self, key: K, value: V) -> Result<Option<V>, OutOfMemory> {
        let before = self.guard.insert(key.into_u64(), value.into_u64())?;
        Ok(before.map(V::from_u64))
    }

    /// Inserts the pairs one by one, and waits where [`insert`](OrdLiveGuard::insert) waits. Other calls come in between.
    /// The first refused pair ends the call, and the pairs before are in the map. The error has their number and the
    /// refused pair, as numbers.
    ///
    /// ```
    /// use proved_congee::keyed::OrdLiveMap;
    ///
    /// # fn main() -> Result<(), Box<dyn std::error::Error>> {
    /// let guard = OrdLiveMap::<i32, char>::new()?.pin()?;
    /// guard.extend([(-5, 'a'), (7, 'b'), (9, 'c')])?;
    /// guard.extend([(8, 'd'), (7, 'e')])?;
    /// assert!(guard.range(7..9).eq([(7, 'e'), (8, 'd')]));
    /// # Ok(())
    /// # }
    /// ```
    #[doc(alias = "insert_many")]
    pub fn extend(&self, pairs: impl IntoIterator<Item = (K, V)>) -> Result<(), ExtendError> {
        let numbers = pairs
            .into_iter()
            .map(|(key, value)| (key.into_u64(), value.into_u64()));
        self.guard.extend(numbers)
    }

    /// Inserts the value if the key is absent, and returns the key's value after the call.
    /// [`insert_absent`](OrdLiveGuard::insert_absent) also reports who inserted the value. A present key takes no lock.
    /// While writers lock or change the key's nodes, the call yields and tries again. Returns [`OutOfMemory`], with no pair
    /// changed, only for an absent key, if there is no memory or the limit is reached.
    ///
    /// ```
    /// use proved_congee::keyed::OrdLiveMap;
    ///
    /// # fn main() -> Result<(), proved_congee::OutOfMemory> {
    /// let guard = OrdLiveMap::<i32, char>::new()?.pin()?;
    /// for (key, value) in [(-5, 'a'), (7, 'b'), (9, 'c')] {
    ///     guard.insert(key, value)?;
    /// }
    /// assert_eq!(guard.get_or_insert(8, 'd')?, 'd');
    /// assert_eq!(guard.get_or_insert(8, 'e')?, 'd');
    /// # Ok(())
    /// # }
    /// ```
    #[doc(alias("entry", "or_default", "or_insert"))]
    pub fn get_or_insert(&self, key: K, value: V) -> Result<V, OutOfMemory> {
        let it = self.guard.get_or_insert(key.into_u64(), value.into_u64())?;
        Ok(V::from_u64(it))
    }

    /// Inserts the value if the key is absent, and returns `None`. Otherwise changes nothing, and returns the present
    /// value. Of threads that claim one key at once, one gets `None`. A present key takes no lock. While writers lock or
    /// change the key's nodes, the call yields and tries again. Returns [`OutOfMemory`], with no pair changed, only for an
    /// absent key, if there is no memory or the limit is reached.
    ///
    /// ```
    /// use proved_congee::keyed::OrdLiveMap;
    ///
    /// # fn main() -> Result<(), proved_congee::OutOfMemory> {
    /// let guard = OrdLiveMap::<i32, char>::new()?.pin()?;
    /// for (key, value) in [(-5, 'a'), (7, 'b'), (9, 'c')] {
    ///     guard.insert(key, value)?;
    /// }
    /// assert_eq!(guard.insert_absent(8, 'd')?, None);
    /// assert_eq!(guard.insert_absent(8, 'e')?, Some('d'));
    /// # Ok(())
    /// # }
    /// ```
    #[doc(alias("insert_if_absent", "try_insert"))]
    pub fn insert_absent(&self, key: K, value: V) -> Result<Option<V>, OutOfMemory> {
        let found = self.guard.insert_absent(key.into_u64(), value.into_u64())?;
        Ok(found.map(V::from_u64))
    }

    /// Returns the key's value. For an absent key the closure is called once, and its value is inserted and returned,
    /// unless another call inserts the key meanwhile: then that call's value is returned. The closure is called while
    /// nothing is locked. While writers lock or change the key's nodes, the call yields and tries again. Returns
    /// [`OutOfMemory`], with no pair changed, only for an absent key, if there is no memory or the limit is reached.
    ///
    /// ```
    /// use proved_congee::keyed::OrdLiveMap;
    ///
    /// # fn main() -> Result<(), Box<dyn std::error::Error>> {
    /// let guard = OrdLiveMap::<i32, char>::new()?.pin()?;
    /// guard.extend([(-5, 'a'), (7, 'b'), (9, 'c')])?;
    /// assert_eq!(guard.get_or_insert_with(7, || 'x')?, 'b');
    /// assert_eq!(guard.get_or_insert_with(8, || 'd')?, 'd');
    /// # Ok(())
    /// # }
    /// ```
    #[doc(alias("entry", "or_insert_with"))]
    pub fn get_or_insert_with(&self, key: K, f: impl FnOnce() -> V) -> Result<V, OutOfMemory> {
        let it = self
            .guard
            .get_or_insert_with(key.into_u64(), || f().into_u64())?;
        Ok(V::from_u64(it))
    }

    /// Calls the closure with the key's value or `None`. Stores the value that the closure returns, or removes the key for
    /// `None`. Returns the previous value. If another call changes the key meanwhile, the closure is called again with the
    /// new value, so no change is lost. The closure is called while nothing is locked, so it may take long, or call the
    /// map. While writers lock or change the key's nodes, the call yields and tries again. Returns [`OutOfMemory`], with no
    /// pair changed, only for an absent key, if there is no memory or the limit is reached.
    ///
    /// ```
    /// use proved_congee::keyed::OrdLiveMap;
    ///
    /// # fn main() -> Result<(), Box<dyn std::error::Error>> {
    /// let guard = OrdLiveMap::<i32, char>::new()?.pin()?;
    /// guard.extend([(-5, 'a'), (7, 'b'), (9, 'c')])?;
    /// assert_eq!(guard.compute(7, |value| value.map(|it| it.to_ascii_uppercase()))?, Some('b'));
    /// assert_eq!(guard.compute(9, |_| None)?, Some('c'));
    /// assert!(guard.iter().eq([(-5, 'a'), (7, 'B')]));
    /// # Ok(())
    /// # }
    /// ```
    #[doc(alias(
        "alter",
        "and_modify",
        "compute_if_present",
        "compute_or_insert",
        "get_mut",
        "update"
    ))]
    pub fn compute(
        &self,
        key: K,
        mut f: impl FnMut(Option<V>) -> Option<V>,
    ) -> Result<Option<V>, OutOfMemory> {
        let before = self
            .guard
            .compute(key.into_u64(), |it| f(it.map(V::from_u64)).map(V::into_u64))?;
        Ok(before.map(V::from_u64))
    }

    /// Removes the key, and returns the removed value, or `None` if the key was absent. A removal is never out of memory.
    /// While writers lock or change the key's nodes, the call yields and tries again.
    ///
    /// ```
    /// use proved_congee::keyed::OrdLiveMap;
    ///
    /// # fn main() -> Result<(), proved_congee::OutOfMemory> {
    /// let guard = OrdLiveMap::<i32, char>::new()?.pin()?;
    /// for (key, value) in [(-5, 'a'), (7, 'b'), (9, 'c')] {
    ///     guard.insert(key, value)?;
    /// }
    /// assert_eq!((guard.remove(7), guard.remove(7)), (Some('b'), None));
    /// # Ok(())
    /// # }
    /// ```
    #[doc(alias("delete", "erase"))]
    #[inline]
    pub fn remove(&self, key: K) -> Option<V> {
        self.guard.remove(key.into_u64()).map(V::from_u64)
    }

    /// Replaces the key's value by `desired` if the value is `expected`. Otherwise changes nothing, and returns as an error
    /// the present value, or `None` if the key is absent. Needs no memory. While writers lock or change the key's nodes,
    /// the call yields and tries again.
    ///
    /// ```
    /// use proved_congee::keyed::OrdLiveMap;
    ///
    /// # fn main() -> Result<(), proved_congee::OutOfMemory> {
    /// let guard = OrdLiveMap::<i32, char>::new()?.pin()?;
    /// for (key, value) in [(-5, 'a'), (7, 'b'), (9, 'c')] {
    ///     guard.insert(key, value)?;
    /// }
    /// assert_eq!(guard.compare_exchange(7, 'b', 'd'), Ok(()));
    /// assert_eq!(guard.compare_exchange(7, 'b', 'e'), Err(Some('d')));
    /// assert_eq!(guard.compare_exchange(8, 'b', 'e'), Err(None));
    /// # Ok(())
    /// # }
    /// ```
    #[doc(alias("cas", "compare_and_swap"))]
    pub fn compare_exchange(&self, key: K, expected: V, desired: V) -> Result<(), Option<V>> {
        self.guard
            .compare_exchange(key.into_u64(), expected.into_u64(), desired.into_u64())
            .map_err(|found| found.map(V::from_u64))
    }

    /// Removes the key if the key's value is `expected`. Otherwise changes nothing, and returns as an error the present
    /// value, or `None` if the key is absent. A removal is never out of memory. While writers lock or change the key's
    /// nodes, the call yields and tries again.
    ///
    /// ```
    /// use proved_congee::keyed::OrdLiveMap;
    ///
    /// # fn main() -> Result<(), proved_congee::OutOfMemory> {
    /// let guard = OrdLiveMap::<i32, char>::new()?.pin()?;
    /// for (key, value) in [(-5, 'a'), (7, 'b'), (9, 'c')] {
    ///     guard.insert(key, value)?;
    /// }
    /// assert_eq!(guard.compare_remove(7, 'd'), Err(Some('b')));
    /// assert_eq!(guard.compare_remove(7, 'b'), Ok(()));
    /// assert_eq!(guard.compare_remove(7, 'b'), Err(None));
    /// # Ok(())
    /// # }
    /// ```
    #[doc(alias = "remove_if")]
    pub fn compare_remove(&self, key: K, expected: V) -> Result<(), Option<V>> {
        self.guard
            .compare_remove(key.into_u64(), expected.into_u64())
            .map_err(|found| found.map(V::from_u64))
    }

    /// Returns the pair with the least key, or `None` for an empty map. The pair was present at a moment of the call, and
    /// no lesser key was present throughout the call. While writers lock or change nodes on the way, the call yields and
    /// tries again.
    ///
    /// ```
    /// use proved_congee::keyed::OrdLiveMap;
    ///
    /// # fn main() -> Result<(), proved_congee::OutOfMemory> {
    /// let guard = OrdLiveMap::<i32, char>::new()?.pin()?;
    /// for (key, value) in [(-5, 'a'), (7, 'b'), (9, 'c')] {
    ///     guard.insert(key, value)?;
    /// }
    /// assert_eq!(guard.first(), Some((-5, 'a')));
    /// # Ok(())
    /// # }
    /// ```
    #[doc(alias("first_entry", "first_key_value", "min", "peek"))]
    pub fn first(&self) -> Option<(K, V)> {
        self.guard.first().map(pair)
    }

    /// Returns the pair with the greatest key, or `None` for an empty map. The pair was present at a moment of the call,
    /// and no greater key was present throughout the call. While writers lock or change nodes on the way, the call yields
    /// and tries again.
    ///
    /// ```
    /// use proved_congee::keyed::OrdLiveMap;
    ///
    /// # fn main() -> Result<(), proved_congee::OutOfMemory> {
    /// let guard = OrdLiveMap::<i32, char>::new()?.pin()?;
    /// for (key, value) in [(-5, 'a'), (7, 'b'), (9, 'c')] {
    ///     guard.insert(key, value)?;
    /// }
    /// assert_eq!(guard.last(), Some((9, 'c')));
    /// # Ok(())
    /// # }
    /// ```
    #[doc(alias("last_entry", "last_key_value", "max"))]
    pub fn last(&self) -> Option<(K, V)> {
        self.guard.last().map(pair)
    }

    /// Returns the pair with the greatest key that is at most `key`, or `None` if no key fits. The pair was present at a
    /// moment of the call, and no key between the two was present throughout the call. While writers lock or change nodes
    /// on the way, the call yields and tries again.
    ///
    /// ```
    /// use proved_congee::keyed::OrdLiveMap;
    ///
    /// # fn main() -> Result<(), proved_congee::OutOfMemory> {
    /// let guard = OrdLiveMap::<i32, char>::new()?.pin()?;
    /// for (key, value) in [(-5, 'a'), (7, 'b'), (9, 'c')] {
    ///     guard.insert(key, value)?;
    /// }
    /// assert_eq!((guard.floor(8), guard.floor(-6)), (Some((7, 'b')), None));
    /// # Ok(())
    /// # }
    /// ```
    pub fn floor(&self, key: K) -> Option<(K, V)> {
        self.guard.floor(key.into_u64()).map(pair)
    }

    /// Returns the pair with the least key that is at least `key`, or `None` if no key fits. The pair was present at a
    /// moment of the call, and no key between the two was present throughout the call. While writers lock or change nodes
    /// on the way, the call yields and tries again.
    ///
    /// ```
    /// use proved_congee::keyed::OrdLiveMap;
    ///
    /// # fn main() -> Result<(), proved_congee::OutOfMemory> {
    /// let guard = OrdLiveMap::<i32, char>::new()?.pin()?;
    /// for (key, value) in [(-5, 'a'), (7, 'b'), (9, 'c')] {
    ///     guard.insert(key, value)?;
    /// }
    /// assert_eq!((guard.ceiling(-4), guard.ceiling(10)), (Some((7, 'b')), None));
    /// # Ok(())
    /// # }
    /// ```
    #[doc(alias = "lower_bound")]
    pub fn ceiling(&self, key: K) -> Option<(K, V)> {
        self.guard.ceiling(key.into_u64()).map(pair)
    }

    /// Returns the pair with the greatest key below `key`, or `None` if no key fits. The pair was present at a moment of
    /// the call, and no key between the two was present throughout the call. While writers lock or change nodes on the way,
    /// the call yields and tries again.
    ///
    /// ```
    /// use proved_congee::keyed::OrdLiveMap;
    ///
    /// # fn main() -> Result<(), proved_congee::OutOfMemory> {
    /// let guard = OrdLiveMap::<i32, char>::new()?.pin()?;
    /// for (key, value) in [(-5, 'a'), (7, 'b'), (9, 'c')] {
    ///     guard.insert(key, value)?;
    /// }
    /// assert_eq!((guard.below(7), guard.below(-5)), (Some((-5, 'a')), None));
    /// # Ok(())
    /// # }
    /// ```
    #[doc(alias = "predecessor")]
    pub fn below(&self, key: K) -> Option<(K, V)> {
        self.guard.below(key.into_u64()).map(pair)
    }

    /// Returns the pair with the least key above `key`, or `None` if no key fits. The pair was present at a moment of the
    /// call, and no key between the two was present throughout the call. While writers lock or change nodes on the way, the
    /// call yields and tries again.
    ///
    /// ```
    /// use proved_congee::keyed::OrdLiveMap;
    ///
    /// # fn main() -> Result<(), proved_congee::OutOfMemory> {
    /// let guard = OrdLiveMap::<i32, char>::new()?.pin()?;
    /// for (key, value) in [(-5, 'a'), (7, 'b'), (9, 'c')] {
    ///     guard.insert(key, value)?;
    /// }
    /// assert_eq!((guard.above(-5), guard.above(9)), (Some((7, 'b')), None));
    /// # Ok(())
    /// # }
    /// ```
    #[doc(alias("successor", "upper_bound"))]
    pub fn above(&self, key: K) -> Option<(K, V)> {
        self.guard.above(key.into_u64()).map(pair)
    }

    /// Removes the pair with the least key, and returns the pair, or `None` if the call found no pair. Each pair goes to
    /// one caller. The pair was found by [`first`](OrdLiveGuard::first): no lesser key was present throughout the call. A
    /// lesser key that another call inserts meanwhile stays. With `None` no key was present throughout the call. A pop is
    /// never out of memory. While writers lock or change nodes on the way, the call yields and tries again. If another call
    /// removes or changes the found pair first, the call searches again.
    ///
    /// ```
    /// use proved_congee::keyed::OrdLiveMap;
    ///
    /// # fn main() -> Result<(), Box<dyn std::error::Error>> {
    /// let guard = OrdLiveMap::<i32, char>::new()?.pin()?;
    /// guard.extend([(-5, 'a'), (7, 'b'), (9, 'c')])?;
    /// assert_eq!(guard.pop_first(), Some((-5, 'a')));
    /// assert_eq!(guard.first(), Some((7, 'b')));
    /// # Ok(())
    /// # }
    /// ```
    #[doc(alias("pop", "pop_min"))]
    pub fn pop_first(&self) -> Option<(K, V)> {
        self.guard.pop_first().map(pair)
    }

    /// Removes the pair with the least key, if that key is at most `key`, and returns the pair, or `None` if the call found
    /// no such pair. Each pair goes to one caller. The pair was found by [`first`](OrdLiveGuard::first): no lesser key was
    /// present throughout the call. A lesser key that another call inserts meanwhile stays. With `None` no key that is at
    /// most `key` was present throughout the call. A pop is never out of memory. While writers lock or change nodes on the
    /// way, the call yields and tries again. If another call removes or changes the found pair first, the call searches
    /// again.
    ///
    /// ```
    /// use proved_congee::keyed::OrdLiveMap;
    ///
    /// # fn main() -> Result<(), Box<dyn std::error::Error>> {
    /// let guard = OrdLiveMap::<i32, char>::new()?.pin()?;
    /// guard.extend([(-5, 'a'), (7, 'b'), (9, 'c')])?;
    /// assert_eq!(guard.pop_first_to(6), Some((-5, 'a')));
    /// assert_eq!(guard.pop_first_to(6), None);
    /// # Ok(())
    /// # }
    /// ```
    pub fn pop_first_to(&self, key: K) -> Option<(K, V)> {
        self.guard.pop_first_to(key.into_u64()).map(pair)
    }

    /// Removes the pair with the greatest key, and returns the pair, or `None` if the call found no pair. Each pair goes to
    /// one caller. The pair was found by [`last`](OrdLiveGuard::last): no greater key was present throughout the call. A
    /// greater key that another call inserts meanwhile stays. With `None` no key was present throughout the call. A pop is
    /// never out of memory. While writers lock or change nodes on the way, the call yields and tries again. If another call
    /// removes or changes the found pair first, the call searches again.
    ///
    /// ```
    /// use proved_congee::keyed::OrdLiveMap;
    ///
    /// # fn main() -> Result<(), Box<dyn std::error::Error>> {
    /// let guard = OrdLiveMap::<i32, char>::new()?.pin()?;
    /// guard.extend([(-5, 'a'), (7, 'b'), (9, 'c')])?;
    /// assert_eq!(guard.pop_last(), Some((9, 'c')));
    /// assert_eq!(guard.last(), Some((7, 'b')));
    /// # Ok(())
    /// # }
    /// ```
    #[doc(alias = "pop_max")]
    pub fn pop_last(&self) -> Option<(K, V)> {
        self.guard.pop_last().map(pair)
    }

    /// Removes the pair with the greatest key, if that key is at least `key`, and returns the pair, or `None` if the call
    /// found no such pair. Each pair goes to one caller. The pair was found by [`last`](OrdLiveGuard::last): no greater key
    /// was present throughout the call. A greater key that another call inserts meanwhile stays. With `None` no key that is
    /// at least `key` was present throughout the call. A pop is never out of memory. While writers lock or change nodes on
    /// the way, the call yields and tries again. If another call removes or changes the found pair first, the call searches
    /// again.
    ///
    /// ```
    /// use proved_congee::keyed::OrdLiveMap;
    ///
    /// # fn main() -> Result<(), Box<dyn std::error::Error>> {
    /// let guard = OrdLiveMap::<i32, char>::new()?.pin()?;
    /// guard.extend([(-5, 'a'), (7, 'b'), (9, 'c')])?;
    /// assert_eq!(guard.pop_last_from(8), Some((9, 'c')));
    /// assert_eq!(guard.pop_last_from(8), None);
    /// # Ok(())
    /// # }
    /// ```
    pub fn pop_last_from(&self, key: K) -> Option<(K, V)> {
        self.guard.pop_last_from(key.into_u64()).map(pair)
    }

    /// Removes the pairs whose keys are within the bounds. Returns how many pairs this call removed. Each pair is in the
    /// history as by a pop, keys ascending. Each key that is present when the call begins is removed meanwhile, by this call
    /// or by another. A key that another call inserts meanwhile may stay. While writers lock or change nodes on the way,
    /// the call yields and tries again. Never out of memory.
    ///
    /// ```
    /// use proved_congee::keyed::OrdLiveMap;
    ///
    /// # fn main() -> Result<(), Box<dyn std::error::Error>> {
    /// let guard = OrdLiveMap::<i32, char>::new()?.pin()?;
    /// guard.extend([(-5, 'a'), (7, 'b'), (9, 'c')])?;
    /// assert_eq!(guard.remove_range(..=7), 2);
    /// assert!(guard.iter().eq([(9, 'c')]));
    /// # Ok(())
    /// # }
    /// ```
    #[doc(alias = "drain")]
    pub fn remove_range(&self, of: impl RangeBounds<K>) -> u64 {
        self.guard.remove_range(bounds(of))
    }

    /// Calls `keep` with each pair, keys ascending, while nothing is locked. Each pair is read at a moment of its own,
    /// and a key that is present throughout the call is among them. Removes the pairs for which `keep` returns false.
    /// If another call changes the value in between, `keep` is called again with the new value. So each key that is
    /// present throughout the call, and stays, had a value meanwhile for which `keep` returned true. Other calls come
    /// in between. While writers lock or change nodes on the way, the call yields and tries again. Never out of memory.
    ///
    /// ```
    /// use proved_congee::keyed::OrdLiveMap;
    ///
    /// # fn main() -> Result<(), Box<dyn std::error::Error>> {
    /// let guard = OrdLiveMap::<i32, char>::new()?.pin()?;
    /// guard.extend([(-5, 'a'), (7, 'b'), (9, 'c')])?;
    /// guard.retain(|key, value| key > 0 && value != 'c');
    /// assert!(guard.iter().eq([(7, 'b')]));
    /// # Ok(())
    /// # }
    /// ```
    pub fn retain(&self, mut keep: impl FnMut(K, V) -> bool) {
        self.guard
            .retain(|key, value| keep(K::from_u64(key), V::from_u64(value)));
    }

    /// Removes all pairs. Each pair is in the history as by a pop, keys ascending. Each key that is present when the call
    /// begins is removed meanwhile, by this call or by another. A key that another call inserts meanwhile may stay. While
    /// writers lock or change nodes on the way, the call yields and tries again. Never out of memory. The map keeps its
    /// segments.
    ///
    /// ```
    /// use proved_congee::keyed::OrdLiveMap;
    ///
    /// # fn main() -> Result<(), Box<dyn std::error::Error>> {
    /// let guard = OrdLiveMap::<i32, char>::new()?.pin()?;
    /// guard.extend([(-5, 'a'), (7, 'b'), (9, 'c')])?;
    /// guard.clear();
    /// assert!(guard.is_empty());
    /// # Ok(())
    /// # }
    /// ```
    pub fn clear(&self) {
        self.guard.clear();
    }

    /// Counts the pairs. The number is exact if no thread writes meanwhile. Otherwise each key counts, or not, as of a
    /// moment of the call. The call reads all nodes that have values, so the time grows with the number of pairs. While
    /// writers lock or change nodes on the way, the call yields and tries again.
    ///
    /// ```
    /// use proved_congee::keyed::OrdLiveMap;
    ///
    /// # fn main() -> Result<(), proved_congee::OutOfMemory> {
    /// let guard = OrdLiveMap::<i32, char>::new()?.pin()?;
    /// for (key, value) in [(-5, 'a'), (7, 'b'), (9, 'c')] {
    ///     guard.insert(key, value)?;
    /// }
    /// assert_eq!(guard.len(), 3);
    /// # Ok(())
    /// # }
    /// ```
    #[doc(alias("count", "size", "value_count"))]
    pub fn len(&self) -> usize {
        self.guard.len()
    }

    /// Returns whether the map has no pair, by a search for the first pair. With `true` no key was present throughout the
    /// call. With `false` a pair was present at a moment of the call. While writers lock or change nodes on the way, the
    /// call yields and tries again.
    ///
    /// ```
    /// use proved_congee::keyed::OrdLiveMap;
    ///
    /// # fn main() -> Result<(), proved_congee::OutOfMemory> {
    /// let guard = OrdLiveMap::<i32, char>::new()?.pin()?;
    /// for (key, value) in [(-5, 'a'), (7, 'b'), (9, 'c')] {
    ///     guard.insert(key, value)?;
    /// }
    /// assert!(!guard.is_empty());
    /// # Ok(())
    /// # }
    /// ```
    pub fn is_empty(&self) -> bool {
        self.guard.is_empty()
    }

    /// Returns the pairs whose keys are within the bounds, keys ascending, from either end. The pairs are read in pages of
    /// 4, and later up to 256. Each key has the value of a moment during the iteration, and a key that is present
    /// throughout is returned.
    ///
    /// ```
    /// use proved_congee::keyed::OrdLiveMap;
    ///
    /// # fn main() -> Result<(), proved_congee::OutOfMemory> {
    /// let guard = OrdLiveMap::<i32, char>::new()?.pin()?;
    /// for (key, value) in [(-5, 'a'), (7, 'b'), (9, 'c')] {
    ///     guard.insert(key, value)?;
    /// }
    /// assert!(guard.range(-5..9).eq([(-5, 'a'), (7, 'b')]));
    /// assert!(guard.range(6..).rev().eq([(9, 'c'), (7, 'b')]));
    /// # Ok(())
    /// # }
    /// ```
    #[doc(alias("cursor", "range_mut", "scan"))]
    pub fn range(&self, of: impl RangeBounds<K>) -> Range<'_, K, V> {
        Range::of(self.guard.range(bounds(of)))
    }

    /// Returns all pairs, keys ascending, from either end. The pairs are read in pages of 4, and later up to 256. Each key
    /// has the value of a moment during the iteration, and a key that is present throughout is returned.
    ///
    /// ```
    /// use proved_congee::keyed::OrdLiveMap;
    ///
    /// # fn main() -> Result<(), proved_congee::OutOfMemory> {
    /// let guard = OrdLiveMap::<i32, char>::new()?.pin()?;
    /// for (key, value) in [(-5, 'a'), (7, 'b'), (9, 'c')] {
    ///     guard.insert(key, value)?;
    /// }
    /// assert!(guard.iter().eq([(-5, 'a'), (7, 'b'), (9, 'c')]));
    /// # Ok(())
    /// # }
    /// ```
    #[doc(alias("for_each", "iter_mut"))]
    pub fn iter(&self) -> Range<'_, K, V> {
        self.range(..)
    }

    /// Returns all keys, ascending, from either end. The keys are read in pages of 4, and later up to 256. Each key is
    /// read at a moment of its own. A key that is present throughout is returned.
    ///
    /// ```
    /// use proved_congee::keyed::OrdLiveMap;
    ///
    /// # fn main() -> Result<(), Box<dyn std::error::Error>> {
    /// let guard = OrdLiveMap::<i32, char>::new()?.pin()?;
    /// guard.extend([(-5, 'a'), (7, 'b'), (9, 'c')])?;
    /// assert!(guard.keys().rev().eq([9, 7, -5]));
    /// # Ok(())
    /// # }
    /// ```
    pub fn keys(&self) -> impl DoubleEndedIterator<Item = K> + '_ {
        self.iter().map(|it| it.0)
    }

    /// Returns all values, by ascending keys, from either end. The values are read in pages of 4, and later up to 256.
    /// Each key is read at a moment of its own. The value of a key that is present throughout is returned.
    ///
    /// ```
    /// use proved_congee::keyed::OrdLiveMap;
    ///
    /// # fn main() -> Result<(), Box<dyn std::error::Error>> {
    /// let guard = OrdLiveMap::<i32, char>::new()?.pin()?;
    /// guard.extend([(-5, 'a'), (7, 'b'), (9, 'c')])?;
    /// assert!(guard.values().eq(['a', 'b', 'c']));
    /// # Ok(())
    /// # }
    /// ```
    #[doc(alias = "values_mut")]
    pub fn values(&self) -> impl DoubleEndedIterator<Item = V> + '_ {
        self.iter().map(|it| it.1)
    }

    /// Copies the pairs into a map of their own, without a limit. The copy is made by pages, each key as of a moment of
    /// its own. A key that is present throughout the call is in the copy. If other calls change the map, the map may
    /// never have had just these pairs. Returns [`OutOfMemory`], with nothing changed, if there is no memory for the
    /// copy.
    ///
    /// ```
    /// use proved_congee::keyed::OrdLiveMap;
    ///
    /// # fn main() -> Result<(), Box<dyn std::error::Error>> {
    /// let guard = OrdLiveMap::<i32, char>::new()?.pin()?;
    /// guard.extend([(-5, 'a'), (7, 'b'), (9, 'c')])?;
    /// let copy = guard.snapshot()?;
    /// guard.clear();
    /// assert!(copy.iter().eq([(-5, 'a'), (7, 'b'), (9, 'c')]));
    /// # Ok(())
    /// # }
    /// ```
    #[doc(alias = "to_owned")]
    pub fn snapshot(&self) -> Result<OrdMap<K, V>, OutOfMemory> {
        Ok(self.guard.snapshot()?.into())
    }

    /// Orders two guards of one map in time: calls that either guard had made, or had learned of, come before all later
    /// calls of both. Never fails, and takes no lock and no memory. Panics if the guards are of two maps.
    ///
    /// ```
    /// use proved_congee::keyed::OrdLiveMap;
    ///
    /// # fn main() -> Result<(), Box<dyn std::error::Error>> {
    /// let map = OrdLiveMap::<i32, char>::new()?;
    /// let (one, other) = (map.pin()?, map.pin()?);
    /// one.insert(-5, 'a')?;
    /// one.meet(&other);
    /// assert_eq!(other.get(-5), Some('a'));
    /// # Ok(())
    /// # }
    /// ```
    pub fn meet(&self, other: &Self) {
        self.guard.meet(&other.guard);
    }

    /// Makes a note of the history that the guard has seen, for a guard on another thread to [`learn`](Self::learn).
    /// Takes a small block. Returns [`OutOfMemory`] if there is no memory for a note.
    ///
    /// ```
    /// use proved_congee::keyed::OrdLiveMap;
    ///
    /// # fn main() -> Result<(), Box<dyn std::error::Error>> {
    /// let map = OrdLiveMap::<i32, char>::new()?;
    /// let (one, other) = (map.pin()?, map.pin()?);
    /// one.insert(-5, 'a')?;
    /// other.learn(&one.note()?);
    /// assert_eq!(other.get(-5), Some('a'));
    /// # Ok(())
    /// # }
    /// ```
    pub fn note(&self) -> Result<LiveNote, OutOfMemory> {
        self.guard.note()
    }

    /// Orders the guard after a note: all calls that the note has seen come before the guard's later calls. Panics if
    /// the note is of another map.
    ///
    /// ```
    /// use proved_congee::keyed::OrdLiveMap;
    ///
    /// # fn main() -> Result<(), Box<dyn std::error::Error>> {
    /// let map = OrdLiveMap::<i32, char>::new()?;
    /// let (one, other) = (map.pin()?, map.pin()?);
    /// one.insert(-5, 'a')?;
    /// other.learn(&one.note()?);
    /// assert_eq!(other.len(), 1);
    /// # Ok(())
    /// # }
    /// ```
    pub fn learn(&self, note: &LiveNote) {
        self.guard.learn(note);
    }

    /// Returns the bytes of all segments that the map has so far, which count against the limit.
    ///
    /// ```
    /// use proved_congee::keyed::OrdLiveMap;
    ///
    /// # fn main() -> Result<(), Box<dyn std::error::Error>> {
    /// let guard = OrdLiveMap::<i32, char>::with_limit(10_000)?.pin()?;
    /// assert_eq!(guard.charged(), 4096);
    /// # Ok(())
    /// # }
    /// ```
    #[doc(alias("bytes", "memory_usage", "stats"))]
    pub fn charged(&self) -> u64 {
        self.guard.charged()
    }

    /// Returns the limit in bytes that the map was made with, or `u64::MAX` for none.
    ///
    /// ```
    /// use proved_congee::keyed::OrdLiveMap;
    ///
    /// # fn main() -> Result<(), Box<dyn std::error::Error>> {
    /// let guard = OrdLiveMap::<i32, char>::with_limit(10_000)?.pin()?;
    /// assert_eq!(guard.limit(), 10_000);
    /// # Ok(())
    /// # }
    /// ```
    pub fn limit(&self) -> u64 {
        self.guard.limit()
    }

    /// Returns the bytes of all segments that the map has so far, which count against the limit, and the limit.
    ///
    /// ```
    /// use proved_congee::keyed::OrdLiveMap;
    ///
    /// # fn main() -> Result<(), Box<dyn std::error::Error>> {
    /// let guard = OrdLiveMap::<i32, char>::with_limit(10_000)?.pin()?;
    /// assert_eq!(guard.usage(), (4096, 10_000));
    /// # Ok(())
    /// # }
    /// ```
    pub fn usage(&self) -> (u64, u64) {
        self.guard.usage()
    }

    /// Returns the guard of numbers, for calls that the typed guard lacks.
    ///
    /// ```
    /// use proved_congee::keyed::OrdLiveMap;
    ///
    /// # fn main() -> Result<(), proved_congee::OutOfMemory> {
    /// let guard = OrdLiveMap::<char, u32>::new()?.pin()?;
    /// guard.as_guard().add(u64::from('a'), 1)?;
    /// assert_eq!(guard.get('a'), Some(1));
    /// # Ok(())
    /// # }
    /// ```
    pub fn as_guard(&self) -> &LiveGuard {
        &self.guard
    }
}

impl<K, V> From<LiveGuard> for OrdLiveGuard<K, V> {
    fn from(guard: LiveGuard) -> Self {
        OrdLiveGuard {
            guard,
            _types: PhantomData,
        }
    }
}

impl<'a, K: Word, V: Word> IntoIterator for &'a OrdLiveGuard<K, V> {
    type Item = (K, V);
    type IntoIter = Range<'a, K, V>;

    fn into_iter(self) -> Range<'a, K, V> {
        self.iter()
    }
}

impl<K: Word + fmt::Debug, V: Word + fmt::Debug> fmt::Debug for OrdLiveGuard<K, V> {
    fn fmt(&self, f: &mut fmt::Formatter<'_>) -> fmt::Result {
        f.debug_map().entries(self).finish()
    }
}
