//! A map whose keys and values are numbers.

use crate::handles::Tree;
use crate::{epoch, typed, word, Allocator, DefaultAllocator, NodeStats, OOMError};
use std::fmt;
use std::marker::PhantomData;
use std::sync::Mutex;

type Types<K, V, A> = PhantomData<(K, V, fn() -> A)>;

type Drainer = Mutex<Box<dyn Fn(u64, u64) + Send>>;

/// A map from keys to values that are each a `usize`, over a [`LiveMap`](proved_congee::LiveMap). Threads share the map by
/// `&`. Proved is the live map beneath: calls of one key are sequentially consistent. This layer with the crate's names and
/// closures is tested.
///
/// ```
/// use congee::Congee;
///
/// let map = Congee::<usize, usize>::default();
/// let guard = map.pin();
/// assert_eq!(map.insert(7, 70, &guard).unwrap(), None);
/// assert_eq!(map.get(&7, &guard), Some(70));
/// ```
pub struct Congee<
    K: Copy + From<usize>,
    V: Copy + From<usize>,
    A: Allocator + Clone + Send + 'static = DefaultAllocator,
> where
    usize: From<K>,
    usize: From<V>,
{
    tree: Tree,
    // (a mutex, since the map is `Sync`. It is never locked)
    drainer: Option<Drainer>,
    _types: Types<K, V, A>,
}

impl<K: Copy + From<usize>, V: Copy + From<usize>> Default for Congee<K, V>
where
    usize: From<K>,
    usize: From<V>,
{
    fn default() -> Self {
        Self::new(DefaultAllocator {})
    }
}

impl<K: Copy + From<usize>, V: Copy + From<usize>, A: Allocator + Clone + Send> Congee<K, V, A>
where
    usize: From<K>,
    usize: From<V>,
{
    /// Makes an empty map.
    ///
    /// # Panics
    ///
    /// If there is no memory, or the limit is below a map's first segment.
    ///
    /// ```
    /// use congee::{Congee, Limit};
    ///
    /// let map = Congee::<usize, usize, Limit>::new(Limit(1_000_000));
    /// assert!(map.is_empty(&map.pin()));
    /// ```
    pub fn new(allocator: A) -> Self {
        Congee {
            tree: Tree::with_limit(allocator.limit()).expect("there is no memory for a map"),
            drainer: None,
            _types: PhantomData,
        }
    }

    /// Makes an empty map. When the map is dropped, its remaining pairs are handed to the closure, keys ascending.
    ///
    /// # Panics
    ///
    /// If there is no memory, or the limit is below a map's first segment.
    ///
    /// ```
    /// use congee::{Congee, DefaultAllocator};
    /// use std::sync::mpsc::channel;
    ///
    /// let (left, found) = channel();
    /// let map = Congee::<usize, usize>::new_with_drainer(DefaultAllocator {}, move |key, value| {
    ///     left.send((key, value)).unwrap();
    /// });
    /// map.insert(7, 70, &map.pin()).unwrap();
    /// drop(map);
    /// assert!(found.iter().eq([(7, 70)]));
    /// ```
    pub fn new_with_drainer(allocator: A, drainer: impl Fn(K, V) + Send + 'static) -> Self {
        let mut map = Self::new(allocator);
        map.drainer = Some(Mutex::new(Box::new(move |key, value| {
            drainer(K::from(key as usize), V::from(value as usize))
        })));
        map
    }

    /// Returns a guard of the epoch. One guard is enough for many calls.
    ///
    /// ```
    /// use congee::Congee;
    ///
    /// let map = Congee::<usize, usize>::default();
    /// let guard = map.pin();
    /// for key in 0..100 {
    ///     map.insert(key, key, &guard).unwrap();
    /// }
    /// assert_eq!(map.keys().len(), 100);
    /// ```
    #[inline]
    pub fn pin(&self) -> epoch::Guard {
        epoch::pin()
    }

    /// Returns the value at the key, or `None` if the key is absent.
    ///
    /// ```
    /// use congee::Congee;
    ///
    /// let map = Congee::<usize, usize>::default();
    /// let guard = map.pin();
    /// map.insert(7, 70, &guard).unwrap();
    /// assert_eq!((map.get(&7, &guard), map.get(&8, &guard)), (Some(70), None));
    /// ```
    #[doc(alias("find", "index"))]
    #[inline]
    pub fn get(&self, key: &K, _guard: &epoch::Guard) -> Option<V> {
        self.tree.get(word(*key)).map(typed)
    }

    /// Returns whether the map has no pair, by a search for the first pair.
    ///
    /// ```
    /// use congee::Congee;
    ///
    /// let map = Congee::<usize, usize>::default();
    /// let guard = map.pin();
    /// assert!(map.is_empty(&guard));
    /// map.insert(7, 70, &guard).unwrap();
    /// assert!(!map.is_empty(&guard));
    /// ```
    pub fn is_empty(&self, _guard: &epoch::Guard) -> bool {
        self.tree.with(|handle| handle.is_empty())
    }

    /// Sets the key's value, and returns the previous value, or `None` for a new key. Returns [`OOMError`], with no pair
    /// changed, only for an absent key, if there is no memory or the limit is reached.
    ///
    /// ```
    /// use congee::Congee;
    ///
    /// let map = Congee::<usize, usize>::default();
    /// let guard = map.pin();
    /// assert_eq!(map.insert(7, 70, &guard).unwrap(), None);
    /// assert_eq!(map.insert(7, 71, &guard).unwrap(), Some(70));
    /// ```
    #[doc(alias("put", "upsert"))]
    #[inline]
    pub fn insert(&self, k: K, v: V, _guard: &epoch::Guard) -> Result<Option<V>, OOMError> {
        let before = self.tree.with(|handle| handle.insert(word(k), word(v)))?;
        Ok(before.map(typed))
    }

    /// Removes the key, and returns the removed value, or `None` if the key was absent.
    ///
    /// ```
    /// use congee::Congee;
    ///
    /// let map = Congee::<usize, usize>::default();
    /// let guard = map.pin();
    /// map.insert(7, 70, &guard).unwrap();
    /// assert_eq!((map.remove(&7, &guard), map.remove(&7, &guard)), (Some(70), None));
    /// ```
    #[doc(alias = "delete")]
    #[inline]
    pub fn remove(&self, k: &K, _guard: &epoch::Guard) -> Option<V> {
        self.tree.with(|handle| handle.remove(word(*k))).map(typed)
    }

    /// Writes the first pairs with `start <= key < end` to the buffer, keys ascending, and returns how many pairs fit. The
    /// pairs are no snapshot: each key is read at a moment of the call, and a key that is present throughout the call is
    /// written. The rest of the buffer is unchanged.
    ///
    /// ```
    /// use congee::Congee;
    ///
    /// let map = Congee::<usize, usize>::default();
    /// let guard = map.pin();
    /// map.insert(7, 70, &guard).unwrap();
    /// map.insert(9, 90, &guard).unwrap();
    /// let mut page = [(0, 0); 4];
    /// assert_eq!(map.range(&0, &9, &mut page, &guard), 1);
    /// assert_eq!(page[0], (7, 70));
    /// ```
    #[doc(alias = "scan")]
    #[inline]
    pub fn range(
        &self,
        start: &K,
        end: &K,
        result: &mut [(usize, usize)],
        _guard: &epoch::Guard,
    ) -> usize {
        self.tree.range(word(*start), word(*end), result, |pair| {
            (pair.key as usize, pair.value as usize)
        })
    }

    /// Calls the closure with the value of a present key. Stores the value that the closure returns, or removes the key for
    /// `None`. Returns the value before and the value after, or `None` if the key is absent. The closure is called while
    /// nothing is locked. If another thread changes the key meanwhile, the closure is called again with the new value.
    ///
    /// ```
    /// use congee::Congee;
    ///
    /// let map = Congee::<usize, usize>::default();
    /// let guard = map.pin();
    /// map.insert(7, 70, &guard).unwrap();
    /// assert_eq!(map.compute_if_present(&7, |value| Some(value + 1), &guard), Some((70, Some(71))));
    /// assert_eq!(map.compute_if_present(&8, |value| Some(value + 1), &guard), None);
    /// ```
    #[doc(alias("alter", "and_modify", "compute", "get_mut", "update"))]
    pub fn compute_if_present<F>(
        &self,
        key: &K,
        mut f: F,
        _guard: &epoch::Guard,
    ) -> Option<(usize, Option<usize>)>
    where
        F: FnMut(usize) -> Option<usize>,
    {
        let (before, after) = self
            .tree
            .compute_if_present(word(*key), |value| f(value as usize).map(|it| it as u64))?;
        Some((before as usize, after.map(|it| it as usize)))
    }

    /// Calls the closure with the key's value or `None`, and stores the value that the closure returns. Returns the value
    /// before, or `None` for a new key. The closure is called while nothing is locked. If another thread changes the key
    /// meanwhile, the closure is called again with the new value. Returns [`OOMError`], with no pair changed, only for an
    /// absent key, if there is no memory or the limit is reached.
    ///
    /// ```
    /// use congee::Congee;
    ///
    /// let map = Congee::<usize, usize>::default();
    /// let guard = map.pin();
    /// for _ in 0..3 {
    ///     map.compute_or_insert(7, |count| count.unwrap_or(0) + 1, &guard).unwrap();
    /// }
    /// assert_eq!(map.get(&7, &guard), Some(3));
    /// ```
    #[doc(alias("compute", "entry", "or_insert"))]
    pub fn compute_or_insert<F>(
        &self,
        key: K,
        mut f: F,
        _guard: &epoch::Guard,
    ) -> Result<Option<V>, OOMError>
    where
        F: FnMut(Option<usize>) -> usize,
    {
        let before = self
            .tree
            .compute_or_insert(word(key), |value| f(value.map(|it| it as usize)) as u64)?;
        Ok(before.map(typed))
    }

    /// Replaces the key's value by `new` if the value is `old`, or removes the key for `None`, and returns `new`. Otherwise
    /// changes nothing, and returns as an error the present value, or `None` if the key is absent.
    ///
    /// ```
    /// use congee::Congee;
    ///
    /// let map = Congee::<usize, usize>::default();
    /// let guard = map.pin();
    /// map.insert(7, 70, &guard).unwrap();
    /// assert_eq!(map.compare_exchange(&7, &70, Some(71), &guard), Ok(Some(71)));
    /// assert_eq!(map.compare_exchange(&7, &70, None, &guard), Err(Some(71)));
    /// ```
    #[doc(alias("cas", "compare_and_swap", "remove_if"))]
    pub fn compare_exchange(
        &self,
        key: &K,
        old: &V,
        new: Option<V>,
        _guard: &epoch::Guard,
    ) -> Result<Option<V>, Option<V>> {
        self.tree
            .compare_exchange(word(*key), word(*old), new.map(word))
            .map(|()| new)
            .map_err(|found| found.map(typed))
    }

    /// Returns all keys, ascending. Each key is read at a moment of the call, and a key that is present throughout the call
    /// is returned.
    ///
    /// ```
    /// use congee::Congee;
    ///
    /// let map = Congee::<usize, usize>::default();
    /// let guard = map.pin();
    /// map.insert(7, 70, &guard).unwrap();
    /// map.insert(5, 50, &guard).unwrap();
    /// assert_eq!(map.keys(), [5, 7]);
    /// ```
    #[doc(alias = "iter")]
    pub fn keys(&self) -> Vec<K> {
        self.tree.keys(|key| K::from(key as usize))
    }

    /// Returns the nodes of a tree made anew from the present keys. Reads all keys.
    ///
    /// ```
    /// use congee::Congee;
    ///
    /// let map = Congee::<usize, usize>::default();
    /// let guard = map.pin();
    /// map.insert(7, 70, &guard).unwrap();
    /// assert!(format!("{:?}", map.stats()).contains("kv_pairs: 1"));
    /// ```
    #[doc(alias("len", "memory_usage"))]
    pub fn stats(&self) -> NodeStats {
        NodeStats::of(&self.tree.keys(|key| key))
    }
}

impl<K: Copy + From<usize>, V: Copy + From<usize>, A: Allocator + Clone + Send> Drop
    for Congee<K, V, A>
where
    usize: From<K>,
    usize: From<V>,
{
    fn drop(&mut self) {
        if let Some(drainer) = &mut self.drainer {
            let drainer = drainer.get_mut().unwrap_or_else(|it| it.into_inner());
            self.tree.each(|pair| drainer(pair.key, pair.value));
        }
    }
}

impl<K: Copy + From<usize>, V: Copy + From<usize>, A: Allocator + Clone + Send> fmt::Debug
    for Congee<K, V, A>
where
    usize: From<K>,
    usize: From<V>,
{
    fn fmt(&self, f: &mut fmt::Formatter<'_>) -> fmt::Result {
        f.debug_struct("Congee").finish_non_exhaustive()
    }
}
