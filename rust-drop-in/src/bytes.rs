//! A map whose ranges give keys as bytes.

use crate::handles::Tree;
use crate::{epoch, Allocator, DefaultAllocator, OOMError};
use std::fmt;
use std::marker::PhantomData;

/// A map from `u64` keys to values that are each a `usize`, over a [`LiveMap`](proved_congee::LiveMap). Threads share the
/// map by `&`. Proved is the live map beneath. This layer with the crate's names is tested.
///
/// ```
/// use congee::{epoch, U64Congee};
///
/// let map = U64Congee::<usize>::new();
/// let guard = epoch::pin();
/// assert_eq!(map.insert(7, 70, &guard).unwrap(), None);
/// assert_eq!(map.get(7, &guard), Some(70));
/// ```
pub struct U64Congee<
    V: Clone + From<usize> + Into<usize>,
    A: Allocator + Clone + Send + 'static = DefaultAllocator,
> {
    tree: Tree,
    _types: PhantomData<(V, fn() -> A)>,
}

impl<V: Clone + From<usize> + Into<usize>> Default for U64Congee<V> {
    fn default() -> Self {
        Self::new()
    }
}

impl<V: Clone + From<usize> + Into<usize>> U64Congee<V> {
    /// Makes an empty map.
    ///
    /// # Panics
    ///
    /// If there is no memory.
    ///
    /// ```
    /// use congee::{epoch, U64Congee};
    ///
    /// let map = U64Congee::<usize>::new();
    /// let guard = epoch::pin();
    /// assert_eq!(map.get(7, &guard), None);
    /// ```
    pub fn new() -> Self {
        U64Congee {
            tree: Tree::with_limit(u64::MAX).expect("there is no memory for a map"),
            _types: PhantomData,
        }
    }

    /// Returns the value at the key, or `None` if the key is absent.
    ///
    /// ```
    /// use congee::{epoch, U64Congee};
    ///
    /// let map = U64Congee::<usize>::new();
    /// let guard = epoch::pin();
    /// map.insert(7, 70, &guard).unwrap();
    /// assert_eq!(map.get(7, &guard), Some(70));
    /// ```
    #[doc(alias("find", "index"))]
    pub fn get(&self, key: u64, _guard: &epoch::Guard) -> Option<V> {
        Some(V::from(self.tree.get(key)? as usize))
    }

    /// Sets the key's value, and returns the previous value, or `None` for a new key. Returns [`OOMError`], with no pair
    /// changed, only for an absent key, if there is no memory or the limit is reached.
    ///
    /// ```
    /// use congee::{epoch, U64Congee};
    ///
    /// let map = U64Congee::<usize>::new();
    /// let guard = epoch::pin();
    /// assert_eq!(map.insert(u64::MAX, 70, &guard).unwrap(), None);
    /// assert_eq!(map.insert(u64::MAX, 71, &guard).unwrap(), Some(70));
    /// ```
    #[doc(alias("put", "upsert"))]
    pub fn insert(&self, key: u64, val: V, _guard: &epoch::Guard) -> Result<Option<V>, OOMError> {
        let value: usize = val.into();
        let before = self.tree.with(|handle| handle.insert(key, value as u64))?;
        Ok(before.map(|it| V::from(it as usize)))
    }

    /// Removes the key, and returns the removed value, or `None` if the key was absent.
    ///
    /// ```
    /// use congee::{epoch, U64Congee};
    ///
    /// let map = U64Congee::<usize>::new();
    /// let guard = epoch::pin();
    /// map.insert(7, 70, &guard).unwrap();
    /// assert_eq!(map.remove(7, &guard), Some(70));
    /// ```
    #[doc(alias = "delete")]
    pub fn remove(&self, key: u64, _guard: &epoch::Guard) -> Option<V> {
        let before = self.tree.with(|handle| handle.remove(key))?;
        Some(V::from(before as usize))
    }

    /// Writes the first pairs with `start <= key < end` to the buffer, each key as its eight bytes, the highest first, keys
    /// ascending, and returns how many pairs fit. The pairs are no snapshot: each key is read at a moment of the call, and
    /// a key that is present throughout the call is written. The rest of the buffer is unchanged.
    ///
    /// ```
    /// use congee::{epoch, U64Congee};
    ///
    /// let map = U64Congee::<usize>::new();
    /// let guard = epoch::pin();
    /// map.insert(7, 70, &guard).unwrap();
    /// let mut page = [([0; 8], 0); 4];
    /// assert_eq!(map.range(0, 9, &mut page, &guard), 1);
    /// assert_eq!(page[0], (7u64.to_be_bytes(), 70));
    /// ```
    #[doc(alias = "scan")]
    pub fn range(
        &self,
        start: u64,
        end: u64,
        result: &mut [([u8; 8], usize)],
        _guard: &epoch::Guard,
    ) -> usize {
        self.tree.range(start, end, result, |pair| {
            (pair.key.to_be_bytes(), pair.value as usize)
        })
    }
}

impl<V: Clone + From<usize> + Into<usize>, A: Allocator + Clone + Send> fmt::Debug
    for U64Congee<V, A>
{
    fn fmt(&self, f: &mut fmt::Formatter<'_>) -> fmt::Result {
        f.debug_struct("U64Congee").finish_non_exhaustive()
    }
}
