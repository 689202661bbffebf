//! A map whose values are owners.

use crate::handles::Tree;
use crate::{epoch, word, OOMError};
use proved_congee::{ExchangeError, LiveOwnerMap, OutOfMemory, Refused, Ticket};
use std::fmt;
use std::marker::PhantomData;
use std::sync::Arc;

/// A map from keys that are each a `usize` to owners, over a [`LiveArcMap`](proved_congee::LiveArcMap). Threads share the
/// map by `&`. Proved of the map beneath is that no owner comes back while a handle has the owner lent. The counts of owners
/// are this layer's, and tested.
///
/// The map has one count of each owner. A call that finds an owner has the owner lent while the call takes one more count. An
/// owner that a call has removed keeps a count until the caller's guard is dropped, and each other guard of the moment.
///
/// ```
/// use congee::CongeeArc;
/// use std::sync::Arc;
///
/// let map = CongeeArc::<usize, String>::new();
/// let guard = map.pin();
/// assert!(map.insert(7, Arc::new("b".into()), &guard).unwrap().is_none());
/// assert_eq!(*map.get(7, &guard).unwrap(), "b");
/// ```
pub struct CongeeArc<K: From<usize> + Copy, V: Sync + Send + 'static>
where
    usize: From<K>,
{
    tree: Tree<LiveOwnerMap<Arc<V>>>,
    _types: PhantomData<(K, Arc<V>)>,
}

impl<K: From<usize> + Copy, V: Sync + Send + 'static> Default for CongeeArc<K, V>
where
    usize: From<K>,
{
    fn default() -> Self {
        Self::new()
    }
}

impl<K: From<usize> + Copy, V: Sync + Send + 'static> CongeeArc<K, V>
where
    usize: From<K>,
{
    /// Makes an empty map.
    ///
    /// # Panics
    ///
    /// If there is no memory.
    ///
    /// ```
    /// use congee::CongeeArc;
    /// use std::sync::Arc;
    ///
    /// let map = CongeeArc::<usize, String>::new();
    /// let guard = map.pin();
    /// assert!(map.is_empty(&guard));
    /// ```
    pub fn new() -> Self {
        CongeeArc {
            tree: LiveOwnerMap::new()
                .and_then(Tree::of)
                .expect("there is no memory for a map"),
            _types: PhantomData,
        }
    }

    /// The owner that a call took out, for its caller. One count lasts until no guard of the moment is left.
    fn taken_out(&self, owner: Arc<V>, guard: &epoch::Guard) -> Arc<V> {
        let kept = owner.clone();
        guard.defer(move || drop(kept));
        // (dropped while no handle is in a call, since what is dropped may call this map)
        while let Some(back) = self.tree.with(|handle| handle.borrow_mut().take_back()) {
            drop(back);
        }
        owner
    }

    /// Returns a guard of the epoch. While the guard lives, the map keeps a count of each removed owner.
    ///
    /// ```
    /// use congee::CongeeArc;
    /// use std::sync::Arc;
    ///
    /// let map = CongeeArc::<usize, String>::new();
    /// let guard = map.pin();
    /// map.insert(7, Arc::new("b".into()), &guard).unwrap();
    /// assert_eq!(map.keys(), [7]);
    /// ```
    pub fn pin(&self) -> epoch::Guard {
        epoch::pin()
    }

    /// Returns whether the map has no pair, by a search for the first pair.
    ///
    /// ```
    /// use congee::CongeeArc;
    /// use std::sync::Arc;
    ///
    /// let map = CongeeArc::<usize, String>::new();
    /// let guard = map.pin();
    /// map.insert(7, Arc::new("b".into()), &guard).unwrap();
    /// assert!(!map.is_empty(&guard));
    /// ```
    pub fn is_empty(&self, _guard: &epoch::Guard) -> bool {
        self.tree.with(|handle| handle.borrow().is_empty())
    }

    /// Returns one more owner of the key's value, or `None` if the key is absent.
    ///
    /// ```
    /// use congee::CongeeArc;
    /// use std::sync::Arc;
    ///
    /// let map = CongeeArc::<usize, String>::new();
    /// let guard = map.pin();
    /// map.insert(7, Arc::new("b".into()), &guard).unwrap();
    /// assert_eq!(map.get(7, &guard).as_deref().map(String::as_str), Some("b"));
    /// ```
    #[doc(alias("find", "index"))]
    #[inline]
    pub fn get(&self, key: K, _guard: &epoch::Guard) -> Option<Arc<V>> {
        self.tree
            .with(|handle| handle.borrow_mut().get_arc(word(key)))
    }

    /// Sets the key's value, and returns the previous owner, or `None` for a new key. Returns [`OOMError`], with the new
    /// owner dropped and no pair changed, if there is no memory.
    ///
    /// ```
    /// use congee::CongeeArc;
    /// use std::sync::Arc;
    ///
    /// let map = CongeeArc::<usize, String>::new();
    /// let guard = map.pin();
    /// map.insert(7, Arc::new("b".into()), &guard).unwrap();
    /// let before = map.insert(7, Arc::new("c".into()), &guard).unwrap();
    /// assert_eq!(*before.unwrap(), "b");
    /// ```
    #[doc(alias("put", "upsert"))]
    pub fn insert(
        &self,
        key: K,
        val: Arc<V>,
        guard: &epoch::Guard,
    ) -> Result<Option<Arc<V>>, OOMError> {
        let made = self.tree.with(|handle| {
            let mut handle = handle.borrow_mut();
            let before = handle.insert(word(key), val)?;
            Ok(before.map(|it| it.to_arc()))
        });
        // (the error has the owner, which is dropped here)
        let before = made.map_err(|_: Refused<Arc<V>, OutOfMemory>| OOMError::new())?;
        Ok(before.map(|it| self.taken_out(it, guard)))
    }

    /// Removes the key, and returns its owner, or `None` if the key was absent.
    ///
    /// ```
    /// use congee::CongeeArc;
    /// use std::sync::Arc;
    ///
    /// let map = CongeeArc::<usize, String>::new();
    /// let guard = map.pin();
    /// map.insert(7, Arc::new("b".into()), &guard).unwrap();
    /// assert_eq!(*map.remove(7, &guard).unwrap(), "b");
    /// assert!(map.get(7, &guard).is_none());
    /// ```
    #[doc(alias = "delete")]
    pub fn remove(&self, key: K, guard: &epoch::Guard) -> Option<Arc<V>> {
        let removed = self.tree.with(|handle| {
            let mut handle = handle.borrow_mut();
            let before = handle.remove(word(key));
            before.map(|it| it.to_arc())
        })?;
        Some(self.taken_out(removed, guard))
    }

    /// Calls the closure with an owner of a present key's value. Stores the owner that the closure returns, or removes the
    /// key for `None`. Returns the owner before, or `None` if the key is absent. The closure is called while nothing is
    /// locked. If another thread changes the key meanwhile, the closure is called again with the new value.
    ///
    /// # Panics
    ///
    /// If there is no memory for the place of a new owner.
    ///
    /// ```
    /// use congee::CongeeArc;
    /// use std::sync::Arc;
    ///
    /// let map = CongeeArc::<usize, String>::new();
    /// let guard = map.pin();
    /// map.insert(7, Arc::new("b".into()), &guard).unwrap();
    /// map.compute_if_present(7, |it| Some(Arc::new(it.to_uppercase())), &guard);
    /// assert_eq!(*map.get(7, &guard).unwrap(), "B");
    /// ```
    #[doc(alias("alter", "and_modify", "compute", "get_mut", "update"))]
    pub fn compute_if_present<F>(&self, key: K, mut f: F, guard: &epoch::Guard) -> Option<Arc<V>>
    where
        F: FnMut(Arc<V>) -> Option<Arc<V>>,
    {
        let key = word(key);
        loop {
            let (current, ticket) = self.tree.with(|handle| {
                let mut handle = handle.borrow_mut();
                let found = handle.get(key)?;
                Some((found.to_arc(), found.ticket()))
            })?;
            let before = match f(current) {
                Some(new) => self.replace(key, ticket, new),
                None => self.tree.with(|handle| {
                    let mut handle = handle.borrow_mut();
                    let removed = handle.compare_remove(key, ticket);
                    removed.map(|it| it.to_arc())
                }),
            };
            if let Some(before) = before {
                return Some(self.taken_out(before, guard));
            }
        }
    }

    /// Replaces the owner that has this ticket, and returns it. None if the key has that ticket no more.
    fn replace(&self, key: u64, ticket: Ticket, new: Arc<V>) -> Option<Arc<V>> {
        let made = self.tree.with(|handle| {
            let mut handle = handle.borrow_mut();
            let before = handle.compare_exchange(key, ticket, new)?;
            Ok(before.map(|it| it.to_arc()))
        });
        made.unwrap_or_else(|refused: Refused<Arc<V>, ExchangeError<OutOfMemory>>| {
            match refused.error() {
                ExchangeError::Other => None,
                ExchangeError::Refused(OutOfMemory) => panic!("there is no memory for an owner"),
            }
        })
    }

    /// Returns all keys, ascending. Each key is read at a moment of the call, and a key that is present throughout the call
    /// is returned.
    ///
    /// ```
    /// use congee::CongeeArc;
    /// use std::sync::Arc;
    ///
    /// let map = CongeeArc::<usize, String>::new();
    /// let guard = map.pin();
    /// map.insert(7, Arc::new("b".into()), &guard).unwrap();
    /// assert_eq!(map.keys(), [7]);
    /// ```
    #[doc(alias = "iter")]
    pub fn keys(&self) -> Vec<K> {
        let keys: Vec<u64> = self.tree.with(|handle| handle.borrow().keys().collect());
        keys.into_iter().map(|it| K::from(it as usize)).collect()
    }
}

impl<K: From<usize> + Copy, V: Sync + Send + 'static> Drop for CongeeArc<K, V>
where
    usize: From<K>,
{
    fn drop(&mut self) {
        // (what other threads' handles took out goes with them)
        self.tree.with(|handle| handle.borrow_mut().clear());
    }
}

impl<K: From<usize> + Copy, V: Sync + Send + 'static> fmt::Debug for CongeeArc<K, V>
where
    usize: From<K>,
{
    fn fmt(&self, f: &mut fmt::Formatter<'_>) -> fmt::Result {
        f.debug_struct("CongeeArc").finish_non_exhaustive()
    }
}
