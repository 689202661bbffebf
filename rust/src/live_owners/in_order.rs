//! The objects of a map in the order of their keys: ends, neighbours, visits and keys, read while others write.

use super::{LiveOwnerGuard, Loan, Pointer};
use crate::pages::{Cursor, Keys, Range, ReadTickets, Source};
use crate::shared::{unless_busy, waiting, Busy};
use crate::sys::*;
use std::borrow::Borrow;
use std::fmt;
use std::iter::FusedIterator;
use std::ops::RangeBounds;
use std::sync::Arc;

// So often a search is made again whose ticket is retired by the time that its object is asked for.
const TRIES: u32 = 1_000;

impl<P: Pointer> ReadTickets for LiveOwnerGuard<P> {
    fn read_tickets(
        &self,
        is_ascending: bool,
        start: u64,
        last: u64,
        buffer: &mut [Pair],
    ) -> usize {
        let read = match is_ascending {
            true => congee_c_live_owners_range_inclusive,
            false => congee_c_live_owners_range_descending,
        };
        let (place, n) = (buffer.as_mut_ptr(), buffer.len());
        waiting(|| {
            let mut written = 0;
            // SAFETY: as of the guard's other calls. The buffer is borrowed as `&mut`, and has room for `n` pairs.
            let code = unsafe { read(&mut self.handle(), start, last, place, n, &mut written) };
            unless_busy(code, |_| written as usize)
        })
    }
}

// SAFETY of the calls below: as that of the guard's other calls.
impl<P: Pointer> LiveOwnerGuard<P> {
    // The object of a ticket, unless it is retired.
    fn lend(&mut self, ticket: u64) -> Option<Lent> {
        let mut owner = 0;
        let code = unsafe { congee_c_live_owners_lend(&mut self.handle(), ticket, &mut owner) };
        (code == 1).then_some(Lent { ticket, owner })
    }

    // The object of a key of a page. A key whose ticket is retired by now is looked up.
    fn lend_at(&mut self, at: Pair) -> Option<Loan<'_, P>> {
        match self.lend(at.value) {
            Some(lent) => Some(Loan { guard: self, lent }),
            None => self.get(at.key),
        }
    }

    // The first key from this one on, or, downwards, from this one down, and its object.
    fn search(&mut self, is_up: bool, from: u64) -> Result<Option<(u64, Lent)>, Busy> {
        let mut at = Pair::default();
        let find = match is_up {
            true => congee_c_live_owners_ceiling,
            false => congee_c_live_owners_floor,
        };
        for _ in 0..TRIES {
            let code = unsafe { find(&mut self.handle(), from, &mut at) };
            if !unless_busy(code, |code| code == 1)? {
                return Ok(None);
            }
            if let Some(lent) = self.lend(at.value) {
                return Ok(Some((at.key, lent)));
            }
        }
        Err(Busy)
    }

    fn pair_of(&mut self, found: Option<(u64, Lent)>) -> Option<(u64, Loan<'_, P>)> {
        found.map(|(key, lent)| (key, Loan { guard: self, lent }))
    }

    /// Returns the least key, and lends the key's object, or returns `None` if the call found no such key. The key had
    /// that object at a moment of the call, and no lesser key was present throughout the call. Takes no lock and no
    /// memory. While other threads are in the way, the call yields and tries again.
    ///
    /// ```
    /// # fn main() -> Result<(), Box<dyn std::error::Error>> {
    /// let mut guard = proved_congee::LiveBoxMap::new()?.pin()?;
    /// for key in [5, 7] {
    ///     guard.insert(key, Box::new(10 * key)).unwrap();
    /// }
    /// let (key, object) = guard.first().unwrap();
    /// assert_eq!((key, *object), (5, 50));
    /// # Ok(())
    /// # }
    /// ```
    #[doc(alias("first_entry", "first_key_value", "min", "peek"))]
    pub fn first(&mut self) -> Option<(u64, Loan<'_, P>)> {
        let found = waiting(|| self.search(true, 0));
        self.pair_of(found)
    }

    /// Returns the least key, and lends the key's object, or returns `None` if the call found no such key. The key had
    /// that object at a moment of the call, and no lesser key was present throughout the call. Takes no lock and no
    /// memory. Doesn't wait: returns [`Busy`] if other threads were in the way at each of a bounded number of tries.
    ///
    /// ```
    /// # fn main() -> Result<(), Box<dyn std::error::Error>> {
    /// let mut guard = proved_congee::LiveBoxMap::new()?.pin()?;
    /// for key in [5, 7] {
    ///     guard.insert(key, Box::new(10 * key)).unwrap();
    /// }
    /// let (key, object) = guard.try_first()?.unwrap();
    /// assert_eq!((key, *object), (5, 50));
    /// # Ok(())
    /// # }
    /// ```
    pub fn try_first(&mut self) -> Result<Option<(u64, Loan<'_, P>)>, Busy> {
        let found = self.search(true, 0)?;
        Ok(self.pair_of(found))
    }

    /// Returns the least key that is at least this one, and lends the key's object, or returns `None` if the call found no
    /// such key. The key had that object at a moment of the call, and no key between the two was present throughout the
    /// call. Takes no lock and no memory. While other threads are in the way, the call yields and tries again.
    ///
    /// ```
    /// # fn main() -> Result<(), Box<dyn std::error::Error>> {
    /// let mut guard = proved_congee::LiveBoxMap::new()?.pin()?;
    /// for key in [5, 7] {
    ///     guard.insert(key, Box::new(10 * key)).unwrap();
    /// }
    /// let (key, object) = guard.ceiling(6).unwrap();
    /// assert_eq!((key, *object), (7, 70));
    /// # Ok(())
    /// # }
    /// ```
    #[doc(alias = "lower_bound")]
    pub fn ceiling(&mut self, key: impl Borrow<u64>) -> Option<(u64, Loan<'_, P>)> {
        let from = *key.borrow();
        let found = waiting(|| self.search(true, from));
        self.pair_of(found)
    }

    /// Returns the least key that is at least this one, and lends the key's object, or returns `None` if the call found no
    /// such key. The key had that object at a moment of the call, and no key between the two was present throughout the
    /// call. Takes no lock and no memory. Doesn't wait: returns [`Busy`] if other threads were in the way at each of a
    /// bounded number of tries.
    ///
    /// ```
    /// # fn main() -> Result<(), Box<dyn std::error::Error>> {
    /// let mut guard = proved_congee::LiveBoxMap::new()?.pin()?;
    /// for key in [5, 7] {
    ///     guard.insert(key, Box::new(10 * key)).unwrap();
    /// }
    /// let (key, object) = guard.try_ceiling(6)?.unwrap();
    /// assert_eq!((key, *object), (7, 70));
    /// # Ok(())
    /// # }
    /// ```
    pub fn try_ceiling(
        &mut self,
        key: impl Borrow<u64>,
    ) -> Result<Option<(u64, Loan<'_, P>)>, Busy> {
        let found = self.search(true, *key.borrow())?;
        Ok(self.pair_of(found))
    }

    /// Returns the least key above this one, and lends the key's object, or returns `None` if the call found no such key.
    /// The key had that object at a moment of the call, and no key between the two was present throughout the call. Takes
    /// no lock and no memory. While other threads are in the way, the call yields and tries again.
    ///
    /// ```
    /// # fn main() -> Result<(), Box<dyn std::error::Error>> {
    /// let mut guard = proved_congee::LiveBoxMap::new()?.pin()?;
    /// for key in [5, 7] {
    ///     guard.insert(key, Box::new(10 * key)).unwrap();
    /// }
    /// let (key, object) = guard.above(5).unwrap();
    /// assert_eq!((key, *object), (7, 70));
    /// # Ok(())
    /// # }
    /// ```
    #[doc(alias("successor", "upper_bound"))]
    pub fn above(&mut self, key: impl Borrow<u64>) -> Option<(u64, Loan<'_, P>)> {
        let from = key.borrow().checked_add(1)?;
        let found = waiting(|| self.search(true, from));
        self.pair_of(found)
    }

    /// Returns the least key above this one, and lends the key's object, or returns `None` if the call found no such key.
    /// The key had that object at a moment of the call, and no key between the two was present throughout the call. Takes
    /// no lock and no memory. Doesn't wait: returns [`Busy`] if other threads were in the way at each of a bounded number
    /// of tries.
    ///
    /// ```
    /// # fn main() -> Result<(), Box<dyn std::error::Error>> {
    /// let mut guard = proved_congee::LiveBoxMap::new()?.pin()?;
    /// for key in [5, 7] {
    ///     guard.insert(key, Box::new(10 * key)).unwrap();
    /// }
    /// let (key, object) = guard.try_above(5)?.unwrap();
    /// assert_eq!((key, *object), (7, 70));
    /// # Ok(())
    /// # }
    /// ```
    pub fn try_above(&mut self, key: impl Borrow<u64>) -> Result<Option<(u64, Loan<'_, P>)>, Busy> {
        let Some(from) = key.borrow().checked_add(1) else {
            return Ok(None);
        };
        let found = self.search(true, from)?;
        Ok(self.pair_of(found))
    }

    /// Returns the greatest key, and lends the key's object, or returns `None` if the call found no such key. The key had
    /// that object at a moment of the call, and no greater key was present throughout the call. Takes no lock and no
    /// memory. While other threads are in the way, the call yields and tries again.
    ///
    /// ```
    /// # fn main() -> Result<(), Box<dyn std::error::Error>> {
    /// let mut guard = proved_congee::LiveBoxMap::new()?.pin()?;
    /// for key in [5, 7] {
    ///     guard.insert(key, Box::new(10 * key)).unwrap();
    /// }
    /// let (key, object) = guard.last().unwrap();
    /// assert_eq!((key, *object), (7, 70));
    /// # Ok(())
    /// # }
    /// ```
    #[doc(alias("last_entry", "last_key_value", "max"))]
    pub fn last(&mut self) -> Option<(u64, Loan<'_, P>)> {
        let found = waiting(|| self.search(false, u64::MAX));
        self.pair_of(found)
    }

    /// Returns the greatest key, and lends the key's object, or returns `None` if the call found no such key. The key had
    /// that object at a moment of the call, and no greater key was present throughout the call. Takes no lock and no
    /// memory. Doesn't wait: returns [`Busy`] if other threads were in the way at each of a bounded number of tries.
    ///
    /// ```
    /// # fn main() -> Result<(), Box<dyn std::error::Error>> {
    /// let mut guard = proved_congee::LiveBoxMap::new()?.pin()?;
    /// for key in [5, 7] {
    ///     guard.insert(key, Box::new(10 * key)).unwrap();
    /// }
    /// let (key, object) = guard.try_last()?.unwrap();
    /// assert_eq!((key, *object), (7, 70));
    /// # Ok(())
    /// # }
    /// ```
    pub fn try_last(&mut self) -> Result<Option<(u64, Loan<'_, P>)>, Busy> {
        let found = self.search(false, u64::MAX)?;
        Ok(self.pair_of(found))
    }

    /// Returns the greatest key that is at most this one, and lends the key's object, or returns `None` if the call found
    /// no such key. The key had that object at a moment of the call, and no key between the two was present throughout the
    /// call. Takes no lock and no memory. While other threads are in the way, the call yields and tries again.
    ///
    /// ```
    /// # fn main() -> Result<(), Box<dyn std::error::Error>> {
    /// let mut guard = proved_congee::LiveBoxMap::new()?.pin()?;
    /// for key in [5, 7] {
    ///     guard.insert(key, Box::new(10 * key)).unwrap();
    /// }
    /// let (key, object) = guard.floor(6).unwrap();
    /// assert_eq!((key, *object), (5, 50));
    /// # Ok(())
    /// # }
    /// ```
    pub fn floor(&mut self, key: impl Borrow<u64>) -> Option<(u64, Loan<'_, P>)> {
        let from = *key.borrow();
        let found = waiting(|| self.search(false, from));
        self.pair_of(found)
    }

    /// Returns the greatest key that is at most this one, and lends the key's object, or returns `None` if the call found
    /// no such key. The key had that object at a moment of the call, and no key between the two was present throughout the
    /// call. Takes no lock and no memory. Doesn't wait: returns [`Busy`] if other threads were in the way at each of a
    /// bounded number of tries.
    ///
    /// ```
    /// # fn main() -> Result<(), Box<dyn std::error::Error>> {
    /// let mut guard = proved_congee::LiveBoxMap::new()?.pin()?;
    /// for key in [5, 7] {
    ///     guard.insert(key, Box::new(10 * key)).unwrap();
    /// }
    /// let (key, object) = guard.try_floor(6)?.unwrap();
    /// assert_eq!((key, *object), (5, 50));
    /// # Ok(())
    /// # }
    /// ```
    pub fn try_floor(&mut self, key: impl Borrow<u64>) -> Result<Option<(u64, Loan<'_, P>)>, Busy> {
        let found = self.search(false, *key.borrow())?;
        Ok(self.pair_of(found))
    }

    /// Returns the greatest key below this one, and lends the key's object, or returns `None` if the call found no such
    /// key. The key had that object at a moment of the call, and no key between the two was present throughout the call.
    /// Takes no lock and no memory. While other threads are in the way, the call yields and tries again.
    ///
    /// ```
    /// # fn main() -> Result<(), Box<dyn std::error::Error>> {
    /// let mut guard = proved_congee::LiveBoxMap::new()?.pin()?;
    /// for key in [5, 7] {
    ///     guard.insert(key, Box::new(10 * key)).unwrap();
    /// }
    /// let (key, object) = guard.below(7).unwrap();
    /// assert_eq!((key, *object), (5, 50));
    /// # Ok(())
    /// # }
    /// ```
    #[doc(alias = "predecessor")]
    pub fn below(&mut self, key: impl Borrow<u64>) -> Option<(u64, Loan<'_, P>)> {
        let from = key.borrow().checked_sub(1)?;
        let found = waiting(|| self.search(false, from));
        self.pair_of(found)
    }

    /// Returns the greatest key below this one, and lends the key's object, or returns `None` if the call found no such
    /// key. The key had that object at a moment of the call, and no key between the two was present throughout the call.
    /// Takes no lock and no memory. Doesn't wait: returns [`Busy`] if other threads were in the way at each of a bounded
    /// number of tries.
    ///
    /// ```
    /// # fn main() -> Result<(), Box<dyn std::error::Error>> {
    /// let mut guard = proved_congee::LiveBoxMap::new()?.pin()?;
    /// for key in [5, 7] {
    ///     guard.insert(key, Box::new(10 * key)).unwrap();
    /// }
    /// let (key, object) = guard.try_below(7)?.unwrap();
    /// assert_eq!((key, *object), (5, 50));
    /// # Ok(())
    /// # }
    /// ```
    pub fn try_below(&mut self, key: impl Borrow<u64>) -> Result<Option<(u64, Loan<'_, P>)>, Busy> {
        let Some(from) = key.borrow().checked_sub(1) else {
            return Ok(None);
        };
        let found = self.search(false, from)?;
        Ok(self.pair_of(found))
    }

    /// Calls the closure with each key within the bounds, keys ascending, and the key's object. Each key is read at a
    /// moment of its own, and each key that is present throughout the call is among them. Other keys may be among them,
    /// too. The object is lent while the closure runs, and nothing is locked. The keys are read in pages of 4, and later
    /// up to 256. While other threads are in the way, the call yields and tries again. Takes 4 KB of memory for pages of
    /// 256, and reads smaller ones without it.
    ///
    /// ```
    /// # fn main() -> Result<(), Box<dyn std::error::Error>> {
    /// let mut guard = proved_congee::LiveBoxMap::new()?.pin()?;
    /// for key in [5, 7, 9] {
    ///     guard.insert(key, Box::new(10 * key)).unwrap();
    /// }
    /// let mut seen = Vec::new();
    /// guard.for_each(6.., |key, object| seen.push((key, *object)));
    /// assert_eq!(seen, [(7, 70), (9, 90)]);
    /// # Ok(())
    /// # }
    /// ```
    #[doc(alias("iter", "range"))]
    pub fn for_each(&mut self, bounds: impl RangeBounds<u64>, mut f: impl FnMut(u64, &P::Target)) {
        let mut cursor = Cursor::of(bounds);
        while let Some(at) = cursor.next(Source::Tickets(self)) {
            if let Some(loan) = self.lend_at(at) {
                f(at.key, &loan);
            }
        }
    }

    /// Calls the closure with each key within the bounds, keys descending, and the key's object. Each key is read at a
    /// moment of its own, and each key that is present throughout the call is among them. Other keys may be among them,
    /// too. The object is lent while the closure runs, and nothing is locked. The keys are read in pages of 4, and later
    /// up to 256. While other threads are in the way, the call yields and tries again. Takes 4 KB of memory for pages of
    /// 256, and reads smaller ones without it.
    ///
    /// ```
    /// # fn main() -> Result<(), Box<dyn std::error::Error>> {
    /// let mut guard = proved_congee::LiveBoxMap::new()?.pin()?;
    /// for key in [5, 7, 9] {
    ///     guard.insert(key, Box::new(10 * key)).unwrap();
    /// }
    /// let mut seen = Vec::new();
    /// guard.for_each_descending(..9, |key, object| seen.push((key, *object)));
    /// assert_eq!(seen, [(7, 70), (5, 50)]);
    /// # Ok(())
    /// # }
    /// ```
    #[doc(alias("iter", "range", "rev"))]
    pub fn for_each_descending(
        &mut self,
        bounds: impl RangeBounds<u64>,
        mut f: impl FnMut(u64, &P::Target),
    ) {
        let mut cursor = Cursor::of(bounds);
        while let Some(at) = cursor.next_back(Source::Tickets(self)) {
            if let Some(loan) = self.lend_at(at) {
                f(at.key, &loan);
            }
        }
    }

    /// Returns all keys, ascending, from either end. The keys are read in pages of 4, and later up to 256. A key that is
    /// present throughout the iteration is returned. While other threads are in the way, the iterator yields and tries
    /// again.
    ///
    /// ```
    /// # fn main() -> Result<(), Box<dyn std::error::Error>> {
    /// let mut guard = proved_congee::LiveBoxMap::new()?.pin()?;
    /// for key in [5, 7, 9] {
    ///     guard.insert(key, Box::new(())).unwrap();
    /// }
    /// assert!(guard.keys().eq([5, 7, 9]));
    /// assert!(guard.keys().rev().eq([9, 7, 5]));
    /// # Ok(())
    /// # }
    /// ```
    pub fn keys(&self) -> Keys<'_> {
        Keys {
            of: Range::of(Source::Tickets(self), ..),
        }
    }

    /// Returns how many keys the map has. The number is exact where no other thread writes. Otherwise each key was counted
    /// or not, as it was at a moment of the call. Reads all nodes that have objects. While other threads are in the way,
    /// the call yields and tries again.
    ///
    /// ```
    /// # fn main() -> Result<(), Box<dyn std::error::Error>> {
    /// let mut guard = proved_congee::LiveBoxMap::new()?.pin()?;
    /// guard.insert(7, Box::new(70)).unwrap();
    /// assert_eq!(guard.len(), 1);
    /// # Ok(())
    /// # }
    /// ```
    #[doc(alias("count", "size", "value_count"))]
    pub fn len(&self) -> u64 {
        waiting(|| self.try_len())
    }

    /// Returns how many keys the map has. The number is exact where no other thread writes. Otherwise each key was counted
    /// or not, as it was at a moment of the call. Reads all nodes that have objects. Doesn't wait: returns [`Busy`] if
    /// other threads were in the way at each of a bounded number of tries.
    ///
    /// ```
    /// # fn main() -> Result<(), Box<dyn std::error::Error>> {
    /// assert_eq!(proved_congee::LiveArcMap::<u64>::new()?.pin()?.try_len()?, 0);
    /// # Ok(())
    /// # }
    /// ```
    pub fn try_len(&self) -> Result<u64, Busy> {
        let mut count = 0;
        let code = unsafe { congee_c_live_owners_count(&mut self.handle(), &mut count) };
        unless_busy(code, |_| count)
    }

    /// Returns whether the map has no key, by a search for the first key. If the call returns true, no key was present
    /// throughout the call. While other threads are in the way, the call yields and tries again.
    ///
    /// ```
    /// # fn main() -> Result<(), Box<dyn std::error::Error>> {
    /// let mut guard = proved_congee::LiveBoxMap::new()?.pin()?;
    /// assert!(guard.is_empty());
    /// guard.insert(7, Box::new(70)).unwrap();
    /// assert!(!guard.is_empty());
    /// # Ok(())
    /// # }
    /// ```
    pub fn is_empty(&self) -> bool {
        let mut page = [Pair::default()];
        self.read_tickets(true, 0, u64::MAX, &mut page) == 0
    }
}

impl<T: 'static> LiveOwnerGuard<Arc<T>> {
    /// Returns an iterator over the keys within the bounds and a further `Arc` of each object, keys ascending, from either
    /// end. Each key is read at a moment of its own, and each key that is present throughout the iteration is returned.
    /// The keys are read in pages of 4, and later up to 256. While other threads are in the way, the iterator yields and
    /// tries again.
    ///
    /// ```
    /// use std::sync::Arc;
    ///
    /// # fn main() -> Result<(), Box<dyn std::error::Error>> {
    /// let mut guard = proved_congee::LiveArcMap::new()?.pin()?;
    /// for key in [5, 7, 9] {
    ///     guard.insert(key, Arc::new(10 * key)).unwrap();
    /// }
    /// let all: Vec<(u64, Arc<u64>)> = guard.range(..8).collect();
    /// assert_eq!(all, [(5, Arc::new(50)), (7, Arc::new(70))]);
    /// assert_eq!(guard.range(..).next_back(), Some((9, Arc::new(90))));
    /// # Ok(())
    /// # }
    /// ```
    #[doc(alias("cursor", "range_mut", "scan"))]
    pub fn range(&mut self, bounds: impl RangeBounds<u64>) -> Arcs<'_, T> {
        Arcs {
            guard: self,
            cursor: Cursor::of(bounds),
        }
    }
}

/// The keys of a range and a further `Arc` of each object, keys ascending, from either end. The library's ranges beneath are
/// proved, and the iterator is tested.
///
/// ```
/// use std::sync::Arc;
///
/// # fn main() -> Result<(), Box<dyn std::error::Error>> {
/// let mut guard = proved_congee::LiveArcMap::new()?.pin()?;
/// guard.insert(7, Arc::new(70)).unwrap();
/// let mut all: proved_congee::Arcs<u64> = guard.range(..);
/// assert_eq!((all.next(), all.next()), (Some((7, Arc::new(70))), None));
/// # Ok(())
/// # }
/// ```
pub struct Arcs<'a, T: 'static> {
    guard: &'a mut LiveOwnerGuard<Arc<T>>,
    cursor: Cursor,
}

impl<T: 'static> Iterator for Arcs<'_, T> {
    type Item = (u64, Arc<T>);

    fn next(&mut self) -> Option<(u64, Arc<T>)> {
        loop {
            let at = self.cursor.next(Source::Tickets(self.guard))?;
            if let Some(loan) = self.guard.lend_at(at) {
                return Some((at.key, loan.to_arc()));
            }
        }
    }
}

impl<T: 'static> DoubleEndedIterator for Arcs<'_, T> {
    fn next_back(&mut self) -> Option<(u64, Arc<T>)> {
        loop {
            let at = self.cursor.next_back(Source::Tickets(self.guard))?;
            if let Some(loan) = self.guard.lend_at(at) {
                return Some((at.key, loan.to_arc()));
            }
        }
    }
}

impl<T: 'static> FusedIterator for Arcs<'_, T> {}

impl<T: 'static> fmt::Debug for Arcs<'_, T> {
    fn fmt(&self, f: &mut fmt::Formatter<'_>) -> fmt::Result {
        f.debug_struct("Arcs").finish_non_exhaustive()
    }
}
