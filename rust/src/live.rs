//! A map that threads read without a lock.

use crate::loops;
use crate::map::{as_length, if_expected, ExtendError};
use crate::owner::Owner;
use crate::pages::{ends, Keys, Range, Values};
use crate::shared::{if_made, next_map, unless_busy, waiting, waiting_for_memory, Busy, TryError};
use crate::sys::*;
use crate::{Map, OutOfMemory, Pair};
use std::borrow::Borrow;
use std::fmt;
use std::ops::RangeBounds;

/// A map that threads share, each by a [`LiveGuard`] of its own, and read without a lock. A look-up writes nothing that
/// other threads read. A writer locks one or two nodes at a time. An empty node leaves the tree, and is used again. For
/// consistent pages, and for pops and counts of one moment, take a [`SharedMap`](crate::SharedMap). Its guards have the
/// same calls, and `docs/LIVE.md` lists what differs.
///
/// Proved of the library beneath: calls of one key are *sequentially consistent*. Each guard has seen a legal history of
/// the map, which explains the guard's replies and has its own calls in their order. Guards that [meet](LiveGuard::meet),
/// or hand over a [note](LiveGuard::note), are in order of time from then on. A call also comes after all calls that had
/// ended before, by whatever guard. For guards that never met, only tests show that. Ranges, next pairs and counts are in
/// the history by their beginning alone: each key has its value at a moment after that. A pop is in the history by the
/// beginning of each search, and by the removal of the found pair. Each pair of a removed range is in the history as by a
/// pop. This wrapper is tested, as are iterators and calls with closures, which make several calls of the library.
///
/// ```
/// use proved_congee::LiveMap;
/// use std::thread;
///
/// # fn main() -> Result<(), proved_congee::OutOfMemory> {
/// let squares = LiveMap::new()?;
/// thread::scope(|scope| {
///     for first in 0..4 {
///         let squares = squares.pin()?;
///         scope.spawn(move || {
///             for number in (first..1000).step_by(4) {
///                 squares.insert(number, number * number).unwrap();
///             }
///         });
///     }
///     Ok::<(), proved_congee::OutOfMemory>(())
/// })?;
/// assert_eq!(squares.pin()?.get(30), Some(900));
/// # Ok(())
/// # }
/// ```
///
/// A clone is one more owner of the same map, as a clone of an `Arc` is. It takes no memory, and waits for nobody.
#[doc(alias("concurrent", "lock_free"))]
#[derive(Clone, Debug)]
pub struct LiveMap {
    // (the library takes a guard as its own, also where it makes another)
    first: Owner<LiveGuard>,
}

impl LiveMap {
    /// Makes an empty map without a limit. The first segment takes 4,096 bytes. Returns [`OutOfMemory`] if there is no
    /// memory.
    ///
    /// ```
    /// # fn main() -> Result<(), proved_congee::OutOfMemory> {
    /// assert_eq!(proved_congee::LiveMap::new()?.pin()?.get(7), None);
    /// # Ok(())
    /// # }
    /// ```
    #[doc(alias = "default")]
    pub fn new() -> Result<LiveMap, OutOfMemory> {
        LiveMap::with_limit(u64::MAX)
    }

    /// Makes an empty map whose nodes take at most so many bytes together. Returns [`OutOfMemory`] if there is no memory,
    /// or the limit is below the first segment.
    ///
    /// Nodes lie in segments. The first 32 have 4,096 bytes each, the next 32 twice as many, and so on up to 524,288. Each
    /// guard that inserts owns a segment, and a later guard gets what a dropped guard left of one. A call that needs a
    /// segment beyond the limit is out of memory, and changes no pair. A call that needs no new node goes on as before.
    /// Nodes that removals took out are used again for nodes of their size.
    ///
    /// ```
    /// use proved_congee::{LiveMap, OutOfMemory};
    ///
    /// let map = LiveMap::with_limit(1_000_000).unwrap();
    /// let guard = map.pin().unwrap();
    /// let stored = (0..1 << 20).take_while(|i| guard.insert(i << 20, *i).is_ok()).count() as u64;
    /// assert!((1_000..100_000).contains(&stored));
    /// assert!(map.charged() <= map.limit());
    /// // (what is there can be read, replaced and removed, and a removal makes room)
    /// assert_eq!(guard.get(7 << 20), Some(7));
    /// assert_eq!(guard.insert(7 << 20, 8), Ok(Some(7)));
    /// assert_eq!(guard.insert(stored << 20, 1), Err(OutOfMemory));
    /// assert_eq!(guard.remove(7 << 20), Some(8));
    /// assert_eq!(guard.insert(7 << 20, 9), Ok(None));
    /// assert!(LiveMap::with_limit(4_095).is_err());
    /// ```
    #[doc(alias("capacity", "with_capacity"))]
    pub fn with_limit(bytes: u64) -> Result<LiveMap, OutOfMemory> {
        let mut made = LiveHandle::none();
        match unsafe { congee_c_live_new(bytes, &mut made) } {
            0 => Ok(LiveMap {
                first: Owner::new(LiveGuard {
                    guard: made.guard,
                    map: next_map(),
                })?,
            }),
            _ => Err(OutOfMemory),
        }
    }

    /// Returns the limit in bytes that the map was made with, or `u64::MAX` for none. Waits while another thread makes a
    /// guard.
    ///
    /// ```
    /// # fn main() -> Result<(), proved_congee::OutOfMemory> {
    /// assert_eq!(proved_congee::LiveMap::with_limit(10_000)?.limit(), 10_000);
    /// assert_eq!(proved_congee::LiveMap::new()?.limit(), u64::MAX);
    /// # Ok(())
    /// # }
    /// ```
    pub fn limit(&self) -> u64 {
        self.first.first().limit()
    }

    /// Returns the bytes of all segments that the map has so far, in constant time. Waits while another thread makes a
    /// guard.
    ///
    /// ```
    /// # fn main() -> Result<(), proved_congee::OutOfMemory> {
    /// let map = proved_congee::LiveMap::new()?;
    /// assert_eq!(map.charged(), 4_096);
    /// map.pin()?.insert(7, 70)?;
    /// assert_eq!(map.charged(), 2 * 4_096);
    /// # Ok(())
    /// # }
    /// ```
    #[doc(alias("bytes", "memory_usage", "stats"))]
    pub fn charged(&self) -> u64 {
        self.first.first().charged()
    }

    /// Returns the bytes of all segments that the map has so far, and the limit, in constant time. The bytes are at most
    /// the limit, which is proved. Waits while another thread makes a guard.
    ///
    /// ```
    /// # fn main() -> Result<(), proved_congee::OutOfMemory> {
    /// let map = proved_congee::LiveMap::with_limit(10_000)?;
    /// assert_eq!(map.usage(), (4_096, 10_000));
    /// # Ok(())
    /// # }
    /// ```
    pub fn usage(&self) -> (u64, u64) {
        self.first.first().usage()
    }

    /// Makes a guard, by which one thread at a time calls the map. A guard may go to another thread, and may outlive this
    /// value. A guard takes a small block, so keep it for many calls. A guard that has inserted owns free nodes of a
    /// segment at most, which a later guard gets once the guard is dropped. Waits while another thread makes one. Returns
    /// [`OutOfMemory`] if there is no memory for a guard.
    ///
    /// ```
    /// # fn main() -> Result<(), proved_congee::OutOfMemory> {
    /// let map = proved_congee::LiveMap::new()?;
    /// let (one, other) = (map.pin()?, map.pin()?);
    /// one.insert(7, 70)?;
    /// assert_eq!(other.get(7), Some(70));
    /// # Ok(())
    /// # }
    /// ```
    #[doc(alias("epoch", "handle"))]
    pub fn pin(&self) -> Result<LiveGuard, OutOfMemory> {
        self.first.first().try_clone()
    }
}

/// One caller of a [`LiveMap`]: a thread's at a time. With the last guard of a map, and its `LiveMap`, the map is freed.
///
/// A call without `try_` waits while writers lock or change the nodes that it needs: it yields (`std::thread::yield_now`)
/// and tries again. The form with `try_` doesn't wait, and returns [`Busy`]. Calls that change many pairs, or call a
/// closure, have the first form alone.
///
/// Proved of the library beneath: the guard's replies fit one legal history of the map, as [`LiveMap`] has it. A call of
/// one key that is busy is not in the history, and an insertion that is out of memory is in the history as a look-up that
/// found no value. Calls that make several calls of the library are tested, and each of those calls is in the history.
///
/// A thread that is stopped inside a call that writes keeps the nodes that it has locked busy, and no others. A thread that
/// is cancelled there, which takes code beside Rust, leaves them locked for ever. So does a fork inside another thread's
/// call, in the child.
///
/// ```
/// use proved_congee::LiveMap;
///
/// # fn main() -> Result<(), proved_congee::OutOfMemory> {
/// let map = LiveMap::new()?;
/// let (writer, reader) = (map.pin()?, map.pin()?);
/// writer.insert(7, 70)?;
/// assert_eq!(reader.get(7), Some(70));
/// # Ok(())
/// # }
/// ```
pub struct LiveGuard {
    guard: *mut OneLiveGuardForEachThread,
    // (which map it is of)
    map: u64,
}

// SAFETY: the library proves that a handle may go to another thread (`unsafe impl Send` of its handle).
unsafe impl Send for LiveGuard {}

/// A note of the history that a [`LiveGuard`] had seen, for a guard on another thread to learn ([`LiveGuard::note`]).
///
/// ```
/// fn goes_to_another_thread<T: Send>() {}
/// goes_to_another_thread::<proved_congee::LiveNote>();
/// ```
#[derive(Debug)]
pub struct LiveNote {
    guard: LiveGuard,
}

// SAFETY of the calls below. The address is one that the library returned and that `drop` hasn't freed. No other call is
// made by it meanwhile: a `LiveGuard` isn't `Sync`, so no two threads are in a call on it, and the library calls nothing
// back. The handle and each place that the library writes to are locals or borrowed as `&mut`, and initialised.
impl LiveGuard {
    fn handle(&self) -> LiveHandle {
        LiveHandle { guard: self.guard }
    }

    /// Makes one more guard of the same map, which begins with the history that this guard has seen. Takes a small block.
    /// Returns [`OutOfMemory`], with nothing changed, if there is no memory for one.
    ///
    /// ```
    /// # fn main() -> Result<(), proved_congee::OutOfMemory> {
    /// let guard = proved_congee::LiveMap::new()?.pin()?;
    /// guard.insert(7, 70)?;
    /// assert_eq!(guard.try_clone()?.get(7), Some(70));
    /// # Ok(())
    /// # }
    /// ```
    #[doc(alias = "clone")]
    pub fn try_clone(&self) -> Result<LiveGuard, OutOfMemory> {
        let mut made = LiveHandle::none();
        match unsafe { congee_c_live_another(&mut self.handle(), &mut made) } {
            0 => Ok(LiveGuard {
                guard: made.guard,
                map: self.map,
            }),
            _ => Err(OutOfMemory),
        }
    }

    /// Returns the limit in bytes that the map was made with, or `u64::MAX` for none.
    ///
    /// ```
    /// # fn main() -> Result<(), proved_congee::OutOfMemory> {
    /// assert_eq!(proved_congee::LiveMap::with_limit(10_000)?.pin()?.limit(), 10_000);
    /// # Ok(())
    /// # }
    /// ```
    pub fn limit(&self) -> u64 {
        unsafe { congee_c_live_limit(&mut self.handle()) }
    }

    /// Returns the bytes of all segments that the map has so far, in constant time.
    ///
    /// ```
    /// # fn main() -> Result<(), proved_congee::OutOfMemory> {
    /// assert_eq!(proved_congee::LiveMap::new()?.pin()?.charged(), 4_096);
    /// # Ok(())
    /// # }
    /// ```
    #[doc(alias("bytes", "memory_usage", "stats"))]
    pub fn charged(&self) -> u64 {
        unsafe { congee_c_live_charged(&mut self.handle()) }
    }

    /// Returns the bytes of all segments that the map has so far, and the limit, in constant time. The bytes are at most
    /// the limit, which is proved.
    ///
    /// ```
    /// # fn main() -> Result<(), proved_congee::OutOfMemory> {
    /// let guard = proved_congee::LiveMap::with_limit(30_000)?.pin()?;
    /// guard.insert(7, 70)?;
    /// assert_eq!(guard.usage(), (2 * 4_096, 30_000));
    /// # Ok(())
    /// # }
    /// ```
    pub fn usage(&self) -> (u64, u64) {
        let (mut charged, mut limit) = (0, 0);
        unsafe { congee_c_live_usage(&mut self.handle(), &mut charged, &mut limit) };
        (charged, limit)
    }

    /// Orders two guards of one map in time: calls that either guard had made, or had learned of, come before all later
    /// calls of both. Both guards have then seen one history. A guard may meet itself, without effect. Never fails, and
    /// takes no lock and no memory.
    ///
    /// # Panics
    ///
    /// If the guards are of two maps.
    ///
    /// ```
    /// # fn main() -> Result<(), proved_congee::OutOfMemory> {
    /// let map = proved_congee::LiveMap::new()?;
    /// let (one, other) = (map.pin()?, map.pin()?);
    /// one.insert(7, 70)?;
    /// one.meet(&other);
    /// // (also a page of the other one is of no moment before the insertion)
    /// assert_eq!(other.first(), Some((7, 70)));
    /// # Ok(())
    /// # }
    /// ```
    pub fn meet(&self, other: &LiveGuard) {
        assert_eq!(self.map, other.map, "guards of two maps don't meet");
        if self.guard != other.guard {
            unsafe { congee_c_live_meet(&mut self.handle(), &mut other.handle()) }
        }
    }

    /// Makes a note of the history that the guard has seen, for a guard on another thread. All calls that this guard has
    /// made come before the calls that a guard makes once it has [learned](LiveGuard::learn) the note. Takes a small block.
    /// The map lasts as long as its last note. Returns [`OutOfMemory`] if there is no memory for a note.
    ///
    /// ```
    /// use proved_congee::LiveMap;
    /// use std::thread;
    ///
    /// # fn main() -> Result<(), proved_congee::OutOfMemory> {
    /// let map = LiveMap::new()?;
    /// let guard = map.pin()?;
    /// let other = map.pin()?;
    /// let note = thread::spawn(move || {
    ///     other.insert(7, 70)?;
    ///     other.note()
    /// })
    /// .join()
    /// .unwrap()?;
    /// guard.learn(&note);
    /// assert_eq!(guard.first(), Some((7, 70)));
    /// # Ok(())
    /// # }
    /// ```
    pub fn note(&self) -> Result<LiveNote, OutOfMemory> {
        let mut made = LiveHandle::none();
        match unsafe { congee_c_live_note(&mut self.handle(), &mut made) } {
            0 => Ok(LiveNote {
                guard: LiveGuard {
                    guard: made.guard,
                    map: self.map,
                },
            }),
            _ => Err(OutOfMemory),
        }
    }

    /// Orders the guard after a note: all calls that the note has seen come before the guard's later calls. The guard and
    /// the note have then seen one history.
    ///
    /// # Panics
    ///
    /// If the note is of another map.
    ///
    /// ```
    /// # fn main() -> Result<(), proved_congee::OutOfMemory> {
    /// let map = proved_congee::LiveMap::new()?;
    /// let (one, other) = (map.pin()?, map.pin()?);
    /// one.insert(7, 70)?;
    /// other.learn(&one.note()?);
    /// assert_eq!(other.len(), 1);
    /// # Ok(())
    /// # }
    /// ```
    pub fn learn(&self, note: &LiveNote) {
        self.meet(&note.guard);
    }

    /// Returns the value at the key, or `None` if the key is absent. Takes no lock and no memory. While writers lock or
    /// change the key's nodes, the call yields and tries again.
    ///
    /// ```
    /// # fn main() -> Result<(), proved_congee::OutOfMemory> {
    /// let guard = proved_congee::LiveMap::new()?.pin()?;
    /// guard.insert(7, 70)?;
    /// assert_eq!((guard.get(7), guard.get(&8)), (Some(70), None));
    /// # Ok(())
    /// # }
    /// ```
    #[doc(alias("find", "index", "view"))]
    pub fn get(&self, key: impl Borrow<u64>) -> Option<u64> {
        let key = *key.borrow();
        waiting(|| self.try_get(key))
    }

    /// Returns the value at the key, or `None` if the key is absent. Takes no lock and no memory. Doesn't wait: returns
    /// [`Busy`], with nothing changed, if writers locked or changed the key's nodes at each of a bounded number of tries.
    ///
    /// ```
    /// # fn main() -> Result<(), Box<dyn std::error::Error>> {
    /// let guard = proved_congee::LiveMap::new()?.pin()?;
    /// guard.insert(7, 70)?;
    /// assert_eq!(guard.try_get(7)?, Some(70));
    /// # Ok(())
    /// # }
    /// ```
    pub fn try_get(&self, key: impl Borrow<u64>) -> Result<Option<u64>, Busy> {
        let mut value = 0;
        let code = unsafe { congee_c_live_get(&mut self.handle(), *key.borrow(), &mut value) };
        unless_busy(code, |code| (code == 1).then_some(value))
    }

    /// Returns whether the map has the key. Takes no lock and no memory. While writers lock or change the key's nodes, the
    /// call yields and tries again.
    ///
    /// ```
    /// # fn main() -> Result<(), proved_congee::OutOfMemory> {
    /// let guard = proved_congee::LiveMap::new()?.pin()?;
    /// guard.insert(7, 70)?;
    /// assert!(guard.contains_key(7) && !guard.contains_key(8));
    /// # Ok(())
    /// # }
    /// ```
    #[doc(alias = "contains")]
    pub fn contains_key(&self, key: impl Borrow<u64>) -> bool {
        self.get(key).is_some()
    }

    /// Sets the key's value, and returns the previous value, or `None` for a new key. While writers lock or change the
    /// key's nodes, the call yields and tries again. Returns [`OutOfMemory`], with no pair changed, only for an absent key,
    /// if there is no memory or the limit is reached.
    ///
    /// ```
    /// # fn main() -> Result<(), proved_congee::OutOfMemory> {
    /// let guard = proved_congee::LiveMap::new()?.pin()?;
    /// assert_eq!(guard.insert(7, 70)?, None);
    /// assert_eq!(guard.insert(7, 71)?, Some(70));
    /// # Ok(())
    /// # }
    /// ```
    #[doc(alias("put", "upsert"))]
    pub fn insert(&self, key: u64, value: u64) -> Result<Option<u64>, OutOfMemory> {
        waiting_for_memory(|| self.try_insert(key, value))
    }

    /// Sets the key's value, and returns the previous value, or `None` for a new key. Doesn't wait: returns
    /// [`TryError::Busy`], with nothing changed, if writers locked or changed the key's nodes at each of a bounded number
    /// of tries. Returns [`TryError::OutOfMemory`], with no pair changed, only for an absent key, if there is no memory or
    /// the limit is reached.
    ///
    /// ```
    /// # fn main() -> Result<(), Box<dyn std::error::Error>> {
    /// let guard = proved_congee::LiveMap::new()?.pin()?;
    /// assert_eq!(guard.try_insert(7, 70)?, None);
    /// # Ok(())
    /// # }
    /// ```
    pub fn try_insert(&self, key: u64, value: u64) -> Result<Option<u64>, TryError> {
        let mut before = 0;
        let code = unsafe { congee_c_live_insert(&mut self.handle(), key, value, &mut before) };
        if_made(code, before)
    }

    /// Inserts the pairs one by one, and waits where [`insert`](LiveGuard::insert) waits. Other calls come in between. The
    /// first refused pair ends the call, and the pairs before are in the map. The error has their number and the refused
    /// pair.
    ///
    /// ```
    /// # fn main() -> Result<(), Box<dyn std::error::Error>> {
    /// let guard = proved_congee::LiveMap::new()?.pin()?;
    /// guard.extend([(5, 50), (7, 70), (9, 90)])?;
    /// assert!(guard.iter().eq([(5, 50), (7, 70), (9, 90)]));
    /// # Ok(())
    /// # }
    /// ```
    #[doc(alias = "insert_many")]
    pub fn extend(&self, pairs: impl IntoIterator<Item = (u64, u64)>) -> Result<(), ExtendError> {
        loops::extend(self, pairs)
    }

    /// Inserts the value if the key is absent, and returns the key's value after the call.
    /// [`insert_absent`](LiveGuard::insert_absent) also reports who inserted the value. A present key takes no lock. While
    /// writers lock or change the key's nodes, the call yields and tries again. Returns [`OutOfMemory`], with no pair
    /// changed, only for an absent key, if there is no memory or the limit is reached.
    ///
    /// ```
    /// # fn main() -> Result<(), proved_congee::OutOfMemory> {
    /// let guard = proved_congee::LiveMap::new()?.pin()?;
    /// assert_eq!(guard.get_or_insert(7, 70)?, 70);
    /// assert_eq!(guard.get_or_insert(7, 71)?, 70);
    /// # Ok(())
    /// # }
    /// ```
    #[doc(alias("entry", "or_default", "or_insert"))]
    pub fn get_or_insert(&self, key: u64, value: u64) -> Result<u64, OutOfMemory> {
        waiting_for_memory(|| self.try_get_or_insert(key, value))
    }

    /// Inserts the value if the key is absent, and returns the key's value after the call.
    /// [`insert_absent`](LiveGuard::insert_absent) also reports who inserted the value. A present key takes no lock.
    /// Doesn't wait: returns [`TryError::Busy`], with nothing changed, if writers locked or changed the key's nodes at each
    /// of a bounded number of tries. Returns [`TryError::OutOfMemory`], with no pair changed, only for an absent key, if
    /// there is no memory or the limit is reached.
    ///
    /// ```
    /// # fn main() -> Result<(), Box<dyn std::error::Error>> {
    /// let guard = proved_congee::LiveMap::new()?.pin()?;
    /// assert_eq!(guard.try_get_or_insert(7, 70)?, 70);
    /// # Ok(())
    /// # }
    /// ```
    pub fn try_get_or_insert(&self, key: u64, value: u64) -> Result<u64, TryError> {
        Ok(self.try_insert_absent(key, value)?.unwrap_or(value))
    }

    /// Inserts the value if the key is absent, and returns `None`. Otherwise changes nothing, and returns the present
    /// value. Of threads that claim one key at once, one gets `None`. A present key takes no lock. While writers lock or
    /// change the key's nodes, the call yields and tries again. Returns [`OutOfMemory`], with no pair changed, only for an
    /// absent key, if there is no memory or the limit is reached.
    ///
    /// ```
    /// use proved_congee::LiveMap;
    /// use std::thread;
    ///
    /// # fn main() -> Result<(), proved_congee::OutOfMemory> {
    /// let jobs = LiveMap::new()?;
    /// let guards = [jobs.pin()?, jobs.pin()?];
    /// let claims = guards.map(|guard| thread::spawn(move || guard.insert_absent(7, 70)));
    /// let answers = claims.map(|claim| claim.join().unwrap());
    /// assert_eq!(answers.iter().filter(|it| **it == Ok(None)).count(), 1);
    /// assert_eq!(jobs.pin()?.insert_absent(7, 71)?, Some(70));
    /// # Ok(())
    /// # }
    /// ```
    #[doc(alias("insert_if_absent", "try_insert"))]
    pub fn insert_absent(&self, key: u64, value: u64) -> Result<Option<u64>, OutOfMemory> {
        waiting_for_memory(|| self.try_insert_absent(key, value))
    }

    /// Inserts the value if the key is absent, and returns `None`. Otherwise changes nothing, and returns the present
    /// value. Of threads that claim one key at once, one gets `None`. A present key takes no lock. Doesn't wait: returns
    /// [`TryError::Busy`], with nothing changed, if writers locked or changed the key's nodes at each of a bounded number
    /// of tries. Returns [`TryError::OutOfMemory`], with no pair changed, only for an absent key, if there is no memory or
    /// the limit is reached.
    ///
    /// ```
    /// # fn main() -> Result<(), Box<dyn std::error::Error>> {
    /// let guard = proved_congee::LiveMap::new()?.pin()?;
    /// assert_eq!(guard.try_insert_absent(7, 70)?, None);
    /// assert_eq!(guard.try_insert_absent(7, 71)?, Some(70));
    /// # Ok(())
    /// # }
    /// ```
    pub fn try_insert_absent(&self, key: u64, value: u64) -> Result<Option<u64>, TryError> {
        let mut found = 0;
        let code =
            unsafe { congee_c_live_get_or_insert(&mut self.handle(), key, value, &mut found) };
        if_made(code, found)
    }

    /// Returns the key's value. For an absent key the closure is called once, and its value is inserted and returned,
    /// unless another call inserts the key meanwhile: then that call's value is returned. The closure is called while
    /// nothing is locked, so it may take long, or call the map. While writers lock or change the key's nodes, the call
    /// yields and tries again. Returns [`OutOfMemory`], with no pair changed, only for an absent key, if there is no memory
    /// or the limit is reached.
    ///
    /// ```
    /// # fn main() -> Result<(), Box<dyn std::error::Error>> {
    /// let guard = proved_congee::LiveMap::new()?.pin()?;
    /// guard.extend([(5, 50), (7, 70), (9, 90)])?;
    /// assert_eq!(guard.get_or_insert_with(7, || 1)?, 70);
    /// assert_eq!(guard.get_or_insert_with(8, || 80)?, 80);
    /// # Ok(())
    /// # }
    /// ```
    #[doc(alias("entry", "or_insert_with"))]
    pub fn get_or_insert_with(
        &self,
        key: u64,
        f: impl FnOnce() -> u64,
    ) -> Result<u64, OutOfMemory> {
        loops::get_or_insert_with(self, key, f)
    }

    /// Adds the number to the key's value, and returns the value before, or `None` for a new key, which gets the number as
    /// value. The sum wraps, as `u64::wrapping_add`. While writers lock or change the key's nodes, the call yields and
    /// tries again. Returns [`OutOfMemory`], with no pair changed, only for an absent key, if there is no memory or the
    /// limit is reached.
    ///
    /// ```
    /// # fn main() -> Result<(), proved_congee::OutOfMemory> {
    /// let guard = proved_congee::LiveMap::new()?.pin()?;
    /// assert_eq!(guard.add(7, 70)?, None);
    /// assert_eq!(guard.add(7, 1)?, Some(70));
    /// assert_eq!(guard.get(7), Some(71));
    /// # Ok(())
    /// # }
    /// ```
    #[doc(alias("fetch_add", "increment"))]
    pub fn add(&self, key: u64, number: u64) -> Result<Option<u64>, OutOfMemory> {
        waiting_for_memory(|| self.try_add(key, number))
    }

    /// Adds the number to the key's value, and returns the value before, or `None` for a new key, which gets the number as
    /// value. The sum wraps, as `u64::wrapping_add`. Doesn't wait: returns [`TryError::Busy`], with nothing changed, if
    /// writers locked or changed the key's nodes at each of a bounded number of tries. Returns [`TryError::OutOfMemory`],
    /// with no pair changed, only for an absent key, if there is no memory or the limit is reached.
    ///
    /// ```
    /// # fn main() -> Result<(), Box<dyn std::error::Error>> {
    /// let guard = proved_congee::LiveMap::new()?.pin()?;
    /// guard.insert(7, 70)?;
    /// assert_eq!(guard.try_add(7, 1)?, Some(70));
    /// # Ok(())
    /// # }
    /// ```
    pub fn try_add(&self, key: u64, number: u64) -> Result<Option<u64>, TryError> {
        let mut before = 0;
        let code = unsafe { congee_c_live_add(&mut self.handle(), key, number, &mut before) };
        if_made(code, before)
    }

    /// Calls the closure with the key's value or `None`. Stores the value that the closure returns, or removes the key for
    /// `None`. Returns the previous value. If another call changes the key meanwhile, the closure is called again with the
    /// new value, so no change is lost. The closure is called while nothing is locked, so it may take long, or call the
    /// map. While writers lock or change the key's nodes, the call yields and tries again. Returns [`OutOfMemory`], with no
    /// pair changed, only for an absent key, if there is no memory or the limit is reached.
    ///
    /// ```
    /// # fn main() -> Result<(), Box<dyn std::error::Error>> {
    /// let guard = proved_congee::LiveMap::new()?.pin()?;
    /// guard.extend([(5, 50), (7, 70), (9, 90)])?;
    /// let halved = guard.compute(7, |value| Some(value? / 2))?;
    /// assert_eq!((halved, guard.get(7)), (Some(70), Some(35)));
    /// assert_eq!((guard.compute(7, |_| None)?, guard.get(7)), (Some(35), None));
    /// # Ok(())
    /// # }
    /// ```
    #[doc(alias(
        "alter",
        "and_modify",
        "compute_if_present",
        "compute_or_insert",
        "get_mut",
        "update"
    ))]
    pub fn compute(
        &self,
        key: u64,
        f: impl FnMut(Option<u64>) -> Option<u64>,
    ) -> Result<Option<u64>, OutOfMemory> {
        loops::compute(self, key, f)
    }

    /// Calls the closure with the key's value or `None`. Stores the value that the closure returns, or removes the key
    /// for `None`. Returns the previous value. The closure is called while nothing is locked, so it may take long, or
    /// call the map. Doesn't wait: returns [`TryError::Busy`], with no pair changed, if writers locked or changed the
    /// key's nodes at each of a bounded number of tries. Returns [`TryError::Busy`] also if another call changed the
    /// key after the look-up. So the closure is called once, or not at all. Returns [`TryError::OutOfMemory`], with no
    /// pair changed, only for an absent key, if there is no memory or the limit is reached.
    ///
    /// ```
    /// # fn main() -> Result<(), Box<dyn std::error::Error>> {
    /// let guard = proved_congee::LiveMap::new()?.pin()?;
    /// guard.insert(7, 70)?;
    /// assert_eq!(guard.try_compute(7, |value| Some(value? / 2))?, Some(70));
    /// assert_eq!(guard.try_compute(7, |_| None)?, Some(35));
    /// assert_eq!(guard.get(7), None);
    /// # Ok(())
    /// # }
    /// ```
    pub fn try_compute(
        &self,
        key: u64,
        f: impl FnOnce(Option<u64>) -> Option<u64>,
    ) -> Result<Option<u64>, TryError> {
        loops::try_compute(self, key, f)
    }

    /// Removes the key, and returns the removed value, or `None` if the key was absent. A removal is never out of memory.
    /// While writers lock or change the key's nodes, the call yields and tries again.
    ///
    /// ```
    /// # fn main() -> Result<(), proved_congee::OutOfMemory> {
    /// let guard = proved_congee::LiveMap::new()?.pin()?;
    /// guard.insert(7, 70)?;
    /// assert_eq!((guard.remove(7), guard.remove(&7)), (Some(70), None));
    /// # Ok(())
    /// # }
    /// ```
    #[doc(alias("delete", "erase"))]
    pub fn remove(&self, key: impl Borrow<u64>) -> Option<u64> {
        let key = *key.borrow();
        waiting(|| self.try_remove(key))
    }

    /// Removes the key, and returns the removed value, or `None` if the key was absent. A removal is never out of memory.
    /// Doesn't wait: returns [`Busy`], with nothing changed, if writers locked or changed the key's nodes at each of a
    /// bounded number of tries.
    ///
    /// ```
    /// # fn main() -> Result<(), Box<dyn std::error::Error>> {
    /// let guard = proved_congee::LiveMap::new()?.pin()?;
    /// guard.insert(7, 70)?;
    /// assert_eq!(guard.try_remove(7)?, Some(70));
    /// # Ok(())
    /// # }
    /// ```
    pub fn try_remove(&self, key: impl Borrow<u64>) -> Result<Option<u64>, Busy> {
        let mut before = 0;
        let code = unsafe { congee_c_live_remove(&mut self.handle(), *key.borrow(), &mut before) };
        unless_busy(code, |code| (code == 1).then_some(before))
    }

    /// Replaces the key's value by `desired` if the value is `expected`. Otherwise changes nothing, and returns as an error
    /// the present value, or `None` if the key is absent. Needs no memory. While writers lock or change the key's nodes,
    /// the call yields and tries again.
    ///
    /// ```
    /// # fn main() -> Result<(), proved_congee::OutOfMemory> {
    /// let guard = proved_congee::LiveMap::new()?.pin()?;
    /// guard.insert(7, 70)?;
    /// assert_eq!(guard.compare_exchange(7, 70, 71), Ok(()));
    /// assert_eq!(guard.compare_exchange(7, 70, 72), Err(Some(71)));
    /// assert_eq!(guard.compare_exchange(8, 70, 72), Err(None));
    /// # Ok(())
    /// # }
    /// ```
    #[doc(alias("cas", "compare_and_swap"))]
    pub fn compare_exchange(
        &self,
        key: u64,
        expected: u64,
        desired: u64,
    ) -> Result<(), Option<u64>> {
        waiting(|| self.try_compare_exchange(key, expected, desired))
    }

    /// Replaces the key's value by `desired` if the value is `expected`. Otherwise changes nothing, and returns as an error
    /// the present value, or `None` if the key is absent. Needs no memory. Doesn't wait: returns [`Busy`], with nothing
    /// changed, if writers locked or changed the key's nodes at each of a bounded number of tries.
    ///
    /// ```
    /// # fn main() -> Result<(), Box<dyn std::error::Error>> {
    /// let guard = proved_congee::LiveMap::new()?.pin()?;
    /// guard.insert(7, 70)?;
    /// assert_eq!(guard.try_compare_exchange(7, 70, 71)?, Ok(()));
    /// # Ok(())
    /// # }
    /// ```
    pub fn try_compare_exchange(
        &self,
        key: u64,
        expected: u64,
        desired: u64,
    ) -> Result<Result<(), Option<u64>>, Busy> {
        let mut found = 0;
        let code = unsafe {
            congee_c_live_compare_exchange(&mut self.handle(), key, expected, desired, &mut found)
        };
        unless_busy(code, |code| if_expected(code, found))
    }

    /// Removes the key if the key's value is `expected`. Otherwise changes nothing, and returns as an error the present
    /// value, or `None` if the key is absent. A removal is never out of memory. While writers lock or change the key's
    /// nodes, the call yields and tries again.
    ///
    /// ```
    /// # fn main() -> Result<(), proved_congee::OutOfMemory> {
    /// let guard = proved_congee::LiveMap::new()?.pin()?;
    /// guard.insert(7, 70)?;
    /// assert_eq!(guard.compare_remove(7, 71), Err(Some(70)));
    /// assert_eq!(guard.compare_remove(7, 70), Ok(()));
    /// assert_eq!(guard.compare_remove(7, 70), Err(None));
    /// # Ok(())
    /// # }
    /// ```
    #[doc(alias = "remove_if")]
    pub fn compare_remove(&self, key: u64, expected: u64) -> Result<(), Option<u64>> {
        waiting(|| self.try_compare_remove(key, expected))
    }

    /// Removes the key if the key's value is `expected`. Otherwise changes nothing, and returns as an error the present
    /// value, or `None` if the key is absent. A removal is never out of memory. Doesn't wait: returns [`Busy`], with
    /// nothing changed, if writers locked or changed the key's nodes at each of a bounded number of tries.
    ///
    /// ```
    /// # fn main() -> Result<(), Box<dyn std::error::Error>> {
    /// let guard = proved_congee::LiveMap::new()?.pin()?;
    /// guard.insert(7, 70)?;
    /// assert_eq!(guard.try_compare_remove(7, 70)?, Ok(()));
    /// # Ok(())
    /// # }
    /// ```
    pub fn try_compare_remove(
        &self,
        key: u64,
        expected: u64,
    ) -> Result<Result<(), Option<u64>>, Busy> {
        let mut found = 0;
        let code =
            unsafe { congee_c_live_compare_remove(&mut self.handle(), key, expected, &mut found) };
        unless_busy(code, |code| if_expected(code, found))
    }

    /// Returns whether the map has no pair, by a search for the first pair. With `true` no key was present throughout the
    /// call. With `false` a pair was present at a moment of the call. While writers lock or change nodes on the way, the
    /// call yields and tries again.
    ///
    /// ```
    /// # fn main() -> Result<(), proved_congee::OutOfMemory> {
    /// let guard = proved_congee::LiveMap::new()?.pin()?;
    /// assert!(guard.is_empty());
    /// guard.insert(7, 70)?;
    /// assert!(!guard.is_empty());
    /// # Ok(())
    /// # }
    /// ```
    pub fn is_empty(&self) -> bool {
        waiting(|| self.try_is_empty())
    }

    /// Returns whether the map has no pair, by a search for the first pair. With `true` no key was present throughout the
    /// call. With `false` a pair was present at a moment of the call. Doesn't wait: returns [`Busy`], with nothing changed,
    /// if writers locked or changed nodes on the way at each of a bounded number of tries.
    ///
    /// ```
    /// # fn main() -> Result<(), Box<dyn std::error::Error>> {
    /// let guard = proved_congee::LiveMap::new()?.pin()?;
    /// guard.insert(7, 70)?;
    /// assert!(!guard.try_is_empty()?);
    /// # Ok(())
    /// # }
    /// ```
    pub fn try_is_empty(&self) -> Result<bool, Busy> {
        Ok(self.try_first()?.is_none())
    }

    /// Counts the pairs. The number is exact if no thread writes meanwhile. Otherwise each key counts, or not, as of a
    /// moment of the call. The call reads all nodes that have values, so the time grows with the number of pairs. While
    /// writers lock or change nodes on the way, the call yields and tries again.
    ///
    /// ```
    /// # fn main() -> Result<(), proved_congee::OutOfMemory> {
    /// let guard = proved_congee::LiveMap::new()?.pin()?;
    /// for key in [5, 7, 9] {
    ///     guard.insert(key, 10 * key)?;
    /// }
    /// assert_eq!(guard.len(), 3);
    /// # Ok(())
    /// # }
    /// ```
    #[doc(alias("count", "size", "value_count"))]
    pub fn len(&self) -> usize {
        waiting(|| self.try_len())
    }

    /// Counts the pairs. The number is exact if no thread writes meanwhile. Otherwise each key counts, or not, as of a
    /// moment of the call. The call reads all nodes that have values, so the time grows with the number of pairs. Doesn't
    /// wait: returns [`Busy`], with nothing changed, if writers locked or changed nodes on the way at each of a bounded
    /// number of tries.
    ///
    /// ```
    /// # fn main() -> Result<(), Box<dyn std::error::Error>> {
    /// let guard = proved_congee::LiveMap::new()?.pin()?;
    /// for key in [5, 7, 9] {
    ///     guard.insert(key, 10 * key)?;
    /// }
    /// assert_eq!(guard.try_len()?, 3);
    /// # Ok(())
    /// # }
    /// ```
    pub fn try_len(&self) -> Result<usize, Busy> {
        let mut count = 0;
        let code = unsafe { congee_c_live_count(&mut self.handle(), &mut count) };
        unless_busy(code, |_| as_length(count))
    }

    /// Returns the pair with the least key, or `None` for an empty map. The pair was present at a moment of the call, and
    /// no lesser key was present throughout the call. While writers lock or change nodes on the way, the call yields and
    /// tries again.
    ///
    /// ```
    /// # fn main() -> Result<(), proved_congee::OutOfMemory> {
    /// let guard = proved_congee::LiveMap::new()?.pin()?;
    /// for key in [5, 7, 9] {
    ///     guard.insert(key, 10 * key)?;
    /// }
    /// assert_eq!(guard.first(), Some((5, 50)));
    /// # Ok(())
    /// # }
    /// ```
    #[doc(alias("first_entry", "first_key_value", "min", "peek"))]
    pub fn first(&self) -> Option<(u64, u64)> {
        waiting(|| self.try_first())
    }

    /// Returns the pair with the least key, or `None` for an empty map. The pair was present at a moment of the call, and
    /// no lesser key was present throughout the call. Doesn't wait: returns [`Busy`], with nothing changed, if writers
    /// locked or changed nodes on the way at each of a bounded number of tries.
    ///
    /// ```
    /// # fn main() -> Result<(), Box<dyn std::error::Error>> {
    /// let guard = proved_congee::LiveMap::new()?.pin()?;
    /// for key in [5, 7, 9] {
    ///     guard.insert(key, 10 * key)?;
    /// }
    /// assert_eq!(guard.try_first()?, Some((5, 50)));
    /// # Ok(())
    /// # }
    /// ```
    pub fn try_first(&self) -> Result<Option<(u64, u64)>, Busy> {
        let mut pair = Pair::default();
        let code = unsafe { congee_c_live_first(&mut self.handle(), &mut pair) };
        unless_busy(code, |code| (code == 1).then(|| pair.into()))
    }

    /// Returns the pair with the least key that is at least `key`, or `None` if no key fits. The pair was present at a
    /// moment of the call, and no key between the two was present throughout the call. While writers lock or change nodes
    /// on the way, the call yields and tries again.
    ///
    /// ```
    /// # fn main() -> Result<(), proved_congee::OutOfMemory> {
    /// let guard = proved_congee::LiveMap::new()?.pin()?;
    /// for key in [5, 7, 9] {
    ///     guard.insert(key, 10 * key)?;
    /// }
    /// assert_eq!((guard.ceiling(6), guard.ceiling(10)), (Some((7, 70)), None));
    /// # Ok(())
    /// # }
    /// ```
    #[doc(alias = "lower_bound")]
    pub fn ceiling(&self, key: u64) -> Option<(u64, u64)> {
        waiting(|| self.try_ceiling(key))
    }

    /// Returns the pair with the least key that is at least `key`, or `None` if no key fits. The pair was present at a
    /// moment of the call, and no key between the two was present throughout the call. Doesn't wait: returns [`Busy`], with
    /// nothing changed, if writers locked or changed nodes on the way at each of a bounded number of tries.
    ///
    /// ```
    /// # fn main() -> Result<(), Box<dyn std::error::Error>> {
    /// let guard = proved_congee::LiveMap::new()?.pin()?;
    /// for key in [5, 7, 9] {
    ///     guard.insert(key, 10 * key)?;
    /// }
    /// assert_eq!(guard.try_ceiling(7)?, Some((7, 70)));
    /// # Ok(())
    /// # }
    /// ```
    pub fn try_ceiling(&self, key: u64) -> Result<Option<(u64, u64)>, Busy> {
        let mut pair = Pair::default();
        let code = unsafe { congee_c_live_ceiling(&mut self.handle(), key, &mut pair) };
        unless_busy(code, |code| (code == 1).then(|| pair.into()))
    }

    /// Returns the pair with the least key above `key`, or `None` if no key fits. The pair was present at a moment of the
    /// call, and no key between the two was present throughout the call. While writers lock or change nodes on the way, the
    /// call yields and tries again.
    ///
    /// ```
    /// # fn main() -> Result<(), proved_congee::OutOfMemory> {
    /// let guard = proved_congee::LiveMap::new()?.pin()?;
    /// for key in [5, 7, 9] {
    ///     guard.insert(key, 10 * key)?;
    /// }
    /// assert_eq!((guard.above(7), guard.above(9)), (Some((9, 90)), None));
    /// # Ok(())
    /// # }
    /// ```
    #[doc(alias("successor", "upper_bound"))]
    pub fn above(&self, key: u64) -> Option<(u64, u64)> {
        waiting(|| self.try_above(key))
    }

    /// Returns the pair with the least key above `key`, or `None` if no key fits. The pair was present at a moment of the
    /// call, and no key between the two was present throughout the call. Doesn't wait: returns [`Busy`], with nothing
    /// changed, if writers locked or changed nodes on the way at each of a bounded number of tries.
    ///
    /// ```
    /// # fn main() -> Result<(), Box<dyn std::error::Error>> {
    /// let guard = proved_congee::LiveMap::new()?.pin()?;
    /// for key in [5, 7, 9] {
    ///     guard.insert(key, 10 * key)?;
    /// }
    /// assert_eq!(guard.try_above(4)?, Some((5, 50)));
    /// # Ok(())
    /// # }
    /// ```
    pub fn try_above(&self, key: u64) -> Result<Option<(u64, u64)>, Busy> {
        let mut pair = Pair::default();
        let code = unsafe { congee_c_live_above(&mut self.handle(), key, &mut pair) };
        unless_busy(code, |code| (code == 1).then(|| pair.into()))
    }

    /// Returns the pair with the greatest key, or `None` for an empty map. The pair was present at a moment of the call,
    /// and no greater key was present throughout the call. While writers lock or change nodes on the way, the call yields
    /// and tries again.
    ///
    /// ```
    /// # fn main() -> Result<(), proved_congee::OutOfMemory> {
    /// let guard = proved_congee::LiveMap::new()?.pin()?;
    /// for key in [5, 7, 9] {
    ///     guard.insert(key, 10 * key)?;
    /// }
    /// assert_eq!(guard.last(), Some((9, 90)));
    /// # Ok(())
    /// # }
    /// ```
    #[doc(alias("last_entry", "last_key_value", "max"))]
    pub fn last(&self) -> Option<(u64, u64)> {
        waiting(|| self.try_last())
    }

    /// Returns the pair with the greatest key, or `None` for an empty map. The pair was present at a moment of the call,
    /// and no greater key was present throughout the call. Doesn't wait: returns [`Busy`], with nothing changed, if writers
    /// locked or changed nodes on the way at each of a bounded number of tries.
    ///
    /// ```
    /// # fn main() -> Result<(), Box<dyn std::error::Error>> {
    /// let guard = proved_congee::LiveMap::new()?.pin()?;
    /// for key in [5, 7, 9] {
    ///     guard.insert(key, 10 * key)?;
    /// }
    /// assert_eq!(guard.try_last()?, Some((9, 90)));
    /// # Ok(())
    /// # }
    /// ```
    pub fn try_last(&self) -> Result<Option<(u64, u64)>, Busy> {
        let mut pair = Pair::default();
        let code = unsafe { congee_c_live_last(&mut self.handle(), &mut pair) };
        unless_busy(code, |code| (code == 1).then(|| pair.into()))
    }

    /// Returns the pair with the greatest key that is at most `key`, or `None` if no key fits. The pair was present at a
    /// moment of the call, and no key between the two was present throughout the call. While writers lock or change nodes
    /// on the way, the call yields and tries again.
    ///
    /// ```
    /// # fn main() -> Result<(), proved_congee::OutOfMemory> {
    /// let guard = proved_congee::LiveMap::new()?.pin()?;
    /// for key in [5, 7, 9] {
    ///     guard.insert(key, 10 * key)?;
    /// }
    /// assert_eq!((guard.floor(6), guard.floor(4)), (Some((5, 50)), None));
    /// # Ok(())
    /// # }
    /// ```
    pub fn floor(&self, key: u64) -> Option<(u64, u64)> {
        waiting(|| self.try_floor(key))
    }

    /// Returns the pair with the greatest key that is at most `key`, or `None` if no key fits. The pair was present at a
    /// moment of the call, and no key between the two was present throughout the call. Doesn't wait: returns [`Busy`], with
    /// nothing changed, if writers locked or changed nodes on the way at each of a bounded number of tries.
    ///
    /// ```
    /// # fn main() -> Result<(), Box<dyn std::error::Error>> {
    /// let guard = proved_congee::LiveMap::new()?.pin()?;
    /// for key in [5, 7, 9] {
    ///     guard.insert(key, 10 * key)?;
    /// }
    /// assert_eq!(guard.try_floor(7)?, Some((7, 70)));
    /// # Ok(())
    /// # }
    /// ```
    pub fn try_floor(&self, key: u64) -> Result<Option<(u64, u64)>, Busy> {
        let mut pair = Pair::default();
        let code = unsafe { congee_c_live_floor(&mut self.handle(), key, &mut pair) };
        unless_busy(code, |code| (code == 1).then(|| pair.into()))
    }

    /// Returns the pair with the greatest key below `key`, or `None` if no key fits. The pair was present at a moment of
    /// the call, and no key between the two was present throughout the call. While writers lock or change nodes on the way,
    /// the call yields and tries again.
    ///
    /// ```
    /// # fn main() -> Result<(), proved_congee::OutOfMemory> {
    /// let guard = proved_congee::LiveMap::new()?.pin()?;
    /// for key in [5, 7, 9] {
    ///     guard.insert(key, 10 * key)?;
    /// }
    /// assert_eq!((guard.below(7), guard.below(5)), (Some((5, 50)), None));
    /// # Ok(())
    /// # }
    /// ```
    #[doc(alias = "predecessor")]
    pub fn below(&self, key: u64) -> Option<(u64, u64)> {
        waiting(|| self.try_below(key))
    }

    /// Returns the pair with the greatest key below `key`, or `None` if no key fits. The pair was present at a moment of
    /// the call, and no key between the two was present throughout the call. Doesn't wait: returns [`Busy`], with nothing
    /// changed, if writers locked or changed nodes on the way at each of a bounded number of tries.
    ///
    /// ```
    /// # fn main() -> Result<(), Box<dyn std::error::Error>> {
    /// let guard = proved_congee::LiveMap::new()?.pin()?;
    /// for key in [5, 7, 9] {
    ///     guard.insert(key, 10 * key)?;
    /// }
    /// assert_eq!(guard.try_below(10)?, Some((9, 90)));
    /// # Ok(())
    /// # }
    /// ```
    pub fn try_below(&self, key: u64) -> Result<Option<(u64, u64)>, Busy> {
        let mut pair = Pair::default();
        let code = unsafe { congee_c_live_below(&mut self.handle(), key, &mut pair) };
        unless_busy(code, |code| (code == 1).then(|| pair.into()))
    }

    /// Removes the pair with the least key, and returns the pair, or `None` if the call found no pair. Each pair goes to
    /// one caller. The pair was found by [`first`](LiveGuard::first): no lesser key was present throughout the call. A
    /// lesser key that another call inserts meanwhile stays. With `None` no key was present throughout the call. A pop is
    /// never out of memory. While writers lock or change nodes on the way, the call yields and tries again. If another call
    /// removes or changes the found pair first, the call searches again.
    ///
    /// ```
    /// # fn main() -> Result<(), Box<dyn std::error::Error>> {
    /// let guard = proved_congee::LiveMap::new()?.pin()?;
    /// guard.extend([(5, 50), (7, 70), (9, 90)])?;
    /// assert_eq!((guard.pop_first(), guard.first()), (Some((5, 50)), Some((7, 70))));
    /// # Ok(())
    /// # }
    /// ```
    #[doc(alias("pop", "pop_min"))]
    pub fn pop_first(&self) -> Option<(u64, u64)> {
        self.pop_first_to(u64::MAX)
    }

    /// Removes the pair with the least key, and returns the pair, or `None` if the call found no pair. Each pair goes to
    /// one caller. The pair was found by [`first`](LiveGuard::first): no lesser key was present throughout the call. A
    /// lesser key that another call inserts meanwhile stays. With `None` no key was present throughout the call. A pop is
    /// never out of memory. If another call removes or changes the found pair first, the call searches again. Doesn't wait:
    /// returns [`Busy`], with no pair changed, if writers locked or changed nodes on the way at each of a bounded number of
    /// tries, or after a thousand searches.
    ///
    /// ```
    /// # fn main() -> Result<(), Box<dyn std::error::Error>> {
    /// let guard = proved_congee::LiveMap::new()?.pin()?;
    /// guard.extend([(5, 50), (7, 70), (9, 90)])?;
    /// assert_eq!(guard.try_pop_first()?, Some((5, 50)));
    /// # Ok(())
    /// # }
    /// ```
    pub fn try_pop_first(&self) -> Result<Option<(u64, u64)>, Busy> {
        self.try_pop_first_to(u64::MAX)
    }

    /// Removes the pair with the least key, if that key is at most `key`, and returns the pair, or `None` if the call found
    /// no such pair. Each pair goes to one caller. The pair was found by [`first`](LiveGuard::first): no lesser key was
    /// present throughout the call. A lesser key that another call inserts meanwhile stays. With `None` no key that is at
    /// most `key` was present throughout the call. A pop is never out of memory. While writers lock or change nodes on the
    /// way, the call yields and tries again. If another call removes or changes the found pair first, the call searches
    /// again.
    ///
    /// ```
    /// # fn main() -> Result<(), Box<dyn std::error::Error>> {
    /// let guard = proved_congee::LiveMap::new()?.pin()?;
    /// guard.extend([(5, 50), (7, 70), (9, 90)])?;
    /// assert_eq!((guard.pop_first_to(6), guard.pop_first_to(6)), (Some((5, 50)), None));
    /// # Ok(())
    /// # }
    /// ```
    pub fn pop_first_to(&self, key: u64) -> Option<(u64, u64)> {
        waiting(|| self.try_pop_first_to(key))
    }

    /// Removes the pair with the least key, if that key is at most `key`, and returns the pair, or `None` if the call found
    /// no such pair. Each pair goes to one caller. The pair was found by [`first`](LiveGuard::first): no lesser key was
    /// present throughout the call. A lesser key that another call inserts meanwhile stays. With `None` no key that is at
    /// most `key` was present throughout the call. A pop is never out of memory. If another call removes or changes the
    /// found pair first, the call searches again. Doesn't wait: returns [`Busy`], with no pair changed, if writers locked
    /// or changed nodes on the way at each of a bounded number of tries, or after a thousand searches.
    ///
    /// ```
    /// # fn main() -> Result<(), Box<dyn std::error::Error>> {
    /// let guard = proved_congee::LiveMap::new()?.pin()?;
    /// guard.extend([(5, 50), (7, 70), (9, 90)])?;
    /// assert_eq!(guard.try_pop_first_to(6)?, Some((5, 50)));
    /// assert_eq!(guard.try_pop_first_to(6)?, None);
    /// # Ok(())
    /// # }
    /// ```
    pub fn try_pop_first_to(&self, key: u64) -> Result<Option<(u64, u64)>, Busy> {
        let mut pair = Pair::default();
        let code = unsafe { congee_c_live_pop_first_to(&mut self.handle(), key, &mut pair) };
        unless_busy(code, |code| (code == 1).then(|| pair.into()))
    }

    /// Removes the pair with the greatest key, and returns the pair, or `None` if the call found no pair. Each pair goes to
    /// one caller. The pair was found by [`last`](LiveGuard::last): no greater key was present throughout the call. A
    /// greater key that another call inserts meanwhile stays. With `None` no key was present throughout the call. A pop is
    /// never out of memory. While writers lock or change nodes on the way, the call yields and tries again. If another call
    /// removes or changes the found pair first, the call searches again.
    ///
    /// ```
    /// # fn main() -> Result<(), Box<dyn std::error::Error>> {
    /// let guard = proved_congee::LiveMap::new()?.pin()?;
    /// guard.extend([(5, 50), (7, 70), (9, 90)])?;
    /// assert_eq!((guard.pop_last(), guard.last()), (Some((9, 90)), Some((7, 70))));
    /// # Ok(())
    /// # }
    /// ```
    #[doc(alias = "pop_max")]
    pub fn pop_last(&self) -> Option<(u64, u64)> {
        self.pop_last_from(0)
    }

    /// Removes the pair with the greatest key, and returns the pair, or `None` if the call found no pair. Each pair goes to
    /// one caller. The pair was found by [`last`](LiveGuard::last): no greater key was present throughout the call. A
    /// greater key that another call inserts meanwhile stays. With `None` no key was present throughout the call. A pop is
    /// never out of memory. If another call removes or changes the found pair first, the call searches again. Doesn't wait:
    /// returns [`Busy`], with no pair changed, if writers locked or changed nodes on the way at each of a bounded number of
    /// tries, or after a thousand searches.
    ///
    /// ```
    /// # fn main() -> Result<(), Box<dyn std::error::Error>> {
    /// let guard = proved_congee::LiveMap::new()?.pin()?;
    /// guard.extend([(5, 50), (7, 70), (9, 90)])?;
    /// assert_eq!(guard.try_pop_last()?, Some((9, 90)));
    /// # Ok(())
    /// # }
    /// ```
    pub fn try_pop_last(&self) -> Result<Option<(u64, u64)>, Busy> {
        self.try_pop_last_from(0)
    }

    /// Removes the pair with the greatest key, if that key is at least `key`, and returns the pair, or `None` if the call
    /// found no such pair. Each pair goes to one caller. The pair was found by [`last`](LiveGuard::last): no greater key
    /// was present throughout the call. A greater key that another call inserts meanwhile stays. With `None` no key that is
    /// at least `key` was present throughout the call. A pop is never out of memory. While writers lock or change nodes on
    /// the way, the call yields and tries again. If another call removes or changes the found pair first, the call searches
    /// again.
    ///
    /// ```
    /// # fn main() -> Result<(), Box<dyn std::error::Error>> {
    /// let guard = proved_congee::LiveMap::new()?.pin()?;
    /// guard.extend([(5, 50), (7, 70), (9, 90)])?;
    /// assert_eq!((guard.pop_last_from(8), guard.pop_last_from(8)), (Some((9, 90)), None));
    /// # Ok(())
    /// # }
    /// ```
    pub fn pop_last_from(&self, key: u64) -> Option<(u64, u64)> {
        waiting(|| self.try_pop_last_from(key))
    }

    /// Removes the pair with the greatest key, if that key is at least `key`, and returns the pair, or `None` if the call
    /// found no such pair. Each pair goes to one caller. The pair was found by [`last`](LiveGuard::last): no greater key
    /// was present throughout the call. A greater key that another call inserts meanwhile stays. With `None` no key that is
    /// at least `key` was present throughout the call. A pop is never out of memory. If another call removes or changes the
    /// found pair first, the call searches again. Doesn't wait: returns [`Busy`], with no pair changed, if writers locked
    /// or changed nodes on the way at each of a bounded number of tries, or after a thousand searches.
    ///
    /// ```
    /// # fn main() -> Result<(), Box<dyn std::error::Error>> {
    /// let guard = proved_congee::LiveMap::new()?.pin()?;
    /// guard.extend([(5, 50), (7, 70), (9, 90)])?;
    /// assert_eq!(guard.try_pop_last_from(8)?, Some((9, 90)));
    /// assert_eq!(guard.try_pop_last_from(8)?, None);
    /// # Ok(())
    /// # }
    /// ```
    pub fn try_pop_last_from(&self, key: u64) -> Result<Option<(u64, u64)>, Busy> {
        let mut pair = Pair::default();
        let code = unsafe { congee_c_live_pop_last_from(&mut self.handle(), key, &mut pair) };
        unless_busy(code, |code| (code == 1).then(|| pair.into()))
    }

    /// Writes the first pairs with `start <= key < end` to the buffer, keys ascending, and returns how many pairs fit.
    /// `u64::MAX` is in no such range. The page is no snapshot: each key is read at a moment of the call, and no moment is
    /// before the moment of a lower key. A key that is present throughout the call is in the page. The rest of the buffer
    /// is unspecified. While writers lock or change nodes on the way, the call yields and tries again.
    ///
    /// ```
    /// # fn main() -> Result<(), proved_congee::OutOfMemory> {
    /// let guard = proved_congee::LiveMap::new()?.pin()?;
    /// for key in [5, 7, 9] {
    ///     guard.insert(key, 10 * key)?;
    /// }
    /// let mut page = [proved_congee::Pair::default(); 2];
    /// assert_eq!(guard.read_range(6, 9, &mut page), 1);
    /// assert_eq!(page[0].key, 7);
    /// # Ok(())
    /// # }
    /// ```
    #[doc(alias("page", "scan"))]
    pub fn read_range(&self, start: u64, end: u64, buffer: &mut [Pair]) -> usize {
        waiting(|| self.try_read_range(start, end, buffer))
    }

    /// Writes the first pairs with `start <= key < end` to the buffer, keys ascending, and returns how many pairs fit.
    /// `u64::MAX` is in no such range. The page is no snapshot: each key is read at a moment of the call, and no moment is
    /// before the moment of a lower key. A key that is present throughout the call is in the page. The rest of the buffer
    /// is unspecified. Doesn't wait: returns [`Busy`], with the map unchanged and all of the buffer unspecified, if writers
    /// locked or changed nodes of the range at each of a bounded number of tries.
    ///
    /// ```
    /// # fn main() -> Result<(), Box<dyn std::error::Error>> {
    /// let guard = proved_congee::LiveMap::new()?.pin()?;
    /// for key in [5, 7, 9] {
    ///     guard.insert(key, 10 * key)?;
    /// }
    /// let mut page = [proved_congee::Pair::default(); 2];
    /// assert_eq!(guard.try_read_range(6, 9, &mut page)?, 1);
    /// # Ok(())
    /// # }
    /// ```
    pub fn try_read_range(&self, start: u64, end: u64, buffer: &mut [Pair]) -> Result<usize, Busy> {
        let (place, n) = (buffer.as_mut_ptr(), buffer.len());
        let mut written = 0;
        let code =
            unsafe { congee_c_live_range(&mut self.handle(), start, end, place, n, &mut written) };
        unless_busy(code, |_| as_length(written))
    }

    /// Writes the first pairs with `start <= key <= last` to the buffer, keys ascending, and returns how many pairs fit.
    /// The page is no snapshot: each key is read at a moment of the call, and no moment is before the moment of a lower
    /// key. A key that is present throughout the call is in the page. The rest of the buffer is unspecified. While writers
    /// lock or change nodes on the way, the call yields and tries again.
    ///
    /// ```
    /// # fn main() -> Result<(), proved_congee::OutOfMemory> {
    /// let guard = proved_congee::LiveMap::new()?.pin()?;
    /// for key in [5, 7, 9] {
    ///     guard.insert(key, 10 * key)?;
    /// }
    /// let mut page = [proved_congee::Pair::default(); 2];
    /// assert_eq!(guard.read_range_inclusive(0, u64::MAX, &mut page), 2);
    /// assert_eq!(page.map(|pair| pair.key), [5, 7]);
    /// # Ok(())
    /// # }
    /// ```
    pub fn read_range_inclusive(&self, start: u64, last: u64, buffer: &mut [Pair]) -> usize {
        waiting(|| self.try_read_range_inclusive(start, last, buffer))
    }

    /// Writes the first pairs with `start <= key <= last` to the buffer, keys ascending, and returns how many pairs fit.
    /// The page is no snapshot: each key is read at a moment of the call, and no moment is before the moment of a lower
    /// key. A key that is present throughout the call is in the page. The rest of the buffer is unspecified. Doesn't wait:
    /// returns [`Busy`], with the map unchanged and all of the buffer unspecified, if writers locked or changed nodes of
    /// the range at each of a bounded number of tries.
    ///
    /// ```
    /// # fn main() -> Result<(), Box<dyn std::error::Error>> {
    /// let guard = proved_congee::LiveMap::new()?.pin()?;
    /// for key in [5, 7, 9] {
    ///     guard.insert(key, 10 * key)?;
    /// }
    /// let mut page = [proved_congee::Pair::default(); 2];
    /// assert_eq!(guard.try_read_range_inclusive(0, u64::MAX, &mut page)?, 2);
    /// # Ok(())
    /// # }
    /// ```
    pub fn try_read_range_inclusive(
        &self,
        start: u64,
        last: u64,
        buffer: &mut [Pair],
    ) -> Result<usize, Busy> {
        let (place, n) = (buffer.as_mut_ptr(), buffer.len());
        let mut written = 0;
        let code = unsafe {
            congee_c_live_range_inclusive(&mut self.handle(), start, last, place, n, &mut written)
        };
        unless_busy(code, |_| as_length(written))
    }

    /// Writes the last pairs with `start <= key <= last` to the buffer, keys descending, and returns how many pairs fit.
    /// The page is no snapshot: each key is read at a moment of the call, and no moment is before the moment of a greater
    /// key. Down to the page's last pair, and in the whole range if the buffer isn't full, each key that is present
    /// throughout the call is in the page. The rest of the buffer is unspecified. While writers lock or change nodes on the
    /// way, the call yields and tries again.
    ///
    /// ```
    /// # fn main() -> Result<(), Box<dyn std::error::Error>> {
    /// let guard = proved_congee::LiveMap::new()?.pin()?;
    /// guard.extend([(5, 50), (7, 70), (9, 90)])?;
    /// let mut page = [proved_congee::Pair::default(); 2];
    /// assert_eq!(guard.read_range_descending(0, u64::MAX, &mut page), 2);
    /// assert_eq!(page.map(|pair| pair.key), [9, 7]);
    /// # Ok(())
    /// # }
    /// ```
    pub fn read_range_descending(&self, start: u64, last: u64, buffer: &mut [Pair]) -> usize {
        waiting(|| self.try_read_range_descending(start, last, buffer))
    }

    /// Writes the last pairs with `start <= key <= last` to the buffer, keys descending, and returns how many pairs fit.
    /// The page is no snapshot: each key is read at a moment of the call, and no moment is before the moment of a greater
    /// key. Down to the page's last pair, and in the whole range if the buffer isn't full, each key that is present
    /// throughout the call is in the page. The rest of the buffer is unspecified. Doesn't wait: returns [`Busy`], with the
    /// map unchanged and all of the buffer unspecified, if writers locked or changed nodes of the range at each of a bounded
    /// number of tries.
    ///
    /// ```
    /// # fn main() -> Result<(), Box<dyn std::error::Error>> {
    /// let guard = proved_congee::LiveMap::new()?.pin()?;
    /// guard.extend([(5, 50), (7, 70), (9, 90)])?;
    /// let mut page = [proved_congee::Pair::default(); 2];
    /// assert_eq!(guard.try_read_range_descending(0, u64::MAX, &mut page)?, 2);
    /// # Ok(())
    /// # }
    /// ```
    pub fn try_read_range_descending(
        &self,
        start: u64,
        last: u64,
        buffer: &mut [Pair],
    ) -> Result<usize, Busy> {
        let (place, n) = (buffer.as_mut_ptr(), buffer.len());
        let mut written = 0;
        let code = unsafe {
            congee_c_live_range_descending(&mut self.handle(), start, last, place, n, &mut written)
        };
        unless_busy(code, |_| as_length(written))
    }

    /// Returns the pairs whose keys are within the bounds, keys ascending, from either end. The pairs are read in pages of
    /// 4, and later up to 256. Each key has the value of a moment during the iteration, and a key that is present
    /// throughout is returned.
    ///
    /// ```
    /// # fn main() -> Result<(), Box<dyn std::error::Error>> {
    /// let guard = proved_congee::LiveMap::new()?.pin()?;
    /// guard.extend([(5, 50), (7, 70), (9, 90)])?;
    /// assert!(guard.range(6..).eq([(7, 70), (9, 90)]));
    /// assert!(guard.range(6..).rev().eq([(9, 90), (7, 70)]));
    /// assert_eq!(guard.range(..=8).next_back(), Some((7, 70)));
    /// # Ok(())
    /// # }
    /// ```
    #[doc(alias("cursor", "range_mut", "scan"))]
    pub fn range(&self, bounds: impl RangeBounds<u64>) -> Range<'_> {
        loops::range(self, bounds)
    }

    /// Returns all pairs, keys ascending, from either end. The pairs are read in pages of 4, and later up to 256. Each key
    /// has the value of a moment during the iteration, and a key that is present throughout is returned.
    ///
    /// ```
    /// # fn main() -> Result<(), Box<dyn std::error::Error>> {
    /// let guard = proved_congee::LiveMap::new()?.pin()?;
    /// guard.extend([(5, 50), (7, 70), (9, 90)])?;
    /// assert!(guard.iter().eq([(5, 50), (7, 70), (9, 90)]));
    /// // (a copy of the pairs, each of a moment of its own)
    /// let copy = proved_congee::Map::try_from_iter(&guard)?;
    /// assert_eq!(copy.get(7), Some(70));
    /// # Ok(())
    /// # }
    /// ```
    #[doc(alias("for_each", "iter_mut"))]
    pub fn iter(&self) -> Range<'_> {
        self.range(..)
    }

    /// Returns all keys, ascending, from either end. The pairs are read in pages of 4, and later up to 256. Each key has the
    /// value of a moment during the iteration, and a key that is present throughout is returned.
    ///
    /// ```
    /// # fn main() -> Result<(), Box<dyn std::error::Error>> {
    /// let guard = proved_congee::LiveMap::new()?.pin()?;
    /// guard.extend([(5, 50), (7, 70), (9, 90)])?;
    /// assert!(guard.keys().eq([5, 7, 9]));
    /// # Ok(())
    /// # }
    /// ```
    pub fn keys(&self) -> Keys<'_> {
        Keys { of: self.iter() }
    }

    /// Returns all values, by ascending keys, from either end. The pairs are read in pages of 4, and later up to 256. Each
    /// key has the value of a moment during the iteration, and a key that is present throughout is returned.
    ///
    /// ```
    /// # fn main() -> Result<(), Box<dyn std::error::Error>> {
    /// let guard = proved_congee::LiveMap::new()?.pin()?;
    /// guard.extend([(5, 50), (7, 70), (9, 90)])?;
    /// assert!(guard.values().eq([50, 70, 90]));
    /// # Ok(())
    /// # }
    /// ```
    #[doc(alias = "values_mut")]
    pub fn values(&self) -> Values<'_> {
        Values { of: self.iter() }
    }

    /// Removes the pairs whose keys are within the bounds. Returns how many pairs this call removed. Each pair is in the
    /// history as by a pop, keys ascending. Each key that is present when the call begins is removed meanwhile, by this call
    /// or by another. A key that another call inserts meanwhile may stay. While writers lock or change nodes on the way,
    /// the call yields and tries again. Never out of memory.
    ///
    /// ```
    /// # fn main() -> Result<(), Box<dyn std::error::Error>> {
    /// let guard = proved_congee::LiveMap::new()?.pin()?;
    /// guard.extend([(5, 50), (7, 70), (9, 90)])?;
    /// assert_eq!((guard.remove_range(6..), guard.len()), (2, 1));
    /// # Ok(())
    /// # }
    /// ```
    #[doc(alias = "drain")]
    pub fn remove_range(&self, bounds: impl RangeBounds<u64>) -> u64 {
        let Some((mut start, last)) = ends(bounds) else {
            return 0;
        };
        let mut removed = 0;
        while let Some((count, reached)) = waiting(|| self.try_remove_some(start, last)) {
            removed += count;
            if reached == last {
                break;
            }
            start = reached + 1;
        }
        removed
    }

    // Removes the first pairs with `start <= key <= last`: those of one leaf, at most 64. Returns how many, and the last one's
    // key.
    fn try_remove_some(&self, start: u64, last: u64) -> Result<Option<(u64, u64)>, Busy> {
        let (mut count, mut reached) = (0, 0);
        let code = unsafe {
            congee_c_live_remove_some(&mut self.handle(), start, last, &mut count, &mut reached)
        };
        unless_busy(code, |code| (code == 1).then_some((count, reached)))
    }

    /// Copies the pairs into a map of their own, without a limit. The copy is of no single moment: each key is read at a
    /// moment of the call, and no moment is before the moment of a lower key. A key that is present throughout the call is
    /// in the copy. If other calls change the map, the map may never have had just these pairs. [`Map::freeze`] makes
    /// readers of the copy. Nothing is locked. While writers lock or change nodes on the way, the call yields and tries
    /// again. Returns [`OutOfMemory`], with nothing changed, if there is no memory for the copy.
    ///
    /// ```
    /// # fn main() -> Result<(), Box<dyn std::error::Error>> {
    /// let guard = proved_congee::LiveMap::new()?.pin()?;
    /// guard.extend([(5, 50), (7, 70), (9, 90)])?;
    /// let copy = guard.snapshot()?;
    /// guard.remove(7);
    /// assert!(copy.iter().eq([(5, 50), (7, 70), (9, 90)]));
    /// # Ok(())
    /// # }
    /// ```
    #[doc(alias = "to_owned")]
    pub fn snapshot(&self) -> Result<Map, OutOfMemory> {
        loops::snapshot(self)
    }

    /// Calls `keep` with each pair, keys ascending, while nothing is locked. Each pair is read at a moment of its own,
    /// and a key that is present throughout the call is among them. Removes the pairs for which `keep` returns false.
    /// If another call changes the value in between, `keep` is called again with the new value. So each key that is
    /// present throughout the call, and stays, had a value meanwhile for which `keep` returned true. Other calls come
    /// in between. While writers lock or change nodes on the way, the call yields and tries again. Never out of memory.
    ///
    /// ```
    /// # fn main() -> Result<(), Box<dyn std::error::Error>> {
    /// let guard = proved_congee::LiveMap::new()?.pin()?;
    /// guard.extend([(5, 50), (7, 70), (9, 90)])?;
    /// guard.retain(|key, value| key > 5 && value < 90);
    /// assert!(guard.keys().eq([7]));
    /// # Ok(())
    /// # }
    /// ```
    pub fn retain(&self, keep: impl FnMut(u64, u64) -> bool) {
        loops::retain(self, keep);
    }

    /// Removes all pairs. Each pair is in the history as by a pop, keys ascending. Each key that is present when the call
    /// begins is removed meanwhile, by this call or by another. A key that another call inserts meanwhile may stay. While
    /// writers lock or change nodes on the way, the call yields and tries again. Never out of memory. The map keeps its
    /// segments.
    ///
    /// ```
    /// # fn main() -> Result<(), Box<dyn std::error::Error>> {
    /// let guard = proved_congee::LiveMap::new()?.pin()?;
    /// guard.extend([(5, 50), (7, 70), (9, 90)])?;
    /// guard.clear();
    /// assert!(guard.is_empty());
    /// # Ok(())
    /// # }
    /// ```
    pub fn clear(&self) {
        self.remove_range(..);
    }
}

impl Drop for LiveGuard {
    fn drop(&mut self) {
        // (the address isn't used again)
        unsafe { congee_c_live_free(self.handle()) }
    }
}

impl fmt::Debug for LiveGuard {
    fn fmt(&self, f: &mut fmt::Formatter<'_>) -> fmt::Result {
        f.debug_struct("LiveGuard").finish_non_exhaustive()
    }
}

impl<'a> IntoIterator for &'a LiveGuard {
    type Item = (u64, u64);
    type IntoIter = Range<'a>;

    fn into_iter(self) -> Range<'a> {
        self.iter()
    }
}
