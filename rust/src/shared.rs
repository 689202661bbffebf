//! A map that threads share.

use crate::loops;
use crate::map::{as_length, if_expected, ExtendError};
use crate::owner::Owner;
use crate::pages::{Keys, Range, Values};
use crate::sys::*;
use crate::{Map, OutOfMemory, Pair};
use std::borrow::Borrow;
use std::fmt;
use std::ops::RangeBounds;
use std::sync::atomic::{AtomicU64, Ordering};
use std::thread;

/// A map that threads share, each by a [`Guard`] of its own. The calls are those of the guards, which take `&self`.
///
/// Calls are made under one lock of the library. A map that [`sharded`](SharedMap::sharded) makes has 64 locks, and a call
/// takes one of them or all.
///
/// Proved of the library beneath: calls are *sequentially consistent*. Each guard has seen a legal history of the map,
/// which explains the guard's replies and has its own calls in their order. Guards that [meet](Guard::meet), or hand over a
/// [note](Guard::note), are in order of time from then on. A call also comes after all calls that had ended before, by
/// whatever guard. For guards that never met, only tests show that. This wrapper is tested.
///
/// ```
/// use proved_congee::SharedMap;
/// use std::thread;
///
/// # fn main() -> Result<(), proved_congee::OutOfMemory> {
/// let counts = SharedMap::new()?;
/// thread::scope(|scope| {
///     for _ in 0..4 {
///         let counts = counts.pin()?;
///         scope.spawn(move || {
///             for word in 0..1000 {
///                 counts.add(word % 10, 1).unwrap();
///             }
///         });
///     }
///     Ok::<(), proved_congee::OutOfMemory>(())
/// })?;
/// assert_eq!(counts.pin()?.get(7), Some(400));
/// # Ok(())
/// # }
/// ```
///
/// A clone is one more owner of the same map, as a clone of an `Arc` is. It takes no memory, and waits for nobody.
#[doc(alias = "concurrent")]
#[derive(Clone, Debug)]
pub struct SharedMap {
    // (the library takes a guard as its own, also where it makes another)
    first: Owner<Guard>,
    limit: u64,
}

impl SharedMap {
    /// Makes an empty map under one lock, without a limit. Returns [`OutOfMemory`] if there is no memory.
    ///
    /// ```
    /// # fn main() -> Result<(), proved_congee::OutOfMemory> {
    /// assert!(proved_congee::SharedMap::new()?.pin()?.is_empty());
    /// # Ok(())
    /// # }
    /// ```
    #[doc(alias = "default")]
    pub fn new() -> Result<SharedMap, OutOfMemory> {
        SharedMap::with_limit(u64::MAX)
    }

    /// Makes an empty map under one lock whose nodes take at most so many bytes by their stated sizes, as
    /// [`Map::with_limit`](crate::Map::with_limit) counts them. Returns [`OutOfMemory`] if there is no memory, or the limit
    /// is below 2104 bytes.
    ///
    /// ```
    /// use proved_congee::{OutOfMemory, SharedMap};
    ///
    /// let map = SharedMap::with_limit(2104 + 64).unwrap();
    /// let guard = map.pin().unwrap();
    /// assert_eq!(guard.insert(1, 10), Ok(None));
    /// assert_eq!(guard.insert(u64::MAX, 11), Err(OutOfMemory));
    /// assert!(SharedMap::with_limit(2103).is_err());
    /// ```
    #[doc(alias("capacity", "with_capacity"))]
    pub fn with_limit(bytes: u64) -> Result<SharedMap, OutOfMemory> {
        SharedMap::made_by(congee_c_shared_new, bytes)
    }

    /// Makes an empty map in 64 shards with a lock each, for calls of one key by many threads. Keys that differ in their
    /// last eight bits alone are of one shard. Calls of keys of different shards run side by side. A call that isn't of one
    /// key takes 64 locks, and searches 64 trees.
    ///
    /// ```
    /// # fn main() -> Result<(), proved_congee::OutOfMemory> {
    /// let guard = proved_congee::SharedMap::sharded()?.pin()?;
    /// for key in [1, 256, 1 << 40] {
    ///     guard.insert(key, key + 1)?;
    /// }
    /// assert_eq!(guard.above(1), Some((256, 257)));
    /// assert_eq!(guard.len(), 3);
    /// # Ok(())
    /// # }
    /// ```
    #[doc(alias = "shards")]
    pub fn sharded() -> Result<SharedMap, OutOfMemory> {
        SharedMap::sharded_with_limit(u64::MAX)
    }

    /// Makes an empty map in 64 shards, with a limit in bytes. Each shard has a 64th of the limit, rounded down. So a call
    /// may be out of memory while other shards have room. The 64 first nodes take 134,656 bytes, and a lower limit makes no
    /// map.
    ///
    /// ```
    /// use proved_congee::SharedMap;
    ///
    /// let map = SharedMap::sharded_with_limit(64 * (2104 + 64)).unwrap();
    /// let guard = map.pin().unwrap();
    /// // (keys of one shard, until it is full)
    /// let stored = (0..100).take_while(|i| guard.insert(i << 40, 1).is_ok()).count();
    /// assert!((1..100).contains(&stored));
    /// assert_eq!(guard.insert(1 << 8, 1), Ok(None));
    /// assert!(SharedMap::sharded_with_limit(64 * 2104 - 1).is_err());
    /// ```
    pub fn sharded_with_limit(bytes: u64) -> Result<SharedMap, OutOfMemory> {
        SharedMap::made_by(congee_c_shared_new_sharded, bytes)
    }

    fn made_by(
        make: unsafe extern "C" fn(u64, *mut SharedHandle) -> i32,
        bytes: u64,
    ) -> Result<SharedMap, OutOfMemory> {
        let mut made = SharedHandle::none();
        match unsafe { make(bytes, &mut made) } {
            0 => Ok(SharedMap {
                first: Owner::new(Guard {
                    guard: made.guard,
                    map: next_map(),
                    limit: bytes,
                })?,
                limit: bytes,
            }),
            _ => Err(OutOfMemory),
        }
    }

    /// Makes a guard, by which one thread at a time calls the map. A guard may go to another thread, and may outlive this
    /// value. A guard takes a small block, so keep it for many calls. Waits while another thread makes one. Returns
    /// [`OutOfMemory`] if there is no memory for a guard.
    ///
    /// ```
    /// # fn main() -> Result<(), proved_congee::OutOfMemory> {
    /// let map = proved_congee::SharedMap::new()?;
    /// let (one, other) = (map.pin()?, map.pin()?);
    /// one.insert(7, 70)?;
    /// assert_eq!(other.get(7), Some(70));
    /// # Ok(())
    /// # }
    /// ```
    #[doc(alias("epoch", "handle"))]
    pub fn pin(&self) -> Result<Guard, OutOfMemory> {
        self.first.first().try_clone()
    }

    /// Returns one more owner of the same map, as a clone of an `Arc` is. Doesn't wait, takes no memory, and is always
    /// `Ok`, so `clone` serves as well.
    ///
    /// ```
    /// # fn main() -> Result<(), proved_congee::OutOfMemory> {
    /// let map = proved_congee::SharedMap::new()?;
    /// let other = map.try_clone()?;
    /// let thread = std::thread::spawn(move || other.pin()?.insert(7, 70));
    /// assert_eq!(thread.join().unwrap(), Ok(None));
    /// assert_eq!(map.pin()?.get(7), Some(70));
    /// # Ok(())
    /// # }
    /// ```
    #[doc(alias = "clone")]
    pub fn try_clone(&self) -> Result<SharedMap, OutOfMemory> {
        Ok(self.clone())
    }

    /// Returns the limit in bytes that the map was made with, or `u64::MAX` for none.
    ///
    /// ```
    /// # fn main() -> Result<(), proved_congee::OutOfMemory> {
    /// assert_eq!(proved_congee::SharedMap::with_limit(10_000)?.limit(), 10_000);
    /// # Ok(())
    /// # }
    /// ```
    pub fn limit(&self) -> u64 {
        self.limit
    }

    /// Returns the sum in bytes of the stated sizes of the map's nodes, which counts against the limit. Waits while another
    /// thread makes a guard, or while the map is busy.
    ///
    /// ```
    /// # fn main() -> Result<(), proved_congee::OutOfMemory> {
    /// let map = proved_congee::SharedMap::new()?;
    /// map.pin()?.insert(7, 70)?;
    /// assert_eq!(map.charged(), 2104 + 64);
    /// # Ok(())
    /// # }
    /// ```
    #[doc(alias("bytes", "memory_usage", "stats"))]
    pub fn charged(&self) -> u64 {
        self.first.first().charged()
    }

    /// Returns the sum in bytes of the stated sizes of the map's nodes, and the limit. The sum is at most the limit. In
    /// shards the limit is the sum of the shards' limits. Waits while another thread makes a guard, or while the map is
    /// busy.
    ///
    /// ```
    /// # fn main() -> Result<(), proved_congee::OutOfMemory> {
    /// assert_eq!(proved_congee::SharedMap::with_limit(5000)?.usage(), (2104, 5000));
    /// # Ok(())
    /// # }
    /// ```
    pub fn usage(&self) -> (u64, u64) {
        self.first.first().usage()
    }
}

/// The error of a call that doesn't wait: other threads were in the way at each of a bounded number of tries, and no pair
/// has changed.
///
/// ```
/// use proved_congee::{Busy, SharedMap};
///
/// # fn main() -> Result<(), proved_congee::OutOfMemory> {
/// let guard = SharedMap::new()?.pin()?;
/// match guard.try_get(7) {
///     Ok(value) => assert_eq!(value, None),
///     Err(Busy) => println!("later"),
/// }
/// # Ok(())
/// # }
/// ```
#[derive(Clone, Copy, Debug, PartialEq, Eq)]
pub struct Busy;

impl fmt::Display for Busy {
    fn fmt(&self, f: &mut fmt::Formatter<'_>) -> fmt::Result {
        f.write_str("the map is in another thread's call")
    }
}

impl std::error::Error for Busy {}

/// The error of a call that doesn't wait and may take memory. No pair has changed.
///
/// ```
/// use proved_congee::{LiveMap, TryError};
///
/// # fn main() -> Result<(), proved_congee::OutOfMemory> {
/// let guard = LiveMap::new()?.pin()?;
/// match guard.try_insert(7, 70) {
///     Ok(before) => assert_eq!(before, None),
///     Err(TryError::Busy) => println!("later"),
///     Err(TryError::OutOfMemory) => return Err(proved_congee::OutOfMemory),
/// }
/// # Ok(())
/// # }
/// ```
#[derive(Clone, Copy, Debug, PartialEq, Eq)]
pub enum TryError {
    /// Another thread's call.
    Busy,
    /// There is no memory, or the map's limit is reached.
    OutOfMemory,
}

impl fmt::Display for TryError {
    fn fmt(&self, f: &mut fmt::Formatter<'_>) -> fmt::Result {
        match self {
            TryError::Busy => Busy.fmt(f),
            TryError::OutOfMemory => OutOfMemory.fmt(f),
        }
    }
}

impl std::error::Error for TryError {}

impl From<Busy> for TryError {
    fn from(_: Busy) -> TryError {
        TryError::Busy
    }
}

impl From<OutOfMemory> for TryError {
    fn from(_: OutOfMemory) -> TryError {
        TryError::OutOfMemory
    }
}

/// One caller of a [`SharedMap`]: a thread's at a time. With the last guard of a map, and its `SharedMap`, the map is
/// freed.
///
/// Each call of the library has two forms. The form without `try_` waits while the map is busy: it yields
/// (`std::thread::yield_now`) and tries again. The form with `try_` doesn't wait, and returns [`Busy`]. Calls that make
/// several calls of the library have the first form alone.
///
/// Proved of the library beneath: the guard's replies fit one legal history of the map, as [`SharedMap`] has it. A call
/// that is busy or out of memory is not in the history. Calls that make several calls of the library are tested.
///
/// A thread that is stopped between two calls blocks nobody. A thread that is cancelled inside a call, which takes code
/// beside Rust, leaves the map busy for ever. So does a fork inside another thread's call, in the child.
///
/// ```
/// use proved_congee::SharedMap;
///
/// # fn main() -> Result<(), proved_congee::OutOfMemory> {
/// let jobs = SharedMap::new()?.pin()?;
/// jobs.insert(3, 30)?;
/// jobs.insert(1, 10)?;
/// assert_eq!(jobs.pop_first(), Some((1, 10)));
/// # Ok(())
/// # }
/// ```
pub struct Guard {
    guard: *mut OneGuardForEachThread,
    // (which map it is of)
    map: u64,
    limit: u64,
}

/// A note of the history that a [`Guard`] had seen, for a guard on another thread to learn ([`Guard::note`]).
///
/// ```
/// fn goes_to_another_thread<T: Send>() {}
/// goes_to_another_thread::<proved_congee::Note>();
/// ```
#[derive(Debug)]
pub struct Note {
    guard: Guard,
}

// The number of a new map.
pub(crate) fn next_map() -> u64 {
    static MAPS: AtomicU64 = AtomicU64::new(0);
    MAPS.fetch_add(1, Ordering::Relaxed)
}

// SAFETY: the library proves that a handle may go to another thread (`unsafe impl Send` of its handle).
unsafe impl Send for Guard {}

const BUSY: i32 = -2;

// Makes the call until it isn't busy.
pub(crate) fn waiting<T>(mut call: impl FnMut() -> Result<T, Busy>) -> T {
    loop {
        match call() {
            Ok(it) => return it,
            Err(Busy) => thread::yield_now(),
        }
    }
}

// Makes a call that may be out of memory again until it isn't busy.
pub(crate) fn waiting_for_memory<T>(
    call: impl Fn() -> Result<T, TryError>,
) -> Result<T, OutOfMemory> {
    loop {
        match call() {
            Ok(it) => return Ok(it),
            Err(TryError::OutOfMemory) => return Err(OutOfMemory),
            Err(TryError::Busy) => thread::yield_now(),
        }
    }
}

// What a call that needs no memory returns by its code.
pub(crate) fn unless_busy<T>(code: i32, of: impl FnOnce(i32) -> T) -> Result<T, Busy> {
    match code {
        BUSY => Err(Busy),
        code => Ok(of(code)),
    }
}

// What a call that may take memory returns by its code: the value that it wrote, none, or why it wasn't made.
pub(crate) fn if_made(code: i32, written: u64) -> Result<Option<u64>, TryError> {
    match code {
        0 => Ok(None),
        1 => Ok(Some(written)),
        BUSY => Err(TryError::Busy),
        _ => Err(TryError::OutOfMemory),
    }
}

// SAFETY of the calls below. The address is one that the library returned and that `drop` hasn't freed. No other call is
// made by it meanwhile: a `Guard` isn't `Sync`, so no two threads are in a call on it, and the library calls nothing back.
// The handle and each place that the library writes to are locals or borrowed as `&mut`, and initialised.
impl Guard {
    fn handle(&self) -> SharedHandle {
        SharedHandle { guard: self.guard }
    }

    // A call that writes a number.
    fn number(&self, call: impl FnOnce(&mut SharedHandle, &mut u64) -> i32) -> Result<u64, Busy> {
        let mut number = 0;
        let code = call(&mut self.handle(), &mut number);
        unless_busy(code, |_| number)
    }

    // A call that writes a value where it finds one.
    fn value(
        &self,
        call: impl FnOnce(&mut SharedHandle, &mut u64) -> i32,
    ) -> Result<Option<u64>, Busy> {
        let mut value = 0;
        let code = call(&mut self.handle(), &mut value);
        unless_busy(code, |code| (code == 1).then_some(value))
    }

    // A call that writes a pair where it finds one.
    fn pair(
        &self,
        call: impl FnOnce(&mut SharedHandle, &mut Pair) -> i32,
    ) -> Result<Option<(u64, u64)>, Busy> {
        let mut pair = Pair::default();
        let code = call(&mut self.handle(), &mut pair);
        unless_busy(code, |code| (code == 1).then_some(pair.into()))
    }

    /// Makes one more guard of the same map, which begins with the history that this guard has seen. Takes a small block.
    /// Returns [`OutOfMemory`] if there is no memory for one.
    ///
    /// ```
    /// # fn main() -> Result<(), Box<dyn std::error::Error>> {
    /// let guard = proved_congee::SharedMap::new()?.pin()?;
    /// guard.extend([(5, 50), (7, 70), (9, 90)])?;
    /// assert_eq!(guard.try_clone()?.get(7), Some(70));
    /// # Ok(())
    /// # }
    /// ```
    #[doc(alias = "clone")]
    pub fn try_clone(&self) -> Result<Guard, OutOfMemory> {
        let mut made = SharedHandle::none();
        match unsafe { congee_c_shared_another(&mut self.handle(), &mut made) } {
            0 => Ok(Guard {
                guard: made.guard,
                map: self.map,
                limit: self.limit,
            }),
            _ => Err(OutOfMemory),
        }
    }

    /// Orders two guards of one map in time: calls that either guard had made, or had learned of, come before all later
    /// calls of both. Both guards have then seen one history. A guard may meet itself, without effect. Never fails, and
    /// takes no lock and no memory.
    ///
    /// # Panics
    ///
    /// If the guards are of two maps.
    ///
    /// ```
    /// # fn main() -> Result<(), proved_congee::OutOfMemory> {
    /// let map = proved_congee::SharedMap::new()?;
    /// let (one, other) = (map.pin()?, map.pin()?);
    /// one.insert(7, 70)?;
    /// one.meet(&other);
    /// assert_eq!(other.get(7), Some(70));
    /// # Ok(())
    /// # }
    /// ```
    pub fn meet(&self, other: &Guard) {
        assert_eq!(self.map, other.map, "guards of two maps don't meet");
        if self.guard != other.guard {
            unsafe { congee_c_shared_meet(&mut self.handle(), &mut other.handle()) }
        }
    }

    /// Makes a note of the history that the guard has seen, for a guard on another thread. All calls that this guard has
    /// made come before the calls that a guard makes once it has [learned](Guard::learn) the note. Takes a small block. The
    /// map lasts as long as its last note. Returns [`OutOfMemory`] if there is no memory for a note.
    ///
    /// ```
    /// use proved_congee::SharedMap;
    /// use std::thread;
    ///
    /// # fn main() -> Result<(), proved_congee::OutOfMemory> {
    /// let map = SharedMap::new()?;
    /// let guard = map.pin()?;
    /// let other = map.pin()?;
    /// let note = thread::spawn(move || {
    ///     other.insert(7, 70)?;
    ///     other.note()
    /// })
    /// .join()
    /// .unwrap()?;
    /// guard.learn(&note);
    /// assert_eq!(guard.get(7), Some(70));
    /// # Ok(())
    /// # }
    /// ```
    pub fn note(&self) -> Result<Note, OutOfMemory> {
        Ok(Note {
            guard: self.try_clone()?,
        })
    }

    /// Orders the guard after a note: all calls that the note has seen come before the guard's later calls. The guard and
    /// the note have then seen one history.
    ///
    /// # Panics
    ///
    /// If the note is of another map.
    ///
    /// ```
    /// # fn main() -> Result<(), proved_congee::OutOfMemory> {
    /// let map = proved_congee::SharedMap::new()?;
    /// let (one, other) = (map.pin()?, map.pin()?);
    /// one.insert(7, 70)?;
    /// other.learn(&one.note()?);
    /// assert_eq!(other.len(), 1);
    /// # Ok(())
    /// # }
    /// ```
    pub fn learn(&self, note: &Note) {
        self.meet(&note.guard);
    }

    /// Returns the value at the key, or `None` if the key is absent. While other calls have the lock, the call yields and
    /// tries again.
    ///
    /// ```
    /// # fn main() -> Result<(), Box<dyn std::error::Error>> {
    /// let guard = proved_congee::SharedMap::new()?.pin()?;
    /// guard.extend([(5, 50), (7, 70), (9, 90)])?;
    /// assert_eq!((guard.get(7), guard.get(&8)), (Some(70), None));
    /// # Ok(())
    /// # }
    /// ```
    #[doc(alias("find", "index", "view"))]
    pub fn get(&self, key: impl Borrow<u64>) -> Option<u64> {
        let key = *key.borrow();
        waiting(|| self.try_get(key))
    }

    /// Returns the value at the key, or `None` if the key is absent. Doesn't wait: returns [`Busy`], with nothing changed,
    /// if a lock of the call was taken at each of a bounded number of tries.
    ///
    /// ```
    /// # fn main() -> Result<(), Box<dyn std::error::Error>> {
    /// let guard = proved_congee::SharedMap::new()?.pin()?;
    /// guard.extend([(5, 50), (7, 70), (9, 90)])?;
    /// assert_eq!(guard.try_get(7)?, Some(70));
    /// # Ok(())
    /// # }
    /// ```
    pub fn try_get(&self, key: impl Borrow<u64>) -> Result<Option<u64>, Busy> {
        let key = *key.borrow();
        self.value(|handle, value| unsafe { congee_c_shared_get(handle, key, value) })
    }

    /// Returns whether the map has the key. While other calls have the lock, the call yields and tries again.
    ///
    /// ```
    /// # fn main() -> Result<(), Box<dyn std::error::Error>> {
    /// let guard = proved_congee::SharedMap::new()?.pin()?;
    /// guard.extend([(5, 50), (7, 70), (9, 90)])?;
    /// assert!(guard.contains_key(7) && !guard.contains_key(8));
    /// # Ok(())
    /// # }
    /// ```
    #[doc(alias = "contains")]
    pub fn contains_key(&self, key: impl Borrow<u64>) -> bool {
        self.get(key).is_some()
    }

    /// Sets the key's value, and returns the previous value, or `None` for a new key. While other calls have the lock, the
    /// call yields and tries again. Returns [`OutOfMemory`], with nothing changed, if there is no memory or the limit is
    /// reached. A present key needs no memory.
    ///
    /// ```
    /// # fn main() -> Result<(), Box<dyn std::error::Error>> {
    /// let guard = proved_congee::SharedMap::new()?.pin()?;
    /// assert_eq!(guard.insert(7, 70)?, None);
    /// assert_eq!(guard.insert(7, 71)?, Some(70));
    /// # Ok(())
    /// # }
    /// ```
    #[doc(alias("put", "upsert"))]
    pub fn insert(&self, key: u64, value: u64) -> Result<Option<u64>, OutOfMemory> {
        waiting_for_memory(|| self.try_insert(key, value))
    }

    /// Sets the key's value, and returns the previous value, or `None` for a new key. Doesn't wait: returns
    /// [`TryError::Busy`], with nothing changed, if a lock of the call was taken at each of a bounded number of tries.
    /// Returns [`TryError::OutOfMemory`], with nothing changed, if there is no memory or the limit is reached. A present
    /// key needs no memory.
    ///
    /// ```
    /// # fn main() -> Result<(), Box<dyn std::error::Error>> {
    /// let guard = proved_congee::SharedMap::new()?.pin()?;
    /// assert_eq!(guard.try_insert(7, 70)?, None);
    /// # Ok(())
    /// # }
    /// ```
    pub fn try_insert(&self, key: u64, value: u64) -> Result<Option<u64>, TryError> {
        let mut before = 0;
        let code = unsafe { congee_c_shared_insert(&mut self.handle(), key, value, &mut before) };
        if_made(code, before)
    }

    /// Inserts the pairs one by one, and waits where [`insert`](Guard::insert) waits. Other calls come in between. The first
    /// refused pair ends the call, and the pairs before are in the map. The error has their number and the refused pair.
    ///
    /// ```
    /// # fn main() -> Result<(), Box<dyn std::error::Error>> {
    /// let guard = proved_congee::SharedMap::new()?.pin()?;
    /// guard.extend([(5, 50), (7, 70), (9, 90)])?;
    /// assert!(guard.iter().eq([(5, 50), (7, 70), (9, 90)]));
    /// # Ok(())
    /// # }
    /// ```
    #[doc(alias = "insert_many")]
    pub fn extend(&self, pairs: impl IntoIterator<Item = (u64, u64)>) -> Result<(), ExtendError> {
        loops::extend(self, pairs)
    }

    /// Inserts the pairs, and waits, as [`extend`](Guard::extend), which is the call's name now: other calls of a guard with
    /// `try_` don't wait.
    ///
    /// ```
    /// # #![allow(deprecated)]
    /// # fn main() -> Result<(), Box<dyn std::error::Error>> {
    /// let guard = proved_congee::SharedMap::new()?.pin()?;
    /// guard.try_extend([(5, 50), (7, 70)])?;
    /// assert_eq!(guard.len(), 2);
    /// # Ok(())
    /// # }
    /// ```
    #[doc(alias("extend", "insert_many"))]
    #[deprecated(note = "it waits: use `extend`")]
    pub fn try_extend(
        &self,
        pairs: impl IntoIterator<Item = (u64, u64)>,
    ) -> Result<(), ExtendError> {
        self.extend(pairs)
    }

    /// Inserts the value if the key is absent, and returns the key's value after the call.
    /// [`insert_absent`](Guard::insert_absent) also reports who inserted the value. While other calls have the lock, the
    /// call yields and tries again. Returns [`OutOfMemory`], with nothing changed, if there is no memory or the limit is
    /// reached. A present key needs no memory.
    ///
    /// ```
    /// # fn main() -> Result<(), Box<dyn std::error::Error>> {
    /// let guard = proved_congee::SharedMap::new()?.pin()?;
    /// assert_eq!(guard.get_or_insert(7, 70)?, 70);
    /// assert_eq!(guard.get_or_insert(7, 71)?, 70);
    /// # Ok(())
    /// # }
    /// ```
    #[doc(alias("entry", "or_default", "or_insert"))]
    pub fn get_or_insert(&self, key: u64, value: u64) -> Result<u64, OutOfMemory> {
        waiting_for_memory(|| self.try_get_or_insert(key, value))
    }

    /// Inserts the value if the key is absent, and returns the key's value after the call.
    /// [`insert_absent`](Guard::insert_absent) also reports who inserted the value. Doesn't wait: returns
    /// [`TryError::Busy`], with nothing changed, if a lock of the call was taken at each of a bounded number of tries.
    /// Returns [`TryError::OutOfMemory`], with nothing changed, if there is no memory or the limit is reached. A present
    /// key needs no memory.
    ///
    /// ```
    /// # fn main() -> Result<(), Box<dyn std::error::Error>> {
    /// let guard = proved_congee::SharedMap::new()?.pin()?;
    /// assert_eq!(guard.try_get_or_insert(7, 70)?, 70);
    /// # Ok(())
    /// # }
    /// ```
    pub fn try_get_or_insert(&self, key: u64, value: u64) -> Result<u64, TryError> {
        Ok(self.try_insert_absent(key, value)?.unwrap_or(value))
    }

    /// Inserts the value if the key is absent, and returns `None`. Otherwise changes nothing, and returns the present
    /// value. Of threads that claim one key at once, one gets `None`. While other calls have the lock, the call yields and
    /// tries again. Returns [`OutOfMemory`], with nothing changed, if there is no memory or the limit is reached. A present
    /// key needs no memory.
    ///
    /// ```
    /// use proved_congee::SharedMap;
    /// use std::thread;
    ///
    /// # fn main() -> Result<(), proved_congee::OutOfMemory> {
    /// let jobs = SharedMap::new()?;
    /// let guards = [jobs.pin()?, jobs.pin()?];
    /// let claims = guards.map(|guard| thread::spawn(move || guard.insert_absent(7, 70)));
    /// let answers = claims.map(|claim| claim.join().unwrap());
    /// assert_eq!(answers.iter().filter(|it| **it == Ok(None)).count(), 1);
    /// assert_eq!(jobs.pin()?.insert_absent(7, 71)?, Some(70));
    /// # Ok(())
    /// # }
    /// ```
    #[doc(alias("insert_if_absent", "try_insert"))]
    pub fn insert_absent(&self, key: u64, value: u64) -> Result<Option<u64>, OutOfMemory> {
        waiting_for_memory(|| self.try_insert_absent(key, value))
    }

    /// Inserts the value if the key is absent, and returns `None`. Otherwise changes nothing, and returns the present
    /// value. Of threads that claim one key at once, one gets `None`. Doesn't wait: returns [`TryError::Busy`], with
    /// nothing changed, if a lock of the call was taken at each of a bounded number of tries. Returns
    /// [`TryError::OutOfMemory`], with nothing changed, if there is no memory or the limit is reached. A present key needs
    /// no memory.
    ///
    /// ```
    /// # fn main() -> Result<(), Box<dyn std::error::Error>> {
    /// let guard = proved_congee::SharedMap::new()?.pin()?;
    /// assert_eq!(guard.try_insert_absent(7, 70)?, None);
    /// assert_eq!(guard.try_insert_absent(7, 71)?, Some(70));
    /// # Ok(())
    /// # }
    /// ```
    pub fn try_insert_absent(&self, key: u64, value: u64) -> Result<Option<u64>, TryError> {
        let mut found = 0;
        let code =
            unsafe { congee_c_shared_get_or_insert(&mut self.handle(), key, value, &mut found) };
        if_made(code, found)
    }

    /// Returns the key's value. For an absent key the closure is called once, and its value is inserted and returned,
    /// unless another call inserts the key meanwhile: then that call's value is returned. The closure is called outside of
    /// the lock, so it may take long, or call the map. While other calls have the lock, the call yields and tries again.
    /// Returns [`OutOfMemory`], with nothing changed, if there is no memory or the limit is reached. A present key needs no
    /// memory.
    ///
    /// ```
    /// # fn main() -> Result<(), Box<dyn std::error::Error>> {
    /// let guard = proved_congee::SharedMap::new()?.pin()?;
    /// guard.extend([(5, 50), (7, 70), (9, 90)])?;
    /// assert_eq!(guard.get_or_insert_with(7, || 1)?, 70);
    /// assert_eq!(guard.get_or_insert_with(8, || 80)?, 80);
    /// # Ok(())
    /// # }
    /// ```
    #[doc(alias("entry", "or_insert_with"))]
    pub fn get_or_insert_with(
        &self,
        key: u64,
        f: impl FnOnce() -> u64,
    ) -> Result<u64, OutOfMemory> {
        loops::get_or_insert_with(self, key, f)
    }

    /// Adds the number to the key's value, and returns the value before, or `None` for a new key, which gets the number as
    /// value. The sum wraps, as `u64::wrapping_add`. While other calls have the lock, the call yields and tries again.
    /// Returns [`OutOfMemory`], with nothing changed, if there is no memory or the limit is reached. A present key needs no
    /// memory.
    ///
    /// ```
    /// # fn main() -> Result<(), Box<dyn std::error::Error>> {
    /// let guard = proved_congee::SharedMap::new()?.pin()?;
    /// guard.extend([(5, 50), (7, 70), (9, 90)])?;
    /// assert_eq!(guard.add(7, 1)?, Some(70));
    /// assert_eq!((guard.get(7), guard.add(8, 1)?), (Some(71), None));
    /// # Ok(())
    /// # }
    /// ```
    #[doc(alias("fetch_add", "increment"))]
    pub fn add(&self, key: u64, number: u64) -> Result<Option<u64>, OutOfMemory> {
        waiting_for_memory(|| self.try_add(key, number))
    }

    /// Adds the number to the key's value, and returns the value before, or `None` for a new key, which gets the number as
    /// value. The sum wraps, as `u64::wrapping_add`. Doesn't wait: returns [`TryError::Busy`], with nothing changed, if a
    /// lock of the call was taken at each of a bounded number of tries. Returns [`TryError::OutOfMemory`], with nothing
    /// changed, if there is no memory or the limit is reached. A present key needs no memory.
    ///
    /// ```
    /// # fn main() -> Result<(), Box<dyn std::error::Error>> {
    /// let guard = proved_congee::SharedMap::new()?.pin()?;
    /// guard.extend([(5, 50), (7, 70), (9, 90)])?;
    /// assert_eq!(guard.try_add(7, 1)?, Some(70));
    /// # Ok(())
    /// # }
    /// ```
    pub fn try_add(&self, key: u64, number: u64) -> Result<Option<u64>, TryError> {
        let mut before = 0;
        let code = unsafe { congee_c_shared_add(&mut self.handle(), key, number, &mut before) };
        if_made(code, before)
    }

    /// Calls the closure with the key's value or `None`. Stores the value that the closure returns, or removes the key for
    /// `None`. Returns the previous value. If another call changes the key meanwhile, the closure is called again with the
    /// new value. The closure is called outside of the lock. While other calls have the lock, the call yields and tries
    /// again. Returns [`OutOfMemory`], with nothing changed, if there is no memory or the limit is reached. A present key
    /// needs no memory.
    ///
    /// ```
    /// # fn main() -> Result<(), Box<dyn std::error::Error>> {
    /// let guard = proved_congee::SharedMap::new()?.pin()?;
    /// guard.extend([(5, 50), (7, 70), (9, 90)])?;
    /// let halved = guard.compute(7, |value| Some(value? / 2))?;
    /// assert_eq!((halved, guard.get(7)), (Some(70), Some(35)));
    /// assert_eq!((guard.compute(7, |_| None)?, guard.get(7)), (Some(35), None));
    /// # Ok(())
    /// # }
    /// ```
    #[doc(alias(
        "alter",
        "and_modify",
        "compute_if_present",
        "compute_or_insert",
        "get_mut",
        "update"
    ))]
    pub fn compute(
        &self,
        key: u64,
        f: impl FnMut(Option<u64>) -> Option<u64>,
    ) -> Result<Option<u64>, OutOfMemory> {
        loops::compute(self, key, f)
    }

    /// Calls the closure with the key's value or `None`. Stores the value that the closure returns, or removes the key
    /// for `None`. Returns the previous value. The closure is called outside of the lock, so it may take long, or call
    /// the map. Doesn't wait: returns [`TryError::Busy`], with no pair changed, if a lock of the call was taken at each
    /// of a bounded number of tries. Returns [`TryError::Busy`] also if another call changed the key after the look-up.
    /// So the closure is called once, or not at all. Returns [`TryError::OutOfMemory`], with nothing changed, if there
    /// is no memory or the limit is reached. A present key needs no memory.
    ///
    /// ```
    /// # fn main() -> Result<(), Box<dyn std::error::Error>> {
    /// let guard = proved_congee::SharedMap::new()?.pin()?;
    /// guard.insert(7, 70)?;
    /// assert_eq!(guard.try_compute(7, |value| Some(value? / 2))?, Some(70));
    /// assert_eq!(guard.try_compute(7, |_| None)?, Some(35));
    /// assert_eq!(guard.get(7), None);
    /// # Ok(())
    /// # }
    /// ```
    pub fn try_compute(
        &self,
        key: u64,
        f: impl FnOnce(Option<u64>) -> Option<u64>,
    ) -> Result<Option<u64>, TryError> {
        loops::try_compute(self, key, f)
    }

    /// Returns the pair with the least key, or `None` for an empty map. While other calls have the lock, the call yields
    /// and tries again.
    ///
    /// ```
    /// # fn main() -> Result<(), Box<dyn std::error::Error>> {
    /// let guard = proved_congee::SharedMap::new()?.pin()?;
    /// guard.extend([(5, 50), (7, 70), (9, 90)])?;
    /// assert_eq!(guard.first(), Some((5, 50)));
    /// # Ok(())
    /// # }
    /// ```
    #[doc(alias("first_entry", "first_key_value", "min", "peek"))]
    pub fn first(&self) -> Option<(u64, u64)> {
        waiting(|| self.try_first())
    }

    /// Returns the pair with the least key, or `None` for an empty map. Doesn't wait: returns [`Busy`], with nothing
    /// changed, if a lock of the call was taken at each of a bounded number of tries.
    ///
    /// ```
    /// # fn main() -> Result<(), Box<dyn std::error::Error>> {
    /// let guard = proved_congee::SharedMap::new()?.pin()?;
    /// guard.extend([(5, 50), (7, 70), (9, 90)])?;
    /// assert_eq!(guard.try_first()?, Some((5, 50)));
    /// # Ok(())
    /// # }
    /// ```
    pub fn try_first(&self) -> Result<Option<(u64, u64)>, Busy> {
        self.pair(|handle, pair| unsafe { congee_c_shared_first(handle, pair) })
    }

    /// Returns the pair with the greatest key, or `None` for an empty map. While other calls have the lock, the call yields
    /// and tries again.
    ///
    /// ```
    /// # fn main() -> Result<(), Box<dyn std::error::Error>> {
    /// let guard = proved_congee::SharedMap::new()?.pin()?;
    /// guard.extend([(5, 50), (7, 70), (9, 90)])?;
    /// assert_eq!(guard.last(), Some((9, 90)));
    /// # Ok(())
    /// # }
    /// ```
    #[doc(alias("last_entry", "last_key_value", "max"))]
    pub fn last(&self) -> Option<(u64, u64)> {
        waiting(|| self.try_last())
    }

    /// Returns the pair with the greatest key, or `None` for an empty map. Doesn't wait: returns [`Busy`], with nothing
    /// changed, if a lock of the call was taken at each of a bounded number of tries.
    ///
    /// ```
    /// # fn main() -> Result<(), Box<dyn std::error::Error>> {
    /// let guard = proved_congee::SharedMap::new()?.pin()?;
    /// guard.extend([(5, 50), (7, 70), (9, 90)])?;
    /// assert_eq!(guard.try_last()?, Some((9, 90)));
    /// # Ok(())
    /// # }
    /// ```
    pub fn try_last(&self) -> Result<Option<(u64, u64)>, Busy> {
        self.pair(|handle, pair| unsafe { congee_c_shared_last(handle, pair) })
    }

    /// Returns the pair with the greatest key that is at most `key`, or `None` if no key fits. While other calls have the
    /// lock, the call yields and tries again.
    ///
    /// ```
    /// # fn main() -> Result<(), Box<dyn std::error::Error>> {
    /// let guard = proved_congee::SharedMap::new()?.pin()?;
    /// guard.extend([(5, 50), (7, 70), (9, 90)])?;
    /// assert_eq!((guard.floor(8), guard.floor(4)), (Some((7, 70)), None));
    /// # Ok(())
    /// # }
    /// ```
    pub fn floor(&self, key: u64) -> Option<(u64, u64)> {
        waiting(|| self.try_floor(key))
    }

    /// Returns the pair with the greatest key that is at most `key`, or `None` if no key fits. Doesn't wait: returns
    /// [`Busy`], with nothing changed, if a lock of the call was taken at each of a bounded number of tries.
    ///
    /// ```
    /// # fn main() -> Result<(), Box<dyn std::error::Error>> {
    /// let guard = proved_congee::SharedMap::new()?.pin()?;
    /// guard.extend([(5, 50), (7, 70), (9, 90)])?;
    /// assert_eq!(guard.try_floor(8)?, Some((7, 70)));
    /// # Ok(())
    /// # }
    /// ```
    pub fn try_floor(&self, key: u64) -> Result<Option<(u64, u64)>, Busy> {
        self.pair(|handle, pair| unsafe { congee_c_shared_floor(handle, key, pair) })
    }

    /// Returns the pair with the least key that is at least `key`, or `None` if no key fits. While other calls have the
    /// lock, the call yields and tries again.
    ///
    /// ```
    /// # fn main() -> Result<(), Box<dyn std::error::Error>> {
    /// let guard = proved_congee::SharedMap::new()?.pin()?;
    /// guard.extend([(5, 50), (7, 70), (9, 90)])?;
    /// assert_eq!((guard.ceiling(6), guard.ceiling(10)), (Some((7, 70)), None));
    /// # Ok(())
    /// # }
    /// ```
    #[doc(alias = "lower_bound")]
    pub fn ceiling(&self, key: u64) -> Option<(u64, u64)> {
        waiting(|| self.try_ceiling(key))
    }

    /// Returns the pair with the least key that is at least `key`, or `None` if no key fits. Doesn't wait: returns
    /// [`Busy`], with nothing changed, if a lock of the call was taken at each of a bounded number of tries.
    ///
    /// ```
    /// # fn main() -> Result<(), Box<dyn std::error::Error>> {
    /// let guard = proved_congee::SharedMap::new()?.pin()?;
    /// guard.extend([(5, 50), (7, 70), (9, 90)])?;
    /// assert_eq!(guard.try_ceiling(6)?, Some((7, 70)));
    /// # Ok(())
    /// # }
    /// ```
    pub fn try_ceiling(&self, key: u64) -> Result<Option<(u64, u64)>, Busy> {
        self.pair(|handle, pair| unsafe { congee_c_shared_ceiling(handle, key, pair) })
    }

    /// Returns the pair with the greatest key below `key`, or `None` if no key fits. While other calls have the lock, the
    /// call yields and tries again.
    ///
    /// ```
    /// # fn main() -> Result<(), Box<dyn std::error::Error>> {
    /// let guard = proved_congee::SharedMap::new()?.pin()?;
    /// guard.extend([(5, 50), (7, 70), (9, 90)])?;
    /// assert_eq!((guard.below(7), guard.below(5)), (Some((5, 50)), None));
    /// # Ok(())
    /// # }
    /// ```
    #[doc(alias = "predecessor")]
    pub fn below(&self, key: u64) -> Option<(u64, u64)> {
        waiting(|| self.try_below(key))
    }

    /// Returns the pair with the greatest key below `key`, or `None` if no key fits. Doesn't wait: returns [`Busy`], with
    /// nothing changed, if a lock of the call was taken at each of a bounded number of tries.
    ///
    /// ```
    /// # fn main() -> Result<(), Box<dyn std::error::Error>> {
    /// let guard = proved_congee::SharedMap::new()?.pin()?;
    /// guard.extend([(5, 50), (7, 70), (9, 90)])?;
    /// assert_eq!(guard.try_below(7)?, Some((5, 50)));
    /// # Ok(())
    /// # }
    /// ```
    pub fn try_below(&self, key: u64) -> Result<Option<(u64, u64)>, Busy> {
        self.pair(|handle, pair| unsafe { congee_c_shared_below(handle, key, pair) })
    }

    /// Returns the pair with the least key above `key`, or `None` if no key fits. While other calls have the lock, the call
    /// yields and tries again.
    ///
    /// ```
    /// # fn main() -> Result<(), Box<dyn std::error::Error>> {
    /// let guard = proved_congee::SharedMap::new()?.pin()?;
    /// guard.extend([(5, 50), (7, 70), (9, 90)])?;
    /// assert_eq!((guard.above(7), guard.above(9)), (Some((9, 90)), None));
    /// # Ok(())
    /// # }
    /// ```
    #[doc(alias("successor", "upper_bound"))]
    pub fn above(&self, key: u64) -> Option<(u64, u64)> {
        waiting(|| self.try_above(key))
    }

    /// Returns the pair with the least key above `key`, or `None` if no key fits. Doesn't wait: returns [`Busy`], with
    /// nothing changed, if a lock of the call was taken at each of a bounded number of tries.
    ///
    /// ```
    /// # fn main() -> Result<(), Box<dyn std::error::Error>> {
    /// let guard = proved_congee::SharedMap::new()?.pin()?;
    /// guard.extend([(5, 50), (7, 70), (9, 90)])?;
    /// assert_eq!(guard.try_above(7)?, Some((9, 90)));
    /// # Ok(())
    /// # }
    /// ```
    pub fn try_above(&self, key: u64) -> Result<Option<(u64, u64)>, Busy> {
        self.pair(|handle, pair| unsafe { congee_c_shared_above(handle, key, pair) })
    }

    /// Removes the pair with the least key, and returns the pair, or `None` for an empty map. A pop is never out of memory.
    /// While other calls have the lock, the call yields and tries again.
    ///
    /// ```
    /// # fn main() -> Result<(), Box<dyn std::error::Error>> {
    /// let guard = proved_congee::SharedMap::new()?.pin()?;
    /// guard.extend([(5, 50), (7, 70), (9, 90)])?;
    /// assert_eq!((guard.pop_first(), guard.first()), (Some((5, 50)), Some((7, 70))));
    /// # Ok(())
    /// # }
    /// ```
    #[doc(alias("pop", "pop_min"))]
    pub fn pop_first(&self) -> Option<(u64, u64)> {
        waiting(|| self.try_pop_first())
    }

    /// Removes the pair with the least key, and returns the pair, or `None` for an empty map. A pop is never out of memory.
    /// Doesn't wait: returns [`Busy`], with nothing changed, if a lock of the call was taken at each of a bounded number of
    /// tries.
    ///
    /// ```
    /// # fn main() -> Result<(), Box<dyn std::error::Error>> {
    /// let guard = proved_congee::SharedMap::new()?.pin()?;
    /// guard.extend([(5, 50), (7, 70), (9, 90)])?;
    /// assert_eq!(guard.try_pop_first()?, Some((5, 50)));
    /// # Ok(())
    /// # }
    /// ```
    pub fn try_pop_first(&self) -> Result<Option<(u64, u64)>, Busy> {
        self.pair(|handle, pair| unsafe { congee_c_shared_pop_first(handle, pair) })
    }

    /// Removes the pair with the greatest key, and returns the pair, or `None` for an empty map. A pop is never out of
    /// memory. While other calls have the lock, the call yields and tries again.
    ///
    /// ```
    /// # fn main() -> Result<(), Box<dyn std::error::Error>> {
    /// let guard = proved_congee::SharedMap::new()?.pin()?;
    /// guard.extend([(5, 50), (7, 70), (9, 90)])?;
    /// assert_eq!((guard.pop_last(), guard.last()), (Some((9, 90)), Some((7, 70))));
    /// # Ok(())
    /// # }
    /// ```
    #[doc(alias = "pop_max")]
    pub fn pop_last(&self) -> Option<(u64, u64)> {
        waiting(|| self.try_pop_last())
    }

    /// Removes the pair with the greatest key, and returns the pair, or `None` for an empty map. A pop is never out of
    /// memory. Doesn't wait: returns [`Busy`], with nothing changed, if a lock of the call was taken at each of a bounded
    /// number of tries.
    ///
    /// ```
    /// # fn main() -> Result<(), Box<dyn std::error::Error>> {
    /// let guard = proved_congee::SharedMap::new()?.pin()?;
    /// guard.extend([(5, 50), (7, 70), (9, 90)])?;
    /// assert_eq!(guard.try_pop_last()?, Some((9, 90)));
    /// # Ok(())
    /// # }
    /// ```
    pub fn try_pop_last(&self) -> Result<Option<(u64, u64)>, Busy> {
        self.pair(|handle, pair| unsafe { congee_c_shared_pop_last(handle, pair) })
    }

    /// Removes the pair with the least key, if that key is at most `key`, and returns the pair. Returns `None` if at
    /// one moment no key was at most `key`. Each pair goes to one caller. The pair was found by
    /// [`first`](Guard::first), and removed at a later moment, at which the key still had this value. So no lesser key
    /// was present throughout the call, but a lesser key that another call inserts in between stays. A pop is never out
    /// of memory. While other calls have the lock, the call yields and tries again. If another call removes or changes
    /// the found pair first, the call searches again.
    ///
    /// ```
    /// # fn main() -> Result<(), Box<dyn std::error::Error>> {
    /// let guard = proved_congee::SharedMap::new()?.pin()?;
    /// guard.extend([(5, 50), (7, 70), (9, 90)])?;
    /// assert_eq!((guard.pop_first_to(6), guard.pop_first_to(6)), (Some((5, 50)), None));
    /// # Ok(())
    /// # }
    /// ```
    pub fn pop_first_to(&self, key: u64) -> Option<(u64, u64)> {
        self.pop_by(|| self.first().filter(|pair| pair.0 <= key))
    }

    /// Removes the pair with the least key, if that key is at most `key`, and returns the pair. Returns `None` if at
    /// one moment no key was at most `key`. Each pair goes to one caller. The pair was found by
    /// [`first`](Guard::first), and removed at a later moment, at which the key still had this value. So no lesser key
    /// was present throughout the call, but a lesser key that another call inserts in between stays. A pop is never out
    /// of memory. Doesn't wait: returns [`Busy`], with no pair changed, if a lock of the call was taken at each of a
    /// bounded number of tries, or if another call removed or changed the found pair first.
    ///
    /// ```
    /// # fn main() -> Result<(), Box<dyn std::error::Error>> {
    /// let guard = proved_congee::SharedMap::new()?.pin()?;
    /// guard.extend([(5, 50), (7, 70), (9, 90)])?;
    /// assert_eq!(guard.try_pop_first_to(6)?, Some((5, 50)));
    /// assert_eq!(guard.try_pop_first_to(6)?, None);
    /// # Ok(())
    /// # }
    /// ```
    pub fn try_pop_first_to(&self, key: u64) -> Result<Option<(u64, u64)>, Busy> {
        let found = self.try_first()?;
        self.pop_found(found.filter(|pair| pair.0 <= key))
    }

    /// Removes the pair with the greatest key, if that key is at least `key`, and returns the pair. Returns `None` if
    /// at one moment no key was at least `key`. Each pair goes to one caller. The pair was found by
    /// [`last`](Guard::last), and removed at a later moment, at which the key still had this value. So no greater key
    /// was present throughout the call, but a greater key that another call inserts in between stays. A pop is never
    /// out of memory. While other calls have the lock, the call yields and tries again. If another call removes or
    /// changes the found pair first, the call searches again.
    ///
    /// ```
    /// # fn main() -> Result<(), Box<dyn std::error::Error>> {
    /// let guard = proved_congee::SharedMap::new()?.pin()?;
    /// guard.extend([(5, 50), (7, 70), (9, 90)])?;
    /// assert_eq!((guard.pop_last_from(8), guard.pop_last_from(8)), (Some((9, 90)), None));
    /// # Ok(())
    /// # }
    /// ```
    pub fn pop_last_from(&self, key: u64) -> Option<(u64, u64)> {
        self.pop_by(|| self.last().filter(|pair| pair.0 >= key))
    }

    /// Removes the pair with the greatest key, if that key is at least `key`, and returns the pair. Returns `None` if
    /// at one moment no key was at least `key`. Each pair goes to one caller. The pair was found by
    /// [`last`](Guard::last), and removed at a later moment, at which the key still had this value. So no greater key
    /// was present throughout the call, but a greater key that another call inserts in between stays. A pop is never
    /// out of memory. Doesn't wait: returns [`Busy`], with no pair changed, if a lock of the call was taken at each of
    /// a bounded number of tries, or if another call removed or changed the found pair first.
    ///
    /// ```
    /// # fn main() -> Result<(), Box<dyn std::error::Error>> {
    /// let guard = proved_congee::SharedMap::new()?.pin()?;
    /// guard.extend([(5, 50), (7, 70), (9, 90)])?;
    /// assert_eq!(guard.try_pop_last_from(8)?, Some((9, 90)));
    /// assert_eq!(guard.try_pop_last_from(8)?, None);
    /// # Ok(())
    /// # }
    /// ```
    pub fn try_pop_last_from(&self, key: u64) -> Result<Option<(u64, u64)>, Busy> {
        let found = self.try_last()?;
        self.pop_found(found.filter(|pair| pair.0 >= key))
    }

    // Removes the pair that `find` returns, and searches again where another call removed or changed the pair first.
    fn pop_by(&self, find: impl Fn() -> Option<(u64, u64)>) -> Option<(u64, u64)> {
        loop {
            let (key, value) = find()?;
            if self.compare_remove(key, value).is_ok() {
                return Some((key, value));
            }
        }
    }

    // Removes a pair that was found, unless another call has removed or changed the pair since.
    fn pop_found(&self, found: Option<(u64, u64)>) -> Result<Option<(u64, u64)>, Busy> {
        if let Some((key, value)) = found {
            self.try_compare_remove(key, value)?.map_err(|_| Busy)?;
        }
        Ok(found)
    }

    /// Removes the key, and returns the removed value, or `None` if the key was absent. A removal is never out of memory.
    /// While other calls have the lock, the call yields and tries again.
    ///
    /// ```
    /// # fn main() -> Result<(), Box<dyn std::error::Error>> {
    /// let guard = proved_congee::SharedMap::new()?.pin()?;
    /// guard.extend([(5, 50), (7, 70), (9, 90)])?;
    /// assert_eq!((guard.remove(7), guard.remove(7)), (Some(70), None));
    /// # Ok(())
    /// # }
    /// ```
    #[doc(alias("delete", "erase"))]
    pub fn remove(&self, key: impl Borrow<u64>) -> Option<u64> {
        let key = *key.borrow();
        waiting(|| self.try_remove(key))
    }

    /// Removes the key, and returns the removed value, or `None` if the key was absent. A removal is never out of memory.
    /// Doesn't wait: returns [`Busy`], with nothing changed, if a lock of the call was taken at each of a bounded number of
    /// tries.
    ///
    /// ```
    /// # fn main() -> Result<(), Box<dyn std::error::Error>> {
    /// let guard = proved_congee::SharedMap::new()?.pin()?;
    /// guard.extend([(5, 50), (7, 70), (9, 90)])?;
    /// assert_eq!(guard.try_remove(7)?, Some(70));
    /// # Ok(())
    /// # }
    /// ```
    pub fn try_remove(&self, key: impl Borrow<u64>) -> Result<Option<u64>, Busy> {
        let key = *key.borrow();
        self.value(|handle, value| unsafe { congee_c_shared_remove(handle, key, value) })
    }

    /// Replaces the key's value by `desired` if the value is `expected`. Otherwise changes nothing, and returns as an error
    /// the present value, or `None` if the key is absent. Needs no memory. While other calls have the lock, the call yields
    /// and tries again.
    ///
    /// ```
    /// # fn main() -> Result<(), Box<dyn std::error::Error>> {
    /// let guard = proved_congee::SharedMap::new()?.pin()?;
    /// guard.extend([(5, 50), (7, 70), (9, 90)])?;
    /// assert_eq!(guard.compare_exchange(7, 70, 71), Ok(()));
    /// assert_eq!(guard.compare_exchange(7, 70, 72), Err(Some(71)));
    /// assert_eq!(guard.compare_exchange(8, 70, 72), Err(None));
    /// # Ok(())
    /// # }
    /// ```
    #[doc(alias("cas", "compare_and_swap"))]
    pub fn compare_exchange(
        &self,
        key: u64,
        expected: u64,
        desired: u64,
    ) -> Result<(), Option<u64>> {
        waiting(|| self.try_compare_exchange(key, expected, desired))
    }

    /// Replaces the key's value by `desired` if the value is `expected`. Otherwise changes nothing, and returns as an error
    /// the present value, or `None` if the key is absent. Needs no memory. Doesn't wait: returns [`Busy`], with nothing
    /// changed, if a lock of the call was taken at each of a bounded number of tries.
    ///
    /// ```
    /// # fn main() -> Result<(), Box<dyn std::error::Error>> {
    /// let guard = proved_congee::SharedMap::new()?.pin()?;
    /// guard.extend([(5, 50), (7, 70), (9, 90)])?;
    /// assert_eq!(guard.try_compare_exchange(7, 70, 71)?, Ok(()));
    /// # Ok(())
    /// # }
    /// ```
    pub fn try_compare_exchange(
        &self,
        key: u64,
        expected: u64,
        desired: u64,
    ) -> Result<Result<(), Option<u64>>, Busy> {
        let mut found = 0;
        let code = unsafe {
            congee_c_shared_compare_exchange(&mut self.handle(), key, expected, desired, &mut found)
        };
        unless_busy(code, |code| if_expected(code, found))
    }

    /// Removes the key if the key's value is `expected`. Otherwise changes nothing, and returns as an error the present
    /// value, or `None` if the key is absent. A removal is never out of memory. While other calls have the lock, the call
    /// yields and tries again.
    ///
    /// ```
    /// # fn main() -> Result<(), Box<dyn std::error::Error>> {
    /// let guard = proved_congee::SharedMap::new()?.pin()?;
    /// guard.extend([(5, 50), (7, 70), (9, 90)])?;
    /// assert_eq!(guard.compare_remove(7, 71), Err(Some(70)));
    /// assert_eq!(guard.compare_remove(7, 70), Ok(()));
    /// # Ok(())
    /// # }
    /// ```
    #[doc(alias = "remove_if")]
    pub fn compare_remove(&self, key: u64, expected: u64) -> Result<(), Option<u64>> {
        waiting(|| self.try_compare_remove(key, expected))
    }

    /// Removes the key if the key's value is `expected`. Otherwise changes nothing, and returns as an error the present
    /// value, or `None` if the key is absent. A removal is never out of memory. Doesn't wait: returns [`Busy`], with
    /// nothing changed, if a lock of the call was taken at each of a bounded number of tries.
    ///
    /// ```
    /// # fn main() -> Result<(), Box<dyn std::error::Error>> {
    /// let guard = proved_congee::SharedMap::new()?.pin()?;
    /// guard.extend([(5, 50), (7, 70), (9, 90)])?;
    /// assert_eq!(guard.try_compare_remove(7, 70)?, Ok(()));
    /// # Ok(())
    /// # }
    /// ```
    pub fn try_compare_remove(
        &self,
        key: u64,
        expected: u64,
    ) -> Result<Result<(), Option<u64>>, Busy> {
        let mut found = 0;
        let code = unsafe {
            congee_c_shared_compare_remove(&mut self.handle(), key, expected, &mut found)
        };
        unless_busy(code, |code| if_expected(code, found))
    }

    /// Writes the first pairs with `start <= key < end` to the buffer, keys ascending, and returns how many pairs fit.
    /// `u64::MAX` is in no such range. All pairs of the page are of one moment. The rest of the buffer is unchanged. While
    /// other calls have the lock, the call yields and tries again.
    ///
    /// ```
    /// # fn main() -> Result<(), Box<dyn std::error::Error>> {
    /// let guard = proved_congee::SharedMap::new()?.pin()?;
    /// guard.extend([(5, 50), (7, 70), (9, 90)])?;
    /// let mut page = [proved_congee::Pair::default(); 2];
    /// assert_eq!(guard.read_range(6, 9, &mut page), 1);
    /// assert_eq!(page.map(|pair| pair.key), [7, 0]);
    /// # Ok(())
    /// # }
    /// ```
    #[doc(alias("page", "scan"))]
    pub fn read_range(&self, start: u64, end: u64, buffer: &mut [Pair]) -> usize {
        waiting(|| self.try_read_range(start, end, buffer))
    }

    /// Writes the first pairs with `start <= key < end` to the buffer, keys ascending, and returns how many pairs fit.
    /// `u64::MAX` is in no such range. All pairs of the page are of one moment. The rest of the buffer is unchanged.
    /// Doesn't wait: returns [`Busy`], with nothing changed, if a lock of the call was taken at each of a bounded number of
    /// tries.
    ///
    /// ```
    /// # fn main() -> Result<(), Box<dyn std::error::Error>> {
    /// let guard = proved_congee::SharedMap::new()?.pin()?;
    /// guard.extend([(5, 50), (7, 70), (9, 90)])?;
    /// let mut page = [proved_congee::Pair::default(); 2];
    /// assert_eq!(guard.try_read_range(6, 9, &mut page)?, 1);
    /// # Ok(())
    /// # }
    /// ```
    pub fn try_read_range(&self, start: u64, end: u64, buffer: &mut [Pair]) -> Result<usize, Busy> {
        let (place, n) = (buffer.as_mut_ptr(), buffer.len());
        self.number(|handle, written| unsafe {
            congee_c_shared_range(handle, start, end, place, n, written)
        })
        .map(as_length)
    }

    /// Writes the first pairs with `start <= key <= last` to the buffer, keys ascending, and returns how many pairs fit.
    /// All pairs of the page are of one moment. The rest of the buffer is unchanged. While other calls have the lock, the
    /// call yields and tries again.
    ///
    /// ```
    /// # fn main() -> Result<(), Box<dyn std::error::Error>> {
    /// let guard = proved_congee::SharedMap::new()?.pin()?;
    /// guard.extend([(5, 50), (7, 70), (9, 90)])?;
    /// let mut page = [proved_congee::Pair::default(); 2];
    /// assert_eq!(guard.read_range_inclusive(0, u64::MAX, &mut page), 2);
    /// assert_eq!(page.map(|pair| pair.key), [5, 7]);
    /// # Ok(())
    /// # }
    /// ```
    pub fn read_range_inclusive(&self, start: u64, last: u64, buffer: &mut [Pair]) -> usize {
        waiting(|| self.try_read_range_inclusive(start, last, buffer))
    }

    /// Writes the first pairs with `start <= key <= last` to the buffer, keys ascending, and returns how many pairs fit.
    /// All pairs of the page are of one moment. The rest of the buffer is unchanged. Doesn't wait: returns [`Busy`], with
    /// nothing changed, if a lock of the call was taken at each of a bounded number of tries.
    ///
    /// ```
    /// # fn main() -> Result<(), Box<dyn std::error::Error>> {
    /// let guard = proved_congee::SharedMap::new()?.pin()?;
    /// guard.extend([(5, 50), (7, 70), (9, 90)])?;
    /// let mut page = [proved_congee::Pair::default(); 2];
    /// assert_eq!(guard.try_read_range_inclusive(0, u64::MAX, &mut page)?, 2);
    /// # Ok(())
    /// # }
    /// ```
    pub fn try_read_range_inclusive(
        &self,
        start: u64,
        last: u64,
        buffer: &mut [Pair],
    ) -> Result<usize, Busy> {
        let (place, n) = (buffer.as_mut_ptr(), buffer.len());
        self.number(|handle, written| unsafe {
            congee_c_shared_range_inclusive(handle, start, last, place, n, written)
        })
        .map(as_length)
    }

    /// Writes the last pairs with `start <= key <= last` to the buffer, keys descending, and returns how many pairs fit.
    /// All pairs of the page are of one moment. The rest of the buffer is unchanged. While other calls have the lock, the
    /// call yields and tries again.
    ///
    /// ```
    /// # fn main() -> Result<(), Box<dyn std::error::Error>> {
    /// let guard = proved_congee::SharedMap::new()?.pin()?;
    /// guard.extend([(5, 50), (7, 70), (9, 90)])?;
    /// let mut page = [proved_congee::Pair::default(); 2];
    /// assert_eq!(guard.read_range_descending(0, u64::MAX, &mut page), 2);
    /// assert_eq!(page.map(|pair| pair.key), [9, 7]);
    /// # Ok(())
    /// # }
    /// ```
    pub fn read_range_descending(&self, start: u64, last: u64, buffer: &mut [Pair]) -> usize {
        waiting(|| self.try_read_range_descending(start, last, buffer))
    }

    /// Writes the last pairs with `start <= key <= last` to the buffer, keys descending, and returns how many pairs fit.
    /// All pairs of the page are of one moment. The rest of the buffer is unchanged. Doesn't wait: returns [`Busy`], with
    /// nothing changed, if a lock of the call was taken at each of a bounded number of tries.
    ///
    /// ```
    /// # fn main() -> Result<(), Box<dyn std::error::Error>> {
    /// let guard = proved_congee::SharedMap::new()?.pin()?;
    /// guard.extend([(5, 50), (7, 70), (9, 90)])?;
    /// let mut page = [proved_congee::Pair::default(); 2];
    /// assert_eq!(guard.try_read_range_descending(0, u64::MAX, &mut page)?, 2);
    /// # Ok(())
    /// # }
    /// ```
    pub fn try_read_range_descending(
        &self,
        start: u64,
        last: u64,
        buffer: &mut [Pair],
    ) -> Result<usize, Busy> {
        let (place, n) = (buffer.as_mut_ptr(), buffer.len());
        self.number(|handle, written| unsafe {
            congee_c_shared_range_descending(handle, start, last, place, n, written)
        })
        .map(as_length)
    }

    /// Returns the pairs whose keys are within the bounds, keys ascending, from either end. The pairs are read in pages of
    /// 4, and later up to 256. The pairs of a page are of one moment, and other calls come in between two pages. A key
    /// that is present throughout is returned.
    ///
    /// ```
    /// # fn main() -> Result<(), Box<dyn std::error::Error>> {
    /// let guard = proved_congee::SharedMap::new()?.pin()?;
    /// guard.extend([(5, 50), (7, 70), (9, 90)])?;
    /// assert!(guard.range(6..).eq([(7, 70), (9, 90)]));
    /// assert_eq!(guard.range(..=8).next_back(), Some((7, 70)));
    /// # Ok(())
    /// # }
    /// ```
    #[doc(alias("cursor", "range_mut", "scan"))]
    pub fn range(&self, bounds: impl RangeBounds<u64>) -> Range<'_> {
        loops::range(self, bounds)
    }

    /// Returns all pairs, keys ascending, from either end. The pairs are read in pages of 4, and later up to 256. The
    /// pairs of a page are of one moment, and other calls come in between two pages. A key that is present throughout is
    /// returned.
    ///
    /// ```
    /// # fn main() -> Result<(), Box<dyn std::error::Error>> {
    /// let guard = proved_congee::SharedMap::new()?.pin()?;
    /// guard.extend([(5, 50), (7, 70), (9, 90)])?;
    /// assert!(guard.iter().eq([(5, 50), (7, 70), (9, 90)]));
    /// # Ok(())
    /// # }
    /// ```
    #[doc(alias("for_each", "iter_mut"))]
    pub fn iter(&self) -> Range<'_> {
        self.range(..)
    }

    /// Returns all keys, ascending, from either end. The pairs are read in pages of 4, and later up to 256. The pairs of a
    /// page are of one moment, and other calls come in between two pages. A key that is present throughout is returned.
    ///
    /// ```
    /// # fn main() -> Result<(), Box<dyn std::error::Error>> {
    /// let guard = proved_congee::SharedMap::new()?.pin()?;
    /// guard.extend([(5, 50), (7, 70), (9, 90)])?;
    /// assert!(guard.keys().eq([5, 7, 9]));
    /// # Ok(())
    /// # }
    /// ```
    pub fn keys(&self) -> Keys<'_> {
        Keys { of: self.iter() }
    }

    /// Returns all values, by ascending keys, from either end. The pairs are read in pages of 4, and later up to 256. The
    /// pairs of a page are of one moment, and other calls come in between two pages. A key that is present throughout is
    /// returned.
    ///
    /// ```
    /// # fn main() -> Result<(), Box<dyn std::error::Error>> {
    /// let guard = proved_congee::SharedMap::new()?.pin()?;
    /// guard.extend([(5, 50), (7, 70), (9, 90)])?;
    /// assert!(guard.values().eq([50, 70, 90]));
    /// # Ok(())
    /// # }
    /// ```
    #[doc(alias = "values_mut")]
    pub fn values(&self) -> Values<'_> {
        Values { of: self.iter() }
    }

    /// Removes the pairs whose keys are within the bounds, one by one, and returns how many pairs this call removed. Other
    /// calls come in between. While other calls have the lock, the call yields and tries again. Never out of memory.
    ///
    /// ```
    /// # fn main() -> Result<(), Box<dyn std::error::Error>> {
    /// let guard = proved_congee::SharedMap::new()?.pin()?;
    /// guard.extend([(5, 50), (7, 70), (9, 90)])?;
    /// assert_eq!((guard.remove_range(6..), guard.len()), (2, 1));
    /// # Ok(())
    /// # }
    /// ```
    #[doc(alias = "drain")]
    pub fn remove_range(&self, bounds: impl RangeBounds<u64>) -> u64 {
        loops::remove_range(self, bounds)
    }

    /// Copies the pairs into a map of their own, without a limit. The copy is made of pages of 4, and later up to 256
    /// pairs, each page of one moment. Other calls come in between two pages. A key that is present throughout the call is
    /// in the copy, with a value that it had meanwhile. If other calls change the map, the map may never have had just
    /// these pairs. [`Map::freeze`] makes readers of the copy. While other calls have the lock, the call yields and tries
    /// again. Returns [`OutOfMemory`], with nothing changed, if there is no memory for the copy.
    ///
    /// ```
    /// # fn main() -> Result<(), Box<dyn std::error::Error>> {
    /// let guard = proved_congee::SharedMap::new()?.pin()?;
    /// guard.extend([(5, 50), (7, 70), (9, 90)])?;
    /// let copy = guard.snapshot()?;
    /// guard.remove(7);
    /// assert!(copy.iter().eq([(5, 50), (7, 70), (9, 90)]));
    /// # Ok(())
    /// # }
    /// ```
    #[doc(alias = "to_owned")]
    pub fn snapshot(&self) -> Result<Map, OutOfMemory> {
        loops::snapshot(self)
    }

    /// Calls `keep` with each pair, keys ascending, outside of the lock. Removes the pairs for which `keep` returns
    /// false. If another call changes the value in between, `keep` is called again with the new value. So each key that
    /// is present throughout the call, and stays, had a value meanwhile for which `keep` returned true. Other calls
    /// come in between. While other calls have the lock, the call yields and tries again. Never out of memory.
    ///
    /// ```
    /// # fn main() -> Result<(), Box<dyn std::error::Error>> {
    /// let guard = proved_congee::SharedMap::new()?.pin()?;
    /// guard.extend([(5, 50), (7, 70), (9, 90)])?;
    /// guard.retain(|key, value| key > 5 && value < 90);
    /// assert!(guard.keys().eq([7]));
    /// # Ok(())
    /// # }
    /// ```
    pub fn retain(&self, keep: impl FnMut(u64, u64) -> bool) {
        loops::retain(self, keep);
    }

    /// Removes all pairs, at one moment. Other calls wait meanwhile. Never out of memory. While other calls have the lock,
    /// the call yields and tries again.
    ///
    /// ```
    /// # fn main() -> Result<(), Box<dyn std::error::Error>> {
    /// let guard = proved_congee::SharedMap::new()?.pin()?;
    /// guard.extend([(5, 50), (7, 70), (9, 90)])?;
    /// guard.clear();
    /// assert!(guard.is_empty());
    /// # Ok(())
    /// # }
    /// ```
    pub fn clear(&self) {
        waiting(|| self.try_clear());
    }

    /// Removes all pairs, at one moment. Other calls are busy meanwhile. Never out of memory. Doesn't wait: returns
    /// [`Busy`], with nothing changed, if a lock of the call was taken at each of a bounded number of tries.
    ///
    /// ```
    /// # fn main() -> Result<(), Box<dyn std::error::Error>> {
    /// let guard = proved_congee::SharedMap::new()?.pin()?;
    /// guard.extend([(5, 50), (7, 70), (9, 90)])?;
    /// guard.try_clear()?;
    /// assert!(guard.is_empty());
    /// # Ok(())
    /// # }
    /// ```
    pub fn try_clear(&self) -> Result<(), Busy> {
        let code = unsafe { congee_c_shared_clear(&mut self.handle()) };
        unless_busy(code, |_| ())
    }

    /// Returns whether the map has no pair, in constant time for each shard. While other calls have the lock, the call
    /// yields and tries again.
    ///
    /// ```
    /// # fn main() -> Result<(), Box<dyn std::error::Error>> {
    /// let guard = proved_congee::SharedMap::new()?.pin()?;
    /// guard.extend([(5, 50), (7, 70), (9, 90)])?;
    /// assert!(!guard.is_empty());
    /// # Ok(())
    /// # }
    /// ```
    pub fn is_empty(&self) -> bool {
        waiting(|| self.try_is_empty())
    }

    /// Returns whether the map has no pair, in constant time for each shard. Doesn't wait: returns [`Busy`], with nothing
    /// changed, if a lock of the call was taken at each of a bounded number of tries.
    ///
    /// ```
    /// # fn main() -> Result<(), Box<dyn std::error::Error>> {
    /// let guard = proved_congee::SharedMap::new()?.pin()?;
    /// guard.extend([(5, 50), (7, 70), (9, 90)])?;
    /// assert!(!guard.try_is_empty()?);
    /// # Ok(())
    /// # }
    /// ```
    pub fn try_is_empty(&self) -> Result<bool, Busy> {
        self.number(|handle, number| unsafe { congee_c_shared_is_empty(handle, number) })
            .map(|is_empty| is_empty != 0)
    }

    /// Returns the exact number of pairs, in constant time for each shard. While other calls have the lock, the call yields
    /// and tries again.
    ///
    /// ```
    /// # fn main() -> Result<(), Box<dyn std::error::Error>> {
    /// let guard = proved_congee::SharedMap::new()?.pin()?;
    /// guard.extend([(5, 50), (7, 70), (9, 90)])?;
    /// assert_eq!(guard.len(), 3);
    /// # Ok(())
    /// # }
    /// ```
    #[doc(alias("count", "size", "value_count"))]
    pub fn len(&self) -> usize {
        waiting(|| self.try_len())
    }

    /// Returns the exact number of pairs, in constant time for each shard. Doesn't wait: returns [`Busy`], with nothing
    /// changed, if a lock of the call was taken at each of a bounded number of tries.
    ///
    /// ```
    /// # fn main() -> Result<(), Box<dyn std::error::Error>> {
    /// let guard = proved_congee::SharedMap::new()?.pin()?;
    /// guard.extend([(5, 50), (7, 70), (9, 90)])?;
    /// assert_eq!(guard.try_len()?, 3);
    /// # Ok(())
    /// # }
    /// ```
    pub fn try_len(&self) -> Result<usize, Busy> {
        self.number(|handle, number| unsafe { congee_c_shared_count(handle, number) })
            .map(as_length)
    }

    /// Returns the sum in bytes of the stated sizes of the map's nodes, which counts against the limit. While other calls
    /// have the lock, the call yields and tries again.
    ///
    /// ```
    /// # fn main() -> Result<(), Box<dyn std::error::Error>> {
    /// let guard = proved_congee::SharedMap::new()?.pin()?;
    /// guard.extend([(5, 50), (7, 70), (9, 90)])?;
    /// assert_eq!(guard.charged(), 2104 + 64);
    /// # Ok(())
    /// # }
    /// ```
    #[doc(alias("bytes", "memory_usage", "stats"))]
    pub fn charged(&self) -> u64 {
        waiting(|| self.try_charged())
    }

    /// Returns the sum in bytes of the stated sizes of the map's nodes, which counts against the limit. Doesn't wait:
    /// returns [`Busy`], with nothing changed, if a lock of the call was taken at each of a bounded number of tries.
    ///
    /// ```
    /// # fn main() -> Result<(), Box<dyn std::error::Error>> {
    /// let guard = proved_congee::SharedMap::new()?.pin()?;
    /// guard.extend([(5, 50), (7, 70), (9, 90)])?;
    /// assert_eq!(guard.try_charged()?, 2104 + 64);
    /// # Ok(())
    /// # }
    /// ```
    pub fn try_charged(&self) -> Result<u64, Busy> {
        self.try_usage().map(|usage| usage.0)
    }

    /// Returns the limit in bytes that the map was made with, or `u64::MAX` for none.
    ///
    /// ```
    /// # fn main() -> Result<(), proved_congee::OutOfMemory> {
    /// assert_eq!(proved_congee::SharedMap::with_limit(10_000)?.pin()?.limit(), 10_000);
    /// # Ok(())
    /// # }
    /// ```
    pub fn limit(&self) -> u64 {
        self.limit
    }

    /// What the nodes are charged, and the limit. The first is at most the second. In shards the limit is the sum of the
    /// shards' limits. Waits while the map is busy.
    ///
    /// ```
    /// # fn main() -> Result<(), Box<dyn std::error::Error>> {
    /// let guard = proved_congee::SharedMap::with_limit(5000)?.pin()?;
    /// assert_eq!(guard.usage(), (2104, 5000));
    /// # Ok(())
    /// # }
    /// ```
    pub fn usage(&self) -> (u64, u64) {
        waiting(|| self.try_usage())
    }

    /// What the nodes are charged, and the limit. The first is at most the second. In shards the limit is the sum of the
    /// shards' limits. Doesn't wait.
    ///
    /// ```
    /// # fn main() -> Result<(), Box<dyn std::error::Error>> {
    /// let guard = proved_congee::SharedMap::with_limit(5000)?.pin()?;
    /// assert_eq!(guard.try_usage()?, (2104, 5000));
    /// # Ok(())
    /// # }
    /// ```
    pub fn try_usage(&self) -> Result<(u64, u64), Busy> {
        let (mut charged, mut limit) = (0, 0);
        let code = unsafe { congee_c_shared_usage(&mut self.handle(), &mut charged, &mut limit) };
        unless_busy(code, |_| (charged, limit))
    }
}

impl Drop for Guard {
    fn drop(&mut self) {
        // (the address isn't used again)
        unsafe { congee_c_shared_free(self.handle()) }
    }
}

impl fmt::Debug for Guard {
    fn fmt(&self, f: &mut fmt::Formatter<'_>) -> fmt::Result {
        f.debug_struct("Guard").finish_non_exhaustive()
    }
}

impl<'a> IntoIterator for &'a Guard {
    type Item = (u64, u64);
    type IntoIter = Range<'a>;

    fn into_iter(self) -> Range<'a> {
        self.iter()
    }
}
