//! An ordered map from `u64` to `u64`, kept in an adaptive radix tree by the proved static library `congee_c`.
//!
//! ```
//! use proved_congee::Map;
//!
//! # fn main() -> Result<(), proved_congee::OutOfMemory> {
//! let mut map = Map::new()?;
//! assert_eq!(map.insert(1, 10)?, None);
//! assert_eq!(map.insert(1, 11)?, Some(10));
//! assert_eq!(map.insert(u64::MAX, 12)?, None);
//! assert_eq!(map.get(1), Some(11));
//! assert_eq!(map.iter().collect::<Vec<_>>(), [(1, 11), (u64::MAX, 12)]);
//! # Ok(())
//! # }
//! ```
//!
//! What each function of the library returns, and what the map is afterwards, is proved of the library's code. This wrapper
//! around the functions is tested, not proved. The theorem holds for callers that keep the rules of `congee.h`. The wrapper
//! keeps them, except for what a program's text doesn't show:
//!
//! - `malloc`, `realloc` and `free` are of one allocator.
//! - The stack has room for a call, which goes some eight levels deep and takes a few kilobytes.
//! - No call is made in a signal handler, or in the forked child of a process with threads.
//! - The declarations of this crate fit the archive, which is of the same version ([`version`]).
//! - A map, a guard or a reader goes to another thread by a lock, by the start or the join of a thread, or by a sequentially
//!   consistent atomic. A hand-over by `Acquire` and `Release` alone, which safe Rust also allows, is not among the cases that
//!   the library's toolchain names.
//!
//! # Memory
//!
//! A call that may find no memory, or reach the map's limit, returns a `Result`, and an `Err` has changed no pair.
//! `FromIterator`, `Extend`, `Clone` and `Default` can't return errors. In their place are [`Map::try_from_iter`], `TryFrom`,
//! [`Map::try_extend`] and [`Map::try_clone`]. `Index` is missing, since values are returned and not lent.
//!
//! A limit bounds the stated sizes of the map's nodes ([`Map::charged`]). `malloc` lends up to 1.8 times as much. Memory of
//! removed nodes is kept for later insertions. Once three quarters of it are free, a removal moves the nodes into less memory.
//!
//! # Cost
//!
//! A call of one key, an end or a neighbour reads one or two paths of at most eight nodes. `len`, `is_empty` and `charged` of
//! a [`Map`] take constant time. Iterators read pages of pairs: 4, then 16, then 64, and 256 at a time once 256 were read. A
//! page of 256 takes 4 KB of memory, and without that memory pages stay at 64. A clone of an iterator takes no memory, and
//! reads anew what is left. Calls that look a key up or remove one take `7` and `&7`.
//!
//! # Keys and values of other types
//!
//! [`keyed::OrdMap`] has keys and values of any type that can be written as a number which keeps the order: `i32`, `char`, pairs
//! of small numbers, and types of one's own. For threads there are [`keyed::OrdSharedMap`] and [`keyed::OrdLiveMap`]. A cast
//! doesn't keep the order: `-1i64 as u64` is the greatest number.
//!
//! # Threads
//!
//! Threads share a [`LiveMap`], each by a [`LiveGuard`] of its own, and look keys up without a lock. Or threads share a
//! [`SharedMap`], each by a [`Guard`] of its own, under locks of the library. A [`LiveArcMap`] has objects as values, which
//! look-ups lend.
//!
//! A [`Map`] can move to another thread. Threads can't share a map by `&`, since the library takes a map as its own during each
//! call, reads included. So a `Map` isn't `Sync`, and a `RwLock` or an `Arc` alone doesn't help. Put the map into a `Mutex`, or
//! freeze it: then [`Readers`] hands out readers, which look up side by side.
//!
//! ```
//! # use proved_congee::{Map, OutOfMemory};
//! # fn main() -> Result<(), OutOfMemory> {
//! let mut map = Map::new()?;
//! map.insert(1, 10)?;
//! let moved = std::thread::spawn(move || map.get(1));
//! assert_eq!(moved.join().unwrap(), Some(10));
//! # Ok(())
//! # }
//! ```
//!
//! ```compile_fail
//! fn is_shared<T: Sync>() {}
//! is_shared::<proved_congee::Map>();
//! ```
//!
//! ```compile_fail
//! fn is_shared<T: Sync>() {}
//! is_shared::<proved_congee::Frozen>();
//! ```
//!
//! ```compile_fail
//! fn is_shared<T: Sync>() {}
//! is_shared::<proved_congee::Guard>();
//! ```
//!
//! ```compile_fail
//! fn is_shared<T: Sync>() {}
//! is_shared::<proved_congee::LiveGuard>();
//! ```
//!
//! ```
//! fn is_shared<T: Send + Sync>() {}
//! fn may_move<T: Send>() {}
//! is_shared::<proved_congee::SharedMap>();
//! is_shared::<proved_congee::LiveMap>();
//! may_move::<proved_congee::Guard>();
//! may_move::<proved_congee::LiveGuard>();
//! is_shared::<proved_congee::LiveArcMap<String>>();
//! ```

#![warn(missing_docs, missing_debug_implementations)]

mod frozen;
pub mod keyed;
mod live;
mod live_owners;
mod loops;
mod map;
mod owner;
mod pages;
mod shared;

pub use proved_congee_sys::Pair;
// (its declarations, for the modules)
use proved_congee_sys as sys;

pub use frozen::{Frozen, Readers};
pub use live::{LiveGuard, LiveMap, LiveNote};
pub use live_owners::{
    Arcs, ExchangeError, LiveArcGuard, LiveArcMap, LiveBoxGuard, LiveBoxMap, LiveOwnerGuard,
    LiveOwnerMap, Loan, PinError, Pointer, Refused, Ticket,
};
pub use map::{ExtendError, FreezeError, Map};
pub use pages::{IntoIter, Keys, LiveRange, Range, Values};
pub use shared::{Busy, Guard, Note, SharedMap, TryError};

use std::fmt;

/// (so that the example of the README is tried)
#[cfg(doctest)]
#[doc = include_str!("../README.md")]
struct Readme;

/// The error of a call that may take memory: there is no memory, or the map's limit is reached. The call has changed no pair.
///
/// ```
/// use proved_congee::{Map, OutOfMemory};
///
/// assert_eq!(Map::with_limit(100).unwrap_err(), OutOfMemory);
/// ```
#[derive(Clone, Copy, Debug, PartialEq, Eq)]
pub struct OutOfMemory;

impl fmt::Display for OutOfMemory {
    fn fmt(&self, f: &mut fmt::Formatter<'_>) -> fmt::Result {
        f.write_str("there is no memory for another node")
    }
}

impl std::error::Error for OutOfMemory {}

/// So that `?` works in a function that returns an `io::Result`.
impl From<OutOfMemory> for std::io::Error {
    fn from(_: OutOfMemory) -> Self {
        std::io::ErrorKind::OutOfMemory.into()
    }
}

/// Returns the version of the archive that the program is linked with, as three numbers.
///
/// ```
/// let (major, minor, patch) = proved_congee::version();
/// assert_eq!(format!("{major}.{minor}.{patch}"), env!("CARGO_PKG_VERSION"));
/// ```
pub fn version() -> (u32, u32, u32) {
    // SAFETY: it takes nothing and may be called at any time.
    let number = unsafe { sys::congee_c_version() };
    (number / 10000, number / 100 % 100, number % 100)
}
