//! The names and signatures of the crate `congee` 0.4.1, over the live map of `proved-congee`.
//!
//! A program that uses that crate changes one line, in its Cargo.toml:
//!
//! ```toml
//! congee = { package = "proved-congee-drop-in", version = "0.1" }
//! ```
//!
//! ```
//! use congee::Congee;
//!
//! let map = Congee::<usize, usize>::default();
//! let guard = map.pin();
//! assert_eq!(map.insert(1, 42, &guard).unwrap(), None);
//! assert_eq!(map.compute_if_present(&1, |value| Some(value + 1), &guard), Some((42, Some(43))));
//! assert_eq!(map.get(&1, &guard), Some(43));
//! ```
//!
//! Proved is the live map beneath: calls of one key are sequentially consistent. This layer is tested. Differences from the crate:
//!
//! - [`OOMError`] can be named. [`Allocator`] is for two types of this crate: [`DefaultAllocator`], and [`Limit`] for a map
//!   whose nodes take at most so many bytes. (No program can implement the crate's trait, whose error has no public name.)
//! - A drainer is `Send`, since the map that calls the drainer is `Send`.
//! - [`Congee::is_empty`] is true exactly for a map without pairs.
//! - [`Congee::stats`] is of a tree made anew from the keys, and reads all keys.
//! - Closures are called while nothing is locked, and again if another thread changes the key meanwhile. Owners that a closure
//!   returned in vain are dropped.
//! - A thread takes a handle of a map at its first call. A thread that inserts owns 4 KB of free nodes, and in a large map up
//!   to 512 KB. Another thread gets the handle once the first thread has ended.
//! - A [`CongeeArc`] keeps one count of each removed owner until the caller's guard is dropped. Readers need no guard.
//! - 62 threads have a handle of their own of a [`CongeeArc`]. All further threads use a common handle, under a mutex.

#![warn(missing_docs, missing_debug_implementations)]

mod arc;
mod bytes;
mod handles;
mod numbers;
mod stats;
mod tree;

pub use arc::CongeeArc;
pub use bytes::U64Congee;
pub use numbers::Congee;
pub use stats::{LevelStats, NodeInfo, NodeStats};

use proved_congee::OutOfMemory;
use std::fmt;

/// (so that the example of the README is tried)
#[cfg(doctest)]
#[doc = include_str!("../README.md")]
struct Readme;

/// Guards of epochs, those of `crossbeam-epoch`.
pub mod epoch {
    pub use crossbeam_epoch::{pin, Guard};
}

/// The error of a call that may take memory: there is no memory, or the map's limit is reached. The call has changed no
/// pair.
#[derive(Clone, Copy, PartialEq, Eq)]
pub struct OOMError {
    _private: (),
}

impl OOMError {
    /// Makes the error.
    ///
    /// ```
    /// assert_eq!(format!("{:?}", congee::OOMError::new()), "OOMError");
    /// ```
    pub fn new() -> OOMError {
        OOMError { _private: () }
    }
}

impl Default for OOMError {
    fn default() -> OOMError {
        OOMError::new()
    }
}

impl fmt::Debug for OOMError {
    fn fmt(&self, f: &mut fmt::Formatter<'_>) -> fmt::Result {
        f.write_str("OOMError")
    }
}

impl fmt::Display for OOMError {
    fn fmt(&self, f: &mut fmt::Formatter<'_>) -> fmt::Result {
        OutOfMemory.fmt(f)
    }
}

impl std::error::Error for OOMError {}

impl From<OutOfMemory> for OOMError {
    fn from(_: OutOfMemory) -> OOMError {
        OOMError::new()
    }
}

mod sealed {
    pub trait Sealed {}
}

/// A bound on a map's memory. The memory itself is `malloc`'s.
pub trait Allocator: sealed::Sealed {
    /// The bytes that the segments of the map's nodes may take.
    fn limit(&self) -> u64;
}

/// No bound on a map's memory.
#[derive(Clone, Debug)]
pub struct DefaultAllocator {}

impl sealed::Sealed for DefaultAllocator {}

impl Allocator for DefaultAllocator {
    fn limit(&self) -> u64 {
        u64::MAX
    }
}

/// A bound in bytes on a map's memory, as [`LiveMap::with_limit`](proved_congee::LiveMap::with_limit) counts them.
#[derive(Clone, Debug)]
pub struct Limit(pub u64);

impl sealed::Sealed for Limit {}

impl Allocator for Limit {
    fn limit(&self) -> u64 {
        self.0
    }
}

/// The number of a key or a value.
fn word<T>(it: T) -> u64
where
    usize: From<T>,
{
    usize::from(it) as u64
}

/// The key or value of a number.
fn typed<T: From<usize>>(word: u64) -> T {
    T::from(word as usize)
}
