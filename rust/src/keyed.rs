//! Maps whose keys and values are of other types than `u64`, each written as a number that keeps the order.
//!
//! [`OrdMap`] is over a [`Map`](crate::Map), [`OrdSharedMap`] over a [`SharedMap`](crate::SharedMap), and [`OrdLiveMap`]
//! over a [`LiveMap`](crate::LiveMap). A typed map stores the numbers, so a call costs what the call of the numbers costs.
//! Proved is the map of numbers beneath. The numbers of keys and values are this wrapper's, and tested.
//!
//! ```
//! use proved_congee::keyed::OrdMap;
//!
//! # fn main() -> Result<(), proved_congee::OutOfMemory> {
//! let mut map = OrdMap::<i32, char>::new()?;
//! map.insert(0, 'b')?;
//! map.insert(-1, 'a')?;
//! assert_eq!(map.first(), Some((-1, 'a')));
//! assert!(map.range(-5..=0).eq([(-1, 'a'), (0, 'b')]));
//! # Ok(())
//! # }
//! ```
//!
//! A type of one's own needs two functions:
//!
//! ```
//! use proved_congee::keyed::{Half, OrdMap};
//!
//! #[derive(Clone, Copy, Debug, PartialEq)]
//! struct Table(u32);
//!
//! impl Half for Table {
//!     fn into_u32(self) -> u32 { self.0 }
//!     fn from_u32(number: u32) -> Table { Table(number) }
//! }
//!
//! # fn main() -> Result<(), proved_congee::OutOfMemory> {
//! // (a pair of halves is a key, too)
//! let mut rows = OrdMap::<(Table, i32), u64>::new()?;
//! rows.insert((Table(2), -7), 1)?;
//! rows.insert((Table(1), 9), 2)?;
//! assert!(rows.keys().eq([(Table(1), 9), (Table(2), -7)]));
//! # Ok(())
//! # }
//! ```

mod iterators;
mod live;
mod map;
mod shared;

pub use iterators::{IntoIter, Iter, LiveRange, Range};
pub use live::{OrdLiveGuard, OrdLiveMap};
pub use map::{Entry, OrdMap};
pub use shared::{OrdGuard, OrdSharedMap};

use std::ops::{Bound, RangeBounds};

/// A type whose values are numbers of 64 bits, in the same order.
///
/// An implementation promises that `a < b` exactly if `a.into_u64() < b.into_u64()`, and that `T::from_u64(a.into_u64())`
/// is `a`. A map of a type that breaks the promise may not find its pairs, and is memory-safe all the same.
pub trait Word: Copy {
    /// Returns the value's number.
    ///
    /// ```
    /// use proved_congee::keyed::Word;
    ///
    /// assert!((-1i32).into_u64() < 1i32.into_u64());
    /// ```
    fn into_u64(self) -> u64;

    /// Returns the value of a number that `into_u64` has returned.
    ///
    /// ```
    /// use proved_congee::keyed::Word;
    ///
    /// assert_eq!(i64::from_u64((-7i64).into_u64()), -7);
    /// ```
    fn from_u64(number: u64) -> Self;
}

/// A type whose values are numbers of 32 bits, in the same order. A pair of two types that are `Half` is a [`Word`].
///
/// An implementation promises that `a < b` exactly if `a.into_u32() < b.into_u32()`, and that `T::from_u32(a.into_u32())`
/// is `a`.
pub trait Half: Copy {
    /// Returns the value's number.
    ///
    /// ```
    /// use proved_congee::keyed::Half;
    ///
    /// assert!('a'.into_u32() < 'b'.into_u32());
    /// ```
    fn into_u32(self) -> u32;

    /// Returns the value of a number that `into_u32` has returned.
    ///
    /// ```
    /// use proved_congee::keyed::Half;
    ///
    /// assert_eq!(i16::from_u32((-7i16).into_u32()), -7);
    /// ```
    fn from_u32(number: u32) -> Self;
}

macro_rules! words {
    ($($word:ty: $it:ident => $into:expr, $from:expr;)*) => {$(
        impl Word for $word {
            #[inline]
            fn into_u64(self) -> u64 {
                let $it = self;
                $into
            }

            #[inline]
            fn from_u64($it: u64) -> Self {
                $from
            }
        }
    )*};
}

macro_rules! halves {
    ($($half:ty: $it:ident => $into:expr, $from:expr;)*) => {$(
        impl Half for $half {
            #[inline]
            fn into_u32(self) -> u32 {
                let $it = self;
                $into
            }

            #[inline]
            fn from_u32($it: u32) -> Self {
                $from
            }
        }

        words!($half: it => Half::into_u32(it).into(), <$half as Half>::from_u32(it as u32););
    )*};
}

// (a signed number with its highest bit flipped keeps its order)
const SIGN: u64 = 1 << 63;
const HALF_SIGN: u32 = 1 << 31;

halves! {
    u8: it => it.into(), it as u8;
    u16: it => it.into(), it as u16;
    u32: it => it, it;
    i8: it => it as i32 as u32 ^ HALF_SIGN, (it ^ HALF_SIGN) as i8;
    i16: it => it as i32 as u32 ^ HALF_SIGN, (it ^ HALF_SIGN) as i16;
    i32: it => it as u32 ^ HALF_SIGN, (it ^ HALF_SIGN) as i32;
    bool: it => it.into(), it != 0;
    char: it => it.into(), char::from_u32(it).unwrap_or(char::REPLACEMENT_CHARACTER);
    [u8; 4]: it => u32::from_be_bytes(it), it.to_be_bytes();
}

words! {
    u64: it => it, it;
    usize: it => it as u64, it as usize;
    i64: it => it as u64 ^ SIGN, (it ^ SIGN) as i64;
    isize: it => it as i64 as u64 ^ SIGN, (it ^ SIGN) as i64 as isize;
    (): _it => 0, ();
    [u8; 8]: it => u64::from_be_bytes(it), it.to_be_bytes();
}

impl<A: Half, B: Half> Word for (A, B) {
    #[inline]
    fn into_u64(self) -> u64 {
        u64::from(self.0.into_u32()) << 32 | u64::from(self.1.into_u32())
    }

    #[inline]
    fn from_u64(number: u64) -> Self {
        (
            A::from_u32((number >> 32) as u32),
            B::from_u32(number as u32),
        )
    }
}

fn pair<K: Word, V: Word>((key, value): (u64, u64)) -> (K, V) {
    (K::from_u64(key), V::from_u64(value))
}

/// The numbers of a range's ends.
fn bounds<K: Word>(of: impl RangeBounds<K>) -> (Bound<u64>, Bound<u64>) {
    let number = |bound: Bound<&K>| match bound {
        Bound::Included(key) => Bound::Included(key.into_u64()),
        Bound::Excluded(key) => Bound::Excluded(key.into_u64()),
        Bound::Unbounded => Bound::Unbounded,
    };
    (number(of.start_bound()), number(of.end_bound()))
}
