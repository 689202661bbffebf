//! Iterators over typed pairs.

use super::{pair, Word};
use std::fmt;
use std::iter::FusedIterator;
use std::marker::PhantomData;

/// The pairs of a range, keys ascending, from either end, over a [`Range`](crate::Range) of numbers.
pub struct Range<'a, K, V> {
    of: crate::Range<'a>,
    _types: PhantomData<fn() -> (K, V)>,
}

impl<'a, K, V> Range<'a, K, V> {
    pub(super) fn of(of: crate::Range<'a>) -> Self {
        Range {
            of,
            _types: PhantomData,
        }
    }
}

impl<K, V> Clone for Range<'_, K, V> {
    fn clone(&self) -> Self {
        Range::of(self.of.clone())
    }
}

impl<K: Word, V: Word> Iterator for Range<'_, K, V> {
    type Item = (K, V);

    fn next(&mut self) -> Option<(K, V)> {
        self.of.next().map(pair)
    }

    fn size_hint(&self) -> (usize, Option<usize>) {
        self.of.size_hint()
    }
}

impl<K: Word, V: Word> DoubleEndedIterator for Range<'_, K, V> {
    fn next_back(&mut self) -> Option<(K, V)> {
        self.of.next_back().map(pair)
    }
}

impl<K: Word, V: Word> FusedIterator for Range<'_, K, V> {}

/// All pairs of a map that isn't shared, keys ascending, from either end, over a [`Range`](crate::Range) of numbers. The
/// iterator knows how many are left.
pub struct Iter<'a, K, V> {
    range: Range<'a, K, V>,
    left: usize,
}

impl<'a, K, V> Iter<'a, K, V> {
    pub(super) fn of(range: Range<'a, K, V>, left: usize) -> Self {
        Iter { range, left }
    }
}

impl<K, V> Clone for Iter<'_, K, V> {
    fn clone(&self) -> Self {
        Iter::of(self.range.clone(), self.left)
    }
}

impl<K: Word, V: Word> Iterator for Iter<'_, K, V> {
    type Item = (K, V);

    fn next(&mut self) -> Option<(K, V)> {
        let pair = self.range.next()?;
        self.left -= 1;
        Some(pair)
    }

    fn size_hint(&self) -> (usize, Option<usize>) {
        (self.left, Some(self.left))
    }
}

impl<K: Word, V: Word> DoubleEndedIterator for Iter<'_, K, V> {
    fn next_back(&mut self) -> Option<(K, V)> {
        let pair = self.range.next_back()?;
        self.left -= 1;
        Some(pair)
    }
}

impl<K: Word, V: Word> ExactSizeIterator for Iter<'_, K, V> {}
impl<K: Word, V: Word> FusedIterator for Iter<'_, K, V> {}

/// All pairs of a map that the iterator owns, keys ascending, from either end, over an [`IntoIter`](crate::IntoIter) of
/// numbers. The map is freed with the iterator.
pub struct IntoIter<K, V> {
    of: crate::IntoIter,
    left: usize,
    _types: PhantomData<fn() -> (K, V)>,
}

impl<K, V> IntoIter<K, V> {
    pub(super) fn of(of: crate::IntoIter, left: usize) -> Self {
        IntoIter {
            of,
            left,
            _types: PhantomData,
        }
    }
}

impl<K: Word, V: Word> Iterator for IntoIter<K, V> {
    type Item = (K, V);

    fn next(&mut self) -> Option<(K, V)> {
        let it = self.of.next()?;
        self.left -= 1;
        Some(pair(it))
    }

    fn size_hint(&self) -> (usize, Option<usize>) {
        (self.left, Some(self.left))
    }
}

impl<K: Word, V: Word> DoubleEndedIterator for IntoIter<K, V> {
    fn next_back(&mut self) -> Option<(K, V)> {
        let it = self.of.next_back()?;
        self.left -= 1;
        Some(pair(it))
    }
}

impl<K: Word, V: Word> ExactSizeIterator for IntoIter<K, V> {}
impl<K: Word, V: Word> FusedIterator for IntoIter<K, V> {}

impl<K, V> fmt::Debug for IntoIter<K, V> {
    fn fmt(&self, f: &mut fmt::Formatter<'_>) -> fmt::Result {
        f.debug_struct("IntoIter").finish_non_exhaustive()
    }
}

/// The pairs of a range of an [`OrdLiveMap`](super::OrdLiveMap), in a program that names their type.
pub type LiveRange<'a, K, V> = Range<'a, K, V>;

macro_rules! shown {
    ($($of:ty),*) => {$(
        impl<K: Word + fmt::Debug, V: Word + fmt::Debug> fmt::Debug for $of {
            fn fmt(&self, f: &mut fmt::Formatter<'_>) -> fmt::Result {
                f.debug_map().entries(self.clone()).finish()
            }
        }
    )*};
}

shown!(Range<'_, K, V>, Iter<'_, K, V>);
