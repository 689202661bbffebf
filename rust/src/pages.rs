//! Iterators, which read a map by pages.

use crate::frozen::Frozen;
use crate::live::LiveGuard;
use crate::map::Map;
use crate::shared::Guard;
use crate::Pair;
use std::fmt;
use std::iter::FusedIterator;
use std::ops::{Bound, RangeBounds};

/// How many pairs are read at once: at first, then up to a page in the iterator itself, and on the heap once as many were read.
const FIRST_PAGE: usize = 4;
const PAGE: usize = 64;
const LARGE_PAGE: usize = 256;

/// Pages of a map of objects: keys from `start` to `last`, each with its ticket, ascending or descending.
pub(crate) trait ReadTickets {
    fn read_tickets(&self, is_ascending: bool, start: u64, last: u64, buffer: &mut [Pair])
        -> usize;
}

/// What pages are read from.
#[derive(Clone, Copy)]
pub(crate) enum Source<'a> {
    Map(&'a Map),
    Frozen(&'a Frozen),
    Shared(&'a Guard),
    Live(&'a LiveGuard),
    Tickets(&'a dyn ReadTickets),
}

impl Source<'_> {
    fn read_ascending(self, start: u64, last: u64, buffer: &mut [Pair]) -> usize {
        match self {
            Source::Map(map) => map.read_range_inclusive(start, last, buffer),
            Source::Frozen(frozen) => frozen.read_range_inclusive(start, last, buffer),
            Source::Shared(guard) => guard.read_range_inclusive(start, last, buffer),
            Source::Live(guard) => guard.read_range_inclusive(start, last, buffer),
            Source::Tickets(guard) => guard.read_tickets(true, start, last, buffer),
        }
    }

    fn read_descending(self, start: u64, last: u64, buffer: &mut [Pair]) -> usize {
        match self {
            Source::Map(map) => map.read_range_descending(start, last, buffer),
            Source::Frozen(frozen) => frozen.read_range_descending(start, last, buffer),
            Source::Shared(guard) => guard.read_range_descending(start, last, buffer),
            Source::Live(guard) => guard.read_range_descending(start, last, buffer),
            Source::Tickets(guard) => guard.read_tickets(false, start, last, buffer),
        }
    }
}

/// Pairs that were read at one end of a range and not returned yet, that end's first.
struct Page {
    pairs: [Pair; PAGE],
    /// The places of a large page, in use once there are any.
    large: Vec<Pair>,
    at: usize,
    filled: usize,
    /// How many pairs are read next, and how many were read.
    room: usize,
    read: usize,
}

impl Page {
    fn empty() -> Page {
        Page {
            pairs: [Pair::default(); PAGE],
            large: Vec::new(),
            at: 0,
            filled: 0,
            room: FIRST_PAGE,
            read: 0,
        }
    }

    fn len(&self) -> usize {
        self.filled - self.at
    }

    // One that was read.
    #[inline]
    fn pair(&self, at: usize) -> Pair {
        if self.large.is_empty() {
            self.pairs[at]
        } else {
            self.large[at]
        }
    }

    // The least and the greatest key that is left.
    fn keys(&self) -> Option<(u64, u64)> {
        let last = self.filled.checked_sub(1).filter(|&last| self.at <= last)?;
        let (one, other) = (self.pair(self.at).key, self.pair(last).key);
        Some((one.min(other), one.max(other)))
    }

    // The places of the next page. Without memory for a large one it is a small one.
    fn places(&mut self) -> &mut [Pair] {
        if self.read >= LARGE_PAGE && self.large.is_empty() {
            if self.large.try_reserve_exact(LARGE_PAGE).is_ok() {
                self.large.resize(LARGE_PAGE, Pair::default());
            }
        }
        if self.large.is_empty() {
            &mut self.pairs[..self.room]
        } else {
            &mut self.large
        }
    }

    // Fills the page, and returns the last pair where there was no room for more.
    fn fill(&mut self, read: impl FnOnce(&mut [Pair]) -> usize) -> Option<Pair> {
        let places = self.places();
        let filled = read(places);
        let last = (filled == places.len()).then(|| places[filled - 1]);
        self.at = 0;
        self.filled = filled;
        self.room = PAGE.min(self.room * 4);
        self.read = self.read.saturating_add(filled);
        last
    }

    #[inline]
    fn take_first(&mut self) -> Option<Pair> {
        if self.at == self.filled {
            return None;
        }
        self.at += 1;
        Some(self.pair(self.at - 1))
    }

    fn take_last(&mut self) -> Option<Pair> {
        if self.at == self.filled {
            return None;
        }
        self.filled -= 1;
        Some(self.pair(self.filled))
    }
}

/// What is left of a range: what was read at its two ends, and the keys between these.
pub(crate) struct Cursor {
    front: Page,
    /// (none until the end is asked for)
    back: Option<Page>,
    /// The first and the last key of which nothing was read yet.
    unread: Option<(u64, u64)>,
}

/// The first and the last key within the bounds, if there is one.
pub(crate) fn ends(bounds: impl RangeBounds<u64>) -> Option<(u64, u64)> {
    let start = match bounds.start_bound() {
        Bound::Included(&key) => Some(key),
        Bound::Excluded(&key) => key.checked_add(1),
        Bound::Unbounded => Some(0),
    };
    let last = match bounds.end_bound() {
        Bound::Included(&key) => Some(key),
        Bound::Excluded(&key) => key.checked_sub(1),
        Bound::Unbounded => Some(u64::MAX),
    };
    start.zip(last).filter(|(start, last)| start <= last)
}

impl Clone for Cursor {
    /// Takes no memory: what is left is read anew.
    fn clone(&self) -> Cursor {
        let back = self.back.as_ref().and_then(Page::keys);
        let parts = [self.front.keys(), self.unread, back];
        let (first, last) = (parts.iter().flatten().next(), parts.iter().flatten().last());
        Cursor {
            front: Page::empty(),
            back: None,
            unread: first.zip(last).map(|(first, last)| (first.0, last.1)),
        }
    }
}

impl Cursor {
    pub(crate) fn of(bounds: impl RangeBounds<u64>) -> Cursor {
        Cursor {
            front: Page::empty(),
            back: None,
            unread: ends(bounds),
        }
    }

    #[inline]
    pub(crate) fn next(&mut self, source: Source<'_>) -> Option<Pair> {
        self.front.take_first().or_else(|| self.read_first(source))
    }

    #[inline]
    pub(crate) fn next_back(&mut self, source: Source<'_>) -> Option<Pair> {
        self.back
            .as_mut()
            .and_then(Page::take_first)
            .or_else(|| self.read_last(source))
    }

    // Apart from `next`, which is inlined into loops.
    #[inline(never)]
    fn read_first(&mut self, source: Source<'_>) -> Option<Pair> {
        if let Some((start, last)) = self.unread.take() {
            self.unread = self
                .front
                .fill(|page| source.read_ascending(start, last, page))
                .filter(|read| read.key < last)
                .map(|read| (read.key + 1, last));
        }
        self.front
            .take_first()
            .or_else(|| self.back.as_mut()?.take_last())
    }

    #[inline(never)]
    fn read_last(&mut self, source: Source<'_>) -> Option<Pair> {
        let back = self.back.get_or_insert_with(Page::empty);
        if let Some((start, last)) = self.unread.take() {
            self.unread = back
                .fill(|page| source.read_descending(start, last, page))
                .filter(|read| start < read.key)
                .map(|read| (start, read.key - 1));
        }
        back.take_first().or_else(|| self.front.take_last())
    }

    fn size_hint(&self) -> (usize, Option<usize>) {
        let read = self.front.len() + self.back.as_ref().map_or(0, Page::len);
        (read, self.unread.is_none().then_some(read))
    }
}

#[inline]
fn key_and_value(pair: Pair) -> (u64, u64) {
    (pair.key, pair.value)
}

/// The pairs of a range, keys ascending, from either end. The library's ranges beneath are proved, and the iterator is
/// tested.
#[derive(Clone)]
pub struct Range<'a> {
    source: Source<'a>,
    cursor: Cursor,
}

impl<'a> Range<'a> {
    pub(crate) fn of(source: Source<'a>, bounds: impl RangeBounds<u64>) -> Range<'a> {
        Range {
            source,
            cursor: Cursor::of(bounds),
        }
    }
}

impl Iterator for Range<'_> {
    type Item = (u64, u64);

    #[inline]
    fn next(&mut self) -> Option<(u64, u64)> {
        self.cursor.next(self.source).map(key_and_value)
    }

    fn size_hint(&self) -> (usize, Option<usize>) {
        self.cursor.size_hint()
    }
}

impl DoubleEndedIterator for Range<'_> {
    #[inline]
    fn next_back(&mut self) -> Option<(u64, u64)> {
        self.cursor.next_back(self.source).map(key_and_value)
    }
}

impl FusedIterator for Range<'_> {}

impl fmt::Debug for Range<'_> {
    fn fmt(&self, f: &mut fmt::Formatter<'_>) -> fmt::Result {
        f.debug_map().entries(self.clone()).finish()
    }
}

/// The keys of a map, ascending, from either end. The library's ranges beneath are proved, and the iterator is tested.
#[derive(Clone, Debug)]
pub struct Keys<'a> {
    pub(crate) of: Range<'a>,
}

impl Iterator for Keys<'_> {
    type Item = u64;

    #[inline]
    fn next(&mut self) -> Option<u64> {
        self.of.next().map(|(key, _)| key)
    }

    fn size_hint(&self) -> (usize, Option<usize>) {
        self.of.size_hint()
    }
}

impl DoubleEndedIterator for Keys<'_> {
    #[inline]
    fn next_back(&mut self) -> Option<u64> {
        self.of.next_back().map(|(key, _)| key)
    }
}

impl FusedIterator for Keys<'_> {}

/// The values of a map, by ascending keys, from either end. The library's ranges beneath are proved, and the iterator is
/// tested.
#[derive(Clone, Debug)]
pub struct Values<'a> {
    pub(crate) of: Range<'a>,
}

impl Iterator for Values<'_> {
    type Item = u64;

    #[inline]
    fn next(&mut self) -> Option<u64> {
        self.of.next().map(|(_, value)| value)
    }

    fn size_hint(&self) -> (usize, Option<usize>) {
        self.of.size_hint()
    }
}

impl DoubleEndedIterator for Values<'_> {
    #[inline]
    fn next_back(&mut self) -> Option<u64> {
        self.of.next_back().map(|(_, value)| value)
    }
}

impl FusedIterator for Values<'_> {}

/// The pairs of a map that the iterator owns, keys ascending, from either end. The map is freed with the iterator. The
/// library's ranges beneath are proved, and the iterator is tested.
pub struct IntoIter {
    map: Map,
    cursor: Cursor,
}

impl IntoIter {
    pub(crate) fn of(map: Map) -> IntoIter {
        IntoIter {
            map,
            cursor: Cursor::of(..),
        }
    }
}

impl Iterator for IntoIter {
    type Item = (u64, u64);

    #[inline]
    fn next(&mut self) -> Option<(u64, u64)> {
        self.cursor.next(Source::Map(&self.map)).map(key_and_value)
    }

    fn size_hint(&self) -> (usize, Option<usize>) {
        self.cursor.size_hint()
    }
}

impl DoubleEndedIterator for IntoIter {
    #[inline]
    fn next_back(&mut self) -> Option<(u64, u64)> {
        self.cursor
            .next_back(Source::Map(&self.map))
            .map(key_and_value)
    }
}

impl FusedIterator for IntoIter {}

impl fmt::Debug for IntoIter {
    fn fmt(&self, f: &mut fmt::Formatter<'_>) -> fmt::Result {
        f.debug_struct("IntoIter").finish_non_exhaustive()
    }
}

/// The pairs of a range of a [`LiveMap`](crate::LiveMap), in a program that names their type.
pub type LiveRange<'a> = Range<'a>;
