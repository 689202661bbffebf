//! Calls of several steps on a map of numbers.

use crate::handles::Tree;
use proved_congee::{LiveMap, OutOfMemory, Pair};

/// How many pairs are read at once.
const PAGE: usize = 128;

impl Tree {
    pub(crate) fn with_limit(bytes: u64) -> Result<Tree, OutOfMemory> {
        Tree::of(LiveMap::with_limit(bytes)?)
    }

    #[inline]
    pub(crate) fn get(&self, key: u64) -> Option<u64> {
        self.with(|handle| handle.get(key))
    }

    pub(crate) fn compare_exchange(
        &self,
        key: u64,
        old: u64,
        new: Option<u64>,
    ) -> Result<(), Option<u64>> {
        self.with(|handle| match new {
            Some(new) => handle.compare_exchange(key, old, new),
            None => handle.compare_remove(key, old),
        })
    }

    pub(crate) fn compute_if_present(
        &self,
        key: u64,
        mut f: impl FnMut(u64) -> Option<u64>,
    ) -> Option<(u64, Option<u64>)> {
        let mut current = self.get(key)?;
        loop {
            let new = f(current);
            match self.compare_exchange(key, current, new) {
                Ok(()) => return Some((current, new)),
                Err(found) => current = found?,
            }
        }
    }

    pub(crate) fn compute_or_insert(
        &self,
        key: u64,
        mut f: impl FnMut(Option<u64>) -> u64,
    ) -> Result<Option<u64>, OutOfMemory> {
        let mut current = self.get(key);
        loop {
            let new = f(current);
            current = match current {
                Some(before) => match self.compare_exchange(key, before, Some(new)) {
                    Ok(()) => return Ok(current),
                    Err(found) => found,
                },
                None => match self.with(|handle| handle.insert_absent(key, new))? {
                    None => return Ok(None),
                    found => found,
                },
            }
        }
    }

    /// The first pairs within `start <= key < end`, as the closure writes them.
    pub(crate) fn range<T>(
        &self,
        start: u64,
        end: u64,
        buffer: &mut [T],
        of: impl Fn(Pair) -> T,
    ) -> usize {
        let mut page = [Pair::default(); PAGE];
        let (mut from, mut written) = (start, 0);
        while written < buffer.len() && from < end {
            let room = PAGE.min(buffer.len() - written);
            let n = self.with(|handle| handle.read_range(from, end, &mut page[..room]));
            for (place, pair) in buffer[written..].iter_mut().zip(&page[..n]) {
                *place = of(*pair);
            }
            written += n;
            if n < room {
                break;
            }
            // (below `end`, so there is a next one)
            from = page[n - 1].key + 1;
        }
        written
    }

    /// Calls the closure with all pairs, keys ascending.
    pub(crate) fn each(&self, mut f: impl FnMut(Pair)) {
        let mut page = [Pair::default(); PAGE];
        let mut from = Some(0);
        while let Some(start) = from {
            let n = self.with(|handle| handle.read_range_inclusive(start, u64::MAX, &mut page));
            page[..n].iter().for_each(|pair| f(*pair));
            from = if n < PAGE {
                None
            } else {
                page[n - 1].key.checked_add(1)
            };
        }
    }

    pub(crate) fn keys<T>(&self, of: impl Fn(u64) -> T) -> Vec<T> {
        let mut keys = Vec::new();
        self.each(|pair| keys.push(of(pair.key)));
        keys
    }
}
