//! Iterators over many pairs, which they read in pages, beside the same pairs in a list: from both ends, by turns, cloned, and without
//! memory for a large page.

use proved_congee::{LiveArcMap, LiveMap, Map, SharedMap};
use std::alloc::{GlobalAlloc, Layout, System};
use std::fmt::Debug;
use std::ptr::null_mut;
use std::sync::atomic::{AtomicBool, AtomicUsize, Ordering::SeqCst};
use std::sync::Arc;

/// 256 pairs.
const LARGE_PAGE: usize = 4096;
const COUNT: u64 = 1500;

/// Counts blocks for large pages, and refuses them while that is asked for.
struct Counting;

static REFUSES: AtomicBool = AtomicBool::new(false);
static LARGE: AtomicUsize = AtomicUsize::new(0);

// SAFETY: it is the system's, or refuses.
unsafe impl GlobalAlloc for Counting {
    unsafe fn alloc(&self, layout: Layout) -> *mut u8 {
        if layout.size() == LARGE_PAGE && layout.align() == 8 {
            LARGE.fetch_add(1, SeqCst);
            if REFUSES.load(SeqCst) {
                return null_mut();
            }
        }
        unsafe { System.alloc(layout) }
    }

    unsafe fn dealloc(&self, block: *mut u8, layout: Layout) {
        unsafe { System.dealloc(block, layout) }
    }
}

#[global_allocator]
static ALLOCATOR: Counting = Counting;

fn key_of(at: u64) -> u64 {
    at * at * 97
}

/// Takes so many from one end and so many from the other, by turns.
fn by_turns<T: Copy + PartialEq + Debug>(
    mut all: impl DoubleEndedIterator<Item = T>,
    wanted: &[T],
    first: usize,
    last: usize,
) {
    let mut left = wanted;
    while !left.is_empty() {
        for _ in 0..first {
            assert_eq!(all.next(), left.first().copied());
            left = left.get(1..).unwrap_or(&[]);
        }
        for _ in 0..last {
            assert_eq!(all.next_back(), left.last().copied());
            left = left.get(..left.len().wrapping_sub(1)).unwrap_or(&[]);
        }
    }
    assert!(all.next().is_none() && all.next_back().is_none());
}

fn check<T, I>(make: impl Fn() -> I, wanted: &[T])
where
    T: Copy + PartialEq + Debug,
    I: DoubleEndedIterator<Item = T>,
{
    assert!(make().eq(wanted.iter().copied()));
    assert!(make().rev().eq(wanted.iter().rev().copied()));
    for (first, last) in [(1, 1), (3, 50), (300, 1), (7, 400), (90, 90)] {
        by_turns(make(), wanted, first, last);
    }
}

/// Clones give what is left, from both ends, and the iterator goes on as before.
fn check_clones<T, I>(make: impl Fn() -> I, wanted: &[T])
where
    T: Copy + PartialEq + Debug,
    I: DoubleEndedIterator<Item = T> + Clone,
{
    check(&make, wanted);
    for step in [1, 5, 61, 300] {
        let (mut all, mut left) = (make(), wanted);
        while left.len() > 2 * step {
            for _ in 0..step {
                assert_eq!(
                    (all.next(), all.next_back()),
                    (left.first().copied(), left.last().copied())
                );
                left = &left[1..left.len() - 1];
            }
            assert!(all.clone().eq(left.iter().copied()));
            assert!(all.clone().rev().eq(left.iter().rev().copied()));
        }
        assert!(all.clone().eq(all));
    }
}

/// All forms, over all pairs and over some.
fn check_all() {
    let pairs: Vec<(u64, u64)> = (0..COUNT).map(|at| (key_of(at), at + 1)).collect();
    let keys: Vec<u64> = pairs.iter().map(|pair| pair.0).collect();
    let bounds = key_of(3)..=key_of(1203);
    let some = &pairs[3..1204];

    let map = Map::try_from_iter(pairs.iter().copied()).unwrap();
    check_clones(|| map.iter(), &pairs);
    check_clones(|| map.range(bounds.clone()), some);
    check_clones(|| map.keys(), &keys);
    check(|| map.try_clone().unwrap().into_iter(), &pairs);

    let shared = SharedMap::sharded().unwrap();
    let guard = shared.pin().unwrap();
    guard.extend(pairs.iter().copied()).unwrap();
    check_clones(|| guard.iter(), &pairs);
    check_clones(|| guard.range(bounds.clone()), some);

    let live = LiveMap::new().unwrap();
    let guard = live.pin().unwrap();
    guard.extend(pairs.iter().copied()).unwrap();
    check_clones(|| guard.iter(), &pairs);
    check_clones(|| guard.range(bounds.clone()), some);

    let owners = LiveArcMap::new().unwrap();
    let mut guard = owners.pin().unwrap();
    for (key, value) in &pairs {
        guard.insert(*key, Arc::new(*value)).unwrap();
    }
    check_clones(|| guard.keys(), &keys);
    let number = |(key, object): (u64, Arc<u64>)| (key, *object);
    for (first, last) in [(1, 1), (3, 50), (300, 1)] {
        by_turns(guard.range(bounds.clone()).map(number), some, first, last);
    }
    let mut seen = Vec::with_capacity(pairs.len());
    guard.for_each(.., |key, object| seen.push((key, *object)));
    assert_eq!(seen, pairs);
    seen.clear();
    guard.for_each_descending(.., |key, object| seen.push((key, *object)));
    assert!(seen.iter().rev().eq(&pairs));

    let frozen = map.freeze().unwrap();
    check_clones(|| frozen.iter(), &pairs);
}

/// How many blocks for large pages are asked for meanwhile.
fn large_pages(f: impl FnOnce()) -> usize {
    let before = LARGE.load(SeqCst);
    f();
    LARGE.load(SeqCst) - before
}

fn main() {
    check_all();
    let map = Map::try_from_iter((0..COUNT).map(|key| (key, key))).unwrap();
    // a short range takes no memory, and a long one a block at each end
    assert_eq!(large_pages(|| assert_eq!(map.range(..250).count(), 250)), 0);
    assert_eq!(
        large_pages(|| assert_eq!(map.iter().take(270).count(), 270)),
        0
    );
    assert_eq!(large_pages(|| assert_eq!(map.iter().count(), 1500)), 1);
    assert_eq!(
        large_pages(|| by_turns(map.keys(), &(0..COUNT).collect::<Vec<_>>(), 1, 1)),
        2
    );
    REFUSES.store(true, SeqCst);
    assert!(large_pages(check_all) > 100);
}
