//! The maps by threads: nothing is lost, dropped early or kept.
use congee::{epoch, Congee, CongeeArc, DefaultAllocator, Limit, U64Congee};
use std::cell::RefCell;
use std::sync::atomic::{AtomicIsize, AtomicUsize, Ordering::SeqCst};
use std::sync::{Arc, Barrier, Weak};
use std::thread;

fn shared<T: Send + Sync>() {}

#[test]
fn maps_are_shared() {
    shared::<Congee<usize, usize>>();
    shared::<U64Congee<usize>>();
    shared::<CongeeArc<usize, String>>();
}

#[test]
fn counts_are_exact() {
    let map = Congee::<usize, usize>::default();
    thread::scope(|scope| {
        for t in 0..4 {
            let map = &map;
            scope.spawn(move || {
                let guard = map.pin();
                for i in 0..50_000 {
                    map.compute_or_insert((i * 7 + t) % 64, |it| it.map_or(1, |n| n + 1), &guard)
                        .unwrap();
                    map.compute_if_present(&(i % 64), |n| Some(n + 1), &guard);
                }
            });
        }
    });
    let guard = map.pin();
    let sum: usize = (0..64).filter_map(|k| map.get(&k, &guard)).sum();
    assert!((200_000..=400_000).contains(&sum));
    // (each key was there after its first count, so only some of a thread's first calls found none)
    assert!(400_000 - sum < 64 * 4);
}

#[test]
fn one_thread_takes_each_key() {
    let map = Congee::<usize, usize>::default();
    let guard = map.pin();
    for key in 0..10_000 {
        map.insert(key << 20, key, &guard).unwrap();
    }
    let taken = AtomicUsize::new(0);
    thread::scope(|scope| {
        for _ in 0..4 {
            scope.spawn(|| {
                let guard = map.pin();
                let n = (0..10_000)
                    .filter(|key| map.remove(&(key << 20), &guard).is_some())
                    .count();
                taken.fetch_add(n, SeqCst);
            });
        }
    });
    assert_eq!(taken.load(SeqCst), 10_000);
    assert!(map.is_empty(&guard));
}

/// A value that knows whether it was dropped.
struct Owner {
    key: usize,
    alive: AtomicUsize,
    all: Arc<AtomicIsize>,
}

impl Owner {
    fn new(all: &Arc<AtomicIsize>) -> Arc<Owner> {
        Owner::at(0, all)
    }

    /// One for this key.
    fn at(key: usize, all: &Arc<AtomicIsize>) -> Arc<Owner> {
        all.fetch_add(1, SeqCst);
        Arc::new(Owner {
            key,
            alive: AtomicUsize::new(0xA11CE),
            all: all.clone(),
        })
    }
}

impl Drop for Owner {
    fn drop(&mut self) {
        assert_eq!(self.alive.swap(0, SeqCst), 0xA11CE);
        self.all.fetch_sub(1, SeqCst);
    }
}

/// Waits until no guard of another test is older than what was taken out.
fn all_are_dropped(all: &AtomicIsize) {
    let start = std::time::Instant::now();
    while start.elapsed().as_secs() < 30 {
        if all.load(SeqCst) == 0 {
            return;
        }
        epoch::pin().flush();
        thread::yield_now();
    }
    panic!("{} owners are left", all.load(SeqCst));
}

#[test]
fn owners_live_while_they_are_read() {
    let all = Arc::new(AtomicIsize::new(0));
    let map = CongeeArc::<usize, Owner>::new();
    thread::scope(|scope| {
        for t in 0..4 {
            let (map, all) = (&map, &all);
            scope.spawn(move || {
                let mut guard = map.pin();
                for i in 0..100_000 {
                    let key = (i * 31 + t * 7) % 16;
                    match (i + t) % 5 {
                        0 => drop(map.insert(key, Owner::at(key, all), &guard).unwrap()),
                        1 => drop(map.remove(key, &guard)),
                        2 => {
                            drop(map.compute_if_present(key, |_| Some(Owner::at(key, all)), &guard))
                        }
                        _ => {
                            if let Some(it) = map.get(key, &guard) {
                                assert_eq!((it.key, it.alive.load(SeqCst)), (key, 0xA11CE));
                            }
                        }
                    }
                    if i % 64 == 0 {
                        guard.repin();
                    }
                }
            });
        }
    });
    drop(map);
    all_are_dropped(&all);
}

/// (as a guard of a collector of the caller's own would)
#[test]
fn owners_live_by_guards_that_protect_nothing() {
    let all = Arc::new(AtomicIsize::new(0));
    let map = CongeeArc::<usize, Owner>::new();
    thread::scope(|scope| {
        for t in 0..4 {
            let (map, all) = (&map, &all);
            scope.spawn(move || {
                // SAFETY: nothing is loaded by it.
                let guard = unsafe { crossbeam_epoch::unprotected() };
                for i in 0..50_000 {
                    let key = (i * 31 + t * 7) % 4;
                    if (i + t) % 3 == 0 {
                        drop(map.insert(key, Owner::at(key, all), guard).unwrap());
                    } else if let Some(it) = map.get(key, guard) {
                        // (the place of one that was dropped early may be another's)
                        assert_eq!((it.key, it.alive.load(SeqCst)), (key, 0xA11CE));
                    }
                }
            });
        }
    });
    drop(map);
    all_are_dropped(&all);
}

/// Waits until no guard of another test is older than what was taken out.
fn until_counted(owner: &Arc<usize>, count: usize) {
    let start = std::time::Instant::now();
    while Arc::strong_count(owner) != count {
        assert!(start.elapsed().as_secs() < 30, "counts are left");
        epoch::pin().flush();
        thread::yield_now();
    }
}

/// The map has one count, and while a guard is pinned, one more of what was taken out.
#[test]
fn counts_of_owners() {
    let map = CongeeArc::<usize, usize>::new();
    let (first, second) = (Arc::new(1), Arc::new(2));
    let counts = || (Arc::strong_count(&first), Arc::strong_count(&second));
    let guard = map.pin();
    assert!(map.insert(7, first.clone(), &guard).unwrap().is_none());
    assert_eq!(counts(), (2, 1));
    let found = map.get(7, &guard).unwrap();
    assert!(Arc::ptr_eq(&found, &first) && counts() == (3, 1));
    drop(found);
    let before = map.insert(7, second.clone(), &guard).unwrap().unwrap();
    assert!(Arc::ptr_eq(&before, &first) && counts() == (3, 2));
    drop(before);
    assert_eq!(counts(), (2, 2));
    let change = |it: Arc<usize>| {
        assert!(Arc::ptr_eq(&it, &second) && counts() == (2, 3));
        Some(first.clone())
    };
    let before = map.compute_if_present(7, change, &guard).unwrap();
    assert!(Arc::ptr_eq(&before, &second) && counts() == (3, 3));
    drop(before);
    let removed = map.compute_if_present(7, |_| None, &guard).unwrap();
    assert!(Arc::ptr_eq(&removed, &first) && counts() == (4, 2));
    drop(removed);
    assert!(map.insert(7, first.clone(), &guard).unwrap().is_none());
    let removed = map.remove(7, &guard).unwrap();
    assert!(Arc::ptr_eq(&removed, &first) && counts() == (5, 2));
    drop((removed, guard));
    until_counted(&first, 1);
    until_counted(&second, 1);
    // (what is left goes with the map)
    map.insert(7, first.clone(), &map.pin()).unwrap();
    drop(map);
    until_counted(&first, 1);
}

#[test]
fn owners_by_a_hundred_threads() {
    let all = Arc::new(AtomicIsize::new(0));
    let map = CongeeArc::<usize, Owner>::new();
    let called = Barrier::new(100);
    thread::scope(|scope| {
        for key in 0..100 {
            let (map, all, called) = (&map, &all, &called);
            scope.spawn(move || {
                let guard = map.pin();
                map.insert(key, Owner::at(key, all), &guard).unwrap();
                called.wait();
                for other in 0..100 {
                    assert_eq!(map.get(other, &guard).unwrap().key, other);
                }
                called.wait();
                assert_eq!(map.remove(key, &guard).unwrap().key, key);
            });
        }
    });
    assert!(map.is_empty(&map.pin()));
    drop(map);
    all_are_dropped(&all);
}

/// An owner whose drop calls its map.
struct Calls {
    map: Weak<CongeeArc<usize, Calls>>,
    also: usize,
    _counted: Arc<Owner>,
}

impl Drop for Calls {
    fn drop(&mut self) {
        if let Some(map) = self.map.upgrade() {
            drop(map.remove(self.also, &map.pin()));
        }
    }
}

#[test]
fn drops_that_call_the_map() {
    let all = Arc::new(AtomicIsize::new(0));
    let map = Arc::new(CongeeArc::<usize, Calls>::new());
    thread::scope(|scope| {
        for t in 0..4 {
            let (map, all) = (&map, &all);
            scope.spawn(move || {
                for i in 0..5_000 {
                    let (key, guard) = ((i * 7 + t) % 32, map.pin());
                    let new = Calls {
                        map: Arc::downgrade(map),
                        also: key ^ 1,
                        _counted: Owner::at(key, all),
                    };
                    drop(map.insert(key, Arc::new(new), &guard));
                    drop(map.get((key + 5) % 32, &guard));
                }
            });
        }
    });
    drop(map);
    all_are_dropped(&all);
}

#[test]
fn a_closure_in_vain_leaks_nothing() {
    let all = Arc::new(AtomicIsize::new(0));
    let map = CongeeArc::<usize, Owner>::new();
    let guard = map.pin();
    map.insert(1, Owner::new(&all), &guard).unwrap();
    let mut calls = 0;
    map.compute_if_present(
        1,
        |_| {
            calls += 1;
            if calls == 1 {
                // (as another thread would)
                map.insert(1, Owner::new(&all), &guard).unwrap();
            }
            Some(Owner::new(&all))
        },
        &guard,
    );
    assert_eq!(calls, 2);
    drop(guard);
    drop(map);
    all_are_dropped(&all);
}

#[test]
fn a_closure_is_called_again_where_another_came_first() {
    let map = Congee::<usize, usize>::default();
    let guard = map.pin();
    // (each first call changes the key, as another thread would)
    let mut seen = vec![];
    let before = map.compute_or_insert(
        1,
        |it| {
            seen.push(it);
            if seen.len() == 1 {
                map.insert(1, 10, &guard).unwrap();
            }
            it.map_or(1, |n| n + 1)
        },
        &guard,
    );
    assert_eq!(
        (before.unwrap(), &seen[..]),
        (Some(10), &[None, Some(10)][..])
    );
    let mut seen = vec![];
    let both = map.compute_if_present(
        &1,
        |it| {
            seen.push(it);
            if seen.len() == 1 {
                map.insert(1, 20, &guard).unwrap();
            }
            Some(it + 1)
        },
        &guard,
    );
    assert_eq!((both, &seen[..]), (Some((20, Some(21))), &[11, 20][..]));
    let mut seen = vec![];
    let both = map.compute_if_present(
        &1,
        |it| {
            seen.push(it);
            map.remove(&1, &guard);
            None
        },
        &guard,
    );
    assert_eq!((both, &seen[..]), (None, &[21][..]));
}

#[test]
fn handles_of_threads_that_ended_are_used_again() {
    // (each thread's own room would pass the limit after some twenty)
    let map = Congee::<usize, usize, Limit>::new(Limit(4 << 20));
    for t in 0..2_000 {
        thread::scope(|scope| {
            scope.spawn(|| map.insert(t << 8, t, &map.pin()).unwrap());
        });
    }
    assert_eq!(map.keys().len(), 2_000);
}

#[test]
fn many_maps_by_one_thread() {
    let maps: Vec<_> = (0..50).map(|_| Congee::<usize, usize>::default()).collect();
    let guard = epoch::pin();
    for i in 0..5_000 {
        maps[i % 50].insert(i, i, &guard).unwrap();
    }
    for (n, map) in maps.iter().enumerate() {
        assert_eq!(map.keys(), (n..5_000).step_by(50).collect::<Vec<_>>());
    }
}

#[test]
fn a_map_ends_before_a_thread_that_called_it() {
    let first = Arc::new(Congee::<usize, usize>::default());
    let (called, gone) = (Arc::new(Barrier::new(2)), Arc::new(Barrier::new(2)));
    let other = thread::spawn({
        let (first, called, gone) = (first.clone(), called.clone(), gone.clone());
        move || {
            first.insert(1, 1, &first.pin()).unwrap();
            drop(first);
            called.wait();
            gone.wait();
            // (the next map may lie where the first was)
            for n in 0..20 {
                let next = Congee::<usize, usize>::default();
                next.insert(n, n, &next.pin()).unwrap();
                assert_eq!(next.keys(), [n]);
            }
        }
    });
    called.wait();
    drop(first);
    gone.wait();
    other.join().unwrap();
}

#[test]
fn a_thread_calls_a_map_as_it_ends() {
    struct AtEnd(Arc<Congee<usize, usize>>);
    impl Drop for AtEnd {
        fn drop(&mut self) {
            // SAFETY: nothing is loaded by it. (The thread's own participant may be gone.)
            let guard = unsafe { crossbeam_epoch::unprotected() };
            self.0.insert(7, 70, guard).unwrap();
            assert_eq!(self.0.get(&7, guard), Some(70));
        }
    }
    thread_local!(static LATE: RefCell<Option<AtEnd>> = const { RefCell::new(None) });
    let map = Arc::new(Congee::<usize, usize>::default());
    thread::spawn({
        let map = map.clone();
        move || {
            // (registered first, so dropped last)
            LATE.with(|late| *late.borrow_mut() = Some(AtEnd(map.clone())));
            map.insert(1, 10, &map.pin()).unwrap();
        }
    })
    .join()
    .unwrap();
    assert_eq!(map.keys(), [1, 7]);
}

#[test]
fn a_drainer_has_what_is_left() {
    let (sum, calls) = (Arc::new(AtomicUsize::new(0)), Arc::new(AtomicUsize::new(0)));
    let map = Congee::<usize, usize>::new_with_drainer(DefaultAllocator {}, {
        let (sum, calls) = (sum.clone(), calls.clone());
        move |key, value| {
            sum.fetch_add(key * value, SeqCst);
            calls.fetch_add(1, SeqCst);
        }
    });
    let guard = map.pin();
    for key in 0..1_000 {
        map.insert(key, 2, &guard).unwrap();
    }
    map.remove(&999, &guard);
    drop(map);
    assert_eq!((sum.load(SeqCst), calls.load(SeqCst)), (998 * 999, 999));
}

#[test]
fn edges() {
    let map = Congee::<usize, usize>::default();
    let guard = map.pin();
    assert_eq!(map.compare_exchange(&1, &1, Some(2), &guard), Err(None));
    map.insert(usize::MAX, usize::MAX, &guard).unwrap();
    map.insert(0, 0, &guard).unwrap();
    assert_eq!(map.compare_exchange(&0, &1, Some(2), &guard), Err(Some(0)));
    assert_eq!(map.compare_exchange(&0, &0, Some(0), &guard), Ok(Some(0)));
    assert_eq!(map.compare_exchange(&0, &0, None, &guard), Ok(None));
    assert_eq!(map.compute_if_present(&0, |_| unreachable!(), &guard), None);
    assert_eq!(
        map.compute_if_present(&usize::MAX, Some, &guard),
        Some((usize::MAX, Some(usize::MAX)))
    );
    let mut page = [(1, 1); 3];
    // (its end isn't in a range)
    assert_eq!(map.range(&0, &usize::MAX, &mut page, &guard), 0);
    assert_eq!(map.range(&5, &3, &mut page, &guard), 0);
    for key in 0..300 {
        map.insert(key, key, &guard).unwrap();
    }
    let mut page = vec![(0, 0); 257];
    assert_eq!(map.range(&1, &usize::MAX, &mut page, &guard), 257);
    assert!(page
        .iter()
        .enumerate()
        .all(|(i, pair)| *pair == (i + 1, i + 1)));
    assert_eq!(map.range(&10, &200, &mut page, &guard), 190);
    let bytes = U64Congee::<usize>::new();
    bytes.insert(1, 10, &guard).unwrap();
    let mut page = [([9; 8], 9); 2];
    assert_eq!(bytes.range(0, 2, &mut page, &guard), 1);
    assert_eq!(page, [([0, 0, 0, 0, 0, 0, 0, 1], 10), ([9; 8], 9)]);
    assert_eq!(bytes.remove(1, &guard), Some(10));
    let text = map.stats().to_string();
    assert!(text.ends_with("KV count: 301\n"), "{text}");
}
