//! No block of memory is left: of maps, handles, owners, closures and threads that end.

mod counted;

use congee::{epoch, Congee, CongeeArc, DefaultAllocator, Limit, U64Congee};
use std::sync::{Arc, Barrier};
use std::thread;

/// A key far from the others.
fn far(i: usize) -> usize {
    i.wrapping_mul(0x9E37_79B9_7F4A_7C15)
}

fn numbers() {
    let map = Congee::<usize, usize>::default();
    let guard = map.pin();
    let mut page = [(0, 0); 70];
    for i in 0..3_000 {
        let _ = map.insert(far(i % 1_000), i, &guard);
        let _ = map.compute_or_insert(i, |before| before.map_or(1, |it| it + 1), &guard);
        map.compute_if_present(&i, |it| (i % 3 > 0).then_some(it + 1), &guard);
        let _ = map.compare_exchange(&i, &2, None, &guard);
        map.remove(&far(i / 2), &guard);
    }
    map.range(&0, &usize::MAX, &mut page, &guard);
    drop((map.keys(), map.stats().to_string()));
    let bytes = U64Congee::<usize>::new();
    for key in 0..500 {
        let _ = bytes.insert(key << 32, 1, &guard);
        bytes.remove((key / 2) << 32, &guard);
    }
}

fn at_a_limit() {
    let map = Congee::<usize, usize, Limit>::new(Limit(64 << 10));
    let guard = map.pin();
    let refused = (0..20_000).filter(|i| map.insert(far(*i), *i, &guard).is_err());
    let _ = refused.count();
    assert!(std::panic::catch_unwind(|| Congee::<usize, usize, Limit>::new(Limit(1))).is_err());
}

fn drained() {
    let (map, seen) = (DefaultAllocator {}, Arc::new("what is shown"));
    let map = Congee::<usize, usize>::new_with_drainer(map, move |_, _| drop(seen.clone()));
    for key in 0..300 {
        let _ = map.insert(far(key), key, &map.pin());
    }
}

/// Overwritten, taken out, refused, returned by closures in vain, and left at the end.
fn owners() {
    let map = CongeeArc::<usize, String>::new();
    let owner = |i: usize| Arc::new(format!("the number {i}"));
    let guard = map.pin();
    for i in 0..2_000 {
        drop(map.insert(far(i % 100), owner(i), &guard));
        drop(map.get(far(i % 70), &guard));
        if i % 3 == 0 {
            drop(map.remove(far(i % 50), &guard));
        }
        let mut calls = 0;
        map.compute_if_present(
            far(i % 10),
            |_| {
                calls += 1;
                // (as another thread would)
                if calls == 1 {
                    drop(map.insert(far(i % 10), owner(i + 1), &guard));
                }
                (i % 5 > 0).then(|| owner(i + 2))
            },
            &guard,
        );
    }
    drop(map.keys());
}

/// Threads with handles and owners, which end before the map, and after it.
fn threads() {
    let (map, owners) = (
        Arc::new(Congee::<usize, usize>::default()),
        Arc::new(CongeeArc::<usize, String>::new()),
    );
    let (called, gone) = (Arc::new(Barrier::new(5)), Arc::new(Barrier::new(5)));
    let call = |map: &Congee<usize, usize>, owners: &CongeeArc<usize, String>, t: usize| {
        let guard = epoch::pin();
        for i in 0..500 {
            let _ = map.insert(far(i + t), i, &guard);
            drop(owners.insert((i + t) % 40, Arc::new(String::from("an owner")), &guard));
            drop(owners.remove(i % 40, &guard));
        }
    };
    let late: Vec<_> = (0..4)
        .map(|t| {
            let (map, owners, called, gone) =
                (map.clone(), owners.clone(), called.clone(), gone.clone());
            thread::spawn(move || {
                call(&map, &owners, t);
                drop((map, owners));
                called.wait();
                gone.wait();
                // (a new map, whose handle comes into the table of those that are gone)
                call(&Congee::default(), &CongeeArc::new(), t);
            })
        })
        .collect();
    called.wait();
    for t in 0..20 {
        let (map, owners) = (map.clone(), owners.clone());
        thread::spawn(move || call(&map, &owners, t))
            .join()
            .unwrap();
    }
    drop((map, owners));
    gone.wait();
    late.into_iter().for_each(|it| it.join().unwrap());
}

/// (What epochs defer takes blocks itself, a few of them in turns.)
fn least() -> isize {
    let each = (0..2_000).map(|_| {
        epoch::pin().flush();
        counted::blocks()
    });
    each.min().expect("some")
}

#[test]
fn no_block_is_left() {
    // (a panic is part of a run, and what it prints isn't wanted)
    let printed = std::panic::take_hook();
    std::panic::set_hook(Box::new(|_| ()));
    counted::leave_no_block(
        &[("numbers", numbers as fn()), ("at a limit", at_a_limit)],
        least,
    );
    std::panic::set_hook(printed);
    counted::leave_no_block(
        &[
            ("drained", drained as fn()),
            ("owners", owners),
            ("threads", threads),
        ],
        least,
    );
}
