//! Owners of maps that threads share, and copies of such maps: what they do while another thread is stopped within a call, and where
//! there is no memory. A map that is cloned waits for nobody, and takes no memory. Each request for memory is refused in turn: the
//! call returns `OutOfMemory`, and no block is left.

#[path = "../../rust-drop-in/tests/counted/mod.rs"]
mod counted;

use proved_congee::keyed::{OrdLiveMap, OrdSharedMap};
use proved_congee::{LiveMap, Map, OutOfMemory, SharedMap};
use std::cell::Cell;
use std::sync::atomic::{AtomicBool, Ordering};
use std::sync::mpsc;
use std::thread;
use std::time::Duration;

thread_local! {
    /// How many requests of this thread are granted before one is refused, with all after it. Below 0 all are granted.
    static GRANTED: Cell<isize> = const { Cell::new(-1) };
    /// Whether this thread stops at its next request.
    static STOPS: Cell<bool> = const { Cell::new(false) };
}

static IS_STOPPED: AtomicBool = AtomicBool::new(false);
static GOES_ON: AtomicBool = AtomicBool::new(false);

fn is_refused() -> bool {
    if STOPS.with(Cell::take) {
        IS_STOPPED.store(true, Ordering::SeqCst);
        while !GOES_ON.load(Ordering::SeqCst) {
            thread::yield_now();
        }
    }
    let left = GRANTED.with(Cell::get);
    GRANTED.with(|it| it.set(if left > 0 { left - 1 } else { left }));
    left == 0
}

/// While one thread is stopped within `makes`, another one calls `clones`, which has to end.
fn while_stopped<T: Clone + Send + 'static>(
    map: &T,
    makes: fn(&T),
    clones: fn(&T) -> T,
    name: &str,
) {
    IS_STOPPED.store(false, Ordering::SeqCst);
    GOES_ON.store(false, Ordering::SeqCst);
    let (one, other) = (map.clone(), map.clone());
    let maker = thread::spawn(move || {
        STOPS.with(|it| it.set(true));
        makes(&one);
        STOPS.with(|it| it.set(false));
    });
    while !IS_STOPPED.load(Ordering::SeqCst) {
        thread::yield_now();
    }
    let (ends, ended) = mpsc::channel();
    let cloner = thread::spawn(move || {
        drop(clones(&other));
        let _ = ends.send(());
    });
    let waited = ended.recv_timeout(Duration::from_secs(10));
    GOES_ON.store(true, Ordering::SeqCst);
    maker.join().expect("the maker doesn't panic");
    cloner.join().expect("the cloner doesn't panic");
    assert!(waited.is_ok(), "{name}: a clone waits for another thread");
}

/// Owners go to threads and end there, the last one after the guards and before. All reach one map.
macro_rules! owners {
    ($name:ident, $map:expr) => {
        fn $name() -> Result<(), OutOfMemory> {
            let map = $map?;
            let guard = map.pin()?;
            let threads: Vec<_> = (0..4)
                .map(|key| {
                    let own = map.clone();
                    thread::spawn(move || {
                        let guard = own.clone().pin().unwrap();
                        drop(own);
                        assert_eq!(guard.insert(key, key * 10), Ok(None));
                    })
                })
                .collect();
            // (a scope wouldn't wait until a thread's own blocks are freed)
            for thread in threads {
                thread.join().expect("no thread panics");
            }
            let other = map.clone();
            drop(map);
            let guards = [other.pin()?, guard];
            drop(other);
            assert!(guards
                .iter()
                .all(|it| it.len() == 4 && it.get(3) == Some(30)));
            Ok(())
        }
    };
}

owners!(locked, SharedMap::new());
owners!(sharded, SharedMap::sharded());
owners!(live, LiveMap::new());

/// Makes the call with ever more requests granted, until it is made. Returns how many were refused.
fn refused<T>(name: &str, call: impl Fn() -> Result<T, OutOfMemory>) -> isize {
    for granted in 0.. {
        let before = counted::blocks();
        GRANTED.with(|it| it.set(granted));
        let made = call();
        GRANTED.with(|it| it.set(-1));
        let is_made = made.is_ok();
        drop(made);
        assert_eq!(counted::blocks(), before, "{name}: blocks are left");
        if is_made {
            return granted;
        }
    }
    unreachable!()
}

/// Without memory each call that needs some returns that.
fn without_memory() -> Result<isize, OutOfMemory> {
    let mut count = refused("a map under one lock", SharedMap::new);
    count += refused("a map in shards", SharedMap::sharded);
    count += refused("a live map", LiveMap::new);
    count += refused("a typed map", OrdLiveMap::<i32, bool>::new);
    let (shared, live) = (SharedMap::new()?, LiveMap::new()?);
    count += refused("a guard", || shared.pin());
    count += refused("a live guard", || live.pin());
    let (guard, live_guard) = (shared.pin()?, live.pin()?);
    count += refused("a note", || guard.note());
    count += refused("a live note", || live_guard.note());
    for key in 0..500 {
        guard.insert(key << 20, key)?;
        live_guard.insert(key << 20, key)?;
    }
    count += refused("a copy", || guard.snapshot());
    count += refused("a live copy", || live_guard.snapshot());
    let map = Map::try_from_iter(&guard)?;
    count += refused("a copy of a map", || map.try_clone());
    assert!(guard.len() == 500 && live_guard.snapshot()? == map && guard.snapshot()? == map);
    // (these need none)
    let cloned = [
        refused("a clone", || shared.try_clone()),
        refused("a clone that can't fail", || Ok(shared.clone())),
        refused("a live clone", || Ok(live.clone())),
    ];
    assert_eq!(cloned, [0; 3]);
    Ok(count)
}

fn main() -> Result<(), OutOfMemory> {
    counted::refuse_where(is_refused);
    // (with a word it leaves out what is refused)
    let count = match std::env::args().count() {
        1 => without_memory()?,
        _ => 0,
    };
    let makes = |it: &SharedMap| drop(it.pin());
    for map in [SharedMap::new()?, SharedMap::sharded()?] {
        while_stopped(
            &map,
            makes,
            |it| it.try_clone().unwrap(),
            "SharedMap::try_clone",
        );
        while_stopped(&map, makes, SharedMap::clone, "SharedMap::clone");
    }
    let makes = |it: &LiveMap| drop(it.pin());
    while_stopped(&LiveMap::new()?, makes, LiveMap::clone, "LiveMap::clone");
    let typed = OrdSharedMap::<char, u8>::new()?;
    let makes = |it: &OrdSharedMap<char, u8>| drop(it.pin());
    while_stopped(&typed, makes, OrdSharedMap::clone, "OrdSharedMap::clone");
    drop(typed);
    counted::leave_no_block(
        &[
            ("owners of a map under one lock", locked),
            ("owners of a map in shards", sharded),
            ("owners of a live map", live),
        ],
        counted::blocks,
    );
    println!("clones wait for nobody, {count} requests refused");
    Ok(())
}
