//! No block of memory is left by a map of each form: by its handles, its readers, iterators that are dropped half way, calls that are
//! refused, and threads that end before the map and after it.

#[path = "../../rust-drop-in/tests/counted/mod.rs"]
mod counted;

use proved_congee::keyed::{OrdLiveMap, OrdMap, OrdSharedMap};
use proved_congee::{LiveMap, Map, OutOfMemory, SharedMap};
use std::sync::mpsc;
use std::thread;

/// A key far from the others.
fn far(i: u64) -> u64 {
    i.wrapping_mul(0x9E37_79B9_7F4A_7C15)
}

fn filled(count: u64) -> Result<Map, OutOfMemory> {
    Map::try_from_iter((0..count).map(|i| (far(i), i)))
}

/// A map that is cut, copied, joined and iterated half way.
fn owned() -> Result<(), OutOfMemory> {
    let mut map = filled(2_000)?;
    let mut other = map.try_clone()?;
    let mut rest = map.try_split_off(1 << 63)?;
    let _ = map.try_append(&mut other);
    rest.retain(|key, _| key % 3 == 0);
    rest.remove_range(..u64::MAX / 4 * 3);
    rest.shrink_to_fit();
    let _ = (map.iter().nth(70), map.range(1 << 60..).rev().nth(70));
    let mut pairs = rest.into_iter();
    drop((pairs.next(), pairs));
    let _ = map.into_keys().nth(3);
    let _ = Map::with_limit(30_000)?.try_extend((0..10_000).map(|i| (far(i), i)));
    drop(Map::with_limit(1));
    Ok(())
}

/// Readers of a frozen map in threads, and a map that is thawed.
fn frozen() -> Result<(), OutOfMemory> {
    let Ok(frozen) = filled(500)?.freeze() else {
        return Ok(());
    };
    let readers: Vec<_> = (0..3).filter_map(|_| frozen.try_clone().ok()).collect();
    let threads = readers
        .into_iter()
        .map(|it| thread::spawn(move || it.iter().count()));
    threads.for_each(|it| drop(it.join()));
    drop(frozen.thaw().map(|mut map| map.pop_last()));
    Ok(())
}

/// A shared and a live map, whose guards go to threads that end before the map and after it.
macro_rules! shared {
    ($name:ident, $of:ty, $new:ident) => {
        fn $name() -> Result<(), OutOfMemory> {
            let map = <$of>::$new()?;
            let guard = map.pin()?;
            drop(guard.try_clone()?);
            guard.learn(&guard.note()?);
            let guards: Vec<_> = (0..4).filter_map(|_| map.pin().ok()).collect();
            let threads: Vec<_> = (0u64..)
                .zip(guards)
                .map(|(t, own)| {
                    let (ends, told) = mpsc::channel::<()>();
                    let thread = thread::spawn(move || {
                        for i in 0..500 {
                            let _ = own.insert(far(i + 100 * t), i);
                            own.remove(far(i));
                            let _ = own.iter().nth(7);
                        }
                        // (two of them have the last guards)
                        if t >= 2 {
                            let _ = told.recv();
                        }
                    });
                    (ends, thread)
                })
                .collect();
            drop((guard, map));
            for (ends, thread) in threads {
                drop(ends);
                drop(thread.join());
            }
            drop(<$of>::with_limit(1));
            let small = <$of>::with_limit(64 << 10)?.pin()?;
            let refused = (0..20_000).filter(|i| small.insert(far(*i), *i).is_err());
            let _ = refused.count();
            Ok(())
        }
    };
}

shared!(locked, SharedMap, new);
shared!(sharded, SharedMap, sharded);
shared!(live, LiveMap, new);

/// Maps whose keys are of other types.
fn keyed() -> Result<(), OutOfMemory> {
    let mut map = OrdMap::<i32, char>::new()?;
    for i in -500..500 {
        map.entry(i * 7).or_insert('a')?;
    }
    let taken = map.extract_if(|key, _| key % 2 == 0).take(20).count();
    let _ = (taken, map.iter().nth(3));
    let _ = map.try_split_off(0)?.into_iter().next();
    OrdSharedMap::<char, bool>::new()?
        .pin()?
        .insert('x', true)?;
    let pairs = OrdLiveMap::<(u32, u32), i64>::new()?;
    pairs.pin()?.insert((1, 2), -3)?;
    Ok(())
}

fn main() {
    counted::leave_no_block(
        &[
            ("a map", owned),
            ("a frozen map", frozen),
            ("a map under one lock", locked),
            ("a map in shards", sharded),
            ("a live map", live),
            ("maps of other keys", keyed),
        ],
        counted::blocks,
    );
}
