//! What a wrapper must not do: two threads call one handle at once. The stand-in has to see it, and to end the program.

use proved_congee::{LiveGuard, LiveMap};
use std::thread;

/// A guard that claims to be one that threads may share.
struct Shared(LiveGuard);

// SAFETY: none. It isn't so.
unsafe impl Sync for Shared {}

fn main() {
    let guard = Shared(LiveMap::new().unwrap().pin().unwrap());
    let guard = &guard;
    thread::scope(|scope| {
        for _ in 0..2 {
            scope.spawn(move || {
                for key in 0..1_000_000 {
                    guard.0.insert(key % 64, key).unwrap();
                }
            });
        }
    });
}
