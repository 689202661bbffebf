//! Four threads count hits of pages in one map, whose look-ups take no lock. A fifth reads the counters meanwhile, and sees none
//! fall. No hit is lost.

use proved_congee::{LiveGuard, LiveMap, OutOfMemory};
use std::thread;

const THREADS: u64 = 4;
const PAGES: u64 = 1000;
const HITS: u32 = 50_000;

fn page(i: u64) -> u64 {
    i * 0x10000
}

fn count(hits: &LiveGuard, mut state: u64) {
    for _ in 0..HITS {
        state = state
            .wrapping_mul(6364136223846793005)
            .wrapping_add(1442695040888963407);
        let page = page((state >> 33) % PAGES);
        let mut counter = hits.get(page).expect("each page has a counter");
        // Another thread may count in between: then its counter is the one to raise.
        while let Err(current) = hits.compare_exchange(page, counter, counter + 1) {
            counter = current.expect("no counter goes");
        }
    }
}

fn watch(hits: &LiveGuard) {
    let mut last = [0; PAGES as usize];
    for _ in 0..100 {
        for (i, last) in (0..).zip(&mut last) {
            let counter = hits.get(page(i)).expect("each page has a counter");
            assert!(counter >= *last);
            *last = counter;
        }
    }
}

fn main() -> Result<(), OutOfMemory> {
    let map = LiveMap::new()?;
    let hits = map.pin()?;
    for i in 0..PAGES {
        hits.insert(page(i), 0)?;
    }
    thread::scope(|scope| {
        for id in 0..THREADS {
            let hits = map.pin()?;
            scope.spawn(move || count(&hits, id + 1));
        }
        let hits = map.pin()?;
        scope.spawn(move || watch(&hits));
        Ok::<(), OutOfMemory>(())
    })?;
    let all: u64 = (0..PAGES).filter_map(|i| hits.get(page(i))).sum();
    println!("{all} hits of {PAGES} pages");
    Ok(())
}
