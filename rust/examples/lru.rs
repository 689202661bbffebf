//! A cache that forgets what was used longest ago: a map from each id to the time of its last use, and one back.
//!
//!     cd rust && cargo run --example lru

use proved_congee::{Map, OutOfMemory};

const ROOM: usize = 1000;
const USES: u32 = 1_000_000;
const IDS: u64 = 2000;

struct Cache {
    times: Map,
    ids: Map,
    now: u64,
}

impl Cache {
    fn new() -> Result<Cache, OutOfMemory> {
        Ok(Cache {
            times: Map::new()?,
            ids: Map::new()?,
            now: 0,
        })
    }

    /// Forgets the id that was used longest ago.
    fn forget(&mut self) -> Result<(), OutOfMemory> {
        let (_, id) = self.ids.pop_first().ok_or(OutOfMemory)?;
        self.times.remove(id);
        Ok(())
    }

    /// Uses an id, and returns whether it was there.
    fn touch(&mut self, id: u64) -> Result<bool, OutOfMemory> {
        self.now += 1;
        let before = loop {
            match self.times.insert(id, self.now) {
                Ok(before) => break before,
                Err(OutOfMemory) => self.forget()?,
            }
        };
        before.map(|time| self.ids.remove(time));
        while self.ids.insert(self.now, id).is_err() {
            if self.forget().is_err() {
                self.times.remove(id);
                return Err(OutOfMemory);
            }
        }
        while self.ids.len() > ROOM {
            self.forget()?;
        }
        Ok(before.is_some())
    }
}

fn main() -> Result<(), OutOfMemory> {
    let mut cache = Cache::new()?;
    let (mut hits, mut state) = (0, 1u64);
    for _ in 0..USES {
        state = state
            .wrapping_mul(6364136223846793005)
            .wrapping_add(1442695040888963407);
        hits += u64::from(cache.touch((state >> 33) % IDS)?);
    }
    println!("{hits} hits, {} ids kept", cache.times.len());
    if let Some((_, id)) = cache.ids.first() {
        println!("the id {id} was used longest ago");
    }
    Ok(())
}
