//! A page table that threads share. The first thread that touches a page gives it a frame, and no frame is given twice.
//!
//!     cd rust && cargo run --example shared_page_table

use proved_congee::{Guard, OutOfMemory, SharedMap};
use std::thread;

const THREADS: u64 = 4;
const PAGES: u64 = 2000;
const FRAMES: u64 = 2048;
const TOUCHES: u64 = 40_000;

/// The maps of one address space.
struct Space {
    /// From page to frame.
    table: SharedMap,
    /// The frames that are free.
    frames: SharedMap,
}

/// A thread's guards of both.
struct Task {
    table: Guard,
    frames: Guard,
}

impl Space {
    fn task(&self) -> Result<Task, OutOfMemory> {
        Ok(Task {
            table: self.table.pin()?,
            frames: self.frames.pin()?,
        })
    }

    /// Runs the work on each thread, and returns the sum of what it returns.
    fn run<F>(&self, work: F) -> Result<u64, OutOfMemory>
    where
        F: Fn(&Task, u64) -> Result<u64, OutOfMemory> + Sync,
    {
        thread::scope(|scope| {
            let threads: Vec<_> = (0..THREADS)
                .map(|number| {
                    let work = &work;
                    scope.spawn(move || work(&self.task()?, number))
                })
                .collect();
            threads
                .into_iter()
                .map(|thread| thread.join().expect("the thread doesn't panic"))
                .sum()
        })
    }
}

impl Task {
    /// Touches a page, and returns its frame.
    fn touch(&self, page: u64) -> Result<u64, OutOfMemory> {
        if let Some(frame) = self.table.get(page) {
            return Ok(frame);
        }
        let (spare, _) = self.frames.pop_first().ok_or(OutOfMemory)?;
        let frame = self.table.get_or_insert(page, spare);
        if frame != Ok(spare) {
            // Another thread came first, or there is no memory.
            self.frames.insert(spare, 0)?;
        }
        frame
    }

    /// Unmaps the pages from one to another, as all threads do at once, and returns how many this one unmapped.
    fn unmap(&self, first: u64, last: u64) -> Result<u64, OutOfMemory> {
        let mut unmapped = 0;
        for (page, frame) in self.table.range(first..=last) {
            if self.table.compare_remove(page, frame).is_ok() {
                self.frames.insert(frame, 0)?;
                unmapped += 1;
            }
        }
        Ok(unmapped)
    }
}

fn main() -> Result<(), OutOfMemory> {
    let space = Space {
        table: SharedMap::new()?,
        frames: SharedMap::new()?,
    };
    let task = space.task()?;
    task.frames.extend((0..FRAMES).map(|frame| (frame, 0)))?;
    space.run(|task, number| {
        let mut state = number;
        for _ in 0..TOUCHES {
            state = state
                .wrapping_mul(6364136223846793005)
                .wrapping_add(1442695040888963407);
            let page = 0x400 + (state >> 33) % PAGES;
            assert_eq!(task.touch(page)?, task.touch(page)?);
        }
        Ok(0)
    })?;
    println!(
        "{} pages are mapped, {} frames are free",
        task.table.len(),
        task.frames.len()
    );
    let unmapped = space.run(|task, _| task.unmap(0x400, 0x400 + 499))?;
    println!(
        "{unmapped} pages are unmapped, {} frames are free",
        task.frames.len()
    );
    Ok(())
}
