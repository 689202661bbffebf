//! Which frame a page is in, where runs of pages are mapped at once: the map has the first page of each run.
//!
//!     cd rust && cargo run --example extents

use proved_congee::{Map, OutOfMemory};

struct Run {
    first: u64,
    pages: u64,
    frame: u64,
}

struct Table {
    places: Map,
    runs: Vec<Run>,
}

impl Table {
    /// The last run that begins at this page or before it.
    fn run_before(&self, page: u64) -> Option<&Run> {
        let (_, place) = self.places.floor(page)?;
        self.runs.get(usize::try_from(place).ok()?)
    }

    /// Maps a run of at least one page, and returns whether no run overlaps it.
    fn map_run(&mut self, first: u64, pages: u64, frame: u64) -> Result<bool, OutOfMemory> {
        if let Some(run) = self.run_before(first + (pages - 1)) {
            if run.first >= first || first - run.first < run.pages {
                return Ok(false);
            }
        }
        self.places.insert(first, self.runs.len() as u64)?;
        self.runs.push(Run {
            first,
            pages,
            frame,
        });
        Ok(true)
    }

    fn show(&self, page: u64) {
        match self.run_before(page) {
            Some(run) if page - run.first < run.pages => {
                println!("page {page} is in frame {}", run.frame + (page - run.first));
            }
            _ => println!("page {page} isn't mapped"),
        }
    }
}

fn main() -> Result<(), OutOfMemory> {
    let mut table = Table {
        places: Map::new()?,
        runs: Vec::new(),
    };
    table.map_run(100, 50, 1000)?;
    table.map_run(200, 10, 5000)?;
    let overlaps = !table.map_run(149, 3, 7000)?;
    let outcome = if overlaps { "refused" } else { "mapped" };
    println!("a run that overlaps another is {outcome}");
    table.show(149);
    table.show(150);
    table.show(99);
    // All runs that begin from page 150 on, at once.
    println!("{} unmapped", table.places.remove_range(150..));
    table.show(200);
    Ok(())
}
