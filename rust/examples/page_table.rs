//! A page table: it takes the pages of an address space to frames of memory.
//!
//!     cd rust && cargo run --example page_table

use proved_congee::{Map, OutOfMemory};

const PAGE_SIZE: u64 = 4096;

/// Maps so many pages, from the first on, to frames from the first on. Where memory is missing, nothing stays mapped.
fn map_pages(table: &mut Map, page: u64, frame: u64, count: u64) -> Result<(), OutOfMemory> {
    for i in 0..count {
        if let Err(refused) = table.insert(page + i, frame + i) {
            for done in 0..i {
                table.remove(page + done);
            }
            return Err(refused);
        }
    }
    Ok(())
}

/// Unmaps the pages from the first on and below the last, and returns how many were mapped.
fn unmap_pages(table: &mut Map, first: u64, last: u64) -> usize {
    let mapped: Vec<u64> = table.range(first..last).map(|(page, _)| page).collect();
    mapped.iter().filter_map(|page| table.remove(*page)).count()
}

fn show(table: &Map, address: u64) {
    match table.get(address / PAGE_SIZE) {
        Some(frame) => println!(
            "{address:#x} is at {:#x}",
            frame * PAGE_SIZE + address % PAGE_SIZE
        ),
        None => println!("{address:#x} is not mapped"),
    }
}

fn main() -> Result<(), OutOfMemory> {
    let mut table = Map::new()?;
    map_pages(&mut table, 0x400, 7, 20)?;
    map_pages(&mut table, 0x7fffffff0, 100, 16)?;
    println!(
        "{} pages are mapped, by nodes of {} bytes",
        table.len(),
        table.charged()
    );
    show(&table, 0x401234);
    show(&table, 0x7fffffff8abc);
    show(&table, 0x500000);
    println!(
        "{} pages are unmapped",
        unmap_pages(&mut table, 0x400, 0x410)
    );
    show(&table, 0x401234);
    println!("{} pages stay", table.len());
    Ok(())
}
