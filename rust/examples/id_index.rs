//! An index from the ids of records to their places in a file, within a limit of memory.
//!
//!     cd rust && cargo run --example id_index

use proved_congee::{Map, OutOfMemory, Pair};

/// Enters a record, and prints the outcome.
fn enter(index: &mut Map, id: u64, place: u64) {
    match index.insert(id, place) {
        Ok(None) => println!("record {id} is at {place}"),
        Ok(Some(before)) => println!("record {id} was at {before} and is at {place}"),
        Err(OutOfMemory) => println!("record {id} finds no room, and the index is as it was"),
    }
}

/// Moves a record unless another move came first, and prints the outcome.
fn shift(index: &mut Map, id: u64, from: u64, to: u64) {
    match index.compare_exchange(id, from, to) {
        Ok(()) => println!("record {id} moved to {to}"),
        Err(Some(found)) => println!("record {id} is already at {found}"),
        Err(None) => println!("record {id} is gone"),
    }
}

/// Lists the records from an id on and below another, two to a line.
fn list(index: &Map, mut start: u64, end: u64) {
    let mut page = [Pair::default(); 2];
    loop {
        let count = index.read_range(start, end, &mut page);
        let Some(last) = page[..count].last() else {
            return;
        };
        let texts: Vec<String> = page[..count]
            .iter()
            .map(|pair| format!("{} at {}", pair.key, pair.value))
            .collect();
        println!("{}", texts.join(", "));
        start = last.key + 1;
    }
}

fn main() -> Result<(), OutOfMemory> {
    // (the first node, and one leaf of four)
    let mut index = Map::with_limit(2104 + 64)?;
    for i in 0..6 {
        enter(&mut index, 1000 + 3 * i, 512 * i);
    }
    enter(&mut index, 1006, 4096);
    enter(&mut index, 70000, 8192);
    shift(&mut index, 1003, 512, 5120);
    shift(&mut index, 1003, 512, 6144);
    match index.remove(1009) {
        Some(_) => println!("record 1009 is taken out"),
        None => println!("there is no record 1009"),
    }
    shift(&mut index, 1009, 1536, 7168);
    list(&index, 1000, 2000);
    println!("{} records, {} bytes charged", index.len(), index.charged());
    Ok(())
}
