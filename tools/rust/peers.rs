//! `BTreeMap` behind C's calling convention, for tools/c/peers. No value is 0: a call returns 0 for no value. A call that finds a pair
//! returns the sum of key and value, and one that finds many the sum of all.

use std::collections::BTreeMap;

type Map = BTreeMap<u64, u64>;

fn sum(pair: (&u64, &u64)) -> u64 {
    pair.0.wrapping_add(*pair.1)
}

fn sum_of<'a>(pairs: impl Iterator<Item = (&'a u64, &'a u64)>) -> u64 {
    pairs.fold(0, |all, pair| all.wrapping_add(sum(pair)))
}

#[no_mangle]
pub extern "C" fn btree_new() -> Box<Map> {
    Box::default()
}

#[no_mangle]
pub extern "C" fn btree_free(map: Box<Map>) {
    drop(map);
}

#[no_mangle]
pub extern "C" fn btree_insert(map: &mut Map, key: u64, value: u64) -> u64 {
    map.insert(key, value).unwrap_or(0)
}

#[no_mangle]
pub extern "C" fn btree_get(map: &Map, key: u64) -> u64 {
    map.get(&key).copied().unwrap_or(0)
}

#[no_mangle]
pub extern "C" fn btree_remove(map: &mut Map, key: u64) -> u64 {
    map.remove(&key).unwrap_or(0)
}

#[no_mangle]
pub extern "C" fn btree_range(map: &Map, start: u64, most: usize) -> u64 {
    sum_of(map.range(start..).take(most))
}

#[no_mangle]
pub extern "C" fn btree_iterate(map: &Map) -> u64 {
    sum_of(map.iter())
}

#[no_mangle]
pub extern "C" fn btree_floor(map: &Map, key: u64) -> u64 {
    map.range(..=key).next_back().map_or(0, sum)
}

#[no_mangle]
pub extern "C" fn btree_ceiling(map: &Map, key: u64) -> u64 {
    map.range(key..).next().map_or(0, sum)
}

#[no_mangle]
pub extern "C" fn btree_pop_first(map: &mut Map) -> u64 {
    map.pop_first().map_or(0, |(key, value)| sum((&key, &value)))
}

#[no_mangle]
pub extern "C" fn btree_pop_last(map: &mut Map) -> u64 {
    map.pop_last().map_or(0, |(key, value)| sum((&key, &value)))
}
