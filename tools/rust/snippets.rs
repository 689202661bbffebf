//! What users of `BTreeMap` write, as it is for this map: each snippet compiles, and does what it does there.

use proved_congee::{ExtendError, FreezeError, Frozen, Map, OutOfMemory, Pair, Readers};
use std::collections::hash_map::DefaultHasher;
use std::collections::{BTreeMap, HashSet};
use std::error::Error;
use std::hash::{Hash, Hasher};
use std::io;
use std::sync::{Arc, Mutex, OnceLock};
use std::thread;

type Done = Result<(), Box<dyn Error>>;

fn three() -> Result<Map, OutOfMemory> {
    Map::try_from([(5, 50), (7, 70), (9, 90)])
}

fn hash_of(it: &impl Hash) -> u64 {
    let mut hasher = DefaultHasher::new();
    it.hash(&mut hasher);
    hasher.finish()
}

fn keys_by_reference() -> Done {
    let mut map = three()?;
    let key = 7;
    assert_eq!(
        (map.get(key), map.get(&key), map.get(7)),
        (Some(70), Some(70), Some(70))
    );
    assert!(map.contains_key(&key) && !map.contains_key(&8));
    let found: Vec<u64> = [5, 6, 7].iter().filter_map(|key| map.get(key)).collect();
    assert_eq!(found, [50, 70]);
    assert_eq!(map.remove(&key), Some(70));
    Ok(())
}

fn keys_by_reference_of_a_frozen_map() -> Done {
    let frozen = three()?.freeze()?;
    assert_eq!((frozen.get(&7), frozen.contains_key(&8)), (Some(70), false));
    Ok(())
}

fn ranges_by_reference() -> Done {
    let map = three()?;
    let (start, end) = (5, 9);
    assert!(map.range(&start..&end).eq([(5, 50), (7, 70)]));
    Ok(())
}

fn of_an_array() -> Done {
    let map = Map::try_from([(2, 20), (1, 10)])?;
    assert_eq!(map.first(), Some((1, 10)));
    let map: Map = [(2, 20)].try_into()?;
    assert_eq!(map.len(), 1);
    Ok(())
}

fn of_a_vector_and_a_slice() -> Done {
    let pairs = vec![(2, 20), (1, 10)];
    assert_eq!(Map::try_from(pairs.as_slice())?, Map::try_from(pairs)?);
    Ok(())
}

fn of_a_btree_map_and_back() -> Done {
    let plain = BTreeMap::from([(2, 20), (1, 10)]);
    let map = Map::try_from(&plain)?;
    assert_eq!(map.into_iter().collect::<BTreeMap<_, _>>(), plain);
    Ok(())
}

fn of_an_iterator() -> Done {
    let map = Map::try_from_iter((0..100).map(|key| (key, key * key)))?;
    assert_eq!(map.get(9), Some(81));
    Ok(())
}

fn copied() -> Done {
    let map = three()?;
    let mut other = map.try_clone()?;
    assert_eq!(other, map);
    other.insert(1, 10)?;
    assert_eq!((map.len(), other.len()), (3, 4));
    Ok(())
}

fn extended() -> Done {
    let mut map = three()?;
    map.try_extend(vec![(1, 10), (7, 71)])?;
    map.try_extend(&three()?)?;
    assert!(map.iter().eq([(1, 10), (5, 50), (7, 70), (9, 90)]));
    Ok(())
}

fn extended_as_far_as_it_goes() -> Done {
    let mut map = Map::with_limit(2104 + 64)?;
    let refused: ExtendError = map.try_extend((0..10).map(|key| (key, key))).unwrap_err();
    assert_eq!(
        (refused.inserted(), refused.pair(), map.len()),
        (4, (4, 4), 4)
    );
    assert_eq!(
        refused.to_string(),
        "there is no memory for another node, after 4 pairs"
    );
    Ok(())
}

fn appended() -> Done {
    let (mut map, mut other) = (three()?, Map::try_from([(7, 71), (8, 80)])?);
    map.try_append(&mut other)?;
    assert!(map.values().eq([50, 71, 80, 90]) && other.is_empty());
    Ok(())
}

fn appended_as_far_as_it_goes() -> Done {
    let (mut map, mut other) = (Map::with_limit(2104 + 64)?, three()?);
    other.insert(u64::MAX, 1)?;
    let refused = map.try_append(&mut other).unwrap_err();
    assert_eq!(refused.pair(), (u64::MAX, 1));
    assert!(map.keys().eq([5, 7, 9]) && other.keys().eq([u64::MAX]));
    Ok(())
}

fn split_off() -> Done {
    let mut map = three()?;
    let end = map.try_split_off(&7)?;
    assert!(map.keys().eq([5]) && end.keys().eq([7, 9]));
    Ok(())
}

fn kept_where_a_split_is_refused() -> Done {
    let mut map = Map::with_limit(2104 + 64)?;
    map.try_extend([(1, 10), (2, 20)])?;
    let other = map.try_split_off(2)?;
    assert_eq!((other.limit(), other.len(), map.len()), (2168, 1, 1));
    Ok(())
}

fn the_value_of_a_closure() -> Done {
    let mut map = three()?;
    assert_eq!(map.get_or_insert_with(7, || 1)?, 70);
    assert_eq!(map.get_or_insert_with(8, || 80)?, 80);
    assert_eq!(map.get(8), Some(80));
    Ok(())
}

fn into_keys_and_values() -> Done {
    assert_eq!(three()?.into_keys().collect::<Vec<_>>(), [5, 7, 9]);
    assert_eq!(
        three()?.into_values().rev().collect::<Vec<_>>(),
        [90, 70, 50]
    );
    Ok(())
}

fn the_limit() -> Done {
    let map = Map::with_limit(1 << 20)?;
    assert!(map.limit() == 1 << 20 && map.charged() < map.limit());
    let frozen = map.freeze()?;
    assert_eq!((frozen.limit(), frozen.charged()), (1 << 20, 2104));
    let map = frozen.thaw().unwrap();
    assert_eq!(map.limit(), 1 << 20);
    Ok(())
}

fn frozen_maps_are_compared() -> Done {
    let (one, other) = (three()?.freeze()?, three()?.freeze()?);
    assert_eq!(one, other);
    assert_ne!(one, Map::new()?.freeze()?);
    Ok(())
}

fn in_order() -> Done {
    let mut maps = [three()?, Map::try_from([(5, 49)])?, Map::new()?];
    maps.sort();
    assert!(maps[0].is_empty() && maps[1].len() == 1 && maps[0] < maps[2]);
    assert!(three()?.freeze()? > Map::new()?.freeze()?);
    Ok(())
}

fn in_a_set() -> Done {
    assert_eq!(hash_of(&three()?), hash_of(&three()?));
    assert_eq!(hash_of(&three()?.freeze()?), hash_of(&three()?));
    let maps = HashSet::from([three()?, three()?, Map::new()?]);
    assert_eq!(maps.len(), 2);
    Ok(())
}

fn pairs_are_turned() {
    let pair = Pair::from((7, 70));
    let (key, value) = pair.into();
    assert_eq!((pair.key, pair.value), (key, value));
}

fn an_error_of_input_and_output() -> Done {
    fn fill(limit: u64) -> io::Result<Map> {
        let mut map = Map::with_limit(limit)?;
        map.try_extend([(1, 10), (u64::MAX, 20)])?;
        map.insert(2, 20)?;
        Ok(map.freeze()?.thaw().unwrap())
    }
    assert_eq!(fill(2168).unwrap_err().kind(), io::ErrorKind::OutOfMemory);
    assert_eq!(fill(u64::MAX)?.len(), 3);
    Ok(())
}

fn frozen_by_a_question_mark() -> Result<(), OutOfMemory> {
    fn freeze(map: Map) -> Result<Frozen, FreezeError> {
        map.freeze()
    }
    assert_eq!(freeze(three()?)?.len(), 3);
    Ok(())
}

fn in_a_static() -> Done {
    static MAP: OnceLock<Mutex<Map>> = OnceLock::new();
    static READERS: OnceLock<Readers> = OnceLock::new();
    let map = MAP.get_or_init(|| Mutex::new(Map::new().unwrap()));
    map.lock().unwrap().insert(7, 70)?;
    let readers = READERS.get_or_init(|| Readers::new(three().unwrap().freeze().unwrap()));
    assert_eq!(
        (map.lock().unwrap().get(7), readers.reader()?.get(7)),
        (Some(70), Some(70))
    );
    Ok(())
}

fn in_threads() -> Done {
    let map = Arc::new(Mutex::new(Map::new()?));
    let threads: Vec<_> = (0..4)
        .map(|key| {
            let map = Arc::clone(&map);
            thread::spawn(move || map.lock().unwrap().insert(key, key))
        })
        .collect();
    for it in threads {
        assert_eq!(it.join().unwrap(), Ok(None));
    }
    assert_eq!(map.lock().unwrap().len(), 4);
    Ok(())
}

fn in_a_struct() -> Done {
    #[derive(Debug, PartialEq, Eq, PartialOrd, Ord, Hash)]
    struct Index {
        name: String,
        places: Map,
    }
    let index = |places| Index {
        name: "one".into(),
        places,
    };
    assert_eq!(index(three()?), index(three()?));
    assert_eq!(
        format!("{:?}", index(Map::new()?)),
        r#"Index { name: "one", places: {} }"#
    );
    Ok(())
}

fn in_loops() -> Done {
    let mut map = three()?;
    let mut sum = 0;
    for (key, value) in &map {
        sum += key + value;
    }
    for (key, _) in map.try_clone()? {
        map.insert(key + 1, sum)?;
    }
    while let Some((key, _)) = map.pop_first() {
        sum -= key;
    }
    assert_eq!(sum, 21 + 210 - (5 + 6 + 7 + 8 + 9 + 10));
    Ok(())
}

fn by_adapters() -> Done {
    let map = three()?;
    let most = map.iter().max_by_key(|(_, value)| *value);
    assert_eq!((most, map.values().sum::<u64>()), (Some((9, 90)), 210));
    assert_eq!(
        map.range(..=7)
            .rev()
            .map(|(key, _)| key)
            .collect::<Vec<_>>(),
        [7, 5]
    );
    assert!(map.keys().zip(map.values()).eq(&map));
    Ok(())
}

fn main() -> Done {
    let snippets: [fn() -> Done; 26] = [
        keys_by_reference,
        keys_by_reference_of_a_frozen_map,
        ranges_by_reference,
        of_an_array,
        of_a_vector_and_a_slice,
        of_a_btree_map_and_back,
        of_an_iterator,
        copied,
        extended,
        extended_as_far_as_it_goes,
        appended,
        appended_as_far_as_it_goes,
        split_off,
        kept_where_a_split_is_refused,
        the_value_of_a_closure,
        into_keys_and_values,
        the_limit,
        frozen_maps_are_compared,
        in_order,
        in_a_set,
        an_error_of_input_and_output,
        in_a_static,
        in_threads,
        in_a_struct,
        in_loops,
        by_adapters,
    ];
    for it in snippets {
        it()?;
    }
    pairs_are_turned();
    frozen_by_a_question_mark()?;
    println!("{} snippets", snippets.len() + 2);
    Ok(())
}
