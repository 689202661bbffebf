//! What a user's program may ask of the crate `congee`: signatures, traits, types of its own. These lines compile and pass over
//! that crate, too.

#![allow(clippy::type_complexity)]

use congee::{epoch, Allocator, Congee, CongeeArc, DefaultAllocator, U64Congee};
use std::fmt::{Debug, Display};
use std::sync::{Arc, OnceLock};

type Map = Congee<usize, usize>;
type Owners = CongeeArc<usize, String>;

#[test]
fn signatures() {
    let _: fn(&Map, &usize, &epoch::Guard) -> Option<usize> = Map::get;
    let _: fn(&Map) -> epoch::Guard = Map::pin;
    let _: fn(DefaultAllocator) -> Map = Map::new;
    let _: fn(DefaultAllocator, fn(usize, usize)) -> Map = Map::new_with_drainer;
    let _: fn(&Map, &epoch::Guard) -> bool = Map::is_empty;
    let _: fn(&Map, &usize, &epoch::Guard) -> Option<usize> = Map::remove;
    let _: fn(&Map, usize, usize, &epoch::Guard) -> Result<Option<usize>, _> = Map::insert;
    let _: fn(&Map, &usize, &usize, &mut [(usize, usize)], &epoch::Guard) -> usize = Map::range;
    let _: fn(
        &Map,
        &usize,
        fn(usize) -> Option<usize>,
        &epoch::Guard,
    ) -> Option<(usize, Option<usize>)> = Map::compute_if_present;
    let _: fn(&Map, usize, fn(Option<usize>) -> usize, &epoch::Guard) -> Result<Option<usize>, _> =
        Map::compute_or_insert;
    let _: fn(
        &Map,
        &usize,
        &usize,
        Option<usize>,
        &epoch::Guard,
    ) -> Result<Option<usize>, Option<usize>> = Map::compare_exchange;
    let _: fn(&Map) -> Vec<usize> = Map::keys;
    let _: fn() -> Map = Map::default;
    let _: fn() -> U64Congee<usize> = U64Congee::new;
    let _: fn() -> U64Congee<usize> = U64Congee::default;
    let _: fn(&U64Congee<usize>, u64, &epoch::Guard) -> Option<usize> = U64Congee::get;
    let _: fn(&U64Congee<usize>, u64, usize, &epoch::Guard) -> Result<Option<usize>, _> =
        U64Congee::insert;
    let _: fn(&U64Congee<usize>, u64, &epoch::Guard) -> Option<usize> = U64Congee::remove;
    let _: fn(&U64Congee<usize>, u64, u64, &mut [([u8; 8], usize)], &epoch::Guard) -> usize =
        U64Congee::range;
    let _: fn() -> Owners = Owners::new;
    let _: fn() -> Owners = Owners::default;
    let _: fn(&Owners) -> epoch::Guard = Owners::pin;
    let _: fn(&Owners, &epoch::Guard) -> bool = Owners::is_empty;
    let _: fn(&Owners, usize, &epoch::Guard) -> Option<Arc<String>> = Owners::get;
    let _: fn(&Owners, usize, &epoch::Guard) -> Option<Arc<String>> = Owners::remove;
    let _: fn(&Owners, usize, Arc<String>, &epoch::Guard) -> Result<Option<Arc<String>>, _> =
        Owners::insert;
    let _: fn(
        &Owners,
        usize,
        fn(Arc<String>) -> Option<Arc<String>>,
        &epoch::Guard,
    ) -> Option<Arc<String>> = Owners::compute_if_present;
    let _: fn(&Owners) -> Vec<usize> = Owners::keys;
}

fn auto<T: Send + Sync + Unpin + 'static>() {}

#[test]
fn traits() {
    auto::<Map>();
    auto::<U64Congee<usize>>();
    auto::<Owners>();
    auto::<DefaultAllocator>();
    fn shown<T: Default + Clone + Debug + Display>(_: &T) {}
    shown(&Map::default().stats());
    fn error<T, E: std::error::Error + Send + Sync + 'static>(_: Result<T, E>) {}
    let map = Map::default();
    error(map.insert(1, 1, &map.pin()));
    fn serialized<T: Debug>(it: T) -> String {
        format!("{it:?}")
    }
    assert!(serialized(map.stats()).contains("kv_pairs: 1"));
    // (any program's `?`)
    fn any(map: &Map) -> Result<(), Box<dyn std::error::Error + Send + Sync>> {
        map.insert(2, 2, &map.pin())?;
        Ok(())
    }
    any(&map).unwrap();
}

#[derive(Clone, Copy, Debug, PartialEq)]
struct Page(usize);

impl From<usize> for Page {
    fn from(number: usize) -> Page {
        Page(number)
    }
}

impl From<Page> for usize {
    fn from(page: Page) -> usize {
        page.0
    }
}

/// Neither `Copy` nor a key.
#[derive(Clone, Debug, PartialEq)]
struct Frame {
    number: usize,
}

impl From<usize> for Frame {
    fn from(number: usize) -> Frame {
        Frame { number }
    }
}

impl From<Frame> for usize {
    fn from(frame: Frame) -> usize {
        frame.number
    }
}

fn generic<A: Allocator + Clone + Send + 'static>(map: &Congee<Page, Page, A>) -> Option<Page> {
    let guard = epoch::pin();
    map.insert(Page(7), Page(70), &guard).ok()?;
    map.compare_exchange(&Page(7), &Page(70), Some(Page(71)), &guard)
        .ok()?
}

#[test]
fn types_of_ones_own() {
    let map = Congee::<Page, Page>::new(DefaultAllocator {});
    assert_eq!(generic(&map), Some(Page(71)));
    assert_eq!(map.keys(), [Page(7)]);
    let frames = U64Congee::<Frame>::new();
    let guard = epoch::pin();
    assert_eq!(
        frames.insert(1 << 40, Frame { number: 3 }, &guard).unwrap(),
        None
    );
    assert_eq!(frames.get(1 << 40, &guard), Some(Frame { number: 3 }));
    let owners = CongeeArc::<Page, Frame>::new();
    owners
        .insert(Page(1), Arc::new(Frame { number: 1 }), &guard)
        .unwrap();
    assert_eq!(owners.get(Page(1), &guard).unwrap().number, 1);
}

#[test]
fn in_a_static() {
    static MAP: OnceLock<Map> = OnceLock::new();
    let map = MAP.get_or_init(Map::default);
    map.insert(1, 2, &map.pin()).unwrap();
    std::thread::spawn(|| assert_eq!(map.get(&1, &map.pin()), Some(2)))
        .join()
        .unwrap();
}

#[test]
fn printed_statistics() {
    let map = Map::default();
    let guard = map.pin();
    for key in 0..1000 {
        map.insert(key, key, &guard).unwrap();
    }
    let text = map.stats().to_string();
    assert!(text.starts_with("Level: 0 --- || N4:        0,     0.00 || N16:        0,     0.00 || N48:        0,     0.00 || N256:        1,     0.00 ||\n"), "{text}");
    assert!(
        text.contains("Overall node count: 6, entry count: 1005\n"),
        "{text}"
    );
    assert!(text.ends_with("KV count: 1000\n"), "{text}");
}
