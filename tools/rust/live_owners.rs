//! Maps of objects that threads share, of `Arc` and of `Box`. Each object counts that it was made and dropped, and knows whether it
//! is there. Threads make all calls at a few keys: in the end as many objects are dropped as were made, each once. Counters that
//! are raised by exchanges lose nothing. What a refused insertion returns is what was handed in. A loan outlives its key, an `Arc`
//! its map. An object's `Drop` calls the map by another guard. Keys are found and visited in their order, in both directions.

use proved_congee::{
    Busy, ExchangeError, LiveArcMap, LiveBoxGuard, LiveBoxMap, LiveOwnerGuard, LiveOwnerMap, Loan,
    PinError, Pointer, Refused, TryError,
};
use std::cell::RefCell;
use std::error::Error;
use std::mem;
use std::sync::atomic::{AtomicBool, AtomicU64, Ordering};
use std::sync::{Arc, Mutex};
use std::thread;

const THREADS: u64 = 4;
const KEYS: u64 = 16;
const TURNS: u64 = 20_000;

static MADE: AtomicU64 = AtomicU64::new(0);
static DROPPED: AtomicU64 = AtomicU64::new(0);

fn next(state: &mut u64) -> u64 {
    // (splitmix64)
    *state = state.wrapping_add(0x9e3779b97f4a7c15);
    let z = (*state ^ (*state >> 30)).wrapping_mul(0xbf58476d1ce4e5b9);
    let z = (z ^ (z >> 27)).wrapping_mul(0x94d049bb133111eb);
    z ^ (z >> 31)
}

/// Keys of one leaf, and far away.
fn key_of(place: u64) -> u64 {
    match place {
        0..=7 => 250 + place,
        15 => u64::MAX,
        _ => place << 40,
    }
}

struct Counted {
    key: u64,
    number: u64,
    is_there: AtomicBool,
}

impl Counted {
    fn new(key: u64, number: u64) -> Counted {
        MADE.fetch_add(1, Ordering::SeqCst);
        Counted {
            key,
            number,
            is_there: AtomicBool::new(true),
        }
    }

    /// The number, of an object of this key that is there.
    fn read(&self, key: u64) -> u64 {
        assert!(self.is_there.load(Ordering::SeqCst) && self.key == key);
        self.number
    }
}

impl Drop for Counted {
    fn drop(&mut self) {
        assert!(self.is_there.swap(false, Ordering::SeqCst), "dropped once");
        DROPPED.fetch_add(1, Ordering::SeqCst);
    }
}

fn all_are_dropped() {
    assert_eq!(DROPPED.load(Ordering::SeqCst), MADE.load(Ordering::SeqCst));
}

/// A pointer that is made of an object.
trait Made: Pointer<Target = Counted> + From<Counted> + Send {}
impl<P: Pointer<Target = Counted> + From<Counted> + Send> Made for P {}

/// One call of a guard.
fn call<P: Made>(guard: &mut LiveOwnerGuard<P>, key: u64, kind: u64, number: u64) {
    let fresh = || P::from(Counted::new(key, number));
    match kind {
        0 => drop(
            guard
                .insert(key, fresh())
                .map(|it| it.map(|it| it.read(key))),
        ),
        1 => drop(
            guard
                .try_insert(key, fresh())
                .map(|it| it.map(|it| it.read(key))),
        ),
        2 => drop(guard.remove(key).map(|it| it.read(key))),
        3 => drop(guard.try_remove(key).map(|it| it.map(|it| it.read(key)))),
        4 => drop(
            guard
                .insert_absent(key, fresh())
                .map(|it| it.map(|(it, _)| it.read(key))),
        ),
        5 => drop(
            guard
                .try_insert_absent(key, fresh())
                .map(|it| it.map(|(it, _)| it.read(key))),
        ),
        6 | 7 => {
            let Some(ticket) = guard.get(key).map(|it| it.ticket()) else {
                return;
            };
            if kind == 6 {
                let _ = guard.compare_exchange(key, ticket, fresh());
            } else {
                let _ = guard.try_compare_exchange(key, ticket, fresh());
            }
        }
        8 => drop(guard.try_get(key).map(|it| it.map(|it| it.read(key)))),
        9 => drop(
            guard
                .ceiling(key)
                .map(|(at, it)| (it.read(at), assert!(at >= key))),
        ),
        10 => {
            if let Ok(Some((at, it))) = guard.try_below(key) {
                it.read(at);
                assert!(at < key);
            }
        }
        11 => visit(guard, key, number % 4),
        12 => {
            if let Some(ticket) = guard.get(key).map(|it| it.ticket()) {
                if let Some(taken) = guard.compare_remove(key, ticket) {
                    assert!(taken.ticket() == ticket && taken.read(key) < u64::MAX);
                }
            }
        }
        _ => {
            if let Some(loan) = guard.get(key) {
                let number = loan.read(key);
                thread::yield_now();
                // (the key may be gone by now)
                assert_eq!(loan.read(key), number);
                if number % 16 == 0 {
                    // (until the guard's next call)
                    mem::forget(loan);
                }
            }
        }
    }
}

/// Visits keys in their order.
fn visit<P: Made>(guard: &mut LiveOwnerGuard<P>, from: u64, kind: u64) {
    let mut before = None;
    let mut ascends = |key: u64, object: &Counted| {
        object.read(key);
        assert!(before.replace(key) < Some(key) && key >= from);
    };
    match kind {
        0 => guard.for_each(from.., &mut ascends),
        1 => {
            let mut last = u64::MAX;
            guard.for_each_descending(..=from, |key, object| {
                object.read(key);
                assert!(key <= last && key <= from);
                last = key;
            });
        }
        2 => assert!(guard.len() <= KEYS),
        _ => assert!(guard
            .keys()
            .all(|key| (0..KEYS).any(|it| key_of(it) == key))),
    }
}

fn churn<P: Made>() -> Result<(), Box<dyn Error>> {
    let map = LiveOwnerMap::<P>::new()?;
    let threads = (0..THREADS)
        .map(|id| Ok((id, map.pin()?)))
        .collect::<Result<Vec<_>, PinError>>()?;
    drop(map);
    let threads: Vec<_> = threads
        .into_iter()
        .map(|(id, mut guard)| {
            thread::spawn(move || {
                let mut seed = id;
                for turn in 0..TURNS {
                    let place = next(&mut seed) % KEYS;
                    call(
                        &mut guard,
                        key_of(place),
                        next(&mut seed) % 15,
                        turn * THREADS + id,
                    );
                }
            })
        })
        .collect();
    for thread in threads {
        thread.join().expect("no thread panics");
    }
    all_are_dropped();
    Ok(())
}

/// Counters that threads raise by exchanges, and references that outlive the keys.
fn counters() -> Result<(), Box<dyn Error>> {
    let map = LiveArcMap::<Counted>::new()?;
    let mut first = map.pin()?;
    for place in 0..KEYS {
        until_made(|| {
            first
                .insert(place, Arc::new(Counted::new(place, 0)))
                .map(drop)
        });
    }
    let held = Mutex::new(Vec::new());
    thread::scope(|scope| {
        for _ in 0..THREADS {
            let (mut guard, held) = (map.pin().unwrap(), &held);
            scope.spawn(move || {
                for turn in 0..TURNS / 4 {
                    let key = turn % KEYS;
                    raise(&mut guard, key);
                    if turn % 512 == 0 {
                        held.lock().unwrap().extend(guard.get_arc(key));
                    }
                }
            });
        }
    });
    let sum: u64 = (0..KEYS)
        .map(|place| first.get(place).unwrap().read(place))
        .sum();
    assert_eq!(sum, THREADS * (TURNS / 4));
    drop((map, first));
    let held = held.into_inner()?;
    assert!(held.iter().all(|it| it.read(it.key) > 0));
    drop(held);
    all_are_dropped();
    Ok(())
}

fn raise(guard: &mut LiveOwnerGuard<Arc<Counted>>, key: u64) {
    loop {
        let loan = guard.get(key).expect("a counter");
        let (ticket, number) = (loan.ticket(), loan.read(key) + 1);
        drop(loan);
        match guard.compare_exchange(key, ticket, Arc::new(Counted::new(key, number))) {
            Ok(_) => return,
            Err(refused) => assert_eq!(*refused.error(), ExchangeError::Other),
        }
    }
}

/// Makes an insertion again until there is memory, as the stand-in has it each time but one.
fn until_made<P: Pointer, E>(mut call: impl FnMut() -> Result<(), Refused<P, E>>) {
    while call().is_err() {}
}

/// What a refused insertion returns.
fn refusals() -> Result<(), Box<dyn Error>> {
    let mut guard = LiveArcMap::with_limit(4_096)?.pin()?;
    let mine = Arc::new(Counted::new(7, 70));
    let refused = guard.insert(7, mine.clone()).map(drop).unwrap_err();
    assert!(Arc::ptr_eq(&refused.into_owner(), &mine));
    let refused = guard
        .try_insert_absent(7, mine.clone())
        .map(drop)
        .unwrap_err();
    assert!(Arc::ptr_eq(&refused.into_owner(), &mine));
    assert!(guard.get(7).is_none());
    guard.reclaim();
    assert_eq!(Arc::strong_count(&mine), 1);
    let mut boxes = LiveBoxMap::with_limit(4_096)?.pin()?;
    let address: *const Counted = &*mine;
    let mine = Box::new(Counted::new(7, 71));
    let boxed: *const Counted = &*mine;
    if let Some(back) = boxes.insert(7, mine).map(drop).unwrap_err().into_owner() {
        assert!(std::ptr::eq(&*back, boxed) && !std::ptr::eq(&*back, address));
    }
    drop((guard, boxes));
    assert!(LiveArcMap::<Counted>::with_limit(4_095).is_err());
    Ok(())
}

/// An exchange that is lost, a key that is there, loans beside removals, and as many guards as there can be.
fn one_by_one() -> Result<(), Box<dyn Error>> {
    let map = LiveArcMap::<Counted>::new()?;
    let (mut one, mut other) = (map.pin()?, map.pin()?);
    let first = Arc::new(Counted::new(7, 1));
    until_made(|| one.insert(7, first.clone()).map(drop));
    let ticket = one.get(7).unwrap().ticket();
    let second = Arc::new(Counted::new(7, 2));
    let (present, mine) = other.insert_absent(7, second.clone()).unwrap().unwrap();
    assert!(present.read(7) == 1 && present.ticket() == ticket && Arc::ptr_eq(&mine, &second));
    drop((present, mine));
    assert!(Arc::ptr_eq(&one.get_arc(7).unwrap(), &first));
    let loan = one.get(7).unwrap();
    other.compare_exchange(7, ticket, second.clone()).unwrap();
    let refused = other
        .compare_exchange(7, ticket, first.clone())
        .map(drop)
        .unwrap_err();
    assert_eq!(*refused.error(), ExchangeError::Other);
    assert!(Arc::ptr_eq(&refused.into_owner(), &first));
    assert!(other.compare_remove(7, ticket).is_none() && other.get(7).is_some());
    // (a loan outlives its key, and is counted as one reference by what made it alone)
    while other.reclaim() > 0 {}
    assert!(loan.read(7) == 1 && Arc::strong_count(&first) == 2);
    drop(loan);
    while other.reclaim() > 0 {}
    assert_eq!(Arc::strong_count(&first), 1);
    let last = other.get(7).unwrap().ticket();
    assert!(
        other.compare_remove(8, last).is_none() && other.try_compare_remove(8, last)?.is_none()
    );
    assert_eq!(
        other.try_compare_remove(7, last)?.map(|it| it.read(7)),
        Some(2)
    );
    assert!(one.get(7).is_none() && other.compare_remove(7, last).is_none());
    while other.reclaim() > 0 {}
    assert_eq!(Arc::strong_count(&second), 1);
    until_made(|| one.insert(7, second.clone()).map(drop));
    one.meet(&mut other);
    let mut more = Vec::new();
    while let Ok(guard) = map.pin() {
        more.push(guard);
    }
    assert_eq!((more.len(), map.pin().unwrap_err()), (61, PinError::Full));
    more.pop();
    assert!(one.try_clone().is_ok());
    drop((map, one, other, more));
    assert_eq!(Arc::strong_count(&second), 1);
    drop((first, second));
    all_are_dropped();
    Ok(())
}

/// Searches: from which key, and which of the stored keys each finds.
const STORED: [u64; 5] = [5, 255, 256, 70_000, u64::MAX];

type Found = Option<usize>;

/// A key, and what `ceiling`, `above`, `floor` and `below` find.
const SEARCHES: [(u64, [Found; 4]); 9] = [
    (0, [Some(0), Some(0), None, None]),
    (5, [Some(0), Some(1), Some(0), None]),
    (6, [Some(1), Some(1), Some(0), Some(0)]),
    (255, [Some(1), Some(2), Some(1), Some(0)]),
    (256, [Some(2), Some(3), Some(2), Some(1)]),
    (69_999, [Some(3), Some(3), Some(2), Some(2)]),
    (70_000, [Some(3), Some(4), Some(3), Some(2)]),
    (1 << 40, [Some(4), Some(4), Some(3), Some(3)]),
    (u64::MAX, [Some(4), None, Some(4), Some(3)]),
];

/// The place of a key that was found, whose object is read.
fn place_of(found: Option<(u64, Loan<'_, Arc<Counted>>)>) -> Found {
    let (key, object) = found?;
    let place = STORED.iter().position(|&it| it == key);
    assert_eq!(Some(object.read(key) as usize), place);
    place
}

fn searches(guard: &mut LiveOwnerGuard<Arc<Counted>>) -> Result<(), Busy> {
    assert_eq!(
        (place_of(guard.first()), place_of(guard.last())),
        (Some(0), Some(4))
    );
    assert_eq!(
        (
            guard.try_first().map(place_of)?,
            guard.try_last().map(place_of)?
        ),
        (Some(0), Some(4))
    );
    for (key, found) in SEARCHES {
        let waits = [
            place_of(guard.ceiling(key)),
            place_of(guard.above(key)),
            place_of(guard.floor(key)),
            place_of(guard.below(key)),
        ];
        let tries = [
            guard.try_ceiling(key).map(place_of)?,
            guard.try_above(key).map(place_of)?,
            guard.try_floor(key).map(place_of)?,
            guard.try_below(key).map(place_of)?,
        ];
        assert_eq!((waits, tries), (found, found));
    }
    Ok(())
}

/// Keys in their order: searches, a visit beside removals and replacements, and iterators from both ends.
fn in_order() -> Result<(), Box<dyn Error>> {
    let map = LiveArcMap::<Counted>::new()?;
    let (mut guard, mut other) = (map.pin()?, map.pin()?);
    assert!(guard.is_empty() && guard.len() == 0 && guard.try_len()? == 0);
    assert!(guard.first().is_none() && guard.last().is_none() && guard.keys().next().is_none());
    for (key, number) in STORED.into_iter().zip(0..) {
        until_made(|| {
            guard
                .insert(key, Arc::new(Counted::new(key, number)))
                .map(drop)
        });
    }
    assert!(!guard.is_empty() && guard.len() == 5 && guard.try_len()? == 5);
    searches(&mut guard)?;
    assert!(guard.keys().eq(STORED) && guard.keys().rev().eq(STORED.into_iter().rev()));
    other.clear();
    for key in 0..300 {
        until_made(|| guard.insert(key, Arc::new(Counted::new(key, 0))).map(drop));
    }
    let mut visited = Vec::new();
    guard.for_each(.., |key, object| {
        visited.push((key, object.read(key)));
        if key % 10 == 0 {
            // (the next key goes, the one after it is replaced, and this one goes while its object is lent)
            other.remove(key + 1).expect("the next key");
            until_made(|| {
                let new = Arc::new(Counted::new(key + 2, 9));
                other.insert(key + 2, new).map(drop)
            });
            other.remove(key).expect("this key");
            other.reclaim();
            object.read(key);
        }
    });
    let expected = (0..300)
        .filter(|key| key % 10 != 1)
        .map(|key| (key, if key % 10 == 2 { 9 } else { 0 }));
    assert!(visited.into_iter().eq(expected));
    let left: Vec<u64> = (0..300).filter(|key| key % 10 > 1).collect();
    assert!(guard.keys().eq(left.iter().copied()) && guard.len() == 240);
    let arcs: Vec<_> = guard.range(..).collect();
    assert!(arcs.iter().map(|(key, _)| key).eq(&left));
    assert!(arcs.iter().all(|(key, it)| it.read(*key) <= 9));
    let mut ends = guard.range(10..=20);
    let front: Vec<_> = ends.by_ref().take(3).map(|(key, _)| key).collect();
    let back: Vec<_> = ends.rev().map(|(key, _)| key).collect();
    assert_eq!(
        (&front[..], &back[..]),
        (&[12, 13, 14][..], &[19, 18, 17, 16, 15][..])
    );
    let mut down = Vec::new();
    guard.for_each_descending(5..15, |key, _| down.push(key));
    assert_eq!(down, [14, 13, 12, 9, 8, 7, 6, 5]);
    drop((map, guard, other));
    assert!(arcs.iter().all(|(_, it)| Arc::strong_count(it) == 1));
    drop(arcs);
    all_are_dropped();
    Ok(())
}

/// An object whose drop calls its map by another guard, as a thread keeps one for that.
struct Calls {
    also: u64,
    _counted: Counted,
}

thread_local! {
    static BY: RefCell<Option<LiveBoxGuard<Calls>>> = const { RefCell::new(None) };
}

impl Drop for Calls {
    fn drop(&mut self) {
        // (not in a drop within that guard's own call)
        BY.with(|by| {
            if let Some(guard) = by.try_borrow_mut().ok().as_mut().and_then(|it| it.as_mut()) {
                guard.remove(self.also);
            }
        });
    }
}

fn drops_that_call() -> Result<(), Box<dyn Error>> {
    let map = LiveBoxMap::<Calls>::new()?;
    let mut guard = map.pin()?;
    BY.set(Some(map.pin()?));
    for key in 0..500 {
        let mut new = Some(Box::new(Calls {
            also: key ^ 1,
            _counted: Counted::new(key, 0),
        }));
        while let Some(it) = new.take() {
            new = guard
                .insert(key, it)
                .map(drop)
                .err()
                .and_then(Refused::into_owner);
        }
    }
    for key in (0..500).step_by(2) {
        drop(guard.remove(key));
    }
    guard.reclaim();
    // (most took their neighbour with them, but those that were dropped within the other guard's calls)
    let left = (0..500).filter(|key| guard.get(key).is_some()).count();
    assert!(left < 200);
    drop(BY.take());
    drop((map, guard));
    all_are_dropped();
    Ok(())
}

/// An object that has a map of its own kind.
struct Node {
    below: LiveArcMap<Node>,
    _counted: Counted,
}

fn nodes() -> Result<(), Box<dyn Error>> {
    let new = |number| -> Result<Arc<Node>, Box<dyn Error>> {
        Ok(Arc::new(Node {
            below: LiveArcMap::new()?,
            _counted: Counted::new(0, number),
        }))
    };
    let root = new(0)?;
    let inner = new(1)?;
    until_made(|| root.below.pin().unwrap().insert(7, inner.clone()).map(drop));
    let leaf = new(2)?;
    until_made(|| inner.below.pin().unwrap().insert(8, leaf.clone()).map(drop));
    drop((inner, leaf));
    // (by another thread, so the type is `Send` and `Sync`)
    let found = thread::spawn(move || {
        let inner = root.below.pin().unwrap().get_arc(7).unwrap();
        let leaf = inner.below.pin().unwrap().get_arc(8);
        leaf.is_some_and(|leaf| leaf.below.pin().unwrap().is_empty())
    });
    assert!(found.join().expect("no panic"));
    all_are_dropped();
    Ok(())
}

/// Removed objects wait, and not for ever.
fn waits_for_few() -> Result<(), Box<dyn Error>> {
    let mut guard = LiveBoxMap::<Counted>::new()?.pin()?;
    let before = DROPPED.load(Ordering::SeqCst);
    for key in 0..200 {
        until_made(|| guard.insert(key, Box::new(Counted::new(key, 0))).map(drop));
        guard.remove(key);
    }
    assert!(DROPPED.load(Ordering::SeqCst) > before + 100);
    Ok(())
}

/// Over the stand-in where each second call is busy: calls that wait are made.
fn waits() -> Result<(), Box<dyn Error>> {
    let mut guard = LiveBoxMap::<Counted>::new()?.pin()?;
    for key in 0..100 {
        let new = |number| Box::new(Counted::new(key, number));
        assert!(guard.insert(key, new(0))?.is_none());
        let ticket = guard.get(key).expect("the key").ticket();
        guard.compare_exchange(key, ticket, new(1))?;
        assert_eq!(
            guard
                .insert_absent(key, new(2))?
                .expect("the key")
                .0
                .read(key),
            1
        );
        let ticket = guard.get(key).expect("the key").ticket();
        let removed = guard.compare_remove(key, ticket).expect("the key");
        assert_eq!(removed.read(key), 1);
        drop(removed);
        assert!(guard.insert_absent(key, new(2))?.is_none());
        assert_eq!(guard.remove(key).expect("the key").read(key), 2);
        assert!(guard.insert_absent(key, new(3))?.is_none());
    }
    let (mut up, mut down) = (0, 100);
    guard.for_each(.., |key, object| {
        assert!(key == up && object.read(key) == 3);
        up += 1;
    });
    guard.for_each_descending(.., |key, object| {
        down -= 1;
        assert!(key == down && object.read(key) == 3);
    });
    assert!(up == 100 && down == 0 && guard.keys().eq(0..100));
    assert!(guard.len() == 100 && !guard.is_empty());
    assert_eq!(guard.above(6).expect("a key").1.read(7), 3);
    assert_eq!(guard.last().expect("a key").1.read(99), 3);
    Ok(())
}

/// Over the stand-in where each call is busy: calls that don't wait return that, and what was handed in.
fn busy() -> Result<(), Box<dyn Error>> {
    let mut guard = LiveArcMap::<Counted>::new()?.pin()?;
    let mine = Arc::new(Counted::new(7, 0));
    assert_eq!(guard.try_get(7).map(|it| it.is_some()), Err(Busy));
    assert_eq!(guard.try_remove(7).map(|it| it.is_some()), Err(Busy));
    assert_eq!(guard.try_first().map(|it| it.is_some()), Err(Busy));
    assert_eq!(guard.try_ceiling(7).map(|it| it.is_some()), Err(Busy));
    assert_eq!(guard.try_above(7).map(|it| it.is_some()), Err(Busy));
    assert_eq!(guard.try_last().map(|it| it.is_some()), Err(Busy));
    assert_eq!(guard.try_floor(7).map(|it| it.is_some()), Err(Busy));
    assert_eq!(guard.try_below(7).map(|it| it.is_some()), Err(Busy));
    assert_eq!(guard.try_len(), Err(Busy));
    let refused = guard.try_insert(7, mine.clone()).map(drop).unwrap_err();
    assert!(*refused.error() == TryError::Busy && Arc::ptr_eq(&refused.into_owner(), &mine));
    let refused = guard
        .try_insert_absent(7, mine.clone())
        .map(drop)
        .unwrap_err();
    assert!(*refused.error() == TryError::Busy && Arc::ptr_eq(&refused.into_owner(), &mine));
    assert_eq!(Arc::strong_count(&mine), 1);
    Ok(())
}

fn main() -> Result<(), Box<dyn Error>> {
    match std::env::args().nth(1).as_deref() {
        Some("busy") => return busy(),
        Some("waits") => return waits(),
        _ => {}
    }
    churn::<Arc<Counted>>()?;
    churn::<Box<Counted>>()?;
    // (with a word it leaves out what the stand-in refuses)
    if std::env::args().count() == 1 {
        counters()?;
        one_by_one()?;
        in_order()?;
        drops_that_call()?;
        nodes()?;
        waits_for_few()?;
    }
    refusals()?;
    all_are_dropped();
    println!("{} objects, each dropped once", MADE.load(Ordering::SeqCst));
    Ok(())
}
