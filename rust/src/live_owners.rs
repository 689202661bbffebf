//! Maps of objects that threads share, and look up without a lock.

use crate::owner::Owner;
use crate::shared::{next_map, unless_busy, waiting, Busy, TryError};
use crate::sys::*;
use crate::OutOfMemory;
use std::borrow::Borrow;
use std::fmt;
use std::marker::PhantomData;
use std::ops::{Deref, RangeInclusive};
use std::sync::Arc;
use std::thread;

mod in_order;

pub use in_order::Arcs;

mod sealed {
    pub trait Sealed {}
    impl<T> Sealed for std::sync::Arc<T> {}
    impl<T> Sealed for Box<T> {}
}

/// What a map of objects stores: an `Arc<T>` or a `Box<T>`. Other types can't implement the trait.
///
/// An object may be read and dropped by any thread that has a guard. So a map and its guards are `Send` if their objects are `Send`
/// and `Sync`. An object may have a map of its own kind.
///
/// ```
/// fn is_stored<P: proved_congee::Pointer>() {}
/// is_stored::<std::sync::Arc<String>>();
/// is_stored::<Box<u64>>();
/// ```
pub trait Pointer: sealed::Sealed + Sized + 'static {
    /// The object.
    type Target: 'static;

    /// What a refused insertion returns: the `Arc` itself, or an `Option` of the `Box` ([`LiveBoxMap`]).
    type Back;

    #[doc(hidden)]
    type Spare;

    #[doc(hidden)]
    fn spare(&self) -> Self::Spare;

    #[doc(hidden)]
    fn back(spare: Self::Spare, owner: Option<Self>) -> Self::Back;

    // What was handed in, if the caller has it.
    #[doc(hidden)]
    fn again(back: Self::Back) -> Result<Self, Self::Back>;

    #[doc(hidden)]
    fn into_pointer(self) -> *const Self::Target;

    /// # Safety
    ///
    /// The pointer is one of `into_pointer`, and nobody else makes an owner of it.
    #[doc(hidden)]
    unsafe fn from_pointer(pointer: *const Self::Target) -> Self;
}

impl<T: 'static> Pointer for Arc<T> {
    type Target = T;
    type Back = Arc<T>;
    type Spare = Arc<T>;

    // (the library may keep the one that is handed in, for a while)
    fn spare(&self) -> Arc<T> {
        self.clone()
    }

    fn back(spare: Arc<T>, _: Option<Arc<T>>) -> Arc<T> {
        spare
    }

    fn again(back: Arc<T>) -> Result<Arc<T>, Arc<T>> {
        Ok(back)
    }

    fn into_pointer(self) -> *const T {
        Arc::into_raw(self)
    }

    unsafe fn from_pointer(pointer: *const T) -> Arc<T> {
        unsafe { Arc::from_raw(pointer) }
    }
}

impl<T: 'static> Pointer for Box<T> {
    type Target = T;
    type Back = Option<Box<T>>;
    type Spare = ();

    fn spare(&self) {}

    fn back((): (), owner: Option<Box<T>>) -> Option<Box<T>> {
        owner
    }

    fn again(back: Option<Box<T>>) -> Result<Box<T>, Option<Box<T>>> {
        back.ok_or(None)
    }

    fn into_pointer(self) -> *const T {
        Box::into_raw(self)
    }

    unsafe fn from_pointer(pointer: *const T) -> Box<T> {
        unsafe { Box::from_raw(pointer.cast_mut()) }
    }
}

fn pointer_of<P: Pointer>(lent: &Lent) -> *const P::Target {
    lent.owner as usize as *const P::Target
}

/// A map from `u64` to `Arc<T>` that threads share, and look up without a lock: [`LiveOwnerMap`] has the calls.
///
/// ```
/// use proved_congee::LiveArcMap;
/// use std::sync::Arc;
/// use std::thread;
///
/// # fn main() -> Result<(), Box<dyn std::error::Error>> {
/// let names = LiveArcMap::new()?;
/// thread::scope(|scope| {
///     for key in 0..4 {
///         let mut names = names.pin().unwrap();
///         scope.spawn(move || {
///             names.insert(key, Arc::new(format!("name {key}"))).unwrap();
///         });
///     }
/// });
/// let mut names = names.pin()?;
/// assert_eq!(*names.get(3).unwrap(), "name 3");
/// let held: Arc<String> = names.get_arc(2).unwrap();
/// names.clear();
/// assert_eq!((held.as_str(), Arc::strong_count(&held)), ("name 2", 1));
/// # Ok(())
/// # }
/// ```
pub type LiveArcMap<T> = LiveOwnerMap<Arc<T>>;

/// A map from `u64` to `Box<T>` that threads share, and look up without a lock: [`LiveOwnerMap`] has the calls. An object
/// has no count, and is reached by loans alone.
///
/// A refused insertion returns an `Option` of the box. `None` means that the library keeps the box for a while: it is dropped
/// by a later call. No test of the library has met `None`.
///
/// ```
/// use proved_congee::LiveBoxMap;
///
/// # fn main() -> Result<(), Box<dyn std::error::Error>> {
/// let mut words = LiveBoxMap::new()?.pin()?;
/// assert!(words.insert(7, Box::new("seven")).unwrap().is_none());
/// let before = words.insert(7, Box::new("VII")).unwrap();
/// assert_eq!(before.as_deref(), Some(&"seven"));
/// # Ok(())
/// # }
/// ```
pub type LiveBoxMap<T> = LiveOwnerMap<Box<T>>;

/// A guard of a [`LiveArcMap`]: [`LiveOwnerGuard`] has the calls.
///
/// ```
/// # fn main() -> Result<(), Box<dyn std::error::Error>> {
/// let guard: proved_congee::LiveArcGuard<String> = proved_congee::LiveArcMap::new()?.pin()?;
/// # drop(guard);
/// # Ok(())
/// # }
/// ```
pub type LiveArcGuard<T> = LiveOwnerGuard<Arc<T>>;

/// A guard of a [`LiveBoxMap`]: [`LiveOwnerGuard`] has the calls.
///
/// ```
/// # fn main() -> Result<(), Box<dyn std::error::Error>> {
/// let guard: proved_congee::LiveBoxGuard<String> = proved_congee::LiveBoxMap::new()?.pin()?;
/// # drop(guard);
/// # Ok(())
/// # }
/// ```
pub type LiveBoxGuard<T> = LiveOwnerGuard<Box<T>>;

/// A map from `u64` to objects that threads share, each by a [`LiveOwnerGuard`] of its own, and look up without a lock. A
/// look-up counts no reference: it lends the object ([`Loan`]). [`LiveArcMap`] and [`LiveBoxMap`] are its two forms.
///
/// An object that is removed or replaced is dropped once no guard has it lent: by a later insertion or removal, by
/// [`reclaim`](LiveOwnerGuard::reclaim), or with the last guard of the map at the latest. Each stored `Arc` or `Box` is dropped
/// once.
///
/// Proved of the library beneath: its map has *tickets* as values, numbers that are issued once, each for one object. The
/// calls of tickets have one legal history, as those of a [`LiveMap`](crate::LiveMap) have. The object that comes with a ticket
/// is the one that the ticket was issued for. A ticket comes back to a guard, to drop its object, once at most. Of two guards
/// that [meet](LiveOwnerGuard::meet), one at most gets it back, and neither has its object lent. This wrapper is tested. Tests
/// alone show that each object comes back.
///
/// A clone is one more owner of the same map, as a clone of an `Arc` is. It takes no memory, and waits for nobody. The map
/// itself has one of the 64 guards that a map can have.
///
/// ```
/// # fn main() -> Result<(), Box<dyn std::error::Error>> {
/// let map = proved_congee::LiveBoxMap::<u64>::new()?;
/// let (mut one, mut other) = (map.pin()?, map.clone().pin()?);
/// one.insert(7, Box::new(70)).unwrap();
/// assert_eq!(*other.get(7).unwrap(), 70);
/// # Ok(())
/// # }
/// ```
#[doc(alias("concurrent", "lock_free"))]
pub struct LiveOwnerMap<P: Pointer> {
    first: Owner<LiveOwnerGuard<P>>,
}

impl<P: Pointer> LiveOwnerMap<P> {
    /// Makes an empty map without a limit. Returns [`OutOfMemory`] if there is no memory.
    ///
    /// ```
    /// # fn main() -> Result<(), Box<dyn std::error::Error>> {
    /// assert!(proved_congee::LiveArcMap::<u64>::new()?.pin()?.get(7).is_none());
    /// # Ok(())
    /// # }
    /// ```
    #[doc(alias = "default")]
    pub fn new() -> Result<LiveOwnerMap<P>, OutOfMemory> {
        LiveOwnerMap::with_limit(u64::MAX)
    }

    /// Makes an empty map whose nodes take at most so many bytes together, as [`LiveMap::with_limit`] counts them. The
    /// places of the pointers lie beside the nodes, and don't count. Returns [`OutOfMemory`] if there is no memory, or the
    /// limit is below the first segment's 4,096 bytes.
    ///
    /// ```
    /// use proved_congee::LiveArcMap;
    ///
    /// assert!(LiveArcMap::<u64>::with_limit(4_095).is_err());
    /// let map = LiveArcMap::<u64>::with_limit(100_000).unwrap();
    /// assert_eq!(map.limit(), 100_000);
    /// ```
    ///
    /// [`LiveMap::with_limit`]: crate::LiveMap::with_limit
    #[doc(alias("capacity", "with_capacity"))]
    pub fn with_limit(bytes: u64) -> Result<LiveOwnerMap<P>, OutOfMemory> {
        // (first, so that no handle is left without memory for the count)
        let guards = Owner::new(1)?;
        let mut made = LiveOwnersHandle::none();
        // SAFETY: the place is a local, and initialised.
        match unsafe { congee_c_live_owners_new(bytes, &mut made) } {
            0 => Ok(LiveOwnerMap {
                first: Owner::new(LiveOwnerGuard {
                    owners: made.owners,
                    map: next_map(),
                    guards,
                    of: PhantomData,
                })?,
            }),
            _ => Err(OutOfMemory),
        }
    }

    /// Returns the limit in bytes that the map was made with, or `u64::MAX` for none. Waits while another thread makes a
    /// guard.
    ///
    /// ```
    /// # fn main() -> Result<(), proved_congee::OutOfMemory> {
    /// assert_eq!(proved_congee::LiveArcMap::<u64>::new()?.limit(), u64::MAX);
    /// # Ok(())
    /// # }
    /// ```
    pub fn limit(&self) -> u64 {
        self.first.first().limit()
    }

    /// Returns the bytes of all segments of nodes that the map has so far, and the limit, in constant time. Waits while
    /// another thread makes a guard.
    ///
    /// ```
    /// # fn main() -> Result<(), proved_congee::OutOfMemory> {
    /// let (charged, limit) = proved_congee::LiveArcMap::<u64>::with_limit(10_000)?.usage();
    /// assert!(charged <= limit && limit == 10_000);
    /// # Ok(())
    /// # }
    /// ```
    pub fn usage(&self) -> (u64, u64) {
        self.first.first().usage()
    }

    /// Makes a guard, by which one thread at a time calls the map. A guard may go to another thread, and may outlive this
    /// value. A guard takes a small block, so keep it for many calls. Waits while another thread makes one. Returns an error
    /// if there is no memory for a guard, or if the map has 64 guards, of which this value has one.
    ///
    /// ```
    /// # fn main() -> Result<(), Box<dyn std::error::Error>> {
    /// use proved_congee::PinError;
    ///
    /// let map = proved_congee::LiveArcMap::<u64>::new()?;
    /// let mut guards = (0..63).map(|_| map.pin()).collect::<Result<Vec<_>, _>>()?;
    /// assert_eq!(map.pin().unwrap_err(), PinError::Full);
    /// guards.pop();
    /// assert!(map.pin().is_ok());
    /// # Ok(())
    /// # }
    /// ```
    #[doc(alias("epoch", "handle"))]
    pub fn pin(&self) -> Result<LiveOwnerGuard<P>, PinError> {
        self.first.first().try_clone()
    }
}

impl<P: Pointer> Clone for LiveOwnerMap<P> {
    fn clone(&self) -> LiveOwnerMap<P> {
        LiveOwnerMap {
            first: self.first.clone(),
        }
    }
}

impl<P: Pointer> fmt::Debug for LiveOwnerMap<P> {
    fn fmt(&self, f: &mut fmt::Formatter<'_>) -> fmt::Result {
        f.debug_struct("LiveOwnerMap").finish_non_exhaustive()
    }
}

/// Why a map of objects made no guard.
///
/// ```
/// use proved_congee::PinError;
///
/// assert_ne!(PinError::Full, PinError::OutOfMemory);
/// ```
#[derive(Clone, Copy, Debug, PartialEq, Eq)]
pub enum PinError {
    /// There is no memory for a guard.
    OutOfMemory,
    /// The map has 64 guards.
    Full,
}

impl fmt::Display for PinError {
    fn fmt(&self, f: &mut fmt::Formatter<'_>) -> fmt::Result {
        match self {
            PinError::OutOfMemory => f.write_str("there is no memory for a guard"),
            PinError::Full => f.write_str("the map has 64 guards"),
        }
    }
}

impl std::error::Error for PinError {}

/// An insertion that was refused: why, and what was handed in.
///
/// ```
/// use proved_congee::{LiveArcMap, OutOfMemory};
/// use std::sync::Arc;
///
/// # fn main() -> Result<(), Box<dyn std::error::Error>> {
/// let mut guard = LiveArcMap::with_limit(4_096)?.pin()?;
/// let refused = guard.insert(7, Arc::new("seven")).unwrap_err();
/// assert_eq!(*refused.error(), OutOfMemory);
/// assert_eq!(*refused.into_owner(), "seven");
/// # Ok(())
/// # }
/// ```
pub struct Refused<P: Pointer, E> {
    error: E,
    owner: P::Back,
}

impl<P: Pointer, E> Refused<P, E> {
    /// Returns why the insertion was refused.
    ///
    /// ```
    /// # fn main() -> Result<(), Box<dyn std::error::Error>> {
    /// let mut guard = proved_congee::LiveBoxMap::with_limit(4_096)?.pin()?;
    /// let refused = guard.try_insert(7, Box::new(70)).unwrap_err();
    /// assert_eq!(*refused.error(), proved_congee::TryError::OutOfMemory);
    /// # Ok(())
    /// # }
    /// ```
    pub fn error(&self) -> &E {
        &self.error
    }

    /// Returns what was handed in: the very `Arc` or `Box`. Of a [`LiveBoxMap`] `None` means that the library keeps the box for
    /// a while.
    ///
    /// ```
    /// # fn main() -> Result<(), Box<dyn std::error::Error>> {
    /// let mut guard = proved_congee::LiveBoxMap::with_limit(4_096)?.pin()?;
    /// let refused = guard.insert(7, Box::new(70)).unwrap_err();
    /// assert_eq!(refused.into_owner(), Some(Box::new(70)));
    /// # Ok(())
    /// # }
    /// ```
    pub fn into_owner(self) -> P::Back {
        self.owner
    }
}

impl<P: Pointer, E: fmt::Debug> fmt::Debug for Refused<P, E> {
    fn fmt(&self, f: &mut fmt::Formatter<'_>) -> fmt::Result {
        let mut shown = f.debug_struct("Refused");
        shown.field("error", &self.error).finish_non_exhaustive()
    }
}

impl<P: Pointer, E: fmt::Display> fmt::Display for Refused<P, E> {
    fn fmt(&self, f: &mut fmt::Formatter<'_>) -> fmt::Result {
        self.error.fmt(f)
    }
}

impl<P: Pointer, E: std::error::Error> std::error::Error for Refused<P, E> {}

/// So that `?` works in a function that returns [`OutOfMemory`], where what was handed in is dropped.
impl<P: Pointer> From<Refused<P, OutOfMemory>> for OutOfMemory {
    fn from(refused: Refused<P, OutOfMemory>) -> OutOfMemory {
        refused.error
    }
}

/// Why an exchange wasn't made: the key has another ticket, or another error.
///
/// ```
/// use proved_congee::{ExchangeError, OutOfMemory};
///
/// assert_ne!(ExchangeError::Other, ExchangeError::Refused(OutOfMemory));
/// ```
#[derive(Clone, Copy, Debug, PartialEq, Eq)]
pub enum ExchangeError<E> {
    /// The key has another ticket, or is absent.
    Other,
    /// The call was refused.
    Refused(E),
}

impl<E: fmt::Display> fmt::Display for ExchangeError<E> {
    fn fmt(&self, f: &mut fmt::Formatter<'_>) -> fmt::Result {
        match self {
            ExchangeError::Other => f.write_str("the key has another ticket"),
            ExchangeError::Refused(error) => error.fmt(f),
        }
    }
}

impl<E: std::error::Error> std::error::Error for ExchangeError<E> {}

/// The ticket of a stored object. Each insertion has a ticket of its own, also of an object that was stored before.
///
/// ```
/// # fn main() -> Result<(), Box<dyn std::error::Error>> {
/// let mut guard = proved_congee::LiveBoxMap::new()?.pin()?;
/// guard.insert(7, Box::new(70)).unwrap();
/// let first = guard.get(7).unwrap().ticket();
/// guard.insert(7, Box::new(70)).unwrap();
/// assert_ne!(guard.get(7).unwrap().ticket(), first);
/// # Ok(())
/// # }
/// ```
#[derive(Clone, Copy, Debug, PartialEq, Eq, Hash)]
pub struct Ticket(u64);

/// An object that a guard has lent: until the loan is dropped, nobody drops the object, whoever removes its key.
///
/// ```
/// # fn main() -> Result<(), Box<dyn std::error::Error>> {
/// let map = proved_congee::LiveBoxMap::new()?;
/// let (mut one, mut other) = (map.pin()?, map.pin()?);
/// one.insert(7, Box::new(String::from("seven"))).unwrap();
/// let loan = one.get(7).unwrap();
/// assert!(other.remove(7).is_some());
/// assert_eq!(other.reclaim(), 0);
/// assert_eq!(loan.as_str(), "seven");
/// drop(loan);
/// assert_eq!(other.reclaim(), 1);
/// # Ok(())
/// # }
/// ```
pub struct Loan<'a, P: Pointer> {
    guard: &'a mut LiveOwnerGuard<P>,
    lent: Lent,
}

impl<P: Pointer> Loan<'_, P> {
    /// Returns the object's ticket, by which [`compare_exchange`](LiveOwnerGuard::compare_exchange) replaces the object.
    ///
    /// ```
    /// # fn main() -> Result<(), Box<dyn std::error::Error>> {
    /// let mut guard = proved_congee::LiveBoxMap::new()?.pin()?;
    /// guard.insert(7, Box::new(70)).unwrap();
    /// let loan = guard.get(7).unwrap();
    /// let (ticket, next) = (loan.ticket(), *loan + 1);
    /// drop(loan);
    /// guard.compare_exchange(7, ticket, Box::new(next)).unwrap();
    /// assert_eq!(*guard.get(7).unwrap(), 71);
    /// # Ok(())
    /// # }
    /// ```
    pub fn ticket(&self) -> Ticket {
        Ticket(self.lent.ticket)
    }
}

impl<T: 'static> Loan<'_, Arc<T>> {
    /// Returns a further `Arc` of the object, which outlives the loan.
    ///
    /// ```
    /// use std::sync::Arc;
    ///
    /// # fn main() -> Result<(), Box<dyn std::error::Error>> {
    /// let mut guard = proved_congee::LiveArcMap::new()?.pin()?;
    /// guard.insert(7, Arc::new(70)).unwrap();
    /// let held = guard.get(7).unwrap().to_arc();
    /// assert_eq!((*held, Arc::strong_count(&held)), (70, 2));
    /// # Ok(())
    /// # }
    /// ```
    pub fn to_arc(&self) -> Arc<T> {
        let pointer = pointer_of::<Arc<T>>(&self.lent);
        // SAFETY: the pointer is of `Arc::into_raw`, and the map's own `Arc` is there as long as the loan.
        unsafe {
            Arc::increment_strong_count(pointer);
            Arc::from_raw(pointer)
        }
    }
}

impl<P: Pointer> Deref for Loan<'_, P> {
    type Target = P::Target;

    fn deref(&self) -> &P::Target {
        // SAFETY: the pointer is one of `into_pointer`, and the library returns an owner to nobody while a handle has it
        // lent. The guard is borrowed as `&mut`, so no call ends the loan but `drop`. Objects are read alone.
        unsafe { &*pointer_of::<P>(&self.lent) }
    }
}

impl<P: Pointer> Drop for Loan<'_, P> {
    fn drop(&mut self) {
        self.guard.end();
    }
}

impl<P: Pointer> fmt::Debug for Loan<'_, P>
where
    P::Target: fmt::Debug,
{
    fn fmt(&self, f: &mut fmt::Formatter<'_>) -> fmt::Result {
        (**self).fmt(f)
    }
}

/// One caller of a map of objects: a thread's at a time. With the last guard of a map, and its [`LiveOwnerMap`], the map is
/// freed, and each object that is left in it is dropped.
///
/// Calls take `&mut self`, since a guard has one object lent at a time. A call without `try_` waits while other threads are in
/// the way: it yields (`std::thread::yield_now`) and tries again. The form with `try_` doesn't wait, and returns [`Busy`].
///
/// Objects are dropped within calls of the guard, on its thread, while nothing is locked. The `Drop` of an object may call the
/// map by another guard.
///
/// ```
/// fn may_move<T: Send>() {}
/// may_move::<proved_congee::LiveArcGuard<String>>();
/// ```
///
/// ```compile_fail
/// fn is_shared<T: Sync>() {}
/// is_shared::<proved_congee::LiveArcGuard<String>>();
/// ```
pub struct LiveOwnerGuard<P: Pointer> {
    owners: *mut OneOwnersHandleForEachThread,
    // (which map it is of)
    map: u64,
    // How many guards the map has.
    guards: Owner<u64>,
    of: PhantomData<P>,
}

// SAFETY: the library proves that a handle may go to another thread. There objects are read and dropped, which are `Send` and `Sync`.
// (`Pointer` asks for neither, so that the compiler finds this of an object that has such a map itself.)
unsafe impl<P: Pointer + Send> Send for LiveOwnerGuard<P> where P::Target: Send + Sync {}

// What an exchange returns where the key has another ticket, and the library keeps the owner that was handed in.
const OTHER_KEPT: i32 = 3;

// So many owners wait for the next insertion or removal, which drops them.
const WAIT: u64 = 64;

// A code, and what the call has lent. If the owner that was handed in isn't stored, what the caller has of it.
type Answer<P> = Result<(i32, Lent), (i32, Lent, <P as Pointer>::Back)>;

// Why an insertion was refused, by its code.
fn refused<P: Pointer>((code, _, owner): (i32, Lent, P::Back)) -> Refused<P, TryError> {
    let error = match code {
        BUSY | BUSY_KEPT => TryError::Busy,
        _ => TryError::OutOfMemory,
    };
    Refused { error, owner }
}

// The error of an insertion that waits. (It is refused while busy only where the library keeps the owner.)
fn out_of_memory<P: Pointer>((_, _, owner): (i32, Lent, P::Back)) -> Refused<P, OutOfMemory> {
    let error = OutOfMemory;
    Refused { error, owner }
}

// The error of an exchange, by its code and that of an insertion.
fn not_exchanged<P: Pointer, E>(code: i32, refused: Refused<P, E>) -> Refused<P, ExchangeError<E>> {
    Refused {
        error: match code {
            0 | OTHER_KEPT => ExchangeError::Other,
            _ => ExchangeError::Refused(refused.error),
        },
        owner: refused.owner,
    }
}

// SAFETY of the calls below. The address is one that the library returned and that `drop` hasn't freed. No other call is
// made by it meanwhile: a guard isn't `Sync`, so no two threads are in a call on it, and the library calls nothing back. The
// handle and each place that the library writes to are locals or borrowed as `&mut`, and initialised.
impl<P: Pointer> LiveOwnerGuard<P> {
    fn handle(&self) -> LiveOwnersHandle {
        LiveOwnersHandle {
            owners: self.owners,
        }
    }

    // Drops an owner that came back.
    fn release(&mut self, back: Lent) {
        // SAFETY: the number is one of `offer`, and the library returns each owner once.
        drop(unsafe { P::from_pointer(pointer_of::<P>(&back)) });
    }

    fn end(&mut self) {
        unsafe { congee_c_live_owners_end(&mut self.handle()) }
    }

    fn tidy(&mut self) {
        if unsafe { congee_c_live_owners_pending(&mut self.handle()) } >= WAIT {
            self.reclaim();
        }
    }

    // The loan of a call that found an owner, by its code.
    fn loan(&mut self, (code, lent): (i32, Lent)) -> Option<Loan<'_, P>> {
        (code == 1).then(|| Loan { guard: self, lent })
    }

    // Hands an owner to a call that stores it with these codes.
    fn offer(
        &mut self,
        owner: P,
        stores: RangeInclusive<i32>,
        call: impl FnOnce(&mut LiveOwnersHandle, u64, &mut Lent) -> i32,
    ) -> Answer<P> {
        self.tidy();
        let spare = owner.spare();
        let number = owner.into_pointer() as usize as u64;
        let mut lent = Lent::default();
        let code = call(&mut self.handle(), number, &mut lent);
        if stores.contains(&code) {
            return Ok((code, lent));
        }
        let is_kept = matches!(code, OOM_KEPT | BUSY_KEPT | OTHER_KEPT);
        // SAFETY: the number is that of `owner`, which the library hasn't stored and doesn't keep.
        let owner =
            (!is_kept).then(|| unsafe { P::from_pointer(number as usize as *const P::Target) });
        Err((code, lent, P::back(spare, owner)))
    }

    fn insert_once(&mut self, key: u64, owner: P) -> Answer<P> {
        self.offer(owner, 0..=2, |handle, owner, lent| unsafe {
            congee_c_live_owners_insert(handle, key, owner, lent)
        })
    }

    fn exchange_once(&mut self, key: u64, ticket: Ticket, owner: P) -> Answer<P> {
        self.offer(owner, 1..=2, |handle, owner, lent| unsafe {
            congee_c_live_owners_compare_exchange(handle, key, ticket.0, owner, lent)
        })
    }

    fn keep_once(&mut self, key: u64, owner: P) -> Answer<P> {
        self.offer(owner, 0..=0, |handle, owner, lent| unsafe {
            congee_c_live_owners_get_or_insert(handle, key, owner, lent)
        })
    }

    // Makes an insertion again until it isn't busy. An owner that the library keeps isn't handed in again.
    fn until_made(&mut self, mut owner: P, once: impl Fn(&mut Self, P) -> Answer<P>) -> Answer<P> {
        loop {
            match once(self, owner) {
                Err((code @ (BUSY | BUSY_KEPT), lent, back)) => match P::again(back) {
                    Ok(again) => owner = again,
                    Err(back) => return Err((code, lent, back)),
                },
                made => return made,
            }
            thread::yield_now();
        }
    }

    fn find(&mut self, key: u64) -> Result<(i32, Lent), Busy> {
        let mut lent = Lent::default();
        let code = unsafe { congee_c_live_owners_get(&mut self.handle(), key, &mut lent) };
        unless_busy(code, |code| (code, lent))
    }

    fn take(&mut self, key: u64) -> Result<(i32, Lent), Busy> {
        self.tidy();
        let mut lent = Lent::default();
        let code = unsafe { congee_c_live_owners_remove(&mut self.handle(), key, &mut lent) };
        unless_busy(code, |code| (code, lent))
    }

    fn take_ticket(&mut self, key: u64, ticket: Ticket) -> Result<(i32, Lent), Busy> {
        self.tidy();
        let mut lent = Lent::default();
        let code = unsafe {
            congee_c_live_owners_compare_remove(&mut self.handle(), key, ticket.0, &mut lent)
        };
        unless_busy(code, |code| (code, lent))
    }

    /// Makes one more guard of the same map. Takes a small block. Returns an error, with nothing changed, if there is no
    /// memory for a guard, or if the map has 64 guards.
    ///
    /// ```
    /// # fn main() -> Result<(), Box<dyn std::error::Error>> {
    /// let mut guard = proved_congee::LiveBoxMap::new()?.pin()?;
    /// guard.insert(7, Box::new(70)).unwrap();
    /// assert_eq!(*guard.try_clone()?.get(7).unwrap(), 70);
    /// # Ok(())
    /// # }
    /// ```
    #[doc(alias = "clone")]
    pub fn try_clone(&self) -> Result<LiveOwnerGuard<P>, PinError> {
        let mut made = LiveOwnersHandle::none();
        match unsafe { congee_c_live_owners_another(&mut self.handle(), &mut made) } {
            0 => {
                *self.guards.first() += 1;
                Ok(LiveOwnerGuard {
                    owners: made.owners,
                    map: self.map,
                    guards: self.guards.clone(),
                    of: PhantomData,
                })
            }
            FULL => Err(PinError::Full),
            _ => Err(PinError::OutOfMemory),
        }
    }

    /// Returns the limit in bytes that the map was made with, or `u64::MAX` for none.
    ///
    /// ```
    /// # fn main() -> Result<(), Box<dyn std::error::Error>> {
    /// assert_eq!(proved_congee::LiveArcMap::<u64>::with_limit(10_000)?.pin()?.limit(), 10_000);
    /// # Ok(())
    /// # }
    /// ```
    pub fn limit(&self) -> u64 {
        unsafe { congee_c_live_owners_limit(&mut self.handle()) }
    }

    /// Returns the bytes of all segments of nodes that the map has so far, and the limit, in constant time.
    ///
    /// ```
    /// # fn main() -> Result<(), Box<dyn std::error::Error>> {
    /// let guard = proved_congee::LiveArcMap::<u64>::with_limit(30_000)?.pin()?;
    /// let (charged, limit) = guard.usage();
    /// assert!(charged <= limit && limit == 30_000);
    /// # Ok(())
    /// # }
    /// ```
    pub fn usage(&self) -> (u64, u64) {
        let (mut charged, mut limit) = (0, 0);
        unsafe { congee_c_live_owners_usage(&mut self.handle(), &mut charged, &mut limit) };
        (charged, limit)
    }

    /// Orders two guards of one map in time: calls that either guard had made, or had learned of, come before all later
    /// calls of both. Both guards have then seen one history. An object that came back to one of them is lent to neither,
    /// which is proved. Never fails, and takes no lock and no memory.
    ///
    /// # Panics
    ///
    /// If the guards are of two maps.
    ///
    /// ```
    /// # fn main() -> Result<(), Box<dyn std::error::Error>> {
    /// let map = proved_congee::LiveBoxMap::new()?;
    /// let (mut one, mut other) = (map.pin()?, map.pin()?);
    /// one.insert(7, Box::new(70)).unwrap();
    /// one.meet(&mut other);
    /// assert_eq!(*other.get(7).unwrap(), 70);
    /// # Ok(())
    /// # }
    /// ```
    pub fn meet(&mut self, other: &mut LiveOwnerGuard<P>) {
        assert_eq!(self.map, other.map, "guards of two maps don't meet");
        unsafe { congee_c_live_owners_meet(&mut self.handle(), &mut other.handle()) }
    }

    /// Lends the object at the key, or returns `None` if the key is absent. Takes no lock and no memory, and counts no
    /// reference. While other threads are in the way, the call yields and tries again.
    ///
    /// ```
    /// # fn main() -> Result<(), Box<dyn std::error::Error>> {
    /// let mut guard = proved_congee::LiveBoxMap::new()?.pin()?;
    /// guard.insert(7, Box::new(70)).unwrap();
    /// assert_eq!(guard.get(7).as_deref(), Some(&70));
    /// assert!(guard.get(&8).is_none());
    /// # Ok(())
    /// # }
    /// ```
    #[doc(alias("find", "index", "view"))]
    pub fn get(&mut self, key: impl Borrow<u64>) -> Option<Loan<'_, P>> {
        let key = *key.borrow();
        let found = waiting(|| self.find(key));
        self.loan(found)
    }

    /// Lends the object at the key, or returns `None` if the key is absent. Takes no lock and no memory, and counts no
    /// reference. Doesn't wait: returns [`Busy`] if other threads were in the way at each of a bounded number of tries.
    ///
    /// ```
    /// # fn main() -> Result<(), Box<dyn std::error::Error>> {
    /// let mut guard = proved_congee::LiveBoxMap::new()?.pin()?;
    /// guard.insert(7, Box::new(70)).unwrap();
    /// assert_eq!(guard.try_get(7)?.as_deref(), Some(&70));
    /// # Ok(())
    /// # }
    /// ```
    pub fn try_get(&mut self, key: impl Borrow<u64>) -> Result<Option<Loan<'_, P>>, Busy> {
        let found = self.find(*key.borrow())?;
        Ok(self.loan(found))
    }

    /// Stores the object at the key. Lends the previous object, or returns `None` if the key was absent. (`None`, too, if
    /// the library can't lend the previous object, which no test has met.) While other threads are in the way, the call
    /// yields and tries again. Returns [`OutOfMemory`], and what was handed in, if there is no memory or the map's limit is
    /// reached.
    ///
    /// ```
    /// # fn main() -> Result<(), Box<dyn std::error::Error>> {
    /// let mut guard = proved_congee::LiveBoxMap::new()?.pin()?;
    /// assert!(guard.insert(7, Box::new(70)).unwrap().is_none());
    /// assert_eq!(guard.insert(7, Box::new(71)).unwrap().as_deref(), Some(&70));
    /// assert_eq!(*guard.get(7).unwrap(), 71);
    /// # Ok(())
    /// # }
    /// ```
    #[doc(alias("put", "upsert"))]
    pub fn insert(
        &mut self,
        key: u64,
        owner: P,
    ) -> Result<Option<Loan<'_, P>>, Refused<P, OutOfMemory>> {
        let made = self.until_made(owner, |guard, owner| guard.insert_once(key, owner));
        let made = made.map_err(out_of_memory)?;
        Ok(self.loan(made))
    }

    /// Stores the object at the key. Lends the previous object, or returns `None` if the key was absent. (`None`, too, if
    /// the library can't lend the previous object, which no test has met.) Doesn't wait: returns [`TryError::Busy`], and
    /// what was handed in, if other threads were in the way at each of a bounded number of tries. Returns
    /// [`TryError::OutOfMemory`], and what was handed in, if there is no memory or the map's limit is reached.
    ///
    /// ```
    /// # fn main() -> Result<(), Box<dyn std::error::Error>> {
    /// let mut guard = proved_congee::LiveBoxMap::new()?.pin()?;
    /// assert!(guard.try_insert(7, Box::new(70)).unwrap().is_none());
    /// # Ok(())
    /// # }
    /// ```
    pub fn try_insert(
        &mut self,
        key: u64,
        owner: P,
    ) -> Result<Option<Loan<'_, P>>, Refused<P, TryError>> {
        let made = self.insert_once(key, owner).map_err(refused)?;
        Ok(self.loan(made))
    }

    /// Removes the key, and lends the removed object, or returns `None` if the key was absent. (`None`, too, if the library
    /// can't lend the removed object, which no test has met.) Never out of memory. While other threads are in the way, the
    /// call yields and tries again.
    ///
    /// ```
    /// # fn main() -> Result<(), Box<dyn std::error::Error>> {
    /// let mut guard = proved_congee::LiveBoxMap::new()?.pin()?;
    /// guard.insert(7, Box::new(70)).unwrap();
    /// assert_eq!(guard.remove(7).as_deref(), Some(&70));
    /// assert!(guard.remove(7).is_none());
    /// # Ok(())
    /// # }
    /// ```
    #[doc(alias("delete", "erase"))]
    pub fn remove(&mut self, key: impl Borrow<u64>) -> Option<Loan<'_, P>> {
        let key = *key.borrow();
        let removed = waiting(|| self.take(key));
        self.loan(removed)
    }

    /// Removes the key, and lends the removed object, or returns `None` if the key was absent. (`None`, too, if the library
    /// can't lend the removed object, which no test has met.) Never out of memory. Doesn't wait: returns [`Busy`], with
    /// nothing changed, if other threads were in the way at each of a bounded number of tries.
    ///
    /// ```
    /// # fn main() -> Result<(), Box<dyn std::error::Error>> {
    /// let mut guard = proved_congee::LiveBoxMap::new()?.pin()?;
    /// guard.insert(7, Box::new(70)).unwrap();
    /// assert_eq!(guard.try_remove(7)?.as_deref(), Some(&70));
    /// # Ok(())
    /// # }
    /// ```
    pub fn try_remove(&mut self, key: impl Borrow<u64>) -> Result<Option<Loan<'_, P>>, Busy> {
        let removed = self.take(*key.borrow())?;
        Ok(self.loan(removed))
    }

    /// Replaces the object at the key, if the key still has this [`Ticket`], and lends the previous object. The ticket decides:
    /// after a removal and an insertion of one object the key has another ticket. (`Ok(None)` if the library can't lend the
    /// previous object, which no test has met.) While other threads are in the way, the call yields and tries again. Returns [`ExchangeError::Other`] if the key has another ticket or is absent, and [`OutOfMemory`] if there is
    /// no memory, each with what was handed in.
    ///
    /// ```
    /// use proved_congee::{ExchangeError, LiveBoxMap};
    ///
    /// # fn main() -> Result<(), Box<dyn std::error::Error>> {
    /// let mut guard = LiveBoxMap::new()?.pin()?;
    /// guard.insert(7, Box::new(70)).unwrap();
    /// let ticket = guard.get(7).unwrap().ticket();
    /// guard.compare_exchange(7, ticket, Box::new(71)).unwrap();
    /// let refused = guard.compare_exchange(7, ticket, Box::new(72)).unwrap_err();
    /// assert_eq!(*refused.error(), ExchangeError::Other);
    /// assert_eq!(refused.into_owner(), Some(Box::new(72)));
    /// # Ok(())
    /// # }
    /// ```
    #[doc(alias("cas", "compare_and_swap"))]
    pub fn compare_exchange(
        &mut self,
        key: u64,
        ticket: Ticket,
        owner: P,
    ) -> Result<Option<Loan<'_, P>>, Refused<P, ExchangeError<OutOfMemory>>> {
        let once = |guard: &mut Self, owner| guard.exchange_once(key, ticket, owner);
        match self.until_made(owner, once) {
            Ok(made) => Ok(self.loan(made)),
            Err(why) => Err(not_exchanged(why.0, out_of_memory(why))),
        }
    }

    /// Replaces the object at the key, if the key still has this [`Ticket`], and lends the previous object. The ticket decides:
    /// after a removal and an insertion of one object the key has another ticket. (`Ok(None)` if the library can't lend the
    /// previous object, which no test has met.) Doesn't wait: returns [`TryError::Busy`] if other threads were in
    /// the way at each of a bounded number of tries. Returns [`ExchangeError::Other`] if the key has another ticket or is
    /// absent, and [`TryError::OutOfMemory`] if there is no memory, each with what was handed in.
    ///
    /// ```
    /// # fn main() -> Result<(), Box<dyn std::error::Error>> {
    /// let mut guard = proved_congee::LiveBoxMap::new()?.pin()?;
    /// guard.insert(7, Box::new(70)).unwrap();
    /// let ticket = guard.get(7).unwrap().ticket();
    /// guard.try_compare_exchange(7, ticket, Box::new(71)).unwrap();
    /// assert_eq!(*guard.get(7).unwrap(), 71);
    /// # Ok(())
    /// # }
    /// ```
    pub fn try_compare_exchange(
        &mut self,
        key: u64,
        ticket: Ticket,
        owner: P,
    ) -> Result<Option<Loan<'_, P>>, Refused<P, ExchangeError<TryError>>> {
        match self.exchange_once(key, ticket, owner) {
            Ok(made) => Ok(self.loan(made)),
            Err(why) => Err(not_exchanged(why.0, refused(why))),
        }
    }

    /// Removes the key, if the key still has this [`Ticket`], and lends the removed object, or returns `None` if the key has
    /// another ticket or is absent. (`None`, too, if the library can't lend the removed object, which no test has met.) Never
    /// out of memory. While other threads are in the way, the call yields and tries again.
    ///
    /// ```
    /// # fn main() -> Result<(), Box<dyn std::error::Error>> {
    /// let mut guard = proved_congee::LiveBoxMap::new()?.pin()?;
    /// guard.insert(7, Box::new(70)).unwrap();
    /// let ticket = guard.get(7).unwrap().ticket();
    /// assert_eq!(guard.compare_remove(7, ticket).as_deref(), Some(&70));
    /// assert!(guard.compare_remove(7, ticket).is_none());
    /// # Ok(())
    /// # }
    /// ```
    #[doc(alias = "remove_if")]
    pub fn compare_remove(&mut self, key: impl Borrow<u64>, ticket: Ticket) -> Option<Loan<'_, P>> {
        let key = *key.borrow();
        let removed = waiting(|| self.take_ticket(key, ticket));
        self.loan(removed)
    }

    /// Removes the key, if the key still has this [`Ticket`], and lends the removed object, or returns `None` if the key has
    /// another ticket or is absent. (`None`, too, if the library can't lend the removed object, which no test has met.) Never
    /// out of memory. Doesn't wait: returns [`Busy`], with nothing changed, if other threads were in the way at each of a
    /// bounded number of tries.
    ///
    /// ```
    /// # fn main() -> Result<(), Box<dyn std::error::Error>> {
    /// let mut guard = proved_congee::LiveBoxMap::new()?.pin()?;
    /// guard.insert(7, Box::new(70)).unwrap();
    /// let ticket = guard.get(7).unwrap().ticket();
    /// assert_eq!(guard.try_compare_remove(7, ticket)?.as_deref(), Some(&70));
    /// # Ok(())
    /// # }
    /// ```
    pub fn try_compare_remove(
        &mut self,
        key: impl Borrow<u64>,
        ticket: Ticket,
    ) -> Result<Option<Loan<'_, P>>, Busy> {
        let removed = self.take_ticket(*key.borrow(), ticket)?;
        Ok(self.loan(removed))
    }

    /// Lends the object at the key, beside what was handed in. If the key is absent, stores what was handed in and returns
    /// `None`. Of several guards that insert one absent key at once, the first gets `None`. While other threads are in the
    /// way, the call yields and tries again. Returns [`OutOfMemory`], and what was handed in, if there is no memory or the
    /// map's limit is reached.
    ///
    /// ```
    /// # fn main() -> Result<(), Box<dyn std::error::Error>> {
    /// let mut guard = proved_congee::LiveBoxMap::new()?.pin()?;
    /// assert!(guard.insert_absent(7, Box::new(70)).unwrap().is_none());
    /// let (present, mine) = guard.insert_absent(7, Box::new(71)).unwrap().unwrap();
    /// assert_eq!((*present, mine), (70, Some(Box::new(71))));
    /// # Ok(())
    /// # }
    /// ```
    #[doc(alias("insert_if_absent", "try_insert"))]
    pub fn insert_absent(
        &mut self,
        key: u64,
        owner: P,
    ) -> Result<Option<(Loan<'_, P>, P::Back)>, Refused<P, OutOfMemory>> {
        match self.until_made(owner, |guard, owner| guard.keep_once(key, owner)) {
            Ok(_) => Ok(None),
            Err((1, lent, owner)) => Ok(self.loan((1, lent)).map(|loan| (loan, owner))),
            Err(why) => Err(out_of_memory(why)),
        }
    }

    /// Lends the object at the key, beside what was handed in. If the key is absent, stores what was handed in and returns
    /// `None`. Of several guards that insert one absent key at once, the first gets `None`. Doesn't wait: returns
    /// [`TryError::Busy`], and what was handed in, if other threads were in the way at each of a bounded number of tries.
    /// Returns [`TryError::OutOfMemory`], and what was handed in, if there is no memory or the map's limit is reached.
    ///
    /// ```
    /// # fn main() -> Result<(), Box<dyn std::error::Error>> {
    /// let mut guard = proved_congee::LiveBoxMap::new()?.pin()?;
    /// assert!(guard.try_insert_absent(7, Box::new(70)).unwrap().is_none());
    /// # Ok(())
    /// # }
    /// ```
    pub fn try_insert_absent(
        &mut self,
        key: u64,
        owner: P,
    ) -> Result<Option<(Loan<'_, P>, P::Back)>, Refused<P, TryError>> {
        match self.keep_once(key, owner) {
            Ok(_) => Ok(None),
            Err((1, lent, owner)) => Ok(self.loan((1, lent)).map(|loan| (loan, owner))),
            Err(why) => Err(refused(why)),
        }
    }

    /// Drops each object that left the map by this guard, or by a guard that was dropped, and that no guard has lent. Returns
    /// how many objects were dropped, or how many references to them. The call reads the loans of all 64 guards that a map may
    /// have. Insertions and removals make this call, once 64 objects wait.
    ///
    /// ```
    /// # fn main() -> Result<(), Box<dyn std::error::Error>> {
    /// let mut guard = proved_congee::LiveBoxMap::new()?.pin()?;
    /// guard.insert(7, Box::new(70)).unwrap();
    /// guard.remove(7);
    /// assert_eq!((guard.reclaim(), guard.reclaim()), (1, 0));
    /// # Ok(())
    /// # }
    /// ```
    pub fn reclaim(&mut self) -> u64 {
        let mut count = 0;
        while let Some(back) = self.take_back() {
            count += 1;
            drop(back);
        }
        count
    }

    /// Returns an object that left the map by this guard, or by a guard that was dropped, and that no guard has lent, or
    /// `None` if there is none. [`reclaim`](LiveOwnerGuard::reclaim) drops what this call returns. The call reads the loans of
    /// all 64 guards that a map may have.
    ///
    /// ```
    /// # fn main() -> Result<(), Box<dyn std::error::Error>> {
    /// let mut guard = proved_congee::LiveBoxMap::new()?.pin()?;
    /// guard.insert(7, Box::new(70)).unwrap();
    /// guard.remove(7);
    /// assert_eq!((guard.take_back(), guard.take_back()), (Some(Box::new(70)), None));
    /// # Ok(())
    /// # }
    /// ```
    pub fn take_back(&mut self) -> Option<P> {
        let mut back = Lent::default();
        let code = unsafe { congee_c_live_owners_reclaim(&mut self.handle(), &mut back) };
        // SAFETY: the number is one of `offer`, and the library returns each owner once.
        (code == 1).then(|| unsafe { P::from_pointer(pointer_of::<P>(&back)) })
    }

    /// Removes all keys, one by one, and drops each object that left the map and that no guard has lent. Keys that other
    /// guards insert meanwhile are removed, too, so the call ends once no guard inserts any more. While other threads are in
    /// the way, the call yields and tries again. Never out of memory.
    ///
    /// ```
    /// # fn main() -> Result<(), Box<dyn std::error::Error>> {
    /// let mut guard = proved_congee::LiveBoxMap::new()?.pin()?;
    /// for key in 0..100 {
    ///     guard.insert(key, Box::new(key)).unwrap();
    /// }
    /// guard.clear();
    /// assert!((0..100).all(|key| guard.get(key).is_none()));
    /// # Ok(())
    /// # }
    /// ```
    pub fn clear(&mut self) {
        let mut back = Lent::default();
        loop {
            match unsafe { congee_c_live_owners_drain(&mut self.handle(), &mut back) } {
                1 => self.release(back),
                BUSY => thread::yield_now(),
                _ => return,
            }
        }
    }
}

impl<T: 'static> LiveOwnerGuard<Arc<T>> {
    /// Returns a further `Arc` of the object at the key, or `None` if the key is absent. Takes no lock and no memory. While
    /// other threads are in the way, the call yields and tries again.
    ///
    /// ```
    /// use std::sync::Arc;
    ///
    /// # fn main() -> Result<(), Box<dyn std::error::Error>> {
    /// let mut guard = proved_congee::LiveArcMap::new()?.pin()?;
    /// guard.insert(7, Arc::new(70)).unwrap();
    /// let held = guard.get_arc(7).unwrap();
    /// drop(guard);
    /// assert_eq!((*held, Arc::strong_count(&held)), (70, 1));
    /// # Ok(())
    /// # }
    /// ```
    pub fn get_arc(&mut self, key: impl Borrow<u64>) -> Option<Arc<T>> {
        self.get(key).map(|loan| loan.to_arc())
    }
}

impl<P: Pointer> Drop for LiveOwnerGuard<P> {
    fn drop(&mut self) {
        let mut guards = self.guards.first();
        let is_last = *guards == 1;
        if is_last {
            // (what other guards left is this guard's by now)
            drop(guards);
            self.clear();
            unsafe { congee_c_live_owners_free(self.handle()) }
        } else {
            // (within the lock: the last guard finds what this one leaves. The address isn't used again)
            unsafe { congee_c_live_owners_free(self.handle()) }
            *guards -= 1;
        }
    }
}

impl<P: Pointer> fmt::Debug for LiveOwnerGuard<P> {
    fn fmt(&self, f: &mut fmt::Formatter<'_>) -> fmt::Result {
        f.debug_struct("LiveOwnerGuard").finish_non_exhaustive()
    }
}
