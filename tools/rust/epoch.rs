//! A stand-in for the crate `crossbeam-epoch`, for where there is no registry: what the drop-in and its tests call of it. What is
//! deferred is called once no guard is left that was there then. All is under one lock.

use std::collections::{BTreeSet, VecDeque};
use std::marker::PhantomData;
use std::sync::{Mutex, MutexGuard, PoisonError};

type Deferred = Box<dyn FnOnce() + Send>;

struct State {
    next: u64,
    pinned: BTreeSet<u64>,
    /// With the number that the next guard had then.
    deferred: VecDeque<(u64, Deferred)>,
}

static STATE: Mutex<State> = Mutex::new(State {
    next: 1,
    pinned: BTreeSet::new(),
    deferred: VecDeque::new(),
});

fn state() -> MutexGuard<'static, State> {
    STATE.lock().unwrap_or_else(PoisonError::into_inner)
}

impl State {
    fn pin(&mut self) -> u64 {
        self.next += 1;
        self.pinned.insert(self.next - 1);
        self.next - 1
    }

    /// What no guard that is there can have seen.
    fn due(&mut self) -> Vec<Deferred> {
        let first = self.pinned.first().copied().unwrap_or(u64::MAX);
        let count = self.deferred.iter().take_while(|it| it.0 <= first).count();
        self.deferred.drain(..count).map(|it| it.1).collect()
    }
}

/// A guard. Its number is 0 if it protects nothing.
pub struct Guard {
    number: u64,
    _thread: PhantomData<*const ()>,
}

/// A guard, by which this thread is pinned.
pub fn pin() -> Guard {
    Guard {
        number: state().pin(),
        _thread: PhantomData,
    }
}

/// A guard that protects nothing.
///
/// # Safety
///
/// Nothing is loaded by it that another thread may free.
pub unsafe fn unprotected() -> &'static Guard {
    struct Shared(Guard);
    // SAFETY: its number isn't written.
    unsafe impl Sync for Shared {}
    static NONE: Shared = Shared(Guard {
        number: 0,
        _thread: PhantomData,
    });
    &NONE.0
}

impl Guard {
    /// Calls it once no guard is left that is there now.
    pub fn defer<F: FnOnce() -> R + Send + 'static, R>(&self, f: F) {
        let mut state = state();
        let next = state.next;
        state
            .deferred
            .push_back((next, Box::new(move || drop(f()))));
    }

    /// Calls what is due.
    pub fn flush(&self) {
        let due = state().due();
        due.into_iter().for_each(|f| f());
    }

    /// Unpins, and pins anew.
    pub fn repin(&mut self) {
        let due = {
            let mut state = state();
            state.pinned.remove(&self.number);
            self.number = state.pin();
            state.due()
        };
        due.into_iter().for_each(|f| f());
    }
}

impl Drop for Guard {
    fn drop(&mut self) {
        if self.number == 0 {
            return;
        }
        let due = {
            let mut state = state();
            state.pinned.remove(&self.number);
            state.due()
        };
        due.into_iter().for_each(|f| f());
    }
}
