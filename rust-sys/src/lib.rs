//! Declarations of what `libcongee.a` exports, for a wrapper of one's own. `proved-congee` is a safe one.
//!
//! Made by `tools/dev/make-sys` of `congee_exports.h`. The headers `congee.h`, `congee_shared.h`, `congee_live.h` and
//! `congee_owners.h` describe each function by its name without `_c`, and state what a caller owes. Of a crate above, its build
//! script finds them by `DEP_CONGEE_INCLUDE`.
//!
//! A place for a value, a pair or a number isn't null and is initialised, and so are the `n` pairs of a buffer. No two calls are
//! made by one handle at a time, calls that read included. The declarations fit an archive of one version alone.

#![no_std]
#![warn(missing_docs, missing_debug_implementations)]

/// A key and its value.
#[repr(C)]
#[derive(Clone, Copy, Debug, Default, PartialEq, Eq, PartialOrd, Ord, Hash)]
pub struct Pair {
    /// The key.
    pub key: u64,
    /// Its value.
    pub value: u64,
}

impl From<(u64, u64)> for Pair {
    fn from((key, value): (u64, u64)) -> Pair {
        Pair { key, value }
    }
}

impl From<Pair> for (u64, u64) {
    fn from(pair: Pair) -> (u64, u64) {
        (pair.key, pair.value)
    }
}

/// A ticket, under which a map of owners has an owner, and that owner.
#[repr(C)]
#[derive(Clone, Copy, Debug, Default, PartialEq, Eq, PartialOrd, Ord, Hash)]
pub struct Lent {
    /// The ticket.
    pub ticket: u64,
    /// The owner, or 0 where the call that wrote this has none.
    pub owner: u64,
}

/// What a call answers where there is no memory.
pub const OOM: i32 = -1;

/// What a call of a map that threads share answers where it would have to wait.
pub const BUSY: i32 = -2;

/// What a call answers where 64 handles of a map of owners are in use.
pub const FULL: i32 = -3;

/// What a call answers where there is no memory, and the owner that was handed in comes back by a later call.
pub const OOM_KEPT: i32 = -4;

/// What a call answers where it would have to wait, and the owner that was handed in comes back by a later call.
pub const BUSY_KEPT: i32 = -5;

/// What the address in a [`Handle`] points to. (The compiler shows its name to whoever shares one by `&`.)
#[repr(C)]
#[derive(Debug)]
pub struct OneThreadAtATime {
    _private: [u8; 0],
}

/// The address of a map.
#[repr(C)]
#[derive(Debug)]
pub struct Handle {
    /// The address, which the library has written.
    pub map: *mut OneThreadAtATime,
}

impl Handle {
    /// A place for one, which the library may write to.
    pub const fn none() -> Handle {
        Handle {
            map: core::ptr::null_mut(),
        }
    }
}

/// What the address in a [`FrozenHandle`] points to. (The compiler shows its name to whoever shares one by `&`.)
#[repr(C)]
#[derive(Debug)]
pub struct OneReaderForEachThread {
    _private: [u8; 0],
}

/// The address of a reader of a frozen map.
#[repr(C)]
#[derive(Debug)]
pub struct FrozenHandle {
    /// The address, which the library has written.
    pub reader: *mut OneReaderForEachThread,
}

impl FrozenHandle {
    /// A place for one, which the library may write to.
    pub const fn none() -> FrozenHandle {
        FrozenHandle {
            reader: core::ptr::null_mut(),
        }
    }
}

/// What the address in a [`SharedHandle`] points to. (The compiler shows its name to whoever shares one by `&`.)
#[repr(C)]
#[derive(Debug)]
pub struct OneGuardForEachThread {
    _private: [u8; 0],
}

/// The address of a guard of a map that threads share.
#[repr(C)]
#[derive(Debug)]
pub struct SharedHandle {
    /// The address, which the library has written.
    pub guard: *mut OneGuardForEachThread,
}

impl SharedHandle {
    /// A place for one, which the library may write to.
    pub const fn none() -> SharedHandle {
        SharedHandle {
            guard: core::ptr::null_mut(),
        }
    }
}

/// What the address in a [`LiveHandle`] points to. (The compiler shows its name to whoever shares one by `&`.)
#[repr(C)]
#[derive(Debug)]
pub struct OneLiveGuardForEachThread {
    _private: [u8; 0],
}

/// The address of a guard of a map that threads read without a lock.
#[repr(C)]
#[derive(Debug)]
pub struct LiveHandle {
    /// The address, which the library has written.
    pub guard: *mut OneLiveGuardForEachThread,
}

impl LiveHandle {
    /// A place for one, which the library may write to.
    pub const fn none() -> LiveHandle {
        LiveHandle {
            guard: core::ptr::null_mut(),
        }
    }
}

/// What the address in a [`LiveOwnersHandle`] points to. (The compiler shows its name to whoever shares one by `&`.)
#[repr(C)]
#[derive(Debug)]
pub struct OneOwnersHandleForEachThread {
    _private: [u8; 0],
}

/// The address of a handle of a map of owners.
#[repr(C)]
#[derive(Debug)]
pub struct LiveOwnersHandle {
    /// The address, which the library has written.
    pub owners: *mut OneOwnersHandleForEachThread,
}

impl LiveOwnersHandle {
    /// A place for one, which the library may write to.
    pub const fn none() -> LiveOwnersHandle {
        LiveOwnersHandle {
            owners: core::ptr::null_mut(),
        }
    }
}

#[allow(missing_docs)]
extern "C" {
    pub fn congee_c_version() -> u32;
    pub fn congee_c_new(limit: u64, out: *mut Handle) -> i32;
    pub fn congee_c_free(handle: Handle);
    pub fn congee_c_get(handle: *mut Handle, key: u64, value: *mut u64) -> i32;
    pub fn congee_c_insert(handle: *mut Handle, key: u64, value: u64, before: *mut u64) -> i32;
    pub fn congee_c_remove(handle: *mut Handle, key: u64, before: *mut u64) -> i32;
    pub fn congee_c_compare_exchange(
        handle: *mut Handle,
        key: u64,
        expected: u64,
        desired: u64,
        found: *mut u64,
    ) -> i32;
    pub fn congee_c_compare_remove(
        handle: *mut Handle,
        key: u64,
        expected: u64,
        found: *mut u64,
    ) -> i32;
    pub fn congee_c_add(handle: *mut Handle, key: u64, number: u64, before: *mut u64) -> i32;
    pub fn congee_c_get_or_insert(
        handle: *mut Handle,
        key: u64,
        value: u64,
        found: *mut u64,
    ) -> i32;
    pub fn congee_c_range(
        handle: *mut Handle,
        start: u64,
        end: u64,
        buffer: *mut Pair,
        n: usize,
    ) -> usize;
    pub fn congee_c_first(handle: *mut Handle, pair: *mut Pair) -> i32;
    pub fn congee_c_last(handle: *mut Handle, pair: *mut Pair) -> i32;
    pub fn congee_c_floor(handle: *mut Handle, key: u64, pair: *mut Pair) -> i32;
    pub fn congee_c_ceiling(handle: *mut Handle, key: u64, pair: *mut Pair) -> i32;
    pub fn congee_c_below(handle: *mut Handle, key: u64, pair: *mut Pair) -> i32;
    pub fn congee_c_above(handle: *mut Handle, key: u64, pair: *mut Pair) -> i32;
    pub fn congee_c_pop_first(handle: *mut Handle, pair: *mut Pair) -> i32;
    pub fn congee_c_pop_last(handle: *mut Handle, pair: *mut Pair) -> i32;
    pub fn congee_c_clear(handle: *mut Handle);
    pub fn congee_c_shrink_to_fit(handle: *mut Handle);
    pub fn congee_c_range_inclusive(
        handle: *mut Handle,
        start: u64,
        last: u64,
        buffer: *mut Pair,
        n: usize,
    ) -> usize;
    pub fn congee_c_range_descending(
        handle: *mut Handle,
        start: u64,
        last: u64,
        buffer: *mut Pair,
        n: usize,
    ) -> usize;
    pub fn congee_c_remove_range_inclusive(handle: *mut Handle, start: u64, last: u64) -> u64;
    pub fn congee_c_is_empty(handle: *mut Handle) -> bool;
    pub fn congee_c_count(handle: *mut Handle) -> u64;
    pub fn congee_c_charged(handle: *mut Handle) -> u64;
    pub fn congee_c_limit(handle: *mut Handle) -> u64;
    pub fn congee_c_freeze(handle: Handle, out: *mut FrozenHandle, back: *mut Handle) -> i32;
    pub fn congee_c_thaw(frozen: FrozenHandle, out: *mut Handle, back: *mut FrozenHandle) -> i32;
    pub fn congee_c_frozen_another(frozen: *mut FrozenHandle, out: *mut FrozenHandle) -> i32;
    pub fn congee_c_frozen_free(frozen: FrozenHandle);
    pub fn congee_c_frozen_get(frozen: *mut FrozenHandle, key: u64, value: *mut u64) -> i32;
    pub fn congee_c_frozen_range(
        frozen: *mut FrozenHandle,
        start: u64,
        end: u64,
        buffer: *mut Pair,
        n: usize,
    ) -> usize;
    pub fn congee_c_frozen_range_inclusive(
        frozen: *mut FrozenHandle,
        start: u64,
        last: u64,
        buffer: *mut Pair,
        n: usize,
    ) -> usize;
    pub fn congee_c_frozen_range_descending(
        frozen: *mut FrozenHandle,
        start: u64,
        last: u64,
        buffer: *mut Pair,
        n: usize,
    ) -> usize;
    pub fn congee_c_frozen_count(frozen: *mut FrozenHandle) -> u64;
    pub fn congee_c_shared_new(limit: u64, out: *mut SharedHandle) -> i32;
    pub fn congee_c_shared_new_sharded(limit: u64, out: *mut SharedHandle) -> i32;
    pub fn congee_c_shared_another(handle: *mut SharedHandle, out: *mut SharedHandle) -> i32;
    pub fn congee_c_shared_meet(handle: *mut SharedHandle, other: *mut SharedHandle);
    pub fn congee_c_shared_free(handle: SharedHandle);
    pub fn congee_c_shared_get(handle: *mut SharedHandle, key: u64, value: *mut u64) -> i32;
    pub fn congee_c_shared_insert(
        handle: *mut SharedHandle,
        key: u64,
        value: u64,
        before: *mut u64,
    ) -> i32;
    pub fn congee_c_shared_remove(handle: *mut SharedHandle, key: u64, before: *mut u64) -> i32;
    pub fn congee_c_shared_compare_exchange(
        handle: *mut SharedHandle,
        key: u64,
        expected: u64,
        desired: u64,
        found: *mut u64,
    ) -> i32;
    pub fn congee_c_shared_compare_remove(
        handle: *mut SharedHandle,
        key: u64,
        expected: u64,
        found: *mut u64,
    ) -> i32;
    pub fn congee_c_shared_add(
        handle: *mut SharedHandle,
        key: u64,
        number: u64,
        before: *mut u64,
    ) -> i32;
    pub fn congee_c_shared_get_or_insert(
        handle: *mut SharedHandle,
        key: u64,
        value: u64,
        found: *mut u64,
    ) -> i32;
    pub fn congee_c_shared_range(
        handle: *mut SharedHandle,
        start: u64,
        end: u64,
        buffer: *mut Pair,
        n: usize,
        out: *mut u64,
    ) -> i32;
    pub fn congee_c_shared_range_inclusive(
        handle: *mut SharedHandle,
        start: u64,
        last: u64,
        buffer: *mut Pair,
        n: usize,
        out: *mut u64,
    ) -> i32;
    pub fn congee_c_shared_range_descending(
        handle: *mut SharedHandle,
        start: u64,
        last: u64,
        buffer: *mut Pair,
        n: usize,
        out: *mut u64,
    ) -> i32;
    pub fn congee_c_shared_first(handle: *mut SharedHandle, pair: *mut Pair) -> i32;
    pub fn congee_c_shared_last(handle: *mut SharedHandle, pair: *mut Pair) -> i32;
    pub fn congee_c_shared_floor(handle: *mut SharedHandle, key: u64, pair: *mut Pair) -> i32;
    pub fn congee_c_shared_ceiling(handle: *mut SharedHandle, key: u64, pair: *mut Pair) -> i32;
    pub fn congee_c_shared_below(handle: *mut SharedHandle, key: u64, pair: *mut Pair) -> i32;
    pub fn congee_c_shared_above(handle: *mut SharedHandle, key: u64, pair: *mut Pair) -> i32;
    pub fn congee_c_shared_pop_first(handle: *mut SharedHandle, pair: *mut Pair) -> i32;
    pub fn congee_c_shared_pop_last(handle: *mut SharedHandle, pair: *mut Pair) -> i32;
    pub fn congee_c_shared_clear(handle: *mut SharedHandle) -> i32;
    pub fn congee_c_shared_is_empty(handle: *mut SharedHandle, out: *mut u64) -> i32;
    pub fn congee_c_shared_count(handle: *mut SharedHandle, out: *mut u64) -> i32;
    pub fn congee_c_shared_usage(
        handle: *mut SharedHandle,
        charged: *mut u64,
        limit: *mut u64,
    ) -> i32;
    pub fn congee_c_live_new(limit: u64, out: *mut LiveHandle) -> i32;
    pub fn congee_c_live_limit(handle: *mut LiveHandle) -> u64;
    pub fn congee_c_live_charged(handle: *mut LiveHandle) -> u64;
    pub fn congee_c_live_usage(handle: *mut LiveHandle, charged: *mut u64, limit: *mut u64);
    pub fn congee_c_live_another(handle: *mut LiveHandle, out: *mut LiveHandle) -> i32;
    pub fn congee_c_live_meet(handle: *mut LiveHandle, other: *mut LiveHandle);
    pub fn congee_c_live_note(handle: *mut LiveHandle, out: *mut LiveHandle) -> i32;
    pub fn congee_c_live_free(handle: LiveHandle);
    pub fn congee_c_live_get(handle: *mut LiveHandle, key: u64, value: *mut u64) -> i32;
    pub fn congee_c_live_insert(
        handle: *mut LiveHandle,
        key: u64,
        value: u64,
        before: *mut u64,
    ) -> i32;
    pub fn congee_c_live_remove(handle: *mut LiveHandle, key: u64, before: *mut u64) -> i32;
    pub fn congee_c_live_compare_exchange(
        handle: *mut LiveHandle,
        key: u64,
        expected: u64,
        desired: u64,
        found: *mut u64,
    ) -> i32;
    pub fn congee_c_live_compare_remove(
        handle: *mut LiveHandle,
        key: u64,
        expected: u64,
        found: *mut u64,
    ) -> i32;
    pub fn congee_c_live_add(
        handle: *mut LiveHandle,
        key: u64,
        number: u64,
        before: *mut u64,
    ) -> i32;
    pub fn congee_c_live_get_or_insert(
        handle: *mut LiveHandle,
        key: u64,
        value: u64,
        found: *mut u64,
    ) -> i32;
    pub fn congee_c_live_range(
        handle: *mut LiveHandle,
        start: u64,
        end: u64,
        buffer: *mut Pair,
        n: usize,
        out: *mut u64,
    ) -> i32;
    pub fn congee_c_live_range_inclusive(
        handle: *mut LiveHandle,
        start: u64,
        last: u64,
        buffer: *mut Pair,
        n: usize,
        out: *mut u64,
    ) -> i32;
    pub fn congee_c_live_range_descending(
        handle: *mut LiveHandle,
        start: u64,
        last: u64,
        buffer: *mut Pair,
        n: usize,
        out: *mut u64,
    ) -> i32;
    pub fn congee_c_live_first(handle: *mut LiveHandle, pair: *mut Pair) -> i32;
    pub fn congee_c_live_ceiling(handle: *mut LiveHandle, key: u64, pair: *mut Pair) -> i32;
    pub fn congee_c_live_above(handle: *mut LiveHandle, key: u64, pair: *mut Pair) -> i32;
    pub fn congee_c_live_floor(handle: *mut LiveHandle, key: u64, pair: *mut Pair) -> i32;
    pub fn congee_c_live_below(handle: *mut LiveHandle, key: u64, pair: *mut Pair) -> i32;
    pub fn congee_c_live_last(handle: *mut LiveHandle, pair: *mut Pair) -> i32;
    pub fn congee_c_live_pop_first_to(handle: *mut LiveHandle, key: u64, pair: *mut Pair) -> i32;
    pub fn congee_c_live_pop_last_from(handle: *mut LiveHandle, key: u64, pair: *mut Pair) -> i32;
    pub fn congee_c_live_remove_some(
        handle: *mut LiveHandle,
        start: u64,
        last: u64,
        count: *mut u64,
        reached: *mut u64,
    ) -> i32;
    pub fn congee_c_live_count(handle: *mut LiveHandle, out: *mut u64) -> i32;
    pub fn congee_c_live_owners_new(limit: u64, out: *mut LiveOwnersHandle) -> i32;
    pub fn congee_c_live_owners_another(
        handle: *mut LiveOwnersHandle,
        out: *mut LiveOwnersHandle,
    ) -> i32;
    pub fn congee_c_live_owners_limit(handle: *mut LiveOwnersHandle) -> u64;
    pub fn congee_c_live_owners_usage(
        handle: *mut LiveOwnersHandle,
        charged: *mut u64,
        limit: *mut u64,
    );
    pub fn congee_c_live_owners_meet(handle: *mut LiveOwnersHandle, other: *mut LiveOwnersHandle);
    pub fn congee_c_live_owners_free(handle: LiveOwnersHandle);
    pub fn congee_c_live_owners_get(
        handle: *mut LiveOwnersHandle,
        key: u64,
        lent: *mut Lent,
    ) -> i32;
    pub fn congee_c_live_owners_end(handle: *mut LiveOwnersHandle);
    pub fn congee_c_live_owners_lend(
        handle: *mut LiveOwnersHandle,
        ticket: u64,
        owner: *mut u64,
    ) -> i32;
    pub fn congee_c_live_owners_ceiling(
        handle: *mut LiveOwnersHandle,
        key: u64,
        pair: *mut Pair,
    ) -> i32;
    pub fn congee_c_live_owners_floor(
        handle: *mut LiveOwnersHandle,
        key: u64,
        pair: *mut Pair,
    ) -> i32;
    pub fn congee_c_live_owners_range_inclusive(
        handle: *mut LiveOwnersHandle,
        start: u64,
        last: u64,
        buffer: *mut Pair,
        n: usize,
        out: *mut u64,
    ) -> i32;
    pub fn congee_c_live_owners_range_descending(
        handle: *mut LiveOwnersHandle,
        start: u64,
        last: u64,
        buffer: *mut Pair,
        n: usize,
        out: *mut u64,
    ) -> i32;
    pub fn congee_c_live_owners_count(handle: *mut LiveOwnersHandle, out: *mut u64) -> i32;
    pub fn congee_c_live_owners_insert(
        handle: *mut LiveOwnersHandle,
        key: u64,
        owner: u64,
        before: *mut Lent,
    ) -> i32;
    pub fn congee_c_live_owners_remove(
        handle: *mut LiveOwnersHandle,
        key: u64,
        before: *mut Lent,
    ) -> i32;
    pub fn congee_c_live_owners_compare_exchange(
        handle: *mut LiveOwnersHandle,
        key: u64,
        ticket: u64,
        owner: u64,
        before: *mut Lent,
    ) -> i32;
    pub fn congee_c_live_owners_compare_remove(
        handle: *mut LiveOwnersHandle,
        key: u64,
        ticket: u64,
        before: *mut Lent,
    ) -> i32;
    pub fn congee_c_live_owners_get_or_insert(
        handle: *mut LiveOwnersHandle,
        key: u64,
        owner: u64,
        found: *mut Lent,
    ) -> i32;
    pub fn congee_c_live_owners_reclaim(handle: *mut LiveOwnersHandle, back: *mut Lent) -> i32;
    pub fn congee_c_live_owners_pending(handle: *mut LiveOwnersHandle) -> u64;
    pub fn congee_c_live_owners_drain(handle: *mut LiveOwnersHandle, back: *mut Lent) -> i32;
}
