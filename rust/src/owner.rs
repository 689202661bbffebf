//! A guard that the owners of one map have in common, and make further guards by.

use crate::OutOfMemory;
use std::fmt;
use std::process;
use std::ptr::{self, NonNull};
use std::sync::atomic::{AtomicUsize, Ordering};
use std::sync::{Mutex, MutexGuard, PoisonError};

struct Block<G> {
    owners: AtomicUsize,
    first: Mutex<G>,
}

/// One owner of a guard. A clone is a further owner, takes no memory, and waits for nobody. (`std::sync::Arc` ends the program
/// if there is no memory for its block.)
pub(crate) struct Owner<G> {
    block: NonNull<Block<G>>,
}

// SAFETY: owners reach the guard through its mutex alone, as those of an `Arc<Mutex<G>>` do.
unsafe impl<G: Send> Send for Owner<G> {}
unsafe impl<G: Send> Sync for Owner<G> {}

impl<G> Owner<G> {
    /// Makes the first owner. Without memory for a small block the guard is dropped.
    pub(crate) fn new(first: G) -> Result<Owner<G>, OutOfMemory> {
        let mut place = Vec::new();
        place.try_reserve_exact(1).map_err(|_| OutOfMemory)?;
        place.push(Block {
            owners: AtomicUsize::new(1),
            first: Mutex::new(first),
        });
        let blocks = Box::leak(place.into_boxed_slice());
        Ok(Owner {
            block: NonNull::from(&mut blocks[0]),
        })
    }

    fn block(&self) -> &Block<G> {
        // SAFETY: the block is freed with its last owner, and this owner is left.
        unsafe { self.block.as_ref() }
    }

    /// The guard, once no other owner's call has it.
    pub(crate) fn first(&self) -> MutexGuard<'_, G> {
        // (a call that panicked left the guard as it was)
        let first = self.block().first.lock();
        first.unwrap_or_else(PoisonError::into_inner)
    }
}

// The counts are sequentially consistent, since the guard goes by them to the thread that frees it.
impl<G> Clone for Owner<G> {
    fn clone(&self) -> Owner<G> {
        // (so many owners are forgotten ones, and the count must not come to 0 again)
        if self.block().owners.fetch_add(1, Ordering::SeqCst) > usize::MAX / 2 {
            process::abort();
        }
        Owner { block: self.block }
    }
}

impl<G> Drop for Owner<G> {
    fn drop(&mut self) {
        if self.block().owners.fetch_sub(1, Ordering::SeqCst) == 1 {
            // SAFETY: `new` leaked it as a boxed slice of one block, and no owner is left.
            let blocks = ptr::slice_from_raw_parts_mut(self.block.as_ptr(), 1);
            drop(unsafe { Box::from_raw(blocks) });
        }
    }
}

impl<G> fmt::Debug for Owner<G> {
    fn fmt(&self, f: &mut fmt::Formatter<'_>) -> fmt::Result {
        f.debug_struct("Owner").finish_non_exhaustive()
    }
}
