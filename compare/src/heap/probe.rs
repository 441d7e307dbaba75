//! Reads of a heap's private state.

use super::Heap;

impl Heap {
    /// Bytes charged and not released.
    pub(crate) fn used(&self) -> u64 {
        self.used
    }

    /// The two running totals: allocated and deallocated.
    pub(crate) fn totals(&self) -> (u128, u128) {
        (self.allocated, self.deallocated)
    }
}
