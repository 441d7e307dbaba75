//! Reads of a free list's private state; they place nothing and change nothing.

use super::{align_down, FreeListAllocator};

impl<M> FreeListAllocator<M> {
    /// The size of the next chunk, if no larger one is asked for.
    pub(crate) fn chunk_size(&self) -> u64 {
        self.chunk_size
    }

    /// Whether a region held now has an aligned place, by the tests that `alloc` and `get_block`
    /// make; `size` and `align_mask` are rounded to the atom already.
    pub(crate) fn has_room(&self, size: u64, align_mask: u64) -> bool {
        size <= self.chunk_size
            && self.freelist.array.iter().any(|region| {
                let start = region.end.checked_sub(size);
                start.is_some_and(|start| align_down(start, align_mask) >= region.start)
            })
    }
}
