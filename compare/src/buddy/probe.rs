//! Reads of a buddy store's private state; they place nothing and change nothing.

use super::BuddyAllocator;

impl<M> BuddyAllocator<M> {
    /// How many levels the store has now.
    pub(crate) fn levels(&self) -> usize {
        self.sizes.len()
    }

    /// The first level from `level` upward with a ready side, by the test that `acquire` makes.
    pub(crate) fn ready_level(&self, level: usize) -> Option<usize> {
        (level..self.sizes.len()).find(|&at| {
            let size = &self.sizes[at];
            size.next_ready < size.pairs.len()
        })
    }

    /// How many pairs a level holds; a level that isn't there yet holds none.
    pub(crate) fn pairs_held(&self, level: usize) -> usize {
        self.sizes.get(level).map_or(0, |size| size.pairs.occupied())
    }

    /// How many chunks the store holds.
    pub(crate) fn chunks_held(&self) -> usize {
        self.chunks.occupied()
    }
}
