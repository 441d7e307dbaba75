//! A read of a slab's private state.

use super::{Entry, Slab};

impl<T> Slab<T> {
    /// How many places are in use now.
    pub(crate) fn occupied(&self) -> usize {
        let occupied = |entry: &&Entry<T>| matches!(entry, Entry::Occupied(_));
        self.entries.iter().filter(occupied).count()
    }
}
