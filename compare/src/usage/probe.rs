//! The crate's own ranking key, which its answer doesn't show.

use super::{MemoryPropertyFlags, UsageFlags};

/// The key by which the crate sorts types for a usage; lower comes first.
pub(crate) fn key(usage: UsageFlags, properties: MemoryPropertyFlags) -> u32 {
    super::reverse_priority(usage, properties)
}
