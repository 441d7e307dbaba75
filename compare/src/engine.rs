//! The crate's two engines behind one face, and what document 01 needs to know of their state.

use {
    crate::{
        account::Account,
        align_up,
        answer::Refusal,
        buddy::{BuddyAllocator, BuddyBlock},
        device::Memory,
        error::AllocationError,
        freelist::{FreeListAllocator, FreeListBlock},
        settings::{Kind, Settings, LEVEL_LIMIT},
        AllocationFlags, MemoryPropertyFlags,
    },
    std::ops::Range,
};

/// An engine of the crate.
pub(crate) enum Engine {
    Buddy(BuddyAllocator<Memory>),
    FreeList(FreeListAllocator<Memory>),
}

/// A block of the crate.
pub(crate) enum CrateBlock {
    Buddy(BuddyBlock<Memory>),
    FreeList(FreeListBlock<Memory>),
}

/// What the store would need to serve an ask.
pub(crate) struct Need {
    /// The size of a new chunk; none if held memory serves.
    pub chunk: Option<u64>,
    /// The buddy levels that would each take a new pair.
    pub new_pairs: Range<usize>,
}

impl CrateBlock {
    /// Chunk, offset and size.
    pub fn place(&self) -> (u64, u64, u64) {
        match self {
            CrateBlock::Buddy(block) => (block.chunk as u64, block.offset, block.size),
            CrateBlock::FreeList(block) => (block.chunk, block.offset, block.size),
        }
    }
}

impl Engine {
    pub fn set_up(settings: &Settings) -> Engine {
        let properties = MemoryPropertyFlags::from_bits_truncate(settings.properties);
        let (memory_type, atom_mask) = (settings.memory_type, settings.atom_mask);
        match settings.kind {
            Kind::Buddy { minimal, initial, .. } => Engine::Buddy(BuddyAllocator::new(
                minimal,
                initial,
                memory_type,
                properties,
                atom_mask,
            )),
            Kind::FreeList { start_chunk, final_chunk } => {
                Engine::FreeList(FreeListAllocator::new(
                    start_chunk,
                    final_chunk,
                    memory_type,
                    properties,
                    atom_mask,
                ))
            }
        }
    }

    /// What an ask of allowed mask needs, read from the engine's state; refused if the size is.
    pub fn need(&self, settings: &Settings, size: u64, mask: u64) -> Result<Need, Refusal> {
        match (self, settings.kind) {
            (Engine::Buddy(engine), Kind::Buddy { minimal, .. }) => {
                let level = level(minimal, settings.atom_mask, size, mask).ok_or(Refusal::Size)?;
                Ok(buddy_need(engine, minimal, level))
            }
            (Engine::FreeList(engine), Kind::FreeList { final_chunk, .. }) => {
                if size == 0 || size > final_chunk {
                    return Err(Refusal::Size);
                }
                Ok(free_list_need(engine, settings.atom_mask, final_chunk, size, mask))
            }
            _ => unreachable!("an engine is set up by its own settings"),
        }
    }

    /// Whether each of these levels has a place for a new pair.
    pub fn has_pairs(&self, settings: &Settings, mut levels: Range<usize>) -> bool {
        match (self, settings.kind) {
            (Engine::Buddy(engine), Kind::Buddy { pairs, .. }) => {
                levels.all(|level| engine.pairs_held(level) < pairs)
            }
            _ => true,
        }
    }

    /// The crate's `alloc`.
    pub fn alloc(
        &mut self,
        account: &mut Account,
        size: u64,
        mask: u64,
    ) -> Result<CrateBlock, AllocationError> {
        let (device, flags) = (&account.device, AllocationFlags::empty());
        let (heap, objects) = (&mut account.heap, &mut account.objects);
        // One device serves all calls of a store, as the crate demands: the account's.
        unsafe {
            match self {
                Engine::Buddy(engine) => {
                    engine.alloc(device, size, mask, flags, heap, objects).map(CrateBlock::Buddy)
                }
                Engine::FreeList(engine) => {
                    engine.alloc(device, size, mask, flags, heap, objects).map(CrateBlock::FreeList)
                }
            }
        }
    }

    /// The crate's `dealloc`.
    pub fn dealloc(&mut self, account: &mut Account, block: CrateBlock) {
        let device = &account.device;
        let (heap, objects) = (&mut account.heap, &mut account.objects);
        // The block is on loan: it came from this engine's `alloc` and is handed over here.
        unsafe {
            match (self, block) {
                (Engine::Buddy(engine), CrateBlock::Buddy(block)) => {
                    engine.dealloc(device, block, heap, objects)
                }
                (Engine::FreeList(engine), CrateBlock::FreeList(block)) => {
                    engine.dealloc(device, block, heap, objects)
                }
                _ => unreachable!("a loan is of its store's engine"),
            }
        }
    }

    /// The crate's `cleanup`; a buddy store has none and needs none.
    pub fn cleanup(&mut self, account: &mut Account) {
        if let Engine::FreeList(engine) = self {
            let (heap, objects) = (&mut account.heap, &mut account.objects);
            unsafe { engine.cleanup(&account.device, heap, objects) }
        }
    }
}

/// The level of an ask; none if rounding overflows or the level would be 32 or more.
fn level(minimal: u64, atom_mask: u64, size: u64, mask: u64) -> Option<usize> {
    if size == 0 {
        return None;
    }
    let unit_mask = mask | atom_mask | (minimal - 1);
    let rounded = align_up(size, unit_mask)?.checked_next_power_of_two()?;
    let level = (rounded.trailing_zeros() - minimal.trailing_zeros()) as usize;
    (level < LEVEL_LIMIT).then_some(level)
}

fn buddy_need(engine: &BuddyAllocator<Memory>, minimal: u64, level: usize) -> Need {
    match engine.ready_level(level) {
        Some(found) => Need { chunk: None, new_pairs: level..found },
        None => {
            let levels = engine.levels().max(level + 1);
            Need { chunk: Some(minimal << levels), new_pairs: level..levels }
        }
    }
}

fn free_list_need(
    engine: &FreeListAllocator<Memory>,
    atom_mask: u64,
    final_chunk: u64,
    size: u64,
    mask: u64,
) -> Need {
    let size = align_up(size, atom_mask).expect("a size up to the final chunk rounds within it");
    let chunk_size = engine.chunk_size();
    let chunk = if engine.has_room(size, mask | atom_mask) {
        None
    } else {
        let multiple = size.div_ceil(chunk_size).next_power_of_two();
        Some((chunk_size * multiple).min(final_chunk))
    };
    Need { chunk, new_pairs: 0..0 }
}
