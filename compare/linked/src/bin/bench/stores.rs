//! The stores that are timed, and ours in their three forms.

use {
    compare::settings::{Kind, Settings, CHUNK_LIMIT, LOAN_LIMIT, PAIR_LIMIT},
    linked::ffi::{Engines, SHIPPED, UNGATED, UNTESTED},
};

/// One chunk of this size has room for all blocks.
const LARGE_CHUNK: u64 = 1 << 21;
/// Of these the most blocks need nearly as many as 01 allows.
const SMALL_CHUNK: u64 = 1 << 14;
const MINIMAL: u64 = 64;

/// The engines by name, each with one large chunk and with small ones.
pub const ENGINES: [(&str, [Kind; 2]); 2] = [
    ("buddy", [buddy(LARGE_CHUNK), buddy(SMALL_CHUNK)]),
    ("free list", [free_list(LARGE_CHUNK), free_list(SMALL_CHUNK)]),
];
pub const LIVE: [usize; 3] = [16, 128, 500];

/// Ours, as they are timed.
pub const OURS: [&Engines; 3] = [&SHIPPED, &UNTESTED, &UNGATED];

const fn buddy(chunk: u64) -> Kind {
    Kind::Buddy { minimal: MINIMAL, initial: chunk, pairs: PAIR_LIMIT as usize }
}

const fn free_list(chunk: u64) -> Kind {
    Kind::FreeList { start_chunk: chunk, final_chunk: chunk }
}

/// The size of every chunk of such a store.
pub fn chunk_size(kind: Kind) -> u64 {
    match kind {
        Kind::Buddy { initial, .. } => initial,
        Kind::FreeList { start_chunk, .. } => start_chunk,
    }
}

pub fn settings(kind: Kind) -> Settings {
    Settings {
        kind,
        store: 1,
        memory_type: 0,
        properties: 1,
        heap: 0,
        atom_mask: 0,
        loans: LOAN_LIMIT as usize,
        chunks: CHUNK_LIMIT as usize,
        heap_size: 1 << 40,
        objects: CHUNK_LIMIT as u32,
    }
}
