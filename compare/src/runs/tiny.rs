//! The tiny stores whose short call sequences are run without exception.

use crate::{
    settings::{Kind, Settings},
    tape::Outcome,
};

/// A tiny store and the calls that may be made to it.
pub struct Tiny {
    pub name: &'static str,
    pub settings: Settings,
    /// Sizes and masks; the first is asked for until there are enough loans to begin with.
    pub asks: &'static [(u64, u64)],
    /// Outcomes of orders, the good one first.
    pub outcomes: &'static [Outcome],
    pub loans_at_first: usize,
    /// Calls that follow, in a sequence.
    pub calls: usize,
}

const MAPPED: &[Outcome] =
    &[Outcome::Mapped, Outcome::MapFailed, Outcome::MapOutOfDeviceMemory, Outcome::HostRefusal];
const UNMAPPED: &[Outcome] = &[Outcome::NotWanted, Outcome::DeviceRefusal];
const GOOD: &[Outcome] = &[Outcome::NotWanted];

/// Limits are loans, chunks, objects.
pub fn tiny_stores() -> Vec<Tiny> {
    vec![
        tiny("buddy of one pair", buddy(1, 2, 1), (2, 2, 2), MAPPED, &[(1, 0), (2, 0)], 0, 10),
        tiny("buddy below minimal", buddy(4, 1, 2), (3, 2, 3), UNMAPPED, &[(1, 0), (5, 0)], 0, 10),
        tiny("buddy masks", buddy(1, 4, 2), (4, 2, 3), UNMAPPED, &[(1, 0), (1, 1), (3, 0)], 0, 8),
        tiny("buddy rings", buddy(1, 8, 4), (8, 2, 2), GOOD, &[(1, 0)], 8, 6),
        tiny("buddy chunks", buddy(1, 2, 9), (9, 5, 9), GOOD, &[(1, 0), (2, 0)], 6, 6),
        tiny("list of equal chunks", list(4, 4), (3, 3, 3), UNMAPPED, &[(1, 0), (3, 0)], 0, 9),
        tiny("list of growing chunks", list(1, 8), (3, 3, 3), MAPPED, &[(1, 0), (3, 0)], 0, 8),
        tiny("list masks", list(4, 6), (3, 3, 2), UNMAPPED, &[(1, 0), (1, 3), (5, 1)], 0, 8),
        tiny("list of large blocks", list(1, 16), (4, 4, 4), GOOD, &[(1, 0), (2, 0), (5, 0)], 0, 9),
        tiny("list of many regions", list(8, 8), (9, 3, 3), GOOD, &[(1, 0), (3, 0)], 8, 5),
    ]
}

fn tiny(
    name: &'static str,
    kind: Kind,
    (loans, chunks, objects): (usize, usize, u32),
    outcomes: &'static [Outcome],
    asks: &'static [(u64, u64)],
    loans_at_first: usize,
    calls: usize,
) -> Tiny {
    let visible = outcomes[0] == Outcome::Mapped;
    let settings = Settings {
        kind,
        store: 1,
        memory_type: 2,
        properties: if visible { 2 } else { 1 },
        heap: 3,
        atom_mask: 0,
        loans,
        chunks,
        heap_size: 64,
        objects,
    };
    Tiny { name, settings, asks, outcomes, loans_at_first, calls }
}

fn buddy(minimal: u64, initial: u64, pairs: usize) -> Kind {
    Kind::Buddy { minimal, initial, pairs }
}

fn list(start_chunk: u64, final_chunk: u64) -> Kind {
    Kind::FreeList { start_chunk, final_chunk }
}
