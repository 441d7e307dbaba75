//! A store's settings: a tape's header, once every word is within document 01's table.

use crate::tape::{word, Header, Record};

/// Greatest heap size and heap used.
pub const HEAP_LIMIT: u64 = 1 << 62;
/// Levels a buddy store may have, and pairs for each of them.
pub const LEVEL_LIMIT: usize = 32;
pub const PAIR_LIMIT: u64 = 256;
/// Blocks on loan and chunks that a store may have.
pub const LOAN_LIMIT: u64 = 512;
pub const CHUNK_LIMIT: u64 = 64;

const BUDDY: u64 = 1;
const FREE_LIST: u64 = 2;
const MINIMAL_LIMIT: u64 = 65_536;
const FINAL_LIMIT: u64 = 1 << 40;
const MASK_BITS: u32 = 40;
const ATOM_BITS: u32 = 16;

/// What an engine is set up with.
#[derive(Clone, Copy, Debug, PartialEq, Eq)]
pub enum Kind {
    Buddy { minimal: u64, initial: u64, pairs: usize },
    FreeList { start_chunk: u64, final_chunk: u64 },
}

/// A store's settings and the account it begins with.
#[derive(Clone, Copy, Debug, PartialEq, Eq)]
pub struct Settings {
    pub kind: Kind,
    pub store: u32,
    pub memory_type: u32,
    pub properties: u8,
    pub heap: u64,
    pub atom_mask: u64,
    pub loans: usize,
    pub chunks: usize,
    pub heap_size: u64,
    pub objects: u32,
}

impl Settings {
    /// The settings that a header names; none if a word is outside the table.
    pub fn read(header: &Header) -> Option<Settings> {
        let atom_mask = header[word::ATOM_MASK];
        let settings = Settings {
            kind: Kind::read(header)?,
            store: u32::try_from(header[word::STORE]).ok()?,
            memory_type: within(header[word::MEMORY_TYPE], 0, 31)? as u32,
            properties: within(header[word::PROPERTIES], 0, 63)? as u8,
            heap: within(header[word::HEAP], 0, 15)?,
            atom_mask,
            loans: within(header[word::LOANS], 1, LOAN_LIMIT)? as usize,
            chunks: within(header[word::CHUNKS], 1, CHUNK_LIMIT)? as usize,
            heap_size: within(header[word::HEAP_SIZE], 0, HEAP_LIMIT)?,
            objects: u32::try_from(header[word::OBJECTS]).ok()?,
        };
        is_mask(atom_mask, ATOM_BITS).then_some(settings)
    }

    /// The header that names these settings.
    pub fn header(&self) -> Header {
        let (engine, least, greatest, pairs) = match self.kind {
            Kind::Buddy { minimal, initial, pairs } => (BUDDY, minimal, initial, pairs),
            Kind::FreeList { start_chunk, final_chunk } => (FREE_LIST, start_chunk, final_chunk, 0),
        };
        let mut header = Header::default();
        header[word::ENGINE] = engine;
        header[word::STORE] = self.store.into();
        header[word::MEMORY_TYPE] = self.memory_type.into();
        header[word::PROPERTIES] = self.properties.into();
        header[word::HEAP] = self.heap;
        header[word::ATOM_MASK] = self.atom_mask;
        header[word::LEAST] = least;
        header[word::GREATEST] = greatest;
        header[word::LOANS] = self.loans as u64;
        header[word::CHUNKS] = self.chunks as u64;
        header[word::PAIRS] = pairs as u64;
        header[word::HEAP_SIZE] = self.heap_size;
        header[word::OBJECTS] = self.objects.into();
        header
    }

    /// Whether the store takes such a call: a clean-up is for free lists.
    pub fn allows(&self, record: &Record) -> bool {
        *record != Record::CleanUp || self.is_free_list()
    }

    /// Whether the store's engine is a free list.
    pub fn is_free_list(&self) -> bool {
        matches!(self.kind, Kind::FreeList { .. })
    }

    /// Whether an order is to be mapped: the memory type is HOST_VISIBLE.
    pub fn maps(&self) -> bool {
        self.properties & 2 != 0
    }
}

impl Kind {
    fn read(header: &Header) -> Option<Kind> {
        let (least, greatest) = (header[word::LEAST], header[word::GREATEST]);
        match header[word::ENGINE] {
            BUDDY => {
                let minimal = within(least, 1, MINIMAL_LIMIT)?;
                let powers = minimal.is_power_of_two() && greatest.is_power_of_two();
                let initial = within(greatest, 1, minimal << LEVEL_LIMIT)?;
                let pairs = within(header[word::PAIRS], 1, PAIR_LIMIT)? as usize;
                powers.then_some(Kind::Buddy { minimal, initial, pairs })
            }
            FREE_LIST => {
                let final_chunk = within(greatest, 1, FINAL_LIMIT)?;
                let start_chunk = within(least, 1, final_chunk)?;
                let whole = (start_chunk | final_chunk) & header[word::ATOM_MASK] == 0;
                within(header[word::PAIRS], 0, 0)?;
                whole.then_some(Kind::FreeList { start_chunk, final_chunk })
            }
            _ => None,
        }
    }
}

/// Whether an ask's alignment mask is of the allowed form.
pub fn is_alignment_mask(mask: u64) -> bool {
    is_mask(mask, MASK_BITS)
}

fn is_mask(mask: u64, bits: u32) -> bool {
    mask < 1 << bits && mask & (mask + 1) == 0
}

fn within(value: u64, least: u64, greatest: u64) -> Option<u64> {
    (least..=greatest).contains(&value).then_some(value)
}
