//! Reading a tape: the header with a store's settings, then the records.

/// A header is 13 little-endian words of 8 bytes.
const HEADER_WORDS: usize = 13;

/// The two engines, with the settings that only they have.
#[derive(Clone, Copy)]
pub enum EngineSettings {
    Buddy {
        minimal: u64,
        initial: u64,
        pairs: usize,
    },
    FreeList {
        start: u64,
        last: u64,
    },
}

/// What a header sets up, every value inside 01's table.
///
/// Store number, heap number and heap size are tested and then dropped: no
/// answer names them ("The size is stored and not enforced").
pub struct Settings {
    pub engine: EngineSettings,
    pub memory_type: u64,
    pub host_visible: bool,
    pub atom_mask: u64,
    pub loan_limit: usize,
    pub chunk_limit: usize,
    pub objects: u32,
}

impl Settings {
    /// The settings and the bytes of the records; `None` is refusal 1.
    pub fn read(tape: &[u8]) -> Option<(Settings, &[u8])> {
        let (header, records) = tape.split_at_checked(8 * HEADER_WORDS)?;
        let words: [u64; HEADER_WORDS] = std::array::from_fn(|place| number(header, 8 * place));
        let [engine, store, memory_type, properties, heap, atom_mask, .., heap_size, objects] =
            words;
        let [.., first, second, loans, chunks, pairs, _, _] = words;
        let allowed = store <= u64::from(u32::MAX)
            && memory_type <= 31
            && properties <= 63
            && heap <= 15
            && is_mask(atom_mask, 16)
            && (1..=512).contains(&loans)
            && (1..=64).contains(&chunks)
            && heap_size <= 1 << 62;
        if !allowed {
            return None;
        }
        let engine = match engine {
            1 => buddy_settings(first, second, pairs)?,
            2 => free_list_settings(first, second, pairs, atom_mask)?,
            _ => return None,
        };
        let settings = Settings {
            engine,
            memory_type,
            host_visible: properties & 2 != 0,
            atom_mask,
            loan_limit: loans as usize,
            chunk_limit: chunks as usize,
            objects: u32::try_from(objects).ok()?,
        };
        Some((settings, records))
    }
}

/// The initial size may be below minimal, it only has to be a power of two.
fn buddy_settings(minimal: u64, initial: u64, pairs: u64) -> Option<EngineSettings> {
    let allowed = minimal.is_power_of_two()
        && minimal <= 65_536
        && initial.is_power_of_two()
        && initial <= minimal << 32
        && (1..=256).contains(&pairs);
    allowed.then_some(EngineSettings::Buddy {
        minimal,
        initial,
        pairs: pairs as usize,
    })
}

/// "nonzero multiples of the atom unit, start <= final <= 2^40"; the header's
/// word for pairs is 0 for a free list.
fn free_list_settings(start: u64, last: u64, pairs: u64, atom_mask: u64) -> Option<EngineSettings> {
    let allowed = start != 0
        && (start | last) & atom_mask == 0
        && start <= last
        && last <= 1 << 40
        && pairs == 0;
    allowed.then_some(EngineSettings::FreeList { start, last })
}

/// Whether a mask is 2^k - 1 with k at most `bits`.
pub fn is_mask(mask: u64, bits: u32) -> bool {
    mask < 1 << bits && (mask + 1).is_power_of_two()
}

/// What a delivery says, in the order of the outcome bytes 0 to 6.
#[derive(Clone, Copy, PartialEq, Eq)]
pub enum Outcome {
    Mapped,
    NotWanted,
    MapFailed,
    MapOutOfDevice,
    MapOutOfHost,
    DeviceRefusal,
    HostRefusal,
}

impl Outcome {
    fn from_byte(byte: u8) -> Option<Outcome> {
        use Outcome::*;
        let all = [
            Mapped,
            NotWanted,
            MapFailed,
            MapOutOfDevice,
            MapOutOfHost,
            DeviceRefusal,
            HostRefusal,
        ];
        all.get(usize::from(byte)).copied()
    }

    /// A device refusal brings no memory number; every other outcome does.
    pub fn brings_memory(self) -> bool {
        !matches!(self, Outcome::DeviceRefusal | Outcome::HostRefusal)
    }

    /// Whether the map outcome suits an order: one that asks to map suits every
    /// outcome of mapping, one that does not suits only "not wanted".
    pub fn suits(self, map: bool) -> bool {
        !self.brings_memory() || (self == Outcome::NotWanted) != map
    }
}

/// One call on a tape.
pub enum Record {
    Ask {
        size: u64,
        mask: u64,
    },
    Deliver {
        outcome: Outcome,
        memory: u64,
    },
    Return {
        serial: u64,
        chunk: u64,
        offset: u64,
        size: u64,
    },
    CleanUp,
}

impl Record {
    /// The record at the front and its length; `None` for a bad record.
    pub fn read(bytes: &[u8], engine: EngineSettings) -> Option<(Record, usize)> {
        let (&kind, body) = bytes.split_first()?;
        let length = match kind {
            1 => 16,
            2 => 9,
            3 => 32,
            4 => 0,
            _ => return None,
        };
        let body = body.get(..length)?;
        let record = match kind {
            1 => Record::Ask {
                size: number(body, 0),
                mask: number(body, 8),
            },
            2 => delivery(body)?,
            3 => Record::Return {
                serial: number(body, 0),
                chunk: number(body, 8),
                offset: number(body, 16),
                size: number(body, 24),
            },
            _ => clean_up(engine)?,
        };
        Some((record, 1 + length))
    }
}

/// Nonzero memory beside a device or host refusal makes a bad record.
fn delivery(body: &[u8]) -> Option<Record> {
    let outcome = Outcome::from_byte(body[0])?;
    let memory = number(body, 1);
    (outcome.brings_memory() || memory == 0).then_some(Record::Deliver { outcome, memory })
}

/// "clean up (free list)": a buddy store has no such call.
fn clean_up(engine: EngineSettings) -> Option<Record> {
    matches!(engine, EngineSettings::FreeList { .. }).then_some(Record::CleanUp)
}

/// The little-endian number of 8 bytes at a place that lies within `bytes`.
fn number(bytes: &[u8], at: usize) -> u64 {
    bytes[at..at + 8]
        .iter()
        .rev()
        .fold(0, |high, &byte| high << 8 | u64::from(byte))
}
