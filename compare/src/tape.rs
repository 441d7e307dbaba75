//! A tape: a header of words, then records of calls. All numbers are little-endian.

use std::fmt;

/// Words in a header.
pub const HEADER_WORDS: usize = 13;
/// Bytes in a header.
pub const HEADER_BYTES: usize = HEADER_WORDS * 8;

/// The words of a header, as read or to be written.
pub type Header = [u64; HEADER_WORDS];

/// The number of each word of a header.
pub mod word {
    pub const ENGINE: usize = 0;
    pub const STORE: usize = 1;
    pub const MEMORY_TYPE: usize = 2;
    pub const PROPERTIES: usize = 3;
    pub const HEAP: usize = 4;
    pub const ATOM_MASK: usize = 5;
    /// Minimal size of a buddy store, start chunk of a free list.
    pub const LEAST: usize = 6;
    /// Initial size of a buddy store, final chunk of a free list.
    pub const GREATEST: usize = 7;
    pub const LOANS: usize = 8;
    pub const CHUNKS: usize = 9;
    pub const PAIRS: usize = 10;
    pub const HEAP_SIZE: usize = 11;
    pub const OBJECTS: usize = 12;
}

/// What a block carries, and what a return names.
#[derive(Clone, Copy, Debug, PartialEq, Eq)]
pub struct Block {
    pub serial: u64,
    pub chunk: u64,
    pub offset: u64,
    pub size: u64,
}

/// What the caller reports of an order.
#[derive(Clone, Copy, Debug, PartialEq, Eq)]
pub enum Outcome {
    Mapped,
    NotWanted,
    MapFailed,
    MapOutOfDeviceMemory,
    MapOutOfHostMemory,
    DeviceRefusal,
    HostRefusal,
}

/// The outcomes by their bytes.
pub const OUTCOMES: [Outcome; 7] = [
    Outcome::Mapped,
    Outcome::NotWanted,
    Outcome::MapFailed,
    Outcome::MapOutOfDeviceMemory,
    Outcome::MapOutOfHostMemory,
    Outcome::DeviceRefusal,
    Outcome::HostRefusal,
];

impl Outcome {
    /// Whether no memory came with it.
    pub fn is_refusal(self) -> bool {
        matches!(self, Outcome::DeviceRefusal | Outcome::HostRefusal)
    }

    /// Whether it can be the outcome of an order that is to be mapped, or not to be.
    pub fn suits(self, map: bool) -> bool {
        self.is_refusal() || map != (self == Outcome::NotWanted)
    }
}

impl fmt::Display for Outcome {
    fn fmt(&self, out: &mut fmt::Formatter<'_>) -> fmt::Result {
        out.write_str(match self {
            Outcome::Mapped => "mapped",
            Outcome::NotWanted => "not wanted",
            Outcome::MapFailed => "map failed",
            Outcome::MapOutOfDeviceMemory => "map out of device memory",
            Outcome::MapOutOfHostMemory => "map out of host memory",
            Outcome::DeviceRefusal => "device refusal",
            Outcome::HostRefusal => "host refusal",
        })
    }
}

/// One call.
#[derive(Clone, Copy, Debug, PartialEq, Eq)]
pub enum Record {
    Ask { size: u64, mask: u64 },
    Deliver { outcome: Outcome, memory: u64 },
    Return(Block),
    CleanUp,
}

/// Writes a header.
pub fn write_header(tape: &mut Vec<u8>, header: &Header) {
    write_words(tape, header);
}

/// Writes a count.
pub fn write_count(tape: &mut Vec<u8>, count: u64) {
    write_words(tape, &[count]);
}

/// Writes a record: its kind, then its body.
pub fn write_record(tape: &mut Vec<u8>, record: &Record) {
    match *record {
        Record::Ask { size, mask } => {
            tape.push(1);
            write_words(tape, &[size, mask]);
        }
        Record::Deliver { outcome, memory } => {
            tape.extend([2, outcome as u8]);
            write_words(tape, &[memory]);
        }
        Record::Return(block) => {
            tape.push(3);
            write_words(tape, &[block.serial, block.chunk, block.offset, block.size]);
        }
        Record::CleanUp => tape.push(4),
    }
}

/// Reads a tape from the front.
pub struct Reader<'a> {
    tape: &'a [u8],
    position: usize,
}

/// A record that stops a replay.
pub struct BadRecord;

impl<'a> Reader<'a> {
    pub fn new(tape: &'a [u8]) -> Self {
        Reader { tape, position: 0 }
    }

    /// The byte that is read next.
    pub fn position(&self) -> usize {
        self.position
    }

    /// The header, if it isn't short.
    pub fn header(&mut self) -> Option<Header> {
        let mut header = [0; HEADER_WORDS];
        for word in &mut header {
            *word = self.word().ok()?;
        }
        Some(header)
    }

    /// The next record; none at the end of the tape.
    pub fn record(&mut self) -> Option<Result<Record, BadRecord>> {
        let kind = *self.tape.get(self.position)?;
        self.position += 1;
        Some(self.body(kind))
    }

    /// A count, if there is one.
    pub fn count(&mut self) -> Option<u64> {
        self.word().ok()
    }

    /// The next record of a shelf's tape: the place of its store, then the record.
    pub fn tagged_record(&mut self) -> Option<Result<(usize, Record), BadRecord>> {
        let place = usize::from(*self.tape.get(self.position)?);
        self.position += 1;
        let record = self.record().unwrap_or(Err(BadRecord));
        Some(record.map(|record| (place, record)))
    }

    fn body(&mut self, kind: u8) -> Result<Record, BadRecord> {
        match kind {
            1 => Ok(Record::Ask { size: self.word()?, mask: self.word()? }),
            2 => self.delivery(),
            3 => Ok(Record::Return(Block {
                serial: self.word()?,
                chunk: self.word()?,
                offset: self.word()?,
                size: self.word()?,
            })),
            4 => Ok(Record::CleanUp),
            _ => Err(BadRecord),
        }
    }

    fn delivery(&mut self) -> Result<Record, BadRecord> {
        let [outcome] = self.bytes()?;
        let outcome = *OUTCOMES.get(usize::from(outcome)).ok_or(BadRecord)?;
        let memory = self.word()?;
        if outcome.is_refusal() && memory != 0 {
            return Err(BadRecord);
        }
        Ok(Record::Deliver { outcome, memory })
    }

    fn word(&mut self) -> Result<u64, BadRecord> {
        Ok(u64::from_le_bytes(self.bytes()?))
    }

    fn bytes<const N: usize>(&mut self) -> Result<[u8; N], BadRecord> {
        let rest = &self.tape[self.position..];
        let bytes = rest.first_chunk::<N>().ok_or(BadRecord)?;
        self.position += N;
        Ok(*bytes)
    }
}

fn write_words(tape: &mut Vec<u8>, words: &[u64]) {
    tape.extend(words.iter().flat_map(|word| word.to_le_bytes()));
}
