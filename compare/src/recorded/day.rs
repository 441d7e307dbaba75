//! A day at the counter: calls with the answers that they must get.

use crate::{
    counter::{self, Counter},
    recorded::Recorded,
    settings::{Kind, Settings},
    tape::{write_header, write_record, Block, Outcome, Record},
};

/// A tape in the making.
pub struct Day {
    name: &'static str,
    tape: Vec<u8>,
    counter: Counter,
}

impl Day {
    pub fn open(name: &'static str, settings: Settings) -> Day {
        let mut tape = Vec::new();
        write_header(&mut tape, &settings.header());
        Day { name, tape, counter: Counter::open(settings) }
    }

    pub fn ask(&mut self, size: u64, mask: u64, expected: &str) {
        self.call(Record::Ask { size, mask }, expected);
    }

    pub fn deliver(&mut self, outcome: Outcome, memory: u64, expected: &str) {
        self.call(Record::Deliver { outcome, memory }, expected);
    }

    /// Returns the block of a serial, chunk, offset and size.
    pub fn give_back(&mut self, [serial, chunk, offset, size]: [u64; 4], expected: &str) {
        self.call(Record::Return(Block { serial, chunk, offset, size }), expected);
    }

    pub fn clean_up(&mut self, expected: &str) {
        self.call(Record::CleanUp, expected);
    }

    fn call(&mut self, record: Record, expected: &str) {
        write_record(&mut self.tape, &record);
        let answer = self.counter.take(&record).to_string();
        assert_eq!(answer, expected, "{}: {record:?}", self.name);
    }

    pub fn close(self) -> Recorded {
        self.counter.close(None);
        let answers = counter::answers(&self.tape);
        Recorded { name: self.name.into(), tape: self.tape, answers }
    }
}

/// A buddy store whose orders aren't mapped.
pub fn buddy(minimal: u64, initial: u64) -> Settings {
    with(Kind::Buddy { minimal, initial, pairs: 8 })
}

/// A free list whose orders aren't mapped.
pub fn free_list(start_chunk: u64, final_chunk: u64) -> Settings {
    with(Kind::FreeList { start_chunk, final_chunk })
}

/// The same store for a HOST_VISIBLE memory type, so that its orders are mapped.
pub fn mapped(settings: Settings) -> Settings {
    Settings { properties: 2, ..settings }
}

fn with(kind: Kind) -> Settings {
    Settings {
        kind,
        store: 7,
        memory_type: 3,
        properties: 1,
        heap: 2,
        atom_mask: 0,
        loans: 8,
        chunks: 4,
        heap_size: 1 << 30,
        objects: 100,
    }
}
