//! A store of either engine over lent words.

use {
    crate::{
        account::Account,
        ffi::{self, Engine, Engines, OutcomeWords, Tables},
    },
    compare::{
        answer::{Answer, Order},
        settings::{CHUNK_LIMIT, LEVEL_LIMIT, LOAN_LIMIT, PAIR_LIMIT},
        tape::{word, Block, Header, Outcome, Record},
    },
};

/// The settings that both engines begin with, by the header's words.
const COMMON: [usize; 7] = [
    word::STORE,
    word::MEMORY_TYPE,
    word::PROPERTIES,
    word::HEAP,
    word::ATOM_MASK,
    word::LOANS,
    word::CHUNKS,
];
const LIST_OWN: [usize; 2] = [word::LEAST, word::GREATEST];
const BUDDY_OWN: [usize; 3] = [word::LEAST, word::GREATEST, word::PAIRS];

/// Of both engines' tables the loans', and the word that every table begins with.
const LOANS: usize = 1;
const MARK: usize = 0;

/// Words of both engines' heads, and of a record of their loans.
const HEAD: usize = 2;
const LOAN: usize = 4;
/// Words that a free list has for a chunk, for a loan in its index, and for a region.
const LIST_CHUNK: usize = 3;
const LIST_ENTRY: usize = 5;
const REGION: usize = 4;
/// Words that a buddy has for a chunk, for a loan in its index, and for a record of its tree.
const BUDDY_CHUNK: usize = 2;
const BUDDY_ENTRY: usize = 4;
const TREE_RECORD: usize = 8;

/// What an answer's words are before the call, so that one left unwritten shows.
const UNWRITTEN: ffi::Answer = [u64::MAX; 6];

/// A store, and the words of the last answer and release.
#[derive(Clone)]
pub struct Store {
    engine: &'static Engine,
    settings: Vec<u64>,
    tables: Tables,
    list: Vec<u64>,
    answer: ffi::Answer,
}

impl Store {
    /// The store of a header, set up; else the number of the refusal.
    pub fn open(engines: &Engines, header: &Header) -> Result<Store, u64> {
        let mut store = Store::lent(engines, header).ok_or(1u64)?;
        match *store.set_up() {
            [0, 0, 0, 0, 0, 0] => Ok(store),
            [4, number, 0, 0, 0, 0] => Err(number),
            answer => panic!("no answer of a set-up: {answer:?}"),
        }
    }

    /// Words for a store, before its set-up; none if the header isn't of an engine.
    pub fn lent(engines: &Engines, header: &Header) -> Option<Store> {
        // More than the greatest limits is refused, whatever the lengths.
        let limit = |at: usize, most: u64| header[at].min(most) as usize;
        let loans = limit(word::LOANS, LOAN_LIMIT);
        let chunks = limit(word::CHUNKS, CHUNK_LIMIT);
        let (engine, own, tables): (_, &[usize], _) =
            match (header[word::ENGINE], header[word::PAIRS]) {
                (1, _) => {
                    let lengths = buddy_lengths(loans, chunks, limit(word::PAIRS, PAIR_LIMIT));
                    (engines.buddy, &BUDDY_OWN, lengths)
                }
                (2, 0) => (engines.list, &LIST_OWN, list_lengths(loans, chunks)),
                _ => return None,
            };
        Some(Store {
            engine,
            settings: COMMON.iter().chain(own).map(|&at| header[at]).collect(),
            tables: tables.map(|words| vec![0; words]),
            list: vec![0; chunks],
            answer: UNWRITTEN,
        })
    }

    /// One call, and the text of its answer.
    pub fn take(&mut self, account: &mut Account, record: &Record) -> String {
        self.answer = UNWRITTEN;
        match *record {
            Record::Ask { size, mask } => self.ask(account, size, mask),
            Record::Deliver { outcome, memory } => self.deliver(account, outcome, memory),
            Record::Return(block) => self.take_back(account, block),
            Record::CleanUp => self.clean_up(account),
        };
        self.text()
    }

    pub fn set_up(&mut self) -> &ffi::Answer {
        self.engine.set_up(&self.settings, &mut self.tables, &mut self.answer);
        &self.answer
    }

    pub fn ask(&mut self, account: &mut Account, size: u64, mask: u64) -> &ffi::Answer {
        let account = &mut account.words;
        self.engine.ask(&self.settings, account, size, mask, &mut self.tables, &mut self.answer);
        &self.answer
    }

    pub fn deliver(
        &mut self,
        account: &mut Account,
        outcome: Outcome,
        memory: u64,
    ) -> &ffi::Answer {
        let (account, outcome) = (&mut account.words, outcome_words(outcome, memory));
        self.engine.deliver(&self.settings, account, outcome, &mut self.tables, &mut self.answer);
        &self.answer
    }

    pub fn take_back(&mut self, account: &mut Account, block: Block) -> &ffi::Answer {
        let block = [block.serial, block.chunk, block.offset, block.size];
        self.engine.take_back(
            &self.settings,
            &mut account.words,
            block,
            &mut self.tables,
            &mut self.list,
            &mut self.answer,
        );
        &self.answer
    }

    /// For free lists only, and always by the shipped archive.
    pub fn clean_up(&mut self, account: &mut Account) -> &ffi::Answer {
        let (account, tables) = (&mut account.words, &mut self.tables);
        ffi::clean_up(&self.settings, account, tables, &mut self.list, &mut self.answer);
        &self.answer
    }

    /// Writes over the loans' mark, without which no store is sound.
    pub fn tear(&mut self) {
        self.tables[LOANS][MARK] = u64::MAX;
    }

    /// The same store with tables of another: each of those but the loans by a bit of the mixture.
    pub fn mixed(&self, other: &Store, mixture: u64) -> Store {
        let mut mixed = self.clone();
        let slots = (0..mixed.tables.len()).filter(|&slot| slot != LOANS);
        for (bit, slot) in slots.enumerate() {
            if mixture >> bit & 1 == 1 {
                mixed.tables[slot].clone_from(&other.tables[slot]);
            }
        }
        mixed
    }

    /// The last answer as the oracle writes it. Refusals are written by number, for ours may
    /// have one that the crate hasn't.
    fn text(&self) -> String {
        match self.answer {
            [1, serial, chunk, offset, size, 0] => {
                Answer::Block(Block { serial, chunk, offset, size }).to_string()
            }
            [2, store, size, kind @ 0..=31, map @ 0..=1, 0] if store == self.settings[0] => {
                Answer::Order(Order { size, memory_type: kind as u32, map: map == 1 }).to_string()
            }
            [3, count, 0, 0, 0, 0] if count <= self.list.len() as u64 => {
                Answer::Released(self.list[..count as usize].into()).to_string()
            }
            [4, number, 0, 0, 0, 0] => format!("refused {number}"),
            [4, number, 1, memory, 0, 0] => format!("refused {number} free {memory}"),
            answer => format!("no answer: {answer:?}"),
        }
    }
}

/// What came of an order, in words; of a refusal the last two are not read.
fn outcome_words(outcome: Outcome, memory: u64) -> OutcomeWords {
    match outcome {
        Outcome::Mapped => [0, memory, 0],
        Outcome::NotWanted => [0, memory, 1],
        Outcome::MapFailed => [0, memory, 2],
        Outcome::MapOutOfDeviceMemory => [0, memory, 3],
        Outcome::MapOutOfHostMemory => [0, memory, 4],
        Outcome::DeviceRefusal => [1, memory, 0],
        Outcome::HostRefusal => [2, memory, 0],
    }
}

/// Words of head, loans, chunks, index and regions: each table's own record, then the others.
fn list_lengths(loans: usize, chunks: usize) -> [usize; 5] {
    let regions = loans + chunks;
    [
        HEAD,
        LOAN * (1 + loans),
        LIST_CHUNK * (1 + chunks),
        LIST_ENTRY * (1 + loans),
        REGION * (1 + regions),
    ]
}

/// Words of head, loans, chunks, index and tree: its own record, levels of pairs, chunk places.
fn buddy_lengths(loans: usize, chunks: usize, pairs: usize) -> [usize; 5] {
    let tree_records = 1 + LEVEL_LIMIT * (1 + pairs) + (1 + chunks);
    [
        HEAD,
        LOAN * (1 + loans),
        BUDDY_CHUNK * (1 + chunks),
        BUDDY_ENTRY * (1 + loans),
        TREE_RECORD * tree_records,
    ]
}
