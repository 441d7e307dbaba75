//! An account in lent words: of each heap size, used and the two totals, then the objects, then
//! the open order.

use {
    compare::{
        settings::HEAP_LIMIT,
        tape::{word, Header},
    },
    std::fmt::Write,
};

const WORDS: usize = 104;
const HEAPS: usize = 16;
const HEAP_WORDS: usize = 6;
const SIZE: usize = 0;
const USED: usize = 1;
const TOTALS: usize = 2;
const OBJECTS: usize = 96;

/// The words, and the number of the one heap that the stores use.
#[derive(Clone)]
pub struct Account {
    pub words: [u64; WORDS],
    heap: usize,
}

impl Account {
    /// The account of a header whose store was set up: nothing is used of its heap, and the others
    /// have no room. None if size or objects are outside the table.
    pub fn new(header: &Header) -> Option<Account> {
        let (size, objects) = (header[word::HEAP_SIZE], header[word::OBJECTS]);
        if size > HEAP_LIMIT || objects > u32::MAX.into() {
            return None;
        }
        let heap = header[word::HEAP] as usize;
        assert!(heap < HEAPS, "a set-up took a heap that no account has");
        let mut words = [0; WORDS];
        words[heap * HEAP_WORDS + SIZE] = size;
        words[OBJECTS] = objects;
        Some(Account { words, heap })
    }

    /// Writes the end of an answer's line: heap used and objects left.
    pub fn write_state(&self, text: &mut String) {
        let (used, objects) = (self.of_heap(USED), self.words[OBJECTS]);
        writeln!(text, " ; {used} {objects}").expect("a string takes all");
    }

    /// Writes the line of the two running totals, each as a high and a low word.
    pub fn write_totals(&self, text: &mut String) {
        let [a, b, c, d] = [0, 1, 2, 3].map(|part| self.of_heap(TOTALS + part));
        writeln!(text, "totals {a} {b} {c} {d}").expect("a string takes all");
    }

    fn of_heap(&self, part: usize) -> u64 {
        self.words[self.heap * HEAP_WORDS + part]
    }
}
