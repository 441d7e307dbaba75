//! What a caller knows of a store: what its answers said.

use crate::{
    answer::{Answer, Order},
    tape::{Block, Record},
};

#[derive(Default)]
pub struct Ledger {
    /// Blocks on loan, oldest first.
    pub loans: Vec<Block>,
    /// Blocks returned, oldest first.
    pub returned: Vec<Block>,
    /// Memory numbers that the store holds.
    pub held: Vec<u64>,
    /// Memory numbers that were delivered once and aren't held.
    pub dropped: Vec<u64>,
    pub open: Option<Order>,
}

impl Ledger {
    /// Enters a call and its answer.
    pub fn enter(&mut self, record: &Record, answer: &Answer) {
        match answer {
            Answer::Order(order) => self.open = Some(*order),
            Answer::Block(block) => {
                self.loans.push(*block);
                if let Record::Deliver { memory, .. } = record {
                    self.held.push(*memory);
                    self.open = None;
                }
            }
            Answer::Released(memories) => {
                if let Record::Return(block) = record {
                    self.loans.retain(|loan| loan != block);
                    self.returned.push(*block);
                }
                self.held.retain(|memory| !memories.contains(memory));
                self.dropped.extend(memories);
            }
            Answer::Refused(refusal) | Answer::RefusedFree(refusal, _) => {
                if refusal.closes_order() {
                    self.open = None;
                    self.dropped.extend(delivered(record));
                }
            }
        }
    }
}

/// The memory that a delivery names.
fn delivered(record: &Record) -> Option<u64> {
    match record {
        Record::Deliver { memory, .. } => Some(*memory),
        _ => None,
    }
}
