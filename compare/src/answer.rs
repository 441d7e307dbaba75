//! What a call answers, and the text of it.

use {crate::tape::Block, std::fmt};

/// What an order tells the caller.
#[derive(Clone, Copy, Debug, PartialEq, Eq)]
pub struct Order {
    pub size: u64,
    pub memory_type: u32,
    pub map: bool,
}

/// The refusals that a tape can reach after set-up. Where a row of document 01's table has
/// several causes, each has a case of its own, so that runs can count them apart.
#[derive(Clone, Copy, Debug, PartialEq, Eq)]
pub enum Refusal {
    OrderOpen,
    NoOrder,
    Mask,
    Size,
    Stale,
    LoansFull,
    ChunksFull,
    PairsFull,
    Objects,
    Count,
    Device,
    Host,
    MemoryHeld,
    OutcomeUnsuited,
}

impl Refusal {
    /// The refusal's number in document 01.
    pub fn number(self) -> u8 {
        match self {
            Refusal::OrderOpen | Refusal::NoOrder => 2,
            Refusal::Mask => 5,
            Refusal::Size => 6,
            Refusal::Stale => 7,
            Refusal::LoansFull | Refusal::ChunksFull | Refusal::PairsFull => 8,
            Refusal::Objects => 9,
            Refusal::Count => 10,
            Refusal::Device => 11,
            Refusal::Host => 12,
            Refusal::MemoryHeld | Refusal::OutcomeUnsuited => 13,
        }
    }

    /// Whether returns can help against it.
    pub fn is_limit(self) -> bool {
        matches!(self.number(), 8 | 9)
    }

    /// Whether the refused delivery has closed its order.
    pub fn closes_order(self) -> bool {
        matches!(self, Refusal::Device | Refusal::Host)
    }
}

/// The answer of one call.
#[derive(Clone, Debug, PartialEq, Eq)]
pub enum Answer {
    Block(Block),
    Order(Order),
    /// Memory numbers in the order of the release list.
    Released(Vec<u64>),
    Refused(Refusal),
    /// A refusal that says which memory to free.
    RefusedFree(Refusal, u64),
}

impl From<Result<Answer, Refusal>> for Answer {
    fn from(result: Result<Answer, Refusal>) -> Answer {
        result.unwrap_or_else(Answer::Refused)
    }
}

impl fmt::Display for Answer {
    fn fmt(&self, out: &mut fmt::Formatter<'_>) -> fmt::Result {
        match self {
            Answer::Block(block) => write!(
                out,
                "block {} {} {} {}",
                block.serial, block.chunk, block.offset, block.size
            ),
            Answer::Order(order) => {
                write!(out, "order {} {} {}", order.size, order.memory_type, u8::from(order.map))
            }
            Answer::Released(memories) => {
                write!(out, "released {}", memories.len())?;
                memories.iter().try_for_each(|memory| write!(out, " {memory}"))
            }
            Answer::Refused(refusal) => write!(out, "refused {}", refusal.number()),
            Answer::RefusedFree(refusal, memory) => {
                write!(out, "refused {} free {memory}", refusal.number())
            }
        }
    }
}
