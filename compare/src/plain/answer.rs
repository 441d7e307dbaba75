//! What a call answers, and how its line on the answers to a tape reads.

use super::store::Place;
use std::fmt;

/// The refusals that a call after set-up can give, by 01's numbers. Refusal 4
/// is not among them: one store alone with its account never differs from it.
#[derive(Clone, Copy, PartialEq, Eq)]
pub enum Refusal {
    Order = 2,
    Torn = 3,
    Mask = 5,
    Size = 6,
    Stale = 7,
    Full = 8,
    Objects = 9,
    Count = 10,
    Device = 11,
    Host = 12,
    Delivery = 13,
}

/// The answer to one call.
pub enum Answer {
    Block {
        serial: u64,
        place: Place,
    },
    Order {
        size: u64,
        memory_type: u64,
        map: bool,
    },
    Refused(Refusal),
    RefusedFree(Refusal, u64),
    Released(Vec<u64>),
}

impl fmt::Display for Answer {
    fn fmt(&self, out: &mut fmt::Formatter) -> fmt::Result {
        match self {
            Answer::Block {
                serial,
                place:
                    Place {
                        chunk,
                        offset,
                        size,
                    },
            } => {
                write!(out, "block {serial} {chunk} {offset} {size}")
            }
            Answer::Order {
                size,
                memory_type,
                map,
            } => {
                write!(out, "order {size} {memory_type} {}", u8::from(*map))
            }
            Answer::Refused(refusal) => write!(out, "refused {}", *refusal as u8),
            Answer::RefusedFree(refusal, memory) => {
                write!(out, "refused {} free {memory}", *refusal as u8)
            }
            Answer::Released(memories) => {
                write!(out, "released {}", memories.len())?;
                memories
                    .iter()
                    .try_for_each(|memory| write!(out, " {memory}"))
            }
        }
    }
}
