//! The buddy engine.
//!
//! A node of level l has minimal x 2^l bytes, and a pair of level l is the two
//! halves of a node of level l + 1 or of a whole chunk. A pair is found by its
//! chunk and its offset, so it needs no place number and no parent: which place
//! a pair takes in its table shows in no answer, only how many are taken.

use super::store::{Ask, Chunk, Engine, Need, Order, Place};
use super::Fault;
use std::collections::VecDeque;

/// "the level would be 32 or more" is refusal 6.
const LEVEL_LIMIT: u32 = 32;

/// The two nodes from `offset` on, one after the other.
#[derive(Clone, Copy, PartialEq, Eq)]
struct Pair {
    chunk: u64,
    offset: u64,
}

/// A pair with one ready side; the other is on loan or split.
#[derive(Clone, Copy)]
struct ReadyPair {
    pair: Pair,
    /// The offset of the ready node in its chunk.
    ready: u64,
}

/// The pairs of one level.
#[derive(Default)]
struct Level {
    /// The ring, the head in front: each pair's next is the one behind it, and
    /// the next of the last is the head.
    ring: VecDeque<ReadyPair>,
    /// Pairs with no ready side.
    exhausted: Vec<Pair>,
}

impl Level {
    fn pair_count(&self) -> usize {
        self.ring.len() + self.exhausted.len()
    }

    /// "A returned side of an exhausted pair joins the ring before the head, or
    /// as head if the ring is empty": the place before the head is the last.
    fn join(&mut self, pair: Pair, ready: u64) {
        self.ring.push_back(ReadyPair { pair, ready });
    }

    /// "the head becomes that pair's next even if it wasn't the head".
    fn unlink(&mut self, pair: Pair, fault: Fault) {
        let at = self.ring.iter().position(|ready| ready.pair == pair);
        let at = at.expect("a pair that is not exhausted is in the ring");
        if fault == Fault::HeadOnlyWhenRemoved {
            self.ring.remove(at);
        } else {
            self.ring.rotate_left(at);
            self.ring.pop_front();
        }
    }
}

/// Chunks by place. "Insert takes the most recently vacated place, else the
/// next new one."
#[derive(Default)]
struct Slab {
    places: Vec<Option<Chunk>>,
    vacated: Vec<usize>,
}

impl Slab {
    fn insert(&mut self, chunk: Chunk) -> u64 {
        let place = self.vacated.pop().unwrap_or(self.places.len());
        if place == self.places.len() {
            self.places.push(None);
        }
        self.places[place] = Some(chunk);
        place as u64
    }

    /// The chunk leaves if its size is the given one: then the pair of that
    /// size is the chunk's own top pair.
    fn remove_if_size(&mut self, place: u64, size: u64) -> Option<Chunk> {
        let place = place as usize;
        let chunk = self.places[place].take_if(|chunk| chunk.size == size)?;
        self.vacated.push(place);
        Some(chunk)
    }

    fn held(&self) -> impl Iterator<Item = &Chunk> {
        self.places.iter().flatten()
    }
}

pub struct Buddy {
    atom_mask: u64,
    minimal: u64,
    pair_limit: usize,
    levels: Vec<Level>,
    chunks: Slab,
    fault: Fault,
}

impl Buddy {
    /// "Initial levels: zeros of the initial size less those of minimal, not
    /// below 0."
    pub fn new(
        atom_mask: u64,
        minimal: u64,
        initial: u64,
        pair_limit: usize,
        fault: Fault,
    ) -> Buddy {
        let zeros = initial
            .trailing_zeros()
            .saturating_sub(minimal.trailing_zeros());
        let levels = (0..zeros).map(|_| Level::default()).collect();
        Buddy {
            atom_mask,
            minimal,
            pair_limit,
            levels,
            chunks: Slab::default(),
            fault,
        }
    }

    /// The level of an ask; `None` is refusal 6. In 128 bits no rounding
    /// overflows, and one that would in 64 bits has a level far above 31.
    fn level_of(&self, ask: Ask) -> Option<usize> {
        if ask.size == 0 {
            return None;
        }
        let all = u128::from(ask.mask | self.atom_mask | (self.minimal - 1));
        let rounded = ((u128::from(ask.size) + all) & !all).next_power_of_two();
        let level = rounded.trailing_zeros() - self.minimal.trailing_zeros();
        (level < LEVEL_LIMIT).then_some(level as usize)
    }

    /// The level of an ask that `search` has let pass.
    fn tested_level_of(&self, ask: Ask) -> usize {
        self.level_of(ask).expect("the ask has passed test 6")
    }

    fn node_size(&self, level: usize) -> u64 {
        self.minimal << level
    }

    /// "Search upward; the first level with a ready side ends the search."
    fn first_ready(&self, level: usize) -> Option<usize> {
        (level..self.levels.len()).find(|&above| !self.levels[above].ring.is_empty())
    }

    /// Split the node of level `from` at `offset` down to `level`, "always
    /// keeping the left": each new pair has its right side ready.
    fn split(&mut self, chunk: u64, offset: u64, from: usize, level: usize) -> Place {
        for below in (level..from).rev() {
            let right = offset + self.node_size(below);
            self.levels[below].join(Pair { chunk, offset }, right);
        }
        Place {
            chunk,
            offset,
            size: self.node_size(level),
        }
    }
}

impl Engine for Buddy {
    /// Each level from the asked one to below the found node needs a new pair;
    /// a new chunk stands one level above the top. Levels not yet grown have
    /// room, as a level holds at least one pair.
    fn search(&self, ask: Ask) -> Option<Need> {
        let level = self.level_of(ask)?;
        let levels = self.levels.len().max(level + 1);
        let found = self.first_ready(level);
        let split_from = found.unwrap_or(levels).min(self.levels.len());
        let full = |level: &Level| level.pair_count() == self.pair_limit;
        let pair_missing = (level..split_from).any(|below| full(&self.levels[below]));
        let order = Order {
            size: self.minimal << levels,
            raised: levels as u64,
        };
        Some(Need {
            order: found.is_none().then_some(order),
            pair_missing,
        })
    }

    /// "Acquire takes the head pair's ready side; the head becomes its next."
    fn take(&mut self, ask: Ask) -> Place {
        let level = self.tested_level_of(ask);
        let found = self
            .first_ready(level)
            .expect("the search has found a ready side");
        let head = self.levels[found]
            .ring
            .pop_front()
            .expect("the found ring has a head");
        self.levels[found].exhausted.push(head.pair);
        self.split(head.pair.chunk, head.ready, found, level)
    }

    /// The order has grown the levels, so the chunk is a node above the top.
    fn take_from_new(&mut self, chunk: Chunk, ask: Ask) -> Place {
        let level = self.tested_level_of(ask);
        let place = self.chunks.insert(chunk);
        self.split(place, 0, self.levels.len(), level)
    }

    /// "When its twin is ready, the pair goes [..] and the return goes on one
    /// level up; above the top the chunk is released", the top being the
    /// chunk's own: the store may have had fewer levels when it came.
    fn give_back(&mut self, place: Place) -> Vec<Chunk> {
        let Place {
            chunk,
            mut offset,
            mut size,
        } = place;
        loop {
            let pair = Pair {
                chunk,
                offset: offset & !(2 * size - 1),
            };
            let level = (size / self.minimal).trailing_zeros() as usize;
            let pairs = &mut self.levels[level];
            if let Some(at) = pairs
                .exhausted
                .iter()
                .position(|exhausted| *exhausted == pair)
            {
                pairs.exhausted.swap_remove(at);
                pairs.join(pair, offset);
                return Vec::new();
            }
            pairs.unlink(pair, self.fault);
            (offset, size) = (pair.offset, 2 * size);
            if let Some(released) = self.chunks.remove_if_size(chunk, size) {
                return vec![released];
            }
        }
    }

    /// "a buddy store holds no wholly free chunk": there is none to release.
    fn clean_up(&mut self) -> Vec<Chunk> {
        Vec::new()
    }

    fn chunk_count(&self) -> usize {
        self.chunks.held().count()
    }

    fn holds(&self, memory: u64) -> bool {
        self.chunks.held().any(|chunk| chunk.memory == memory)
    }

    /// Chunk numbers are places of a table and come again.
    fn numbers_spent(&self) -> bool {
        false
    }

    fn raised(&self) -> u64 {
        self.levels.len() as u64
    }

    fn set_raised(&mut self, raised: u64) {
        self.levels.resize_with(raised as usize, Level::default);
    }

    fn raised_by_nine(&self) -> bool {
        true
    }

    fn frees_after_map_failed(&self) -> bool {
        false
    }
}
