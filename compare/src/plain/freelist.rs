//! The free-list engine: sorted free regions, and blocks cut off their ends.

use super::store::{Ask, Chunk, Engine, Need, Order, Place};
use super::Fault;
use std::collections::BTreeMap;

/// Free bytes of one chunk, from `start` to just before `end`. The derived
/// order is 01's: "sorted by chunk number (from 1), then start".
#[derive(Clone, Copy, PartialEq, Eq, PartialOrd, Ord)]
struct Region {
    chunk: u64,
    start: u64,
    end: u64,
}

impl Region {
    /// "take the highest aligned place that ends within the region". Sizes,
    /// starts and ends are multiples of the atom unit, so aligning to the ask's
    /// mask keeps to the atom unit too.
    fn highest_place(&self, ask: Ask) -> Option<u64> {
        let place = self.end.checked_sub(ask.size)? & !ask.mask;
        (place >= self.start).then_some(place)
    }

    fn touches(&self, next: &Region) -> bool {
        self.chunk == next.chunk && self.end == next.start
    }
}

pub struct FreeList {
    atom_mask: u64,
    final_size: u64,
    chunk_size: u64,
    regions: Vec<Region>,
    /// The chunks by number.
    chunks: BTreeMap<u64, Chunk>,
    /// Chunk numbers given out so far; they count from 1.
    numbers: u64,
    fault: Fault,
}

impl FreeList {
    pub fn new(atom_mask: u64, start: u64, final_size: u64, fault: Fault) -> FreeList {
        FreeList {
            atom_mask,
            final_size,
            chunk_size: start,
            regions: Vec::new(),
            chunks: BTreeMap::new(),
            numbers: 0,
            fault,
        }
    }

    /// "Size is raised to a multiple of the atom unit"; `None` is refusal 6.
    /// As final is such a multiple, the raised size is not above it either.
    fn rounded(&self, ask: Ask) -> Option<Ask> {
        let allowed = (1..=self.final_size).contains(&ask.size);
        allowed.then(|| Ask {
            size: (ask.size + self.atom_mask) & !self.atom_mask,
            ..ask
        })
    }

    /// The rounded form of an ask that `search` has let pass.
    fn tested_rounded(&self, ask: Ask) -> Ask {
        self.rounded(ask).expect("the ask has passed test 6")
    }

    /// "Search from the last region back."
    fn fitting_region(&self, rounded: Ask) -> Option<usize> {
        self.regions
            .iter()
            .rposition(|region| region.highest_place(rounded).is_some())
    }

    /// "If none fits and size > chunk size, chunk size becomes min(chunk size x
    /// next power of two of ceil(size / chunk size), final), before the order."
    /// With size up to chunk size the factor is 1.
    fn grown_chunk_size(&self, size: u64) -> u64 {
        let factor = size.div_ceil(self.chunk_size).next_power_of_two();
        (self.chunk_size * factor).min(self.final_size)
    }

    /// "The block runs from there to the region's end."
    fn cut(&mut self, at: usize, rounded: Ask) -> Place {
        let Region { chunk, start, end } = self.regions[at];
        let offset = self.regions[at]
            .highest_place(rounded)
            .expect("the region fits the ask");
        if offset == start {
            self.regions.remove(at);
        } else {
            self.regions[at].end = offset;
        }
        Place {
            chunk,
            offset,
            size: end - offset,
        }
    }

    /// "Returns join with both neighbours."
    fn join(&mut self, mut freed: Region) {
        let mut at = self.regions.partition_point(|region| *region < freed);
        if self.regions.get(at).is_some_and(|next| freed.touches(next)) {
            freed.end = self.regions.remove(at).end;
        }
        if at > 0 && self.regions[at - 1].touches(&freed) {
            at -= 1;
            freed.start = self.regions.remove(at).start;
        }
        self.regions.insert(at, freed);
    }

    fn is_wholly_free(&self, region: Region) -> bool {
        region.start == 0 && region.end == self.chunks[&region.chunk].size
    }

    /// Release the wholly free chunks, except that of the last region if it is
    /// to be spared. "walking up, each kept region met sends the first of those
    /// marked so far to the back of their list."
    fn release(&mut self, spare_last: bool) -> Vec<Chunk> {
        let regions = std::mem::take(&mut self.regions);
        let mut marked = Vec::new();
        for (at, &region) in regions.iter().enumerate() {
            let spared = spare_last && at + 1 == regions.len();
            if self.is_wholly_free(region) && !spared {
                marked.push(region.chunk);
                continue;
            }
            self.regions.push(region);
            if !marked.is_empty() && self.fault != Fault::ReleasesByNumber {
                marked.rotate_left(1);
            }
        }
        marked
            .iter()
            .filter_map(|number| self.chunks.remove(number))
            .collect()
    }
}

impl Engine for FreeList {
    fn search(&self, ask: Ask) -> Option<Need> {
        let rounded = self.rounded(ask)?;
        let grown = self.grown_chunk_size(rounded.size);
        let order = Order {
            size: grown,
            raised: grown,
        };
        let fits = self.fitting_region(rounded).is_some();
        Some(Need {
            order: (!fits).then_some(order),
            pair_missing: false,
        })
    }

    fn take(&mut self, ask: Ask) -> Place {
        let rounded = self.tested_rounded(ask);
        let at = self
            .fitting_region(rounded)
            .expect("the search has found a region");
        self.cut(at, rounded)
    }

    /// The new chunk's number is the highest, so its region is the last.
    /// "After a good delivery it doubles, up to final."
    fn take_from_new(&mut self, chunk: Chunk, ask: Ask) -> Place {
        let rounded = self.tested_rounded(ask);
        self.numbers += 1;
        self.chunks.insert(self.numbers, chunk);
        self.regions.push(Region {
            chunk: self.numbers,
            start: 0,
            end: chunk.size,
        });
        self.chunk_size = (2 * self.chunk_size).min(self.final_size);
        self.cut(self.regions.len() - 1, rounded)
    }

    /// "Then every wholly free chunk except the one of the last region is
    /// released".
    fn give_back(&mut self, place: Place) -> Vec<Chunk> {
        let Place {
            chunk,
            offset,
            size,
        } = place;
        self.join(Region {
            chunk,
            start: offset,
            end: offset + size,
        });
        self.release(true)
    }

    /// "clean-up spares none".
    fn clean_up(&mut self) -> Vec<Chunk> {
        self.release(false)
    }

    fn chunk_count(&self) -> usize {
        self.chunks.len()
    }

    fn holds(&self, memory: u64) -> bool {
        self.chunks.values().any(|chunk| chunk.memory == memory)
    }

    fn numbers_spent(&self) -> bool {
        self.numbers == u64::MAX
    }

    fn raised(&self) -> u64 {
        self.chunk_size
    }

    fn set_raised(&mut self, raised: u64) {
        self.chunk_size = raised;
    }

    fn raised_by_nine(&self) -> bool {
        false
    }

    fn frees_after_map_failed(&self) -> bool {
        true
    }
}
