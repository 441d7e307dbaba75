//! Sizes and masks to ask for: what a store is there for, and what lies at and around its limits.

use crate::{
    random::Random,
    settings::{Kind, Settings, LEVEL_LIMIT},
};

/// How large a customer's usual asks are, beside the store's chunks.
#[derive(Clone, Copy)]
pub enum Appetite {
    Small,
    Medium,
    Large,
    Mixed,
    /// As large as the latest chunk, and now and then larger than any chunk so far.
    Climbing,
}

/// A customer's taste.
#[derive(Clone, Copy)]
pub struct Taste {
    pub appetite: Appetite,
    /// Asks may reach for the store's greatest size, which raises its chunks for good.
    pub tall: bool,
}

/// A size and a mask, mostly fit to be served; `chunk` is the size of the latest order.
pub fn usual(random: &mut Random, settings: &Settings, mut taste: Taste, chunk: u64) -> (u64, u64) {
    if let Appetite::Mixed = taste.appetite {
        taste.appetite = random.pick(&[Appetite::Small, Appetite::Medium, Appetite::Large]);
    }
    let size = match (taste.appetite, settings.kind) {
        (Appetite::Climbing, _) => climbing_size(random, chunk).min(greatest(settings)),
        (_, Kind::Buddy { minimal, initial, .. }) => {
            buddy_size(random, minimal, levels(minimal, initial), taste)
        }
        (_, Kind::FreeList { final_chunk, .. }) => {
            free_list_size(random, settings.atom_mask + 1, final_chunk, taste, chunk)
        }
    };
    (size.max(1), usual_mask(random, taste, chunk))
}

/// A size or a mask that the tests 5 and 6 are there for, or just not.
pub fn odd(random: &mut Random, settings: &Settings, taste: Taste) -> (u64, u64) {
    let masks = [0, 0, 0, 2, 1_022, 1 << 40, (1 << 41) - 1, u64::MAX, u64::MAX - 1];
    let most = greatest(settings);
    let far = if taste.tall { most } else { most + 1 };
    let sizes = [0, 0, most + 1, far, 2 * most, 1 << 63, (1 << 63) + 1, u64::MAX];
    (random.pick(&sizes), random.pick(&masks))
}

/// The greatest size that test 6 lets pass with mask 0.
fn greatest(settings: &Settings) -> u64 {
    match settings.kind {
        Kind::Buddy { minimal, .. } => minimal << (LEVEL_LIMIT - 1),
        Kind::FreeList { final_chunk, .. } => final_chunk,
    }
}

/// The levels of a buddy store at set-up.
fn levels(minimal: u64, initial: u64) -> u64 {
    let zeros = [minimal, initial].map(u64::trailing_zeros);
    zeros[1].saturating_sub(zeros[0]).into()
}

fn climbing_size(random: &mut Random, chunk: u64) -> u64 {
    match random.below(10) {
        0 => random.within(chunk + 1..=2 * chunk),
        1 | 2 => random.pick(&[chunk, chunk / 2, chunk / 2 + 1]),
        _ => random.within(1..=chunk),
    }
}

fn buddy_size(random: &mut Random, minimal: u64, levels: u64, taste: Taste) -> u64 {
    let highest = LEVEL_LIMIT as u64 - 1;
    let top = match taste.tall && random.percent(10) {
        true => highest,
        false => highest.min(levels + 1),
    };
    let level = match taste.appetite {
        Appetite::Small => random.within(0..=levels.min(2)),
        Appetite::Medium => random.within(0..=levels.min(top)),
        _ => random.within(top.saturating_sub(3)..=top),
    };
    let node = minimal << level;
    match random.below(8) {
        0 => node + 1,
        1 => node - 1,
        2 => random.within(1..=node),
        3 => random.within(1..=minimal),
        _ => node,
    }
}

fn free_list_size(
    random: &mut Random,
    unit: u64,
    final_chunk: u64,
    taste: Taste,
    chunk: u64,
) -> u64 {
    if taste.tall && random.percent(10) {
        let anywhere = random.within(1..=final_chunk);
        let near = final_chunk - unit;
        return random.pick(&[final_chunk, final_chunk - 1, final_chunk + 1, near, anywhere]);
    }
    let (most, part) = match taste.appetite {
        Appetite::Small => (chunk / 32, unit),
        Appetite::Medium => (chunk / 4, chunk / 4),
        _ => (chunk, chunk >> random.below(4)),
    };
    match random.below(8) {
        0 => random.within(1..=2 * unit).min(final_chunk),
        1 => random.pick(&[part, part.saturating_sub(1), part + 1, part.saturating_sub(unit)]),
        2 => unit * random.within(1..=4),
        _ => random.within(1..=most.max(1)),
    }
}

fn usual_mask(random: &mut Random, taste: Taste, chunk: u64) -> u64 {
    let reach = u64::from(chunk.ilog2());
    let bits = match random.below(20) {
        0..13 => 0,
        13 if taste.tall => random.within(0..=40),
        13 | 14 => random.within(reach.saturating_sub(2)..=reach),
        _ => random.within(0..=reach / 2),
    };
    (1 << bits.min(40)) - 1
}
