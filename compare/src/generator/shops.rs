//! Random settings and habits: which store a tape is about, and how its customer behaves.

use crate::{
    generator::{
        asks::{Appetite, Taste},
        customer::{Habits, ReturnOrder},
    },
    random::Random,
    settings::{Kind, Settings, HEAP_LIMIT},
    shelf::STORES,
};

/// A store to be, its customer's habits, and for how many records.
pub struct Shop {
    pub settings: Settings,
    pub habits: Habits,
    pub records: u64,
}

/// Records in a tape, at least.
pub const RECORDS: u64 = 300;

/// A shop of any size; one in twenty has its limits at or near the greatest allowed and a tape
/// long enough to reach them.
pub fn shop(random: &mut Random, free_list: bool) -> Shop {
    let full = random.percent(5);
    let mut habits = habits(random);
    let climbing = matches!(habits.taste.appetite, Appetite::Climbing);
    let settings = settings(random, free_list, full, climbing);
    let mut records = random.within(RECORDS..=RECORDS + 100);
    if full {
        habits.patience = 900;
        habits.mischief = 2;
        habits.failures = 5;
        records = random.within(1_500..=2_500);
    } else if random.percent(2) {
        records = 4_000;
    }
    Shop { settings, habits, records }
}

/// Two to four shops over one account; both engines are among them.
pub fn shelf(random: &mut Random) -> Vec<Shop> {
    let first = random.below(2);
    let mut shops: Vec<Shop> = (0..random.within(2..=STORES))
        .map(|place| shop(random, (place + first) % 2 == 1))
        .collect();
    let Settings { heap, heap_size, objects, .. } = shops[0].settings;
    for (place, shop) in (0..).zip(&mut shops) {
        let store = place;
        shop.settings = Settings { store, heap, heap_size, objects, ..shop.settings };
    }
    shops
}

fn settings(random: &mut Random, free_list: bool, full: bool, climbing: bool) -> Settings {
    let atom_bits = random.pick(&[0, 0, 0, 1, 4, 6, 8, 16]);
    let kind = match free_list {
        true => free_list_kind(random, 1 << atom_bits, climbing),
        false => buddy_kind(random, full),
    };
    let most = u32::MAX.into();
    Settings {
        kind,
        store: random.pick(&[0, 1, 77, u32::MAX]),
        memory_type: random.within(0..=31) as u32,
        properties: random.within(0..=63) as u8,
        heap: random.within(0..=15),
        atom_mask: (1 << atom_bits) - 1,
        loans: limit(random, full, &[1, 2, 3, 5], &[10, 40, 100, 200], &[511, 512]) as usize,
        chunks: limit(random, full, &[1, 2, 3], &[4, 8, 20], &[63, 64]) as usize,
        heap_size: random.pick(&[0, 1, 1 << 20, HEAP_LIMIT]),
        objects: limit(random, full, &[0, 1, 2, 5], &[20, 60, 10_000], &[64, 100, most]) as u32,
    }
}

/// A limit: small in a quarter of the stores, and near the greatest in a full one.
fn limit(random: &mut Random, full: bool, small: &[u64], usual: &[u64], great: &[u64]) -> u64 {
    match random.below(8) {
        _ if full => random.pick(great),
        0 => random.pick(great),
        1 | 2 => random.pick(small),
        _ => random.pick(usual),
    }
}

fn buddy_kind(random: &mut Random, full: bool) -> Kind {
    let minimal_bits = random.pick(&[0, 0, 1, 3, 4, 8, 8, 15, 16]);
    let levels = match random.below(20) {
        0 if !full => random.within(6..=32),
        1 => 0,
        _ => random.within(1..=6),
    };
    let below = !full && random.percent(10);
    let initial_bits = match below {
        true => random.within(0..=minimal_bits),
        false => minimal_bits + levels,
    };
    Kind::Buddy {
        minimal: 1 << minimal_bits,
        initial: 1 << initial_bits,
        pairs: limit(random, full, &[1, 2, 3, 4], &[8, 20, 100], &[255, 256]) as usize,
    }
}

fn free_list_kind(random: &mut Random, unit: u64, climbing: bool) -> Kind {
    let units = match random.below(4) {
        0 => random.within(1..=8),
        1 => 1 << random.below(10),
        _ => random.within(8..=200),
    };
    let start_chunk = unit * units;
    let whole_limit = (1 << 40) / unit * unit;
    let final_chunk = match random.below(10) {
        _ if climbing => whole_limit,
        0..3 => start_chunk,
        3..6 => start_chunk << random.within(1..=4),
        6..8 => start_chunk * random.within(2..=20),
        8 => whole_limit,
        _ => start_chunk + unit * random.within(0..=units),
    };
    Kind::FreeList { start_chunk, final_chunk: final_chunk.min(whole_limit) }
}

fn habits(random: &mut Random) -> Habits {
    Habits {
        taste: Taste {
            appetite: random.pick(&[
                Appetite::Small,
                Appetite::Medium,
                Appetite::Large,
                Appetite::Mixed,
                Appetite::Mixed,
                Appetite::Climbing,
            ]),
            tall: random.percent(20),
        },
        returns: random.pick(&[
            ReturnOrder::Stack,
            ReturnOrder::Queue,
            ReturnOrder::Random,
            ReturnOrder::Random,
        ]),
        failures: random.pick(&[0, 5, 20, 50]),
        mischief: random.pick(&[0, 5, 10, 25]),
        clean_ups: random.pick(&[0, 0, 2, 10]),
        patience: random.pick(&[10, 40, 100, 300]),
    }
}
