//! Asks that are refused, each number by each of its causes, and the order of the tests.

use crate::{
    recorded::{
        day::{buddy, free_list, Day},
        Recorded,
    },
    settings::{Kind, Settings},
    tape::Outcome::{DeviceRefusal, NotWanted},
};

pub fn days() -> Vec<Recorded> {
    vec![
        order_open_buddy(),
        order_open_list(),
        masks("refused-5-buddy", buddy(1, 8)),
        masks("refused-5-list", free_list(8, 8)),
        sizes_buddy(),
        sizes_list(),
        loans_full("refused-8-loans-buddy", buddy(1, 8), "block 1 0 0 1"),
        loans_full("refused-8-loans-list", free_list(8, 8), "block 1 1 7 1"),
        chunks_full("refused-8-chunks-buddy", buddy(4, 8), "block 1 0 0 4", [1, 0, 0, 4]),
        chunks_full("refused-8-chunks-list", free_list(8, 8), "block 1 1 4 4", [1, 1, 4, 4]),
        pairs_full(),
        levels_grow_at_nine(),
        chunk_size_stays_at_nine(),
    ]
}

fn order_open_buddy() -> Recorded {
    let mut day = Day::open("refused-2-buddy", buddy(1, 8));
    day.deliver(NotWanted, 70, "refused 2");
    day.ask(1, 0, "order 8 3 0");
    day.deliver(NotWanted, 70, "block 1 0 0 1");
    day.deliver(NotWanted, 71, "refused 2");
    day.ask(16, 0, "order 32 3 0");
    day.ask(1, 0, "refused 2");
    day.ask(0, 2, "refused 2");
    day.give_back([1, 0, 0, 1], "refused 2");
    day.give_back([9, 9, 9, 9], "refused 2");
    day.deliver(DeviceRefusal, 0, "refused 11");
    day.deliver(DeviceRefusal, 0, "refused 2");
    day.give_back([1, 0, 0, 1], "released 1 70");
    day.close()
}

fn order_open_list() -> Recorded {
    let mut day = Day::open("refused-2-list", free_list(8, 8));
    day.deliver(NotWanted, 70, "refused 2");
    day.ask(1, 0, "order 8 3 0");
    day.clean_up("refused 2");
    day.deliver(NotWanted, 70, "block 1 1 7 1");
    day.deliver(NotWanted, 71, "refused 2");
    day.ask(8, 0, "order 8 3 0");
    day.ask(1, 0, "refused 2");
    day.ask(0, 2, "refused 2");
    day.give_back([1, 1, 7, 1], "refused 2");
    day.give_back([9, 9, 9, 9], "refused 2");
    day.clean_up("refused 2");
    day.deliver(DeviceRefusal, 0, "refused 11");
    day.clean_up("released 0");
    day.give_back([1, 1, 7, 1], "released 0");
    day.close()
}

fn masks(name: &'static str, settings: Settings) -> Recorded {
    let mut day = Day::open(name, settings);
    for mask in [2, 5, 1_022, 1 << 40, (1 << 41) - 1, u64::MAX - 1, u64::MAX] {
        day.ask(1, mask, "refused 5");
        day.ask(0, mask, "refused 5");
        day.ask(u64::MAX, mask, "refused 5");
    }
    day.ask(0, (1 << 40) - 1, "refused 6");
    day.close()
}

fn sizes_buddy() -> Recorded {
    let mut day = Day::open("refused-6-buddy", buddy(256, 256));
    for size in [0, (1 << 39) + 1, 1 << 63, (1 << 63) + 1, u64::MAX - 255, u64::MAX] {
        day.ask(size, 0, "refused 6");
    }
    day.ask((1 << 39) - 1, (1 << 40) - 1, "refused 6");
    day.ask(1, (1 << 39) - 1, "order 1099511627776 3 0");
    day.close()
}

fn sizes_list() -> Recorded {
    let settings = Settings { atom_mask: 7, ..free_list(8, 24) };
    let mut day = Day::open("refused-6-list", settings);
    for size in [0, 25, 1 << 40, u64::MAX - 6, u64::MAX] {
        day.ask(size, 0, "refused 6");
    }
    day.ask(23, 0, "order 24 3 0");
    day.close()
}

/// The loan limit is met while there is room, and while a chunk and an object would be needed.
fn loans_full(name: &'static str, settings: Settings, block: &str) -> Recorded {
    let mut day = Day::open(name, Settings { loans: 1, objects: 1, ..settings });
    day.ask(1, 0, "order 8 3 0");
    day.deliver(NotWanted, 70, block);
    day.ask(1, 0, "refused 8");
    day.ask(8, 0, "refused 8");
    day.ask(0, 0, "refused 6");
    day.ask(1, 2, "refused 5");
    day.close()
}

/// The trap "Testing FULL after the order"; it is also tested before the objects.
fn chunks_full(name: &'static str, settings: Settings, block: &str, slip: [u64; 4]) -> Recorded {
    let mut day = Day::open(name, Settings { chunks: 1, objects: 1, ..settings });
    day.ask(4, 0, "order 8 3 0");
    day.deliver(NotWanted, 70, block);
    day.ask(8, 0, "refused 8");
    day.deliver(NotWanted, 71, "refused 2");
    day.ask(u64::MAX, 0, "refused 6");
    let chunk = slip[1];
    let other = 4 - slip[2];
    day.ask(4, 0, &format!("block 2 {chunk} {other} 4"));
    day.ask(1, 0, "refused 8");
    day.give_back(slip, "released 0");
    day.ask(4, 0, &format!("block 3 {chunk} {} 4", slip[2]));
    day.close()
}

/// Pairs are needed from the asked level to just below the found one, and through the top level
/// when a chunk is needed; a level that isn't there yet has its pairs free.
fn pairs_full() -> Recorded {
    let kind = Kind::Buddy { minimal: 1, initial: 4, pairs: 1 };
    let mut day = Day::open("refused-8-pairs-buddy", Settings { kind, ..buddy(1, 4) });
    day.ask(1, 0, "order 4 3 0");
    day.deliver(NotWanted, 70, "block 1 0 0 1");
    day.ask(1, 0, "block 2 0 1 1");
    day.ask(1, 0, "refused 8");
    day.ask(2, 0, "block 3 0 2 2");
    day.ask(2, 0, "refused 8");
    day.ask(1, 0, "refused 8");
    day.ask(4, 0, "order 8 3 0");
    day.deliver(NotWanted, 71, "block 4 1 0 4");
    day.ask(2, 0, "refused 8");
    day.give_back([2, 0, 1, 1], "released 0");
    day.give_back([1, 0, 0, 1], "released 0");
    day.ask(1, 0, "block 5 0 0 1");
    day.close()
}

/// 9 leaves a buddy store's levels grown, and 8 doesn't.
fn levels_grow_at_nine() -> Recorded {
    let settings = Settings { objects: 1, loans: 2, ..buddy(256, 512) };
    let mut day = Day::open("refused-9-buddy", settings);
    day.ask(1, 0, "order 512 3 0");
    day.deliver(NotWanted, 70, "block 1 0 0 256");
    day.ask(512, 0, "refused 9");
    day.ask(1, 0, "block 2 0 256 256");
    day.ask(4_096, 0, "refused 8");
    day.give_back([2, 0, 256, 256], "released 0");
    day.give_back([1, 0, 0, 256], "released 1 70");
    day.ask(1, 0, "order 1024 3 0");
    day.deliver(NotWanted, 70, "block 3 0 0 256");
    day.close()
}

/// 9 doesn't raise a free list's chunk size.
fn chunk_size_stays_at_nine() -> Recorded {
    let settings = Settings { objects: 1, ..free_list(4, 1_024) };
    let mut day = Day::open("refused-9-list", settings);
    day.ask(4, 0, "order 4 3 0");
    day.deliver(NotWanted, 70, "block 1 1 0 4");
    day.ask(600, 0, "refused 9");
    day.give_back([1, 1, 0, 4], "released 0");
    day.clean_up("released 1 70");
    day.ask(1, 0, "order 8 3 0");
    day.close()
}
